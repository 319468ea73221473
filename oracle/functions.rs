//! The functions of `vectors` by number, each on f64 arguments of any bits.

use crate::explicit_black::{inverse_gaussian_cdf, inverse_gaussian_survival};
use crate::lets_be_rational::bs_option_price::{negative_abs_log_moneyness, normalised_black};
use crate::lets_be_rational::special_function::normal_distribution::norm_pdf;
use crate::quote::normalised;
use crate::standin;
use crate::{DefaultSpecialFn, SpecialFn};

pub const NAMES: [&str; 22] = [
    "",
    "sqrt",
    "mul_add",
    "exp",
    "ln",
    "ln_1p",
    "trunc",
    "signum",
    "max",
    "min",
    "erf_cody",
    "erfc_cody",
    "erfcx_cody",
    "erfinv",
    "norm_pdf",
    "norm_cdf",
    "inverse_norm_cdf",
    "normalised_black",
    "negative_abs_log_moneyness",
    "normalised entry",
    "inverse_gaussian_cdf",
    "inverse_gaussian_survival",
];

/// The value of a function other than 19.
#[inline]
pub fn value(function: u32, a: f64, b: f64, c: f64) -> Option<f64> {
    type S = DefaultSpecialFn;
    Some(match function {
        1 => a.sqrt(),
        2 => a.mul_add(b, c),
        3 => standin::exp(a),
        4 => standin::ln(a),
        5 => standin::ln_1p(a),
        6 => a.trunc(),
        7 => a.signum(),
        8 => standin::max(a, b),
        9 => standin::min(a, b),
        10 => S::erf(a),
        11 => S::erfc(a),
        12 => S::erfcx(a),
        13 => S::erfinv(a),
        14 => norm_pdf(a),
        15 => S::norm_cdf(a),
        16 => S::inverse_norm_cdf(a),
        17 => normalised_black::<S>(a, b, c),
        18 => negative_abs_log_moneyness(a, b),
        20 => inverse_gaussian_cdf::<S>(a, b),
        21 => inverse_gaussian_survival::<S>(a, b),
        _ => return None,
    })
}

/// The line that `vectors` prints, or none for a number that ends the run.
pub fn line(function: u32, a: f64, b: f64, c: f64) -> Option<String> {
    if function == 19 {
        return Some(normalised(a, b).line());
    }
    value(function, a, b, c).map(|v| if v.is_nan() { "nan".to_string() } else { format!("{:016x}", v.to_bits()) })
}
