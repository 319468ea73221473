//! The source with the platform's exp and ln, for timing: the functions of `vectors` by number.

pub mod explicit_black;
pub mod fused_multiply_add;
pub mod lets_be_rational;

pub use lets_be_rational::special_function::{DefaultSpecialFn, SpecialFn};

use explicit_black::{inverse_gaussian_cdf, inverse_gaussian_survival};
use lets_be_rational::bs_option_price::{negative_abs_log_moneyness, normalised_black};
use lets_be_rational::special_function::normal_distribution::norm_pdf;

#[inline]
pub fn value(function: u32, a: f64, b: f64, c: f64) -> Option<f64> {
    type S = DefaultSpecialFn;
    Some(match function {
        1 => a.sqrt(),
        2 => a.mul_add(b, c),
        3 => a.exp(),
        4 => a.ln(),
        5 => a.ln_1p(),
        6 => a.trunc(),
        7 => a.signum(),
        8 => a.max(b),
        9 => a.min(b),
        10 => S::erf(a),
        11 => S::erfc(a),
        12 => S::erfcx(a),
        13 => S::erfinv(a),
        14 => norm_pdf(a),
        15 => S::norm_cdf(a),
        16 => S::inverse_norm_cdf(a),
        17 => normalised_black::<S>(a, b, c),
        18 => negative_abs_log_moneyness(a, b),
        20 => inverse_gaussian_cdf::<S>(a, b),
        21 => inverse_gaussian_survival::<S>(a, b),
        _ => return None,
    })
}
