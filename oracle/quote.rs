//! The entries of docs/REQUIREMENTS.md around the source's own two: tests 1 to 4 and 15 and the division by the factor before the call, a `None`
//! as one of 5 to 9, departure two after it.

use crate::DefaultSpecialFn;
use crate::evaluations::counted;
use crate::explicit_black::{implied_black_volatility_input, implied_black_volatility_normalised};
use crate::lets_be_rational::bs_option_price::negative_abs_log_moneyness;
use crate::standin::exp;

#[derive(Clone, Copy, Debug)]
pub enum Outcome {
    Answer { total: f64, volatility: f64, count: u64 },
    Refusal { number: u32, count: u64 },
}

impl Outcome {
    /// A sheet's line without its number.
    pub fn line(self) -> String {
        match self {
            Outcome::Answer { total, volatility, count } => {
                format!("V {:016x} {:016x} {count}", total.to_bits(), volatility.to_bits())
            }
            Outcome::Refusal { number, count } => format!("R {number} {count}"),
        }
    }
}

/// Tests 1 to 4 and 15, which the source does not make. The price entry hands its volatility in the price's place, and the factor 1.
pub fn first_refusal(side: u32, price: f64, forward: f64, strike: f64, time: f64, factor: f64) -> Option<u32> {
    if side > 1 {
        return Some(1);
    }
    if [price, forward, strike, time, factor].iter().any(|figure| !figure.is_finite()) {
        return Some(2);
    }
    if !(forward > 0.0 && strike > 0.0) {
        return Some(3);
    }
    if time < 0.0 {
        return Some(4);
    }
    (!(factor > 0.0)).then_some(15)
}

/// Whether tests 1 to 4 and 15 pass: the domain on which the requirements have the source's answer to the divided price.
pub fn on_domain(side: u32, price: f64, forward: f64, strike: f64, time: f64, factor: f64) -> bool {
    first_refusal(side, price, forward, strike, time, factor).is_none()
}

/// The source's quote entry.
pub fn input(side: u32, price: f64, forward: f64, strike: f64, time: f64) -> Option<f64> {
    if side == 0 {
        implied_black_volatility_input::<DefaultSpecialFn, true>(price, forward, strike, time)
    } else {
        implied_black_volatility_input::<DefaultSpecialFn, false>(price, forward, strike, time)
    }
}

/// The table's number for a `None` of the normalised entry.
fn normalised_number(log_moneyness: f64, price: f64) -> u32 {
    if price < 0.0 {
        7
    } else if price > exp(-0.5 * log_moneyness.abs()) {
        8
    } else {
        9
    }
}

/// The table's number for a `None` of the quote entry, which got this price. It is infinite where the quotient overflows.
fn number(side: u32, price: f64, forward: f64, strike: f64, time: f64) -> u32 {
    let (bound, intrinsic) = if side == 0 { (forward, forward - strike) } else { (strike, strike - forward) };
    if time == 0.0 {
        return 5;
    }
    if price.is_infinite() {
        return if price > 0.0 { 6 } else { 7 };
    }
    if price > bound {
        return 6;
    }
    let time_value = if intrinsic > 0.0 { price - intrinsic } else { price };
    normalised_number(negative_abs_log_moneyness(forward, strike), time_value / (forward.sqrt() * strike.sqrt()))
}

/// Departure two, told from what came out. A path with an evaluation ends in 2 / √root, which is finite and above 0 exactly where the
/// root is; one without ends in 0, in infinity or in the value at the money.
fn departs(total: f64, count: u64) -> bool {
    if count > 0 { !(total.is_finite() && total > 0.0) } else { total.is_nan() || total < 0.0 }
}

fn same(x: f64, y: f64) -> bool {
    x.to_bits() == y.to_bits() || (x.is_nan() && y.is_nan())
}

/// The outcome from the source's volatility and total; `number` is asked for where it gave none.
fn outcome(volatility: Option<f64>, total: Option<f64>, count: u64, number: impl FnOnce() -> u32) -> Outcome {
    let (Some(volatility), Some(total)) = (volatility, total) else {
        let number = number();
        assert!(volatility.is_none() && total.is_none(), "a volatility without a total, or a total without one");
        assert!(count == 0 || number == 9, "refusal {number} after {count} evaluations");
        return Outcome::Refusal { number, count };
    };
    if departs(total, count) {
        return Outcome::Refusal { number: 9, count };
    }
    Outcome::Answer { total, volatility, count }
}

/// The normalised entry.
pub fn normalised(log_moneyness: f64, price: f64) -> Outcome {
    if !log_moneyness.is_finite() || !price.is_finite() {
        return Outcome::Refusal { number: 2, count: 0 };
    }
    let (total, count) = counted(|| implied_black_volatility_normalised::<DefaultSpecialFn>(log_moneyness, price));
    outcome(total, total, count, || normalised_number(log_moneyness, price))
}

/// The quote entry: tests 1 to 4 and 15, and the source fed the divided price.
pub fn quote(side: u32, price: f64, forward: f64, strike: f64, time: f64, factor: f64) -> Outcome {
    match first_refusal(side, price, forward, strike, time, factor) {
        Some(number) => Outcome::Refusal { number, count: 0 },
        None => solved(side, price / factor, forward, strike, time),
    }
}

/// What follows the division. The total is the source's value at time 1: a division by √1 changes nothing, and what comes before it turns only
/// on whether the time is zero. At time zero it is 0.
fn solved(side: u32, price: f64, forward: f64, strike: f64, time: f64) -> Outcome {
    let at = |time: f64| counted(|| input(side, price, forward, strike, time));
    let (volatility, count) = at(time);
    let (total, at_one) = if time == 0.0 { (volatility.map(|_| 0.0), count) } else { at(1.0) };
    assert_eq!(count, at_one, "evaluations at the quote's time and at time 1");
    assert!(price.is_finite() || volatility.is_none(), "the source answers a quotient that overflows");
    let result = outcome(volatility, total, count, || number(side, price, forward, strike, time));
    if let Outcome::Answer { total, volatility, .. } = result {
        let right = if time == 0.0 { 0.0 } else { total / time.sqrt() };
        assert!(same(volatility, right), "the source's volatility {volatility:e} is not {total:e} / √{time:e}");
    }
    result
}
