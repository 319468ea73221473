//! The price of a volatility, from the words of the request: the source's log-moneyness and normalised price, the rest in order.

use crate::DefaultSpecialFn;
use crate::lets_be_rational::bs_option_price::{black_input_unchecked, negative_abs_log_moneyness, normalised_black};
use crate::inputs::UNDISCOUNTED;
use crate::quote::first_refusal;

#[derive(Clone, Copy, Debug)]
pub enum Outcome {
    Price(f64),
    Refusal { number: u32, count: u64 },
}

impl Outcome {
    /// The line of `prices` without its number.
    pub fn line(self) -> String {
        match self {
            Outcome::Price(price) if price.is_nan() => "P 7ff8000000000000".to_string(),
            Outcome::Price(price) => format!("P {:016x}", price.to_bits()),
            Outcome::Refusal { number, count } => format!("R {number} {count}"),
        }
    }
}

/// What the price has over the intrinsic value; 0 at s = 0, where `normalised_black` is 0.
pub fn time_value(volatility: f64, forward: f64, strike: f64, time: f64) -> f64 {
    let x = negative_abs_log_moneyness(forward, strike);
    let s = volatility * time.sqrt();
    forward.sqrt() * strike.sqrt() * normalised_black::<DefaultSpecialFn>(x / 2.0, x / s, s / 2.0)
}

/// The price entry. A volatility of minus zero is not below 0.
pub fn price(side: u32, volatility: f64, forward: f64, strike: f64, time: f64) -> Outcome {
    if let Some(number) = first_refusal(side, volatility, forward, strike, time, UNDISCOUNTED) {
        return Outcome::Refusal { number, count: 0 };
    }
    if volatility < 0.0 {
        return Outcome::Refusal { number: 11, count: 0 };
    }
    let intrinsic = if side == 0 { forward - strike } else { strike - forward };
    if volatility * time.sqrt() == 0.0 {
        return Outcome::Price(if intrinsic > 0.0 { intrinsic } else { 0.0 });
    }
    let time_value = time_value(volatility, forward, strike, time);
    Outcome::Price(if intrinsic > 0.0 { time_value + intrinsic } else { time_value })
}

/// The source's own price, which no entry calls. It has another formula where forward and strike are equal, and the forward or the strike
/// itself where volatility times √time is infinite.
pub fn of_source(side: u32, volatility: f64, forward: f64, strike: f64, time: f64) -> f64 {
    if side == 0 {
        black_input_unchecked::<DefaultSpecialFn, true>(forward, strike, volatility, time)
    } else {
        black_input_unchecked::<DefaultSpecialFn, false>(forward, strike, volatility, time)
    }
}
