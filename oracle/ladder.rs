//! The ladder, from the words of its request: each place is the quote by itself with the factor 1, answered by the source. The request's words count
//! the strike roots, and not the source, which takes them where it needs them.

use crate::inputs::UNDISCOUNTED;
use crate::ladder_inputs::Ladder;
use crate::quote::{Outcome, quote};
use std::fmt::Write;

/// The most strikes of a ladder.
pub const MOST: usize = 500;

#[derive(Clone, Copy, Debug, PartialEq)]
pub enum Reply {
    Solved { roots: u64 },
    Refusal { number: u32, count: u64 },
}

/// The four slices that are lent.
#[derive(Clone)]
pub struct Lent {
    pub totals: Vec<f64>,
    pub volatilities: Vec<f64>,
    pub counts: Vec<u64>,
    pub refusals: Vec<u32>,
}

/// Whether a place's strike root is taken: none of tests 1 to 6 refuses it, the time is above 0 and the price below the bound.
pub fn takes_root(side: u32, price: f64, forward: f64, strike: f64, time: f64) -> bool {
    root_taken(quote(side, price, forward, strike, time, UNDISCOUNTED), side, price, forward, strike, time)
}

fn root_taken(outcome: Outcome, side: u32, price: f64, forward: f64, strike: f64, time: f64) -> bool {
    let passes = !matches!(outcome, Outcome::Refusal { number: 1..=6, .. });
    let bound = if side == 0 { forward } else { strike };
    passes && time > 0.0 && price < bound
}

/// The ladder entry.
#[allow(clippy::too_many_arguments)]
pub fn ladder(
    side: u32,
    forward: f64,
    time: f64,
    strikes: &[f64],
    prices: &[f64],
    totals: &mut [f64],
    volatilities: &mut [f64],
    counts: &mut [u64],
    refusals: &mut [u32],
) -> Reply {
    let places = strikes.len();
    let others = [prices.len(), totals.len(), volatilities.len(), counts.len(), refusals.len()];
    if others.iter().any(|&length| length != places) {
        return Reply::Refusal { number: 12, count: 0 };
    }
    if places > MOST {
        return Reply::Refusal { number: 13, count: 0 };
    }
    let mut roots = 0;
    for i in 0..places {
        let outcome = quote(side, prices[i], forward, strikes[i], time, UNDISCOUNTED);
        (totals[i], volatilities[i], counts[i], refusals[i]) = match outcome {
            Outcome::Answer { total, volatility, count } => (total, volatility, count, 0),
            Outcome::Refusal { number, count } => (0.0, 0.0, count, number),
        };
        roots += root_taken(outcome, side, prices[i], forward, strikes[i], time) as u64;
    }
    Reply::Solved { roots }
}

/// What the entry gives for a ladder whose lent slices hold what is in `lent`.
pub fn solved(l: &Ladder, lent: &mut Lent) -> Reply {
    let Lent { totals, volatilities, counts, refusals } = lent;
    ladder(l.side, l.forward, l.time, &l.strikes, &l.prices, totals, volatilities, counts, refusals)
}

impl Lent {
    /// As the program `ladders` fills them before the call.
    pub fn filled(lengths: [usize; 4]) -> Lent {
        Lent {
            totals: vec![-1.0; lengths[0]],
            volatilities: vec![-2.0; lengths[1]],
            counts: vec![u64::MAX; lengths[2]],
            refusals: vec![u32::MAX; lengths[3]],
        }
    }

    /// The longest of the four lengths.
    pub fn longest(&self) -> usize {
        [self.totals.len(), self.volatilities.len(), self.counts.len(), self.refusals.len()].into_iter().max().unwrap()
    }

    /// The line of a place.
    pub fn line(&self, i: usize) -> String {
        let figure = |x: Option<&f64>| match x {
            None => "-".to_string(),
            Some(x) if x.is_nan() => "nan".to_string(),
            Some(x) => format!("{:016x}", x.to_bits()),
        };
        let (total, volatility) = (figure(self.totals.get(i)), figure(self.volatilities.get(i)));
        let count = self.counts.get(i).map_or("-".to_string(), u64::to_string);
        let refusal = self.refusals.get(i).map_or("-".to_string(), u32::to_string);
        format!("{total} {volatility} {count} {refusal}")
    }
}

/// The lines of `ladders` for one ladder.
pub fn text(l: &Ladder) -> String {
    let mut lent = Lent::filled(l.lent);
    let mut out = match solved(l, &mut lent) {
        Reply::Solved { roots } => format!("L {roots}\n"),
        Reply::Refusal { number, count } => format!("R {number} {count}\n"),
    };
    (0..lent.longest()).for_each(|i| writeln!(out, "{}", lent.line(i)).unwrap());
    out
}
