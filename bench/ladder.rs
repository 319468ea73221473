//! Ladders, and three ways to solve one: by a call for the ladder, by a call for each of its quotes, by the Rust in a loop.

use crate::{ours, timing};
use oracle::inputs::{Quote, Rng, quote};
use oracle::price::{self, Outcome::Price};
use oracle::quote::Outcome;
use oracle::standin::exp;
use std::cell::RefCell;
use std::hint::black_box;

pub const PLACES: usize = 500;
pub const LADDERS: usize = 8;

pub struct Ladder {
    pub side: u32,
    pub forward: f64,
    pub time: f64,
    pub strikes: Vec<f64>,
    pub prices: Vec<f64>,
}

/// The four lent slices.
pub struct Lent {
    pub totals: Vec<f64>,
    pub volatilities: Vec<f64>,
    pub counts: Vec<u64>,
    pub refusals: Vec<u32>,
}

impl Ladder {
    /// Side, forward and time of the first quote, strikes and prices of all.
    pub fn of(quotes: &[Quote]) -> Ladder {
        let Quote { side, forward, time, .. } = quotes[0];
        let (strikes, prices) = quotes.iter().map(|q| (q.strike, q.price)).unzip();
        Ladder { side, forward, time, strikes, prices }
    }

    fn quote(&self, i: usize) -> Quote {
        quote(self.side, self.prices[i], self.forward, self.strikes[i], self.time)
    }

    fn quotes(&self) -> impl Iterator<Item = Quote> {
        (0..self.strikes.len()).map(|i| self.quote(i))
    }
}

impl Lent {
    pub fn new(places: usize) -> Lent {
        Lent {
            totals: vec![0.0; places],
            volatilities: vec![0.0; places],
            counts: vec![0; places],
            refusals: vec![0; places],
        }
    }

    /// Bit for bit.
    fn place(&self, i: usize) -> (u64, u64, u64, u32) {
        (self.totals[i].to_bits(), self.volatilities[i].to_bits(), self.counts[i], self.refusals[i])
    }
}

/// Side, forward, time and volatility are a desk quote's. Strikes lie within two totals of the forward, prices are those of volatilities about
/// the quote's; each makes an evaluation.
fn desk_ladder(head: Quote, rng: &mut Rng) -> Ladder {
    let Outcome::Answer { total, volatility, .. } = timing::expected(head) else { unreachable!() };
    let searched = || {
        let strike = head.forward * exp(total * rng.uniform(-2.0, 2.0));
        let Price(price) =
            price::price(head.side, volatility * rng.uniform(0.8, 1.25), head.forward, strike, head.time)
        else {
            unreachable!()
        };
        Some(Quote { strike, price, ..head })
    };
    let quotes = std::iter::from_fn(searched).filter(|&q| timing::evaluations(q) > 0);
    Ladder::of(&quotes.take(PLACES).collect::<Vec<_>>())
}

pub fn desk_ladders() -> Vec<Ladder> {
    let mut rng = Rng::new(1);
    timing::desk(LADDERS).into_iter().map(|head| desk_ladder(head, &mut rng)).collect()
}

/// One call.
#[inline]
pub fn ladder(l: &Ladder, lent: &mut Lent) {
    black_box(ours::ladder(l, lent));
    black_box(&lent);
}

/// A call for each quote, which writes to its place.
#[inline]
pub fn quotes(l: &Ladder, lent: &mut Lent) {
    for (i, q) in l.quotes().enumerate() {
        let (total, volatility, count) = (&mut lent.totals[i], &mut lent.volatilities[i], &mut lent.counts[i]);
        lent.refusals[i] = ours::quote_into(q, total, volatility, count);
    }
    black_box(&lent);
}

/// The Rust, which has a volatility and no total.
#[inline]
pub fn rust(l: &Ladder, lent: &mut Lent) {
    for (i, q) in l.quotes().enumerate() {
        lent.volatilities[i] = timing::source(q).unwrap_or(f64::NAN);
    }
    black_box(&lent);
}

/// How many places of a ladder are not as their quotes, or have not the Rust's volatility; all where their roots are not counted.
fn unlike(l: &Ladder) -> usize {
    let [mut by_ladder, mut by_quotes, mut by_rust] = std::array::from_fn(|_| Lent::new(PLACES));
    let roots = ours::ladder(l, &mut by_ladder);
    quotes(l, &mut by_quotes);
    rust(l, &mut by_rust);
    let same = |i: usize| by_ladder.place(i) == by_quotes.place(i) && by_ladder.place(i).1 == by_rust.place(i).1;
    if roots == Some(PLACES as u64) { (0..PLACES).filter(|&i| !same(i)).count() } else { PLACES }
}

pub fn table() {
    println!("{:36} {:>9} {:>9} {:>9} {:>8} {:>8}", "ns a place", "ladder", "quotes", "rust", "to quo.", "to rust");
    let ladders = desk_ladders();
    let lent = &RefCell::new(Lent::new(PLACES));
    let solve = |f: fn(&Ladder, &mut Lent)| move |l: &Ladder| f(l, &mut lent.borrow_mut());
    let list: Vec<&Ladder> = ladders.iter().collect();
    let times = timing::least(timing::ROUNDS, 1, &list, [&solve(ladder), &solve(quotes), &solve(rust)]);
    let times = times.map(|t| t / PLACES as f64);
    let made: u64 = ladders.iter().flat_map(Ladder::quotes).map(timing::evaluations).sum();
    let share = made as f64 / (PLACES * LADDERS) as f64;
    timing::row("ladder of 500 desk quotes", times);
    timing::row(&format!("  an evaluation ({share:.1} a place)"), times.map(|t| t / share));
    timing::report(ladders.iter().map(unlike).sum(), PLACES * LADDERS);
}
