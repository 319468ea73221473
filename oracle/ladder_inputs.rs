//! Ladders of each kind; pairs of ladders of whose places demand 3 says that they agree; the ladders that the repository keeps.
//! Needs nothing of the source; the same seed gives the same inputs on every machine.

use crate::inputs::{
    NANS, Quote, Quotes, Rng, black, desk, edge_price, edges, known, pair, power, quote, scaled_exactly, step,
    strike_beside, times_power,
};
use crate::standin::exp;
use std::collections::BTreeMap;

#[derive(Clone, Debug)]
pub struct Ladder {
    pub side: u32,
    pub forward: f64,
    pub time: f64,
    pub strikes: Vec<f64>,
    pub prices: Vec<f64>,
    /// The lengths of totals, volatilities, counts and refusals.
    pub lent: [usize; 4],
}

/// The first five are kinds of quotes too.
pub const LADDER_KINDS: [&str; 10] =
    ["desk", "edges", "neighbours", "subnormals", "bits", "refused", "zeros", "lengths", "scaled", "exchanged"];

/// The most strikes of a ladder, and the longest slice that the program takes.
const MOST: usize = 500;
const LONGEST: usize = 512;

impl Ladder {
    /// The ladder of a quote's side, forward and time, with these strikes and prices and as much lent.
    fn of(head: Quote, places: impl IntoIterator<Item = (f64, f64)>) -> Ladder {
        let (strikes, prices): (Vec<f64>, Vec<f64>) = places.into_iter().unzip();
        let lent = [strikes.len(); 4];
        Ladder { side: head.side, forward: head.forward, time: head.time, strikes, prices, lent }
    }

    /// Cut to these lengths: strikes, prices, then the lent.
    fn cut(mut self, lengths: [usize; 6]) -> Ladder {
        let [strikes, prices, lent @ ..] = lengths;
        self.strikes.truncate(strikes);
        self.prices.truncate(prices);
        Ladder { lent, ..self }
    }

    pub fn lengths(&self) -> [usize; 6] {
        let [totals, volatilities, counts, refusals] = self.lent;
        [self.strikes.len(), self.prices.len(), totals, volatilities, counts, refusals]
    }

    /// The longest of its six lengths.
    pub fn longest(&self) -> usize {
        self.lengths().into_iter().max().unwrap()
    }

    /// The quote of a place that has a strike and a price.
    pub fn quote(&self, i: usize) -> Quote {
        let Ladder { side, forward, time, .. } = *self;
        quote(side, self.prices[i], forward, self.strikes[i], time)
    }
}

/// The bound of a quote's price, and its intrinsic value or 0 where that is not above 0.
fn bound_and_floor(q: Quote) -> (f64, f64) {
    let (bound, gap) = if q.side == 0 { (q.forward, q.forward - q.strike) } else { (q.strike, q.strike - q.forward) };
    (bound, if gap > 0.0 { gap } else { 0.0 })
}

/// How many places: mostly few, at times as many as are taken.
fn size(rng: &mut Rng) -> usize {
    let (least, most) = match rng.below(16) {
        0 => (MOST as i64, MOST as i64),
        1 => (100, MOST as i64),
        2..=5 => (12, 100),
        6 => (0, 1),
        _ => (2, 12),
    };
    rng.whole(least, most) as usize
}

/// Strikes in equal steps of their logarithm about the forward, in the money on one side of it; prices of one volatility with a smile.
/// Strikes and prices are in full or of listed steps.
fn desk_ladder(rng: &mut Rng, places: usize) -> Ladder {
    let head = desk(rng);
    let volatility = rng.one_of(&[0.05, 0.1, 0.2, 0.4, 0.8, 1.5]) * rng.uniform(0.7, 1.4);
    let total = volatility * head.time.sqrt();
    let (reach, smile) = (total * rng.one_of(&[0.5, 1.0, 2.0, 4.0]), rng.uniform(0.0, 0.5));
    let (listed, tick) = (rng.one_of(&[0.0, 0.01, 0.5, 1.0, 5.0]), rng.one_of(&[0.0, 0.0, 0.0001, 0.01, 0.05]));
    let place = |i: usize| {
        let at = (2 * i + 1) as f64 / places as f64 - 1.0;
        let strike = head.forward * exp(reach * at);
        let strike = if listed > 0.0 && strike > listed { (strike / listed).round() * listed } else { strike };
        let price = black(head.side, head.forward, strike, total * (1.0 + smile * at * at));
        (strike, if tick > 0.0 { (price / tick).round() * tick } else { price })
    };
    Ladder::of(head, (0..places).map(place))
}

/// A place next to a branch.
fn edge_place(rng: &mut Rng, head: Quote) -> (f64, f64) {
    let strike = match rng.below(40) {
        0 => rng.one_of(&edges()),
        1..=19 => head.forward * rng.uniform(0.5, 2.0),
        _ => strike_beside(rng, head.forward),
    };
    let price = head.forward * rng.unit();
    (strike, edge_price(rng, Quote { strike, price, ..head }))
}

/// A place whose strike is at the forward, half of it or twice, and whose price is at its bound or its floor; or next to that.
fn neighbour_place(rng: &mut Rng, head: Quote) -> (f64, f64) {
    let strike = match rng.below(5) {
        0 => head.forward,
        1 => rng.near(head.forward),
        2 => {
            let factor = rng.one_of(&[0.5, 2.0]);
            rng.near(head.forward * factor)
        }
        3 => rng.near(head.strike),
        _ => head.forward * rng.uniform(0.5, 2.0),
    };
    let (bound, floor) = bound_and_floor(Quote { strike, ..head });
    let price = match rng.below(8) {
        0 => bound,
        1 => step(bound, rng.whole(-2, 1)),
        2 => rng.near(bound),
        3 => floor,
        4 => rng.near(floor),
        5 => rng.near(head.price),
        _ => {
            let time_value = head.forward * rng.magnitude(-60, -1);
            rng.near(floor + time_value)
        }
    };
    (strike, price)
}

fn subnormal_place(rng: &mut Rng, head: Quote, other: Quote) -> (f64, f64) {
    let place = Quote { strike: other.strike, price: other.price, ..head };
    (place.strike, if rng.below(4) == 0 { place.price } else { edge_price(rng, place) })
}

/// NaN, infinite, zero or below zero.
pub fn bad_figure(rng: &mut Rng) -> f64 {
    match rng.below(3) {
        0 => f64::from_bits(rng.one_of(&NANS)),
        1 => rng.one_of(&[f64::INFINITY, f64::NEG_INFINITY]),
        _ => rng.one_of(&[0.0, -0.0, -power(-1074), -1.0, f64::MIN]),
    }
}

/// A fault in side, forward or time, for every place of a ladder.
fn spoil(rng: &mut Rng, head: &mut Quote) {
    match rng.below(4) {
        0 => head.side = rng.one_of(&[2, 3, 255, 256, 1 << 31, u32::MAX]),
        1 => head.forward = bad_figure(rng),
        2 => head.time = -head.time,
        _ => head.time = bad_figure(rng),
    }
}

/// A place that is mostly refused, for each of the reasons that a place can have.
fn refused_place(rng: &mut Rng, head: Quote, (strike, price): (f64, f64)) -> (f64, f64) {
    let (bound, floor) = bound_and_floor(Quote { strike, ..head });
    match rng.below(12) {
        0 => (bad_figure(rng), price),
        1 => (strike, bad_figure(rng)),
        2 => (bad_figure(rng), bad_figure(rng)),
        3 => (strike, step(bound, 1 + rng.below(3) as i64)),
        4 => (strike, bound * rng.uniform(1.0, 3.0)),
        5 => (strike, if floor > 0.0 { step(floor, -1 - rng.below(3) as i64) } else { -price }),
        6 => (strike, if floor > 0.0 { floor * rng.unit() } else { -power(-1074) }),
        7..=9 => {
            // One unit below the bound rounding may take the normalised price above its own.
            let strike = head.forward * if head.side == 0 { rng.uniform(1.0, 4.0) } else { rng.uniform(0.25, 1.0) };
            (strike, step(bound_and_floor(Quote { strike, ..head }).0, -1))
        }
        _ => (strike, price),
    }
}

/// A place of time zero: its price is its floor, or next to it, or another.
fn zero_place(rng: &mut Rng, head: Quote) -> (f64, f64) {
    let strike = match rng.below(4) {
        0 => head.forward,
        1 => rng.near(head.forward),
        _ => head.forward * rng.uniform(0.5, 2.0),
    };
    let (bound, floor) = bound_and_floor(Quote { strike, ..head });
    let price = match rng.below(12) {
        0 => rng.near(floor),
        1 => rng.one_of(&[0.0, -0.0]),
        2 => -floor,
        3 => rng.near(bound),
        4 => bad_figure(rng),
        5 => head.price,
        _ => floor,
    };
    (if rng.below(20) == 0 { bad_figure(rng) } else { strike }, price)
}

/// Six lengths: equal, about the most or few; or one of them one more or less, or much, or some of them others.
fn lengths(rng: &mut Rng) -> [usize; 6] {
    let equal = rng.one_of(&[0, 1, 2, 3, 7, 40, MOST - 1, MOST, MOST, MOST + 1, MOST + 1, LONGEST - 1]);
    let mut lengths = [equal; 6];
    let mut other = |rng: &mut Rng| {
        let at = rng.below(6) as usize;
        lengths[at] = match rng.below(3) {
            0 => (lengths[at] + 1).min(LONGEST),
            1 => lengths[at].saturating_sub(1),
            _ => rng.one_of(&[0, 1, 20, MOST, MOST + 1, LONGEST]),
        };
    };
    match rng.below(6) {
        0 | 1 => (),
        2..=4 => other(rng),
        _ => (0..rng.whole(2, 6)).for_each(|_| other(rng)),
    }
    lengths
}

/// Two ladders of whose places demand 3 says that they agree: forward, strikes and prices of the second are 4^n times those of the first. Where
/// asked, call and put, forward and strikes are exchanged too; then all strikes of a ladder are equal, since it has one forward.
pub fn ladder_pair(rng: &mut Rng, exchanged: bool) -> [Ladder; 2] {
    let [head, other] = pair(rng, exchanged);
    let exponent = |x: f64| (x.to_bits() >> 52) as i64;
    let n = (exponent(if exchanged { other.strike } else { other.forward }) - exponent(head.forward)) / 2;
    let fit = |x: f64| x.is_finite() && x >= f64::MIN_POSITIVE;
    let ratio = |a: f64, b: f64| times_power(a, -1022) <= b;
    let (mut first, mut second) = (vec![(head.strike, head.price)], vec![(other.strike, other.price)]);
    for _ in 1..size(rng) {
        let (strike, price) = if rng.below(2) == 0 { edge_place(rng, head) } else { neighbour_place(rng, head) };
        let (strike, price) = if exchanged {
            (head.strike, edge_price(rng, Quote { price, ..head }).abs())
        } else {
            (strike, price.abs())
        };
        let (Some(scaled_strike), Some(scaled_price)) = (scaled_exactly(strike, n), scaled_exactly(price, n)) else {
            continue;
        };
        let alike = fit(strike) && fit(scaled_strike) && ratio(head.forward, strike) && ratio(strike, head.forward);
        if !alike || !price.is_finite() {
            continue;
        }
        first.push((strike, price));
        second.push((if exchanged { other.strike } else { scaled_strike }, scaled_price));
    }
    [Ladder::of(head, first), Ladder::of(other, second)]
}

/// Quotes as ladders, one for each side, forward and time in the order of their first quotes, and one more after every 500.
pub fn grouped(quotes: impl IntoIterator<Item = Quote>) -> Vec<Ladder> {
    let mut list: Vec<Ladder> = Vec::new();
    let mut last = BTreeMap::new();
    for q in quotes {
        let at = last.entry((q.side, q.forward.to_bits(), q.time.to_bits())).or_insert(list.len());
        if list.get(*at).is_some_and(|ladder| ladder.strikes.len() == MOST) {
            *at = list.len();
        }
        if *at == list.len() {
            list.push(Ladder::of(q, []));
        }
        let ladder = &mut list[*at];
        ladder.strikes.push(q.strike);
        ladder.prices.push(q.price);
        ladder.lent = [ladder.strikes.len(); 4];
    }
    list
}

/// Ladders of these lengths: 0, 1, 500 and 501; each of the six one more or less than the others; unequal and over 500. The lent slices of
/// those are short, since the program prints all that is lent.
fn kept_lengths(rng: &mut Rng) -> Vec<Ladder> {
    let mut list = vec![[0; 6], [1; 6], [MOST; 6], [MOST + 1; 6]];
    for i in 0..6 {
        for (equal, other) in [(0, 1), (1, 0), (3, 2), (3, 4)] {
            let mut lengths = [equal; 6];
            lengths[i] = other;
            list.push(lengths);
        }
    }
    list.push([MOST, MOST, 1, 1, 1, 1]);
    list.push([MOST + 1, MOST, 1, 1, 1, 1]);
    list.push([MOST + 1, MOST + 1, 0, 1, 2, 3]);
    list.push([LONGEST, LONGEST, 2, 2, 2, 2]);
    list.push([0, LONGEST, 0, 0, 0, 0]);
    list.into_iter().map(|lengths| desk_ladder(rng, *lengths.iter().max().unwrap()).cut(lengths)).collect()
}

/// Places with each fault that strike and price can have, and some that have none, for a forward of 100.
fn faults() -> Vec<(f64, f64)> {
    let strikes = [f64::NAN, f64::INFINITY, 0.0, -0.0, -1.0].map(|strike| (strike, 1.0));
    let prices = [f64::NAN, f64::NEG_INFINITY, -1.0, -0.0, 0.0, 1.0, 30.0, 100.0, 101.0, 120.0, 121.0];
    let prices = prices.into_iter().flat_map(|price| [(120.0, price), (80.0, price)]);
    strikes.into_iter().chain(prices).chain([(f64::NAN, 0.0), (0.0, f64::NAN), (100.0, 0.0), (80.0, 20.0)]).collect()
}

/// The faults at a good side, forward and time; at time zero of either sign; at a fault of side, forward or time, or two.
fn kept_faults() -> Vec<Ladder> {
    let good = quote(0, 0.0, 100.0, 0.0, 1.0);
    let mut heads = vec![good];
    heads.extend([0.0, -0.0, -power(-1074), f64::INFINITY, f64::NAN].map(|time| Quote { time, ..good }));
    heads.extend([0.0, -0.0, -100.0, f64::INFINITY, f64::NAN].map(|forward| Quote { forward, ..good }));
    heads.extend([(0.0, -1.0), (f64::NAN, -1.0), (-1.0, f64::NAN)].map(|(forward, time)| Quote {
        forward,
        time,
        ..good
    }));
    let sides = heads.into_iter().flat_map(|head| [0, 1].map(|side| Quote { side, ..head }));
    let bad = [2, 256, u32::MAX].map(|side| Quote { side, forward: if side == 2 { 100.0 } else { f64::NAN }, ..good });
    sides.chain(bad).map(|head| Ladder::of(head, faults())).collect()
}

/// The ladders that the repository keeps.
pub fn kept_ladders(seed: u64) -> Vec<Ladder> {
    let mut rng = Rng::new(seed);
    let mut list = [grouped(known()), kept_lengths(&mut rng), kept_faults()].concat();
    for kind in 0..LADDER_KINDS.len() {
        let mut ladders = Ladders::new(kind, seed);
        let short = std::iter::from_fn(|| Some(ladders.next())).filter(|ladder| ladder.longest() <= 40);
        list.extend(short.take(8));
    }
    list
}

/// Ladders of one kind, without end; a pair's two follow each other.
pub struct Ladders {
    kind: usize,
    rng: Rng,
    heads: Quotes,
    second: Option<Ladder>,
}

impl Ladders {
    /// `kind` is a place in LADDER_KINDS.
    pub fn new(kind: usize, seed: u64) -> Ladders {
        let rng = Rng::new(seed ^ ((kind as u64 + 1) << 40));
        Ladders { kind, rng, heads: Quotes::new(if kind < 5 { kind } else { 0 }, seed), second: None }
    }

    pub fn next(&mut self) -> Ladder {
        if let Some(second) = self.second.take() {
            return second;
        }
        let rng = &mut self.rng;
        let places = size(rng);
        let mut head = self.heads.next();
        match self.kind {
            0 => desk_ladder(rng, places),
            1 => Ladder::of(head, (0..places).map(|_| edge_place(rng, head))),
            2 => Ladder::of(head, (0..places).map(|_| neighbour_place(rng, head))),
            3 => Ladder::of(head, (0..places).map(|_| subnormal_place(rng, head, self.heads.next()))),
            4 => {
                let others = (0..places).map(|_| self.heads.next());
                Ladder::of(head, others.map(|other| (other.strike, other.price)))
            }
            5 => {
                let ladder = desk_ladder(rng, places);
                head = Quote { side: ladder.side, forward: ladder.forward, time: ladder.time, ..head };
                let good = ladder.strikes.into_iter().zip(ladder.prices);
                let places: Vec<(f64, f64)> = good.map(|place| refused_place(rng, head, place)).collect();
                (0..rng.one_of(&[0, 0, 0, 1, 1, 2])).for_each(|_| spoil(rng, &mut head));
                Ladder::of(head, places)
            }
            6 => {
                head.time = rng.one_of(&[0.0, -0.0]);
                Ladder::of(head, (0..places).map(|_| zero_place(rng, head)))
            }
            7 => {
                let lengths = lengths(rng);
                desk_ladder(rng, *lengths.iter().max().unwrap()).cut(lengths)
            }
            kind => {
                let [ladder, other] = ladder_pair(rng, kind == 9);
                self.second = Some(other);
                ladder
            }
        }
    }
}
