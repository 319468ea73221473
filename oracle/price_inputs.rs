//! Inputs for prices of volatilities, of each kind; the pairs of the law of 4^n; the records that the repository keeps.
//! Needs nothing of the source; the same seed gives the same inputs on every machine.

use crate::inputs::{
    ETA, NANS, Rng, SQRT_2, TAU, THRESHOLDS, XBIG, XNEG, edges, forward_and_strike, power, scaled_exactly, step,
    times_power,
};
use crate::standin::{exp, ln, ln_1p};

/// What is keyed for a price: a sheet's quote up to its time, with the volatility in the price's place.
#[derive(Clone, Copy, Debug)]
pub struct Keyed {
    pub side: u32,
    pub volatility: f64,
    pub forward: f64,
    pub strike: f64,
    pub time: f64,
}

fn keyed(side: u32, volatility: f64, forward: f64, strike: f64, time: f64) -> Keyed {
    Keyed { side, volatility, forward, strike, time }
}

pub const PRICE_KINDS: [&str; 6] = ["desk", "edges", "neighbours", "subnormals", "bits", "scaled"];

/// The log-moneyness, from the words of docs/REQUIREMENTS.md; 0 or below.
fn log_moneyness(forward: f64, strike: f64) -> f64 {
    let (small, great) = if forward < strike { (forward, strike) } else { (strike, forward) };
    if small >= 0.5 * great {
        -ln_1p((great - small) / small)
    } else if small / great >= f64::MIN_POSITIVE {
        ln(small / great)
    } else {
        ln(small) - ln(great)
    }
}

/// The s at which h = x/s, t = s/2, h + t, h - t or region 2's sum is at a cut of the normalised price or of what it calls, for x below 0.
fn borders(x: f64) -> Vec<f64> {
    // s with s/2 + x/s = c: of the two ways to write the root the one without cancellation.
    let sum = |c: f64| {
        let root = (c * c - 2.0 * x).sqrt();
        if c > 0.0 { c + root } else { -2.0 * x / (root - c) }
    };
    let cody = [0.46875, -0.46875, 4.0, -4.0, XBIG, -XBIG, XNEG];
    let mut list: Vec<f64> = [-13.0, -4.0, -0.46875].iter().map(|h| x / h).collect();
    list.push(2.0 * TAU);
    list.push(TAU + (TAU * TAU - x / 13.0).sqrt());
    list.push(sum(TAU + 0.5 + ETA));
    list.extend(THRESHOLDS.map(|threshold| sum(TAU + 0.5 - threshold)));
    list.extend(cody.map(|q| sum(-q * SQRT_2)));
    for c in cody.map(|q| -q * SQRT_2) {
        // x/s - s/2 = c has two roots above 0, or none.
        let root = (c * c + 2.0 * x).sqrt();
        list.extend([-c + root, -c - root]);
    }
    list.retain(|s| *s > 0.0 && s.is_finite());
    list
}

fn border(rng: &mut Rng, forward: f64, strike: f64) -> f64 {
    let list = borders(log_moneyness(forward, strike));
    if list.is_empty() { rng.magnitude(-4, 6) } else { rng.one_of(&list) }
}

/// Spread evenly over the logarithms from a to b.
fn spread(rng: &mut Rng, a: f64, b: f64) -> f64 {
    exp(rng.uniform(ln(a), ln(b)))
}

/// As a trader keys it: a forward, a strike of a listed step, days to expiry or any time up to 30 years, a volatility in full or rounded.
fn desk(rng: &mut Rng) -> Keyed {
    let forward = rng.one_of(&[1.1, 20.0, 100.0, 2500.0, 40000.0]) * rng.uniform(0.5, 2.0);
    let forward = if rng.below(3) == 0 { forward } else { (forward * 100.0).round() / 100.0 };
    let volatility = spread(rng, 0.01, 3.0);
    let round = rng.one_of(&[0.0, 0.0, 0.0001, 0.001, 0.01]);
    let volatility = if round > 0.0 && volatility > round { (volatility / round).round() * round } else { volatility };
    let time = if rng.below(2) == 0 { rng.whole(1, 10950) as f64 / 365.0 } else { spread(rng, 0.001, 30.0) };
    let total = volatility * time.sqrt();
    let reach = if total < 0.5 { total } else { 0.5 } * rng.one_of(&[0.0, 0.5, 1.0, 2.0, 4.0]);
    let strike = forward * exp(reach * rng.uniform(-1.0, 1.0));
    let listed = rng.one_of(&[0.0, 0.01, 0.5, 1.0, 5.0]);
    let strike = if listed > 0.0 && strike > listed { (strike / listed).round() * listed } else { strike };
    keyed(rng.below(2) as u32, volatility, forward, strike, time)
}

/// A volatility and a time whose s is s, or next to it.
fn at_total(rng: &mut Rng, s: f64, k: &mut Keyed) {
    k.time = rng.one_of(&[1.0, 1.0, 0.25, 4.0, k.time]);
    k.volatility = rng.near(s / k.time.sqrt());
}

/// A record next to a branch: of the log-moneyness, of the normalised price, of s, or of a refusal.
fn edge(rng: &mut Rng) -> Keyed {
    let mut k = desk(rng);
    if rng.below(2) == 0 {
        [k.forward, k.strike] = forward_and_strike(rng);
    }
    match rng.below(16) {
        0 => k.strike = k.forward,
        1 => k.strike = rng.near(k.forward),
        2 => {
            let factor = rng.one_of(&[0.5, 2.0]);
            k.strike = rng.near(k.forward * factor);
        }
        3 => {
            // A ratio at 2^1022, or beyond.
            k.forward = times_power(rng.near(1.0), rng.whole(-1074, 0));
            let far = times_power(k.forward, rng.one_of(&[1021, 1022, 1022, 1023, 1050]));
            k.strike = rng.near(far);
            if rng.below(2) == 0 {
                (k.forward, k.strike) = (k.strike, k.forward);
            }
        }
        _ => (),
    }
    if rng.below(30) == 0 {
        // A price that rounding takes to its bound, above it, or past the largest number.
        match rng.below(3) {
            0 => at_an_end(rng, &mut k),
            1 => {
                let most = step(f64::MAX, -rng.whole(0, 1));
                let other = most / rng.uniform(1.0, 12.0);
                (k.forward, k.strike) = if k.side == 0 { (most, other) } else { (other, most) };
            }
            _ => (),
        }
        k.volatility = rng.uniform(14.0, 80.0) / k.time.sqrt();
        return k;
    }
    match rng.below(20) {
        0..=8 => {
            let s = border(rng, k.forward, k.strike);
            at_total(rng, s, &mut k);
        }
        9 => k.volatility = rng.one_of(&edges()),
        10 => k.time = rng.one_of(&edges()),
        11 => (k.volatility, k.time) = (rng.one_of(&edges()), rng.one_of(&edges())),
        12 => k.volatility = -k.volatility,
        13 => k.time = -k.time,
        14 => {
            // s next to infinity.
            k.time = rng.magnitude(0, 1023);
            k.volatility = rng.near(f64::MAX / k.time.sqrt());
        }
        15 => {
            // s next to 0.
            k.time = rng.one_of(&[1.0, 0.25, 4.0, power(-1074), power(-1022)]);
            k.volatility = f64::from_bits(rng.below(5));
        }
        16 => k.volatility = rng.magnitude(-1074, 1023),
        17 => k.time = rng.magnitude(-1074, 1023),
        18 => (k.volatility, k.time) = (rng.magnitude(-1074, 1023), rng.magnitude(-1074, 1023)),
        _ => {
            // A time value next to the least normal number, by exp(-h²/2).
            let h = -rng.uniform(36.0, 39.0);
            let s = log_moneyness(k.forward, k.strike) / h;
            at_total(rng, s, &mut k);
        }
    }
    match rng.below(40) {
        0 => k.side = rng.one_of(&[2, 3, 255, 256, 1 << 31, u32::MAX]),
        1 => k.forward = rng.one_of(&edges()),
        2 => k.strike = rng.one_of(&edges()),
        _ => (),
    }
    k
}

fn neighbour(rng: &mut Rng) -> Keyed {
    let mut k = desk(rng);
    match rng.below(5) {
        0 => k.volatility = rng.near(k.volatility),
        1 => k.forward = rng.near(k.strike),
        2 => k.strike = rng.near(k.forward),
        3 => {
            let s = border(rng, k.forward, k.strike);
            k.volatility = rng.near(s / k.time.sqrt());
        }
        _ => k.time = rng.near(k.time),
    }
    // Where x is next to 0, s small enough for h not to be.
    if (k.forward - k.strike).abs() < 1.0e-9 * k.forward && rng.below(2) == 0 {
        k.volatility = times_power(k.volatility, rng.whole(-60, 0));
    }
    k
}

fn subnormal(rng: &mut Rng) -> Keyed {
    let small = |rng: &mut Rng| {
        let width = rng.below(53);
        f64::from_bits((rng.bits() >> (11 + width)) + 1)
    };
    let (forward, strike) = (small(rng), small(rng));
    let time = if rng.below(4) == 0 { small(rng) } else { rng.magnitude(-10, 4) };
    let volatility = match rng.below(8) {
        0 => small(rng),
        1 => {
            let s = border(rng, forward, strike);
            rng.near(s / time.sqrt())
        }
        2 => rng.magnitude(-60, 60),
        _ => rng.magnitude(-7, 6),
    };
    keyed(rng.below(2) as u32, volatility, forward, strike, time)
}

fn bits(rng: &mut Rng) -> Keyed {
    let side = if rng.below(10) == 0 { rng.bits() as u32 } else { rng.below(2) as u32 };
    let positive = rng.below(2) == 0;
    let figure = |rng: &mut Rng| if positive { rng.finite().abs() } else { rng.any() };
    keyed(side, figure(rng), figure(rng), figure(rng), figure(rng))
}

/// Both figures moved by one power of two, the smaller next to 2^-1022 or the larger next to the largest number.
fn at_an_end(rng: &mut Rng, k: &mut Keyed) {
    if rng.below(2) == 0 {
        let least = rng.near(f64::MIN_POSITIVE) * rng.one_of(&[1.0, 1.0, 2.0, 4.0]);
        (k.forward, k.strike) = (least, least * (k.strike / k.forward));
    } else {
        let most = step(f64::MAX, -rng.whole(0, 9)) * rng.one_of(&[1.0, 1.0, 0.5, 0.25]);
        (k.forward, k.strike) = (most, most * (k.strike / k.forward));
    }
    if rng.below(2) == 0 {
        (k.forward, k.strike) = (k.strike, k.forward);
    }
}

/// Two records with the same side, volatility and time, forward and strike of the second 4^n times those of the first, within the limits of
/// demand 3. What the law asks of time value and price is not tested here.
pub fn price_pair(rng: &mut Rng) -> [Keyed; 2] {
    loop {
        let mut k = match rng.below(4) {
            0 => desk(rng),
            1 => neighbour(rng),
            _ => edge(rng),
        };
        match rng.below(6) {
            0 => {
                let e = rng.whole(-1000, 1000);
                (k.forward, k.strike) = (times_power(k.forward, e), times_power(k.strike, e));
            }
            1 | 2 => at_an_end(rng, &mut k),
            _ => (),
        }
        // Where s is large, the time value is next to the smaller figure.
        if rng.below(8) == 0 {
            k.volatility = rng.uniform(8.0, 40.0) / k.time.sqrt();
        }
        (k.side, k.volatility, k.time) = (k.side % 2, k.volatility.abs(), k.time.abs());
        let n = match rng.below(3) {
            0 => rng.whole(-3, 3),
            1 => rng.whole(-500, 500),
            _ => rng.whole(-1030, 1030),
        };
        let (Some(forward), Some(strike)) = (scaled_exactly(k.forward, n), scaled_exactly(k.strike, n)) else {
            continue;
        };
        let fit = |x: f64| x.is_finite() && x >= f64::MIN_POSITIVE;
        let ratio = |a: f64, b: f64| times_power(a, -1022) <= b;
        let all_fit = [k.forward, k.strike, forward, strike].into_iter().all(fit);
        if all_fit
            && ratio(k.forward, k.strike)
            && ratio(k.strike, k.forward)
            && k.volatility.is_finite()
            && k.time.is_finite()
        {
            return [k, Keyed { forward, strike, ..k }];
        }
    }
}

/// The volatility that README's quote has; a price one unit above its bound; then at the money, in it and out of it with s ordinary, 0 by
/// the volatility, by the time and by underflow, and infinite.
fn examples() -> Vec<Keyed> {
    let mut list = vec![
        keyed(0, 0.15509699992515916, 100.0, 120.0, 1.0),
        keyed(1, 0.15509699992515916, 480.0, 400.0, 1.0),
        keyed(0, 20.0, 100.0, 71.0, 1.0),
    ];
    let zeros = [(0.0, 1.0), (-0.0, 1.0), (0.2, 0.0), (0.2, -0.0), (0.0, 0.0), (-0.0, -0.0), (power(-1074), 0.125)];
    let infinite = [(f64::MAX, f64::MAX), (f64::MAX, 4.0), (f64::MAX, 1.0)];
    for (forward, strike) in [(100.0, 100.0), (100.0, 120.0), (120.0, 100.0)] {
        for side in [0, 1] {
            let pairs = [(0.2, 1.0), (0.2, 0.25), (power(-1074), 1.0)].into_iter().chain(zeros).chain(infinite);
            list.extend(pairs.map(|(volatility, time)| keyed(side, volatility, forward, strike, time)));
        }
    }
    list
}

/// A time value and a price of exactly 2^-1022, and the same scaled by 4: the price is one unit below 2^-1020.
pub fn at_least_normal() -> [Keyed; 2] {
    let (forward, strike) = (power(-1022), step(power(-1022), 1));
    [keyed(0, 17.0, forward, strike, 1.0), keyed(0, 17.0, 4.0 * forward, 4.0 * strike, 1.0)]
}

/// At the money, doubled, and doubled again: the second price is not twice the first, the third is four times the first.
pub fn doubled() -> [Keyed; 3] {
    [2.0, 4.0, 8.0].map(|figure| keyed(0, 0.2, figure, figure, 1.0))
}

/// A price that rounding takes past the largest number, and the same scaled by 1/4, whose price is finite.
pub fn overflowing() -> [Keyed; 2] {
    [1.0, 0.25].map(|scale| keyed(0, 20.0, f64::MAX * scale, f64::MAX / 9.0 * scale, 1.0))
}

/// Each figure with patterns of NaN, infinite, zero or below zero; then every two faults at once, and all: the order of the refusals.
fn refused() -> Vec<Keyed> {
    let place = |side: u32, figures: [f64; 4]| keyed(side, figures[0], figures[1], figures[2], figures[3]);
    let good = [0.2, 100.0, 120.0, 1.0];
    let least = power(-1074);
    let bad = NANS.map(f64::from_bits).into_iter().chain([
        f64::INFINITY,
        f64::NEG_INFINITY,
        0.0,
        -0.0,
        -least,
        -1.0,
        f64::MIN,
    ]);
    let mut list = Vec::new();
    for (n, x) in bad.enumerate() {
        for i in 0..4 {
            let mut figures = good;
            figures[i] = x;
            list.push(place((n % 2) as u32, figures));
        }
    }
    for side in [2, 3, 256, 1 << 31, u32::MAX] {
        list.push(place(side, good));
        list.push(place(side, [-1.0, f64::NAN, 0.0, -1.0]));
    }
    // A fault is a place, 4 for the side, and what stands there.
    let nan = f64::NAN;
    let faults = [
        (4, 2.0),
        (0, nan),
        (1, nan),
        (2, nan),
        (3, nan),
        (0, f64::INFINITY),
        (1, 0.0),
        (2, -1.0),
        (3, -1.0),
        (0, -1.0),
    ];
    for (i, (p, x)) in faults.into_iter().enumerate() {
        for (q, y) in faults.into_iter().skip(i + 1).filter(|(q, _)| *q != p) {
            let mut all = [good[0], good[1], good[2], good[3], (i % 2) as f64];
            (all[p], all[q]) = (x, y);
            list.push(place(all[4] as u32, [all[0], all[1], all[2], all[3]]));
        }
    }
    list.extend([
        place(0, [-1.0, 0.0, 120.0, -1.0]),
        place(1, [-1.0, 100.0, -1.0, -1.0]),
        place(1, [-1.0, nan, 0.0, -1.0]),
    ]);
    list
}

/// The records that the repository keeps: 1,500.
pub fn kept_prices(seed: u64) -> Vec<Keyed> {
    let mut list =
        [examples(), at_least_normal().to_vec(), doubled().to_vec(), overflowing().to_vec(), refused()].concat();
    let mut kinds: Vec<Prices> = (0..PRICE_KINDS.len()).map(|kind| Prices::new(kind, seed)).collect();
    // Two in a row of each kind, so that a pair stays together.
    let drawn = list.len();
    list.extend((drawn..1500).map(|i| kinds[(i - drawn) / 2 % PRICE_KINDS.len()].next()));
    list
}

/// Every combination of a side, a forward, a strike, a volatility and a time at an edge; and, at time 1, the volatilities at which the
/// normalised price turns, with their neighbours. None is refused.
pub fn price_corners() -> impl Iterator<Item = Keyed> {
    let above: Vec<f64> = edges().into_iter().filter(|&x| x.is_finite() && x > 0.0).collect();
    let times = [0.0, -0.0, power(-1074), f64::MIN_POSITIVE, 0.25, 1.0, 2.0, f64::MAX];
    let figures = above.clone();
    let pairs = above.clone().into_iter().flat_map(move |f| figures.clone().into_iter().map(move |k| (f, k)));
    pairs.flat_map(move |(forward, strike)| {
        let volatilities = above.iter().copied().chain([0.0, -0.0]);
        let all = volatilities.flat_map(move |volatility| times.map(|time| (volatility, time)));
        let near = |s: f64| (-3..=3).map(move |n| (step(s, n), 1.0));
        let turns = borders(log_moneyness(forward, strike)).into_iter().flat_map(near);
        let list: Vec<(f64, f64)> = all.chain(turns).collect();
        list.into_iter()
            .flat_map(move |(volatility, time)| [0, 1].map(|side| keyed(side, volatility, forward, strike, time)))
    })
}

/// Records of one kind, without end; a pair's two follow each other.
pub struct Prices {
    kind: usize,
    rng: Rng,
    second: Option<Keyed>,
}

impl Prices {
    /// `kind` is a place in PRICE_KINDS.
    pub fn new(kind: usize, seed: u64) -> Prices {
        Prices { kind, rng: Rng::new(seed ^ ((kind as u64 + 1) << 48)), second: None }
    }

    pub fn next(&mut self) -> Keyed {
        if let Some(second) = self.second.take() {
            return second;
        }
        let rng = &mut self.rng;
        match self.kind {
            0 => desk(rng),
            1 => edge(rng),
            2 => neighbour(rng),
            3 => subnormal(rng),
            4 => bits(rng),
            _ => {
                let [k, other] = price_pair(rng);
                self.second = Some(other);
                k
            }
        }
    }
}
