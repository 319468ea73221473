//! Quotes with a discount factor: those of each kind, and those of the sheet that the repository keeps.
//! Needs nothing of the source; the same seed gives the same inputs on every machine.

use crate::inputs::{
    NANS, Quote, Rng, UNDISCOUNTED, bits, desk, edge, edges, neighbour, pair, power, quote, scaled_exactly, step,
    subnormal, times_power,
};
use crate::standin::exp;

fn discounted(side: u32, price: f64, forward: f64, strike: f64, time: f64, factor: f64) -> Quote {
    Quote { factor, ..quote(side, price, forward, strike, time) }
}

// ---- factors, and prices for a quotient

/// Factors above 0 where a quotient may turn: 1 and next to it, other powers of two, the ends of the subnormal and of the normal range, and some
/// that are keyed.
fn turning() -> Vec<f64> {
    let ends = [power(-1074), power(-1022), power(-1021), power(1023), f64::MAX];
    let near = ends.into_iter().chain([0.5, 1.0, 2.0]).flat_map(|x| [step(x, -1), x, step(x, 1)]);
    let inside = [3.0 * power(-1074), power(-1023), power(-53), power(-52), power(52), power(53)];
    let keyed = [0.9, 0.95, 0.9753, 1.05, 1.1, 1.0 / 3.0, 3.0, 10.0];
    near.chain(inside).chain(keyed).filter(|&x| x.is_finite() && x > 0.0).collect()
}

/// Factors that test 2 or test 15 refuses.
fn refused_factors() -> Vec<f64> {
    let below = [0.0, -0.0, -power(-1074), -f64::MIN_POSITIVE, -0.5, -1.0, -f64::MAX];
    NANS.map(f64::from_bits).into_iter().chain([f64::INFINITY, f64::NEG_INFINITY]).chain(below).collect()
}

/// A factor that passes.
fn factor(rng: &mut Rng) -> f64 {
    let x = match rng.below(8) {
        0 => UNDISCOUNTED,
        1 => rng.near(1.0),
        2 => power(rng.whole(-1074, 1023)),
        3 => rng.one_of(&turning()),
        4 => f64::from_bits(rng.bits() >> (11 + rng.below(52))),
        5 => rng.magnitude(-1074, 1023),
        _ => desk_factor(rng, 1.0),
    };
    if x > 0.0 { x } else { UNDISCOUNTED }
}

/// As an exchange has it: of a rate and a time, or about 1, in full or of four digits.
fn desk_factor(rng: &mut Rng, time: f64) -> f64 {
    let factor = match rng.below(8) {
        0 => UNDISCOUNTED,
        1 | 2 => exp(-rng.uniform(-0.01, 0.08) * time),
        3..=5 => rng.uniform(0.9, 1.0),
        _ => rng.uniform(1.0, 1.1),
    };
    if rng.below(3) == 0 { (factor * 1.0e4).round() / 1.0e4 } else { factor }
}

/// A price with this quotient, where one is next to their product.
pub fn price_for(quotient: f64, factor: f64) -> Option<f64> {
    let product = quotient * factor;
    [0, 1, -1, 2, -2].map(|n| step(product, n)).into_iter().find(|p| (p / factor).to_bits() == quotient.to_bits())
}

// ---- kinds

/// A desk's quote whose price is published discounted, in full or in ticks.
fn desk_discounted(rng: &mut Rng) -> Quote {
    let q = desk(rng);
    let factor = desk_factor(rng, q.time);
    let price = q.price * factor;
    let tick = rng.one_of(&[0.0, 0.0, 0.0001, 0.01, 0.05]);
    Quote { price: if tick > 0.0 { (price / tick).round() * tick } else { price }, factor, ..q }
}

/// A quote whose divided price is next to a branch, or at it; its factor is at times one that is refused.
fn at_branch(rng: &mut Rng) -> Quote {
    let q = match rng.below(6) {
        0 => neighbour(rng),
        1 => subnormal(rng),
        _ => edge(rng),
    };
    let factor = if rng.below(40) == 0 { rng.one_of(&refused_factors()) } else { factor(rng) };
    let product = q.price * factor;
    let price = match rng.below(4) {
        0 if product.is_finite() => rng.near(product),
        1 => q.price,
        _ => price_for(q.price, factor).unwrap_or(if product.is_finite() { product } else { q.price }),
    };
    Quote { price, factor, ..q }
}

/// A price and a factor, whole numbers of 53 digits, whose quotient is within 2^-102 of itself of the middle between two floats: the product of factor
/// and middle is 2^54 times the price, less `off`. No quotient is a middle itself unless it is subnormal.
fn beside_middle(rng: &mut Rng) -> [f64; 2] {
    const MODULUS: u64 = 1 << 54;
    loop {
        let factor = 1 << 52 | rng.bits() >> 12 | 1;
        let off = (2 * rng.below(8) + 1) as i64 * if rng.below(2) == 0 { 1 } else { -1 };
        // Each step doubles the digits of the inverse of the factor modulo 2^64.
        let inverse = (0..6).fold(factor, |x, _| x.wrapping_mul(2u64.wrapping_sub(factor.wrapping_mul(x))));
        let middle = inverse.wrapping_mul((off as u64).wrapping_neg()) % MODULUS;
        if middle > MODULUS / 2 {
            let price = (middle as i128 * factor as i128 + off as i128) / MODULUS as i128;
            return [price as f64, factor as f64];
        }
    }
}

/// A price and a factor whose quotient is an odd number of halves of 2^-1074: a tie.
fn at_tie(rng: &mut Rng) -> [f64; 2] {
    let digits = rng.whole(1, 52);
    let halves = rng.bits() >> (64 - digits) | 1;
    let more = rng.whole(0, 53 - digits).min(40);
    let factor = 1 + rng.below(1 << more);
    let k = rng.whole(1, 900);
    [times_power((halves as f64) * factor as f64, k - 1075), times_power(factor as f64, k)]
}

/// A price and a factor whose quotient is hard to round: beside a middle, at a tie, subnormal, next to overflow, or beyond either end.
fn hard(rng: &mut Rng) -> [f64; 2] {
    match rng.below(8) {
        0 | 1 => {
            let [price, factor] = beside_middle(rng);
            let (i, j) = (rng.whole(-400, 400), rng.whole(-400, 400));
            [times_power(price, i), times_power(factor, j)]
        }
        2 | 3 => at_tie(rng),
        4 => {
            let factor = rng.magnitude(-40, 900);
            let small = f64::from_bits(1 + (rng.bits() >> (11 + rng.below(52))));
            [rng.near(small * factor), factor]
        }
        5 => {
            let factor = rng.magnitude(-1074, -1);
            [rng.near(f64::MAX * factor), factor]
        }
        6 => [rng.magnitude(0, 1023), rng.magnitude(-1074, -1)],
        _ => [rng.magnitude(-1074, 0), rng.magnitude(0, 1023)],
    }
}

/// A quote that turns on the last digit of its quotient: it is the bound or next to it, the intrinsic value at time zero or next to that, or inside.
fn about_quotient(rng: &mut Rng) -> Quote {
    let [price, factor] = hard(rng);
    let price = if price.is_finite() { price } else { f64::MAX };
    let size = (price / factor).abs().clamp(power(-1074), f64::MAX);
    let other = size * rng.uniform(0.5, 2.0);
    let side = rng.below(2) as u32;
    let (near, more) = (rng.whole(-1, 1), rng.uniform(1.0, 8.0));
    // As a call has them.
    let [forward, strike] = match rng.below(6) {
        0 => [size, other],
        1 => [step(size, near), other],
        2 => [2.0 * size, size],
        3 => [2.0 * size, step(size, near)],
        4 => [size * more, size * rng.uniform(1.0, 8.0)],
        _ => [rng.near(size * more), rng.near(size * more)],
    };
    let [forward, strike] = [forward, strike].map(|x| x.clamp(power(-1074), f64::MAX));
    let [forward, strike] = if side == 0 { [forward, strike] } else { [strike, forward] };
    let time = rng.one_of(&[0.0, -0.0, 1.0, 0.25, 0.3, 2.0, power(-1074)]);
    let price = if rng.below(8) == 0 { -price } else { price };
    discounted(side, price, forward, strike, time, factor)
}

/// With x in one place: place 0 is the side, and the figures follow as in a sheet.
fn placed(mut q: Quote, place: usize, x: f64) -> Quote {
    match place {
        0 => q.side = x as u32,
        1 => q.price = x,
        2 => q.forward = x,
        3 => q.strike = x,
        4 => q.time = x,
        _ => q.factor = x,
    }
    q
}

/// Up to three faults of tests 1 to 4 and 15, each in a place of its own or over another, on a quote that has none or that a later test refuses.
fn faulty(rng: &mut Rng) -> Quote {
    let mut q = match rng.below(3) {
        0 => desk_discounted(rng),
        1 => at_branch(rng),
        _ => rng.one_of(&later()),
    };
    for _ in 0..rng.below(4) {
        let place = rng.below(6) as usize;
        let x = match (place, rng.below(2)) {
            (0, _) => rng.one_of(&[2.0, 3.0, 256.0, 2147483648.0, 4294967295.0]),
            (2.., 0) => rng.one_of(&[0.0, -0.0, -1.0, -power(-1074), f64::MIN]),
            _ => rng.one_of(&refused_factors()[..10]),
        };
        q = placed(q, place, x);
    }
    q
}

/// Any bits in every figure; the factor is finite and above 0 in half of them.
fn any_factor(rng: &mut Rng) -> Quote {
    let q = bits(rng);
    let factor = if rng.below(2) == 0 { rng.finite().abs() } else { rng.any() };
    if rng.below(4) > 0 {
        return Quote { factor, ..q };
    }
    // The quotient is mostly inside its bound.
    let least = if q.forward < q.strike { q.forward } else { q.strike };
    Quote { price: least.abs() * rng.unit() * factor, factor, ..q }
}

/// A quote of a kind; 0 is the first that is discounted.
pub fn drawn(kind: usize, rng: &mut Rng) -> Quote {
    match kind {
        0 => desk_discounted(rng),
        1 => at_branch(rng),
        2 => about_quotient(rng),
        3 => faulty(rng),
        _ => any_factor(rng),
    }
}

/// Two quotes that demand 3 says agree: their factors are equal and the divided prices scale exactly. For the second price one next to the scaled
/// price is taken where its quotient is the same.
pub fn factor_pair(rng: &mut Rng, exchanged: bool) -> [Quote; 2] {
    loop {
        let [q, other] = pair(rng, exchanged);
        let factor = if rng.below(4) == 0 { rng.uniform(1.0, 2.0) } else { factor(rng) };
        let scaled = if exchanged { other.strike } else { other.forward };
        let n = (exponent(scaled) - exponent(q.forward)) / 2;
        let price = q.price * factor;
        let Some(quotient) = scaled_exactly(price / factor, n).filter(|_| price.is_finite()) else {
            continue;
        };
        let beside = scaled_exactly(price, n).unwrap_or(quotient * factor);
        let found = [1, -1, 0, 2, -2].map(|k| step(beside, k)).into_iter();
        if let Some(own) = found.filter(|p| p.is_finite()).find(|p| (p / factor).to_bits() == quotient.to_bits()) {
            return [Quote { price, factor, ..q }, Quote { price: own, factor, ..other }];
        }
    }
}

/// The biased exponent of a normal number above 0.
fn exponent(x: f64) -> i64 {
    (x.to_bits() >> 52) as i64
}

// ---- known quotes

/// Quotients that are exact or round to what is known: the sample's and README's, at the bound and next to it, the intrinsic value at time zero; a
/// price that its bound would refuse before the division, and one that it refuses after it; one whose asymptotic series has 15 terms.
fn examples() -> Vec<Quote> {
    let mut list = vec![
        discounted(0, 50.0, 100.0, 120.0, 1.0, 0.5),
        discounted(0, 0.0, 100.0, 120.0, 1.0, 0.5),
        discounted(1, 2.5, 100.0, 120.0, 1.0, 0.5),
        discounted(0, 150.0, 100.0, 120.0, 1.0, 2.0),
        discounted(0, 51.0, 100.0, 120.0, 1.0, 0.5),
        discounted(0, 10.0, 120.0, 100.0, 0.0, 0.5),
        discounted(0, 20.0, 120.0, 100.0, 0.0, 0.5),
        discounted(0, 40.0, 120.0, 100.0, -0.0, 2.0),
        discounted(1, -0.0, 100.0, 90.0, 1.0, 0.9),
        discounted(1, 1.0, 480.0, 400.0, 1.0, 0.25),
        discounted(0, 2.5e-37, 100.0, 120.0, 1.0, 0.5),
    ];
    list.extend([0.5, 2.0, 0.25, 0.9, 0.95, 1.05, 1.1, 3.0].map(|f| discounted(0, f, 100.0, 120.0, 1.0, f)));
    let ends = [power(-1074), step(power(-1022), -1), power(-1022), f64::MAX];
    list.extend(ends.map(|f| discounted(0, f, 100.0, 120.0, 1.0, f)));
    list.extend([0.97, 0.99, 1.03].map(|f| discounted(1, 21.5, 100.0, 120.0, 0.5, f)));
    for f in [0.95, 0.9, 1.1] {
        let at = price_for(100.0, f).unwrap_or(100.0 * f);
        list.extend([-2, -1, 0, 1, 2].map(|n| discounted(0, step(at, n), 100.0, 120.0, 1.0, f)));
    }
    list
}

/// Factors next to 1, whose quotients are one unit from the price: at the bound, and at the intrinsic value at time zero and above.
fn next_to_one() -> Vec<Quote> {
    let next = [step(1.0, -1), step(1.0, 1)];
    let list = next.map(|f| {
        [
            discounted(0, 100.0, 100.0, 120.0, 1.0, f),
            discounted(0, 20.0, 120.0, 100.0, 0.0, f),
            discounted(0, 20.0, 120.0, 100.0, 1.0, f),
        ]
    });
    list.concat()
}

/// Quotients that overflow, of both signs, at time zero and above, far beyond the end and just; and those that just do not.
fn overflowing() -> Vec<Quote> {
    let (most, tiny) = (f64::MAX, power(-1074));
    let mut list = Vec::new();
    for (price, factor) in [(most, 0.5), (1.0, tiny), (most, tiny), (most, step(1.0, -1))] {
        for time in [1.0, tiny, 0.0, -0.0] {
            list.push(discounted(0, price, 100.0, 120.0, time, factor));
            list.push(discounted(1, -price, 100.0, 120.0, time, factor));
        }
    }
    list.push(discounted(1, most, most, most, 1.0, 0.5));
    list.push(discounted(0, -most, most, tiny, 1.0, 0.5));
    list.push(discounted(0, most, most, tiny, 1.0, step(1.0, 1)));
    list.push(discounted(0, 0.5 * most, most, tiny, 1.0, 0.5));
    list.push(discounted(0, 0.5 * most, most, tiny, 0.0, 0.5));
    list.push(discounted(0, step(0.5 * most, 1), most, tiny, 1.0, 0.5));
    list
}

/// Quotients that are subnormal, exact or a tie, or 0. The call of 5 and 2 units of 2^-1074 has its halves rounded: 7 and 9 to the price 4, 11 to 6,
/// which is above its bound.
fn underflowing() -> Vec<Quote> {
    let tiny = power(-1074);
    let units = |price: f64, factor: f64| discounted(0, price, 5.0 * tiny, 2.0 * tiny, 1.0, factor);
    let mut list = Vec::new();
    for halves in [6.0, 7.0, 8.0, 9.0, 10.0, 11.0] {
        list.extend([units(halves * tiny, 2.0), units(halves * power(-52), power(1023))]);
    }
    list.extend(
        [(tiny, 2.0), (-tiny, 2.0), (3.0 * tiny, 4.0), (tiny, f64::MAX), (-1.0, f64::MAX)].map(|(p, f)| units(p, f)),
    );
    list.extend([1.0, 0.0, -0.0].map(|time| discounted(1, -tiny, 120.0, 100.0, time, 2.0)));
    list.extend([1.0, 0.0].map(|time| discounted(0, tiny, 100.0, 120.0, time, tiny)));
    list
}

/// Quotes that tests 5 to 8 refuse for their quotient.
fn later() -> [Quote; 6] {
    [
        discounted(0, 9.5, 120.0, 100.0, 0.0, 0.5),
        discounted(0, 101.0, 100.0, 120.0, 1.0, 1.0),
        discounted(0, 51.0, 100.0, 120.0, 1.0, 0.5),
        discounted(1, 5.0, 100.0, 120.0, 1.0, 1.0),
        discounted(0, -1.0, 100.0, 120.0, 1.0, 0.5),
        discounted(1, 46.037499999999994, 184.15, 92.075, 1.0, 0.5),
    ]
}

/// Every factor that is refused; every two faults of tests 1 to 4 and 15 that stand in two places; a fault on quotes that later tests refuse.
fn refused() -> Vec<Quote> {
    let good = discounted(0, 0.5, 100.0, 120.0, 1.0, 0.5);
    let mut list: Vec<Quote> = refused_factors().into_iter().map(|factor| Quote { factor, ..good }).collect();
    let (nan, infinite) = (f64::NAN, f64::INFINITY);
    let faults = [
        (0, 2.0),
        (1, nan),
        (2, infinite),
        (3, nan),
        (4, -infinite),
        (5, nan),
        (5, infinite),
        (2, 0.0),
        (3, -1.0),
        (4, -1.0),
    ];
    let faults = [&faults[..], &[(5, 0.0), (5, -0.0), (5, -1.0)]].concat();
    for (i, &(place, x)) in faults.iter().enumerate() {
        let others = faults[..i].iter().filter(|&&(other, _)| other != place);
        list.extend(others.map(|&(other, y)| placed(placed(good, other, y), place, x)));
    }
    for q in later() {
        list.push(q);
        list.extend([(5, nan), (5, 0.0), (5, -1.0), (4, -1.0)].map(|(place, x)| placed(q, place, x)));
    }
    list
}

/// What the kept sheet has of factors, beside drawn quotes.
pub fn discounts() -> Vec<Quote> {
    [examples(), next_to_one(), overflowing(), underflowing(), refused()].concat()
}

/// Every combination of a side, a time, a price and a factor at an edge, with some forwards and strikes: fixed ones, and those that put the quotient
/// at its bound, at the intrinsic value, or next to either.
fn edge_factors() -> impl Iterator<Item = Quote> {
    let all: Vec<f64> = edges().into_iter().chain(turning()).collect();
    let factors = all.clone();
    let figures = all.into_iter().flat_map(move |price| factors.clone().into_iter().map(move |factor| (price, factor)));
    figures.flat_map(|(price, factor)| {
        let size = (price / factor).abs().clamp(power(-1074), f64::MAX);
        let fixed = [(100.0, 120.0), (120.0, 100.0), (100.0, 100.0), (0.0, 100.0), (f64::MAX, power(-1074))];
        let own = [
            (size, 0.5 * size),
            (step(size, -1), 2.0 * size),
            (step(size, 1), size),
            (2.0 * size, size),
            (size, 2.0 * size),
        ];
        let pairs = fixed.into_iter().chain(own);
        pairs.flat_map(move |(forward, strike)| {
            let times = [1.0, power(-1074), 0.0, -0.0, -1.0, f64::NAN];
            let with = move |side: u32| times.map(|time| discounted(side, price, forward, strike, time, factor));
            [0, 1, 2].into_iter().flat_map(with)
        })
    })
}

/// The known quotes, and the edges.
pub fn factor_corners() -> impl Iterator<Item = Quote> {
    discounts().into_iter().chain(edge_factors())
}
