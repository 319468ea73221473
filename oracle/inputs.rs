//! Inputs for comparisons: for each function its edges, its cuts with their neighbours, each branch's inside, any bits.
//! Needs nothing of the source; the same seed gives the same inputs on every machine.

use crate::discount_inputs::{discounts, drawn, factor_pair};
use crate::standin::{exp, ln};

/// splitmix64.
pub struct Rng(u64);

impl Rng {
    pub fn new(seed: u64) -> Rng {
        Rng(seed ^ 0x5DEE_CE66_D1CE_4E5B)
    }
    pub fn bits(&mut self) -> u64 {
        self.0 = self.0.wrapping_add(0x9E37_79B9_7F4A_7C15);
        let z = (self.0 ^ (self.0 >> 30)).wrapping_mul(0xBF58_476D_1CE4_E5B9);
        let z = (z ^ (z >> 27)).wrapping_mul(0x94D0_49BB_1331_11EB);
        z ^ (z >> 31)
    }
    /// A whole number below n.
    pub fn below(&mut self, n: u64) -> u64 {
        ((self.bits() as u128 * n as u128) >> 64) as u64
    }
    /// A whole number from a to b, both inside.
    pub fn whole(&mut self, a: i64, b: i64) -> i64 {
        a + self.below((b - a + 1) as u64) as i64
    }
    pub fn any(&mut self) -> f64 {
        f64::from_bits(self.bits())
    }
    pub fn finite(&mut self) -> f64 {
        loop {
            let x = self.any();
            if x.is_finite() {
                return x;
            }
        }
    }
    /// From 0 to below 1.
    pub fn unit(&mut self) -> f64 {
        (self.bits() >> 11) as f64 * power(-53)
    }
    pub fn uniform(&mut self, a: f64, b: f64) -> f64 {
        a + (b - a) * self.unit()
    }
    /// Above 0, binary exponent from a to b, full fraction.
    pub fn magnitude(&mut self, a: i64, b: i64) -> f64 {
        let m = f64::from_bits((self.bits() >> 12) | 0x3FF0_0000_0000_0000);
        times_power(m, self.whole(a, b))
    }
    pub fn sign(&mut self) -> f64 {
        if self.bits() >> 63 == 0 { 1.0 } else { -1.0 }
    }
    pub fn one_of<T: Copy>(&mut self, list: &[T]) -> T {
        list[self.below(list.len() as u64) as usize]
    }
    /// x or a value near it, mostly within few units of its last place.
    pub fn near(&mut self, x: f64) -> f64 {
        let width = self.below(11);
        let offset = (self.bits() & ((1 << width) - 1)) as i64;
        step(x, if self.bits() >> 63 == 0 { offset } else { -offset })
    }
}

/// 2^k, also subnormal.
pub fn power(k: i64) -> f64 {
    if k < -1022 {
        f64::from_bits(1u64 << (k + 1074).max(0))
    } else {
        f64::from_bits(((k.min(1023) + 1023) as u64) << 52)
    }
}

/// x times 2^k, by two exact factors.
pub fn times_power(x: f64, k: i64) -> f64 {
    let half = k / 2;
    x * power(half) * power(k - half)
}

/// The float n places above x (below for n under 0); NaN and infinity stay.
pub fn step(x: f64, n: i64) -> f64 {
    if !x.is_finite() {
        return x;
    }
    let place = |x: f64| {
        let size = (x.to_bits() & !(1 << 63)) as i64;
        if x.is_sign_negative() { -size } else { size }
    };
    let top = f64::INFINITY.to_bits() as i64;
    let at = (place(x) + n).clamp(-top, top);
    let size = f64::from_bits(at.unsigned_abs());
    if at < 0 || (at == 0 && x.is_sign_negative()) { -size } else { size }
}

pub const NANS: [u64; 8] = [
    0x7FF8_0000_0000_0000,
    0xFFF8_0000_0000_0000,
    0x7FF0_0000_0000_0001,
    0xFFF0_0000_0000_0001,
    0x7FFF_FFFF_FFFF_FFFF,
    0xFFFF_FFFF_FFFF_FFFF,
    0x7FF4_0000_0000_0000,
    0xFFF8_0000_0000_0001,
];

/// Values where any function of floats may turn, of both signs.
pub fn edges() -> Vec<f64> {
    let positive = [
        0x0000_0000_0000_0000,
        0x0000_0000_0000_0001,
        0x0000_0000_0000_0002,
        0x0000_0000_0000_0003,
        0x0008_0000_0000_0000,
        0x000F_FFFF_FFFF_FFFE,
        0x000F_FFFF_FFFF_FFFF,
        0x0010_0000_0000_0000,
        0x0010_0000_0000_0001,
        0x0020_0000_0000_0000,
        0x3C90_0000_0000_0000,
        0x3CA0_0000_0000_0000,
        0x3CB0_0000_0000_0000,
        0x3FD0_0000_0000_0000,
        0x3FDF_FFFF_FFFF_FFFF,
        0x3FE0_0000_0000_0000,
        0x3FE0_0000_0000_0001,
        0x3FEF_FFFF_FFFF_FFFF,
        0x3FF0_0000_0000_0000,
        0x3FF0_0000_0000_0001,
        0x3FF8_0000_0000_0000,
        0x4000_0000_0000_0000,
        0x4008_0000_0000_0000,
        0x4024_0000_0000_0000,
        0x4059_0000_0000_0000,
        0x4330_0000_0000_0000,
        0x4340_0000_0000_0000,
        0x5FEF_FFFF_FFFF_FFFF,
        0x7FE0_0000_0000_0000,
        0x7FEF_FFFF_FFFF_FFFE,
        0x7FEF_FFFF_FFFF_FFFF,
        0x7FF0_0000_0000_0000,
    ];
    let mut all = Vec::new();
    for bits in positive {
        all.push(f64::from_bits(bits));
        all.push(-f64::from_bits(bits));
    }
    all.extend(NANS.map(f64::from_bits));
    all
}

/// Fewer of them, for functions of three arguments.
fn few_edges() -> Vec<f64> {
    let positive = [
        0x0000_0000_0000_0000,
        0x0000_0000_0000_0001,
        0x000F_FFFF_FFFF_FFFF,
        0x0010_0000_0000_0000,
        0x3CA0_0000_0000_0000,
        0x3FE0_0000_0000_0000,
        0x3FF0_0000_0000_0000,
        0x3FF0_0000_0000_0001,
        0x4000_0000_0000_0000,
        0x7FEF_FFFF_FFFF_FFFF,
        0x7FF0_0000_0000_0000,
    ];
    let mut all = Vec::new();
    for bits in positive {
        all.push(f64::from_bits(bits));
        all.push(-f64::from_bits(bits));
    }
    all.push(f64::NAN);
    all.push(f64::from_bits(0xFFF0_0000_0000_0001));
    all
}

// ---- cuts: where a function's text has a comparison

pub const SQRT_2: f64 = std::f64::consts::SQRT_2;
const LN_2: f64 = std::f64::consts::LN_2;
const U_MAX: f64 = 0.341_344_746_068_542_9;
pub const TAU: f64 = 2.0 * f64::from_bits(0x3FBA_E89F_995A_D3AE);
pub const ETA: f64 = -13.0;
pub const XNEG: f64 = -26.628_735_713_751_4;
pub const XBIG: f64 = 26.543;
const CODY: [f64; 3] = [0.46875, 4.0, XBIG];
const LOW_ROOTS: [f64; 4] = [2.05, 3.41, 6.7, 12.9];
pub const THRESHOLDS: [f64; 12] =
    [12.347, 12.958, 13.729, 14.718, 16.016, 17.769, 20.221, 23.816, 29.419, 38.93, 57.171, 99.347];

const EXP_CUTS: [u64; 4] = [0x4086_2E42_FEFA_39EF, 0xC087_4910_D52D_3051, 0xC086_232B_DD7A_BCD2, 0x4086_2B7D_369A_5AA7];

fn cuts(function: u32) -> Vec<f64> {
    let low = LOW_ROOTS.map(|r| exp(-r * r));
    let exps = EXP_CUTS.map(f64::from_bits);
    match function {
        3 => exps.iter().copied().chain([0.5 * LN_2, -0.5 * LN_2, 1.5 * LN_2]).collect(),
        4 => [0x3FE6_A09E_0000_0000, 0x3FF6_A09E_0000_0000].map(f64::from_bits).to_vec(),
        5 => vec![-0.25, 0.40625, 1.5, f64::from_bits(0x3FF6_A09E_0000_0000) - 1.0, 1.0],
        6 => vec![1.0, 2.0, power(51), power(52), power(53), power(62), power(63), power(64)],
        10 | 11 => CODY.iter().flat_map(|&c| [c, -c]).chain([0.0625, 25.0, -25.0]).collect(),
        12 => CODY.iter().flat_map(|&c| [c, -c]).chain([XNEG, -XNEG, -0.5, 6.71e7, 1.0e154]).collect(),
        13 => [2.0 * U_MAX, 1.0, 0.5].into_iter().chain(low.map(|p| 1.0 - 2.0 * p)).flat_map(|c| [c, -c]).collect(),
        14 => exps.iter().map(|x| -2.0 * x).collect(),
        15 => CODY
            .iter()
            .flat_map(|&c| [c * SQRT_2, -c * SQRT_2])
            .chain([-10.0, -67_108_864.0, -38.0, -1.0e154])
            .collect(),
        16 => [0.5 - U_MAX, 0.5 + U_MAX, 0.5, 1.0, 0.158_655_253_931_46]
            .into_iter()
            .chain(low)
            .chain(low.map(|p| 1.0 - p))
            .collect(),
        _ => vec![],
    }
}

/// Ranges from which arguments of a one-argument function are drawn evenly.
fn ranges(function: u32) -> &'static [(f64, f64)] {
    match function {
        1 => &[(0.0, 4.0), (0.0, 1.0e6)],
        3 => &[(-746.0, 710.0), (-1.0, 1.0), (-746.0, -707.0), (708.0, 710.0), (-40.0, 40.0)],
        4 => &[(0.0, 2.0), (0.5, 1.5), (0.0, 1.0e4)],
        5 => &[(-0.25, 1.5), (0.40, 0.42), (-1.0e-5, 1.0e-5), (-0.3, 1.6)],
        6 => &[(-4.0, 4.0), (-1.0e6, 1.0e6), (-1.0e17, 1.0e17)],
        10..=12 => &[(-0.46875, 0.46875), (0.46875, 4.0), (-4.0, -0.46875), (4.0, 26.6), (-26.7, -4.0), (-30.0, 30.0)],
        13 => &[(-1.0, 1.0), (-0.69, 0.69), (0.68, 1.0), (-1.0, -0.68), (-2.0, 2.0)],
        14 => &[(0.0, 10.0), (0.0, 1500.0), (1400.0, 1500.0), (-1430.0, 0.0)],
        15 => &[(-10.0, 10.0), (-40.0, -10.0), (-39.0, -37.0), (-1.0e3, -10.0), (-8.0e7, -1.0e7), (0.0, 40.0)],
        16 => &[(0.0, 1.0), (0.15, 0.17), (0.83, 0.86), (0.0, 1.0e-3), (0.999, 1.0), (-1.0, 2.0)],
        _ => &[(-1.0, 1.0)],
    }
}

/// What a one-argument function needs beside ranges and cuts.
fn special(function: u32, rng: &mut Rng) -> f64 {
    match function {
        1 => {
            // A square, or the square of a midpoint between two floats, and its neighbours.
            let n = (rng.bits() >> (11 + rng.below(50))) | 1;
            let twice = 2 * n as u128 + rng.below(2) as u128;
            let square = (twice * twice) as f64;
            let x = times_power(square, 2 * rng.whole(-560, 450));
            rng.near(x)
        }
        3 => {
            let k = rng.whole(-2160, 2060) as f64;
            rng.near(k * (0.5 * LN_2))
        }
        4 => {
            let cut = f64::from_bits(rng.one_of(&[0x3FE6_A09E_0000_0000, 0x3FF0_0000_0000_0000]));
            times_power(rng.near(cut), rng.whole(-1074, 1023))
        }
        5 => {
            // 1 + u next to a float where m or its binary exponent changes.
            let v = f64::from_bits(rng.one_of(&[0x3FF6_A09E_0000_0000, 0x4000_0000_0000_0000, 0x4004_0000_0000_0000]));
            let above = rng.near(v) - 1.0;
            rng.near(above)
        }
        6 => {
            let n = (rng.bits() >> rng.below(64)) as f64 + rng.one_of(&[0.0, 0.5, 0.25, 0.75]);
            let n = rng.near(n);
            n * rng.sign()
        }
        10..=12 => {
            let n = rng.whole(-430, 430) as f64 * 0.0625;
            rng.near(n)
        }
        13 => {
            let p = exp(-rng.uniform(0.0, 37.0));
            rng.near(1.0 - 2.0 * p) * rng.sign()
        }
        14 => {
            let k = rng.whole(-2060, 2160) as f64;
            rng.near(k * LN_2)
        }
        15 => {
            let n = rng.whole(-600, 600) as f64 * 0.0625 * SQRT_2;
            rng.near(n)
        }
        16 => {
            let r = rng.uniform(0.0, 27.3);
            let p = exp(-r * r);
            if rng.below(4) == 0 { 1.0 - p } else { p }
        }
        _ => rng.any(),
    }
}

fn one_argument(function: u32, cuts: &[f64], rng: &mut Rng) -> f64 {
    match rng.below(8) {
        0 => rng.any(),
        1 if !cuts.is_empty() => {
            let cut = rng.one_of(cuts);
            rng.near(cut)
        }
        2 => rng.magnitude(-70, 30) * rng.sign(),
        3 => rng.magnitude(-1080, 1023) * rng.sign(),
        4 | 5 => special(function, rng),
        _ => {
            let (a, b) = rng.one_of(ranges(function));
            rng.uniform(a, b)
        }
    }
}

// ---- functions of more arguments

fn mul_add(rng: &mut Rng) -> [f64; 3] {
    let significant = |rng: &mut Rng| {
        let cut = rng.below(53);
        let m = f64::from_bits(((rng.bits() >> 12) >> cut << cut) | 0x3FF0_0000_0000_0000);
        m * rng.sign()
    };
    match rng.below(9) {
        0 => [rng.any(), rng.any(), rng.any()],
        1 => {
            // The product nearly cancels.
            let (i, j) = (rng.whole(-500, 500), rng.whole(-500, 500));
            let (a, b) = (times_power(significant(rng), i), times_power(significant(rng), j));
            [a, b, rng.near(-(a * b))]
        }
        2 => {
            // The product is about half a unit of the addend's last place.
            let e = rng.whole(-900, 1000);
            let c = times_power(significant(rng), e);
            let i = rng.whole(-60, 60);
            let a = times_power(significant(rng), i);
            let b = times_power(rng.near(1.0), e - 53 - i + rng.whole(-2, 1)) * rng.sign();
            [if rng.below(2) == 0 { times_power(rng.sign(), i) } else { a }, b, c]
        }
        3 => {
            // The product itself is a tie or next to one.
            let n = (rng.bits() >> 38) as f64 + 0.5;
            let m = (rng.bits() >> 38) as f64 * 2.0 + 1.0;
            let e = rng.whole(-540, 480);
            let c = if rng.below(2) == 0 { 0.0 } else { times_power(rng.sign(), 2 * e + rng.whole(-120, 60)) };
            [times_power(n, e), times_power(m, e), c]
        }
        4 => {
            // Results near the subnormal range.
            let i = rng.whole(-700, 0);
            let a = times_power(significant(rng), i);
            let b = times_power(significant(rng), -1074 - i + rng.whole(-60, 60));
            let c = match rng.below(4) {
                0 => 0.0,
                1 => f64::from_bits(rng.bits() >> (11 + rng.below(52))),
                2 => -f64::from_bits(rng.bits() >> (11 + rng.below(52))),
                _ => rng.near(-(a * b)),
            };
            [a, b, c]
        }
        5 => {
            // Results near overflow.
            let i = rng.whole(0, 1000);
            let a = times_power(significant(rng), i);
            let b = times_power(significant(rng), 1023 - i + rng.whole(-2, 1));
            let c = match rng.below(3) {
                0 => rng.near(f64::MAX) * rng.sign(),
                1 => times_power(significant(rng), rng.whole(960, 1023)),
                _ => rng.near(-(a * b)),
            };
            [a, b, c]
        }
        6 => {
            // Products far from the addend, on either side.
            let c = rng.finite();
            [rng.magnitude(-1074, 1023) * rng.sign(), rng.magnitude(-1074, 1023) * rng.sign(), c]
        }
        7 => {
            let (i, j) = (rng.whole(-20, 20), rng.whole(-60, 60));
            [times_power(significant(rng), i), times_power(significant(rng), -i), times_power(significant(rng), j)]
        }
        _ => {
            let e = edges();
            let pick = |rng: &mut Rng| if rng.below(2) == 0 { rng.one_of(&e) } else { rng.any() };
            [pick(rng), pick(rng), pick(rng)]
        }
    }
}

fn two_any(rng: &mut Rng) -> [f64; 2] {
    let a = rng.any();
    match rng.below(5) {
        0 => [a, a],
        1 => [a, -a],
        2 => [a, rng.near(a)],
        3 => {
            let e = edges();
            [rng.one_of(&e), if rng.below(2) == 0 { a } else { rng.one_of(&e) }]
        }
        _ => [a, rng.any()],
    }
}

fn normalised_black(rng: &mut Rng) -> [f64; 3] {
    let t = match rng.below(5) {
        0 => rng.uniform(0.0, 0.25),
        1 => rng.uniform(0.0, 3.0),
        2 => rng.uniform(0.0, 60.0),
        3 => rng.near(TAU),
        _ => rng.magnitude(-40, 6),
    };
    let h = match rng.below(12) {
        0 => rng.near(TAU + 0.5 + ETA - t),
        1 => rng.near((t - TAU) * -26.0),
        2 | 3 => {
            let threshold = rng.one_of(&THRESHOLDS);
            rng.near(TAU + 0.5 - t - threshold)
        }
        4 => {
            let cut = rng.one_of(&[-13.0, -4.0, -0.46875, 0.0, 0.46875, 4.0, 13.0]);
            rng.near(cut)
        }
        5 => {
            let q = rng.one_of(&[0.46875, -0.46875, 4.0, XBIG, XNEG]);
            rng.near(-q * SQRT_2 - t)
        }
        6 => {
            let q = rng.one_of(&[0.46875, -0.46875, 4.0, XBIG, XNEG]);
            rng.near(-q * SQRT_2 + t)
        }
        7 => rng.uniform(-130.0, -12.0),
        8 => rng.uniform(-13.0, 0.0),
        9 => rng.uniform(-40.0, 40.0),
        10 => -rng.magnitude(-60, 12),
        _ => {
            let x = rng.magnitude(-40, 9);
            -x / (2.0 * t)
        }
    };
    match rng.below(10) {
        0 => [rng.any(), rng.any(), rng.any()],
        1 => [rng.uniform(-10.0, 10.0), h, t],
        2 => [rng.any(), h, t],
        3 => [-rng.magnitude(-10, 10), h, rng.any()],
        _ => [h * t, h, t],
    }
}

/// A forward and a strike, mostly above 0.
pub fn forward_and_strike(rng: &mut Rng) -> [f64; 2] {
    let f = match rng.below(4) {
        0 => f64::from_bits(1 + rng.below(16)),
        1 => f64::from_bits(rng.bits() >> (11 + rng.below(52))),
        2 => rng.magnitude(-1022, 1023),
        _ => rng.magnitude(-10, 20),
    };
    [f, strike_beside(rng, f)]
}

/// A strike at a branch of its log-moneyness with the forward f, next to one, or anywhere.
pub fn strike_beside(rng: &mut Rng, f: f64) -> f64 {
    match rng.below(10) {
        0 => f,
        1 => rng.near(f),
        2 => rng.near(f * 0.5),
        3 => rng.near(f * 2.0),
        4 => f * rng.uniform(0.5, 2.0),
        5 => f * rng.uniform(0.0, 1.0),
        6 => {
            let far = times_power(f, rng.one_of(&[-1022, 1022, -1021, 1021, -1023, 1023]));
            rng.near(far)
        }
        7 => times_power(f, rng.whole(-1100, 1100)) * rng.uniform(0.5, 1.0),
        8 => f64::from_bits(1 + rng.below(32)),
        _ => rng.magnitude(-1074, 1023),
    }
}

fn moneyness_pair(rng: &mut Rng) -> [f64; 2] {
    match rng.below(8) {
        0 => [rng.any(), rng.any()],
        1 => {
            let e = edges();
            [rng.one_of(&e), rng.one_of(&e)]
        }
        2 => {
            let [f, k] = forward_and_strike(rng);
            [-f, k * rng.sign()]
        }
        _ => forward_and_strike(rng),
    }
}

/// A log-moneyness and a normalised price below, at or next to its bound.
fn normalised_quote(rng: &mut Rng) -> [f64; 2] {
    let x = match rng.below(10) {
        0 => 0.0,
        1 => rng.magnitude(-1074, -1000),
        2 => rng.magnitude(-1000, -60),
        3 => rng.magnitude(-60, -1),
        4 => rng.uniform(0.0, 1490.0),
        5 => rng.uniform(1400.0, 1495.0),
        _ => rng.uniform(0.0, 3.0),
    };
    let bound = exp(-0.5 * x);
    let share = match rng.below(10) {
        0 => rng.near(1.0e-5),
        1 => rng.magnitude(-1074, -1),
        2 => rng.magnitude(-80, -1),
        3 => 1.0 - rng.magnitude(-56, -1),
        4 => rng.magnitude(-20, -17),
        5 => rng.near(1.0),
        _ => rng.unit(),
    };
    let price = match rng.below(20) {
        0 => rng.near(bound),
        1 => f64::from_bits(rng.bits() >> (11 + rng.below(52))),
        _ => bound * share,
    };
    match rng.below(25) {
        0 => [rng.any(), rng.any()],
        1 => [x, -price],
        2 => [x, rng.any()],
        _ => [x * rng.sign(), price],
    }
}

/// A point and a mean of the inverse Gaussian distribution.
fn distribution_pair(rng: &mut Rng) -> [f64; 2] {
    let mu = match rng.below(6) {
        0 => rng.magnitude(-1074, 1023),
        1 => rng.magnitude(-60, 60),
        2 => rng.near(1.0e3 / 1.5),
        _ => rng.magnitude(-8, 12),
    };
    let x = match rng.below(8) {
        0 => rng.magnitude(-1074, 1023),
        1 => rng.magnitude(-60, 60),
        2 => rng.near(mu),
        3 => {
            // √x / mu - 1/√x at a cut of norm_cdf.
            let a = rng.one_of(&[-10.0, -0.46875 * SQRT_2, 0.46875 * SQRT_2, -4.0 * SQRT_2, 4.0 * SQRT_2, -37.5]);
            let root = 0.5 * (a * mu + (a * a * mu * mu + 4.0 * mu).sqrt());
            rng.near(root * root)
        }
        4 => rng.uniform(0.0, 2.0 * mu),
        _ => mu * rng.magnitude(-12, 12),
    };
    match rng.below(20) {
        0 => [rng.any(), rng.any()],
        1 => {
            let e = edges();
            [rng.one_of(&e), rng.one_of(&e)]
        }
        2 => [x, rng.any()],
        3 => [rng.any(), mu],
        _ => [x, mu],
    }
}

/// A probability and a mean, for the two quantile searches.
fn quantile_pair(rng: &mut Rng) -> [f64; 2] {
    let mu = match rng.below(40) {
        0 => rng.magnitude(-1074, 1023),
        1 => rng.magnitude(-100, 100),
        2..=5 => rng.near(1.0e3 / 1.5),
        _ => rng.magnitude(-8, 16),
    };
    let p = match rng.below(12) {
        0 => rng.magnitude(-1074, -1),
        1 => 1.0 - rng.magnitude(-53, -1),
        2 => rng.near(1.0e-5),
        3 => rng.near(1.0 - 1.0e-5),
        4 => exp(rng.near(-11.51)),
        5 => exp(-rng.magnitude(-20, -14)),
        6 => rng.magnitude(-60, -16),
        // Where a curve has few values, it meets the probability exactly.
        7 => f64::from_bits(1 + rng.below(64)),
        8 => 1.0 - (1 + rng.below(64)) as f64 * power(-53),
        _ => rng.unit(),
    };
    match rng.below(40) {
        0 => [rng.any(), mu],
        1 => [p, rng.any()],
        _ => [p, mu],
    }
}

/// The requirements' keystrokes and examples, and for more arguments than one the signs, infinities and NaN together.
fn keystrokes(function: u32) -> Vec<[f64; 3]> {
    let tiny = power(-1074);
    let mut list = match function {
        1 => vec![[4.0, 0.0, 0.0], [tiny, 0.0, 0.0]],
        2 => vec![[1.0 + power(-30), 1.0 - power(-30), -1.0]],
        3 => vec![[0.0; 3]],
        4 => vec![[1.0, 0.0, 0.0]],
        5 => vec![[1.5, 0.0, 0.0]],
        6 => vec![[-0.5, 0.0, 0.0]],
        8 => vec![[f64::NAN, 0.0, 0.0]],
        17 => vec![[-1.0, -1.0, 0.0]],
        18 => vec![[5.0 * tiny, 2.0 * tiny, 0.0]],
        19 => vec![[0.0, 2.0, 0.0], [tiny, 0.5, 0.0]],
        _ => vec![],
    };
    let signs = [0.0, -0.0, 1.0, -1.0, f64::INFINITY, f64::NEG_INFINITY, f64::NAN];
    for a in signs {
        for b in signs {
            match function {
                2 => list.extend(signs.map(|c| [a, b, c])),
                8 | 9 => list.push([a, b, 0.0]),
                _ => (),
            }
        }
    }
    list
}

/// The inputs of one function: its keystrokes and edges, then drawn ones without end. Functions 22 and 23 are the two
/// quantile searches, beyond the numbers of `vectors`: probability and mu.
pub struct Inputs {
    function: u32,
    rng: Rng,
    cuts: Vec<f64>,
    first: Vec<[f64; 3]>,
    at: usize,
}

impl Inputs {
    pub fn new(function: u32, seed: u64) -> Inputs {
        let cuts = cuts(function);
        let first = Inputs::edges(function, &cuts);
        Inputs { function, rng: Rng::new(seed), cuts, first, at: 0 }
    }

    /// The keystrokes, as many edges as make half of `count`, spread evenly over them, and drawn ones.
    pub fn sample(function: u32, seed: u64, count: usize) -> Vec<[f64; 3]> {
        let mut inputs = Inputs::new(function, seed);
        let mut records = keystrokes(function);
        let first = std::mem::take(&mut inputs.first).split_off(records.len());
        let edges = first.len().min((count / 2).saturating_sub(records.len()));
        records.extend((0..edges).map(|i| first[i * first.len() / edges]));
        records.extend((records.len()..count).map(|_| inputs.next()));
        records
    }

    fn edges(function: u32, cuts: &[f64]) -> Vec<[f64; 3]> {
        let mut list = keystrokes(function);
        match function {
            2 | 17 => {
                for a in few_edges() {
                    for b in few_edges() {
                        list.extend(few_edges().into_iter().map(|c| [a, b, c]));
                    }
                }
            }
            8 | 9 | 18..=23 => {
                for a in edges() {
                    list.extend(edges().into_iter().map(|b| [a, b, 0.0]));
                }
            }
            _ => {
                let near = cuts.iter().flat_map(|&c| (-4..=4).map(move |n| step(c, n)));
                list.extend(edges().into_iter().chain(near).map(|a| [a, 0.0, 0.0]));
            }
        }
        list
    }

    pub fn next(&mut self) -> [f64; 3] {
        if let Some(edge) = self.first.get(self.at) {
            self.at += 1;
            return *edge;
        }
        let rng = &mut self.rng;
        let pair = |[a, b]: [f64; 2]| [a, b, 0.0];
        match self.function {
            2 => mul_add(rng),
            7 => [rng.any(), 0.0, 0.0],
            8 | 9 => pair(two_any(rng)),
            17 => normalised_black(rng),
            18 => pair(moneyness_pair(rng)),
            19 => pair(normalised_quote(rng)),
            20 | 21 => pair(distribution_pair(rng)),
            22 | 23 => pair(quantile_pair(rng)),
            _ => [one_argument(self.function, &self.cuts, rng), 0.0, 0.0],
        }
    }
}

// ---- quotes

#[derive(Clone, Copy, Debug)]
pub struct Quote {
    pub side: u32,
    pub price: f64,
    pub forward: f64,
    pub strike: f64,
    pub time: f64,
    pub factor: f64,
}

/// The factor of a quote that is not discounted.
pub const UNDISCOUNTED: f64 = 1.0;

/// The first seven are not discounted.
pub const KINDS: [&str; 14] = [
    "desk",
    "edges",
    "neighbours",
    "subnormals",
    "bits",
    "scaled",
    "exchanged",
    "discounted",
    "factors",
    "quotients",
    "faults",
    "factor-bits",
    "factor-scaled",
    "factor-exchanged",
];

/// How many kinds are not discounted.
pub const PLAIN_KINDS: usize = 7;

/// A quote that is not discounted.
pub fn quote(side: u32, price: f64, forward: f64, strike: f64, time: f64) -> Quote {
    Quote { side, price, forward, strike, time, factor: UNDISCOUNTED }
}

/// The normal distribution, to seven digits: enough for a plausible price.
fn normal(z: f64) -> f64 {
    let y = (z / SQRT_2).abs();
    let t = 1.0 / (1.0 + 0.5 * y);
    let series = [
        -1.26551223,
        1.00002368,
        0.37409196,
        0.09678418,
        -0.18628806,
        0.27886807,
        -1.13520398,
        1.48851587,
        -0.82215223,
        0.17087277,
    ];
    let tail = 0.5 * t * exp(-y * y + series.iter().rev().fold(0.0, |sum, c| sum * t + c));
    if z > 0.0 { 1.0 - tail } else { tail }
}

/// A plausible price.
pub fn black(side: u32, forward: f64, strike: f64, total: f64) -> f64 {
    let d = ln(forward / strike) / total;
    let (d1, d2) = (d + 0.5 * total, d - 0.5 * total);
    let price = if side == 0 {
        forward * normal(d1) - strike * normal(d2)
    } else {
        strike * normal(-d2) - forward * normal(-d1)
    };
    if price > 0.0 { price } else { 0.0 }
}

/// As a trader keys it: a forward, a strike of a listed step, days to expiry, a price in ticks or in full.
pub fn desk(rng: &mut Rng) -> Quote {
    let forward = rng.one_of(&[1.1, 20.0, 100.0, 2500.0, 40000.0]) * rng.uniform(0.5, 2.0);
    let forward = if rng.below(3) == 0 { forward } else { (forward * 100.0).round() / 100.0 };
    let volatility = rng.one_of(&[0.05, 0.1, 0.2, 0.4, 0.8, 1.5]) * rng.uniform(0.7, 1.4);
    let time = rng.one_of(&[1.0, 7.0, 30.0, 91.0, 182.0, 365.0, 730.0, 3650.0]) / 365.0 * rng.uniform(0.5, 1.0);
    let total = volatility * time.sqrt();
    let wide = rng.one_of(&[0.0, 0.5, 1.0, 2.0, 4.0]);
    let strike = forward * exp(total * wide * rng.uniform(-1.0, 1.0));
    let step = rng.one_of(&[0.0, 0.01, 0.5, 1.0, 5.0]);
    let strike = if step > 0.0 && strike > step { (strike / step).round() * step } else { strike };
    let side = rng.below(2) as u32;
    let price = black(side, forward, strike, total);
    let tick = rng.one_of(&[0.0, 0.0, 0.0001, 0.01, 0.05]);
    let price = if tick > 0.0 { (price / tick).round() * tick } else { price };
    quote(side, price, forward, strike, time)
}

/// A price next to a branch of a quote, whose own is q's: intrinsic, bound, no time value, 1e-5 and b_max of the normalised price.
pub fn edge_price(rng: &mut Rng, q: Quote) -> f64 {
    let (bound, intrinsic) =
        if q.side == 0 { (q.forward, q.forward - q.strike) } else { (q.strike, q.strike - q.forward) };
    let floor = if intrinsic > 0.0 { intrinsic } else { 0.0 };
    let roots = q.forward.sqrt() * q.strike.sqrt();
    let small = if q.forward < q.strike { q.forward } else { q.strike };
    match rng.below(14) {
        0 => rng.near(bound),
        1 => rng.near(floor),
        2 => floor,
        3 => rng.near(floor + f64::MIN_POSITIVE * roots),
        4 => rng.near(floor + 1.0e-5 * small),
        5 => floor + small * rng.magnitude(-1074, -1),
        6 => floor + small * (1.0 - rng.magnitude(-56, -1)),
        7 => rng.near(floor + small),
        8 => rng.one_of(&edges()),
        9 => -q.price,
        _ => floor + small * rng.unit(),
    }
}

/// A quote next to a branch.
pub fn edge(rng: &mut Rng) -> Quote {
    let mut q = desk(rng);
    if rng.below(3) == 0 {
        [q.forward, q.strike] = forward_and_strike(rng);
    }
    match rng.below(12) {
        0 => q.strike = q.forward,
        1 => q.strike = rng.near(q.forward),
        2 => {
            let factor = rng.one_of(&[0.5, 2.0]);
            q.strike = rng.near(q.forward * factor);
        }
        _ => (),
    }
    q.price = edge_price(rng, q);
    q.time = match rng.below(12) {
        0 => 0.0,
        1 => -0.0,
        2 => f64::from_bits(1 + rng.below(4)),
        3 => rng.near(f64::MAX),
        4 => rng.one_of(&edges()),
        5 => -q.time,
        6 => rng.magnitude(-1074, 1023),
        _ => q.time,
    };
    match rng.below(40) {
        0 => q.side = rng.one_of(&[2, 3, 255, 256, 1 << 31, u32::MAX]),
        1 => q.forward = rng.one_of(&edges()),
        2 => q.strike = rng.one_of(&edges()),
        _ => (),
    }
    q
}

pub fn neighbour(rng: &mut Rng) -> Quote {
    let mut q = desk(rng);
    match rng.below(4) {
        0 => q.price = rng.near(q.price),
        1 => q.forward = rng.near(q.strike),
        2 => q.strike = rng.near(q.forward),
        _ => q.time = rng.near(q.time),
    }
    if q.forward == q.strike || rng.below(3) == 0 {
        let gap = if q.side == 0 { q.forward - q.strike } else { q.strike - q.forward };
        let time_value = q.forward * rng.magnitude(-60, -1);
        q.price = rng.near(if gap > 0.0 { gap + time_value } else { time_value });
    }
    q
}

pub fn subnormal(rng: &mut Rng) -> Quote {
    let small = |rng: &mut Rng| {
        let width = rng.below(53);
        f64::from_bits((rng.bits() >> (11 + width)) + 1)
    };
    let (forward, strike) = (small(rng), small(rng));
    let side = rng.below(2) as u32;
    let gap = if side == 0 { forward - strike } else { strike - forward };
    let floor = if gap > 0.0 { gap } else { 0.0 };
    let least = if forward < strike { forward } else { strike };
    let price = match rng.below(4) {
        0 => small(rng),
        1 => floor,
        _ => floor + least * rng.unit(),
    };
    let time = if rng.below(4) == 0 { small(rng) } else { rng.magnitude(-10, 4) };
    quote(side, price, forward, strike, time)
}

pub fn bits(rng: &mut Rng) -> Quote {
    let side = if rng.below(10) == 0 { rng.bits() as u32 } else { rng.below(2) as u32 };
    let positive = rng.below(2) == 0;
    let figure = |rng: &mut Rng| if positive { rng.finite().abs() } else { rng.any() };
    quote(side, figure(rng), figure(rng), figure(rng), figure(rng))
}

/// x times 4^n where that is exact and, for a forward or strike, at least 2^-1022.
pub fn scaled_exactly(x: f64, n: i64) -> Option<f64> {
    let y = times_power(x, 2 * n);
    (y.is_finite() && times_power(y, -2 * n).to_bits() == x.to_bits() && (x == 0.0) == (y == 0.0)).then_some(y)
}

/// Two quotes that demand 3 says agree: the second scaled by 4^n, and with call and put exchanged where asked.
pub fn pair(rng: &mut Rng, exchanged: bool) -> [Quote; 2] {
    loop {
        let mut q = match rng.below(4) {
            0 => desk(rng),
            1 => neighbour(rng),
            _ => edge(rng),
        };
        if rng.below(3) == 0 {
            let k = rng.whole(-1000, 1000);
            q.price = times_power(q.price, k);
            q.forward = times_power(q.forward, k);
            q.strike = times_power(q.strike, k);
        }
        q.price = if rng.below(50) == 0 { -0.0 } else { q.price.abs() };
        q.time = if rng.below(10) == 0 { 0.0 } else { q.time.abs() };
        let side = if q.side < 2 && exchanged { 1 - q.side } else { q.side };
        let time = if q.time == 0.0 { rng.one_of(&[0.0, -0.0]) } else { rng.one_of(&[q.time, 1.0, 0.3, 1.0e-300]) };
        let n = match rng.below(3) {
            0 => rng.whole(-3, 3),
            1 => rng.whole(-500, 500),
            _ => rng.whole(-1030, 1030),
        };
        let fit = |x: f64| x.is_finite() && x >= f64::MIN_POSITIVE;
        let ratio = |a: f64, b: f64| times_power(a, -1022) <= b;
        let (Some(price), Some(forward), Some(strike)) =
            (scaled_exactly(q.price, n), scaled_exactly(q.forward, n), scaled_exactly(q.strike, n))
        else {
            continue;
        };
        let figures = [q.forward, q.strike, forward, strike];
        if !figures.iter().all(|&x| fit(x)) || !ratio(q.forward, q.strike) || !ratio(q.strike, q.forward) {
            continue;
        }
        if !q.price.is_finite() || !q.time.is_finite() {
            continue;
        }
        let (forward, strike) = if exchanged { (strike, forward) } else { (forward, strike) };
        return [q, quote(side, price, forward, strike, time)];
    }
}

/// A quote whose search is taken: a time value above 0 and below its bound, under 1e-5 of it for the survival path.
fn searched(rng: &mut Rng, on_survival_path: bool) -> Quote {
    let mut q = desk(rng);
    if q.strike == q.forward {
        q.strike = step(q.forward, 1 + rng.below(9) as i64);
    }
    let least = if q.forward < q.strike { q.forward } else { q.strike };
    let gap = if q.side == 0 { q.forward - q.strike } else { q.strike - q.forward };
    let share = match (on_survival_path, rng.below(3)) {
        (true, 0) => rng.magnitude(-18, -17),
        (true, 1) => rng.magnitude(-60, -18),
        (true, _) => rng.magnitude(-1000, -18),
        (false, 0) => 1.0 - rng.magnitude(-52, -1),
        (false, 1) => rng.magnitude(-16, -1),
        (false, _) => rng.unit(),
    };
    // Added to an intrinsic value, a small time value would be lost.
    if gap > 0.0 && share < 1.0e-4 {
        q.side = 1 - q.side;
    }
    q.price = if gap > 0.0 && share >= 1.0e-4 { gap + least * share } else { least * share };
    q
}

/// Two quotes, each followed by itself with price, forward and strike doubled. The first two have other totals; of the other two one is
/// refused and one is answered. Only scaling by 4^n keeps a quote's total and refusal.
fn doubled() -> [Quote; 4] {
    let below = 1.0 - power(-53);
    [
        quote(0, 1.0, 2.0, 2.0, 1.0),
        quote(0, 2.0, 4.0, 4.0, 1.0),
        quote(0, below, 1.0, 18.0, 1.0),
        quote(0, 2.0 * below, 2.0, 36.0, 1.0),
    ]
}

/// The quotes of docs/REQUIREMENTS.md: the sample sheet, the table's examples with one for 8, and the keystrokes.
pub fn examples() -> Vec<Quote> {
    let tiny = power(-1074);
    vec![
        quote(0, 0.0, 100.0, 120.0, 1.0),
        quote(0, 100.0, 100.0, 120.0, 1.0),
        quote(1, 5.0, 100.0, 120.0, 1.0),
        quote(2, 1.0, 100.0, 100.0, 1.0),
        quote(0, f64::NAN, 100.0, 100.0, 1.0),
        quote(0, 1.0, 0.0, 100.0, 1.0),
        quote(0, 1.0, 100.0, 100.0, -1.0),
        quote(0, 19.0, 120.0, 100.0, 0.0),
        quote(0, 101.0, 100.0, 120.0, 1.0),
        quote(1, 92.07499999999999, 184.15, 92.075, 1.0),
        quote(0, 20.0, 120.0, 100.0, 0.0),
        quote(0, step(100.0, 1), 100.0, 120.0, 1.0),
        quote(0, 1.0, 100.0, 120.0, 1.0),
        quote(1, 4.0, 480.0, 400.0, 1.0),
        quote(0, 4.0 * tiny, 5.0 * tiny, 2.0 * tiny, 1.0),
        quote(1, tiny, 5.0 * tiny, 2.0 * tiny, 1.0),
    ]
}

/// The quote with the most evaluations, 102, of 20 million whose strike is next to its forward and whose price is close under 1e-5 of it.
fn longest() -> Quote {
    quote(0, 1.605782568808638e-5, 1.7887685143148444, 1.7887685143148446, 1.0)
}

/// Minus zero as price and as time, and a time value that divides to minus zero.
fn minus_zeros() -> Vec<Quote> {
    let tiny = power(-1074);
    let mut list = vec![
        quote(0, 20.0, 120.0, 100.0, -0.0),
        quote(0, 19.0, 120.0, 100.0, -0.0),
        quote(0, -tiny, 1.0, 1.0, 1.0),
        quote(0, -tiny, 4.0, 4.0, 1.0),
        quote(1, -tiny, 4.0, 4.0, 1.0),
        quote(0, 1.0, -0.0, 100.0, 1.0),
        quote(0, 1.0, 100.0, -0.0, 1.0),
    ];
    for (forward, strike) in [(100.0, 120.0), (120.0, 100.0), (100.0, 100.0)] {
        for time in [1.0, 0.0, -0.0] {
            list.extend([0, 1].map(|side| quote(side, -0.0, forward, strike, time)));
        }
    }
    list
}

/// Each figure NaN, infinite, zero or below zero, for every side and for two figures at once: the order of tests 1 to 4.
fn refused() -> Vec<Quote> {
    let place = |figures: [f64; 4], side: u32| quote(side, figures[0], figures[1], figures[2], figures[3]);
    let good = [1.0, 100.0, 120.0, 1.0];
    let bad = NANS.map(f64::from_bits).into_iter().chain([f64::INFINITY, f64::NEG_INFINITY, 0.0, -1.0]);
    let mut list = Vec::new();
    for (n, x) in bad.enumerate() {
        for i in 0..4 {
            let mut figures = good;
            figures[i] = x;
            list.push(place(figures, (n % 2) as u32));
        }
    }
    for side in [2, 3, 256, 1 << 31, u32::MAX] {
        list.push(place([f64::NAN, 0.0, 100.0, -1.0], side));
    }
    list.push(place([f64::NAN, 0.0, 120.0, -1.0], 0));
    list.push(place([1.0, 100.0, 0.0, f64::INFINITY], 1));
    list.push(place([1.0, 0.0, 120.0, -1.0], 0));
    list.push(place([1.0, 100.0, -1.0, -1.0], 1));
    list
}

/// A price at its bound: the forward of a call, the strike of a put.
pub fn at_bound(side: u32, forward: f64, strike: f64, time: f64) -> Quote {
    quote(side, if side == 0 { forward } else { strike }, forward, strike, time)
}

fn one_below(q: Quote) -> Quote {
    Quote { price: step(q.price, -1), ..q }
}

/// Infinite answers to prices below their bound: the normalised time value is b_max. The last four are 1,024 and 1,008 units of the last place
/// below it, the most that searches found.
fn infinite_below() -> Vec<Quote> {
    let near = [(0, 161.55, 305.0), (1, 61550.33, 61442.0), (0, 1.72, 1.5), (1, 0.96, 1.07), (0, 1.37, 1.37)];
    let mut list = near.map(|(side, forward, strike)| one_below(at_bound(side, forward, strike, 1.0))).to_vec();
    for time in [1.0, power(-1074)] {
        list.push(quote(0, 9.33027772204502e-302, 9.330277722046081e-302, 4.492660548857649e302, time));
        list.push(quote(1, 1.8652984766675849e-301, 1.1946529610980787e307, 1.8652984766677938e-301, time));
    }
    list
}

/// Quotes that a wrong tally would count otherwise. Infinite: prices at their bound, and some below. Finite: prices one unit below their bound;
/// the largest finite total that searches found, 81.10; a normalised time value that is b_max, but not above 2^-1022; and at time zero prices
/// at a bound that is the intrinsic value too, 1 - 2^-1074 being rounded to 1. Of a total, the volatility is largest at time 2^-1074.
pub fn limits() -> Vec<Quote> {
    let tiny = power(-1074);
    let mut list = Vec::new();
    for (side, forward, strike) in [(0, 100.0, 120.0), (1, 100.0, 120.0), (0, 120.0, 100.0), (1, 120.0, 100.0)] {
        let at = |time: f64| at_bound(side, forward, strike, time);
        list.extend([1.0, tiny, 1.0e-300, 1.0e300, f64::MAX].map(at));
        list.extend([1.0, tiny, f64::MAX].map(at).map(one_below));
    }
    list.extend(infinite_below());
    let largest = |time: f64| quote(0, 2.66496037618741e-75, 2.6649603761874105e-75, 1.0291550148874028e-5, time);
    list.extend([1.0, tiny].map(largest));
    list.push(quote(0, 2.524044225599714e-308, 2.524044225599785e-308, 1.1281144856750468e308, 1.0));
    for time in [0.0, -0.0, 1.0] {
        list.extend([at_bound(0, 1.0, tiny, time), at_bound(1, tiny, 1.0, time)]);
    }
    list
}

/// Examples, the longest search, minus zeros and refusals.
pub fn known() -> Vec<Quote> {
    [examples(), doubled().to_vec(), vec![longest()], minus_zeros(), refused()].concat()
}

/// How many quotes of the kept sheet are of kinds that are not discounted; they come first. With so many, a part that the program prints ends where
/// the next line lacks one byte of room.
const UNDISCOUNTED_KEPT: usize = 710;

/// The quotes of the sheet that the repository keeps: 1,000.
pub fn kept(seed: u64) -> Vec<Quote> {
    let mut list = [known(), limits()].concat();
    let mut rng = Rng::new(seed);
    for on_survival_path in [true, false] {
        list.extend((0..125).map(|_| searched(&mut rng, on_survival_path)));
    }
    let mut kinds: Vec<Quotes> = (0..KINDS.len()).map(|kind| Quotes::new(kind, seed)).collect();
    let (plain, discounted) = kinds.split_at_mut(PLAIN_KINDS);
    list.extend((list.len()..UNDISCOUNTED_KEPT).map(|i| plain[i % plain.len()].next()));
    list.extend(discounts());
    list.extend((list.len()..1000).map(|i| discounted[i % discounted.len()].next()));
    list
}

/// Every combination of a side, a forward, a strike and a time at an edge with a price at an edge or next to a branch of that quote; all
/// are on the requirements' domain.
pub fn corners() -> impl Iterator<Item = Quote> {
    let above: Vec<f64> = edges().into_iter().filter(|&x| x.is_finite() && x > 0.0).collect();
    let times = [0.0, -0.0, power(-1074), f64::MIN_POSITIVE, 0.25, 1.0, 2.0, f64::MAX];
    let (forwards, strikes) = (above.clone(), above);
    let pairs = forwards.into_iter().flat_map(move |f| strikes.clone().into_iter().map(move |k| (f, k)));
    pairs.flat_map(move |(forward, strike)| {
        [0, 1].into_iter().flat_map(move |side| {
            let prices = corner_prices(side, forward, strike);
            prices.into_iter().flat_map(move |price| times.map(|time| quote(side, price, forward, strike, time)))
        })
    })
}

fn corner_prices(side: u32, forward: f64, strike: f64) -> Vec<f64> {
    let (bound, gap) = if side == 0 { (forward, forward - strike) } else { (strike, strike - forward) };
    let floor = if gap > 0.0 { gap } else { 0.0 };
    let least = if forward < strike { forward } else { strike };
    let roots = forward.sqrt() * strike.sqrt();
    let branches = [bound, floor, floor + least, floor + f64::MIN_POSITIVE * roots, floor + 1.0e-5 * least];
    let near = branches.iter().flat_map(|&x| [step(x, -1), x, step(x, 1)]);
    let inside = [1.0e-300, 1.0e-12, 0.125, 0.5, 0.875].map(|share| floor + least * share);
    near.chain(inside).chain(edges()).filter(|x| x.is_finite()).collect()
}

/// Quotes of one kind, without end; a pair's two quotes follow each other.
pub struct Quotes {
    kind: usize,
    rng: Rng,
    second: Option<Quote>,
}

impl Quotes {
    /// `kind` is a place in KINDS.
    pub fn new(kind: usize, seed: u64) -> Quotes {
        Quotes { kind, rng: Rng::new(seed ^ ((kind as u64 + 1) << 56)), second: None }
    }

    pub fn next(&mut self) -> Quote {
        if let Some(second) = self.second.take() {
            return second;
        }
        let rng = &mut self.rng;
        match self.kind {
            0 => desk(rng),
            1 => edge(rng),
            2 => neighbour(rng),
            3 => subnormal(rng),
            4 => bits(rng),
            7..=11 => drawn(self.kind - PLAIN_KINDS, rng),
            kind => {
                let drawn_pair = if kind < PLAIN_KINDS { pair } else { factor_pair };
                let [q, other] = drawn_pair(rng, kind % PLAIN_KINDS == 6);
                self.second = Some(other);
                q
            }
        }
    }
}
