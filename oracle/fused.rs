//! Our mul_add beside the processor's fused multiply-add, on edges and on drawn cases.

use std::process::exit;

unsafe extern "C" {
    fn quoter_mul_add(x: f64, a: f64, b: f64) -> f64;
}

const SIGN: u64 = 1 << 63;
const FRACTION: u64 = (1 << 52) - 1;
const SHOWN: u64 = 5;

#[target_feature(enable = "fma")]
fn fused(x: f64, a: f64, b: f64) -> f64 {
    x.mul_add(a, b)
}

fn pattern(x: f64) -> u64 {
    if x.is_nan() { 0x7FF8_0000_0000_0000 } else { x.to_bits() }
}

/// Counts cases and differences.
struct Tally {
    run: u64,
    differ: u64,
}

impl Tally {
    fn case(&mut self, x: u64, a: u64, b: u64) {
        let (p, q, r) = (f64::from_bits(x), f64::from_bits(a), f64::from_bits(b));
        let ours = pattern(unsafe { quoter_mul_add(p, q, r) });
        let theirs = pattern(unsafe { fused(p, q, r) });
        self.run += 1;
        if ours != theirs {
            self.differ += 1;
            if self.differ <= SHOWN {
                println!("  {x:016x} {a:016x} {b:016x}\n    ours      {ours:016x}\n    processor {theirs:016x}");
            }
        }
    }

    fn told(&self, what: &str) {
        println!("{what}: {} run, {} differ", self.run, self.differ);
    }
}

/// xorshift64 by 13, 7 and 17, times an odd number.
struct Rng(u64);

impl Rng {
    fn bits(&mut self) -> u64 {
        self.0 ^= self.0 << 13;
        self.0 ^= self.0 >> 7;
        self.0 ^= self.0 << 17;
        self.0.wrapping_mul(0x2545_F491_4F6C_DD1D)
    }

    fn below(&mut self, n: u64) -> u64 {
        (self.bits() >> 32) % n
    }

    /// A pattern with this field of the exponent, moved into the finite ones; in half of the cases the last digits are 0.
    fn with_field(&mut self, field: i64) -> u64 {
        let mut fraction = self.bits() & FRACTION;
        if self.below(2) == 0 {
            fraction &= FRACTION << self.below(53);
        }
        (self.bits() & SIGN) | (field.clamp(0, 2046) as u64) << 52 | (fraction & FRACTION)
    }
}

fn patterns(fields: &[u64], fractions: &[u64]) -> Vec<u64> {
    let signed = fields.iter().flat_map(|field| fractions.iter().map(move |fraction| field << 52 | fraction));
    signed.flat_map(|bits| [bits, bits | SIGN]).collect()
}

/// Zeros, the smallest and the largest values, those beside 1, infinities and NaNs.
fn few_edges() -> Vec<u64> {
    patterns(&[0, 1, 2, 1022, 1023, 1024, 2045, 2046, 2047], &[0, 1, 1 << 51, FRACTION])
}

fn many_edges() -> Vec<u64> {
    let fields = [0, 1, 2, 3, 20, 21, 51, 52, 53, 54, 64, 65, 500, 511, 512, 513, 969, 970, 971, 1021, 1022, 1023, 1024, 1025, 1074, 1075];
    let more = [1076, 1086, 1087, 1088, 1500, 1534, 1535, 1536, 2000, 2044, 2045, 2046, 2047];
    let fractions = [0, 1, 2, 3, 1 << 26, 1 << 51, FRACTION - 1, FRACTION, FRACTION >> 1, 0x5_5555_5555_5555];
    patterns(&[&fields[..], &more].concat(), &fractions)
}

/// Cases about one pair of factors: the addend near the product or its negation, far from it, and any.
fn drawn(rng: &mut Rng, tally: &mut Tally) {
    let ends = [0, 1, 2, 2044, 2045, 2046];
    let field = |rng: &mut Rng| if rng.below(4) == 0 { ends[rng.below(6) as usize] } else { rng.below(2047) as i64 };
    let (i, j) = (field(rng), field(rng));
    let (x, a) = (rng.with_field(i), rng.with_field(j));
    let nearby = i + j - 1023 + rng.below(260) as i64 - 130;
    let b = rng.with_field(nearby);
    tally.case(x, a, b);
    let far = field(rng);
    let b = rng.with_field(far);
    tally.case(x, a, b);
    let product = (f64::from_bits(x) * f64::from_bits(a)).to_bits();
    for step in [0, 1, u64::MAX] {
        tally.case(x, a, (product ^ SIGN).wrapping_add(step));
    }
    tally.case(x, a, product);
    tally.case(rng.bits(), rng.bits(), rng.bits());
}

/// Results among the subnormals or next to them, next to overflow, and next to a tie.
fn drawn_at_borders(rng: &mut Rng, tally: &mut Tally) {
    let i = rng.below(1094) as i64;
    let j = 1023 - i + rng.below(140) as i64 - 70;
    let (x, a) = (rng.with_field(i), rng.with_field(j));
    tally.case(x, a, rng.bits() & (SIGN | FRACTION >> rng.below(52)));
    let i = 1023 + rng.below(1024) as i64;
    let j = 3068 - i + rng.below(6) as i64 - 3;
    let k = 2046 - rng.below(60) as i64;
    let (x, a, b) = (rng.with_field(i), rng.with_field(j), rng.with_field(k));
    tally.case(x, a, b);
    // A product of about half a unit of the addend's last place, its factors next to powers of two; in a quarter of the cases the addend
    // is among the largest values.
    let ends = [0, 1, 2, FRACTION - 1, FRACTION];
    let k = if rng.below(4) == 0 { 2046 } else { 60 + rng.below(1986) as i64 };
    let i = (k - 53) / 2 + 512 + rng.below(3) as i64 - 1;
    let j = k - 53 + 1023 - i + rng.below(3) as i64 - 1;
    let end = |rng: &mut Rng, field: i64| (rng.bits() & SIGN) | (field.clamp(0, 2046) as u64) << 52 | ends[rng.below(5) as usize];
    let (x, a) = (end(rng, i), end(rng, j));
    let b = if rng.below(2) == 0 { end(rng, k) } else { rng.with_field(k) };
    tally.case(x, a, b);
}

fn main() {
    let words: Vec<u64> = std::env::args().skip(1).map(|word| word.parse().expect("a number")).collect();
    let (cases, seed) = (words[0] * 1_000_000, words[1]);
    if !is_x86_feature_detected!("fma") {
        eprintln!("oracle/fused: the processor has no fused multiply-add");
        exit(4);
    }
    let mut tally = Tally { run: 0, differ: 0 };
    let few = few_edges();
    for &x in &few {
        for &a in &few {
            few.iter().for_each(|&b| tally.case(x, a, b));
        }
    }
    tally.told("every triple of few edges");
    let mut rng = Rng(seed.wrapping_mul(0x9E37_79B9_7F4A_7C15) | 1);
    let many = many_edges();
    for &x in &many {
        for &a in &many {
            let b = many[rng.below(many.len() as u64) as usize];
            tally.case(x, a, b);
        }
    }
    tally.told("and every pair of many");
    while tally.run < cases {
        drawn(&mut rng, &mut tally);
        drawn_at_borders(&mut rng, &mut tally);
    }
    tally.told("and drawn cases");
    exit((tally.differ != 0) as i32);
}
