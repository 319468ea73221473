//! exp, ln, ln_1p, max, min, the crossed clamp and powi(2) as docs/REQUIREMENTS.md has them, written from its text.

const H: f64 = f64::from_bits(0x3FE62E42FEE00000);
const L: f64 = f64::from_bits(0x3DEA39EF35793C76);
const I: f64 = f64::from_bits(0x3FF71547652B82FE);

const P1: f64 = f64::from_bits(0x3FC555555555553E);
const P2: f64 = f64::from_bits(0xBF66C16C16BEBD93);
const P3: f64 = f64::from_bits(0x3F11566AAF25DE2C);
const P4: f64 = f64::from_bits(0xBEBBBD41C5D26BF1);
const P5: f64 = f64::from_bits(0x3E66376972BEA4D0);

const G1: f64 = f64::from_bits(0x3FE5555555555593);
const G2: f64 = f64::from_bits(0x3FD999999997FA04);
const G3: f64 = f64::from_bits(0x3FD2492494229359);
const G4: f64 = f64::from_bits(0x3FCC71C51D8E78AF);
const G5: f64 = f64::from_bits(0x3FC7466496CB03DE);
const G6: f64 = f64::from_bits(0x3FC39A09D078C69F);
const G7: f64 = f64::from_bits(0x3FC2F112DF3E5244);

/// 2^k for k from -1022 to 1023.
fn power(k: i64) -> f64 {
    f64::from_bits(((k + 1023) as u64) << 52)
}

/// y times 2^k, rounded once, for y from 0.5 to 2 and k from -1075 to 1024.
fn scaled(y: f64, k: i64) -> f64 {
    if k > 1023 {
        // 2y is exact, so that only the product rounds (to infinity where it overflows).
        (y * 2.0) * power(k - 1)
    } else if k >= -1021 {
        y * power(k)
    } else {
        // y times 2^(k + 54) is normal, hence exact; only the second product rounds.
        (y * power(k + 54)) * power(-54)
    }
}

pub fn exp(x: f64) -> f64 {
    if x.is_nan() {
        return f64::NAN;
    }
    if x > f64::from_bits(0x40862E42FEFA39EF) {
        return f64::INFINITY;
    }
    if x < f64::from_bits(0xC0874910D52D3051) {
        return 0.0;
    }
    let k = if x.is_sign_negative() { x * I - 0.5 } else { x * I + 0.5 }.trunc();
    let h = x - k * H;
    let l = k * L;
    let r = h - l;
    let q = r * r;
    let c = r - q * (P1 + q * (P2 + q * (P3 + q * (P4 + q * P5))));
    let y = 1.0 - ((l - (r * c) / (2.0 - c)) - h);
    scaled(y, k as i64)
}

/// m and k with x = m·2^k, for x finite and above 0; bits of m from 3FE6A09E00000000 to below 3FF6A09E00000000.
fn split(x: f64) -> (f64, f64) {
    let (x, offset) = if x < f64::MIN_POSITIVE { (x * power(54), -54) } else { (x, 0) };
    let exponent = (x.to_bits() >> 52) as i64 - 1023;
    let m = f64::from_bits((x.to_bits() & 0x000F_FFFF_FFFF_FFFF) | 0x3FF0_0000_0000_0000);
    if m.to_bits() < 0x3FF6A09E00000000 {
        (m, (exponent + offset) as f64)
    } else {
        (m * 0.5, (exponent + offset + 1) as f64)
    }
}

/// The end that ln and ln_1p share: `low` stands for k·L.
fn finish(f: f64, k: f64, low: f64) -> f64 {
    let s = f / (2.0 + f);
    let z = s * s;
    let w = z * z;
    let g = (0.5 * f) * f;
    let r = z * (G1 + w * (G3 + w * (G5 + w * G7))) + w * (G2 + w * (G4 + w * G6));
    s * (g + r) + low - g + f + k * H
}

pub fn ln(x: f64) -> f64 {
    if x == 0.0 {
        return f64::NEG_INFINITY;
    }
    if x.is_nan() || x < 0.0 {
        return f64::NAN;
    }
    if x == f64::INFINITY {
        return x;
    }
    let (m, k) = split(x);
    finish(m - 1.0, k, k * L)
}

pub fn ln_1p(u: f64) -> f64 {
    if !(u >= -0.25 && u <= 1.5) {
        return f64::NAN;
    }
    if u < 0.40625 {
        return finish(u, 0.0, 0.0 * L + 0.0);
    }
    let v = 1.0 + u;
    let (m, k) = split(v);
    let c = (u - (v - 1.0)) / v;
    finish(m - 1.0, k, k * L + c)
}

pub fn max(a: f64, b: f64) -> f64 {
    if a.is_nan() {
        b
    } else if b.is_nan() {
        a
    } else if a == 0.0 && b == 0.0 {
        if a.is_sign_positive() { a } else { b }
    } else if a > b {
        a
    } else {
        b
    }
}

pub fn min(a: f64, b: f64) -> f64 {
    if a.is_nan() {
        b
    } else if b.is_nan() {
        a
    } else if a == 0.0 && b == 0.0 {
        if a.is_sign_negative() { a } else { b }
    } else if a < b {
        a
    } else {
        b
    }
}

/// The lower bound is applied, then the upper; crossed bounds are no panic.
pub fn clamp(x: f64, lower: f64, upper: f64) -> f64 {
    let raised = if x < lower { lower } else { x };
    if raised > upper { upper } else { raised }
}

/// The names that the patched source calls.
pub trait StandIn {
    fn own_exp(self) -> f64;
    fn own_ln(self) -> f64;
    fn own_ln_1p(self) -> f64;
    fn own_max(self, other: f64) -> f64;
    fn own_min(self, other: f64) -> f64;
    fn own_clamp(self, lower: f64, upper: f64) -> f64;
    fn own_square(self) -> f64;
}

impl StandIn for f64 {
    #[inline]
    fn own_exp(self) -> f64 {
        exp(self)
    }
    #[inline]
    fn own_ln(self) -> f64 {
        ln(self)
    }
    #[inline]
    fn own_ln_1p(self) -> f64 {
        ln_1p(self)
    }
    #[inline]
    fn own_max(self, other: f64) -> f64 {
        max(self, other)
    }
    #[inline]
    fn own_min(self, other: f64) -> f64 {
        min(self, other)
    }
    #[inline]
    fn own_clamp(self, lower: f64, upper: f64) -> f64 {
        clamp(self, lower, upper)
    }
    #[inline]
    fn own_square(self) -> f64 {
        self * self
    }
}
