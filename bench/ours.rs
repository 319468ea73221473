//! The C interface of `exports` (include/quoter.h).

use crate::ladder::{Ladder, Lent};
use oracle::inputs::Quote;
use oracle::price;
use oracle::price_inputs::Keyed;
use oracle::quote::Outcome;

unsafe extern "C" {
    fn quoter_sqrt(x: f64) -> f64;
    fn quoter_mul_add(x: f64, a: f64, b: f64) -> f64;
    fn quoter_exp(x: f64) -> f64;
    fn quoter_ln(x: f64) -> f64;
    fn quoter_ln_1p(u: f64) -> f64;
    fn quoter_trunc(x: f64) -> f64;
    fn quoter_erf_cody(x: f64) -> f64;
    fn quoter_erfc_cody(x: f64) -> f64;
    fn quoter_erfcx_cody(x: f64) -> f64;
    fn quoter_erfinv(e: f64) -> f64;
    fn quoter_norm_pdf(x2: f64) -> f64;
    fn quoter_norm_cdf(z: f64) -> f64;
    fn quoter_inverse_norm_cdf(p: f64) -> f64;
    fn quoter_normalised_black(x: f64, h: f64, t: f64) -> f64;
    fn quoter_negative_abs_log_moneyness(f: f64, k: f64) -> f64;
    fn quoter_inverse_gaussian_cdf(x: f64, mu: f64) -> f64;
    fn quoter_inverse_gaussian_survival(x: f64, mu: f64) -> f64;
    pub fn quoter_quote(
        side: u32,
        price: f64,
        forward: f64,
        strike: f64,
        time: f64,
        factor: f64,
        total: *mut f64,
        volatility: *mut f64,
        count: *mut u64,
    ) -> u32;
    pub fn quoter_price(side: u32, volatility: f64, forward: f64, strike: f64, time: f64, price: *mut f64) -> u32;
    pub fn quoter_ladder(
        side: u32,
        forward: f64,
        time: f64,
        strikes: *const f64,
        strike_count: u64,
        prices: *const f64,
        price_count: u64,
        totals: *mut f64,
        total_count: u64,
        volatilities: *mut f64,
        volatility_count: u64,
        counts: *mut u64,
        count_count: u64,
        refusals: *mut u32,
        refusal_count: u64,
        roots: *mut u64,
    ) -> u32;
    pub fn quoter_window_write(window: *mut u8, offset: u32, word: u32) -> u32;
    fn quoter_sheet_line(
        sheet: *const u8,
        length: u64,
        finite: *mut u32,
        infinite: *mut u32,
        refusals: *mut u32,
        text: *mut u8,
        room: u64,
        count: *mut u64,
    ) -> u32;
}

/// The side and figures of a quote as they stand in a window, from its byte 8 on. A window has no factor.
pub fn shown(q: Quote) -> [u8; 36] {
    let mut bytes = [0; 36];
    bytes[..4].copy_from_slice(&q.side.to_be_bytes());
    let figures = [q.price, q.forward, q.strike, q.time].map(|x| x.to_bits().to_be_bytes());
    bytes[4..].copy_from_slice(figures.as_flattened());
    bytes
}

/// A quote through a window: nine words of side and figures, then the command that solves.
pub fn window(window: &mut [u8; 64], q: Quote) {
    let words = shown(q);
    for (word, offset) in words.chunks(4).zip((8..).step_by(4)) {
        let word = u32::from_be_bytes(word.try_into().unwrap());
        unsafe { quoter_window_write(window.as_mut_ptr(), offset, word) };
    }
    unsafe { quoter_window_write(window.as_mut_ptr(), 0, 1) };
}

/// A function of `vectors` by its number.
#[inline]
pub fn value(function: u32, a: f64, b: f64, c: f64) -> f64 {
    unsafe {
        match function {
            1 => quoter_sqrt(a),
            2 => quoter_mul_add(a, b, c),
            3 => quoter_exp(a),
            4 => quoter_ln(a),
            5 => quoter_ln_1p(a),
            6 => quoter_trunc(a),
            10 => quoter_erf_cody(a),
            11 => quoter_erfc_cody(a),
            12 => quoter_erfcx_cody(a),
            13 => quoter_erfinv(a),
            14 => quoter_norm_pdf(a),
            15 => quoter_norm_cdf(a),
            16 => quoter_inverse_norm_cdf(a),
            17 => quoter_normalised_black(a, b, c),
            18 => quoter_negative_abs_log_moneyness(a, b),
            20 => quoter_inverse_gaussian_cdf(a, b),
            21 => quoter_inverse_gaussian_survival(a, b),
            _ => unreachable!(),
        }
    }
}

/// The number that is returned.
#[inline]
pub fn quote_into(q: Quote, total: &mut f64, volatility: &mut f64, count: &mut u64) -> u32 {
    unsafe { quoter_quote(q.side, q.price, q.forward, q.strike, q.time, q.factor, total, volatility, count) }
}

#[inline]
pub fn quote(q: Quote) -> Outcome {
    let (mut total, mut volatility, mut count) = (0.0, 0.0, 0);
    match quote_into(q, &mut total, &mut volatility, &mut count) {
        0 => Outcome::Answer { total, volatility, count },
        number => Outcome::Refusal { number, count },
    }
}

#[inline]
pub fn price(k: Keyed) -> price::Outcome {
    let mut price = 0.0;
    match unsafe { quoter_price(k.side, k.volatility, k.forward, k.strike, k.time, &mut price) } {
        0 => price::Outcome::Price(price),
        number => price::Outcome::Refusal { number, count: 0 },
    }
}

/// How many strike roots were taken; none where the ladder is refused.
#[inline]
pub fn ladder(l: &Ladder, lent: &mut Lent) -> Option<u64> {
    let mut roots = 0;
    let number = unsafe {
        quoter_ladder(
            l.side,
            l.forward,
            l.time,
            l.strikes.as_ptr(),
            l.strikes.len() as u64,
            l.prices.as_ptr(),
            l.prices.len() as u64,
            lent.totals.as_mut_ptr(),
            lent.totals.len() as u64,
            lent.volatilities.as_mut_ptr(),
            lent.volatilities.len() as u64,
            lent.counts.as_mut_ptr(),
            lent.counts.len() as u64,
            lent.refusals.as_mut_ptr(),
            lent.refusals.len() as u64,
            &mut roots,
        )
    };
    (number == 0).then_some(roots)
}

/// The lines of a sheet's text, one after the other.
pub fn lines(sheet: &[u8], mut take: impl FnMut(&[u8])) {
    let (mut finite, mut infinite, mut refusals) = (0, 0, 0);
    let (mut line, mut count) = ([0; 46], 0);
    loop {
        let letter = unsafe {
            quoter_sheet_line(
                sheet.as_ptr(),
                sheet.len() as u64,
                &mut finite,
                &mut infinite,
                &mut refusals,
                line.as_mut_ptr(),
                line.len() as u64,
                &mut count,
            )
        };
        take(&line[..count as usize]);
        if letter != b'V' as u32 && letter != b'R' as u32 {
            return;
        }
    }
}
