//! The sheet of docs/REQUIREMENTS.md: XDR in, lines out.

use crate::quote::{Outcome, quote};
use std::fmt::Write;

/// The bytes of a quote: side, then price, forward, strike, time and factor.
pub const QUOTE_BYTES: usize = 44;
/// The longest sheet: the number of its quotes, and 1,000 quotes.
pub const MAX_BYTES: usize = 4 + QUOTE_BYTES * 1000;

fn word(bytes: &[u8], at: usize) -> u32 {
    u32::from_be_bytes(bytes[at..at + 4].try_into().unwrap())
}

fn double(bytes: &[u8], at: usize) -> f64 {
    f64::from_bits(u64::from_be_bytes(bytes[at..at + 8].try_into().unwrap()))
}

/// The whole output of a sheet.
pub fn text(sheet: &[u8]) -> String {
    let count = if sheet.len() < 4 { u32::MAX } else { word(sheet, 0) };
    if count > 1000 || sheet.len() != 4 + QUOTE_BYTES * count as usize {
        return "S 10\n".to_string();
    }
    let mut out = String::new();
    let (mut finite, mut infinite, mut refusals) = (0, 0, 0);
    for (i, q) in sheet[4..].chunks(QUOTE_BYTES).enumerate() {
        let result = quote(word(q, 0), double(q, 4), double(q, 12), double(q, 20), double(q, 28), double(q, 36));
        match result {
            Outcome::Answer { volatility, .. } if volatility.is_infinite() => infinite += 1,
            Outcome::Answer { .. } => finite += 1,
            Outcome::Refusal { .. } => refusals += 1,
        }
        writeln!(out, "{} {}", i + 1, result.line()).unwrap();
    }
    writeln!(out, "T {finite} {infinite} {refusals}").unwrap();
    out
}
