//! Sheets, and three ways to solve one: as text, a call for each line; a call for each of its quotes; by the Rust in a loop.

use crate::{ours, timing};
use oracle::inputs::Quote;
use std::hint::black_box;

const QUOTES: usize = 1000;
const SHEETS: usize = 4;

struct Sheet {
    quotes: Vec<Quote>,
    bytes: Vec<u8>,
}

/// A sheet in XDR.
pub fn bytes(quotes: &[Quote]) -> Vec<u8> {
    let mut bytes = (quotes.len() as u32).to_be_bytes().to_vec();
    for q in quotes {
        bytes.extend(ours::shown(*q));
        bytes.extend(q.factor.to_bits().to_be_bytes());
    }
    bytes
}

fn quotes(s: &Sheet) {
    s.quotes.iter().for_each(|&q| timing::ours(q));
}

fn rust(s: &Sheet) {
    s.quotes.iter().for_each(|&q| timing::rust(q));
}

pub fn table() {
    println!("{:36} {:>9} {:>9} {:>9} {:>8} {:>8}", "ns a quote", "sheet", "quotes", "rust", "to quo.", "to rust");
    let desk = timing::desk(QUOTES * SHEETS);
    let sheets: Vec<Sheet> =
        desk.chunks(QUOTES).map(|part| Sheet { quotes: part.to_vec(), bytes: bytes(part) }).collect();
    let list: Vec<&Sheet> = sheets.iter().collect();
    let lines = |s: &Sheet| ours::lines(&s.bytes, |line| _ = black_box(line));
    let times = timing::least(timing::ROUNDS, 1, &list, [&lines, &quotes, &rust]).map(|t| t / QUOTES as f64);
    timing::row("sheet of 1,000 desk quotes", times);
    let unlike = |s: &Sheet| {
        let mut text = Vec::new();
        ours::lines(&s.bytes, |line| text.extend(line));
        let ours = String::from_utf8(text).unwrap_or_default();
        let right = oracle::sheet::text(&s.bytes);
        if ours.lines().count() != right.lines().count() {
            return QUOTES;
        }
        ours.lines().zip(right.lines()).filter(|(a, b)| a != b).count()
    };
    timing::report(sheets.iter().map(unlike).sum(), QUOTES * SHEETS);
}
