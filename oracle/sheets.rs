//! Drawn sheets, printed line by line by the proved library, beside the oracle's whole texts.

use oracle::inputs::{KINDS, Quote, Quotes, Rng, at_bound, desk, forward_and_strike, power};
use oracle::sheet::{QUOTE_BYTES, text};
use std::process::exit;

unsafe extern "C" {
    fn quoter_sheet_line(
        sheet: *const u8,
        length: u64,
        finite: *mut u32,
        infinite: *mut u32,
        refusals: *mut u32,
        text: *mut u8,
        room: u64,
        count: *mut u64,
    ) -> u32;
}

const SHOWN: u64 = 5;
/// The most bytes of a line, by include/quoter.h, and the most lines of a sheet.
const LONGEST: usize = 46;
const MOST_LINES: u64 = 1001;
const BUFFER: usize = 64;
const UNTOUCHED: u64 = u64::MAX;

/// Finite answers, infinite answers, refusals.
type Tally = [u32; 3];

fn sum(tally: Tally) -> u64 {
    tally.iter().map(|&n| n as u64).sum()
}

// ---- a call

/// What a call leaves: the letter that it returns, the number of bytes, the tallies and the whole buffer.
#[derive(PartialEq)]
struct Left {
    letter: u32,
    count: u64,
    tally: Tally,
    buffer: [u8; BUFFER],
}

impl Left {
    fn untouched(tally: Tally) -> Left {
        Left { letter: 0, count: UNTOUCHED, tally, buffer: [b'#'; BUFFER] }
    }

    fn told(&self) -> String {
        let (letter, text) = (char::from_u32(self.letter), String::from_utf8_lossy(&self.buffer));
        format!("letter {letter:?} count {} tallies {:?} buffer {text:?}", self.count, self.tally)
    }
}

/// With room for so many bytes, at most BUFFER.
fn called(sheet: &[u8], tally: Tally, room: usize) -> Left {
    let mut left = Left::untouched(tally);
    let [finite, infinite, refusals] = &mut left.tally;
    let (length, room, buffer) = (sheet.len() as u64, room as u64, left.buffer.as_mut_ptr());
    left.letter = unsafe { quoter_sheet_line(sheet.as_ptr(), length, finite, infinite, refusals, buffer, room, &mut left.count) };
    left
}

// ---- the words of docs/REQUIREMENTS.md

/// Which tally counts a line's quote; none, where it is the last line or that of a refused sheet.
fn place(line: &str) -> Option<usize> {
    match line.split_whitespace().collect::<Vec<_>>()[..] {
        [_, "V", _, volatility, _] => Some((volatility == "7ff0000000000000") as usize),
        [_, "R", _, _] => Some(2),
        _ => None,
    }
}

/// What a call leaves whose line this is.
fn right(line: &str, tally: Tally, room: usize) -> Left {
    let mut left = Left::untouched(tally);
    if line.len() <= room {
        left.letter = line.bytes().find(u8::is_ascii_uppercase).map_or(0, u32::from);
        left.count = line.len() as u64;
        left.buffer[..line.len()].copy_from_slice(line.as_bytes());
        if let Some(at) = place(line) {
            left.tally[at] += 1;
        }
    }
    left
}

/// The line after those of so many quotes, of a sheet with this text: that of the next quote, or the last with these tallies.
fn line_after(tally: Tally, text: &str) -> String {
    let next = text.split_inclusive('\n').nth(sum(tally) as usize).filter(|line| place(line).is_some());
    match next {
        _ if text.starts_with('S') => text.to_string(),
        Some(line) => line.to_string(),
        None => format!("T {} {} {}\n", tally[0], tally[1], tally[2]),
    }
}

// ---- draws

/// A price at its bound, in a quarter of the cases next to it.
fn at_limit(rng: &mut Rng) -> Quote {
    let q = desk(rng);
    let [forward, strike] = if rng.below(2) == 0 { forward_and_strike(rng) } else { [q.forward, q.strike] };
    let time = if rng.below(2) == 0 { rng.one_of(&[0.0, power(-1074), 1.0e-300, 1.0e300, f64::MAX]) } else { q.time };
    let q = at_bound(q.side, forward, strike, time);
    if rng.below(4) == 0 { Quote { price: rng.near(q.price), ..q } } else { q }
}

/// A desk's quote with a fault for one of tests 1 to 7 and 15.
fn faulty(rng: &mut Rng) -> Quote {
    let mut q = desk(rng);
    let not_finite = [f64::NAN, f64::INFINITY, f64::NEG_INFINITY];
    match rng.below(11) {
        0 => q.side = rng.one_of(&[2, 3, 256, 1 << 31, u32::MAX]),
        1 => q.price = rng.one_of(&not_finite),
        2 => q.time = rng.one_of(&not_finite),
        3 => q.forward = rng.one_of(&[0.0, -0.0, -q.forward]),
        4 => q.strike = rng.one_of(&[0.0, -0.0, -q.strike]),
        5 => q.time = -q.time,
        6 => q.time = 0.0,
        7 => q.price = q.forward + q.strike,
        8 => q.factor = rng.one_of(&not_finite),
        9 => q.factor = rng.one_of(&[0.0, -0.0, -1.0, -power(-1074)]),
        _ => q.price = -1.0 - q.price,
    }
    q
}

fn any_bits(rng: &mut Rng) -> Quote {
    let [price, forward, strike, time, factor] = [(); 5].map(|_| rng.any());
    Quote { side: rng.below(4) as u32, price, forward, strike, time, factor }
}

/// Gives a sheet another length, or another count, now and then the same.
fn spoil(rng: &mut Rng, sheet: &mut Vec<u8>) {
    let length = sheet.len();
    match rng.below(5) {
        0 => sheet.truncate(rng.below(4) as usize),
        1 => sheet.truncate(rng.below(length as u64) as usize),
        // As long as a sheet without factors.
        2 => sheet.truncate(length - 8 * (length / QUOTE_BYTES)),
        3 => sheet.resize(length + 1 + rng.below(88) as usize, 0),
        _ => {
            let any = rng.bits() as u32;
            let count = rng.one_of(&[0, 1, 2, 12, 13, 1000, 1001, 1 << 31, u32::MAX, any]);
            sheet[..4].copy_from_slice(&count.to_be_bytes());
        }
    }
}

/// Any tallies; or such whose sum, or sum modulo 2^32, is from 0 to one more than the number of quotes.
fn any_tallies(rng: &mut Rng, quotes: u64) -> Tally {
    let before = rng.below(quotes + 2) as u32;
    let [a, b, c] = [(); 3].map(|_| rng.bits() as u32);
    match rng.below(4) {
        0 => [a, b, c],
        1 => [a, b, before.wrapping_sub(a).wrapping_sub(b)],
        _ => {
            let finite = a % (before + 1);
            let infinite = b % (before - finite + 1);
            [finite, infinite, before - finite - infinite]
        }
    }
}

struct Draws {
    rng: Rng,
    kinds: Vec<Quotes>,
}

impl Draws {
    fn new(seed: u64) -> Draws {
        Draws { rng: Rng::new(seed), kinds: (0..KINDS.len()).map(|kind| Quotes::new(kind, seed)).collect() }
    }

    /// From a pool: one of the kinds of oracle/generate, or one of three here.
    fn quote(&mut self, pool: usize) -> Quote {
        match self.kinds.get_mut(pool) {
            Some(kind) => kind.next(),
            None if pool == KINDS.len() => at_limit(&mut self.rng),
            None if pool == KINDS.len() + 1 => faulty(&mut self.rng),
            None => any_bits(&mut self.rng),
        }
    }

    /// Of a third of the sheets all quotes are from one pool.
    fn sheet(&mut self, number: u64) -> Vec<u8> {
        let pools = KINDS.len() as u64 + 3;
        let size = if number % 20_000 == 0 { self.rng.whole(999, 1001) as u64 } else { self.rng.below(13) };
        let only = (self.rng.below(3) == 0).then_some(self.rng.below(pools));
        let mut sheet = (size as u32).to_be_bytes().to_vec();
        for _ in 0..size {
            let pool = only.unwrap_or(self.rng.below(pools));
            let q = self.quote(pool as usize);
            sheet.extend(q.side.to_be_bytes());
            let figures = [q.price, q.forward, q.strike, q.time, q.factor];
            figures.iter().for_each(|figure| sheet.extend(figure.to_bits().to_be_bytes()));
        }
        if self.rng.below(16) == 0 {
            spoil(&mut self.rng, &mut sheet);
        }
        sheet
    }
}

// ---- comparisons

/// The text as a caller prints it who counts nothing, and the tallies after it. Each line goes with its letter and counts one quote in the
/// tally that it names; a call that leaves anything else is told in the place of its line, and is the last.
fn printed(sheet: &[u8]) -> (String, Tally) {
    let (mut text, mut tally) = (String::new(), [0; 3]);
    for _ in 0..MOST_LINES {
        let left = called(sheet, tally, LONGEST);
        let line = String::from_utf8_lossy(&left.buffer[..BUFFER.min(left.count as usize)]).into_owned();
        if left.letter == 0 || left != right(&line, tally, LONGEST) {
            return (text + &left.told(), tally);
        }
        text += &line;
        tally = left.tally;
        if left.letter == b'T' as u32 || left.letter == b'S' as u32 {
            break;
        }
    }
    (text, tally)
}

/// The fields of the quote with so many before it, where the sheet has it.
fn fields(sheet: &[u8], before: usize) -> String {
    let Some(quote) = sheet.get(4..).and_then(|quotes| quotes.chunks_exact(QUOTE_BYTES).nth(before)) else {
        return "no quote".to_string();
    };
    let side = u32::from_be_bytes(quote[..4].try_into().unwrap());
    let figures = quote[4..].chunks_exact(8).map(|bytes| u64::from_be_bytes(bytes.try_into().unwrap()));
    let figures: Vec<String> = figures.map(|bits| format!("{bits:016x} ({:?})", f64::from_bits(bits))).collect();
    format!("side {side} {}", figures.join(" "))
}

/// Cases and differences.
#[derive(Default)]
struct Cases {
    run: u64,
    differ: u64,
}

impl Cases {
    /// `decoded` is asked for where the first of them differ.
    fn case(&mut self, alike: bool, decoded: impl FnOnce() -> String) {
        self.run += 1;
        self.differ += !alike as u64;
        if !alike && self.differ <= SHOWN {
            println!("{}", decoded());
        }
    }

    fn told(&self, what: &str) {
        println!("{what}: {} run, {} differ", self.run, self.differ);
    }
}

#[derive(Default)]
struct Seen {
    sheets: Cases,
    tallies: Cases,
    rooms: Cases,
    lines: u64,
    refused: u64,
    replies: [u64; 3],
}

impl Seen {
    /// A whole sheet, beside the oracle's text; the tallies after it are those of its last line.
    fn sheet(&mut self, sheet: &[u8], theirs: &str) {
        let (ours, tally) = printed(sheet);
        let closing = if ours.starts_with('S') { "S 10\n".to_string() } else { format!("T {} {} {}\n", tally[0], tally[1], tally[2]) };
        self.sheets.case(ours == theirs && ours.ends_with(&closing), || {
            let (mut ours, mut theirs) = (ours.lines(), theirs.lines());
            let at = ours.clone().zip(theirs.clone()).take_while(|(a, b)| a == b).count();
            let line = |text: Option<&str>| text.unwrap_or("(no line)").to_string();
            let (our, their) = (line(ours.nth(at)), line(theirs.nth(at)));
            let head = format!("  sheet of {} bytes, line {}, tallies {tally:?}", sheet.len(), at + 1);
            format!("{head}\n  {}\n    ours   {our}\n    oracle {their}", fields(sheet, at))
        });
        self.lines += ours.lines().count() as u64;
        self.refused += ours.starts_with('S') as u64;
        self.replies.iter_mut().zip(tally).for_each(|(all, n)| *all += n as u64);
    }

    /// One call with any tallies, once with room and once without.
    fn calls(&mut self, rng: &mut Rng, sheet: &[u8], theirs: &str) {
        let tally = any_tallies(rng, theirs.lines().count() as u64 - 1);
        let line = line_after(tally, theirs);
        let enough = rng.whole(line.len() as i64, BUFFER as i64) as usize;
        let short = rng.below(line.len() as u64) as usize;
        for (cases, room) in [(&mut self.tallies, enough), (&mut self.rooms, short)] {
            let (found, right) = (called(sheet, tally, room), right(&line, tally, room));
            cases.case(found == right, || {
                let head = format!("  sheet of {} bytes, tallies {tally:?}, room {room}", sheet.len());
                let decoded = fields(sheet, sum(tally) as usize);
                format!("{head}\n  {decoded}\n    ours  {}\n    words {}", found.told(), right.told())
            });
        }
    }
}

fn main() {
    let words: Vec<u64> = std::env::args().skip(1).map(|word| word.parse().expect("a number")).collect();
    let (sheets, seed) = (words[0], words[1]);
    let (mut draws, mut seen) = (Draws::new(seed), Seen::default());
    for number in 0..sheets {
        let sheet = draws.sheet(number);
        let theirs = text(&sheet);
        seen.sheet(&sheet, &theirs);
        seen.calls(&mut draws.rng, &sheet, &theirs);
    }
    seen.sheets.told("whole sheets");
    let [finite, infinite, refusals] = seen.replies;
    let replies = format!("{finite} finite answers, {infinite} infinite answers, {refusals} refusals");
    println!("  {} lines: {replies}; {} sheets refused", seen.lines, seen.refused);
    seen.tallies.told("calls with any tallies");
    seen.rooms.told("calls with too little room");
    exit((seen.sheets.differ + seen.tallies.differ + seen.rooms.differ != 0) as i32);
}
