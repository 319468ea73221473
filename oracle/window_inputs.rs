//! Lists of words written to a cable window, of each kind; the lists that the repository keeps.
//! Needs nothing of the source; the same seed gives the same inputs on every machine.

use crate::inputs::{NANS, Quote, Quotes, Rng, desk, edges, examples, known, limits, power, quote, step};
use crate::ladder_inputs::bad_figure;
use std::vec::IntoIter;

/// A word written at an offset.
#[derive(Clone, Copy, Debug)]
pub struct WordWrite {
    pub offset: u32,
    pub word: u32,
}

pub type List = Vec<WordWrite>;

pub const WINDOW_KINDS: [&str; 6] = ["desk", "edges", "commands", "offsets", "bits", "rewritten"];

/// The most writes of a list.
pub const MOST: usize = 512;

const WRITABLE: [u32; 10] = [0, 8, 12, 16, 20, 24, 28, 32, 36, 40];

/// The bits of a command.
const SOLVE: u32 = 1;
const CLEAR: u32 = 2;

/// Offsets beyond the window: among them those of its words plus powers of 2, those that wrap to its words, and the largest.
const LARGE: [u32; 24] = [
    84,
    100,
    104,
    124,
    128,
    136,
    256,
    264,
    268,
    0x1_0000,
    0x1_0008,
    0x100_0000,
    0x100_000C,
    0x7FFF_FFFC,
    0x8000_0000,
    0x8000_0008,
    0xC000_0000,
    0xFFFF_FFC0,
    0xFFFF_FFC8,
    0xFFFF_FFE8,
    0xFFFF_FFFC,
    0xFFFF_FFFD,
    0xFFFF_FFFE,
    0xFFFF_FFFF,
];

// ---- writes

fn at(offset: u32, word: u32) -> WordWrite {
    WordWrite { offset, word }
}

fn command(word: u32) -> WordWrite {
    at(0, word)
}

/// The nine writes that set a quote, in the window's order.
fn set(q: Quote) -> List {
    let figures = [q.price, q.forward, q.strike, q.time].map(f64::to_bits);
    let words = figures.into_iter().flat_map(|bits| [(bits >> 32) as u32, bits as u32]);
    [q.side].into_iter().chain(words).zip((8..).step_by(4)).map(|(word, offset)| at(offset, word)).collect()
}

fn solved(q: Quote) -> List {
    [set(q), vec![command(SOLVE)]].concat()
}

/// The writes of those words in which a window with the second quote differs from one with the first.
fn moved(from: Quote, to: Quote) -> List {
    set(from).into_iter().zip(set(to)).filter(|(old, new)| old.word != new.word).map(|(_, new)| new).collect()
}

fn shuffled(rng: &mut Rng, mut list: List) -> List {
    (1..list.len()).for_each(|i| list.swap(i, rng.below(i as u64 + 1) as usize));
    list
}

/// In the window's order, or in any.
fn ordered(rng: &mut Rng, list: List) -> List {
    if rng.below(2) == 0 { list } else { shuffled(rng, list) }
}

/// Every combination of the two bits, alone or with others.
fn any_command(rng: &mut Rng) -> u32 {
    let others = match rng.below(4) {
        0 => 0,
        1 => !3,
        2 => 1 << rng.whole(2, 31),
        _ => rng.bits() as u32 & !3,
    };
    others | rng.below(4) as u32
}

fn any_offset(rng: &mut Rng) -> u32 {
    match rng.below(8) {
        0..=2 => rng.below(81) as u32,
        3 | 4 => 4 * rng.below(16) as u32,
        5 => 4 * rng.below(16) as u32 + rng.whole(1, 3) as u32,
        6 => rng.one_of(&LARGE),
        _ => rng.bits() as u32,
    }
}

// ---- quotes

/// With another side, or one figure of another quote, or next to its own; or the same.
fn changed(rng: &mut Rng, q: Quote) -> Quote {
    let other = desk(rng);
    match rng.below(8) {
        0 => Quote { side: other.side, ..q },
        1 => Quote { price: rng.near(q.price), ..q },
        2 => Quote { price: q.price * rng.uniform(0.5, 1.5), ..q },
        3 => Quote { forward: q.forward * rng.uniform(0.9, 1.1), ..q },
        4 => Quote { strike: q.strike * rng.uniform(0.9, 1.1), ..q },
        5 => Quote { time: other.time, ..q },
        6 => other,
        _ => q,
    }
}

/// With one figure, or its side, of a kind that is mostly refused; or with a price one unit below its bound.
fn spoilt(rng: &mut Rng, mut q: Quote) -> Quote {
    let figure = match rng.below(3) {
        0 => rng.one_of(&edges()),
        1 => f64::from_bits(rng.one_of(&NANS)),
        _ => bad_figure(rng),
    };
    match rng.below(6) {
        0 => q.side = rng.one_of(&[0, 1, 2, u32::MAX]),
        1 => q.price = figure,
        2 => q.forward = figure,
        3 => q.strike = figure,
        4 => q.time = figure,
        // Rounding may take the normalised price above its bound.
        _ => q.price = step(if q.side == 0 { q.forward } else { q.strike }, -1),
    }
    q
}

// ---- hosts

/// Sets every word and solves; then clears the interrupt or not, changes a figure and solves again, some times.
fn at_desk(rng: &mut Rng, mut q: Quote) -> List {
    let mut list = ordered(rng, set(q));
    list.push(command(SOLVE));
    for _ in 0..rng.below(5) {
        if rng.below(2) == 0 {
            list.push(command(CLEAR));
        }
        let other = changed(rng, q);
        list.extend(moved(q, other));
        list.push(command(rng.one_of(&[SOLVE, SOLVE, CLEAR | SOLVE])));
        q = other;
    }
    list
}

/// Solves a quote, and now and then the same with a figure spoilt, and as it was.
fn at_edges(rng: &mut Rng, q: Quote) -> List {
    let mut list = ordered(rng, set(q));
    list.push(command(rng.one_of(&[SOLVE, CLEAR | SOLVE])));
    if rng.below(3) == 0 {
        let other = spoilt(rng, q);
        list.extend(moved(q, other));
        list.push(command(SOLVE));
        list.extend(moved(other, q));
        list.push(command(SOLVE));
    }
    list
}

/// Commands of all kinds, mostly after a change that a solve would show.
fn commands(rng: &mut Rng, mut q: Quote) -> List {
    let mut list = set(q);
    for _ in 0..rng.whole(1, 10) {
        let other = match rng.below(4) {
            0 => q,
            1 => spoilt(rng, q),
            _ => changed(rng, q),
        };
        list.extend(moved(q, other));
        list.extend((0..rng.whole(1, 3)).map(|_| command(any_command(rng))));
        q = other;
    }
    list
}

/// Words like commands at any offset of a window that was solved.
fn offsets(rng: &mut Rng, q: Quote) -> List {
    let mut list = solved(q);
    list.extend((0..rng.below(2)).map(|_| command(CLEAR)));
    list.extend((0..rng.whole(4, 16)).map(|_| at(any_offset(rng), any_command(rng))));
    list.push(command(SOLVE));
    list
}

/// Any words at any offsets; mostly the side is 0 or 1, and in half of the lists no figure is below zero.
fn any_words(rng: &mut Rng) -> List {
    let positive = rng.below(2) == 0;
    let mut list = List::new();
    for _ in 0..rng.whole(10, 40) {
        let offset = if rng.below(16) == 0 { any_offset(rng) } else { rng.one_of(&WRITABLE) };
        let word = rng.bits() as u32;
        list.push(match offset {
            8 if rng.below(8) > 0 => at(offset, word % 2),
            12 | 20 | 28 | 36 if positive => at(offset, word >> 1),
            _ => at(offset, word),
        });
    }
    list
}

/// Between solves one half of a figure gets other bits: those of another quote, one of its own turned, one unit more or less, or any.
fn rewritten(rng: &mut Rng, q: Quote, other: Quote) -> List {
    let mut list = solved(q);
    let (mut halves, others) = (set(q), set(other));
    for _ in 0..rng.whole(1, 6) {
        let i = 1 + rng.below(8) as usize;
        halves[i].word = match rng.below(4) {
            0 => rng.bits() as u32,
            1 => halves[i].word ^ 1 << rng.below(32),
            2 => halves[i].word.wrapping_add(rng.below(3) as u32).wrapping_sub(1),
            _ => others[i].word,
        };
        list.extend([halves[i], command(rng.one_of(&[SOLVE, CLEAR | SOLVE]))]);
    }
    list
}

// ---- what each kind begins with

/// The desk's call, which has the total 0.155 after 12 evaluations.
fn call() -> Quote {
    quote(0, 1.0, 100.0, 120.0, 1.0)
}

/// From zeros, each with the command that follows.
fn walk(steps: impl IntoIterator<Item = (Quote, u32)>) -> List {
    let mut before = quote(0, 0.0, 0.0, 0.0, 0.0);
    let mut list = List::new();
    for (q, word) in steps {
        list.extend(moved(before, q));
        list.push(command(word));
        before = q;
    }
    list
}

/// No writes; commands without a figure; the call solved, its interrupt cleared twice, and by the command that solves it again; other times.
fn first_at_desk() -> Vec<List> {
    let mut host = set(call());
    host.extend([SOLVE, CLEAR, CLEAR, 0, SOLVE, CLEAR | SOLVE, CLEAR].map(command));
    let timed = [1.0, 0.25, 4.0, 0.3].map(|time| (Quote { time, ..call() }, CLEAR | SOLVE));
    vec![vec![], [0, CLEAR, !3, SOLVE, CLEAR, CLEAR | SOLVE].map(command).to_vec(), host, walk(timed)]
}

/// Every example after the call's answer and before it, with its interrupt cleared alone and by the command that solves again; then other
/// answers in turn: at time minus zero and a price of minus zero, at the money, the largest total, the longest search, an infinite one.
fn outcomes() -> Vec<List> {
    let about = |q: Quote| walk([(call(), SOLVE), (q, SOLVE), (q, CLEAR), (q, CLEAR | SOLVE), (call(), SOLVE)]);
    let tiny = power(-1074);
    let others = [
        quote(1, 20.0, 100.0, 120.0, -0.0),
        quote(1, -0.0, 120.0, 100.0, 0.25),
        quote(0, 1.0, 100.0, 100.0, 4.0),
        quote(0, 2.66496037618741e-75, 2.6649603761874105e-75, 1.0291550148874028e-5, tiny),
        quote(0, 1.605782568808638e-5, 1.7887685143148444, 1.7887685143148446, 0.09),
        quote(1, 120.0, 100.0, 120.0, tiny),
    ];
    examples().into_iter().map(about).chain([walk(others.map(|q| (q, SOLVE)))]).collect()
}

/// In each figure of the call patterns of NaN, the infinities, minus zero and what is next to zero; then sides.
fn patterns() -> Vec<List> {
    let others = [f64::INFINITY, f64::NEG_INFINITY, -0.0, -power(-1074), power(-1074)].map(f64::to_bits);
    let figures: Vec<f64> = NANS.into_iter().chain(others).map(f64::from_bits).collect();
    let places: [fn(f64) -> Quote; 4] = [
        |price| Quote { price, ..call() },
        |forward| Quote { forward, ..call() },
        |strike| Quote { strike, ..call() },
        |time| Quote { time, ..call() },
    ];
    let with = |place: fn(f64) -> Quote| figures.iter().map(move |&x| (place(x), SOLVE));
    let sides = [1, 2, 0, 3, 255, 256, 1 << 16, 1 << 24, 1 << 31, u32::MAX];
    let sides = walk(sides.map(|side| (Quote { side, ..call() }, CLEAR | SOLVE)));
    places.into_iter().map(|place| walk(with(place))).chain([sides]).collect()
}

/// Every two of the four commands after each other, before each of them the side turned from 0 to 2 or back, so that by turns a solve is answered
/// and refused; then each other bit, and all of them, where a solve would show and a clear too.
fn first_commands() -> Vec<List> {
    let pairs = [0, 0, 1, 0, 2, 0, 3, 1, 1, 2, 1, 3, 2, 2, 3, 3, 0];
    let turned = |first: u32| {
        let mut list = solved(Quote { side: 2 * first, ..call() });
        list.extend(pairs.iter().zip(1..).flat_map(|(&word, i)| [at(8, 2 * ((first + i) % 2)), command(word)]));
        list
    };
    let price = |word: u32| at(12, word);
    let mut others = solved(call());
    others.push(price(0x4000_0000));
    others.extend((2..32).map(|n| command(1 << n)));
    others.extend([!3, 0x8000_0001].map(command));
    others.extend([price(0x3FF8_0000), command(!2), price(0x4008_0000)]);
    others.extend([!1, !0, 0x8000_0002].map(command));
    vec![turned(0), turned(1), others]
}

/// Every offset up to 80 and the large ones, with a word that would clear and solve.
fn first_offsets() -> Vec<List> {
    let telling = |offset: u32| at(offset, 0x5A00_0003 | (offset & 0xFF) << 8);
    let every = |first: u32, more: List| {
        [solved(call()), vec![telling(first), command(CLEAR)], more, vec![command(SOLVE)]].concat()
    };
    vec![every(0, (1..=80).map(telling).collect()), every(4, LARGE.map(telling).to_vec())]
}

/// Figures with full fractions: solved after each word, in the window's order and against it; and each half changed and solved by itself.
fn first_rewritten() -> Vec<List> {
    let (q, other) = (quote(1, 21.3, 100.1, 119.9, 0.3), quote(1, 21.7, 99.9, 118.7, 0.7));
    let each = |list: List| list.into_iter().flat_map(|write| [write, command(SOLVE)]).collect::<List>();
    let against = set(q).into_iter().rev().collect();
    vec![each(set(q)), each(against), [solved(q), each(moved(q, other))].concat()]
}

/// What a kind begins with.
fn first(kind: usize) -> Vec<List> {
    match kind {
        0 => first_at_desk(),
        1 => [outcomes(), patterns()].concat(),
        2 => first_commands(),
        3 => first_offsets(),
        4 => vec![],
        _ => first_rewritten(),
    }
}

/// How many writes, at least: mostly few, at times as many as a list may have.
fn size(rng: &mut Rng, most: usize) -> usize {
    let few = most.min(40);
    let (least, most) = match rng.below(32) {
        0 => (most, most),
        1 | 2 => (few, most),
        3 => (0, 1),
        _ => (1, few),
    };
    rng.whole(least as i64, most as i64) as usize
}

/// Lists of one kind, without end.
pub struct Windows {
    kind: usize,
    most: usize,
    rng: Rng,
    quotes: Vec<Quotes>,
    /// The lists that come first, and of the quotes of `edges` those that do.
    lists: IntoIter<List>,
    known: IntoIter<Quote>,
}

impl Windows {
    /// `kind` is a place in WINDOW_KINDS; a list has at most so many writes.
    pub fn new(kind: usize, seed: u64, most: usize) -> Windows {
        let known = if kind == 1 { [known(), limits()].concat() } else { vec![] };
        Windows { lists: first(kind).into_iter(), known: known.into_iter(), ..Windows::drawn(kind, seed, most) }
    }

    /// Without those that come first.
    fn drawn(kind: usize, seed: u64, most: usize) -> Windows {
        let rng = Rng::new(seed ^ ((kind as u64 + 1) << 48));
        let quotes = (0..5).map(|kind| Quotes::new(kind, seed)).collect();
        Windows { kind, most, rng, quotes, lists: vec![].into_iter(), known: vec![].into_iter() }
    }

    /// Of a desk; for `edges` of the other kinds, and for commands and rewritten halves at times.
    fn quote(&mut self) -> Quote {
        let of = match self.kind {
            1 => 1 + self.rng.below(4),
            2 | 5 => self.rng.below(2) * self.rng.below(5),
            _ => 0,
        };
        self.known.next().unwrap_or_else(|| self.quotes[of as usize].next())
    }

    /// What a host writes who has one quote, or two.
    fn host(&mut self) -> List {
        let q = self.quote();
        match self.kind {
            0 => at_desk(&mut self.rng, q),
            1 => at_edges(&mut self.rng, q),
            2 => commands(&mut self.rng, q),
            3 => offsets(&mut self.rng, q),
            4 => any_words(&mut self.rng),
            _ => {
                let other = self.quote();
                rewritten(&mut self.rng, q, other)
            }
        }
    }

    pub fn next(&mut self) -> List {
        let mut list = self.lists.next().unwrap_or_else(|| {
            let (length, mut list) = (size(&mut self.rng, self.most), List::new());
            while list.len() < length {
                list.extend(self.host());
            }
            list
        });
        list.truncate(self.most);
        list
    }
}

/// Windows of any bytes, three of four with the side and figures of a quote, each with a write: half of them are commands.
pub struct AnyWindows {
    rng: Rng,
    quotes: Vec<Quotes>,
}

impl AnyWindows {
    pub fn new(seed: u64) -> AnyWindows {
        AnyWindows { rng: Rng::new(seed), quotes: (0..5).map(|kind| Quotes::new(kind, seed)).collect() }
    }

    pub fn next(&mut self) -> ([u8; 64], WordWrite) {
        let rng = &mut self.rng;
        let mut bytes = [0; 64];
        bytes.chunks_mut(8).for_each(|chunk| chunk.copy_from_slice(&rng.bits().to_be_bytes()));
        if rng.below(4) > 0 {
            let q = self.quotes[rng.below(5) as usize].next();
            let figures = set(q).into_iter().flat_map(|write| write.word.to_be_bytes());
            bytes[8..44].iter_mut().zip(figures).for_each(|(byte, figure)| *byte = figure);
        }
        let write = match rng.below(4) {
            0 | 1 => command(any_command(rng)),
            2 => at(4 * rng.whole(2, 10) as u32, rng.bits() as u32),
            _ => at(any_offset(rng), any_command(rng)),
        };
        (bytes, write)
    }
}

/// The lists that the repository keeps: what each kind begins with, some drawn ones of each, and one of all kinds that has the most writes.
pub fn kept_windows(seed: u64) -> Vec<List> {
    const PART: usize = MOST / WINDOW_KINDS.len() + 1;
    let kinds = 0..WINDOW_KINDS.len();
    let mut lists: Vec<List> = kinds.clone().flat_map(first).collect();
    let mut longest = List::new();
    for kind in kinds {
        let mut windows = Windows::drawn(kind, seed, MOST);
        let mut lengths = |least: usize, most: usize| {
            std::iter::repeat_with(|| windows.next()).find(|list| (least..=most).contains(&list.len())).unwrap()
        };
        lists.extend((0..3).map(|_| lengths(6, 20)));
        longest.extend(lengths(PART, MOST).into_iter().take(PART));
    }
    longest.truncate(MOST - 1);
    longest.push(command(CLEAR | SOLVE));
    lists.push(longest);
    lists
}
