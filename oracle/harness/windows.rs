//! Cable windows: our code beside the oracle, by what each write hands back and all 64 bytes after it. Lists from a window of zeros, and single
//! writes to a window of any bytes.

use crate::ours::windows as ours;
use crate::{Tally, set_current};
use oracle::inputs::Rng;
use oracle::window::{UNWRITABLE, Window};
use oracle::window_inputs::{AnyWindows, List, MOST, WINDOW_KINDS, Windows, WordWrite};

/// Single writes to a window of any bytes.
pub const ANY: &str = "any";

type Shown = (u32, [u8; 64]);

fn told((number, bytes): Shown) -> String {
    format!("{number} {}", Window::shown_as(&bytes).text())
}

fn fields(before: &Window, WordWrite { offset, word }: WordWrite) -> String {
    format!("offset {offset} word {word:08x}, window before {}", before.text())
}

fn announce(before: &Window, WordWrite { offset, word }: WordWrite) {
    let Window { price, forward, strike, time, .. } = *before;
    set_current(&[(offset as u64) << 32 | word as u64, price, forward, strike, time]);
}

/// What the oracle did over a run.
#[derive(Default)]
struct Seen {
    lists: u64,
    writes: u64,
    unwritable: u64,
    solves: u64,
    /// By the number of the refusal; answers at 0.
    numbers: [u64; 10],
    most: u32,
}

impl Seen {
    fn add(&mut self, write: WordWrite, number: u32, after: &Window) {
        self.writes += 1;
        self.unwritable += (number == UNWRITABLE) as u64;
        if write.offset == 0 && write.word % 2 == 1 {
            self.solves += 1;
            self.numbers[(after.status >> 8) as usize] += 1;
            self.most = self.most.max(after.count);
        }
    }

    fn join(mut self, other: Seen) -> Seen {
        self.lists += other.lists;
        self.writes += other.writes;
        self.unwritable += other.unwritable;
        self.solves += other.solves;
        (0..10).for_each(|i| self.numbers[i] += other.numbers[i]);
        Seen { most: self.most.max(other.most), ..self }
    }

    fn show(&self) {
        let Seen { lists, writes, unwritable, solves, numbers, most } = self;
        let refusals: Vec<String> = (1..10).map(|i| format!("{i}: {}", numbers[i])).collect();
        println!(
            "  {lists} lists, {writes} writes, {unwritable} of them unwritable; {solves} solves, most evaluations {most}"
        );
        println!("  {} answers, refusals {}", numbers[0], refusals.join(", "));
    }
}

/// A write to our window and to the oracle's.
fn one_write(tally: &mut Tally, seen: &mut Seen, mine: &mut ours::Window, right: &mut Window, write: WordWrite) {
    announce(right, write);
    let before = *right;
    let found = ours::write(mine, write);
    let number = right.write(write.offset, write.word);
    let theirs = (number, right.bytes());
    tally.note(found == theirs, || [fields(&before, write), told(found), told(theirs)]);
    seen.add(write, number, right);
}

/// A list, write by write and as a whole; and as one of two slices that are not as long as each other.
fn one_list(tally: &mut Tally, seen: &mut Seen, rng: &mut Rng, list: &List) {
    let (mut mine, mut right) = (ours::zeros(), Window::default());
    let cut = rng.below(list.len() as u64 + 1) as usize;
    let (mut at_cut, start) = (right, (0, ours::bytes(mine)));
    tally.note(start == (0, right.bytes()), || ["zeros".to_string(), told(start), right.text()]);
    for (i, &write) in list.iter().enumerate() {
        one_write(tally, seen, &mut mine, &mut right, write);
        if i + 1 == cut {
            at_cut = right;
        }
    }
    let (offsets, words): (Vec<u32>, Vec<u32>) = list.iter().map(|write| (write.offset, write.word)).unzip();
    let runs =
        [(&offsets[..], &words[..], right), (&offsets[..cut], &words, at_cut), (&offsets, &words[..cut], at_cut)];
    for (offsets, words, right) in runs {
        let (found, theirs) = ((0, ours::after_writes(offsets, words)), (0, right.bytes()));
        tally.note(found == theirs, || [format!("whole list, {offsets:?} {words:08x?}"), told(found), told(theirs)]);
    }
    seen.lists += 1;
}

/// Compares lists of a kind until they have `count` writes, or so many single writes.
fn kind_of_windows(kind: &str, count: u64, seed: u64) -> (u64, Seen) {
    let (mut tally, mut seen) = (Tally::new(format!("windows, {kind}")), Seen::default());
    match WINDOW_KINDS.iter().position(|&name| name == kind) {
        Some(i) => {
            let (mut windows, mut rng) = (Windows::new(i, seed, MOST), Rng::new(seed));
            while seen.writes < count {
                one_list(&mut tally, &mut seen, &mut rng, &windows.next());
            }
        }
        None => {
            let mut windows = AnyWindows::new(seed);
            while seen.writes < count {
                let (bytes, write) = windows.next();
                one_write(&mut tally, &mut seen, &mut ours::of_bytes(bytes), &mut Window::shown_as(&bytes), write);
            }
        }
    }
    let differ = tally.end();
    seen.show();
    (differ, seen)
}

pub fn windows(kind: &str, count: u64, seed: u64) -> u64 {
    if kind != "all" {
        return kind_of_windows(kind, count, seed).0;
    }
    let runs = WINDOW_KINDS.into_iter().chain([ANY]).map(|kind| kind_of_windows(kind, count, seed));
    let (differ, seen) = runs.reduce(|(d, all), (e, seen)| (d + e, all.join(seen))).unwrap();
    println!("windows in all: {differ} differ");
    seen.show();
    differ
}
