//! Words written to cable windows by the proved library, beside the oracle's windows.

use oracle::inputs::Rng;
use oracle::window::{UNWRITABLE, Window};
use oracle::window_inputs::{AnyWindows, List, WINDOW_KINDS, Windows, WordWrite, kept_windows};
use std::process::exit;

unsafe extern "C" {
    fn quoter_window_write(window: *mut u8, offset: u32, word: u32) -> u32;
    fn mmap(at: *mut u8, length: usize, access: i32, flags: i32, file: i32, from: i64) -> *mut u8;
}

const SHOWN: u64 = 5;
/// The most writes of a drawn list.
const MOST: usize = 40;
/// How many bytes are at least before and after the window.
const GUARD: usize = 96;
const BYTES: usize = 64;

/// A window in the midst of other bytes, which no write may change.
#[derive(Clone, PartialEq)]
struct Lent {
    bytes: [u8; GUARD + 8 + BYTES + GUARD],
    start: usize,
}

impl Lent {
    /// Bytes need no alignment: the window starts at any of 8 places.
    fn new(rng: &mut Rng, window: [u8; BYTES]) -> Lent {
        let mut lent = Lent { bytes: [0; _], start: GUARD + rng.below(8) as usize };
        lent.bytes.chunks_mut(8).for_each(|chunk| chunk.copy_from_slice(&rng.bits().to_ne_bytes()[..chunk.len()]));
        lent.show(window);
        lent
    }

    fn show(&mut self, window: [u8; BYTES]) {
        self.bytes[self.start..self.start + BYTES].copy_from_slice(&window);
    }

    fn window(&self) -> Window {
        Window::shown_as(self.bytes[self.start..self.start + BYTES].try_into().unwrap())
    }

    fn guards(&self) -> [&[u8]; 2] {
        [&self.bytes[..self.start], &self.bytes[self.start + BYTES..]]
    }

    fn write(&mut self, WordWrite { offset, word }: WordWrite) -> u32 {
        unsafe { quoter_window_write(self.bytes.as_mut_ptr().add(self.start), offset, word) }
    }
}

/// Cases and differences.
#[derive(Default)]
struct Cases {
    run: u64,
    differ: u64,
}

impl Cases {
    /// `decoded` is asked for where the first of them differ.
    fn case(&mut self, alike: bool, decoded: impl FnOnce() -> String) {
        self.run += 1;
        self.differ += !alike as u64;
        if !alike && self.differ <= SHOWN {
            println!("{}", decoded());
        }
    }

    fn told(&self, what: &str) {
        println!("{what}: {} run, {} differ", self.run, self.differ);
    }
}

/// What the oracle did.
#[derive(Default)]
struct Seen {
    unwritable: u64,
    solves: u64,
    /// By the number of the refusal; answers at 0.
    numbers: [u64; 10],
}

impl Seen {
    fn add(&mut self, write: WordWrite, number: u32, after: &Window) {
        self.unwritable += (number == UNWRITABLE) as u64;
        if write.offset == 0 && write.word % 2 == 1 {
            self.solves += 1;
            self.numbers[(after.status >> 8) as usize] += 1;
        }
    }

    fn told(&self) {
        let refusals: Vec<String> = (1..10).map(|i| format!("{i}: {}", self.numbers[i])).collect();
        let Seen { unwritable, solves, numbers } = self;
        println!(
            "  {unwritable} unwritable; {solves} solves: {} answers, refusals {}",
            numbers[0],
            refusals.join(", ")
        );
    }
}

#[derive(Default)]
struct Run {
    cases: Cases,
    seen: Seen,
}

impl Run {
    /// A write to our window and to the oracle's.
    fn write(&mut self, lent: &mut Lent, right: &mut Window, write: WordWrite) {
        let (mut after, before) = (lent.clone(), *right);
        let number = right.write(write.offset, write.word);
        after.show(right.bytes());
        let found = lent.write(write);
        self.cases.case(found == number && *lent == after, || {
            let guards = if lent.guards() == after.guards() { "as before" } else { "changed" };
            let head = format!("  offset {} word {:08x}, guard bytes {guards}", write.offset, write.word);
            let (before, ours, right) = (before.text(), lent.window().text(), right.text());
            format!("{head}\n    before {before}\n    ours   {found} {ours}\n    oracle {number} {right}")
        });
        // So that a difference is not counted again at the next write.
        *lent = after;
        self.seen.add(write, number, right);
    }

    fn list(&mut self, rng: &mut Rng, list: &List) {
        let (mut lent, mut right) = (Lent::new(rng, [0; BYTES]), Window::default());
        list.iter().for_each(|&write| self.write(&mut lent, &mut right, write));
    }

    fn told(&self, what: &str) {
        self.cases.told(what);
        self.seen.told();
    }
}

/// Refused writes to a page that may be neither read nor written: one that touches it ends the run.
fn untouched(rng: &mut Rng, writes: u64) -> Cases {
    const NO_ACCESS: i32 = 0;
    const PRIVATE_ANONYMOUS: i32 = 0x22;
    let page = unsafe { mmap(std::ptr::null_mut(), 4096, NO_ACCESS, PRIVATE_ANONYMOUS, -1, 0) };
    assert_ne!(page as isize, -1, "a page can be had");
    let mut cases = Cases::default();
    for i in 0..writes {
        let offset = if i < 128 { i } else { rng.bits() } as u32;
        if Window::default().write(offset, 0) == UNWRITABLE {
            let found = unsafe { quoter_window_write(page, offset, 3) };
            cases.case(found == UNWRITABLE, || format!("  offset {offset}: ours {found}"));
        }
    }
    cases
}

fn main() {
    let words: Vec<u64> = std::env::args().skip(1).map(|word| word.parse().expect("a number")).collect();
    let (lists, seed) = (words[0], words[1]);
    let mut rng = Rng::new(seed);
    let (mut kept, mut drawn, mut any) = (Run::default(), Run::default(), Run::default());
    let like_kept = kept_windows(seed);
    like_kept.iter().for_each(|list| kept.list(&mut rng, list));
    kept.told(&format!("writes of {} lists like the kept ones", like_kept.len()));
    let mut kinds: Vec<Windows> = (0..WINDOW_KINDS.len()).map(|kind| Windows::new(kind, seed, MOST)).collect();
    (0..lists).for_each(|i| drawn.list(&mut rng, &kinds[i as usize % WINDOW_KINDS.len()].next()));
    drawn.told(&format!("writes of {lists} lists"));
    let mut windows = AnyWindows::new(seed);
    for _ in 0..lists {
        let (bytes, write) = windows.next();
        any.write(&mut Lent::new(&mut rng, bytes), &mut Window::shown_as(&bytes), write);
    }
    any.told("writes to a window of any bytes");
    let untouched = untouched(&mut rng, lists);
    untouched.told("refused writes to memory that may not be touched");
    exit((kept.cases.differ + drawn.cases.differ + any.cases.differ + untouched.differ != 0) as i32);
}
