//! The cable window, from the words of its request: fields with names, shown as 64 bytes. A solve is the quote with the factor 1,
//! answered by the source.

use crate::inputs::UNDISCOUNTED;
use crate::quote::{Outcome, quote};
use crate::window_inputs::WordWrite;
use std::fmt::Write;

/// Handed back for an offset that is no multiple of 4, or not writable.
pub const UNWRITABLE: u32 = 14;

/// Figures by their bits. From zeros the command is 0 at all times; a window of any bytes keeps its own until one is written.
#[derive(Clone, Copy, Debug, Default, PartialEq)]
pub struct Window {
    pub command: u32,
    pub status: u32,
    pub side: u32,
    pub price: u64,
    pub forward: u64,
    pub strike: u64,
    pub time: u64,
    pub total: u64,
    pub volatility: u64,
    pub count: u32,
}

impl Window {
    /// The window that shows as these bytes.
    pub fn shown_as(bytes: &[u8; 64]) -> Window {
        let word = |at: usize| u32::from_be_bytes(bytes[at..at + 4].try_into().unwrap());
        let double = |at: usize| u64::from_be_bytes(bytes[at..at + 8].try_into().unwrap());
        Window {
            command: word(0),
            status: word(4),
            side: word(8),
            price: double(12),
            forward: double(20),
            strike: double(28),
            time: double(36),
            total: double(44),
            volatility: double(52),
            count: word(60),
        }
    }

    pub fn words(&self) -> [u32; 16] {
        let doubles = [self.price, self.forward, self.strike, self.time, self.total, self.volatility];
        let halves = doubles.map(|figure| [(figure >> 32) as u32, figure as u32]);
        [&[self.command, self.status, self.side], halves.as_flattened(), &[self.count]].concat().try_into().unwrap()
    }

    pub fn bytes(&self) -> [u8; 64] {
        self.words().map(u32::to_be_bytes).as_flattened().try_into().unwrap()
    }

    /// The 16 words as a line has them.
    pub fn text(&self) -> String {
        self.words().map(|word| format!("{word:08x}")).join(" ")
    }

    /// Writes a word at an offset; what is handed back.
    pub fn write(&mut self, offset: u32, word: u32) -> u32 {
        let high = |figure: &mut u64| *figure = (word as u64) << 32 | *figure & 0xFFFF_FFFF;
        let low = |figure: &mut u64| *figure = *figure >> 32 << 32 | word as u64;
        match offset {
            0 => self.carry_out(word),
            8 => self.side = word,
            12 => high(&mut self.price),
            16 => low(&mut self.price),
            20 => high(&mut self.forward),
            24 => low(&mut self.forward),
            28 => high(&mut self.strike),
            32 => low(&mut self.strike),
            36 => high(&mut self.time),
            40 => low(&mut self.time),
            _ => return UNWRITABLE,
        }
        0
    }

    fn carry_out(&mut self, command: u32) {
        if command & 1 << 1 != 0 {
            self.status &= !(1 << 2);
        }
        if command & 1 != 0 {
            self.solve();
        }
        self.command = 0;
    }

    fn solve(&mut self) {
        let [price, forward, strike, time] = [self.price, self.forward, self.strike, self.time].map(f64::from_bits);
        let (done, interrupt) = (1, 1 << 2);
        let count = match quote(self.side, price, forward, strike, time, UNDISCOUNTED) {
            Outcome::Answer { total, volatility, count } => {
                self.status = done | interrupt;
                (self.total, self.volatility) = (total.to_bits(), volatility.to_bits());
                count
            }
            Outcome::Refusal { number, count } => {
                self.status = done | 1 << 1 | interrupt | number << 8;
                (self.total, self.volatility) = (0, 0);
                count
            }
        };
        self.count = count.try_into().unwrap();
    }
}

/// The lines of `windows` for one list.
pub fn text(list: &[WordWrite]) -> String {
    let (mut window, mut out) = (Window::default(), String::new());
    for &WordWrite { offset, word } in list {
        let number = window.write(offset, word);
        writeln!(out, "{number} {}", window.text()).unwrap();
    }
    writeln!(out, "W {}", window.text()).unwrap();
    out
}
