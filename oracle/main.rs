//! `oracle vectors`, `oracle sheet`, `oracle prices`, `oracle ladders` and `oracle windows`: the interfaces of the proved programs, answered by
//! the Rust source.

use oracle::ladder_inputs::Ladder;
use oracle::window_inputs::{List, MOST, WordWrite};
use std::io::{self, BufRead, BufReader, BufWriter, Read, Write};
use std::process::exit;

fn vectors() -> io::Result<()> {
    let mut input = BufReader::with_capacity(1 << 20, io::stdin().lock());
    let mut output = BufWriter::with_capacity(1 << 20, io::stdout().lock());
    let mut record = [0u8; 28];
    while !input.fill_buf()?.is_empty() {
        if input.read_exact(&mut record).is_err() {
            break;
        }
        let function = u32::from_be_bytes(record[0..4].try_into().unwrap());
        let double = |at: usize| f64::from_bits(u64::from_be_bytes(record[at..at + 8].try_into().unwrap()));
        match oracle::functions::line(function, double(4), double(12), double(20)) {
            Some(line) => writeln!(output, "{line}")?,
            None => break,
        }
    }
    output.flush()
}

fn prices() -> io::Result<()> {
    let mut input = BufReader::with_capacity(1 << 20, io::stdin().lock());
    let mut output = BufWriter::with_capacity(1 << 20, io::stdout().lock());
    let mut record = [0u8; 36];
    for number in 1u64.. {
        if input.read_exact(&mut record).is_err() {
            break;
        }
        let side = u32::from_be_bytes(record[0..4].try_into().unwrap());
        let double = |at: usize| f64::from_bits(u64::from_be_bytes(record[at..at + 8].try_into().unwrap()));
        let outcome = oracle::price::price(side, double(4), double(12), double(20), double(28));
        writeln!(output, "{number} {}", outcome.line())?;
    }
    output.flush()
}

/// The next ladder, or none where the input ends inside it or a length is over 512.
fn next_ladder(input: &mut impl Read) -> Option<Ladder> {
    let mut head = [0u8; 44];
    input.read_exact(&mut head).ok()?;
    let word = |at: usize| u32::from_be_bytes(head[at..at + 4].try_into().unwrap());
    let double = |bytes: &[u8]| f64::from_bits(u64::from_be_bytes(bytes.try_into().unwrap()));
    let lengths: [usize; 6] = std::array::from_fn(|i| word(20 + 4 * i) as usize);
    if lengths.iter().any(|&length| length > 512) {
        return None;
    }
    let mut doubles = |count: usize| {
        let mut bytes = vec![0u8; 8 * count];
        input.read_exact(&mut bytes).ok()?;
        Some(bytes.chunks(8).map(double).collect::<Vec<f64>>())
    };
    let [strikes, prices, lent @ ..] = lengths;
    Some(Ladder {
        side: word(0),
        forward: double(&head[4..12]),
        time: double(&head[12..20]),
        strikes: doubles(strikes)?,
        prices: doubles(prices)?,
        lent,
    })
}

fn ladders() -> io::Result<()> {
    let mut input = BufReader::with_capacity(1 << 20, io::stdin().lock());
    let mut output = BufWriter::with_capacity(1 << 20, io::stdout().lock());
    while let Some(ladder) = next_ladder(&mut input) {
        output.write_all(oracle::ladder::text(&ladder).as_bytes())?;
    }
    output.flush()
}

/// The next list of writes, or none where the input ends inside it or its count is over 512.
fn next_list(input: &mut impl Read) -> Option<List> {
    let mut word = || {
        let mut bytes = [0u8; 4];
        input.read_exact(&mut bytes).ok()?;
        Some(u32::from_be_bytes(bytes))
    };
    let count = word()?;
    if count as usize > MOST {
        return None;
    }
    (0..count).map(|_| Some(WordWrite { offset: word()?, word: word()? })).collect()
}

fn windows() -> io::Result<()> {
    let mut input = BufReader::with_capacity(1 << 20, io::stdin().lock());
    let mut output = BufWriter::with_capacity(1 << 20, io::stdout().lock());
    while let Some(list) = next_list(&mut input) {
        output.write_all(oracle::window::text(&list).as_bytes())?;
    }
    output.flush()
}

fn sheet() -> io::Result<()> {
    let mut bytes = Vec::new();
    // One byte more than the longest sheet is enough to refuse.
    io::stdin().lock().take(oracle::sheet::MAX_BYTES as u64 + 1).read_to_end(&mut bytes)?;
    io::stdout().write_all(oracle::sheet::text(&bytes).as_bytes())
}

fn main() -> io::Result<()> {
    match std::env::args().nth(1).as_deref() {
        Some("vectors") => vectors(),
        Some("sheet") => sheet(),
        Some("prices") => prices(),
        Some("ladders") => ladders(),
        Some("windows") => windows(),
        _ => {
            eprintln!(
                "usage: oracle vectors | sheet | prices | ladders | windows   (standard input to standard output)"
            );
            exit(2)
        }
    }
}
