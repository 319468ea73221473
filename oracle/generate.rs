//! Writes inputs to standard output: records for `vectors` or `prices`, a sheet, ladders, or lists of writes for `windows`.

#[allow(dead_code)]
mod discount_inputs;
#[allow(dead_code)]
mod inputs;
#[allow(dead_code)]
mod ladder_inputs;
#[allow(dead_code)]
mod price_inputs;
#[allow(dead_code)]
mod standin;
#[allow(dead_code)]
mod window_inputs;

use inputs::{Inputs, KINDS, Quote, Quotes, kept};
use ladder_inputs::{LADDER_KINDS, Ladder, Ladders, kept_ladders};
use price_inputs::{Keyed, PRICE_KINDS, Prices, kept_prices};
use std::io::{self, BufWriter, Write};
use std::process::exit;
use window_inputs::{List, MOST, WINDOW_KINDS, Windows, kept_windows};

fn usage() -> ! {
    eprintln!(
        "usage: oracle/generate vectors FUNCTION COUNT SEED   records of one function (1 to 21): its edges, then drawn ones
       oracle/generate sample FUNCTION COUNT SEED    the same, half edges spread evenly, half drawn
       oracle/generate sheet KIND COUNT SEED         a sheet of quotes; KIND: {} or mixed
       oracle/generate kept SEED                     the sheet that the repository keeps: 1,000 quotes, the requirements' first
       oracle/generate prices KIND COUNT SEED        records of `prices`; KIND: {} or mixed
       oracle/generate kept-prices SEED              the records that the repository keeps: 1,500, and a last one without its end
       oracle/generate ladders KIND COUNT SEED       ladders until they have COUNT places; KIND: {} or mixed
       oracle/generate kept-ladders SEED             the ladders that the repository keeps, and a last one without its end
       oracle/generate windows KIND COUNT SEED       lists of COUNT writes in all; KIND: {} or mixed
       oracle/generate kept-windows SEED             the lists that the repository keeps, and a last one without its end
Exit status: 0 written; 1 it could not be written or built; 2 bad usage; 4 rustc is not there.",
        KINDS.join(", "),
        PRICE_KINDS.join(", "),
        LADDER_KINDS.join(", "),
        WINDOW_KINDS.join(", ")
    );
    exit(2)
}

/// A side and figures in XDR.
fn put_figures<const N: usize>(side: u32, figures: [f64; N], out: &mut impl Write) -> io::Result<()> {
    out.write_all(&side.to_be_bytes())?;
    figures.iter().try_for_each(|figure| out.write_all(&figure.to_bits().to_be_bytes()))
}

/// A sheet in XDR.
fn put_sheet(quotes: &[Quote], out: &mut impl Write) -> io::Result<()> {
    out.write_all(&(quotes.len() as u32).to_be_bytes())?;
    quotes.iter().try_for_each(|q| put_figures(q.side, [q.price, q.forward, q.strike, q.time, q.factor], out))
}

/// Records of `prices`.
fn put_prices(records: impl Iterator<Item = Keyed>, out: &mut impl Write) -> io::Result<()> {
    for k in records {
        put_figures(k.side, [k.volatility, k.forward, k.strike, k.time], out)?;
    }
    Ok(())
}

/// A ladder of `ladders`.
fn put_ladder(ladder: &Ladder, out: &mut impl Write) -> io::Result<()> {
    out.write_all(&ladder.side.to_be_bytes())?;
    [ladder.forward, ladder.time].iter().try_for_each(|figure| out.write_all(&figure.to_bits().to_be_bytes()))?;
    ladder.lengths().iter().try_for_each(|&length| out.write_all(&(length as u32).to_be_bytes()))?;
    let figures = ladder.strikes.iter().chain(&ladder.prices);
    figures.into_iter().try_for_each(|figure| out.write_all(&figure.to_bits().to_be_bytes()))
}

/// Ladders of one kind, or of all in turn, until they have so many places: each as many as the longest of its slices.
fn put_ladders(kind: &str, count: usize, seed: u64, out: &mut impl Write) -> io::Result<()> {
    let kinds = (0..LADDER_KINDS.len()).filter(|&i| kind == "mixed" || LADDER_KINDS[i] == kind);
    let mut ladders: Vec<Ladders> = kinds.map(|i| Ladders::new(i, seed)).collect();
    if ladders.is_empty() {
        usage();
    }
    let (mut places, n) = (0, ladders.len());
    for i in 0.. {
        if places >= count {
            break;
        }
        let ladder = ladders[i % n].next();
        places += ladder.longest();
        put_ladder(&ladder, out)?;
    }
    Ok(())
}

/// The kept ladders, then the first of them without its last byte.
fn put_kept_ladders(seed: u64, out: &mut impl Write) -> io::Result<()> {
    let kept = kept_ladders(seed);
    kept.iter().try_for_each(|ladder| put_ladder(ladder, out))?;
    let mut last = Vec::new();
    put_ladder(&kept[0], &mut last)?;
    out.write_all(&last[..last.len() - 1])
}

/// A list of `windows`.
fn put_list(list: &List, out: &mut impl Write) -> io::Result<()> {
    out.write_all(&(list.len() as u32).to_be_bytes())?;
    list.iter().flat_map(|write| [write.offset, write.word]).try_for_each(|word| out.write_all(&word.to_be_bytes()))
}

/// Lists of one kind, or of all in turn, until they have so many writes.
fn put_windows(kind: &str, count: usize, seed: u64, out: &mut impl Write) -> io::Result<()> {
    let kinds = (0..WINDOW_KINDS.len()).filter(|&i| kind == "mixed" || WINDOW_KINDS[i] == kind);
    let mut windows: Vec<Windows> = kinds.map(|i| Windows::new(i, seed, MOST)).collect();
    if windows.is_empty() {
        usage();
    }
    let (mut left, n) = (count, windows.len());
    for i in 0.. {
        if left == 0 {
            break;
        }
        let mut list = windows[i % n].next();
        list.truncate(left);
        left -= list.len();
        put_list(&list, out)?;
    }
    Ok(())
}

/// The kept lists, then the first of them that has a write without its last byte.
fn put_kept_windows(seed: u64, out: &mut impl Write) -> io::Result<()> {
    let kept = kept_windows(seed);
    kept.iter().try_for_each(|list| put_list(list, out))?;
    let mut last = Vec::new();
    put_list(kept.iter().find(|list| !list.is_empty()).unwrap(), &mut last)?;
    out.write_all(&last[..last.len() - 1])
}

/// Quotes of one kind, or of all in turn.
fn drawn(kind: &str, count: usize, seed: u64) -> Vec<Quote> {
    let kinds = (0..KINDS.len()).filter(|&i| kind == "mixed" || KINDS[i] == kind);
    let mut quotes: Vec<Quotes> = kinds.map(|i| Quotes::new(i, seed)).collect();
    if quotes.is_empty() {
        usage();
    }
    let n = quotes.len();
    (0..count).map(|i| quotes[i % n].next()).collect()
}

/// Records of one kind of price, or of all in turn.
fn drawn_prices(kind: &str, count: usize, seed: u64) -> impl Iterator<Item = Keyed> {
    let kinds = (0..PRICE_KINDS.len()).filter(|&i| kind == "mixed" || PRICE_KINDS[i] == kind);
    let mut prices: Vec<Prices> = kinds.map(|i| Prices::new(i, seed)).collect();
    if prices.is_empty() {
        usage();
    }
    let n = prices.len();
    (0..count).map(move |i| prices[i % n].next())
}

/// Records for `vectors`.
fn put_records(function: u32, records: impl Iterator<Item = [f64; 3]>, out: &mut impl Write) -> io::Result<()> {
    for record in records {
        out.write_all(&function.to_be_bytes())?;
        record.iter().try_for_each(|figure| out.write_all(&figure.to_bits().to_be_bytes()))?;
    }
    Ok(())
}

fn number(text: &str) -> u64 {
    text.parse().unwrap_or_else(|_| usage())
}

fn function(text: &str) -> u32 {
    let function = number(text) as u32;
    if (1..=21).contains(&function) { function } else { usage() }
}

fn main() -> io::Result<()> {
    let args: Vec<String> = std::env::args().skip(1).collect();
    let mut out = BufWriter::with_capacity(1 << 20, io::stdout().lock());
    match args.iter().map(String::as_str).collect::<Vec<_>>()[..] {
        ["kept", seed] => put_sheet(&kept(number(seed)), &mut out)?,
        ["sheet", kind, count, seed] => put_sheet(&drawn(kind, number(count) as usize, number(seed)), &mut out)?,
        ["prices", kind, count, seed] => {
            put_prices(drawn_prices(kind, number(count) as usize, number(seed)), &mut out)?
        }
        ["kept-prices", seed] => {
            put_prices(kept_prices(number(seed)).into_iter(), &mut out)?;
            out.write_all(&[0; 35])?
        }
        ["ladders", kind, count, seed] => put_ladders(kind, number(count) as usize, number(seed), &mut out)?,
        ["kept-ladders", seed] => put_kept_ladders(number(seed), &mut out)?,
        ["windows", kind, count, seed] => put_windows(kind, number(count) as usize, number(seed), &mut out)?,
        ["kept-windows", seed] => put_kept_windows(number(seed), &mut out)?,
        ["vectors", name, count, seed] => {
            let mut inputs = Inputs::new(function(name), number(seed));
            put_records(function(name), (0..number(count)).map(|_| inputs.next()), &mut out)?
        }
        ["sample", name, count, seed] => {
            let records = Inputs::sample(function(name), number(seed), number(count) as usize);
            put_records(function(name), records.into_iter(), &mut out)?
        }
        _ => usage(),
    }
    out.flush()
}
