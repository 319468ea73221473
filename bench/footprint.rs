//! What a quote, a price, a ladder, a window and a sheet take of the machine: instructions, stack, text and constants.

use crate::ladder::{self, Ladder, Lent, PLACES};
use crate::{ours, sheet, timing};
use oracle::inputs::{KINDS, Quote, Quotes, Rng, quote};
use oracle::price_inputs::{Keyed, PRICE_KINDS, Prices};
use std::arch::asm;
use std::io::Write;
use std::path::Path;
use std::process::{Command, Stdio};

const QUOTES: usize = 2000;
const PRICES: usize = 20_000;
const NEAR_BOUND: usize = 200_000;
const PAINT: u64 = 0xA5A5_A5A5_A5A5_A5A5;
const WORDS: usize = 4096;

/// Runs desk quotes or desk ladders of one of the seven, for callgrind to count between entry and return.
pub fn run(which: &str) {
    match which {
        "ours" => counted_ours(&timing::desk(QUOTES)),
        "discounted" => counted_ours(&timing::discounted(QUOTES)),
        "rust" => counted_rust(&timing::desk(QUOTES)),
        "platform" => counted_platform(&timing::desk(QUOTES)),
        "window" => counted_window(&timing::desk(QUOTES)),
        "ladder" => counted_ladder(&ladder::desk_ladders(), &mut Lent::new(PLACES)),
        _ => counted_quotes(&ladder::desk_ladders(), &mut Lent::new(PLACES)),
    }
}

#[inline(never)]
#[unsafe(no_mangle)]
extern "C" fn counted_ours(list: &Vec<Quote>) {
    list.iter().for_each(|&q| timing::ours(q));
}

#[inline(never)]
#[unsafe(no_mangle)]
extern "C" fn counted_rust(list: &Vec<Quote>) {
    list.iter().for_each(|&q| timing::rust(q));
}

#[inline(never)]
#[unsafe(no_mangle)]
extern "C" fn counted_platform(list: &Vec<Quote>) {
    list.iter().for_each(|&q| timing::plain(q));
}

#[inline(never)]
#[unsafe(no_mangle)]
extern "C" fn counted_window(list: &Vec<Quote>) {
    let mut window = [0; 64];
    list.iter().for_each(|&q| ours::window(&mut window, q));
}

#[inline(never)]
#[unsafe(no_mangle)]
extern "C" fn counted_ladder(list: &Vec<Ladder>, lent: &mut Lent) {
    list.iter().for_each(|l| ladder::ladder(l, lent));
}

#[inline(never)]
#[unsafe(no_mangle)]
extern "C" fn counted_quotes(list: &Vec<Ladder>, lent: &mut Lent) {
    list.iter().for_each(|l| ladder::quotes(l, lent));
}

/// Instructions of a run, by callgrind on this program, over so many; none where valgrind is not there.
fn instructions(which: &str, over: usize) -> Option<f64> {
    let function = if which == "discounted" { "ours" } else { which };
    let program = std::env::current_exe().ok()?;
    let output = Command::new("valgrind")
        .args(["--tool=callgrind", "--callgrind-out-file=/dev/null"])
        .arg(format!("--toggle-collect=counted_{function}"))
        .arg(program)
        .args(["--run", which])
        .output()
        .ok()?;
    let text = String::from_utf8_lossy(&output.stderr).into_owned();
    let line = text.lines().find(|line| line.contains("Collected :"))?;
    line.split(':').next_back()?.trim().parse::<f64>().ok().map(|n| (n / over as f64).round())
}

/// What a call is given in registers, and what on the stack.
struct Given<'a> {
    words: [u64; 6],
    figures: [f64; 5],
    pushed: &'a [u64],
}

/// Bytes of stack that one call takes: what it is given there, its return address, and what it writes below.
fn painted(stack: &mut [u64], function: usize, given: Given) -> usize {
    stack.fill(PAINT);
    let start = stack.as_mut_ptr() as usize;
    // The pointer is a multiple of 16 at a call.
    let end = (start + 8 * stack.len()) & !15;
    let top = (end - 8 * given.pushed.len()) & !15;
    stack[(top - start) / 8..][..given.pushed.len()].copy_from_slice(given.pushed);
    let [side, p, q, r, s, t] = given.words;
    let [a, b, c, d, e] = given.figures;
    unsafe {
        asm!(
            "mov r12, rsp",
            "mov rsp, {top}",
            "call {function}",
            "mov rsp, r12",
            top = in(reg) top,
            function = in(reg) function,
            in("rdi") side,
            in("rsi") p,
            in("rdx") q,
            in("rcx") r,
            in("r8") s,
            in("r9") t,
            in("xmm0") a,
            in("xmm1") b,
            in("xmm2") c,
            in("xmm3") d,
            in("xmm4") e,
            out("r12") _,
            clobber_abi("C"),
        );
    }
    let untouched = stack.iter().take_while(|&&word| word == PAINT).count();
    end - (start + 8 * untouched)
}

fn at<T>(place: *const T) -> u64 {
    place as u64
}

fn quote_stack(stack: &mut [u64], q: Quote) -> usize {
    let (mut total, mut volatility, mut count) = (0.0f64, 0.0f64, 0u64);
    let words = [q.side as u64, at(&raw mut total), at(&raw mut volatility), at(&raw mut count), 0, 0];
    let given = Given { words, figures: [q.price, q.forward, q.strike, q.time, q.factor], pushed: &[] };
    painted(stack, ours::quoter_quote as *const () as usize, given)
}

fn price_stack(stack: &mut [u64], k: Keyed) -> usize {
    let mut price = 0.0f64;
    let words = [k.side as u64, at(&raw mut price), 0, 0, 0, 0];
    let given = Given { words, figures: [k.volatility, k.forward, k.strike, k.time, 0.0], pushed: &[] };
    painted(stack, ours::quoter_price as *const () as usize, given)
}

/// Of the command that solves.
fn window_stack(stack: &mut [u64], q: Quote) -> usize {
    let mut window = [0u8; 64];
    window[8..44].copy_from_slice(&ours::shown(q));
    let words = [at(window.as_mut_ptr()), 0, 1, 0, 0, 0];
    let taken = painted(stack, ours::quoter_window_write as *const () as usize, Given { words, figures: [0.0; 5], pushed: &[] });
    assert_eq!(window[7] % 2, 1, "the quote is solved");
    taken
}

/// Of a ladder that has no more places than are lent.
fn ladder_stack(stack: &mut [u64], l: &Ladder, lent: &mut Lent) -> usize {
    let (mut roots, n) = (u64::MAX, l.strikes.len() as u64);
    let words = [l.side as u64, at(l.strikes.as_ptr()), n, at(l.prices.as_ptr()), n, at(lent.totals.as_mut_ptr())];
    let [volatilities, counts] = [at(lent.volatilities.as_mut_ptr()), at(lent.counts.as_mut_ptr())];
    let pushed = [n, volatilities, n, counts, n, at(lent.refusals.as_mut_ptr()), n, at(&raw mut roots)];
    let given = Given { words, figures: [l.forward, l.time, 0.0, 0.0, 0.0], pushed: &pushed };
    let taken = painted(stack, ours::quoter_ladder as *const () as usize, given);
    assert!(roots <= n, "the ladder is solved");
    taken
}

/// Calls and puts at all distances from the bound of their price, where an exponential may leave its fast path.
fn near_bound(length: usize) -> Vec<Quote> {
    let mut rng = Rng::new(1);
    let near = |i: usize| {
        let (bound, other) = (100.0, 100.0 * 0.5f64.powf(2.0 * rng.unit() - 1.0));
        let price = bound * (1.0 - 10f64.powf(-1.0 - 7.0 * rng.unit()));
        let (forward, strike) = if i % 2 == 0 { (bound, other) } else { (other, bound) };
        quote((i % 2) as u32, price, forward, strike, 1.0)
    };
    (0..length).map(near).collect()
}

/// Quotes of every kind, and near the bound of their price.
fn all_kinds() -> Vec<Quote> {
    let mut list = Vec::new();
    for kind in 0..KINDS.len() {
        let mut source = Quotes::new(kind, 1);
        list.extend((0..QUOTES).map(|_| source.next()));
    }
    list.extend(near_bound(NEAR_BOUND));
    list
}

/// The most over these quotes.
fn quotes_stack(list: &[Quote]) -> usize {
    let mut stack = vec![PAINT; WORDS];
    list.iter().map(|&q| quote_stack(&mut stack, q)).max().unwrap()
}

fn windows_stack(list: &[Quote]) -> usize {
    let mut stack = vec![PAINT; WORDS];
    list.iter().map(|&q| window_stack(&mut stack, q)).max().unwrap()
}

/// Each quote as a ladder of one place; 500 that follow each other as a ladder; desk ladders.
fn ladders(list: &[Quote]) -> Vec<Ladder> {
    let pieces = list.chunks(1).chain(list.chunks(PLACES));
    pieces.map(Ladder::of).chain(ladder::desk_ladders()).collect()
}

/// The most over these ladders.
fn ladders_stack(list: &[Ladder]) -> usize {
    let (mut stack, mut lent) = (vec![PAINT; WORDS], Lent::new(PLACES));
    list.iter().map(|l| ladder_stack(&mut stack, l, &mut lent)).max().unwrap()
}

/// The most over prices of every kind.
fn prices_stack() -> usize {
    let mut stack = vec![PAINT; WORDS];
    let kinds = (0..PRICE_KINDS.len()).map(|kind| Prices::new(kind, 1));
    let most = |mut source: Prices| (0..PRICES).map(|_| price_stack(&mut stack, source.next())).max().unwrap();
    kinds.map(most).max().unwrap()
}

/// A sheet of 1,000 quotes near the bound of their price: of those painted, the ones that took most stack.
fn most_stacked() -> Vec<u8> {
    let mut stack = vec![PAINT; WORDS];
    let mut list = near_bound(NEAR_BOUND);
    list.sort_by_cached_key(|&q| std::cmp::Reverse(quote_stack(&mut stack, q)));
    list.truncate(1000);
    sheet::bytes(&list)
}

/// The most bytes of stack of the program on that sheet, by massif; none where valgrind is not there.
fn sheet_stack(program: &Path, out: &Path) -> Option<u64> {
    let mut child = Command::new("valgrind")
        .args(["--tool=massif", "--stacks=yes", "--peak-inaccuracy=0.0"])
        .arg(format!("--massif-out-file={}", out.display()))
        .arg(program)
        .stdin(Stdio::piped())
        .stdout(Stdio::null())
        .stderr(Stdio::null())
        .spawn()
        .ok()?;
    child.stdin.take()?.write_all(&most_stacked()).ok()?;
    child.wait().ok().filter(|status| status.success())?;
    let text = std::fs::read_to_string(out).ok()?;
    text.lines().filter_map(|line| line.strip_prefix("mem_stacks_B=")?.parse().ok()).max()
}

/// Bytes of the sections of text and of constants, by `size -A`; none where that is not there.
fn sizes(file: &Path) -> Option<[u64; 2]> {
    let output = Command::new("size").arg("-A").arg(file).output().ok().filter(|output| output.status.success())?;
    let mut found = [0, 0];
    for line in String::from_utf8_lossy(&output.stdout).lines() {
        // A section's name may hold spaces: its size and address come last.
        let mut words = line.split_whitespace().rev();
        let (Some(_), Some(size)) = (words.next(), words.next().and_then(|word| word.parse::<u64>().ok())) else {
            continue;
        };
        found[0] += if line.starts_with(".text") { size } else { 0 };
        found[1] += if line.starts_with(".rodata") { size } else { 0 };
    }
    Some(found)
}

fn print<T: std::fmt::Display>(what: &str, found: Option<T>, tool: &str) {
    match found {
        Some(found) => println!("{what:56} {found:>10}"),
        None => println!("{what:56} {tool} is not there"),
    }
}

fn print_stack(of: &str, calls: usize, allowed: usize, found: usize) {
    print(&format!("stack of a {of}, most of {calls} (painted), of {allowed}"), Some(found), "");
}

pub fn table(root: &Path) {
    for which in ["ours", "rust", "platform"] {
        let found = instructions(which, QUOTES);
        print(&format!("instructions a desk quote, {which} (callgrind)"), found, "valgrind");
    }
    print("instructions a desk quote, discounted (callgrind)", instructions("discounted", QUOTES), "valgrind");
    print("instructions a desk quote through the window (callgrind)", instructions("window", QUOTES), "valgrind");
    let places = PLACES * ladder::LADDERS;
    print("instructions a place, ladder (callgrind)", instructions("ladder", places), "valgrind");
    print("instructions a place, its quote (callgrind)", instructions("quotes", places), "valgrind");
    let library = sizes(&root.join("crates/exports/out/libexports.a"));
    print("library: text, bytes", library.map(|[text, _]| text), "size");
    print("library: constants, bytes", library.map(|[_, constants]| constants), "size");
    print("library: both, of 98304", library.map(|[text, constants]| text + constants), "size");
    let quotes = all_kinds();
    let ladders = ladders(&quotes);
    let quote = quotes_stack(&quotes);
    print_stack("quote", quotes.len(), 4096, quote);
    print_stack("price", PRICES * PRICE_KINDS.len(), 4096, prices_stack());
    print_stack("ladder", ladders.len(), quote + 256, ladders_stack(&ladders));
    print_stack("window", quotes.len(), quote + 256, windows_stack(&quotes));
    let found = sheet_stack(&root.join("crates/sheet/out/sheet"), &root.join("target/bench/massif.out"));
    print("stack of program sheet, 1,000 quotes (massif), of 57344", found, "valgrind or crates/sheet/out/sheet");
}
