//! Runs our code and the oracle on the same inputs in one process and counts the differences.

mod ladders;
mod ours;
mod prices;
#[cfg(rooted)]
mod roots;
mod windows;

use oracle::discount_inputs::factor_corners;
use oracle::evaluations::counted;
use oracle::functions::NAMES;
use oracle::inputs::{self, Inputs, KINDS, Quote, Quotes, Rng, UNDISCOUNTED};
use oracle::ladder_inputs::LADDER_KINDS;
use oracle::price_inputs::PRICE_KINDS;
use oracle::quote::Outcome;
use oracle::window_inputs::WINDOW_KINDS;
use oracle::{DefaultSpecialFn, explicit_black};
use std::cell::Cell;
use std::process::exit;
use std::time::Instant;

/// Every combination of figures at an edge; and of prices and factors.
const CORNERS: &str = "corners";
const FACTOR_CORNERS: &str = "factor-corners";

/// What either side answers; figures by their bits, every NaN alike.
#[derive(Clone, Copy, Debug, PartialEq)]
pub enum Reply {
    Value(u64),
    Root { root: u64, count: u64 },
    NoRoot { count: u64 },
    Answer { total: u64, volatility: u64, count: u64 },
    Refusal { number: u32, count: u64 },
    Spent,
}

fn bits(x: f64) -> u64 {
    if x.is_nan() { 0x7FF8_0000_0000_0000 } else { x.to_bits() }
}

impl Reply {
    pub fn value(x: f64) -> Reply {
        Reply::Value(bits(x))
    }
    pub fn root(root: f64, count: u64) -> Reply {
        Reply::Root { root: bits(root), count }
    }
    pub fn answer(total: f64, volatility: f64, count: u64) -> Reply {
        Reply::Answer { total: bits(total), volatility: bits(volatility), count }
    }
    /// How many evaluations it took, where that is counted.
    fn count(self) -> u64 {
        match self {
            Reply::Root { count, .. } | Reply::NoRoot { count } => count,
            Reply::Answer { count, .. } | Reply::Refusal { count, .. } => count,
            Reply::Value(_) | Reply::Spent => 0,
        }
    }
    /// A line for a reader: bits and, for figures, decimals.
    fn show(self) -> String {
        let figure = |b: u64| format!("{b:016x} ({:e})", f64::from_bits(b));
        match self {
            Reply::Value(b) => figure(b),
            Reply::Root { root, count } => format!("root {} count {count}", figure(root)),
            Reply::NoRoot { count } => format!("none count {count}"),
            Reply::Answer { total, volatility, count } => {
                format!("V {} {} count {count}", figure(total), figure(volatility))
            }
            Reply::Refusal { number, count } => format!("R {number} count {count}"),
            Reply::Spent => "spent".to_string(),
        }
    }
}

impl From<Outcome> for Reply {
    fn from(outcome: Outcome) -> Reply {
        match outcome {
            Outcome::Answer { total, volatility, count } => Reply::answer(total, volatility, count),
            Outcome::Refusal { number, count } => Reply::Refusal { number, count },
        }
    }
}

fn oracle_reply(function: u32, [a, b, c]: [f64; 3]) -> Reply {
    let search = |result: (Option<f64>, u64)| match result {
        (Some(root), count) => Reply::root(root, count),
        (None, count) => Reply::NoRoot { count },
    };
    match function {
        19 => oracle::quote::normalised(a, b).into(),
        22 => search(counted(|| explicit_black::inverse_gaussian_quantile::<DefaultSpecialFn>(a, b))),
        23 => search(counted(|| explicit_black::inverse_gaussian_quantile_from_survival::<DefaultSpecialFn>(a, b))),
        _ => Reply::value(oracle::functions::value(function, a, b, c).unwrap()),
    }
}

fn name(function: u32) -> &'static str {
    match function {
        22 => "inverse_gaussian_quantile",
        23 => "inverse_gaussian_quantile_from_survival",
        _ => NAMES[function as usize],
    }
}

thread_local!(static CURRENT: Cell<[u64; 6]> = const { Cell::new([0; 6]) });

/// Says which input is run: up to six words.
fn set_current(input: &[u64]) {
    let mut words = [0; 6];
    words[..input.len()].copy_from_slice(input);
    CURRENT.with(|current| current.set(words));
}

/// A panic says on which input it came.
fn report_panics() {
    let usual = std::panic::take_hook();
    std::panic::set_hook(Box::new(move |info| {
        let input = CURRENT.with(Cell::get);
        eprintln!("panic on input {}", input.map(|b| format!("{b:016x}")).join(" "));
        usual(info);
    }));
}

struct Tally {
    what: String,
    start: Instant,
    run: u64,
    differ: u64,
}

impl Tally {
    fn new(what: String) -> Tally {
        Tally { what, start: Instant::now(), run: 0, differ: 0 }
    }
    fn compare(&mut self, input: &[u64], ours: Reply, theirs: Reply) {
        self.note(ours == theirs, || {
            let figures: Vec<String> = input.iter().map(|&b| format!("{b:016x} ({:e})", f64::from_bits(b))).collect();
            [figures.join(" "), ours.show(), theirs.show()]
        });
    }
    /// `texts`: the input, what is ours, and what is the oracle's.
    fn note(&mut self, same: bool, texts: impl FnOnce() -> [String; 3]) {
        self.run += 1;
        self.differ += !same as u64;
        if !same && self.differ <= 10 {
            let [input, ours, theirs] = texts();
            println!("  differs: {input}\n    ours   {ours}\n    oracle {theirs}");
        }
    }
    fn end(self) -> u64 {
        println!(
            "{}: {} run, {} differ, {:.1} s",
            self.what,
            self.run,
            self.differ,
            self.start.elapsed().as_secs_f64()
        );
        self.differ
    }
}

/// A probability that a search meets exactly at 2^k times its first guess, found by repeating the curve on itself.
fn met(number: u32, rng: &mut Rng) -> [f64; 3] {
    use explicit_black::*;
    type S = DefaultSpecialFn;
    if number == 23 && rng.below(2) == 0 {
        // The guess overflows, and the search starts at mu.
        let mu = rng.magnitude(530, 1020);
        return [inverse_gaussian_survival::<S>(mu * inputs::power(rng.whole(0, 2)), mu), mu, 0.0];
    }
    let (mu, factor) = (rng.magnitude(-9, 20), inputs::power(rng.whole(-6, 6)));
    let mut p = rng.unit();
    for _ in 0..60 {
        let next = if number == 22 {
            inverse_gaussian_cdf::<S>(inverse_gaussian_quantile_initial_guess::<S>(p, mu) * factor, mu)
        } else {
            let z = -<S as oracle::SpecialFn>::inverse_norm_cdf(p);
            inverse_gaussian_survival::<S>(inverse_gaussian_quantile_initial_guess_from_z(z, mu) * factor, mu)
        };
        if next == p || !(next > 0.0 && next < 1.0) {
            break;
        }
        p = next;
    }
    [p, mu, 0.0]
}

fn function(number: u32, count: u64, seed: u64) -> u64 {
    let mut inputs = Inputs::new(number, seed);
    let mut rng = Rng::new(seed + 1);
    let mut tally = Tally::new(format!("{number} {}", name(number)));
    let mut most = (0, [0.0; 3]);
    for i in 0..count {
        let input = if number > 21 && i % 8 == 7 { met(number, &mut rng) } else { inputs.next() };
        let [a, b, c] = input.map(f64::to_bits);
        set_current(&[number as u64, a, b, c]);
        let ours = ours::reply(number, input);
        let theirs = oracle_reply(number, input);
        tally.compare(&[a, b, c], ours, theirs);
        if theirs.count() > most.0 {
            most = (theirs.count(), input);
        }
    }
    let differ = tally.end();
    if let (1.., [a, b, _]) = most {
        println!("  most evaluations {}: {a:?} {b:?}", most.0);
    }
    differ
}

fn oracle_quote(q: Quote) -> Reply {
    oracle::quote::quote(q.side, q.price, q.forward, q.strike, q.time, q.factor).into()
}

fn our_quote(q: Quote) -> Reply {
    ours::quotes::quote(q.side, q.price, q.forward, q.strike, q.time, q.factor)
}

fn input_of(q: Quote) -> [u64; 6] {
    let [price, forward, strike, time, factor] = [q.price, q.forward, q.strike, q.time, q.factor].map(f64::to_bits);
    [q.side as u64, price, forward, strike, time, factor]
}

/// One more than the largest refusal of a quote.
const NUMBERS: usize = 16;

/// What the source answered over a run of quotes.
struct Seen {
    on_domain: u64,
    answers: u64,
    refusals: [u64; NUMBERS],
    /// Of those on the domain with another factor than 1: all, and those whose quotient overflows, is subnormal or is 0 though the price is not.
    quotients: [u64; 4],
    most: u64,
    longest: Option<Quote>,
}

impl Seen {
    fn new() -> Seen {
        Seen { on_domain: 0, answers: 0, refusals: [0; NUMBERS], quotients: [0; 4], most: 0, longest: None }
    }
    fn add(&mut self, q: Quote, reply: Reply) {
        if oracle::quote::on_domain(q.side, q.price, q.forward, q.strike, q.time, q.factor) {
            self.on_domain += 1;
            let (quotient, discounted) = (q.price / q.factor, q.factor != UNDISCOUNTED);
            let kinds = [true, quotient.is_infinite(), quotient.is_subnormal(), quotient == 0.0 && q.price != 0.0];
            (0..4).for_each(|i| self.quotients[i] += (discounted && kinds[i]) as u64);
        }
        match reply {
            Reply::Refusal { number, .. } => self.refusals[number as usize] += 1,
            _ => self.answers += 1,
        }
        if reply.count() > self.most {
            (self.most, self.longest) = (reply.count(), Some(q));
        }
    }
    fn join(mut self, other: Seen) -> Seen {
        self.on_domain += other.on_domain;
        self.answers += other.answers;
        (0..NUMBERS).for_each(|i| self.refusals[i] += other.refusals[i]);
        (0..4).for_each(|i| self.quotients[i] += other.quotients[i]);
        if other.most > self.most { Seen { most: other.most, longest: other.longest, ..self } } else { self }
    }
    fn show(&self) {
        let numbers = (1..NUMBERS).filter(|&i| i < 10 || self.refusals[i] > 0);
        let refusals: Vec<String> = numbers.map(|i| format!("{i}: {}", self.refusals[i])).collect();
        println!("  {} on the domain; {} answers, refusals {}", self.on_domain, self.answers, refusals.join(", "));
        let [all, overflow, subnormal, zero] = self.quotients;
        if all > 0 {
            println!(
                "  {all} discounted; quotients that overflow {overflow}, are subnormal {subnormal}, become 0 {zero}"
            );
        }
        if let Some(q) = self.longest {
            let figures = [q.price, q.forward, q.strike, q.time, q.factor].map(|x| format!("{x:?}")).join(" ");
            println!("  most evaluations {}: {} {figures}", self.most, q.side);
        }
    }
}

/// Compares quotes until `count` on the requirements' domain were compared; the corners only once. With the factor 1 the entry without one has
/// the same reply.
fn quotes(kind: &str, count: u64, seed: u64) -> (u64, Seen) {
    let source: Box<dyn Iterator<Item = Quote>> = match KINDS.iter().position(|&name| name == kind) {
        Some(i) => {
            let mut source = Quotes::new(i, seed);
            Box::new(std::iter::from_fn(move || Some(source.next())))
        }
        None if kind == FACTOR_CORNERS => Box::new(factor_corners()),
        None => Box::new(inputs::corners()),
    };
    let mut tally = Tally::new(format!("quotes, {kind}"));
    let mut former = Tally::new("  of these with the factor 1, by the entry without".to_string());
    let mut seen = Seen::new();
    for q in source {
        set_current(&input_of(q));
        let theirs = oracle_quote(q);
        tally.compare(&input_of(q), our_quote(q), theirs);
        if q.factor == UNDISCOUNTED {
            former.compare(
                &input_of(q),
                ours::quotes::undiscounted(q.side, q.price, q.forward, q.strike, q.time),
                theirs,
            );
        }
        seen.add(q, theirs);
        if seen.on_domain == count && KINDS.contains(&kind) {
            break;
        }
    }
    let differ = tally.end() + former.end();
    seen.show();
    (differ, seen)
}

fn every_quote(count: u64, seed: u64) -> u64 {
    let runs = [CORNERS, FACTOR_CORNERS].into_iter().chain(KINDS).map(|kind| quotes(kind, count, seed));
    let (differ, seen) = runs.reduce(|(d, all), (e, seen)| (d + e, all.join(seen))).unwrap();
    println!("quotes in all: {differ} differ");
    seen.show();
    differ
}

/// Scaled and exchanged pairs: refusal number, or total, and count agree.
fn pairs(count: u64, seed: u64) -> u64 {
    let mut differ = 0;
    for kind in [5, 6, 12, 13] {
        let mut source = Quotes::new(kind, seed);
        let mut tally = Tally::new(format!("pairs, {}", KINDS[kind]));
        for _ in 0..count {
            let (q, other) = (source.next(), source.next());
            let untimed = |reply: Reply| match reply {
                Reply::Answer { total, count, .. } => Reply::Answer { total, volatility: 0, count },
                refusal => refusal,
            };
            let replies = [q, other].map(|q| untimed(our_quote(q)));
            tally.compare(&[input_of(q), input_of(other)].concat(), replies[0], replies[1]);
        }
        differ += tally.end();
    }
    differ
}

/// The stand-ins beside the platform's exp, ln and ln_1p: how many units in the last place are between them at most.
fn standins(count: u64, seed: u64) {
    let place = |x: f64| {
        let size = (x.to_bits() & !(1 << 63)) as i64;
        if x.is_sign_negative() { -size } else { size }
    };
    let platform: [(u32, fn(f64) -> f64); 3] = [(3, f64::exp), (4, f64::ln), (5, f64::ln_1p)];
    for (number, std) in platform {
        let mut inputs = Inputs::new(number, seed);
        let (mut worst, mut at, mut unlike) = (0, 0.0, 0);
        for _ in 0..count {
            let [x, ..] = inputs.next();
            let (mine, theirs) = (oracle::functions::value(number, x, 0.0, 0.0).unwrap(), std(x));
            if mine.is_nan() || theirs.is_nan() {
                unlike += (mine.is_nan() != theirs.is_nan()) as u64;
            } else if (place(mine) - place(theirs)).abs() > worst {
                (worst, at) = ((place(mine) - place(theirs)).abs(), x);
            }
        }
        println!(
            "{}: {count} run, at most {worst} units from the platform's (at {at:e}), NaN in one only: {unlike}",
            name(number)
        );
    }
}

fn usage() -> ! {
    eprintln!(
        "usage: harness FUNCTION COUNT SEED        a function of vectors (1 to 21), a search (22, 23), or `all`
       harness quotes KIND COUNT SEED     COUNT on the requirements' domain; KIND: {CORNERS}, {FACTOR_CORNERS}, {} or all
       harness sheet                      our text of the sheet on standard input
       harness pairs COUNT SEED           scaled and exchanged pairs against each other
       harness prices KIND COUNT SEED     COUNT records that get a price; KIND: {CORNERS}, {} or all
       harness law COUNT SEED             prices of COUNT pairs within the hypotheses of the law of 4^n against each other
       harness counterexamples            pairs outside its hypotheses that break it
       harness ladders KIND COUNT SEED    ladders until COUNT places were compared; KIND: {CORNERS}, {} or all
       harness ladder-pairs COUNT SEED    scaled and exchanged ladders against each other, place by place
       harness windows KIND COUNT SEED    COUNT writes to cable windows; KIND: {}, {} or all
       harness-rooted roots COUNT SEED    the roots that ladders take, of COUNT places of each kind
       harness standins COUNT SEED        the requirements' exp, ln, ln_1p beside the platform's; nothing is asked of them
Exit status: 0 no difference, and every counterexample breaks the law; 1 some, or not; 2 bad usage.",
        KINDS.join(", "),
        PRICE_KINDS.join(", "),
        LADDER_KINDS.join(", "),
        WINDOW_KINDS.join(", "),
        windows::ANY
    );
    exit(2)
}

fn main() {
    report_panics();
    let args: Vec<String> = std::env::args().skip(1).collect();
    let number = |text: &String| text.parse::<u64>().unwrap_or_else(|_| usage());
    let words: Vec<&str> = args.iter().map(String::as_str).collect();
    let differ = match words[..] {
        ["quotes", "all", _, _] => every_quote(number(&args[2]), number(&args[3])),
        ["quotes", kind, _, _] if [CORNERS, FACTOR_CORNERS].contains(&kind) || KINDS.contains(&kind) => {
            quotes(kind, number(&args[2]), number(&args[3])).0
        }
        ["sheet"] => {
            ours::sheets::print();
            0
        }
        ["pairs", _, _] => pairs(number(&args[1]), number(&args[2])),
        ["prices", kind, _, _] if ["all", CORNERS].contains(&kind) || PRICE_KINDS.contains(&kind) => {
            prices::prices(kind, number(&args[2]), number(&args[3]))
        }
        ["law", _, _] => prices::law(number(&args[1]), number(&args[2])),
        ["counterexamples"] => prices::counterexamples(),
        ["ladders", kind, _, _] if ["all", CORNERS].contains(&kind) || LADDER_KINDS.contains(&kind) => {
            ladders::ladders(kind, number(&args[2]), number(&args[3]))
        }
        ["ladder-pairs", _, _] => ladders::pairs(number(&args[1]), number(&args[2])),
        ["windows", kind, _, _] if ["all", windows::ANY].contains(&kind) || WINDOW_KINDS.contains(&kind) => {
            windows::windows(kind, number(&args[2]), number(&args[3]))
        }
        #[cfg(rooted)]
        ["roots", _, _] => roots::roots(number(&args[1]), number(&args[2])),
        ["standins", _, _] => {
            standins(number(&args[1]), number(&args[2]));
            0
        }
        ["all", _, _] => (1..=23).map(|f| function(f, number(&args[1]), number(&args[2]))).sum(),
        [f, _, _] if f.parse::<u32>().is_ok_and(|f| (1..=23).contains(&f)) => {
            function(number(&args[0]) as u32, number(&args[1]), number(&args[2]))
        }
        _ => usage(),
    };
    exit(if differ == 0 { 0 } else { 1 });
}
