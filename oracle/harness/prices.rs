//! Prices of volatilities: our code beside the oracle, the law of 4^n, and pairs outside its hypotheses that break it.

use crate::ours::quotes;
use crate::{CORNERS, Reply, Tally, bits, set_current};
use oracle::inputs::{power, times_power};
use oracle::lets_be_rational::bs_option_price::{is_region1, is_region2, negative_abs_log_moneyness};
use oracle::price::{Outcome, of_source, price, time_value};
use oracle::price_inputs::{Keyed, PRICE_KINDS, Prices, at_least_normal, doubled, overflowing, price_corners};
use std::collections::BTreeMap;

fn ours(k: Keyed) -> Reply {
    quotes::price(k.side, k.volatility, k.forward, k.strike, k.time)
}

fn theirs(k: Keyed) -> Reply {
    match price(k.side, k.volatility, k.forward, k.strike, k.time) {
        Outcome::Price(price) => Reply::value(price),
        Outcome::Refusal { number, count } => Reply::Refusal { number, count },
    }
}

fn input_of(k: Keyed) -> [u64; 5] {
    [k.side as u64, k.volatility.to_bits(), k.forward.to_bits(), k.strike.to_bits(), k.time.to_bits()]
}

fn figures(k: Keyed) -> String {
    let figures = [k.volatility, k.forward, k.strike, k.time].map(|x| format!("{x:?}"));
    format!("{} {}", k.side, figures.join(" "))
}

/// What the oracle answered over a run.
#[derive(Default)]
struct Seen {
    counts: BTreeMap<&'static str, u64>,
    refusals: BTreeMap<u32, u64>,
    /// Most units in the last place above the bound, of a finite price.
    over: u64,
    highest: Option<Keyed>,
}

/// In the order in which they are shown.
const SHOWN: [[&str; 7]; 2] = [
    ["prices", "NaN", "infinite", "0", "below 2^-1022", "above the bound", "s infinite"],
    ["s = 0", "asymptotic", "small t", "Cody", "0 at once", "as the source's own", "unlike it"],
];

impl Seen {
    fn note(&mut self, what: &'static str, so: bool) {
        *self.counts.entry(what).or_default() += so as u64;
    }

    fn add(&mut self, k: Keyed, reply: Reply) {
        let price = match reply {
            Reply::Value(price) => f64::from_bits(price),
            Reply::Refusal { number, .. } => return *self.refusals.entry(number).or_default() += 1,
            other => panic!("{other:?} is no reply of the price entry"),
        };
        let s = k.volatility * k.time.sqrt();
        let (h, t) = (negative_abs_log_moneyness(k.forward, k.strike) / s, s / 2.0);
        let at_once = t == 0.0 || h.is_infinite();
        self.note("prices", true);
        self.note("NaN", price.is_nan());
        self.note("infinite", price.is_infinite());
        self.note("0", price == 0.0);
        self.note("below 2^-1022", price > 0.0 && price < f64::MIN_POSITIVE);
        let bound = if k.side == 0 { k.forward } else { k.strike };
        self.note("above the bound", price > bound);
        if price > bound && price.is_finite() && price.to_bits() - bound.to_bits() > self.over {
            (self.over, self.highest) = (price.to_bits() - bound.to_bits(), Some(k));
        }
        self.note("s infinite", s.is_infinite());
        self.note("s = 0", s == 0.0);
        self.note("0 at once", s != 0.0 && at_once);
        self.note("asymptotic", !at_once && is_region1(h, t));
        self.note("small t", !at_once && !is_region1(h, t) && is_region2(h, t));
        self.note("Cody", !at_once && !is_region1(h, t) && !is_region2(h, t));
        // Elsewhere the source's own price has another formula.
        if k.forward != k.strike && s.is_finite() {
            let own = bits(of_source(k.side, k.volatility, k.forward, k.strike, k.time));
            self.note("as the source's own", own == bits(price));
            self.note("unlike it", own != bits(price));
        }
    }

    fn join(mut self, other: Seen) -> Seen {
        other.counts.into_iter().for_each(|(what, n)| *self.counts.entry(what).or_default() += n);
        other.refusals.into_iter().for_each(|(number, n)| *self.refusals.entry(number).or_default() += n);
        if other.over > self.over { Seen { over: other.over, highest: other.highest, ..self } } else { self }
    }

    fn show(&self) {
        let refusals: Vec<String> = self.refusals.iter().map(|(number, n)| format!("{number}: {n}")).collect();
        for names in SHOWN {
            let counts = names.map(|what| format!("{what}: {}", self.counts.get(what).unwrap_or(&0)));
            println!("  {}", counts.join(", "));
        }
        println!("  refusals {}", if refusals.is_empty() { "none".to_string() } else { refusals.join(", ") });
        if let Some(k) = self.highest {
            println!("  {} units above the bound, the most: {}", self.over, figures(k));
        }
    }
}

/// Compares records until `count` got a price; the corners only once.
fn kind_of_prices(kind: &str, count: u64, seed: u64) -> (u64, Seen) {
    let source: Box<dyn Iterator<Item = Keyed>> = match PRICE_KINDS.iter().position(|&name| name == kind) {
        Some(i) => {
            let mut source = Prices::new(i, seed);
            Box::new(std::iter::from_fn(move || Some(source.next())))
        }
        None => Box::new(price_corners()),
    };
    let mut tally = Tally::new(format!("prices, {kind}"));
    let mut seen = Seen::default();
    for k in source {
        set_current(&input_of(k));
        let reply = theirs(k);
        tally.compare(&input_of(k), ours(k), reply);
        seen.add(k, reply);
        if seen.counts.get("prices") == Some(&count) && kind != CORNERS {
            break;
        }
    }
    let differ = tally.end();
    seen.show();
    (differ, seen)
}

pub fn prices(kind: &str, count: u64, seed: u64) -> u64 {
    if kind != "all" {
        return kind_of_prices(kind, count, seed).0;
    }
    let runs = [CORNERS].into_iter().chain(PRICE_KINDS).map(|kind| kind_of_prices(kind, count, seed));
    let (differ, seen) = runs.reduce(|(d, all), (e, seen)| (d + e, all.join(seen))).unwrap();
    println!("prices in all: {differ} differ");
    seen.show();
    differ
}

/// The price, by our code, and the time value, by the oracle.
fn valued(k: Keyed) -> (f64, f64) {
    let Reply::Value(price) = ours(k) else { panic!("{k:?} is refused") };
    (f64::from_bits(price), time_value(k.volatility, k.forward, k.strike, k.time))
}

/// n, from two forwards of which the second is 4^n times the first.
fn exponent(k: Keyed, other: Keyed) -> i64 {
    let place = |x: f64| (x.to_bits() >> 52) as i64;
    (place(other.forward) - place(k.forward)) / 2
}

/// The law of 4^n over pairs within its hypotheses: prices of the second are exactly 4^n times those of the first.
pub fn law(count: u64, seed: u64) -> u64 {
    let mut source = Prices::new(PRICE_KINDS.iter().position(|&name| name == "scaled").unwrap(), seed);
    let mut tally = Tally::new("law of 4^n".to_string());
    let (mut drawn, mut zero, mut least, mut most, mut near_least) = (0u64, 0u64, f64::INFINITY, 0.0f64, 0u64);
    let (mut up, mut down, mut at_least_figure, mut at_most_figure) = (0u64, 0u64, 0u64, 0u64);
    while tally.run < count {
        let (k, other) = (source.next(), source.next());
        drawn += 1;
        set_current(&input_of(k));
        let ((price, value), (other_price, other_value)) = (valued(k), valued(other));
        let fit = |x: f64, y: f64| {
            let above = |x: f64| x > f64::MIN_POSITIVE && x.is_finite();
            (x == 0.0 && y == 0.0) || (above(x) && above(y))
        };
        if !fit(price, other_price) || !fit(value, other_value) {
            continue;
        }
        let n = exponent(k, other);
        tally.compare(
            &[input_of(k), input_of(other)].concat(),
            Reply::value(times_power(price, 2 * n)),
            Reply::value(other_price),
        );
        zero += (price == 0.0) as u64;
        up += (n > 0) as u64;
        down += (n < 0) as u64;
        let figures = [k.forward, k.strike, other.forward, other.strike];
        at_least_figure += figures.iter().any(|&x| x < 4.0 * f64::MIN_POSITIVE) as u64;
        at_most_figure += figures.iter().any(|&x| x > 0.25 * f64::MAX) as u64;
        if value > 0.0 {
            (least, most) = (least.min(value.min(other_value)), most.max(value.max(other_value)));
            near_least += (value.min(other_value) < 4.0 * f64::MIN_POSITIVE) as u64;
        }
    }
    let differ = tally.end();
    println!("  {drawn} pairs drawn; n above 0: {up}, below 0: {down}; price 0: {zero}");
    println!("  a figure under 2^-1020: {at_least_figure}, over MAX/4: {at_most_figure}");
    println!("  time values from {least:e} to {most:e}, under 2^-1020: {near_least}");
    differ
}

fn shown(k: Keyed) -> String {
    let (price, value) = valued(k);
    format!("{}: price {:016x} ({price:e}), time value {:016x}", figures(k), price.to_bits(), value.to_bits())
}

/// 0 where the second price is not 2^e times the first, as its figures are, and else 1.
fn broken(what: &str, pair: [Keyed; 2], e: i64) -> u64 {
    let [(price, _), (other, _)] = pair.map(valued);
    let broken = times_power(price, e).to_bits() != other.to_bits();
    println!("{what}: {}", if broken { "breaks the law" } else { "DOES NOT break it" });
    pair.iter().for_each(|&k| println!("  {}", shown(k)));
    !broken as u64
}

/// A pair whose first time value is below 2^-1022, all else within the hypotheses: the second time value and both prices are above.
fn small_time_value() -> [Keyed; 2] {
    let (forward, strike) = (3.0 * power(-1022), power(-1021));
    [1.0, 4.0].map(|n| Keyed { side: 0, volatility: 1.0, forward: n * forward, strike: n * strike, time: 1.0 })
}

/// A pair whose figures are over 2^1022 times each other, all else within the hypotheses, and whose prices do not scale: of small whole
/// numbers the first.
fn far_apart() -> Option<[Keyed; 2]> {
    let whole = |from: u64, to: u64| (from..=to).map(|m| m as f64);
    for (n, m) in (1..=4).flat_map(|n| whole(2, 9).map(move |m| (n, m))) {
        for strike in whole(m as u64 + 1, 200) {
            let k = Keyed { side: 0, volatility: 50.0, forward: m * power(-1022), strike, time: 1.0 };
            let other = Keyed { forward: times_power(k.forward, 2 * n), strike: times_power(strike, 2 * n), ..k };
            let [(price, _), (other_price, _)] = [k, other].map(valued);
            if price > f64::MIN_POSITIVE && times_power(price, 2 * n).to_bits() != other_price.to_bits() {
                return Some([k, other]);
            }
        }
    }
    None
}

/// How many of the pairs outside the law's hypotheses do not break it, are not found, or have other values than are known.
pub fn counterexamples() -> u64 {
    let [least, fourfold] = at_least_normal();
    let mut failed = broken("at least 2^-1022 for above it", [least, fourfold], 2);
    let known = |k: Keyed, right: f64| (valued(k).0.to_bits() != right.to_bits()) as u64;
    failed += known(least, power(-1022)) + known(fourfold, f64::from_bits(power(-1020).to_bits() - 1));
    let [one, twice, four_times] = doubled();
    failed += broken("2 for 4", [one, twice], 1);
    failed += known(four_times, 4.0 * valued(one).0);
    let [infinite, quarter] = overflowing();
    failed += broken("a price that is infinite", [infinite, quarter], -2) + known(infinite, f64::INFINITY);
    let [small, scaled] = small_time_value();
    failed += broken("a time value below 2^-1022", [small, scaled], 2);
    failed +=
        known(small, f64::from_bits(0x0018_7096_6538_169B)) + known(scaled, f64::from_bits(0x0038_7096_6538_169C));
    failed += (valued(small).1 >= f64::MIN_POSITIVE || valued(scaled).1 <= f64::MIN_POSITIVE) as u64;
    failed += match far_apart() {
        Some(pair) => broken("figures over 2^1022 apart", pair, 2 * exponent(pair[0], pair[1])),
        None => {
            println!("figures over 2^1022 apart: NONE FOUND");
            1
        }
    };
    println!("counterexamples: {failed} not as known");
    failed
}
