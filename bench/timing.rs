//! Times of our functions beside the Rust's: the same inputs, in turns, the least time of all rounds.

use crate::ours;
use oracle::discount_inputs::price_for;
use oracle::inputs::{Quote, Quotes, Rng};
use oracle::price_inputs::{Keyed, Prices};
use oracle::quote::Outcome;
use std::hint::black_box;
use std::time::Instant;

const INPUTS: usize = 4096;
pub const ROUNDS: usize = 100;

type Figures = [f64; 3];

/// ns a call of each function. They take turns on pieces of the inputs; the least time over the rounds is taken of each piece, so that
/// what other work interrupts does not count.
pub fn least<const N: usize, I: Copy>(
    rounds: usize,
    piece: usize,
    inputs: &[I],
    functions: [&dyn Fn(I); N],
) -> [f64; N] {
    let mut best = vec![[f64::INFINITY; N]; inputs.len().div_ceil(piece)];
    for _ in 0..rounds {
        for (part, best) in inputs.chunks(piece).zip(&mut best) {
            for (time, f) in best.iter_mut().zip(functions) {
                let start = Instant::now();
                part.iter().for_each(|&input| f(black_box(input)));
                *time = time.min(start.elapsed().as_secs_f64());
            }
        }
    }
    std::array::from_fn(|i| best.iter().map(|times| times[i]).sum::<f64>() * 1e9 / inputs.len() as f64)
}

/// Three times, and the first over the others.
pub fn row(name: &str, [a, b, c]: [f64; 3]) {
    println!("{name:36} {a:9.1} {b:9.1} {c:9.1} {:8.2} {:8.2}", a / b, a / c);
}

/// Says how many results differ, where some do.
pub fn report(unlike: usize, of: usize) {
    if unlike > 0 {
        println!("  {unlike} of {of} differ");
    }
}

/// One function of `vectors` on figures drawn by `draw`.
fn function<const NUMBER: u32>(name: &str, draw: impl Fn(&mut Rng) -> Figures) {
    let mut rng = Rng::new(1);
    let inputs: Vec<Figures> = (0..INPUTS).map(|_| draw(&mut rng)).collect();
    let ours = |[a, b, c]: Figures| ours::value(NUMBER, a, b, c);
    let rust = |[a, b, c]: Figures| oracle::functions::value(NUMBER, a, b, c).unwrap();
    let plain = |[a, b, c]: Figures| platform::value(NUMBER, a, b, c).unwrap();
    let same = |x: f64, y: f64| x.to_bits() == y.to_bits() || (x.is_nan() && y.is_nan());
    let unlike = inputs.iter().filter(|&&x| !same(ours(x), rust(x))).count();
    let [ours, rust, plain]: [&dyn Fn(Figures); 3] =
        [&|x| _ = black_box(ours(x)), &|x| _ = black_box(rust(x)), &|x| _ = black_box(plain(x))];
    let times = least(ROUNDS, 1024, &inputs, [ours, rust, plain]);
    row(name, times);
    report(unlike, INPUTS);
}

fn spread(rng: &mut Rng) -> f64 {
    rng.magnitude(-20, 20) * rng.sign()
}

/// A survival or distribution evaluation as desk quotes make it: x near mu.
fn curve(rng: &mut Rng) -> Figures {
    let mu = rng.magnitude(-2, 8);
    [mu * rng.magnitude(-6, 2), mu, 0.0]
}

fn black(rng: &mut Rng, region: u32) -> Figures {
    let t = if region == 2 { rng.uniform(0.01, 0.2) } else { rng.uniform(0.3, 2.0) };
    let h = match region {
        1 => rng.uniform(-60.0, -16.0),
        2 => rng.uniform(-6.0, -0.1) * 0.1,
        _ => rng.uniform(-6.0, -0.1),
    };
    [h * t, h, t]
}

fn functions() {
    let one = |x: f64| [x, 0.0, 0.0];
    function::<1>("sqrt", |rng| one(rng.magnitude(-20, 20)));
    function::<2>("mul_add", |rng| [spread(rng), spread(rng), spread(rng)]);
    function::<3>("exp", |rng| one(rng.uniform(-30.0, 5.0)));
    function::<4>("ln", |rng| one(rng.magnitude(-20, 20)));
    function::<5>("ln_1p", |rng| one(rng.uniform(-0.2, 1.0)));
    function::<6>("trunc", |rng| one(rng.uniform(-100.0, 100.0)));
    function::<10>("erf_cody", |rng| one(rng.uniform(-6.0, 6.0)));
    function::<11>("erfc_cody", |rng| one(rng.uniform(-6.0, 6.0)));
    function::<12>("erfcx_cody", |rng| one(rng.uniform(-4.0, 8.0)));
    function::<13>("erfinv", |rng| one(rng.uniform(-1.0, 1.0)));
    function::<14>("norm_pdf", |rng| one(rng.uniform(0.0, 40.0)));
    function::<15>("norm_cdf", |rng| one(rng.uniform(-10.0, 8.0)));
    function::<15>("norm_cdf, asymptotic", |rng| one(rng.uniform(-30.0, -10.0)));
    function::<16>("inverse_norm_cdf", |rng| one(rng.unit()));
    function::<17>("normalised_black, asymptotic", |rng| black(rng, 1));
    function::<17>("normalised_black, small t", |rng| black(rng, 2));
    function::<17>("normalised_black, Cody", |rng| black(rng, 3));
    function::<18>("negative_abs_log_moneyness", |rng| [rng.uniform(50.0, 200.0), rng.uniform(50.0, 200.0), 0.0]);
    function::<20>("inverse_gaussian_cdf", curve);
    function::<21>("inverse_gaussian_survival", curve);
}

pub fn ours(q: Quote) {
    black_box(ours::quote(q));
}

/// The source's quote entry, fed the divided price.
#[inline]
pub fn source(q: Quote) -> Option<f64> {
    use oracle::DefaultSpecialFn;
    use oracle::explicit_black::implied_black_volatility_input as input;
    let price = q.price / q.factor;
    match q.side {
        0 => input::<DefaultSpecialFn, true>(price, q.forward, q.strike, q.time),
        _ => input::<DefaultSpecialFn, false>(price, q.forward, q.strike, q.time),
    }
}

pub fn rust(q: Quote) {
    black_box(source(q));
}

pub fn plain(q: Quote) {
    use platform::DefaultSpecialFn;
    use platform::explicit_black::implied_black_volatility_input as input;
    let price = q.price / q.factor;
    black_box(match q.side {
        0 => input::<DefaultSpecialFn, true>(price, q.forward, q.strike, q.time),
        _ => input::<DefaultSpecialFn, false>(price, q.forward, q.strike, q.time),
    });
}

pub fn expected(q: Quote) -> Outcome {
    oracle::quote::quote(q.side, q.price, q.forward, q.strike, q.time, q.factor)
}

pub fn evaluations(q: Quote) -> u64 {
    let (Outcome::Answer { count, .. } | Outcome::Refusal { count, .. }) = expected(q);
    count
}

/// The first quotes of one kind that `keep` takes, given their evaluations.
fn list(kind: usize, length: usize, keep: fn(Quote, u64) -> bool) -> Vec<Quote> {
    let mut source = Quotes::new(kind, 1);
    std::iter::from_fn(|| Some(source.next())).filter(|&q| keep(q, evaluations(q))).take(length).collect()
}

/// Desk quotes that make an evaluation.
pub fn desk(length: usize) -> Vec<Quote> {
    list(0, length, |q, count| q.side < 2 && count > 0)
}

/// Desk quotes whose prices are discounted, by factors from 0.9 to 1.1: the quotients are the prices of `desk`, so that the same is searched for.
pub fn discounted(length: usize) -> Vec<Quote> {
    let mut rng = Rng::new(1);
    let published = |q: Quote| loop {
        let factor = rng.uniform(0.9, 1.1);
        if let Some(price) = price_for(q.price, factor) {
            return Quote { price, factor, ..q };
        }
    };
    desk(length).into_iter().map(published).collect()
}

/// A time value under 1e-5 of its bound, which is searched for by the survival probability.
fn on_survival_path(q: Quote, count: u64) -> bool {
    let small = if q.forward < q.strike { q.forward } else { q.strike };
    let gap = if q.side == 0 { q.forward - q.strike } else { q.strike - q.forward };
    count > 0 && q.price - if gap > 0.0 { gap } else { 0.0 } < 0.9e-5 * small
}

fn quotes(name: &str, list: &[Quote]) {
    let unlike = list.iter().filter(|&&q| ours::quote(q).line() != expected(q).line()).count();
    let times = least(ROUNDS, 64, list, [&ours, &rust, &plain]);
    let share = list.iter().map(|&q| evaluations(q)).sum::<u64>() as f64 / list.len() as f64;
    row(name, times);
    row(&format!("  an evaluation ({share:.1} a quote)"), times.map(|t| t / share));
    report(unlike, list.len());
}

/// The source's own price, with the platform's exp and ln.
fn plain_price(k: Keyed) -> f64 {
    use platform::DefaultSpecialFn;
    use platform::lets_be_rational::bs_option_price::black_input_unchecked as price;
    match k.side {
        0 => price::<DefaultSpecialFn, true>(k.forward, k.strike, k.volatility, k.time),
        _ => price::<DefaultSpecialFn, false>(k.forward, k.strike, k.volatility, k.time),
    }
}

/// Desk prices. At the money the source has another formula, so none is there.
fn prices(name: &str) {
    let mut source = Prices::new(0, 1);
    let list: Vec<Keyed> =
        std::iter::from_fn(|| Some(source.next())).filter(|k| k.forward != k.strike).take(INPUTS).collect();
    let rust = |k: Keyed| oracle::price::of_source(k.side, k.volatility, k.forward, k.strike, k.time);
    let same = |k: Keyed| ours::price(k).line() == oracle::price::Outcome::Price(rust(k)).line();
    let unlike = list.iter().filter(|&&k| !same(k)).count();
    let functions: [&dyn Fn(Keyed); 3] =
        [&|k| _ = black_box(ours::price(k)), &|k| _ = black_box(rust(k)), &|k| _ = black_box(plain_price(k))];
    row(name, least(ROUNDS, 1024, &list, functions));
    report(unlike, list.len());
}

pub fn table() {
    println!("{:36} {:>9} {:>9} {:>9} {:>8} {:>8}", "ns", "ours", "rust", "platform", "to rust", "to plat.");
    functions();
    quotes("desk quotes", &desk(INPUTS));
    quotes("desk quotes, discounted", &discounted(INPUTS));
    // The Rust's domain: it tests no figure as refusals 1 to 4 do.
    let inside = |q: Quote, _| q.side < 2 && q.forward > 0.0 && q.strike > 0.0 && q.time >= 0.0;
    quotes("edge quotes", &list(1, INPUTS, inside));
    quotes("survival path", &list(0, INPUTS, on_survival_path));
    prices("desk prices");
}
