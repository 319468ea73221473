//! Ladders: our code beside the oracle, by the result and every element of the lent slices; and pairs of ladders whose places agree.

use crate::ours::ladders::solved as ours;
use crate::{CORNERS, Tally, bits, set_current};
use oracle::inputs::corners;
use oracle::ladder::{Lent, Reply, solved as theirs};
use oracle::ladder_inputs::{LADDER_KINDS, Ladder, Ladders, grouped};

/// By turns a NaN, quiet or signalling, of either sign, and a figure below zero.
fn spoilt(slice: usize, i: usize) -> f64 {
    let own = (slice * 1000 + i + 1) as u64;
    match (slice + i) % 5 {
        0 => f64::from_bits(0x7FF0 << 48 | own),
        1 => f64::from_bits(0xFFF8 << 48 | own),
        2 => f64::from_bits(0x7FF8 << 48 | own),
        3 => f64::from_bits(0xFFF0 << 48 | own),
        _ => -(own as f64),
    }
}

/// Lent slices of which no two elements are alike, and none is what an answer writes or the NaN of an operation.
pub fn junk(ladder: &Ladder) -> Lent {
    let [totals, volatilities, counts, refusals] = ladder.lent;
    Lent {
        totals: (0..totals).map(|i| spoilt(0, i)).collect(),
        volatilities: (0..volatilities).map(|i| spoilt(1, i)).collect(),
        counts: (0..counts).map(|i| u64::MAX - i as u64).collect(),
        refusals: (0..refusals).map(|i| u32::MAX - i as u32).collect(),
    }
}

/// The elements of a place; none beyond a slice's end.
fn elements(lent: &Lent, i: usize, bits_of: fn(f64) -> u64) -> [Option<u64>; 4] {
    let figure = |x: Option<&f64>| x.map(|&x| bits_of(x));
    let (total, volatility) = (figure(lent.totals.get(i)), figure(lent.volatilities.get(i)));
    [total, volatility, lent.counts.get(i).copied(), lent.refusals.get(i).map(|&number| number as u64)]
}

/// Figures by their bits, every NaN alike.
fn place(lent: &Lent, i: usize) -> [Option<u64>; 4] {
    elements(lent, i, bits)
}

/// Figures by their bits, also those of a NaN.
fn raw(lent: &Lent, i: usize) -> [Option<u64>; 4] {
    elements(lent, i, f64::to_bits)
}

fn raw_line(lent: &Lent, i: usize) -> String {
    let [total, volatility, count, number] = raw(lent, i);
    let figures = [total, volatility].map(|x| x.map_or("-".to_string(), |b| format!("{b:016x}")));
    let wholes = [count, number].map(|n| n.map_or("-".to_string(), |n| n.to_string()));
    format!("{} {}", figures.join(" "), wholes.join(" "))
}

pub fn head(ladder: &Ladder) -> String {
    let figures = [ladder.forward, ladder.time].map(|x| format!("{:016x} ({x:e})", x.to_bits()));
    let lengths = ladder.lengths().map(|length| length.to_string());
    format!("side {} {} lengths {}", ladder.side, figures.join(" "), lengths.join(" "))
}

/// A place's strike and price, where it has them, after the ladder's own fields.
pub fn fields(ladder: &Ladder, i: usize) -> String {
    let own = [("strike", ladder.strikes.get(i)), ("price", ladder.prices.get(i))];
    let own = own.map(|(name, x)| x.map_or(String::new(), |x| format!(" {name} {:016x} ({x:e})", x.to_bits())));
    format!("{} place {i}{}", head(ladder), own.concat())
}

pub fn announce(ladder: &Ladder) {
    let [strikes, prices, ..] = ladder.lengths().map(|length| length as u64);
    let input = [ladder.side as u64, ladder.forward.to_bits(), ladder.time.to_bits(), strikes, prices];
    set_current(&input);
}

/// What the oracle answered over a run.
#[derive(Default)]
struct Seen {
    ladders: u64,
    places: u64,
    answers: u64,
    refusals: [u64; 10],
    refused_12: u64,
    refused_13: u64,
    /// The most strike roots of a ladder.
    roots: u64,
}

impl Seen {
    fn add(&mut self, ladder: &Ladder, reply: Reply, lent: &Lent) {
        self.ladders += 1;
        self.places += ladder.longest() as u64;
        match reply {
            Reply::Solved { roots } => {
                self.roots = self.roots.max(roots);
                self.answers += lent.refusals.iter().filter(|&&number| number == 0).count() as u64;
                lent.refusals.iter().for_each(|&number| self.refusals[number as usize] += 1);
            }
            Reply::Refusal { number, .. } => {
                self.refused_12 += (number == 12) as u64;
                self.refused_13 += (number == 13) as u64;
            }
        }
    }

    fn join(mut self, other: Seen) -> Seen {
        self.ladders += other.ladders;
        self.places += other.places;
        self.answers += other.answers;
        (0..10).for_each(|i| self.refusals[i] += other.refusals[i]);
        self.refused_12 += other.refused_12;
        self.refused_13 += other.refused_13;
        Seen { roots: self.roots.max(other.roots), ..self }
    }

    fn show(&self) {
        let refusals: Vec<String> = (1..10).map(|i| format!("{i}: {}", self.refusals[i])).collect();
        println!("  {} places; {} answers, refusals {}", self.places, self.answers, refusals.join(", "));
        let Seen { ladders, refused_12, refused_13, roots, .. } = self;
        println!("  {ladders} ladders, refused 12: {refused_12}, 13: {refused_13}; most strike roots {roots}");
    }
}

/// Ladders of a kind without end, or the corners.
pub fn drawn(kind: &str, seed: u64) -> Box<dyn Iterator<Item = Ladder>> {
    match LADDER_KINDS.iter().position(|&name| name == kind) {
        Some(i) => {
            let mut source = Ladders::new(i, seed);
            Box::new(std::iter::from_fn(move || Some(source.next())))
        }
        None => Box::new(grouped(corners()).into_iter()),
    }
}

/// Compares ladders until they have `count` places, each as many as the longest of its slices; the corners only once. A ladder's result is
/// compared beside its places. Those of a refused ladder have the bits that they had; in one that is solved no element keeps them.
fn kind_of_ladders(kind: &str, count: u64, seed: u64) -> (u64, Seen) {
    let mut tally = Tally::new(format!("ladders, {kind}"));
    let mut seen = Seen::default();
    for ladder in drawn(kind, seed) {
        if seen.places >= count && kind != CORNERS {
            break;
        }
        announce(&ladder);
        let before = junk(&ladder);
        let (mut mine, mut right) = (before.clone(), before.clone());
        let (reply, right_reply) = (ours(&ladder, &mut mine), theirs(&ladder, &mut right));
        tally.note(reply == right_reply, || [head(&ladder), format!("{reply:?}"), format!("{right_reply:?}")]);
        for i in 0..right.longest() {
            let (found, old) = (raw(&mine, i), raw(&before, i));
            let same = match right_reply {
                Reply::Refusal { .. } => found == old,
                Reply::Solved { .. } => place(&mine, i) == place(&right, i) && (0..4).all(|k| found[k] != old[k]),
            };
            tally.note(same, || [fields(&ladder, i), raw_line(&mine, i), raw_line(&right, i)]);
        }
        seen.add(&ladder, right_reply, &right);
    }
    let differ = tally.end();
    seen.show();
    (differ, seen)
}

pub fn ladders(kind: &str, count: u64, seed: u64) -> u64 {
    if kind != "all" {
        return kind_of_ladders(kind, count, seed).0;
    }
    let runs = [CORNERS].into_iter().chain(LADDER_KINDS).map(|kind| kind_of_ladders(kind, count, seed));
    let (differ, seen) = runs.reduce(|(d, all), (e, seen)| (d + e, all.join(seen))).unwrap();
    println!("ladders in all: {differ} differ");
    seen.show();
    differ
}

/// Scaled and exchanged ladders, ours against ours: refusal number, total and count agree at each place, and so do the strike roots.
pub fn pairs(count: u64, seed: u64) -> u64 {
    let mut differ = 0;
    for kind in ["scaled", "exchanged"] {
        let mut source = Ladders::new(LADDER_KINDS.iter().position(|&name| name == kind).unwrap(), seed);
        let mut tally = Tally::new(format!("ladder pairs, {kind}"));
        let (mut places, mut most) = (0, 0);
        while places < count {
            let both = [source.next(), source.next()];
            let [(reply, lent), (other_reply, other_lent)] = both.each_ref().map(|ladder| {
                announce(ladder);
                let mut lent = junk(ladder);
                (ours(ladder, &mut lent), lent)
            });
            tally.note(reply == other_reply, || {
                [both.each_ref().map(head).join(" | "), format!("{reply:?}"), format!("{other_reply:?}")]
            });
            let untimed = |lent: &Lent, i: usize| [0, 2, 3].map(|element| place(lent, i)[element]);
            for i in 0..both[0].longest() {
                tally.note(untimed(&lent, i) == untimed(&other_lent, i), || {
                    [both.each_ref().map(|ladder| fields(ladder, i)).join(" | "), lent.line(i), other_lent.line(i)]
                });
            }
            places += both[0].longest() as u64;
            most = most.max(both[0].longest());
        }
        differ += tally.end();
        println!("  {places} places, the most in a ladder {most}");
    }
    differ
}
