//! The roots that our code takes, from the log of the rooted build. A refused ladder takes none. Any other, also one without places, takes √forward
//! and √time first, whatever they are; then, place by place, those of the quote by itself without these two; and nothing else.

use crate::ladders::{announce, drawn, fields, head, junk};
use crate::ours::{ladders, quotes};
use crate::{CORNERS, Tally, bits};
use ::ours::root_log::logged;
use oracle::inputs::{Quote, Rng};
use oracle::ladder::{Reply, takes_root};
use oracle::ladder_inputs::{LADDER_KINDS, Ladder, bad_figure};

/// Mostly the ladder as it is; or its forward or time is bad, or arguments of roots have the same bits; or it has no place, or is refused.
fn turned(rng: &mut Rng, mut ladder: Ladder) -> Ladder {
    let (forward, time) = (ladder.forward, ladder.time);
    match rng.below(20) {
        0 => ladder.forward = bad_figure(rng),
        1 => ladder.time = bad_figure(rng),
        2 => (ladder.forward, ladder.time) = (bad_figure(rng), bad_figure(rng)),
        3 => ladder.time = forward,
        4 => ladder.strikes.iter_mut().for_each(|strike| *strike = rng.one_of(&[forward, time, *strike])),
        5 => ladder.strikes.iter_mut().for_each(|strike| *strike = rng.near(time)),
        6 => {
            let figures = [0.25, 0.5, 1.0, 2.0, 4.0];
            (ladder.forward, ladder.time) = (rng.one_of(&figures), rng.one_of(&figures));
            ladder.strikes.iter_mut().for_each(|strike| *strike = rng.one_of(&figures));
            ladder.prices.iter_mut().for_each(|price| *price = rng.unit() * rng.one_of(&figures));
        }
        7 => {
            let bad = [bad_figure(rng), bad_figure(rng)];
            (ladder.forward, ladder.time) = (rng.one_of(&[forward, bad[0]]), rng.one_of(&[time, bad[1]]));
            (ladder.strikes, ladder.prices, ladder.lent) = (Vec::new(), Vec::new(), [0; 4]);
        }
        8 => ladder.lent[rng.below(4) as usize] ^= 1,
        _ => (),
    }
    ladder
}

/// The roots of a place: of those that the quote by itself takes all but √forward, the first, and √time, the last; none where it takes √time
/// alone. Nothing where it takes others than the words say.
fn of_place(q: Quote) -> Option<Vec<u64>> {
    let (_, log) = logged(|| quotes::undiscounted(q.side, q.price, q.forward, q.strike, q.time));
    let [forward, strike, time] = [q.forward, q.strike, q.time].map(f64::to_bits);
    match (takes_root(q.side, q.price, q.forward, q.strike, q.time), &log[..]) {
        (true, &[first, second, .., last]) if [first, second, last] == [forward, strike, time] => {
            Some(log[1..log.len() - 1].to_vec())
        }
        (false, &[last]) if last == time => Some(Vec::new()),
        _ => None,
    }
}

/// Arguments by their bits. A NaN that an operation made has no certain bits: the same function may be compiled twice.
fn alike(found: &[u64], right: &[u64]) -> bool {
    let folded = |list: &[u64]| -> Vec<u64> { list.iter().map(|&b| bits(f64::from_bits(b))).collect() };
    found == right || folded(found) == folded(right)
}

fn line(roots: &[u64]) -> String {
    let first: Vec<String> = roots.iter().take(5).map(|&b| format!("{b:016x} ({:e})", f64::from_bits(b))).collect();
    format!("{} roots: {}{}", roots.len(), first.join(" "), if roots.len() > 5 { " .." } else { "" })
}

/// What was seen over a run.
#[derive(Default)]
struct Seen {
    ladders: u64,
    refused: u64,
    /// Of those that are not refused: without places, with a forward or time that is NaN or below zero.
    empty: u64,
    bad: u64,
    /// Their places; those whose strike's root is taken; those at which two arguments are alike, or one is the forward or the time.
    places: u64,
    open: u64,
    repeated: u64,
    /// All roots of ladders, and the most at a place.
    logged: u64,
    most: usize,
}

impl Seen {
    fn add_place(&mut self, ladder: &Ladder, own: &[u64]) {
        self.places += 1;
        self.open += !own.is_empty() as u64;
        let shared = [ladder.forward.to_bits(), ladder.time.to_bits()];
        let again = |i: usize| own[..i].contains(&own[i]) || shared.contains(&own[i]);
        self.repeated += (0..own.len()).any(again) as u64;
        self.most = self.most.max(own.len());
    }

    fn join(mut self, other: Seen) -> Seen {
        self.ladders += other.ladders;
        self.refused += other.refused;
        self.empty += other.empty;
        self.bad += other.bad;
        self.places += other.places;
        self.open += other.open;
        self.repeated += other.repeated;
        self.logged += other.logged;
        Seen { most: self.most.max(other.most), ..self }
    }

    fn show(&self) {
        let Seen { ladders, refused, empty, bad, places, open, repeated, logged, most } = self;
        println!("  {ladders} ladders, {refused} refused; of the others {empty} without places");
        println!("  {bad} with a forward or time that is NaN or below zero");
        println!("  {places} places, {open} take the strike's root");
        println!("  {repeated} at which two arguments are alike, or one is the forward or the time");
        println!("  {logged} roots logged, the most at a place {most}");
    }
}

fn solved(ladder: &Ladder, log: &[u64], roots: u64, tally: &mut Tally, seen: &mut Seen) {
    let shared = [ladder.forward.to_bits(), ladder.time.to_bits()];
    let before = &log[..log.len().min(2)];
    tally.note(before == shared, || [head(ladder), line(before), line(&shared)]);
    let (mut rest, mut open) = (&log[before.len()..], 0);
    for i in 0..ladder.strikes.len() {
        let own = of_place(ladder.quote(i));
        let right = own.as_deref().unwrap_or_default();
        let (found, after) = rest.split_at(right.len().min(rest.len()));
        tally.note(own.is_some() && alike(found, right), || [fields(ladder, i), line(found), line(right)]);
        seen.add_place(ladder, right);
        open += !right.is_empty() as u64;
        rest = after;
    }
    tally.note(rest.is_empty() && roots == open, || {
        let ours = format!("count {roots}, after the last place {}", line(rest));
        [head(ladder), ours, format!("count {open}, {}", line(&[]))]
    });
    seen.empty += ladder.strikes.is_empty() as u64;
    seen.bad += [ladder.forward, ladder.time].iter().any(|x| x.is_nan() || *x < 0.0) as u64;
}

/// Ladders until they have `count` places, each as many as the longest of its slices; the corners only once.
fn kind_of_roots(kind: &str, count: u64, seed: u64) -> (u64, Seen) {
    let mut rng = Rng::new(seed);
    let mut tally = Tally::new(format!("roots, {kind}"));
    let mut seen = Seen::default();
    let mut places = 0;
    for ladder in drawn(kind, seed) {
        if places >= count && kind != CORNERS {
            break;
        }
        let ladder = if kind == CORNERS { ladder } else { turned(&mut rng, ladder) };
        announce(&ladder);
        let mut lent = junk(&ladder);
        let (reply, log) = logged(|| ladders::solved(&ladder, &mut lent));
        match reply {
            Reply::Refusal { .. } => tally.note(log.is_empty(), || [head(&ladder), line(&log), line(&[])]),
            Reply::Solved { roots } => solved(&ladder, &log, roots, &mut tally, &mut seen),
        }
        places += ladder.longest() as u64;
        seen.ladders += 1;
        seen.refused += matches!(reply, Reply::Refusal { .. }) as u64;
        seen.logged += log.len() as u64;
    }
    let differ = tally.end();
    seen.show();
    (differ, seen)
}

pub fn roots(count: u64, seed: u64) -> u64 {
    let runs = [CORNERS].into_iter().chain(LADDER_KINDS).map(|kind| kind_of_roots(kind, count, seed));
    let (differ, seen) = runs.reduce(|(d, all), (e, seen)| (d + e, all.join(seen))).unwrap();
    println!("roots in all: {differ} differ");
    seen.show();
    differ
}
