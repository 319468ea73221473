//! An SVG of time against number of quotes, of how many evaluations desk quotes make, and of time against evaluations.

use crate::timing::{self, evaluations, least};
use oracle::inputs::Quote;
use std::collections::BTreeMap;
use std::fmt::Write;

const LONGEST: usize = 1 << 16;
const NAMES: [&str; 3] = ["ours", "Rust, stand-ins", "Rust, platform"];
const STROKES: [&str; 3] = ["#0b5cad", "#c2410c", "#4d7c0f"];
// Of a panel; GAP between two.
const WIDTH: f64 = 300.0;
const HEIGHT: f64 = 240.0;
const LEFT: f64 = 62.0;
const TOP: f64 = 44.0;
const GAP: f64 = 84.0;

type Point = (f64, f64);

/// One axis: its ends, and whether it is logarithmic.
#[derive(Clone, Copy)]
struct Axis {
    low: f64,
    high: f64,
    logarithmic: bool,
}

impl Axis {
    /// From 0 to 1 along the axis.
    fn place(self, value: f64) -> f64 {
        let f = |v: f64| if self.logarithmic { v.ln() } else { v };
        (f(value) - f(self.low)) / (f(self.high) - f(self.low))
    }

    /// Powers of ten, or four equal steps of a round number.
    fn marks(self) -> Vec<f64> {
        if self.logarithmic {
            return (-4..9).map(|k| 10f64.powi(k)).filter(|v| self.low <= *v && *v <= self.high).collect();
        }
        (0..=4).map(|k| self.low + (self.high - self.low) * k as f64 / 4.0).collect()
    }
}

/// The least round number that is at least v and has a round quarter.
fn round_up(v: f64) -> f64 {
    let power = 10f64.powf(v.log10().floor());
    [1.0, 1.2, 1.6, 2.0, 2.4, 3.2, 4.0, 6.0, 8.0, 10.0].iter().map(|k| k * power).find(|r| *r >= v).unwrap_or(v)
}

struct Panel {
    left: f64,
    x: Axis,
    y: Axis,
}

impl Panel {
    fn at(&self, (x, y): Point) -> Point {
        (self.left + WIDTH * self.x.place(x), TOP + HEIGHT * (1.0 - self.y.place(y)))
    }

    /// Title, frame, marks and the names of the axes.
    fn frame(&self, svg: &mut String, title: &str, x_name: &str, y_name: &str) {
        let (left, bottom) = (self.left, TOP + HEIGHT);
        let _ = write!(
            svg,
            "<text x='{left}' y='{}' font-weight='bold'>{title}</text><text x='{left}' y='{}'>{y_name}</text>\
             <text x='{}' y='{}' text-anchor='end'>{x_name}</text>\
             <rect x='{left}' y='{TOP}' width='{WIDTH}' height='{HEIGHT}' fill='none' stroke='#555'/>\n",
            TOP - 26.0,
            TOP - 8.0,
            left + WIDTH,
            bottom + 32.0,
        );
        for v in self.x.marks() {
            let (x, _) = self.at((v, self.y.low));
            let _ = write!(svg, "<text x='{x:.1}' y='{}' text-anchor='middle'>{v}</text>\n", bottom + 16.0);
        }
        for v in self.y.marks() {
            let (_, y) = self.at((self.x.low, v));
            let _ = write!(
                svg,
                "<path d='M{left} {y:.1}h{WIDTH}' stroke='#ddd'/><text x='{}' y='{:.1}' text-anchor='end'>{v}</text>\n",
                left - 6.0,
                y + 4.0
            );
        }
    }

    fn line(&self, svg: &mut String, points: &[Point], stroke: &str) {
        let path: Vec<String> = points.iter().map(|&p| self.at(p)).map(|(x, y)| format!("{x:.1},{y:.1}")).collect();
        let rows: Vec<String> = path.chunks(10).map(|row| row.join(" ")).collect();
        let _ = write!(svg, "<polyline points='{}'\nfill='none' stroke='{stroke}' stroke-width='2'/>\n", rows.join("\n"));
    }
}

/// ms for the first n quotes, for each power of two.
fn against_quotes(svg: &mut String, list: &[Quote]) {
    let lengths: Vec<usize> = (0..=LONGEST.ilog2()).map(|k| 1 << k).collect();
    let times: Vec<[f64; 3]> = lengths
        .iter()
        .map(|&n| {
            least(5 + (256 / n).min(60), 64, &list[..n], [&timing::ours, &timing::rust, &timing::plain])
                .map(|t| t * n as f64 / 1e6)
        })
        .collect();
    let x = Axis { low: 1.0, high: LONGEST as f64, logarithmic: true };
    let y = Axis { low: 1e-4, high: 1e3, logarithmic: true };
    let panel = Panel { left: LEFT, x, y };
    panel.frame(svg, "Time against number of quotes", "desk quotes", "ms");
    for (i, stroke) in STROKES.iter().enumerate() {
        let points: Vec<Point> = lengths.iter().zip(&times).map(|(&n, t)| (n as f64, t[i].max(1e-4))).collect();
        panel.line(svg, &points, stroke);
    }
}

/// Bars: how many of a hundred quotes make so many evaluations. Lines: ns of a quote with so many.
fn against_evaluations(svg: &mut String, list: &[Quote]) {
    let mut groups: BTreeMap<u64, Vec<Quote>> = BTreeMap::new();
    list.iter().for_each(|&q| groups.entry(evaluations(q)).or_default().push(q));
    let shares: Vec<Point> =
        groups.iter().map(|(&k, group)| (k as f64, 100.0 * group.len() as f64 / list.len() as f64)).collect();
    groups.retain(|_, group| group.len() >= 16);
    let times: Vec<(f64, [f64; 3])> = groups
        .iter()
        .map(|(&k, group)| (k as f64, least(15, 64, group, [&timing::ours, &timing::rust, &timing::plain])))
        .collect();
    let last = shares.last().map_or(1.0, |p| p.0);
    let x = Axis { low: 0.0, high: 4.0 * ((last + 1.0) / 4.0).ceil(), logarithmic: false };
    let most = shares.iter().map(|p| p.1).fold(0.0, f64::max);
    let bars = Panel { left: LEFT + WIDTH + GAP, x, y: Axis { low: 0.0, high: round_up(most), logarithmic: false } };
    bars.frame(svg, "Evaluations a quote", "evaluations", "% of desk quotes");
    for &p in &shares {
        let ((x, y), (_, zero)) = (bars.at(p), bars.at((0.0, 0.0)));
        let _ =
            write!(svg, "<rect x='{:.1}' y='{y:.1}' width='5' height='{:.1}' fill='#0b5cad'/>\n", x - 2.5, zero - y);
    }
    let slowest = times.iter().flat_map(|(_, t)| *t).fold(0.0, f64::max);
    let lines = Panel {
        left: LEFT + 2.0 * (WIDTH + GAP),
        x,
        y: Axis { low: 0.0, high: round_up(slowest), logarithmic: false },
    };
    lines.frame(svg, "Time against evaluations", "evaluations", "ns a quote");
    for (i, stroke) in STROKES.iter().enumerate() {
        let points: Vec<Point> = times.iter().map(|(k, t)| (*k, t[i])).collect();
        lines.line(svg, &points, stroke);
    }
}

/// The whole picture.
pub fn svg() -> String {
    let list = timing::desk(LONGEST);
    let (width, height) = (LEFT + 3.0 * WIDTH + 2.0 * GAP + 24.0, TOP + HEIGHT + 66.0);
    let mut svg = format!(
        "<svg xmlns='http://www.w3.org/2000/svg' viewBox='0 0 {width} {height}' font-family='sans-serif' font-size='12'>\n\
         <rect width='{width}' height='{height}' fill='white'/>\n"
    );
    against_quotes(&mut svg, &list);
    against_evaluations(&mut svg, &list);
    for (i, (name, stroke)) in NAMES.iter().zip(STROKES).enumerate() {
        let x = LEFT + 150.0 * i as f64;
        let y = height - 14.0;
        let _ = write!(
            svg,
            "<path d='M{x} {}h24' stroke='{stroke}' stroke-width='2'/><text x='{}' y='{y}'>{name}</text>\n",
            y - 4.0,
            x + 30.0
        );
    }
    svg.push_str("</svg>\n");
    svg
}
