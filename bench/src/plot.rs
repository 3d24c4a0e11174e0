//! The picture of the curves: a panel for each, both axes logarithmic.

use crate::growth::{Curve, Quantity};

/// Panels of a row, and the size of a panel with its margins and of its frame.
const COLUMNS: usize = 4;
const WIDTH: f64 = 212.0;
const HEIGHT: f64 = 218.0;
const FRAME: f64 = 150.0;
const LEFT: f64 = 48.0;
const TOP: f64 = 30.0;

const STYLE: &str = "\
text { font: 11px sans-serif; fill: #000 }
.title { font-weight: bold }
.frame { fill: none; stroke: #000; stroke-width: 0.8 }
.tick { stroke: #ccc; stroke-width: 0.6 }
.power { stroke: #555; stroke-width: 1.1; stroke-dasharray: 5 3 }
.original { fill: #fff; stroke: #b35900; stroke-width: 1.3 }
.port { fill: #003d7a; stroke: none }
";

/// The picture as SVG.
pub fn svg(curves: &[Curve]) -> String {
    let rows = (curves.len() + 1).div_ceil(COLUMNS);
    let (width, height) = (COLUMNS as f64 * WIDTH, rows as f64 * HEIGHT);
    let mut out = format!(
        "<svg xmlns=\"http://www.w3.org/2000/svg\" viewBox=\"0 0 {width} {height}\" width=\"{width}\" height=\"{height}\">\n\
         <style>\n{STYLE}</style>\n<rect width=\"{width}\" height=\"{height}\" fill=\"#fff\"/>\n"
    );
    for (k, curve) in curves.iter().enumerate() {
        out += &placed(k, &Panel::of(curve).draw());
    }
    out + &placed(curves.len(), &legend()) + "</svg>\n"
}

/// A panel at its place.
fn placed(k: usize, inside: &str) -> String {
    let (x, y) = ((k % COLUMNS) as f64 * WIDTH, (k / COLUMNS) as f64 * HEIGHT);
    format!("<g transform=\"translate({x} {y})\">\n{inside}</g>\n")
}

fn text(class: &str, anchor: &str, x: f64, y: f64, words: &str) -> String {
    format!("<text class=\"{class}\" text-anchor=\"{anchor}\" x=\"{x:.1}\" y=\"{y:.1}\">{words}</text>\n")
}

fn line(class: &str, [x, y]: [f64; 2], [to_x, to_y]: [f64; 2]) -> String {
    format!(
        "<line class=\"{class}\" x1=\"{x:.1}\" y1=\"{y:.1}\" x2=\"{to_x:.1}\" y2=\"{to_y:.1}\"/>\n"
    )
}

/// The mark of a side: a ring for the original, a square for the port.
fn mark(side: usize, [x, y]: [f64; 2]) -> String {
    if side == 0 {
        return format!("<circle class=\"original\" cx=\"{x:.1}\" cy=\"{y:.1}\" r=\"3.6\"/>\n");
    }
    let (x, y) = (x - 2.2, y - 2.2);
    format!("<rect class=\"port\" x=\"{x:.1}\" y=\"{y:.1}\" width=\"4.4\" height=\"4.4\"/>\n")
}

fn legend() -> String {
    let (x, y) = (LEFT, TOP + 20.0);
    [
        mark(0, [x + 12.0, y - 4.0]),
        text("", "start", x + 30.0, y, "original"),
        mark(1, [x + 12.0, y + 18.0]),
        text("", "start", x + 30.0, y + 22.0, "port"),
        line("power", [x, y + 40.0], [x + 24.0, y + 40.0]),
        text("", "start", x + 30.0, y + 44.0, "expected power"),
        text("", "start", x, y + 72.0, "Lower is better."),
        text("", "start", x, y + 88.0, "1,000 gates where n varies,"),
        text("", "start", x, y + 104.0, "60 qubits where G varies."),
    ]
    .concat()
}

/// A curve with the ends of its axes.
struct Panel<'a> {
    curve: &'a Curve,
    xs: [f64; 2],
    ys: [f64; 2],
}

/// The highest place of a panel is at least so many times the lowest.
const LEAST: f64 = 12.0;
/// How far below the points the line of an expected power lies, where it is next to them.
const BELOW: f64 = 0.6;

/// The line of an expected power at x.
fn expected(curve: &Curve, power: u8, x: f64) -> f64 {
    let raised = |x: f64| x.powi(power.into());
    let lowest = curve.points.iter().map(|(x, [a, b])| a.min(*b) / raised(*x));
    BELOW * raised(x) * lowest.fold(f64::MAX, f64::min)
}

impl Panel<'_> {
    fn of(curve: &Curve) -> Panel<'_> {
        let xs = [curve.points[0].0, curve.points[curve.points.len() - 1].0];
        let lines = curve.quantity.powers.iter();
        let ends = lines.flat_map(|&p| xs.map(|x| expected(curve, p, x)));
        let all: Vec<f64> = curve.points.iter().flat_map(|(_, ys)| *ys).chain(ends).collect();
        let low = all.iter().copied().fold(f64::MAX, f64::min);
        let high = all.iter().copied().fold(0.0, f64::max);
        let room = (LEAST / (high / low)).sqrt().max((high / low).powf(0.06));
        Panel { curve, xs: [xs[0] / 1.12, xs[1] * 1.12], ys: [low / room, high * room] }
    }

    /// The place of a point in the picture.
    fn place(&self, x: f64, y: f64) -> [f64; 2] {
        let part = |v: f64, [low, high]: [f64; 2]| (v / low).ln() / (high / low).ln();
        [LEFT + FRAME * part(x, self.xs), TOP + FRAME * (1.0 - part(y, self.ys))]
    }

    fn draw(&self) -> String {
        let Quantity { name, of, powers } = &self.curve.quantity;
        let mut out = text("title", "start", LEFT, TOP - 16.0, name);
        out += &text("", "start", LEFT, TOP - 4.0, self.curve.unit);
        out += &self.ticks();
        let axis = if *of == 'n' { "qubits n" } else { "gates G" };
        out += &text("", "middle", LEFT + FRAME / 2.0, TOP + FRAME + 28.0, axis);
        let points = &self.curve.points;
        let (first, last) = (points[0].0, points[points.len() - 1].0);
        for &p in *powers {
            let end = |x: f64| self.place(x, expected(self.curve, p, x));
            out += &line("power", end(first), end(last));
            let [x, y] = end(last);
            out += &text("", "start", x + 9.0, y + 4.0, &power(*of, p));
        }
        for (x, ys) in points {
            out += &[0, 1].map(|side| mark(side, self.place(*x, ys[side]))).concat();
        }
        out
    }

    /// The frame, and the lines across it with their numbers.
    fn ticks(&self) -> String {
        let (right, bottom) = (LEFT + FRAME, TOP + FRAME);
        let mut out = String::new();
        for (x, _) in self.curve.points.iter().step_by(2) {
            let [at, _] = self.place(*x, self.ys[0]);
            out += &line("tick", [at, TOP], [at, bottom]);
            out += &text("", "middle", at, bottom + 14.0, &x.to_string());
        }
        for y in ticks(self.ys) {
            let [_, at] = self.place(self.xs[0], y);
            out += &line("tick", [LEFT, at], [right, at]);
            out += &text("", "end", LEFT - 4.0, at + 4.0, &short(y));
        }
        out + &format!("<rect class=\"frame\" x=\"{LEFT}\" y=\"{TOP}\" width=\"{FRAME}\" height=\"{FRAME}\"/>\n")
    }
}

/// Powers of ten between the ends, with twice and five times them if there are few.
fn ticks([low, high]: [f64; 2]) -> Vec<f64> {
    let steps: &[f64] = if high / low > 150.0 { &[1.0] } else { &[1.0, 2.0, 5.0] };
    let tens = (0..12).map(|k| 10f64.powi(k));
    let all = tens.flat_map(|ten| steps.iter().map(move |step| step * ten));
    all.filter(|y| (low..=high).contains(y)).collect()
}

/// A number with k or M.
fn short(y: f64) -> String {
    match y {
        1e6.. => format!("{}M", y / 1e6),
        1e3.. => format!("{}k", y / 1e3),
        _ => y.to_string(),
    }
}

fn power(of: char, p: u8) -> String {
    match p {
        0 => format!("{of}⁰"),
        1 => of.to_string(),
        2 => format!("{of}²"),
        _ => format!("{of}³"),
    }
}
