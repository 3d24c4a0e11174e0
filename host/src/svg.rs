//! The outcome as a picture to print: an A4 sheet with the wires in their order and the blocks on
//! them in time, and beside it a bar for the parity of each qubit; a zero is a stroke, and says where it
//! comes from. Black on white: patterns, not colours, tell exact values (of register
//! lists), rounded and refused ones apart. Units are points; no text is below 9.

use crate::engine::{Number, Operation, Report};
use crate::job::Outcome;
use crate::report::{self, accepted, blocks, expectation, Context};
use crate::wording::{shown, wrapped};
use crate::zero::Zero;
use std::fmt::Write;

const WIDTH: f64 = 595.0;
const HEIGHT: f64 = 842.0;
const MARGIN: f64 = 36.0;
/// Rows of a column; a second column takes the rest.
const ROWS: usize = 64;
const SMALL: f64 = 9.0;

/// The sheet.
pub fn sheet(context: &Context, outcome: &Outcome) -> String {
    let mut page = Page(String::new());
    let top = head(&mut page, context, outcome);
    if let Some(compiled) = &outcome.compiled {
        let parities = outcome.answers.as_ref().ok().map(|a| a.parities.as_slice());
        let fill = if context.is_exact(outcome) { SOLID } else { ROUNDED };
        let columns = columns(&compiled.report, top);
        for column in &columns {
            draw_order(&mut page, column, &compiled.report, &compiled.operations);
            draw_parities(&mut page, column, parities, fill);
        }
        legend(&mut page, columns[0].bottom() + 26.0);
    }
    format!(
        "<svg xmlns=\"http://www.w3.org/2000/svg\" width=\"210mm\" height=\"297mm\" \
         viewBox=\"0 0 {WIDTH} {HEIGHT}\" font-family=\"DejaVu Sans, Arial, Helvetica, sans-serif\">\n\
         {PATTERNS}<rect width=\"{WIDTH}\" height=\"{HEIGHT}\" fill=\"white\"/>\n{}</svg>\n",
        page.0
    )
}

/// The fill of rounded values.
const PATTERNS: &str = "<defs><pattern id=\"rounded\" width=\"4\" height=\"4\" \
    patternUnits=\"userSpaceOnUse\"><path d=\"M0 4 L4 0 M-1 1 L1 -1 M3 5 L5 3\" \
    stroke=\"black\" stroke-width=\"0.8\"/></pattern></defs>\n";

/// What has been drawn.
struct Page(String);

impl Page {
    fn text(&mut self, x: f64, y: f64, size: f64, anchor: &str, text: &str) {
        // XML has no place for control characters, which names of files may have.
        let text = shown(text).replace('&', "&amp;").replace('<', "&lt;").replace('>', "&gt;");
        let _ = writeln!(
            self.0,
            "<text x=\"{x:.1}\" y=\"{y:.1}\" font-size=\"{size}\" text-anchor=\"{anchor}\">{text}</text>"
        );
    }

    fn line(&mut self, from: (f64, f64), to: (f64, f64), stroke: &str) {
        let ((x, y), (u, v)) = (from, to);
        let _ =
            writeln!(self.0, "<path d=\"M{x:.1} {y:.1} L{u:.1} {v:.1}\" fill=\"none\" {stroke}/>");
    }

    fn rect(&mut self, x: f64, y: f64, w: f64, h: f64, style: &str) {
        let _ = writeln!(
            self.0,
            "<rect x=\"{x:.1}\" y=\"{y:.1}\" width=\"{w:.1}\" height=\"{h:.1}\" {style}/>"
        );
    }

    /// Begins a group of which only the part in a box shows: a block that reaches into the other
    /// column is cut off at the edge of this one.
    fn clipped(&mut self, id: &str, (x, y): (f64, f64), (u, v): (f64, f64)) {
        let _ = write!(self.0, "<clipPath id=\"{id}\">");
        self.rect(x, y, u - x, v - y, "");
        let _ = writeln!(self.0, "</clipPath>\n<g clip-path=\"url(#{id})\">");
    }

    fn dot(&mut self, x: f64, y: f64, r: f64, style: &str) {
        let _ = writeln!(self.0, "<circle cx=\"{x:.1}\" cy=\"{y:.1}\" r=\"{r:.1}\" {style}/>");
    }
}

const THIN: &str = "stroke=\"black\" stroke-width=\"0.4\"";
const BOLD: &str = "stroke=\"black\" stroke-width=\"1.2\"";
const DASHED: &str = "stroke=\"black\" stroke-width=\"0.8\" stroke-dasharray=\"3 2\"";
const OUTLINE: &str = "fill=\"white\" stroke=\"black\" stroke-width=\"0.8\"";
const SOLID: &str = "fill=\"black\" stroke=\"black\" stroke-width=\"0.8\"";
const ROUNDED: &str = "fill=\"url(#rounded)\" stroke=\"black\" stroke-width=\"0.8\"";
const NO_VALUE: &str =
    "fill=\"white\" stroke=\"black\" stroke-width=\"0.6\" stroke-dasharray=\"1 2\"";

/// The lines above the columns. The answer is where these end.
fn head(page: &mut Page, context: &Context, outcome: &Outcome) -> f64 {
    page.text(MARGIN, 48.0, 13.0, "start", &report::title(context.source));
    let mut lines = vec![];
    match (&outcome.answers, &outcome.compiled) {
        (Ok(answers), Some(compiled)) => {
            lines.push(accepted(&compiled.report));
            let mut texts = report::caveats(context.source, &compiled.report);
            let zeros: Vec<Zero> = answers.zeros().collect();
            texts.extend(report::about_zeros(context.source, &zeros));
            lines.extend(texts.into_iter().map(String::from));
        }
        (Err(refused), _) => {
            lines.push(format!("refused: number {}", refused.refusal.number));
            lines.push(format!("why: {}", refused.why));
            lines.extend(refused.place.iter().map(|p| format!("where: {p}")));
            lines.push(format!("what to do: {}", refused.advice));
        }
        (Ok(_), None) => {}
    }
    if let Some(compiled) = &outcome.compiled {
        lines.push(format!("blocks: {}", blocks(&compiled.report)));
        let warnings = report::warnings(context.source);
        lines.extend(warnings.first().map(|w| format!("warning: {w}")));
        if warnings.len() > 1 {
            lines.push(format!("more warnings: {}", warnings.len() - 1));
        }
    }
    let mut y = 64.0;
    for line in lines.iter().flat_map(|l| wrapped(l, 98)) {
        page.text(MARGIN, y, 9.5, "start", &line);
        y += 12.5;
    }
    y + 8.0
}

/// A column of rows: wires by mode on the left, qubits on the right.
struct Column {
    /// The rows: from `first` up to `last`, which is the next column's.
    first: usize,
    last: usize,
    top: f64,
    pitch: f64,
    /// Where the numbers of the wires end.
    wire: f64,
    /// From where to where the blocks stand.
    blocks: (f64, f64),
    /// Where the numbers of the qubits that the wires end on end; `None` if they are the wires' own.
    ends: Option<f64>,
    /// Where the numbers of the qubits end.
    qubit: f64,
    /// From where to where the bars reach.
    bars: (f64, f64),
    /// Where the values end.
    value: f64,
}

impl Column {
    /// The middle of a row.
    fn y(&self, row: usize) -> f64 {
        self.top + (row as f64 - self.first as f64 + 0.5) * self.pitch
    }

    fn bottom(&self) -> f64 {
        self.top + (self.last - self.first) as f64 * self.pitch
    }
}

/// One column for up to 64 rows, two for more.
fn columns(r: &Report, head: f64) -> Vec<Column> {
    const LABELS: f64 = 24.0;
    const VALUES: f64 = 42.0;
    const GAP: f64 = 14.0;
    let count = r.n.div_ceil(ROWS).max(1);
    let rows = r.n.div_ceil(count).max(1);
    let top = head + 28.0;
    let pitch = ((HEIGHT - 76.0 - top) / rows as f64).min(16.0);
    let width = (WIDTH - 2.0 * MARGIN - GAP * (count - 1) as f64) / count as f64;
    let moved = r.order.iter().enumerate().any(|(k, wire)| r.modes[*wire] != k);
    let column = |i: usize| {
        let left = MARGIN + i as f64 * (width + GAP);
        let middle = left + (width - VALUES) / 2.0;
        let bars = middle + LABELS + 14.0;
        Column {
            first: i * rows,
            last: r.n.min((i + 1) * rows),
            top,
            pitch,
            wire: left + LABELS - 4.0,
            blocks: (left + LABELS, if moved { middle - 18.0 } else { middle }),
            ends: moved.then_some(middle),
            qubit: bars - 8.0,
            bars: (bars, left + width - VALUES),
            value: left + width,
        }
    };
    (0..count).map(column).collect()
}

/// Each operation with its layer: the first in which its modes are free.
fn layers(operations: &[Operation], n: usize) -> Vec<usize> {
    let mut free = vec![0; n];
    let layer = |o: &Operation| {
        let (low, high) = span(o);
        let at = free[low..=high].iter().copied().max().unwrap_or(0);
        free[low..=high].fill(at + 1);
        at
    };
    operations.iter().map(layer).collect()
}

/// The lowest and the highest mode of an operation.
fn span(o: &Operation) -> (usize, usize) {
    match o {
        Operation::One { mode, .. } => (*mode, *mode),
        Operation::Two { mode, .. } => (*mode, mode + 1),
        Operation::Interaction { modes: (a, b), .. } => (*a.min(b), *a.max(b)),
    }
}

/// The wires by mode, with marks where paths start, and the blocks on them.
fn draw_order(page: &mut Page, c: &Column, r: &Report, operations: &[Operation]) {
    let (left, right) = c.blocks;
    page.text(c.wire, c.top - 8.0, SMALL, "end", "wire");
    for k in c.first..c.last {
        page.text(c.wire, c.y(k) + 3.2, SMALL, "end", &r.order[k].to_string());
        page.line((left, c.y(k)), (right, c.y(k)), THIN);
        if k > 0 && r.starts[k] {
            let y = c.y(k) - c.pitch / 2.0;
            page.line((c.wire - 18.0, y), (right, y), DASHED);
        }
    }
    if let Some(x) = c.ends {
        page.text(x, c.top - 8.0, SMALL, "end", "to");
        for (q, k) in r.modes.iter().enumerate().filter(|(_, k)| (c.first..c.last).contains(*k)) {
            page.text(x, c.y(*k) + 3.2, SMALL, "end", &q.to_string());
        }
    }
    draw_blocks(page, c, r, operations);
}

/// The blocks in their layers, as many as there is room for.
fn draw_blocks(page: &mut Page, c: &Column, r: &Report, operations: &[Operation]) {
    let (left, right) = c.blocks;
    let layers = layers(operations, r.n);
    let depth = layers.iter().copied().max().map_or(0, |l| l + 1);
    let shown = depth.min(((right - left) / 3.0) as usize);
    let step = ((right - left) / shown.max(1) as f64).min(26.0);
    let title = match () {
        _ if r.bad > 0 => "none: some are bad".to_string(),
        _ if shown < depth => format!("first {shown} of {depth} layers"),
        _ => "blocks in time →".to_string(),
    };
    page.text(left + 2.0, c.top - 8.0, SMALL, "start", &title);
    page.clipped(&format!("rows{}", c.first), (left, c.top), (right, c.bottom()));
    for (o, layer) in operations.iter().zip(&layers).filter(|(_, layer)| **layer < shown) {
        let (low, high) = span(o);
        if low < c.last && high >= c.first {
            let x = left + (*layer as f64 + 0.5) * step;
            draw_block(page, o, x, step.min(c.pitch) * 0.7, (c.y(low), c.y(high)));
        }
    }
    page.0 += "</g>\n";
}

/// A block at x, as wide as told, between the rows of its modes.
fn draw_block(page: &mut Page, o: &Operation, x: f64, width: f64, (low, high): (f64, f64)) {
    let r = width / 2.0;
    match o {
        Operation::One { .. } => page.dot(x, low, r * 0.8, SOLID),
        Operation::Two { .. } => {
            let style = format!("rx=\"{:.1}\" {OUTLINE}", r * 0.6);
            page.rect(x - r, low - r, width, high - low + width, &style);
        }
        Operation::Interaction { .. } => {
            page.line((x, low), (x, high), DASHED);
            page.dot(x, low, r * 0.8, OUTLINE);
            page.dot(x, high, r * 0.8, OUTLINE);
        }
    }
}

/// A bar for each qubit; `None`: the run was refused, and there are no values.
fn draw_parities(page: &mut Page, c: &Column, parities: Option<&[Number]>, fill: &str) {
    let (left, right) = c.bars;
    let (middle, half) = ((left + right) / 2.0, (right - left) / 2.0);
    page.text(c.qubit, c.top - 8.0, SMALL, "end", "qubit");
    page.text(c.value, c.top - 8.0, SMALL, "end", "Z");
    for (x, name) in [(left, "-1"), (middle, "0"), (right, "+1")] {
        page.text(x, c.top - 8.0, SMALL, "middle", name);
        page.line((x, c.top - 4.0), (x, c.bottom()), THIN);
    }
    for q in c.first..c.last {
        let (y, high) = (c.y(q), c.pitch * 0.62);
        page.text(c.qubit, y + 3.2, SMALL, "end", &q.to_string());
        let value = match parities {
            None => {
                page.rect(left, y - high / 2.0, right - left, high, NO_VALUE);
                "refused".to_string()
            }
            Some(z) => {
                draw_bar(page, (middle, y), (half, high), z[q].value, fill);
                if let Some(zero) = Zero::of(z[q]) {
                    page.text(middle + 3.0, y + 3.2, SMALL, "start", &zero.to_string());
                }
                expectation(z[q].value, 4)
            }
        };
        page.text(c.value, y + 3.2, SMALL, "end", &value);
    }
}

/// The bar of a value around the zero of its row; a zero is a stroke.
fn draw_bar(page: &mut Page, zero: (f64, f64), (half, high): (f64, f64), z: f64, fill: &str) {
    let length = half * z.clamp(-1.0, 1.0);
    let ((middle, y), top) = (zero, zero.1 - high / 2.0);
    match z {
        z if z.is_nan() => {}
        0.0 => page.line((middle, top), (middle, y + high / 2.0), BOLD),
        z if z < 0.0 => page.rect(middle + length, top, -length, high, fill),
        _ => page.rect(middle, top, length, high, fill),
    }
}

/// What the marks mean, from y on.
fn legend(page: &mut Page, y: f64) {
    let z = y + 16.0;
    let mut entry = |x: f64, y: f64, text: &str| page.text(x + 26.0, y + 3.2, SMALL, "start", text);
    entry(36.0, y, "exact: proved");
    entry(180.0, y, "rounded");
    entry(290.0, y, "refused: no value");
    entry(36.0, z, "map of one mode");
    entry(180.0, z, "of two modes");
    entry(290.0, z, "interaction");
    entry(440.0, z, "a path starts");
    for (x, style) in [(36.0, SOLID), (180.0, ROUNDED), (290.0, NO_VALUE)] {
        page.rect(x, y - 4.0, 20.0, 8.0, style);
    }
    page.dot(46.0, z, 3.0, SOLID);
    page.rect(187.0, z - 6.0, 7.0, 12.0, &format!("rx=\"2\" {OUTLINE}"));
    page.line((295.0, z), (307.0, z), DASHED);
    page.dot(294.0, z, 3.0, OUTLINE);
    page.dot(308.0, z, 3.0, OUTLINE);
    page.line((440.0, z), (460.0, z), DASHED);
}

#[cfg(test)]
mod tests {
    use super::*;
    use crate::engine::fake::Fake;
    use crate::job;
    use crate::source::Source;

    fn drawn_of(list: &str, fake: &Fake) -> String {
        let source = Source::read("a<b\u{1}", list.into(), &[]).expect("a list");
        let outcome = job::run(&source, &[], fake).expect("an outcome");
        let context = Context { source: &source, queries: &[], shots: None, draws: "", digits: 9 };
        sheet(&context, &outcome)
    }

    fn drawn(fake: &Fake, n: usize) -> String {
        drawn_of(&format!("qubits {n}\nh 0\n"), fake)
    }

    /// How many bars and swatches of a style there are.
    fn count(text: &str, style: &str) -> usize {
        text.lines()
            .filter(|l| l.starts_with("<rect") && l.ends_with(&format!("{style}/>")))
            .count()
    }

    #[test]
    fn values_are_told_apart() {
        let count = |text: &str| [SOLID, ROUNDED, NO_VALUE].map(|style| count(text, style));
        let fake = Fake::accepting(&[1.0, 0.5, -1.0, 0.0]);
        let text = drawn(&fake, 4);
        assert_eq!(count(&text), [1, 4, 1]);
        assert!(text.contains("a&lt;b\u{FFFD}: 4 qubits"));
        assert_eq!(count(&drawn_of("qubits 4\nx 0\n", &fake)), [4, 1, 1]);
        assert_eq!(count(&drawn(&Fake::refusing(4, 12, 0), 4)), [1, 1, 5]);
    }

    #[test]
    fn a_zero_says_where_it_comes_from() {
        let said = |list: &str, parities: &[f64]| {
            let text = drawn_of(list, &Fake::accepting(parities));
            let about = |text: &str, part: &str| text.matches(part).count();
            let meanings = [">A zero is found where", ">The entries of that row may"];
            (about(&text, ">found: row 0</text>"), meanings.map(|part| about(&text, part)))
        };
        assert_eq!(said("qubits 3\nh 0\n", &[0.0, 0.5, -0.0]), (2, [1, 1]));
        assert_eq!(said("qubits 3\nx 0\n", &[0.0, 0.5, -0.0]), (2, [1, 0]));
        assert_eq!(said("qubits 3\nh 0\n", &[1.0, 0.5, 1e-300]), (0, [0, 0]));
    }

    #[test]
    fn a_warning_stands_on_the_sheet() {
        let list = "qubits 1\nmatrix 0 1,0 0,0 0,0 0,0\nmatrix 0 1,0 0,0 0,0 0,0\n";
        let text = drawn_of(list, &Fake::accepting(&[1.0]));
        assert!(text.contains(">warning: line 2: the matrix is not unitary"), "{text}");
        assert!(text.contains(">more warnings: 1<"), "{text}");
    }

    #[test]
    fn every_size_fits_the_sheet() {
        for n in [1, 2, 63, 64, 65, 127, 128] {
            let text = drawn(&Fake::accepting(&vec![0.5; n]), n);
            assert_eq!(count(&text, ROUNDED), n + 1);
            let numbers = |name: &str, most: f64| {
                for part in text.split(&format!(" {name}=\"")).skip(1) {
                    let x: f64 = part.split('"').next().and_then(|x| x.parse().ok()).unwrap_or(0.0);
                    assert!((0.0..=most).contains(&x), "n {n}: {name} {x}");
                }
            };
            numbers("x", WIDTH);
            numbers("y", HEIGHT);
            for part in text.split("font-size=\"").skip(1) {
                let size: f64 = part.split('"').next().expect("a size").parse().expect("a number");
                assert!(size >= SMALL);
            }
        }
        drawn(&Fake::accepting(&[]), 0);
    }
}
