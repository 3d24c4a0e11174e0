//! The private parts of the original's state, read from its debug text. The
//! debug text of a float reads back to the same bits.

use original::engines::gaussian::state::GaussianState;

/// The matrix m, by rows, and the signs d.
pub fn parts(state: &GaussianState) -> (Vec<f64>, Vec<f64>) {
    let text = format!("{state:?}");
    (field(&text, " m: ["), field(&text, " d: ["))
}

/// The floats of one field, whose text begins after `mark`.
fn field(text: &str, mark: &str) -> Vec<f64> {
    let start = text.find(mark).expect("the field stands in the debug text") + mark.len();
    let end = start + text[start..].find(']').expect("the field ends");
    let words = text[start..end].split(", ").filter(|w| !w.is_empty());
    words.map(|w| w.parse().expect("a float")).collect()
}
