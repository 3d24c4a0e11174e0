//! Floats as the words of their bits. All NaNs count as one value.

/// The word of every NaN.
pub const NAN: u64 = 0x7ff8_0000_0000_0000;

/// The bits of a float, every NaN as one word.
pub fn word(x: f64) -> u64 {
    if x.is_nan() {
        NAN
    } else {
        x.to_bits()
    }
}

/// Whether two floats have the same bits, or are both NaN.
pub fn same(a: f64, b: f64) -> bool {
    word(a) == word(b)
}

/// Whether all floats of two lists have the same bits, or are both NaN.
pub fn all_same(a: &[f64], b: &[f64]) -> bool {
    a.len() == b.len() && a.iter().zip(b).all(|(&a, &b)| same(a, b))
}

/// The text of a float: 16 hexadecimal digits, or `nan`.
pub fn text(x: f64) -> String {
    if x.is_nan() {
        "nan".to_string()
    } else {
        format!("{:016x}", x.to_bits())
    }
}

/// The texts of some floats, a blank before each.
pub fn texts(xs: &[f64]) -> String {
    xs.iter().map(|&x| format!(" {}", text(x))).collect()
}

/// Reads what `text` writes.
pub fn parse(s: &str) -> Result<f64, String> {
    match s {
        "nan" => Ok(f64::from_bits(NAN)),
        _ => parse_word(s).map(f64::from_bits),
    }
}

/// Reads a word of 16 hexadecimal digits.
pub fn parse_word(s: &str) -> Result<u64, String> {
    let digits = s.len() == 16 && s.bytes().all(|b| b.is_ascii_hexdigit());
    let value = u64::from_str_radix(s, 16).ok().filter(|_| digits);
    value.ok_or_else(|| format!("`{s}` is not a word of 16 hexadecimal digits"))
}
