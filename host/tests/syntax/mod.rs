//! Whether a text is one JSON value (RFC 8259), as the tool writes them.

/// Panics unless it is.
pub fn check(text: &str) {
    match value(text.trim_end()) {
        Some("") => {}
        rest => panic!("no JSON at {rest:?} of {text}"),
    }
}

/// What follows a value; `None` if there is none.
fn value(text: &str) -> Option<&str> {
    match text.as_bytes().first()? {
        b'{' => items(text, '}', |t| value(string(t)?.strip_prefix(": ")?)),
        b'[' => items(text, ']', value),
        b'"' => string(text),
        _ => {
            let end = text.find([',', '}', ']', '\n']).unwrap_or(text.len());
            let word = &text[..end];
            let number = word.starts_with(|c: char| c == '-' || c.is_ascii_digit());
            let known = ["null", "true", "false"].contains(&word);
            (known || number && word.parse::<f64>().is_ok()).then(|| &text[end..])
        }
    }
}

/// What follows a list of items up to its closing bracket.
fn items(text: &str, close: char, item: impl Fn(&str) -> Option<&str>) -> Option<&str> {
    let mut rest = text[1..].trim_start();
    if let Some(after) = rest.strip_prefix(close) {
        return Some(after);
    }
    loop {
        rest = item(rest)?.trim_start();
        match rest.strip_prefix(',') {
            Some(after) => rest = after.trim_start(),
            None => return rest.strip_prefix(close),
        }
    }
}

/// What follows a text in quotes.
fn string(text: &str) -> Option<&str> {
    let mut chars = text.strip_prefix('"')?.char_indices();
    while let Some((i, c)) = chars.next() {
        match c {
            '"' => return Some(&text[i + 2..]),
            '\\' => drop(chars.next()),
            c if c < ' ' => return None,
            _ => {}
        }
    }
    None
}
