//! English: plurals, lines, and what can be shown.

/// `k things`, with the right ending.
pub fn count(k: u64, thing: &str) -> String {
    format!("{k} {thing}{}", if k == 1 { "" } else { "s" })
}

/// The verb after `k things`.
pub fn are(k: u64) -> &'static str {
    if k == 1 {
        "is"
    } else {
        "are"
    }
}

/// A text from outside for people to read: a control character, which could move the cursor, becomes a mark.
pub fn shown(text: &str) -> String {
    text.chars().map(|c| if c.is_control() { '\u{FFFD}' } else { c }).collect()
}

/// Breaks a text into lines of at most so many characters.
pub fn wrapped(text: &str, width: usize) -> Vec<String> {
    let mut lines = vec![String::new()];
    for word in text.split_whitespace() {
        let last = lines.last_mut().expect("a line");
        if last.is_empty() {
            last.push_str(word);
        } else if last.chars().count() + 1 + word.chars().count() <= width {
            last.push(' ');
            last.push_str(word);
        } else {
            lines.push(word.to_string());
        }
    }
    lines
}

#[cfg(test)]
mod tests {
    use super::*;

    #[test]
    fn plurals() {
        assert_eq!(format!("{} {}", count(1, "block"), are(1)), "1 block is");
        assert_eq!(format!("{} {}", count(0, "block"), are(0)), "0 blocks are");
    }

    #[test]
    fn control_characters_do_not_show() {
        assert_eq!(shown("a\u{1b}[2Jb\n\u{9b}ü"), "a\u{FFFD}[2Jb\u{FFFD}\u{FFFD}ü");
    }

    #[test]
    fn lines() {
        assert_eq!(wrapped("one two three", 7), ["one two", "three"]);
        assert_eq!(wrapped("", 7), [""]);
        assert_eq!(wrapped("incredible", 7), ["incredible"]);
    }
}
