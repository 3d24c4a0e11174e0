//! From the bytes of a file to the text of a gate list. A file that is no such text is told what it looks like.

use crate::fault::Fault;

/// The text, without a byte order mark, which some editors put before it.
pub fn decode(bytes: Vec<u8>) -> Result<String, Fault> {
    if let Some(other) = wide(&bytes) {
        return Err(Fault::whole(format!("the file is {other} text; save it as UTF-8")));
    }
    if bytes.iter().any(|b| is_control(*b)) {
        return Err(Fault::whole("neither a gate list (text) nor a tape (bytes that begin 51 48)"));
    }
    let text = String::from_utf8(bytes).map_err(|e| narrow(e.as_bytes(), e.utf8_error()))?;
    let text = text.strip_prefix('\u{FEFF}').unwrap_or(&text);
    match bare_return(text) {
        Some(fault) => Err(fault),
        None => Ok(text.to_string()),
    }
}

/// Text has tabs, ends of lines and pages, and no other control character.
fn is_control(byte: u8) -> bool {
    matches!(byte, 0..=8 | 14..=31 | 127)
}

/// The name of an encoding with two or four bytes a character: by its mark, or by a zero beside every byte of its beginning.
fn wide(bytes: &[u8]) -> Option<&'static str> {
    match bytes {
        [0xFF, 0xFE, 0, 0, ..] | [0, 0, 0xFE, 0xFF, ..] => return Some("UTF-32"),
        [0xFF, 0xFE, ..] | [0xFE, 0xFF, ..] => return Some("UTF-16"),
        _ => {}
    }
    let start = bytes.get(..8)?;
    let plain = |b: u8| b.is_ascii() && !is_control(b);
    let low_first = start.chunks(2).all(|p| plain(p[0]) && p[1] == 0);
    let high_first = start.chunks(2).all(|p| p[0] == 0 && plain(p[1]));
    (low_first || high_first).then_some("UTF-16")
}

/// What is no UTF-8 and has no control character is text with a byte for each character.
fn narrow(bytes: &[u8], error: std::str::Utf8Error) -> Fault {
    let before = &bytes[..error.valid_up_to()];
    let line = 1 + before.iter().filter(|b| **b == b'\n').count();
    let byte = bytes[before.len()];
    let reason =
        format!("byte {byte:02X} is no UTF-8; the file looks like Latin-1: save it as UTF-8");
    Fault { line, reason }
}

/// A carriage return that ends no line: what follows it would be taken for a part of its line, or of a comment.
fn bare_return(text: &str) -> Option<Fault> {
    let inner = text.strip_suffix('\r').unwrap_or(text);
    if inner.contains('\r') && !inner.contains('\n') {
        return Some(Fault::whole("lines end with CR alone; save the file with LF or CRLF"));
    }
    let bare = |line: &str| line.strip_suffix('\r').unwrap_or(line).contains('\r');
    let line = text.split('\n').position(bare)? + 1;
    Some(Fault { line, reason: "a CR within the line; lines end with LF or CRLF".into() })
}

#[cfg(test)]
mod tests {
    use super::*;

    fn said(bytes: &[u8]) -> String {
        decode(bytes.to_vec()).expect_err("no text").to_string()
    }

    #[test]
    fn text_is_taken() {
        for (bytes, want) in [
            (&b"qubits 2\r\nx 0\r\n"[..], "qubits 2\r\nx 0\r\n"),
            (b"\xEF\xBB\xBFqubits 2\n", "qubits 2\n"),
            (b"# \xC3\xBC\tx\x0C\n", "# \u{fc}\tx\u{c}\n"),
            (b"qubits 2\r", "qubits 2\r"),
            (b"", ""),
        ] {
            assert_eq!(decode(bytes.to_vec()), Ok(want.to_string()));
        }
    }

    #[test]
    fn utf_16_is_named() {
        let want = "the file is UTF-16 text; save it as UTF-8";
        let low_first: Vec<u8> = "qubits 2\n".encode_utf16().flat_map(u16::to_le_bytes).collect();
        let high_first: Vec<u8> = "qubits 2\n".encode_utf16().flat_map(u16::to_be_bytes).collect();
        assert_eq!(said(&low_first), want);
        assert_eq!(said(&high_first), want);
        assert_eq!(said(&[&[0xFF, 0xFE][..], &low_first].concat()), want);
        assert_eq!(said(&[&[0xFE, 0xFF][..], &high_first].concat()), want);
        assert_eq!(said(&[0xFF, 0xFE, 0, 0, b'x', 0, 0, 0]), want.replace("16", "32"));
    }

    #[test]
    fn latin_1_is_named() {
        let want = "line 2: byte FC is no UTF-8; the file looks like Latin-1: save it as UTF-8";
        assert_eq!(said(b"qubits 2\n# f\xFCr\n"), want);
    }

    #[test]
    fn bare_returns_are_named() {
        let want = "lines end with CR alone; save the file with LF or CRLF";
        assert_eq!(said(b"qubits 2\rx 0\r"), want);
        let want = "line 2: a CR within the line; lines end with LF or CRLF";
        assert_eq!(said(b"qubits 2\n# note\rx 0\r\n"), want);
    }

    #[test]
    fn bytes_are_no_text() {
        let zeros = [0; 64];
        for bytes in [&b"qubits 2\n\0\n"[..], b"\x7FELF\x02\x01", b"\0", b"\xFF\0\x01", &zeros] {
            let want = "neither a gate list (text) nor a tape (bytes that begin 51 48)";
            assert_eq!(said(bytes), want);
        }
    }
}
