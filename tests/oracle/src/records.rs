//! Stored lists: words of 8 bytes, little endian. A record is a tag and what
//! follows it; tag 0 ends the list. crates/replay_*/README.md have the tags.

use crate::bits::word;

/// The tag that ends a list.
const END: u64 = 0;

/// The largest list, in bytes; the programs have room for 65,536.
pub const LARGEST: usize = 65_000;

/// Lists for `fuse` and `compile` are filled up to so many bytes.
pub const FULL: usize = 60_000;

/// Records so far.
#[derive(Default)]
pub struct Records(Vec<u64>);

impl Records {
    /// Adds a record of floats.
    pub fn floats(&mut self, tag: u64, parts: &[&[f64]]) {
        self.0.push(tag);
        parts.iter().for_each(|part| self.more(part));
    }

    /// Adds a gate's code and the entries of its matrix.
    pub fn table(&mut self, tag: u64, code: u8, entries: &[f64]) {
        self.words(&[tag, u64::from(code)]);
        self.more(entries);
    }

    /// Adds words.
    pub fn words(&mut self, words: &[u64]) {
        self.0.extend(words);
    }

    /// Adds floats to the last record.
    pub fn more(&mut self, floats: &[f64]) {
        self.0.extend(floats.iter().map(|&x| word(x)));
    }

    /// Adds a tape and what belongs to it: tag, the tape's length in bytes, how many words follow,
    /// the tape, `body`. Nothing, and false, if the list would have more than `most` bytes.
    pub fn tape(&mut self, most: usize, tag: u64, bytes: &[u8], body: &[u64]) -> bool {
        let tape = words_of(bytes);
        let words = tape.len() + body.len();
        let room = 8 * (self.0.len() + words + 4) <= most;
        if room {
            self.words(&[tag, bytes.len() as u64, words as u64]);
            self.words(&tape);
            self.words(body);
        }
        room
    }

    /// The bytes of the list, with its end.
    pub fn bytes(mut self) -> Vec<u8> {
        self.0.push(END);
        let bytes: Vec<u8> = self.0.iter().flat_map(|w| w.to_le_bytes()).collect();
        assert!(bytes.len() <= LARGEST, "a list of {} bytes is too large", bytes.len());
        bytes
    }
}

/// Bytes as words, zeros after the last.
pub fn words_of(bytes: &[u8]) -> Vec<u64> {
    let word = |part: &[u8]| part.iter().rev().fold(0, |w, &b| w << 8 | u64::from(b));
    bytes.chunks(8).map(word).collect()
}
