//! Draws for shots: numbers of at least 0 and below 1, from a seed or from a file.

use crate::fault::Fault;
use crate::line::LONGEST_WORD;
use std::io::BufRead;

/// Splitmix64 (Steele, Lea and Flood, 2014): the state goes up by a constant, and what comes out is
/// the state with its bits mixed. A draw is the upper 53 bits, divided by 2^53.
pub struct Splitmix64(u64);

impl Splitmix64 {
    pub fn new(seed: u64) -> Splitmix64 {
        Splitmix64(seed)
    }

    fn next_word(&mut self) -> u64 {
        self.0 = self.0.wrapping_add(0x9E37_79B9_7F4A_7C15);
        let z = (self.0 ^ (self.0 >> 30)).wrapping_mul(0xBF58_476D_1CE4_E5B9);
        let z = (z ^ (z >> 27)).wrapping_mul(0x94D0_49BB_1331_11EB);
        z ^ (z >> 31)
    }
}

impl Iterator for Splitmix64 {
    type Item = f64;

    fn next(&mut self) -> Option<f64> {
        Some((self.next_word() >> 11) as f64 / (1u64 << 53) as f64)
    }
}

/// Reads at most so many draws from a file: numbers between blanks or on lines, with `#` for comments. What follows is not
/// read. Whether each is from 0 and below 1 is the engine's question.
pub fn read(from: impl BufRead, most: usize) -> Result<Vec<f64>, Fault> {
    let (mut draws, mut line) = (vec![], 1);
    let (mut word, mut comment) = (vec![], false);
    for byte in from.bytes().chain([Ok(b'\n')]) {
        let byte = byte.map_err(|e| Fault::whole(format!("cannot be read: {e}")))?;
        comment |= byte == b'#';
        if comment || byte.is_ascii_whitespace() {
            if !word.is_empty() {
                draws.push(number(&word).map_err(|reason| Fault { line, reason })?);
                word.clear();
            }
        } else if word.len() < LONGEST_WORD {
            word.push(byte);
        } else {
            return Err(Fault { line, reason: "a word is too long for a number".into() });
        }
        if draws.len() == most {
            break;
        }
        comment &= !matches!(byte, b'\n' | b'\r');
        line += usize::from(byte == b'\n');
    }
    Ok(draws)
}

/// The number of a word.
fn number(word: &[u8]) -> Result<f64, String> {
    let number = std::str::from_utf8(word).ok().and_then(|w| w.parse().ok());
    number.ok_or_else(|| format!("`{}` is no number", String::from_utf8_lossy(word)))
}

#[cfg(test)]
mod tests {
    use super::*;

    /// The first numbers of the reference program for seed 1234567.
    #[test]
    fn splitmix64() {
        let mut g = Splitmix64::new(1_234_567);
        assert_eq!(g.next_word(), 6_457_827_717_110_365_317);
        assert_eq!(g.next_word(), 3_203_168_211_198_807_973);
        assert_eq!(g.next_word(), 9_817_491_932_198_370_423);
        assert!(g.take(1000).all(|x| (0.0..1.0).contains(&x)));
    }

    #[test]
    fn a_file_of_draws() {
        let read = |text: &str, most| read(text.as_bytes(), most).map_err(|f| f.to_string());
        assert_eq!(read("0.5 0.25 # two\n\n1e-3", 9), Ok(vec![0.5, 0.25, 0.001]));
        assert_eq!(read("0.5\nhalf\n", 9), Err("line 2: `half` is no number".into()));
        assert_eq!(read("0.5\nhalf\n", 1), Ok(vec![0.5]));
        assert_eq!(read("0.5", 0), Ok(vec![]));
        assert!(read(&"1".repeat(9999), 9).is_err());
    }
}
