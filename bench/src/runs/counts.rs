//! What was compared of a family.

use super::case::Case;
use super::sides::{compare, Seen};
use crate::layout::question::{APART, LIMIT};

/// Places of the numbers: first the five of `How`.
const ACCEPTED: usize = 5;
/// By question 11, then 12 to 14.
const REFUSED: usize = 6;
const ANSWERS: usize = 10;
const REGISTER: usize = 11;
const NEAR_DRAWS: usize = 12;
const DIFFER: usize = 13;
const OTHER_VERDICT: usize = 14;
const ROWS: usize = 15;

#[derive(Default)]
pub struct Counts {
    numbers: [usize; 16],
    /// The smallest case that differs, and in what.
    smallest: Option<(Case, &'static str)>,
}

impl Counts {
    /// Compares a case; what was seen of it.
    pub fn case(&mut self, case: Case) -> Seen {
        let look = |case: &Case| compare(&case.original(), &case.tape());
        let seen = look(&case);
        self.add(&seen);
        if seen.wrong.is_some() {
            let case = case.shrunk(|less| look(less).wrong.is_some());
            let smallest = self.smallest.as_ref().is_none_or(|s| case.gates() < s.0.gates());
            if let (true, Some(wrong)) = (smallest, look(&case).wrong) {
                self.smallest = Some((case, wrong));
            }
        }
        seen
    }

    pub fn add(&mut self, seen: &Seen) {
        let numbers = &mut self.numbers;
        numbers[seen.how as usize] += 1;
        match seen.number {
            0 => numbers[ACCEPTED] += 1,
            number @ APART..=LIMIT => numbers[REFUSED + (number - APART) as usize] += 1,
            _ => {}
        }
        numbers[ANSWERS] += seen.answers;
        numbers[ROWS] += seen.rows;
        numbers[REGISTER] += seen.register;
        numbers[NEAR_DRAWS] += seen.near_draws;
        numbers[DIFFER] += usize::from(seen.wrong.is_some());
        numbers[OTHER_VERDICT] += usize::from(seen.other_verdict);
    }

    /// Adds the numbers of another family.
    pub fn join(&mut self, other: &Counts) {
        self.numbers.iter_mut().zip(other.numbers).for_each(|(own, more)| *own += more);
    }

    /// Prints the numbers and the smallest case that differs; whether none does.
    pub fn end(&self, name: &str) -> bool {
        let n = &self.numbers;
        let [exact, angled, small, near, foreign] = [n[0], n[1], n[2], n[3], n[4]];
        let [r11, r12, r13, r14] = [0, 1, 2, 3].map(|k| n[REFUSED + k]);
        println!(
            "runs {name:<10} {exact} exact, {angled} angled, {} differ; accepted {}, refused by 11: {r11}, 12: {r12}, 13: {r13}, 14: {r14}; \
             {} answers, {} with a row, {} also the register's",
            n[DIFFER], n[ACCEPTED], n[ANSWERS], n[ROWS], n[REGISTER]
        );
        if small + near + foreign + n[NEAR_DRAWS] > 0 {
            println!(
                "     {:<10} not compared {} ({} with another verdict): tolerance below 1e-12 {small}, a phase near the tolerance {near}, a \
                 matrix of no gate {foreign}; of angled ones {} samples with a draw next to a probability",
                "",
                small + near + foreign,
                n[OTHER_VERDICT],
                n[NEAR_DRAWS]
            );
        }
        if let Some((case, wrong)) = &self.smallest {
            println!("differs in {wrong}:\n{}tape {}", case.original(), hex(&case.tape()));
        }
        n[DIFFER] == 0
    }
}

/// Bytes in hexadecimal.
pub fn hex(bytes: &[u8]) -> String {
    bytes.iter().map(|b| format!("{b:02x}")).collect()
}
