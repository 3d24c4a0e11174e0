//! A gate list, and how each gate comes onto the tape.

use crate::layout::MAX_LABEL;
use oracle::list::List;
use oracle::rng::Rng;
use oracle::tape::{header, label, record};
use original::gate::Gate;

#[derive(Clone)]
pub struct Case {
    list: List,
    /// One for each gate.
    forms: Vec<Form>,
}

#[derive(Clone, Copy, Default)]
struct Form {
    /// By its matrix, even if it has a code of its own.
    given: bool,
    /// After a label of so many bytes.
    label: Option<u8>,
}

impl Case {
    /// Every gate that has a code comes by its code.
    pub fn plain(list: List) -> Case {
        Case { forms: vec![Form::default(); list.gates.len()], list }
    }

    /// Half of the gates come by their matrix, some after labels.
    pub fn given(rng: &mut Rng, list: List) -> Case {
        let mut form = || Form {
            given: rng.chance(1, 2),
            label: rng.chance(1, 8).then(|| rng.pick(&[0, 1, 5, MAX_LABEL as u8])),
        };
        Case { forms: list.gates.iter().map(|_| form()).collect(), list }
    }

    pub fn tape(&self) -> Vec<u8> {
        let mut out = header(&self.list).expect("a header");
        for (g, form) in self.list.gates.iter().zip(&self.forms) {
            if let Some(length) = form.label {
                out.extend(label(&vec![b' ' + length; length.into()]));
            }
            out.extend(record(g, form.given));
        }
        out
    }

    /// The list for the original. A Swap by its matrix is three controlled flips there, whose product has the same bits: by
    /// its name it would be relabelled.
    pub fn original(&self) -> List {
        let gates = self.list.gates.iter().zip(&self.forms).flat_map(|(g, form)| match *g {
            Gate::Swap(a, b) if form.given => flips(a, b),
            g => vec![g],
        });
        List { gates: gates.collect(), ..self.list.clone() }
    }

    /// Leaves out gates, many at once, then few, then queries, as long as the case still differs.
    pub fn shrunk(mut self, differs: impl Fn(&Case) -> bool) -> Case {
        let mut size = self.forms.len();
        while size > 0 {
            let mut k = 0;
            let before = self.forms.len();
            while k + size <= self.forms.len() {
                let mut less = self.clone();
                less.list.gates.drain(k..k + size);
                less.forms.drain(k..k + size);
                (self, k) = if differs(&less) { (less, k) } else { (self, k + 1) };
            }
            let again = size == 1 && self.forms.len() < before;
            size = if again { self.forms.len().min(4) } else { size - size.div_ceil(3) };
        }
        for k in (0..self.list.queries.len()).rev() {
            let mut less = self.clone();
            less.list.queries.remove(k);
            self = if differs(&less) { less } else { self };
        }
        self
    }

    pub fn gates(&self) -> usize {
        self.forms.len()
    }
}

/// A swap as three controlled flips.
pub fn flips(a: usize, b: usize) -> Vec<Gate> {
    vec![Gate::Cnot(a, b), Gate::Cnot(b, a), Gate::Cnot(a, b)]
}
