/// Access to the private parts of this file (appended for the tests).
pub mod access {
    use super::GaussianState;
    use std::cell::Cell;

    /// A state from its parts.
    pub fn state(n: usize, m: Vec<f64>, d: Vec<f64>, mode_of_qubit: Vec<usize>) -> GaussianState {
        GaussianState { n, m, d, mode_of_qubit }
    }

    /// The matrix of a state, by rows.
    pub fn m(s: &GaussianState) -> &[f64] {
        &s.m
    }

    /// The signs of a state.
    pub fn d(s: &GaussianState) -> &[f64] {
        &s.d
    }

    /// The determinant of a map of `K` operators, by rows.
    pub fn det<const K: usize>(q: &[f64]) -> f64 {
        super::det::<K>(q)
    }

    thread_local! {
        static STOP: Cell<Option<usize>> = const { Cell::new(None) };
    }

    /// The row where the Pfaffian of a call stops. Only in the tree `traced`.
    pub fn stop_of(call: impl FnOnce()) -> Option<usize> {
        STOP.set(None);
        call();
        STOP.get()
    }

    /// Notes the row.
    #[allow(dead_code)]
    pub(super) fn stopped(row: usize) {
        STOP.set(Some(row));
    }
}
