/// Access to the private functions of this file (appended for the tests).
pub mod access {
    use super::{Circuit, DetectOptions, Kind2, Mat2, Mat4};
    pub use crate::items::{Fused, Item, Kind};
    use std::cell::Cell;

    /// A map of `K` Majorana operators and its residual.
    pub type Mapped<const K: usize> = ([[f64; K]; K], f64);

    /// `Class2` with public fields; `g` is 0 unless the kind is `Diag`.
    #[derive(Clone, Copy, Debug)]
    pub struct Class {
        pub kind: Kind,
        pub g: f64,
        pub swap: bool,
        pub residual: f64,
        pub v: Mat4,
    }

    #[inline(never)]
    pub fn mul4(a: &Mat4, b: &Mat4) -> Mat4 {
        super::mul4(a, b)
    }

    #[inline(never)]
    pub fn dag4(a: &Mat4) -> Mat4 {
        super::dag4(a)
    }

    #[inline(never)]
    pub fn mul2(a: &Mat2, b: &Mat2) -> Mat2 {
        super::mul2(a, b)
    }

    #[inline(never)]
    pub fn dag2(a: &Mat2) -> Mat2 {
        super::dag2(a)
    }

    #[inline(never)]
    pub fn kron(a: &Mat2, b: &Mat2) -> Mat4 {
        super::kron(a, b)
    }

    #[inline(never)]
    pub fn swap_qubits(a: &Mat4) -> Mat4 {
        super::mat4_swap_qubits(a)
    }

    #[inline(never)]
    pub fn majorana_map1(u: &Mat2) -> Mapped<2> {
        super::majorana_map1(u)
    }

    #[inline(never)]
    pub fn majorana_map2(u: &Mat4) -> Mapped<4> {
        super::majorana_map2(u)
    }

    #[inline(never)]
    pub fn offdiag4(u: &Mat4) -> f64 {
        super::offdiag4(u)
    }

    #[inline(never)]
    pub fn diag_phases(u: &Mat4) -> (f64, f64, f64) {
        super::diag_phases(u)
    }

    #[inline(never)]
    pub fn number_conserving4(q: &[[f64; 4]; 4]) -> bool {
        super::number_conserving4(q)
    }

    #[inline(never)]
    pub fn classify2(u: &Mat4, opts: &DetectOptions) -> Class {
        let c = super::classify2(u, opts);
        let (kind, g) = match c.kind {
            Kind2::Diag { g } => (Kind::Diag, g),
            Kind2::Match => (Kind::Match, 0.0),
            Kind2::NonGaussian => (Kind::NonGaussian, 0.0),
        };
        Class { kind, g, swap: c.swap, residual: c.residual, v: c.v }
    }

    pub fn time_product(gates: &[Mat2]) -> Mat2 {
        super::time_product(gates)
    }

    pub fn compress(gates: Vec<Mat2>) -> Vec<Mat2> {
        super::compress(gates)
    }

    /// The order, its paths, and whether the cover kept every edge.
    pub fn path_order(
        n: usize,
        edges: &[((usize, usize), usize)],
    ) -> (Vec<usize>, Vec<Vec<usize>>, bool) {
        super::path_order(n, edges)
    }

    #[inline(never)]
    pub fn fuse(c: &Circuit, opts: &DetectOptions) -> Fused {
        let f = super::fuse(c, opts);
        let items = f.items.iter().map(item).collect();
        Fused { items, slot_of_qubit: f.slot_of_qubit, content: f.content, swaps: f.swaps }
    }

    /// The same with the two settings that it reads: these types are those of every tree.
    pub fn fused(c: &Circuit, tol: f64, relabel_swaps: bool) -> Fused {
        fuse(c, &DetectOptions { tol, relabel_swaps, reorder: false })
    }

    /// A fault: what a split left before an opaque block goes to the block after it.
    #[allow(dead_code)]
    pub(super) fn left_behind(raw: &super::Raw, segs: &mut [super::Seg]) {
        for (&o, s) in raw.open.iter().zip(&raw.close) {
            let rest = segs[o].gates[segs[o].split..].to_vec();
            if let Some(s) = *s {
                segs[s].gates.splice(0..0, rest);
            }
        }
    }

    /// The number of items alone, for timing.
    #[inline(never)]
    pub fn fuse_count(c: &Circuit, opts: &DetectOptions) -> usize {
        super::fuse(c, opts).items.len()
    }

    fn item(it: &super::Item) -> Item {
        match *it {
            super::Item::One { w, u } => Item::One { w, u },
            super::Item::Opaque => Item::Opaque,
            super::Item::Two { a, b, v, kind, residual } => {
                let (kind, g) = match kind {
                    Kind2::Diag { g } => (Kind::Diag, g),
                    Kind2::Match => (Kind::Match, 0.0),
                    Kind2::NonGaussian => (Kind::NonGaussian, 0.0),
                };
                Item::Two { a, b, v, kind, g, residual }
            }
        }
    }

    /// The cuts that `fuse` classified: how many, whether one passed an off-diagonal test, and
    /// whether a phase lay between half and twice the tolerance. Only in the tree `traced`.
    #[derive(Clone, Copy, Debug, Default)]
    pub struct Trace {
        pub tried: usize,
        pub angled: bool,
        pub near: bool,
    }

    thread_local! {
        static TRACE: Cell<Trace> = const { Cell::new(Trace { tried: 0, angled: false, near: false }) };
    }

    pub fn trace(c: &Circuit, opts: &DetectOptions) -> Trace {
        TRACE.set(Trace::default());
        super::fuse(c, opts);
        TRACE.get()
    }

    /// `classify2`, with a note of the off-diagonal tests that it makes.
    #[allow(dead_code)]
    pub(super) fn note(u: &Mat4, opts: &DetectOptions) -> super::Class2 {
        let class = super::classify2(u, opts);
        let ends_plain = match class.kind {
            Kind2::Diag { g } => !class.swap && g.abs() <= opts.tol,
            Kind2::Match => !class.swap,
            Kind2::NonGaussian => false,
        };
        let mut trace = TRACE.get();
        trace.tried += 1;
        let mut test = |m: &Mat4| {
            if super::offdiag4(m) <= opts.tol {
                let g = super::diag_phases(m).2.abs();
                trace.angled = true;
                trace.near |= 0.5 * opts.tol <= g && g <= 2.0 * opts.tol;
            }
        };
        test(u);
        if opts.relabel_swaps && !ends_plain {
            test(&super::mul4(&super::swap4(), u));
        }
        TRACE.set(trace);
        class
    }
}
