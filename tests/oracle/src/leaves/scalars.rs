//! Rust's own methods on floats: abs, max, min, clamp.

use super::tag;
use crate::bits::same;
use crate::records::Records;
use crate::rng::Rng;
use std::hint::black_box;

const TINY: f64 = f64::from_bits(1);
const INF: f64 = f64::INFINITY;

pub fn add(out: &mut Records) {
    let mut rng = Rng::new(2);
    for x in abs_operands(&mut rng) {
        out.floats(tag::ABS, &[&[x], &[black_box(x).abs()]]);
    }
    let pairs = pairs(&mut rng);
    for (tag, method) in [(tag::MAX, f64::max as fn(f64, f64) -> f64), (tag::MIN, f64::min)] {
        for &(a, b) in &pairs {
            let want = black_box(method)(a, b);
            assert!(a != 0.0 || b != 0.0 || same(a, want), "of two zeros Rust gives the second");
            out.floats(tag, &[&[a, b], &[want]]);
        }
    }
    for (x, lo, hi) in clamp_operands() {
        out.floats(tag::CLAMP, &[&[x, lo, hi], &[black_box(x).clamp(lo, hi)]]);
    }
}

fn abs_operands(rng: &mut Rng) -> Vec<f64> {
    let mut out = vec![f64::NAN];
    for x in [0.0, 1.0, 0.1, TINY, f64::MIN_POSITIVE.next_down(), f64::MIN_POSITIVE, f64::MAX, INF]
    {
        out.extend([x, -x]);
    }
    out.extend((0..43).map(|_| f64::from_bits(rng.word())));
    out
}

/// All ordered pairs of a few values, then some where one bit decides, then random ones.
fn pairs(rng: &mut Rng) -> Vec<(f64, f64)> {
    let few = [0.0, 1.0, -1.5, TINY, INF, -INF];
    let mut out: Vec<(f64, f64)> = few.iter().flat_map(|&a| few.map(|b| (a, b))).collect();
    for x in [0.0, -0.0, 1.0, TINY, INF, -INF] {
        out.extend([(x, f64::NAN), (f64::NAN, x)]);
    }
    out.push((f64::NAN, f64::NAN));
    // of two zeros of different sign Rust may give either; compiled, it gives the first
    out.extend([(-0.0, -0.0), (0.0, -0.0), (-0.0, 0.0), (-0.0, TINY), (-TINY, -0.0)]);
    out.extend([(1.0, 1.0_f64.next_up()), (1.0_f64.next_up(), 1.0), (f64::MAX, -f64::MAX)]);
    out.extend((0..4).map(|_| (f64::from_bits(rng.word()), f64::from_bits(rng.word()))));
    out
}

fn clamp_operands() -> Vec<(f64, f64, f64)> {
    let bounds = [(-1.0, 1.0), (0.0, 1.0), (0.0, -0.0), (-INF, INF), (2.0, 2.0)];
    let xs =
        [f64::NAN, INF, -INF, 0.0, -0.0, 0.5, 1.0, 1.0_f64.next_up(), -1.0, -1.5, f64::MAX, -TINY];
    bounds.iter().flat_map(|&(lo, hi)| xs.map(|x| (x, lo, hi))).collect()
}
