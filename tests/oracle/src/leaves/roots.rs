//! Square roots, by the hardware.

use super::tag;
use crate::records::Records;
use crate::rng::Rng;

pub fn add(out: &mut Records) {
    let mut rng = Rng::new(1);
    let parts = [special(), powers(), squares(&mut rng), near_middles(&mut rng), random(&mut rng)];
    for x in parts.concat() {
        out.floats(tag::SQRT, &[&[x], &[x.sqrt()]]);
    }
}

/// Zeros, the ends of every range, and what has no root.
fn special() -> Vec<f64> {
    let tiny = f64::from_bits(1);
    let largest_subnormal = f64::MIN_POSITIVE.next_down();
    let mut out = vec![0.0, -0.0, f64::NAN, f64::INFINITY, f64::NEG_INFINITY];
    for x in [tiny, largest_subnormal, f64::MIN_POSITIVE, 1.0, f64::MAX] {
        out.extend([x, -x]);
    }
    out.extend([2, 3, 4, 5, 7, 8, 9, 15, 16, 17].map(f64::from_bits));
    out.extend([f64::MAX.next_down(), f64::MIN_POSITIVE.next_up(), largest_subnormal.next_down()]);
    out
}

/// Powers of two of either parity, with their neighbours.
fn powers() -> Vec<f64> {
    let exponents = [
        -1074, -1073, -1050, -1023, -1022, -1021, -600, -53, -52, -2, -1, 0, 1, 2, 52, 53, 600,
        1022, 1023,
    ];
    exponents.iter().flat_map(|&e| beside(power(e))).collect()
}

/// A power of two, subnormal ones too.
fn power(exponent: i32) -> f64 {
    match exponent {
        ..=-1023 => f64::from_bits(1 << (exponent + 1074)),
        _ => f64::from_bits(((exponent + 1023) as u64) << 52),
    }
}

fn beside(x: f64) -> [f64; 3] {
    [x.next_down(), x, x.next_up()]
}

/// Perfect squares, with their neighbours.
fn squares(rng: &mut Rng) -> Vec<f64> {
    let mut roots = vec![3, 5, 10, 181, 65_535, 94_906_265, (1 << 26) - 1, 1 << 26];
    roots.extend((0..12).map(|_| rng.below(1 << 26)));
    roots.iter().flat_map(|&r| beside((r * r) as f64)).collect()
}

/// Numbers whose root lies next to the middle of two neighbours: for the
/// middle r + 1/2 of two whole numbers of 53 bits, its square rounded both
/// ways. Some r at random, and those of many for which a rounded square lies
/// nearest.
fn near_middles(rng: &mut Rng) -> Vec<f64> {
    let mut some: Vec<u64> = (0..1 << 16).map(|_| root53(rng)).collect();
    let mut out: Vec<f64> =
        some[..10].iter().flat_map(|&r| beside_square(r).map(scaled(rng))).collect();
    some.sort_by_key(|&r| distance(r).0);
    let near_below = some[..12].iter().map(|&r| beside_square(r)[0]);
    out.extend(near_below.map(scaled(rng)));
    some.sort_by_key(|&r| distance(r).1);
    let near_above = some[..12].iter().map(|&r| beside_square(r)[1]);
    out.extend(near_above.map(scaled(rng)));
    out
}

/// A whole number of 53 bits.
fn root53(rng: &mut Rng) -> u64 {
    1 << 52 | rng.word() >> 12
}

/// The whole part of (r + 1/2)², and how many of its low bits a float leaves out.
fn middle_square(r: u64) -> (u128, u32) {
    let square = u128::from(r) * u128::from(r) + u128::from(r);
    (square, if square >> 105 == 0 { 52 } else { 53 })
}

/// How far the floats below and above (r + 1/2)² are from it, as parts of their distance.
fn distance(r: u64) -> (u64, u64) {
    let (square, cut) = middle_square(r);
    let below = (square % (1 << cut)) as u64;
    (below >> (cut - 52), ((1 << cut) - below) >> (cut - 52))
}

/// (r + 1/2)² rounded down and up, divided by 2^104.
fn beside_square(r: u64) -> [f64; 2] {
    let (square, cut) = middle_square(r);
    let down = (square >> cut) as u64;
    [down, down + 1].map(|a| a as f64 * power(cut as i32 - 104))
}

/// Multiplies by an even power of two, which moves the root by a power of two.
fn scaled(rng: &mut Rng) -> impl FnMut(f64) -> f64 + '_ {
    |x| x * power(2 * rng.between(0, 1000) as i32 - 1000)
}

/// Random bits: most of them positive, some subnormal.
fn random(rng: &mut Rng) -> Vec<f64> {
    let positive = u64::MAX >> 1;
    let mut out: Vec<f64> = (0..75).map(|_| f64::from_bits(rng.word() & positive)).collect();
    out.extend((0..16).map(|_| f64::from_bits(rng.word() >> rng.between(12, 60))));
    out.extend((0..4).map(|_| f64::from_bits(rng.word())));
    out.extend((0..16).map(|_| rng.unit()));
    out
}
