//! What the figures' cases share: the shape of an answer, floats, and numbers about the bounds of the rules.

use crate::script::case::Numbers;
use crate::script::rng::{boundaries, Rng};

/// The greatest delay, round trip and smoothed value: 2^42 µs.
pub const MAX_US: i64 = 1 << 42;
/// The greatest clock reading: 2^48 − 1 ms.
pub const MAX_MS: u64 = (1 << 48) - 1;
/// The greatest frame size: 2^32 − 1.
pub const MAX_FRAME: u64 = (1 << 32) - 1;
/// The greatest trend sample: 2^64.
pub const MAX_TREND: f64 = 18_446_744_073_709_551_616.0;

/// What answers a call: the refusal and the numbers of a refused call, or 0 and what the commit says.
pub fn asked(refusal: u64, refused: &[u64], commit: impl FnOnce() -> Vec<u64>) -> (Numbers, bool) {
    if refusal == 0 {
        (Numbers::of(&[0]).and(&commit()), false)
    } else {
        (Numbers::of(&[refusal]).and(refused), true)
    }
}

/// The number of the first question that is answered no, or 0.
pub fn first_no(questions: &[(u64, bool)]) -> u64 {
    questions.iter().find(|(_, yes)| !yes).map_or(0, |(n, _)| *n)
}

/// A float's pattern, one for every NaN.
pub fn bits(x: f64) -> u64 {
    if x.is_nan() {
        0x7ff8_0000_0000_0000
    } else {
        x.to_bits()
    }
}

/// An optional number: a flag and the number.
pub fn optional(n: Option<u64>) -> [u64; 2] {
    [u64::from(n.is_some()), n.unwrap_or(0)]
}

pub fn in_range(x: f64, lo: f64, hi: f64) -> bool {
    lo <= x && x <= hi
}

/// Signed numbers about 0, about the bound and at the ends.
pub fn about(bound: i64) -> Vec<i64> {
    let mut all = vec![0, 1, -1, bound - 1, bound, bound + 1];
    all.extend([-bound + 1, -bound, -bound - 1, i64::MAX, i64::MIN]);
    all
}

/// Floats at the ends of the format, and just below, at and just above the bound.
pub fn floats_about(bound: f64) -> Vec<f64> {
    let at = bound.to_bits();
    let mut all = vec![0.0, -0.0, bound, f64::from_bits(at - 1), f64::from_bits(at + 1), bound / 2.0];
    all.extend([
        f64::from_bits(1),
        -f64::from_bits(1),
        f64::MIN_POSITIVE,
        1.0,
        1.0 - f64::EPSILON / 2.0,
    ]);
    all.extend([-1.0, f64::MAX, f64::MIN, f64::INFINITY, f64::NEG_INFINITY, f64::NAN]);
    all
}

/// A float: mostly 0 to the bound, of any size; else about the bound, or any pattern.
pub fn float(rng: &mut Rng, bound: f64) -> f64 {
    match rng.below(16) {
        0 => {
            let all = floats_about(bound);
            all[rng.below(all.len())]
        }
        1 => f64::from_bits(rng.draw()),
        2 | 3 => f64::from_bits(rng.draw() % bound.to_bits()),
        4 => bound * f64::from(rng.below(9) as u32) / 8.0,
        5 => tiny(rng),
        _ => bound * unit(rng),
    }
}

/// Closer to 0 than every normal float: 0, −0.0 and subnormal ones.
fn tiny(rng: &mut Rng) -> f64 {
    let x = f64::from_bits(rng.draw() >> 12 >> rng.below(53));
    match rng.below(8) {
        0 => -0.0,
        1 => -x,
        _ => x,
    }
}

/// A float some steps of its last bit away, or itself.
pub fn neighbour(rng: &mut Rng, x: f64) -> f64 {
    f64::from_bits(x.to_bits().wrapping_add(rng.below(9) as u64).wrapping_sub(4))
}

/// A number past 2^53 that is no float: half way between two, or just beside that.
pub fn between_floats(rng: &mut Rng) -> u64 {
    let dropped = 1 + rng.below(11);
    let kept = (1 << 52) | (rng.draw() >> 12);
    let half = (kept << dropped) | (1 << (dropped - 1));
    beside(rng, half)
}

/// From 0 to below 1.
pub fn unit(rng: &mut Rng) -> f64 {
    (rng.draw() >> 11) as f64 / (1u64 << 53) as f64
}

/// A number from 0 to the bound, or seldom about it, below 0 or past it.
pub fn near(rng: &mut Rng, bound: i64) -> i64 {
    match rng.below(12) {
        0 => {
            let all = about(bound);
            all[rng.below(all.len())]
        }
        1 => rng.number(8) as i64,
        2..=5 => (rng.draw() % 100_000) as i64 % (bound + 1),
        _ => (rng.draw() % (bound as u64 + 1)) as i64,
    }
}

/// Clocks about 0 and about the bound.
pub const CLOCKS: [u64; 7] = [0, 1, 1000, MAX_MS - 1, MAX_MS, MAX_MS + 1, u64::MAX];

/// A clock: mostly in range.
pub fn clock(rng: &mut Rng) -> u64 {
    match rng.below(12) {
        0 => CLOCKS[rng.below(CLOCKS.len())],
        1 => boundaries(8)[rng.below(20)],
        _ => rng.number(8) & MAX_MS,
    }
}

/// A clock about the last in range, or any.
pub fn about_last_clock(rng: &mut Rng) -> u64 {
    match rng.below(4) {
        0 => clock(rng),
        _ => beside(rng, MAX_MS),
    }
}

/// A clock in range.
pub fn clock_within(rng: &mut Rng) -> u64 {
    clock(rng).min(MAX_MS)
}

/// The number, one less or one more, as far as there is one.
pub fn beside(rng: &mut Rng, n: u64) -> u64 {
    match rng.below(3) {
        0 => n.saturating_sub(1),
        1 => n,
        _ => n.saturating_add(1),
    }
}

pub fn maybe<T>(rng: &mut Rng, make: impl FnOnce(&mut Rng) -> T) -> Option<T> {
    if rng.below(3) == 0 {
        None
    } else {
        Some(make(rng))
    }
}

/// A smoothed value for scheduling: a few ms to some seconds, about 0, or about the bound.
pub fn smoothed(rng: &mut Rng) -> i64 {
    match rng.below(4) {
        0 => about(MAX_US)[rng.below(11)],
        1 => near(rng, MAX_US),
        _ => (rng.draw() % 8_000_000) as i64,
    }
}

/// Interval bounds: mostly in order and in range.
pub fn bounds(rng: &mut Rng) -> (u64, u64) {
    match rng.below(8) {
        0 => (clock(rng), clock(rng)),
        1 => (rng.below(9000) as u64, rng.below(9000) as u64),
        2 => (500, 10_000),
        _ => {
            let min_ms = rng.below(5000) as u64;
            (min_ms, min_ms + rng.below(5000) as u64)
        }
    }
}

/// Interval bounds, or such with one about the last in range.
pub fn any_bounds(rng: &mut Rng) -> (u64, u64) {
    let (min_ms, max_ms) = bounds(rng);
    match rng.below(12) {
        0 => (beside(rng, MAX_MS), max_ms),
        1 => (min_ms, beside(rng, MAX_MS)),
        _ => (min_ms, max_ms),
    }
}
