//! Calls 341 to 344: the expected transmission count, and the quality index.

use crate::proto::mmp::algorithms::{compute_etx, quality_index};
use crate::script::bounds::{asked, bits, first_no, float, floats_about, in_range, neighbour};
use crate::script::case::{Case, Numbers};
use crate::script::rng::Rng;

const MAX_ETX: f64 = 100.0;
/// The greatest round trip in ms: 2^33.
const MAX_RTT_MS: f64 = 8_589_934_592.0;

fn line(call: u64, a: f64, b: f64) -> Numbers {
    Numbers::of(&[call, a.to_bits(), b.to_bits()])
}

pub fn etx(d_forward: f64, d_reverse: f64) -> [Case; 2] {
    let refusal = first_no(&[(11, in_range(d_forward, 0.0, 1.0) && in_range(d_reverse, 0.0, 1.0))]);
    let value = bits(compute_etx(d_forward, d_reverse));
    [
        Case::new(line(341, d_forward, d_reverse), asked(refusal, &[0], || vec![value])),
        Case::new(line(343, d_forward, d_reverse), (Numbers::of(&[value]), false)),
    ]
}

pub fn quality(etx: f64, rtt_ms: f64) -> [Case; 2] {
    let refusal = first_no(&[(11, in_range(etx, 1.0, MAX_ETX) && in_range(rtt_ms, 0.0, MAX_RTT_MS))]);
    let value = bits(quality_index(etx, rtt_ms));
    [
        Case::new(line(342, etx, rtt_ms), asked(refusal, &[0], || vec![value])),
        Case::new(line(344, etx, rtt_ms), (Numbers::of(&[value]), false)),
    ]
}

pub fn boundary_cases() -> Vec<Case> {
    let mut cases = vec![];
    for a in floats_about(1.0) {
        for b in floats_about(1.0) {
            cases.extend(etx(a, b));
        }
        cases.extend(etx(a, 0.1));
        cases.extend(etx(0.01, a));
        cases.extend(quality(a, 0.0));
    }
    for a in floats_about(MAX_ETX) {
        cases.extend(quality(a, 250.0));
        cases.extend(quality(a, -0.0));
    }
    for b in floats_about(MAX_RTT_MS) {
        cases.extend(quality(1.0, b));
        cases.extend(quality(MAX_ETX, b));
    }
    cases
}

pub fn random_case(rng: &mut Rng, call: u64) -> Case {
    let [checked, unchecked] = if call == 341 || call == 343 {
        let a = float(rng, 1.0);
        // about the products at which the count meets its ends
        let b = match rng.below(4) {
            0 => neighbour(rng, 0.01 / a),
            1 => neighbour(rng, 1.0 / a),
            _ => float(rng, 1.0),
        };
        etx(a, b)
    } else {
        let end = [1.0, MAX_ETX][rng.below(2)];
        let a = match rng.below(8) {
            0 => neighbour(rng, end),
            _ => 1.0 + float(rng, 99.0),
        };
        quality(a, float(rng, MAX_RTT_MS))
    };
    if call < 343 {
        checked
    } else {
        unchecked
    }
}
