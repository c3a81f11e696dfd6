//! The jitter step and ETX, beside the commit's own.
#![cfg(upstream)]

use oracle::proto::mmp::algorithms;
use oracle::proto::mmp::algorithms::oracle_access::{jitter, jitter_q4};
use oracle::script::rng::Rng;
use siwolkert::{compute_etx, jitter_update, Refusal};

const MAX_JITTER_Q4: i64 = 1 << 35;

fn same_jitter(scaled: i64, delta: i32) {
    let expected = if (0..=MAX_JITTER_Q4).contains(&scaled) {
        let mut state = jitter(scaled);
        state.update(delta);
        Ok(jitter_q4(&state))
    } else {
        Err(Refusal::State)
    };
    assert_eq!(jitter_update(scaled, delta), expected, "J {scaled}, D {delta}");
}

#[test]
fn jitter_steps() {
    let edges = [
        i64::MIN,
        -1,
        0,
        1,
        15,
        16,
        17,
        MAX_JITTER_Q4 - 1,
        MAX_JITTER_Q4,
        MAX_JITTER_Q4 + 1,
        i64::MAX,
    ];
    let deltas = [i32::MIN, i32::MIN + 1, -16, -1, 0, 1, 16, i32::MAX];
    for scaled in edges {
        for delta in deltas {
            same_jitter(scaled, delta);
        }
    }
    let mut rng = Rng::new(1);
    for _ in 0..1_000_000 {
        same_jitter((rng.draw() % (1 << 36)) as i64, rng.draw() as i32);
    }
}

fn same_etx(forward: f64, reverse: f64) {
    let ratio = |x: f64| (0.0..=1.0).contains(&x);
    let expected = if ratio(forward) && ratio(reverse) {
        Ok(algorithms::compute_etx(forward, reverse).to_bits())
    } else {
        Err(Refusal::Value)
    };
    assert_eq!(
        compute_etx(forward, reverse).map(f64::to_bits),
        expected,
        "ratios {forward:e}, {reverse:e}"
    );
}

#[test]
fn etx() {
    let edges = [
        0.0,
        -0.0,
        1.0,
        0.5,
        0.1,
        0.01,
        f64::MIN_POSITIVE,
        5e-324,
        -5e-324,
        1.0 + f64::EPSILON,
        1.0 - f64::EPSILON / 2.0,
        2.0,
        -1.0,
        f64::MAX,
        f64::INFINITY,
        f64::NEG_INFINITY,
        f64::NAN,
        -f64::NAN,
    ];
    for forward in edges {
        for reverse in edges {
            same_etx(forward, reverse);
        }
    }
    let mut rng = Rng::new(2);
    let unit = |bits: u64| (bits >> 11) as f64 / (1u64 << 53) as f64;
    for _ in 0..500_000 {
        same_etx(unit(rng.draw()), unit(rng.draw()));
        same_etx(f64::from_bits(rng.draw()), unit(rng.draw()));
    }
}
