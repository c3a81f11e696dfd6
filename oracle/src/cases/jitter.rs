//! Calls 301 to 306: `JitterEstimator`.

use crate::proto::mmp::algorithms::oracle_access::{jitter, jitter_q4};
use crate::proto::mmp::algorithms::JitterEstimator;
use crate::script::bounds::{about, asked, first_no, near};
use crate::script::case::{pattern, Case, Numbers};
use crate::script::rng::Rng;

/// The greatest scaled jitter: 2^35.
const MAX: i64 = 1 << 35;

fn keeps(q4: i64) -> bool {
    (0..=MAX).contains(&q4)
}

pub fn stepped(q4: i64, d: i32) -> i64 {
    let mut s = jitter(q4);
    s.update(d);
    jitter_q4(&s)
}

fn new(call: u64) -> Case {
    let s = if call == 301 {
        JitterEstimator::new()
    } else {
        JitterEstimator::default()
    };
    Case::new(Numbers::of(&[call]), (Numbers::of(&[jitter_q4(&s) as u64]), false))
}

pub fn update(q4: i64, d: i32) -> Case {
    let refusal = first_no(&[(1, keeps(q4))]);
    let answer = asked(refusal, &[q4 as u64], || vec![stepped(q4, d) as u64]);
    Case::new(Numbers::of(&[303, q4 as u64, pattern(d)]), answer)
}

pub fn jitter_us(q4: i64) -> Case {
    let refusal = first_no(&[(1, keeps(q4))]);
    let answer = asked(refusal, &[0], || vec![jitter(q4).jitter_us().into()]);
    Case::new(Numbers::of(&[304, q4 as u64]), answer)
}

fn keeps_rule(q4: i64) -> Case {
    Case::new(Numbers::of(&[305, q4 as u64]), (Numbers::of(&[keeps(q4).into()]), true))
}

/// The step of any state: a jitter below 0, which no rule allows, counts as 0.
pub fn step(q4: i64, d: i32) -> Case {
    let answer = Numbers::of(&[stepped(q4.max(0), d) as u64]);
    Case::new(Numbers::of(&[306, q4 as u64, pattern(d)]), (answer, q4 < 0))
}

pub fn boundary_cases() -> Vec<Case> {
    let mut cases = vec![new(301), new(302)];
    let mut states = about(MAX);
    states.extend([15, 16, 17, 32, 1000, MAX - 15, MAX - 16, MAX - 17]);
    for q4 in states {
        cases.extend([jitter_us(q4), keeps_rule(q4)]);
        for d in [0, 1, -1, 15, 16, 17, -1000, i32::MAX, i32::MIN, i32::MIN + 1] {
            cases.extend([update(q4, d), step(q4, d)]);
        }
    }
    cases
}

pub fn random_case(rng: &mut Rng, call: u64) -> Case {
    let q4 = near(rng, MAX);
    let d = match rng.below(3) {
        0 => 1000 * (rng.below(4001) as i32 - 2000),
        _ => rng.number(4) as i32,
    };
    match call {
        303 => update(q4, d),
        304 => jitter_us(q4),
        305 => keeps_rule(q4),
        _ => step(q4, d),
    }
}

/// Updates, each on what the last one left.
pub fn history(rng: &mut Rng) -> Vec<Case> {
    let mut q4 = if rng.below(2) == 0 { 0 } else { near(rng, MAX) };
    let mut cases = vec![];
    let still = rng.number(4) as i32;
    for _ in 0..rng.below(60) {
        let d = if rng.below(3) == 0 { rng.number(4) as i32 } else { still };
        cases.extend([update(q4, d), jitter_us(q4)]);
        if keeps(q4) {
            q4 = stepped(q4, d);
        }
    }
    cases
}
