//! Calls 301 to 357: algorithms.rs, a file for each of its sections.

use crate::cases::{etx, ewma, jitter, owd, spin, srtt};
use crate::script::case::Case;
use crate::script::rng::Rng;

pub fn boundary_cases(rng: &mut Rng) -> Vec<Case> {
    let mut cases = jitter::boundary_cases();
    cases.extend(srtt::boundary_cases());
    cases.extend(ewma::boundary_cases());
    cases.extend(owd::boundary_cases(rng));
    cases.extend(etx::boundary_cases());
    cases.extend(spin::boundary_cases());
    cases
}

pub fn random_case(rng: &mut Rng, call: u64) -> Case {
    match call {
        301..=306 => jitter::random_case(rng, call),
        311..=318 => srtt::random_case(rng, call),
        321..=328 => ewma::random_case(rng, call),
        331..=338 => owd::random_case(rng, call),
        341..=344 => etx::random_case(rng, call),
        _ => spin::random_case(rng, call),
    }
}

/// Calls on one record, each on what the last one left.
pub fn history(rng: &mut Rng) -> Vec<Case> {
    match rng.below(5) {
        0 => jitter::history(rng),
        1 => srtt::history(rng),
        2 => ewma::history(rng),
        3 => owd::history(rng),
        _ => spin::history(rng),
    }
}
