//! Calls 311 to 318: `SrttEstimator`.

use crate::proto::mmp::algorithms::oracle_access::srtt;
use crate::proto::mmp::algorithms::SrttEstimator;
use crate::script::bounds::{about, asked, first_no, near, MAX_US};
use crate::script::case::{Case, Numbers};
use crate::script::rng::Rng;

#[derive(Clone, Copy)]
pub struct State {
    pub srtt_us: i64,
    pub rttvar_us: i64,
    pub initialized: bool,
}

pub fn read(s: &SrttEstimator) -> State {
    State {
        srtt_us: s.srtt_us(),
        rttvar_us: s.rttvar_us(),
        initialized: s.initialized(),
    }
}

impl State {
    pub fn keeps(self) -> bool {
        (0..=MAX_US).contains(&self.srtt_us) && (0..=MAX_US).contains(&self.rttvar_us)
    }

    pub fn numbers(self) -> [u64; 3] {
        [self.srtt_us as u64, self.rttvar_us as u64, self.initialized.into()]
    }

    pub fn commit(self) -> SrttEstimator {
        srtt(self.srtt_us, self.rttvar_us, self.initialized)
    }

    pub fn stepped(self, rtt_us: i64) -> State {
        let mut s = self.commit();
        s.update(rtt_us);
        read(&s)
    }

    fn refusal(self, rtt_us: i64) -> u64 {
        first_no(&[(1, self.keeps()), (8, (0..=MAX_US).contains(&rtt_us))])
    }
}

pub fn new_state() -> State {
    read(&SrttEstimator::new())
}

fn new(call: u64) -> Case {
    let s = if call == 311 {
        SrttEstimator::new()
    } else {
        SrttEstimator::default()
    };
    Case::new(Numbers::of(&[call]), (Numbers::of(&read(&s).numbers()), false))
}

pub fn update(s: State, rtt_us: i64) -> Case {
    let answer = asked(s.refusal(rtt_us), &s.numbers(), || s.stepped(rtt_us).numbers().to_vec());
    Case::new(Numbers::of(&[313]).and(&s.numbers()).and(&[rtt_us as u64]), answer)
}

pub fn accessor(call: u64, s: State) -> Case {
    let answer = asked(first_no(&[(1, s.keeps())]), &[0], || {
        let c = s.commit();
        vec![match call {
            314 => c.srtt_us() as u64,
            315 => c.rttvar_us() as u64,
            _ => c.initialized().into(),
        }]
    });
    Case::new(Numbers::of(&[call]).and(&s.numbers()), answer)
}

fn keeps_rule(s: State) -> Case {
    Case::new(Numbers::of(&[317]).and(&s.numbers()), (Numbers::of(&[s.keeps().into()]), true))
}

/// The step of any state: a time below 0, which no rule allows, counts as 0.
pub fn step(s: State, rtt_us: i64) -> Case {
    let lifted = State {
        srtt_us: s.srtt_us.max(0),
        rttvar_us: s.rttvar_us.max(0),
        ..s
    };
    let answer = Numbers::of(&lifted.stepped(rtt_us.max(0)).numbers());
    let outside = s.srtt_us < 0 || s.rttvar_us < 0 || rtt_us < 0;
    Case::new(Numbers::of(&[318]).and(&s.numbers()).and(&[rtt_us as u64]), (answer, outside))
}

fn all(s: State, rtt_us: i64) -> [Case; 6] {
    [
        update(s, rtt_us),
        step(s, rtt_us),
        keeps_rule(s),
        accessor(314, s),
        accessor(315, s),
        accessor(316, s),
    ]
}

pub fn boundary_cases() -> Vec<Case> {
    let mut cases = vec![new(311), new(312)];
    for initialized in [false, true] {
        let plain = State {
            srtt_us: 3000,
            rttvar_us: 1500,
            initialized,
        };
        for v in about(MAX_US) {
            cases.push(update(plain, v));
            cases.push(step(plain, v));
            cases.extend(all(State { srtt_us: v, ..plain }, 11_000));
            cases.extend(all(State { rttvar_us: v, ..plain }, 11_000));
        }
        for v in [0, 1, 7, 8, MAX_US] {
            for rtt_us in [0, 1, 7, 8, 9, 1000, MAX_US, MAX_US + 1] {
                let s = State {
                    srtt_us: v,
                    rttvar_us: v,
                    initialized,
                };
                cases.push(update(s, rtt_us));
            }
        }
    }
    cases
}

pub fn random_case(rng: &mut Rng, call: u64) -> Case {
    let s = State {
        srtt_us: near(rng, MAX_US),
        rttvar_us: near(rng, MAX_US),
        initialized: rng.below(4) > 0,
    };
    let rtt_us = match rng.below(4) {
        0 => s.srtt_us.saturating_add(rng.below(33) as i64 - 16),
        1 => 1000 * rng.number(4) as i64,
        _ => near(rng, MAX_US),
    };
    match call {
        313 => update(s, rtt_us),
        317 => keeps_rule(s),
        318 => step(s, rtt_us),
        _ => accessor(call, s),
    }
}

/// Updates, each on what the last one left.
pub fn history(rng: &mut Rng) -> Vec<Case> {
    let mut s = new_state();
    let mut cases = vec![];
    let still = near(rng, MAX_US);
    for _ in 0..rng.below(60) {
        let rtt_us = match rng.below(3) {
            0 => near(rng, MAX_US),
            1 => (rng.draw() % 60_000) as i64 * 1000,
            _ => still,
        };
        cases.extend([update(s, rtt_us), accessor(314, s), accessor(315, s)]);
        if s.refusal(rtt_us) == 0 {
            s = s.stepped(rtt_us);
        }
    }
    cases
}
