//! Calls 351 to 357: `SpinBitState`.

use crate::proto::mmp::algorithms::oracle_access::{spin, spin_fields};
use crate::proto::mmp::algorithms::SpinBitState;
use crate::script::bounds::{asked, beside, clock, first_no, optional, CLOCKS, MAX_MS};
use crate::script::case::{Case, Numbers};
use crate::script::rng::Rng;

#[derive(Clone, Copy)]
pub struct State {
    is_initiator: bool,
    current_value: bool,
    highest_counter_for_spin: u64,
    last_edge_ms: Option<u64>,
}

fn read(s: &SpinBitState) -> State {
    let (is_initiator, current_value, highest_counter_for_spin, last_edge_ms) = spin_fields(s);
    State {
        is_initiator,
        current_value,
        highest_counter_for_spin,
        last_edge_ms,
    }
}

impl State {
    fn keeps(self) -> bool {
        self.last_edge_ms.is_none_or(|ms| ms <= MAX_MS)
    }

    fn numbers(self) -> [u64; 5] {
        let [there, edge] = optional(self.last_edge_ms);
        [
            self.is_initiator.into(),
            self.current_value.into(),
            self.highest_counter_for_spin,
            there,
            edge,
        ]
    }

    fn commit(self) -> SpinBitState {
        spin(
            self.is_initiator,
            self.current_value,
            self.highest_counter_for_spin,
            self.last_edge_ms,
        )
    }

    fn refusal(self, now_ms: u64) -> u64 {
        first_no(&[(1, self.keeps()), (2, now_ms <= MAX_MS)])
    }
}

/// A new initiator, but for its last edge.
pub fn initiator(last_edge_ms: Option<u64>) -> State {
    State {
        last_edge_ms,
        ..read(&SpinBitState::new(true))
    }
}

fn new(is_initiator: bool) -> Case {
    let answer = Numbers::of(&read(&SpinBitState::new(is_initiator)).numbers());
    Case::new(Numbers::of(&[351, is_initiator.into()]), (answer, false))
}

fn restart(s: State) -> Case {
    let answer = asked(first_no(&[(1, s.keeps())]), &s.numbers(), || {
        let mut c = s.commit();
        c.restart();
        read(&c).numbers().to_vec()
    });
    Case::new(Numbers::of(&[352]).and(&s.numbers()), answer)
}

fn accessor(call: u64, s: State) -> Case {
    let answer = asked(first_no(&[(1, s.keeps())]), &[0], || {
        let c = s.commit();
        vec![if call == 353 { c.is_initiator() } else { c.tx_bit() }.into()]
    });
    Case::new(Numbers::of(&[call]).and(&s.numbers()), answer)
}

fn keeps_rule(s: State) -> Case {
    Case::new(Numbers::of(&[356]).and(&s.numbers()), (Numbers::of(&[s.keeps().into()]), true))
}

/// The round trip and the state after.
fn observed(s: State, bit: bool, counter: u64, now_ms: u64) -> (Vec<u64>, State) {
    let mut c = s.commit();
    let rtt = c.rx_observe(bit, counter, now_ms);
    let mut numbers = optional(rtt).to_vec();
    numbers.extend(read(&c).numbers());
    (numbers, read(&c))
}

fn line(call: u64, s: State, bit: bool, counter: u64, now_ms: u64) -> Numbers {
    Numbers::of(&[call]).and(&s.numbers()).and(&[bit.into(), counter, now_ms])
}

pub fn rx_observe(s: State, bit: bool, counter: u64, now_ms: u64) -> Case {
    let mut refused = vec![0, 0];
    refused.extend(s.numbers());
    let answer = asked(s.refusal(now_ms), &refused, || observed(s, bit, counter, now_ms).0);
    Case::new(line(355, s, bit, counter, now_ms), answer)
}

/// The frame alone asks nothing: any clock.
fn observe(s: State, bit: bool, counter: u64, now_ms: u64) -> Case {
    let answer = Numbers::of(&[0]).and(&observed(s, bit, counter, now_ms).0);
    Case::new(line(357, s, bit, counter, now_ms), (answer, false))
}

pub fn boundary_cases() -> Vec<Case> {
    let mut cases = vec![new(false), new(true)];
    let mut edges = vec![None];
    edges.extend(CLOCKS.map(Some));
    for roles in 0..8 {
        let [is_initiator, current_value, bit] = [1, 2, 4].map(|b| roles & b > 0);
        for last_edge_ms in &edges {
            let s = State {
                is_initiator,
                current_value,
                highest_counter_for_spin: 7,
                last_edge_ms: *last_edge_ms,
            };
            for now_ms in CLOCKS {
                cases.push(rx_observe(s, bit, 8, now_ms));
            }
            cases.push(observe(s, bit, 8, MAX_MS + 1));
            if bit {
                cases.extend([restart(s), accessor(353, s), accessor(354, s), keeps_rule(s)]);
            }
        }
        for counter in [0, 6, 7, 8, u64::MAX] {
            for highest_counter_for_spin in [0, 7, u64::MAX] {
                let s = State {
                    is_initiator,
                    current_value,
                    highest_counter_for_spin,
                    last_edge_ms: None,
                };
                cases.extend([rx_observe(s, bit, counter, 5), observe(s, bit, counter, 5)]);
            }
        }
    }
    cases
}

pub fn random_case(rng: &mut Rng, call: u64) -> Case {
    let s = State {
        is_initiator: rng.below(2) == 0,
        current_value: rng.below(2) == 0,
        highest_counter_for_spin: rng.number(8),
        last_edge_ms: if rng.below(3) == 0 { None } else { Some(clock(rng)) },
    };
    let bit = rng.below(2) == 0;
    let counter = match rng.below(3) {
        0 => s.highest_counter_for_spin.wrapping_add(rng.below(3) as u64).wrapping_sub(1),
        _ => rng.number(8),
    };
    let now_ms = match (s.last_edge_ms, rng.below(3)) {
        (Some(ms), 0) => beside(rng, ms),
        (Some(ms), 1) => ms.saturating_add(rng.below(3000) as u64),
        _ => clock(rng),
    };
    match call {
        351 => new(bit),
        352 => restart(s),
        353 | 354 => accessor(call, s),
        355 => rx_observe(s, bit, counter, now_ms),
        356 => keeps_rule(s),
        _ => observe(s, bit, counter, if rng.below(2) == 0 { now_ms } else { rng.number(8) }),
    }
}

/// Frames, each on what the last one left.
pub fn history(rng: &mut Rng) -> Vec<Case> {
    let mut s = read(&SpinBitState::new(rng.below(2) == 0));
    let mut cases = vec![];
    let mut now_ms = clock(rng);
    for counter in 0..rng.below(40) as u64 {
        now_ms = now_ms.saturating_add(rng.below(200) as u64).saturating_sub(rng.below(40) as u64);
        let bit = rng.below(2) == 0;
        let counter = counter.saturating_sub(rng.below(3) as u64);
        cases.extend([rx_observe(s, bit, counter, now_ms), accessor(354, s)]);
        if s.refusal(now_ms) == 0 {
            s = observed(s, bit, counter, now_ms).1;
        }
    }
    cases
}
