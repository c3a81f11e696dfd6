//! Calls 321 to 328: `DualEwma`.

use crate::proto::mmp::algorithms::oracle_access::ewma;
use crate::proto::mmp::algorithms::DualEwma;
use crate::script::bounds::{asked, bits, first_no, float, floats_about, in_range, neighbour, MAX_TREND};
use crate::script::case::{Case, Numbers};
use crate::script::rng::Rng;

#[derive(Clone, Copy)]
pub struct State {
    pub short: f64,
    pub long: f64,
    pub initialized: bool,
}

pub fn read(s: &DualEwma) -> State {
    State {
        short: s.short(),
        long: s.long(),
        initialized: s.initialized(),
    }
}

impl State {
    pub fn keeps(self) -> bool {
        in_range(self.short, 0.0, MAX_TREND) && in_range(self.long, 0.0, MAX_TREND)
    }

    /// As the answers have it.
    fn numbers(self) -> [u64; 3] {
        [bits(self.short), bits(self.long), self.initialized.into()]
    }

    /// As the line has it, a NaN by its own pattern.
    fn line(self, call: u64) -> Numbers {
        Numbers::of(&[call, self.short.to_bits(), self.long.to_bits(), self.initialized.into()])
    }

    pub fn commit(self) -> DualEwma {
        ewma(self.short, self.long, self.initialized)
    }

    pub fn stepped(self, sample: f64) -> State {
        let mut s = self.commit();
        s.update(sample);
        read(&s)
    }

    fn refusal(self, sample: f64) -> u64 {
        first_no(&[(1, self.keeps()), (11, in_range(sample, 0.0, MAX_TREND))])
    }
}

fn new(call: u64) -> Case {
    let s = if call == 321 { DualEwma::new() } else { DualEwma::default() };
    Case::new(Numbers::of(&[call]), (Numbers::of(&read(&s).numbers()), false))
}

pub fn update(s: State, sample: f64) -> Case {
    let answer = asked(s.refusal(sample), &s.numbers(), || s.stepped(sample).numbers().to_vec());
    Case::new(s.line(323).and(&[sample.to_bits()]), answer)
}

pub fn accessor(call: u64, s: State) -> Case {
    let answer = asked(first_no(&[(1, s.keeps())]), &[0], || {
        let c = s.commit();
        vec![match call {
            324 => bits(c.short()),
            325 => bits(c.long()),
            _ => c.initialized().into(),
        }]
    });
    Case::new(s.line(call), answer)
}

fn keeps_rule(s: State) -> Case {
    Case::new(s.line(327), (Numbers::of(&[s.keeps().into()]), true))
}

/// The step alone asks nothing: any floats.
fn step(s: State, sample: f64) -> Case {
    let answer = Numbers::of(&s.stepped(sample).numbers());
    Case::new(s.line(328).and(&[sample.to_bits()]), (answer, false))
}

fn all(s: State, sample: f64) -> [Case; 6] {
    [
        update(s, sample),
        step(s, sample),
        keeps_rule(s),
        accessor(324, s),
        accessor(325, s),
        accessor(326, s),
    ]
}

/// Floats about the bound, and NaNs of other patterns.
fn ends() -> Vec<f64> {
    let mut all = floats_about(MAX_TREND);
    all.extend([0x7ff0_0000_0000_0001, 0xfff8_0000_0000_0000, u64::MAX].map(f64::from_bits));
    all
}

pub fn boundary_cases() -> Vec<Case> {
    let mut cases = vec![new(321), new(322)];
    for initialized in [false, true] {
        let plain = State {
            short: 3.5,
            long: 2.5,
            initialized,
        };
        for v in ends() {
            cases.extend([update(plain, v), step(plain, v)]);
            cases.extend(all(State { short: v, ..plain }, 4.25));
            cases.extend(all(State { long: v, ..plain }, 4.25));
            let both = State {
                short: v,
                long: v,
                initialized,
            };
            cases.extend([
                update(both, 0.0),
                update(both, -0.0),
                update(both, MAX_TREND),
                update(both, f64::from_bits(1)),
            ]);
        }
    }
    cases
}

pub fn random_case(rng: &mut Rng, call: u64) -> Case {
    let s = State {
        short: float(rng, MAX_TREND),
        long: float(rng, MAX_TREND),
        initialized: rng.below(4) > 0,
    };
    let sample = match rng.below(6) {
        0 => neighbour(rng, s.short),
        1 => neighbour(rng, s.long),
        _ => float(rng, MAX_TREND),
    };
    match call {
        323 => update(s, sample),
        327 => keeps_rule(s),
        328 => step(s, sample),
        _ => accessor(call, s),
    }
}

/// Updates, each on what the last one left.
pub fn history(rng: &mut Rng) -> Vec<Case> {
    let mut s = read(&DualEwma::new());
    let mut cases = vec![];
    let top = [1.0, 100.0, 4_294_967_295.0, MAX_TREND][rng.below(4)];
    let still = float(rng, top);
    for _ in 0..rng.below(60) {
        let sample = if rng.below(2) == 0 { float(rng, top) } else { still };
        cases.extend([update(s, sample), accessor(324, s), accessor(325, s)]);
        if s.refusal(sample) == 0 {
            s = s.stepped(sample);
        }
    }
    cases
}
