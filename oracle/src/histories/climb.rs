//! Lists of samples found by a search in which each rounding loses the most: a beam search over the residues of the next sample.

use crate::script::rng::Rng;

/// How many lists are kept at each step, how long they grow, and how many samples are tried after each.
const WIDTH: usize = 200;
const STEPS: usize = 80;
const TRIED: u32 = 24;

/// A list of whole milliseconds, the rounded figures after it, and how far they are from the exact ones.
#[derive(Clone)]
struct Trips {
    ms: Vec<u32>,
    srtt: i64,
    rttvar: i64,
    above: f64,
    off: f64,
}

impl Trips {
    fn first(ms: u32) -> Self {
        let us = 1000 * i64::from(ms);
        Self {
            ms: vec![ms],
            srtt: us,
            rttvar: us / 2,
            above: 0.0,
            off: 0.0,
        }
    }

    /// The error of each figure moves by its own weight, by what its shifts drop, and the variation's by the smoothed value's.
    fn and(&self, ms: u32) -> Self {
        let us = 1000 * i64::from(ms);
        let (old, apart) = (self.srtt, (self.srtt - us).abs());
        let exact_apart = (old as f64 - self.above - us as f64).abs();
        let dropped = |n: i64, parts: i64| (n % parts) as f64 / parts as f64;
        let mut next = self.clone();
        next.ms.push(ms);
        next.rttvar = self.rttvar - (self.rttvar >> 2) + (apart >> 2);
        next.srtt = old - (old >> 3) + (us >> 3);
        next.above = 0.875 * self.above + dropped(old, 8);
        next.off = 0.75 * self.off + dropped(self.rttvar, 4) - dropped(apart, 4) + (apart as f64 - exact_apart) / 4.0;
        next
    }
}

/// Goes on with the most promising lists. Answers the list that got farthest, and the lists left at the end.
fn beam<T: Clone>(
    rng: &mut Rng,
    begun: &[T],
    and: impl Fn(&T, u32) -> T,
    hope: impl Fn(&T) -> f64,
    far: impl Fn(&T) -> f64,
) -> (T, Vec<T>) {
    let mut best = begun[0].clone();
    let mut lists = begun.to_vec();
    for _ in 0..STEPS {
        let mut next: Vec<T> = vec![];
        for list in &lists {
            let base = [0, 0, 40, 3000][rng.below(4)];
            next.extend((1..=TRIED).map(|k| and(list, base + k)));
        }
        next.sort_by(|a, b| hope(b).total_cmp(&hope(a)));
        next.truncate(WIDTH);
        for list in &next {
            if far(list) > far(&best) {
                best = list.clone();
            }
        }
        lists = next;
    }
    (best, lists)
}

/// Round trips, in whole milliseconds, after which SRTT is far above S, or RTTVAR far above or below V.
pub fn round_trips(rng: &mut Rng) -> Vec<Vec<u32>> {
    let begun: Vec<Trips> = (1..=64).map(Trips::first).collect();
    // The variation is farthest off while the smoothed value is: so the search begins from lists that are far above.
    let (above, lists) = beam(rng, &begun, Trips::and, |t| t.above, |t| t.above);
    let mut found = vec![above.ms];
    for way in [1.0, -1.0] {
        for weight in [0.1, 0.2, 0.3, 0.5] {
            let hope = |t: &Trips| way * t.off + weight * t.above;
            found.push(beam(rng, &lists, Trips::and, hope, |t| way * t.off).0.ms);
        }
    }
    found
}

/// A list of |D| in whole milliseconds, the scaled jitter after it, and how far it is above 16 A.
#[derive(Clone)]
struct Steps {
    ms: Vec<u32>,
    jitter_q4: i64,
    above: f64,
}

impl Steps {
    fn and(&self, ms: u32) -> Self {
        let mut next = self.clone();
        next.ms.push(ms);
        next.jitter_q4 = self.jitter_q4 - (self.jitter_q4 >> 4) + 1000 * i64::from(ms);
        next.above = 0.9375 * self.above + (self.jitter_q4 % 16) as f64 / 16.0;
        next
    }

    /// How far what is reported is above A, in sixteenths.
    fn reported(&self) -> f64 {
        self.above - (self.jitter_q4 % 16) as f64
    }
}

/// Steps of the receive clock, in whole milliseconds, after which the reported jitter is far above or below A.
pub fn jitter_steps(rng: &mut Rng) -> Vec<Vec<u32>> {
    let new = [Steps {
        ms: vec![],
        jitter_q4: 0,
        above: 0.0,
    }];
    let (high, _) = beam(rng, &new, Steps::and, |s| s.above, Steps::reported);
    let (low, _) = beam(rng, &new, Steps::and, |s| -s.above, |s| -s.reported());
    vec![high.ms, low.ms]
}
