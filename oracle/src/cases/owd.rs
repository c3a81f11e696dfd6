//! Calls 331 to 338: `OwdTrendDetector`.

use std::collections::VecDeque;

use crate::proto::mmp::algorithms::oracle_access::{owd, owd_window};
use crate::proto::mmp::algorithms::OwdTrendDetector;
use crate::proto::mmp::MAX_OWD_WINDOW_SIZE;
use crate::records::owd_ring::{Ring, MAX_WINDOW};
use crate::script::bounds::{about, asked, beside, first_no, near, MAX_US};
use crate::script::case::{pattern, Case, Numbers};
use crate::script::rng::Rng;

/// The commit's, but for a capacity past the greatest.
pub fn new(capacity: u64) -> Case {
    let (clamped, live) = owd_window(&OwdTrendDetector::new(capacity as usize));
    let answer = Numbers::of(&[clamped.min(MAX_WINDOW) as u64, live.len() as u64, 0]);
    Case::new(Numbers::of(&[331, capacity]), (answer, false)).as_requested(clamped > MAX_WINDOW)
}

/// The commit's window is empty after it, whatever it was.
fn cleared(r: &Ring) -> Vec<u64> {
    let mut c = owd(r.capacity, VecDeque::from(vec![(1, 2)]));
    c.clear();
    let (capacity, live) = owd_window(&c);
    vec![capacity as u64, live.len() as u64, 0]
}

pub fn clear(r: &Ring) -> Case {
    let answer = asked(first_no(&[(1, r.keeps())]), &r.state(), || cleared(r));
    Case::new(Numbers::of(&[332]).and(&r.state()), answer)
}

fn clear_unchecked(r: &Ring) -> Case {
    Case::new(Numbers::of(&[337]).and(&r.state()), (Numbers::of(&cleared(r)), false))
}

pub fn push(r: &Ring, at_ms: u32, owd_us: i64) -> Case {
    let with_windows = |ring: &Ring| [ring.state().to_vec(), ring.windows()].concat();
    let answer = asked(r.push_refusal(owd_us), &with_windows(r), || with_windows(&r.pushed(at_ms, owd_us)));
    let line = Numbers::of(&[333]).and(&r.state()).and(&[at_ms.into(), owd_us as u64]);
    Case::new(line.and(&r.windows()), answer)
}

/// The commit's where the ring keeps its rule and has its windows; else one slot is set, if it is there, and one pair more is counted.
fn push_unchecked(r: &Ring, at_ms: u32, owd_us: i64) -> Case {
    let outside = !(r.keeps() && r.windows_ok());
    let after = if outside {
        r.clone().placed((at_ms, owd_us))
    } else {
        r.pushed(at_ms, owd_us)
    };
    let line = Numbers::of(&[338]).and(&r.state()).and(&[at_ms.into(), owd_us as u64]);
    let answer = Numbers::of(&after.state()).and(&after.windows());
    Case::new(line.and(&r.windows()), (answer, outside))
}

pub fn trend(r: &Ring) -> Case {
    let answer = asked(r.trend_refusal(), &[0], || vec![pattern(r.commit().trend_us_per_sec())]);
    Case::new(Numbers::of(&[334]).and(&r.state()).and(&r.windows()), answer).over(r)
}

fn keeps_rule(r: &Ring) -> Case {
    Case::new(Numbers::of(&[335]).and(&r.state()), (Numbers::of(&[r.keeps().into()]), true))
}

fn windows_ok(r: &Ring, times: u64, delays: u64) -> Case {
    let yes = times == r.capacity as u64 && delays == r.capacity as u64;
    let line = Numbers::of(&[336]).and(&r.state()).and(&[times, delays]);
    Case::new(line, (Numbers::of(&[yes.into()]), true))
}

/// How a window's numbers run.
enum Run {
    /// Times that rise, delays about a line.
    Link,
    /// Small numbers.
    Small,
    /// All at one time.
    OneTime,
    /// Times of any kind, delays out to the bounds.
    Wide,
    /// Small times, delays out to the bounds: slopes about the ends of i32.
    Steep,
    /// Times close together at the end of the word, delays at a bound: the means' roundings show.
    Late,
    /// Times at equal steps, delays on a line: the slope's roundings show.
    Straight,
    /// Few times, wide delays whose products cancel: the roundings of the products and of their sum show.
    Level,
}

fn ring(rng: &mut Rng, capacity: usize, count: usize, first: usize, run: &Run) -> Ring {
    let slope = rng.below(4001) as i64 - 2000;
    let start = rng.number(4) as u32 / 2;
    let step = [1, 10, 100, 1000][rng.below(4)];
    let mut all = Ring {
        count,
        first,
        ..ring_of(capacity)
    };
    for k in 0..capacity {
        let slot = (first + k) % capacity;
        let (t, d) = match run {
            Run::Link => (start + 100 * k as u32, slope * k as i64 + rng.below(500) as i64),
            Run::Small => (rng.below(10) as u32, rng.below(10) as i64),
            Run::OneTime => (start, rng.below(1000) as i64),
            Run::Wide => (rng.number(4) as u32, wide_delay(rng)),
            Run::Steep => (rng.below(2000) as u32, wide_delay(rng) >> rng.below(42)),
            Run::Late => (
                u32::MAX - 3 * (capacity - k) as u32 + rng.below(3) as u32,
                MAX_US - rng.below(1000) as i64,
            ),
            Run::Straight => (step * k as u32, slope * k as i64),
            Run::Level => (rng.below(3) as u32, wide_delay(rng) / 4),
        };
        all.times[slot] = t;
        all.delays[slot] = d;
    }
    if let Run::Level = run {
        level(rng, &mut all);
    }
    all
}

/// Moves one live delay so that the slope is about 0.
fn level(rng: &mut Rng, ring: &mut Ring) {
    let slots: Vec<usize> = (0..ring.count).map(|k| (ring.first + k) % ring.capacity).collect();
    let sum: i128 = slots.iter().map(|slot| i128::from(ring.times[*slot])).sum();
    let lever = |slot: usize| ring.count as i128 * i128::from(ring.times[slot]) - sum;
    let Some(moved) = slots.iter().copied().find(|slot| lever(*slot) != 0) else {
        return;
    };
    let product = |slot: &usize| lever(*slot) * i128::from(ring.delays[*slot]);
    let others: i128 = slots.iter().filter(|slot| **slot != moved).map(product).sum();
    let delay = -others / lever(moved) + rng.below(2001) as i128 - 1000;
    ring.delays[moved] = delay.clamp(-i128::from(MAX_US), MAX_US.into()) as i64;
}

/// An empty ring with windows of zeros.
pub fn ring_of(capacity: usize) -> Ring {
    Ring {
        capacity,
        count: 0,
        first: 0,
        times: vec![0; capacity],
        delays: vec![0; capacity],
    }
}

/// A full ring of these pairs.
pub fn ring_with(pairs: &[(u32, i64)]) -> Ring {
    Ring {
        capacity: pairs.len(),
        count: pairs.len(),
        first: 0,
        times: pairs.iter().map(|(t, _)| *t).collect(),
        delays: pairs.iter().map(|(_, d)| *d).collect(),
    }
}

/// Within ±2^42, often at an end.
fn wide_delay(rng: &mut Rng) -> i64 {
    let size = match rng.below(3) {
        0 => MAX_US - rng.below(3) as i64,
        1 => rng.below(1000) as i64,
        _ => (rng.draw() % (MAX_US as u64 + 1)) as i64,
    };
    if rng.below(2) == 0 {
        size
    } else {
        -size
    }
}

fn any_run(rng: &mut Rng) -> Run {
    match rng.below(10) {
        0 => Run::OneTime,
        1 => Run::Small,
        2 | 3 => Run::Wide,
        4 => Run::Steep,
        5 => Run::Late,
        6 => Run::Straight,
        7 => Run::Level,
        _ => Run::Link,
    }
}

/// States that break a clause of the rule, one each.
pub fn lawless() -> [Ring; 10] {
    let of = |capacity, count, first, len| Ring {
        capacity,
        count,
        first,
        times: vec![5; len],
        delays: vec![6; len],
    };
    [
        of(0, 0, 0, 0),
        of(1, 1, 0, 1),
        of(MAX_WINDOW + 1, 2, 0, MAX_WINDOW + 1),
        of(300, 300, 1, 300),
        of(2, 3, 0, 2),
        of(3, 1, 3, 3),
        of(3, usize::MAX, 2, 3),
        of(3, 2, usize::MAX, 3),
        of(usize::MAX, 2, 0, 2),
        of(1 << 32 | 3, 1, 1, 3),
    ]
}

pub fn boundary_cases(rng: &mut Rng) -> Vec<Case> {
    let mut cases: Vec<Case> = requested_sizes().map(new).collect();
    for r in lawless() {
        cases.extend([push(&r, 1, 1), trend(&r), clear(&r), keeps_rule(&r), push(&r, 1, MAX_US + 1)]);
        cases.extend([push_unchecked(&r, 1, 1), clear_unchecked(&r)]);
    }
    for capacity in [2, 3, 32] {
        for count in [0, 1, 2, capacity / 2, capacity - 1, capacity] {
            for first in [0, 1, capacity / 2, capacity - 1] {
                for run in [Run::Link, Run::Small, Run::OneTime, Run::Wide] {
                    if capacity == 32 && (first == 1 || matches!(run, Run::OneTime)) {
                        continue;
                    }
                    let r = ring(rng, capacity, count, first, &run);
                    cases.push(trend(&r));
                    if capacity < 32 || count >= 31 {
                        let (at_ms, owd_us) = (rng.number(4) as u32, wide_delay(rng));
                        cases.extend([push(&r, at_ms, owd_us), push_unchecked(&r, at_ms, owd_us)]);
                    }
                    cases.extend([clear(&r), keeps_rule(&r), clear_unchecked(&r)]);
                }
            }
        }
    }
    cases.extend(about_samples(rng));
    for capacity in [2, 3, 5, 8, 13] {
        for run in [Run::Steep, Run::Late, Run::Straight, Run::Level, Run::Level] {
            (0..10).for_each(|_| cases.push(trend(&ring(rng, capacity, capacity, 1, &run))));
        }
    }
    for us in 1000..1025 {
        cases.extend([us, -us].map(|us| trend(&ring_with(&[(0, 0), (1000, us)]))));
    }
    let r = ring(rng, 4, 2, 3, &Run::Small);
    for (times, delays) in [(4, 4), (3, 4), (4, 5), (0, 0), (u64::MAX, 4)] {
        cases.push(windows_ok(&r, times, delays));
    }
    let full = ring(rng, MAX_WINDOW, MAX_WINDOW, MAX_WINDOW - 1, &Run::Small);
    cases.extend([push(&full, 1, 1), trend(&full)]);
    for r in [commits_widest(), with_widest_buffers(MAX_WINDOW)] {
        cases.extend([push(&r, 1, 1), trend(&r)]);
    }
    cases.extend(each_size(rng));
    cases
}

/// Sizes to ask for: each that the commit settles, those about the greatest, and the commit's own end.
pub fn requested_sizes() -> impl Iterator<Item = u64> {
    let past = [300, COMMITS_MAX - 1, COMMITS_MAX, COMMITS_MAX + 1, 1 << 32, u64::MAX];
    (0..=MAX_WINDOW as u64 + 2).chain(past)
}

/// The commit's greatest capacity.
const COMMITS_MAX: u64 = MAX_OWD_WINDOW_SIZE as u64;

/// A window that the commit takes.
pub fn commits_widest() -> Ring {
    with_widest_buffers(MAX_OWD_WINDOW_SIZE)
}

/// Two pairs, and buffers as long as the commit's greatest capacity.
pub fn with_widest_buffers(capacity: usize) -> Ring {
    Ring {
        capacity,
        count: 2,
        ..ring_of(MAX_OWD_WINDOW_SIZE)
    }
}

/// A window of each size, filled from new by pushes: its trend when it is full, and again when it wraps.
fn each_size(rng: &mut Rng) -> Vec<Case> {
    let mut cases = vec![];
    for size in 2..=MAX_WINDOW {
        let (capacity, _) = owd_window(&OwdTrendDetector::new(size));
        let mut r = ring_of(capacity);
        let mut at_ms = 0;
        let mut next = |rng: &mut Rng| {
            at_ms += 1 + rng.below(20) as u32;
            let owd_us = rng.below(1000) as i64;
            (at_ms, if rng.below(16) == 0 { -owd_us } else { owd_us })
        };
        for _ in 0..size {
            let (at_ms, owd_us) = next(rng);
            r = r.pushed(at_ms, owd_us);
        }
        cases.push(trend(&r));
        for _ in 0..=rng.below(size - 1) {
            let (at_ms, owd_us) = next(rng);
            r = r.pushed(at_ms, owd_us);
        }
        cases.push(trend(&r));
    }
    cases
}

/// Delays at the bounds, pushed, live and dead; windows that are too long or too short; slopes beyond i32.
fn about_samples(rng: &mut Rng) -> Vec<Case> {
    let mut cases = vec![];
    let r = ring(rng, 4, 2, 3, &Run::Small);
    for d in about(MAX_US) {
        cases.push(push(&r, 9, d));
        for slot in 0..4 {
            let mut one = r.clone();
            one.delays[slot] = d;
            cases.extend([trend(&one), push(&one, 9, 9)]);
        }
    }
    for (times, delays) in [(3, 4), (4, 3), (5, 4), (4, 5), (3, 3), (5, 5), (0, 4), (0, 0)] {
        let mut one = r.clone();
        one.times.resize(times, 1);
        one.delays.resize(delays, 1);
        cases.extend([trend(&one), push(&one, 9, 9), push(&one, 9, MAX_US + 1), push_unchecked(&one, 9, 9)]);
    }
    for (early, late) in [
        (-MAX_US, MAX_US),
        (MAX_US, -MAX_US),
        (0, 2_147_483),
        (0, 2_147_484),
        (0, -2_147_484),
    ] {
        for ms in [0, 1, 2, 1000, u32::MAX] {
            let mut one = ring(rng, 2, 2, 1, &Run::Small);
            one.times = vec![ms, 0];
            one.delays = vec![late, early];
            cases.push(trend(&one));
        }
    }
    cases
}

/// A capacity: mostly small.
fn capacity(rng: &mut Rng) -> usize {
    match rng.below(200) {
        0 => MAX_WINDOW,
        1..=9 => 33 + rng.below(MAX_WINDOW - 32),
        10..=49 => 32,
        50..=89 => 2,
        _ => 2 + rng.below(12),
    }
}

/// A size to ask for: mostly one that the commit settles, or about the ends.
pub fn requested(rng: &mut Rng) -> u64 {
    match rng.below(4) {
        0 => {
            let end = [2, MAX_WINDOW as u64, COMMITS_MAX][rng.below(3)];
            beside(rng, end)
        }
        1 => rng.number(8),
        _ => rng.below(MAX_WINDOW + 1) as u64,
    }
}

pub fn any_ring(rng: &mut Rng) -> Ring {
    let capacity = capacity(rng);
    let count = if rng.below(2) == 0 { capacity } else { rng.below(capacity + 1) };
    let run = any_run(rng);
    let first = rng.below(capacity);
    ring(rng, capacity, count, first, &run)
}

/// A full ring about the greatest capacity, or past it, with its buffers.
fn about_widest(rng: &mut Rng) -> Ring {
    let capacity = if rng.below(2) == 0 {
        beside(rng, MAX_WINDOW as u64) as usize
    } else {
        MAX_WINDOW + rng.below(64)
    };
    let first = rng.below(capacity);
    ring(rng, capacity, capacity, first, &Run::Small)
}

/// A ring with something about it that may be refused.
pub fn spoilt(rng: &mut Rng) -> Ring {
    if rng.below(20) == 0 {
        return about_widest(rng);
    }
    let mut r = any_ring(rng);
    let slot = rng.below(r.capacity);
    match rng.below(8) {
        0 => r.delays[slot] = near(rng, MAX_US).wrapping_neg(),
        1 => r.delays[slot] = rng.draw() as i64,
        2 => {
            r.times.pop();
        }
        3 => r.delays.push(1),
        4 => r.count = rng.number(8) as usize,
        5 => r.first = rng.number(8) as usize,
        6 => r.count = beside(rng, r.capacity as u64) as usize,
        _ => r.first = beside(rng, r.capacity as u64) as usize,
    }
    r
}

pub fn random_case(rng: &mut Rng, call: u64) -> Case {
    let r = if rng.below(4) == 0 { spoilt(rng) } else { any_ring(rng) };
    match call {
        331 => new(requested(rng)),
        332 => clear(&r),
        333 | 338 => {
            let d = if rng.below(4) == 0 { near(rng, MAX_US) } else { wide_delay(rng) };
            let pushed = if call == 333 { push } else { push_unchecked };
            pushed(&r, rng.number(4) as u32, d)
        }
        334 => trend(&r),
        335 => keeps_rule(&r),
        337 => clear_unchecked(&r),
        _ => {
            let length = |rng: &mut Rng| match rng.below(4) {
                0 => beside(rng, r.capacity as u64),
                1 => rng.number(8),
                _ => r.capacity as u64,
            };
            windows_ok(&r, length(rng), length(rng))
        }
    }
}

/// Pushes, each on what the last one left, with the trend beside them; seldom a clear.
pub fn history(rng: &mut Rng) -> Vec<Case> {
    let capacity = 2 + rng.below(9);
    let mut r = ring(rng, capacity, 0, 0, &Run::Wide);
    let mut cases = vec![];
    let mut at_ms = rng.number(4) as u32;
    for _ in 0..rng.below(40) {
        at_ms = at_ms.wrapping_add(rng.below(300) as u32);
        let d = if rng.below(3) == 0 {
            wide_delay(rng)
        } else {
            rng.below(2000) as i64
        };
        cases.extend([push(&r, at_ms, d), trend(&r)]);
        r = r.pushed(at_ms, d);
        if rng.below(30) == 0 {
            cases.push(clear(&r));
            (r.count, r.first) = (0, 0);
        }
    }
    cases
}
