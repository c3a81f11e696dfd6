//! Calls 451 to 459 and 471 to 473: `GapTracker`.

use crate::proto::mmp::receiver::oracle_access::{finish_burst, new_tracker, observe, take_interval_stats, Tracker};
use crate::script::bounds::{asked, beside, first_no, maybe, optional};
use crate::script::case::{commit, Case, Numbers, LAST_GAP};
use crate::script::rng::{boundaries, Rng};

/// The greatest length of a burst.
const MAX_LEN: u64 = 65_535;

/// The bursts that have ended.
fn finished(t: &Tracker) -> u64 {
    u64::from(t.burst_count).saturating_sub(t.in_burst.into())
}

pub fn tracker_keeps(t: &Tracker) -> bool {
    (t.in_burst || t.current_burst_len == 0) && (!t.in_burst || t.burst_count >= 1) && t.total_burst_len <= MAX_LEN * finished(t)
}

pub fn tracker_numbers(t: &Tracker) -> [u64; 7] {
    let [there, expected] = optional(t.expected_next);
    [
        there,
        expected,
        t.in_burst.into(),
        t.current_burst_len.into(),
        t.burst_count.into(),
        t.max_burst_len.into(),
        t.total_burst_len,
    ]
}

/// Whether a frame of this counter begins a burst.
pub fn begins_burst(t: &Tracker, counter: u64) -> bool {
    !t.in_burst && t.expected_next.is_some_and(|expected| counter > expected)
}

/// The frames missing before this counter.
pub fn gap_before(t: &Tracker, counter: u64) -> u64 {
    t.expected_next.map_or(0, |expected| counter.saturating_sub(expected))
}

/// Where a frame of this counter stands, document 02, W-203: first, in sequence, a gap of n or behind by n, as its case and n. The commit's number is its own.
pub fn arrival(t: &Tracker, counter: u64) -> [u64; 2] {
    match t.expected_next {
        None => [0, 0],
        Some(expected) if counter == expected => [1, 0],
        Some(expected) if counter > expected => [2, counter - expected],
        Some(expected) => [3, expected - counter],
    }
}

/// How far behind a frame of this counter is, 0 where it is not.
pub fn behind_by(t: &Tracker, counter: u64) -> u64 {
    match arrival(t, counter) {
        [3, n] => n,
        _ => 0,
    }
}

/// The tracker that the commit leaves after a frame behind this gap. Past `LAST_GAP` its burst has the length of document 02, W-201, in place of the commit's;
/// every other number is the commit's, and what comes next goes on from here.
pub fn counted(gap: u64, commits: Tracker) -> Tracker {
    let current_burst_len = if gap > LAST_GAP { u16::MAX } else { commits.current_burst_len };
    Tracker {
        current_burst_len,
        ..commits
    }
}

fn on_tracker(call: u64, t: &Tracker, arguments: &[u64], answer: &[u64], outside: bool) -> Case {
    let line = Numbers::of(&[call]).and(&tracker_numbers(t)).and(arguments);
    Case::new(line, (Numbers::of(answer), outside))
}

fn new() -> Case {
    Case::new(Numbers::of(&[451]), (Numbers::of(&tracker_numbers(&new_tracker())), false))
}

/// Where a count or a sum is full the commit panics; the call itself asks nothing, and saturates.
pub fn observed(t: &Tracker, counter: u64) -> (Case, Tracker) {
    let answer = commit(|| observe(t, counter));
    let outside = answer.is_none();
    let (lost, after) = answer.unwrap_or_else(|| {
        let mut room = *t;
        room.burst_count = room.burst_count.min(u32::MAX - 1);
        room.total_burst_len = room.total_burst_len.min(u64::MAX - MAX_LEN);
        let (lost, mut after) = observe(&room, counter);
        if begins_burst(t, counter) {
            after.burst_count = t.burst_count.saturating_add(1);
        } else {
            after.burst_count = t.burst_count;
        }
        let len = if after.in_burst { 0 } else { t.current_burst_len };
        after.total_burst_len = t.total_burst_len.saturating_add(len.into());
        (lost, after)
    });
    let gap = gap_before(t, counter);
    let after = counted(gap, after);
    let numbers = [&[lost], &arrival(t, counter)[..], &tracker_numbers(&after)].concat();
    (on_tracker(452, t, &[counter], &numbers, outside).behind(gap), after)
}

/// The tracker after its burst ended. A full sum saturates, where the commit panics.
fn ended(t: &Tracker) -> (Tracker, bool) {
    commit(|| finish_burst(t)).map_or_else(
        || {
            let mut room = *t;
            room.total_burst_len = 0;
            let mut after = finish_burst(&room);
            after.total_burst_len = u64::MAX;
            (after, true)
        },
        |after| (after, false),
    )
}

pub fn finish(t: &Tracker) -> Case {
    let (after, outside) = ended(t);
    on_tracker(454, t, &[], &tracker_numbers(&after), outside)
}

fn stats(t: &Tracker) -> (Case, Tracker) {
    let (room, outside) = ended(t);
    let ((count, max, mean), after) = take_interval_stats(&room);
    let numbers = [&[count.into(), max.into(), mean.into()], &tracker_numbers(&after)[..]].concat();
    (on_tracker(453, t, &[], &numbers, outside), after)
}

/// After its questions: 1, and 10 of the bursts.
pub fn observe_asked(t: &Tracker, counter: u64) -> Case {
    let refusal = first_no(&[(1, tracker_keeps(t)), (10, room_for_burst(t, counter))]);
    // Where the count is full, the commit panics.
    assert!(refusal != 10 || commit(|| observe(t, counter)).is_none());
    let refused = [&[0; 3], &tracker_numbers(t)[..]].concat();
    let gap = if refusal == 0 { gap_before(t, counter) } else { 0 };
    let answer = asked(refusal, &refused, || {
        let (lost, after) = observe(t, counter);
        [&[lost], &arrival(t, counter)[..], &tracker_numbers(&counted(gap, after))].concat()
    });
    Case::new(Numbers::of(&[471]).and(&tracker_numbers(t)).and(&[counter]), answer).behind(gap)
}

/// A call that asks 1 alone.
fn by_rule(call: u64, t: &Tracker, zeros: usize, commit: impl FnOnce() -> Vec<u64>) -> Case {
    let refused = [&vec![0; zeros], &tracker_numbers(t)[..]].concat();
    let answer = asked(first_no(&[(1, tracker_keeps(t))]), &refused, commit);
    Case::new(Numbers::of(&[call]).and(&tracker_numbers(t)), answer)
}

pub fn stats_asked(t: &Tracker) -> Case {
    by_rule(472, t, 3, || {
        let ((count, max, mean), after) = take_interval_stats(t);
        [&[count.into(), max.into(), mean.into()], &tracker_numbers(&after)[..]].concat()
    })
}

pub fn finish_asked(t: &Tracker) -> Case {
    by_rule(473, t, 0, || tracker_numbers(&finish_burst(t)).to_vec())
}

fn keeps_rule(t: &Tracker) -> Case {
    on_tracker(455, t, &[], &[tracker_keeps(t).into()], true)
}

/// Whether the commit counts a burst more, or panics since it can't.
fn begins(t: &Tracker, counter: u64) -> Case {
    let counted = commit(|| observe(t, counter)).map(|(_, after)| after.burst_count != t.burst_count);
    let yes = counted.unwrap_or(begins_burst(t, counter));
    on_tracker(456, t, &[counter], &[yes.into()], counted.is_none())
}

/// Whether the count can hold the burst that this frame begins, if it begins one.
fn room_for_burst(t: &Tracker, counter: u64) -> bool {
    !begins_burst(t, counter) || t.burst_count < u32::MAX
}

fn bursts_ok(t: &Tracker, counter: u64) -> Case {
    on_tracker(457, t, &[counter], &[room_for_burst(t, counter).into()], true)
}

/// The mean that the commit takes of so many bursts, by floats.
fn mean_burst(total: u64, count: u32) -> Case {
    let t = Tracker {
        burst_count: count,
        total_burst_len: total,
        ..Tracker::default()
    };
    let ((_, _, mean), _) = take_interval_stats(&t);
    Case::new(Numbers::of(&[458, total, count.into()]), (Numbers::of(&[mean.into()]), false))
}

/// The number that the commit's `observe` answers where a frame comes so.
fn lost_before(case: u64, n: u64) -> Case {
    let (expected_next, counter) = match case {
        0 => (None, 7),
        1 => (Some(7), 7),
        2 => (Some(0), n),
        _ => (Some(n), 0),
    };
    let t = Tracker {
        expected_next,
        ..Tracker::default()
    };
    let (lost, _) = observe(&t, counter);
    Case::new(Numbers::of(&[459, case, n]), (Numbers::of(&[lost]), false))
}

fn all(t: &Tracker, counter: u64) -> [Case; 9] {
    [
        observed(t, counter).0,
        stats(t).0,
        finish(t),
        observe_asked(t, counter),
        stats_asked(t),
        finish_asked(t),
        keeps_rule(t),
        begins(t, counter),
        bursts_ok(t, counter),
    ]
}

/// Lawful trackers at the ends, and beside each clause of the rule.
pub fn edges() -> Vec<Tracker> {
    let of = |in_burst, current_burst_len, burst_count, max_burst_len, total_burst_len| Tracker {
        expected_next: Some(100),
        in_burst,
        current_burst_len,
        burst_count,
        max_burst_len,
        total_burst_len,
    };
    let most = u64::from(u32::MAX);
    vec![
        of(false, 0, 0, 0, 0),
        of(false, 1, 0, 0, 0),
        of(true, 0, 1, 0, 0),
        of(true, 0, 0, 0, 0),
        of(true, 65_535, 1, 7, 0),
        of(true, 3, 1, 0, 1),
        of(true, 1, 1, 0, 0),
        of(false, 0, 1, 65_535, MAX_LEN),
        of(false, 0, 1, 65_535, MAX_LEN + 1),
        of(true, 65_534, 3, 9, 2 * MAX_LEN),
        of(true, 65_534, 3, 9, 2 * MAX_LEN + 1),
        of(false, 0, u32::MAX, 4, MAX_LEN * most),
        of(true, 5, u32::MAX, 4, MAX_LEN * (most - 1)),
        of(true, 5, u32::MAX, 4, u64::MAX),
        of(false, 0, u32::MAX - 1, 4, 4),
        of(false, 0, 1 << 20, 900, (255 << 20) + 1),
    ]
}

pub fn boundary_cases() -> Vec<Case> {
    let mut cases = vec![new()];
    for t in edges() {
        for counter in [0, 99, 100, 101, u64::MAX] {
            cases.extend(all(&t, counter));
        }
        for gap in [65_533, 65_534, 65_535, 65_536, 65_537, 131_072] {
            cases.extend(all(&t, 100 + gap));
        }
        for expected_next in [None, Some(0), Some(u64::MAX), Some(u64::MAX - 1)] {
            for counter in [0, 1, u64::MAX - 1, u64::MAX] {
                cases.extend(all(&Tracker { expected_next, ..t }, counter));
            }
        }
    }
    for count in [0, 1, 2, 3, 255, 256, 257, u32::MAX] {
        for total in [0, 1, 2, 255, 256, 257, 65_535, 65_536, u64::from(count) * 256, u64::MAX] {
            cases.extend([mean_burst(total, count), mean_burst(total.saturating_sub(1), count)]);
        }
    }
    cases.extend([lost_before(0, 0), lost_before(1, 0)]);
    for n in boundaries(8) {
        cases.extend([lost_before(2, n), lost_before(3, n)]);
    }
    cases
}

/// A lawful tracker.
pub fn any_tracker(rng: &mut Rng) -> Tracker {
    let in_burst = rng.below(2) == 0;
    let burst_count = match rng.below(3) {
        0 => rng.below(6) as u32,
        1 => u32::MAX - rng.below(2) as u32,
        _ => rng.number(4) as u32,
    }
    .max(in_burst.into());
    let mut t = Tracker {
        expected_next: maybe(rng, |rng| rng.number(8)),
        in_burst,
        current_burst_len: if in_burst { rng.number(2) as u16 } else { 0 },
        burst_count,
        max_burst_len: rng.number(2) as u16,
        total_burst_len: 0,
    };
    let most = MAX_LEN * finished(&t);
    t.total_burst_len = match rng.below(4) {
        0 => most - rng.below(2).min(most as usize) as u64,
        1 => (256 * finished(&t)).saturating_sub(rng.below(2) as u64).min(most),
        _ => rng.draw() % (most + 1),
    };
    t
}

/// A counter: mostly about the expected one.
pub fn counter_for(rng: &mut Rng, t: &Tracker) -> u64 {
    let due = t.expected_next.unwrap_or(7);
    match rng.below(7) {
        0 => rng.number(8),
        1 => due.saturating_add(rng.number(3)),
        2 => due.saturating_sub(rng.below(9) as u64),
        3 => due.saturating_add(65_536 * rng.below(3) as u64 + rng.below(3) as u64),
        4 => due.saturating_add(65_532 + rng.below(8) as u64),
        _ => beside(rng, due),
    }
}

pub fn random_case(rng: &mut Rng, call: u64) -> Case {
    let mut t = any_tracker(rng);
    if rng.below(4) == 0 {
        spoil(rng, &mut t);
    }
    let counter = counter_for(rng, &t);
    match call {
        452 => observed(&t, counter).0,
        453 => stats(&t).0,
        454 => finish(&t),
        455 => keeps_rule(&t),
        456 => begins(&t, counter),
        457 => bursts_ok(&t, counter),
        471 => observe_asked(&t, counter),
        472 => stats_asked(&t),
        473 => finish_asked(&t),
        459 => match rng.below(6) {
            0 => lost_before(0, 0),
            1 => lost_before(1, 0),
            case => lost_before(2 + case as u64 % 2, counter),
        },
        _ => mean_burst(about_whole_mean(rng, t.burst_count, t.total_burst_len), t.burst_count),
    }
}

/// Breaks a clause of the rule, or not quite; or a tracker of any numbers.
pub fn spoil(rng: &mut Rng, t: &mut Tracker) {
    match rng.below(4) {
        0 => t.total_burst_len = beside(rng, MAX_LEN * finished(t)),
        1 => (t.in_burst, t.current_burst_len, t.burst_count) = (true, rng.number(2) as u16, rng.below(2) as u32),
        2 => (t.in_burst, t.current_burst_len) = (false, rng.below(2) as u16),
        _ => {
            t.total_burst_len = rng.number(8);
            t.burst_count = rng.number(4) as u32;
            t.current_burst_len = rng.number(2) as u16;
        }
    }
}

/// A total whose mean is about a whole number of 256ths, up to and past the greatest; or the one given.
fn about_whole_mean(rng: &mut Rng, count: u32, total: u64) -> u64 {
    let mean = match rng.below(3) {
        0 => 65_534 + rng.below(3) as u64,
        1 => rng.below(70_000) as u64,
        _ => return total,
    };
    beside(rng, (mean * u64::from(count)).div_ceil(256))
}

/// Frames, each on what the last one left, and seldom an interval's end.
pub fn history(rng: &mut Rng) -> Vec<Case> {
    let mut t = new_tracker();
    let mut cases = vec![];
    for _ in 0..rng.below(40) {
        let (case, after) = if rng.below(10) == 0 {
            stats(&t)
        } else {
            let counter = counter_for(rng, &t);
            observed(&t, counter)
        };
        cases.push(case);
        t = after;
    }
    cases
}
