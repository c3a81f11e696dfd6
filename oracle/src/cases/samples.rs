//! Calls 461 to 467: the sampling half of a frame. The commit has it in one piece, so each part is seen in what a frame leaves behind.

use std::collections::VecDeque;

use crate::cases::owd::{any_ring, lawless, ring_of, spoilt};
use crate::proto::mmp::algorithms::oracle_access::owd;
use crate::proto::mmp::receiver::oracle_access::{fields, sample, sample_owd, state, window, Fields};
use crate::records::owd_ring::{delay_ok, Ring};
use crate::records::receiver_state::{reference, MAX_JITTER, SPAN_MS};
use crate::script::bounds::{about_last_clock, asked, beside, clock, first_no, maybe, near, optional, CLOCKS, MAX_MS};
use crate::script::case::{commit, Case, Numbers};
use crate::script::rng::Rng;

/// What a frame leaves behind of these fields, with an empty window.
fn sampled(f: Fields, timestamp: u32, now_ms: u64) -> Option<Fields> {
    commit(|| {
        let mut s = state(&f, owd(2, VecDeque::new()));
        sample(&mut s, timestamp, now_ms);
        fields(&s)
    })
}

/// A frame clears a grace that is over.
fn in_grace(deadline_ms: Option<u64>, now_ms: u64) -> Case {
    let f = Fields {
        rekey_jitter_grace_until_ms: deadline_ms,
        ..Fields::default()
    };
    let after = sampled(f, 0, now_ms).expect("a first frame fits");
    let yes = after.rekey_jitter_grace_until_ms.is_some();
    let line = Numbers::of(&[461]).and(&optional(deadline_ms)).and(&[now_ms]);
    Case::new(line, (Numbers::of(&[yes.into()]), false))
}

/// The jitter after a frame. Where the commit's difference does not fit 64 bits, D is reduced before it is scaled; a jitter below 0 counts as 0.
pub fn jitter_after(jitter_q4: i64, last_recv_ms: Option<u64>, last: u32, timestamp: u32, now_ms: u64) -> Case {
    let lifted = if last_recv_ms.is_some() { jitter_q4.max(0) } else { jitter_q4 };
    let of = |last_recv_ms: Option<u64>, now_ms| {
        let f = Fields {
            jitter_q4: lifted,
            last_recv_ms,
            last_sender_timestamp: last,
            ..Fields::default()
        };
        sampled(f, timestamp, now_ms)
    };
    let direct = of(last_recv_ms, now_ms);
    let outside = direct.is_none() || lifted != jitter_q4;
    let after = direct.unwrap_or_else(|| {
        let step = last_recv_ms.map_or(0, |ms| now_ms.saturating_sub(ms)) % (1 << 32);
        of(Some(0), step).expect("a step below 2^32 fits")
    });
    let line = Numbers::of(&[462, jitter_q4 as u64]).and(&optional(last_recv_ms));
    let line = line.and(&[last.into(), timestamp.into(), now_ms]);
    Case::new(line, (Numbers::of(&[after.jitter_q4 as u64]), outside))
}

fn reference_ok(owd_ref: Option<(u64, u32)>) -> Case {
    let yes = owd_ref.is_none_or(|(recv_ms, _)| recv_ms <= MAX_MS);
    Case::new(Numbers::of(&[463]).and(&reference(owd_ref)), (Numbers::of(&[yes.into()]), true))
}

/// The reference that a frame leaves is the one that its sample was measured from.
fn base_of(owd_ref: Option<(u64, u32)>, now_ms: u64, timestamp: u32) -> Case {
    let f = Fields {
        owd_ref,
        ..Fields::default()
    };
    let after = sampled(f, timestamp, now_ms).expect("a first frame fits");
    let (recv_ms, sender_timestamp) = after.owd_ref.expect("a frame leaves a reference");
    let line = Numbers::of(&[464]).and(&reference(owd_ref)).and(&[now_ms, timestamp.into()]);
    Case::new(line, (Numbers::of(&[recv_ms, sender_timestamp.into()]), false))
}

/// The echo of the report that is built now.
fn echo_of(last_recv_ms: Option<u64>, timestamp: u32, now_ms: u64) -> Case {
    let f = Fields {
        last_recv_ms,
        last_sender_timestamp: timestamp,
        interval_has_data: true,
        ..Fields::default()
    };
    let mut s = state(&f, owd(2, VecDeque::new()));
    let report = s.build_report(now_ms).expect("there is data");
    let line = Numbers::of(&[465]).and(&optional(last_recv_ms)).and(&[timestamp.into(), now_ms]);
    let answer = Numbers::of(&[report.timestamp_echo.into(), report.dwell_time.into()]);
    Case::new(line, (answer, false))
}

/// A lawful window with its buffers after a sample of the commit, and the reference after it.
fn sampled_by_commit(r: &Ring, owd_ref: Option<(u64, u32)>, timestamp: u32, now_ms: u64) -> (Ring, Option<(u64, u32)>) {
    let f = Fields {
        owd_ref,
        ..Fields::default()
    };
    let mut s = state(&f, r.commit());
    sample_owd(&mut s, timestamp, now_ms);
    let (capacity, pairs) = window(&s);
    let after = windowed(r, owd_ref, now_ms).placed(*pairs.back().expect("a sample was pushed"));
    assert!(
        (capacity, pairs) == (after.capacity, after.live()),
        "the commit's window is the ring's"
    );
    (after, fields(&s).owd_ref)
}

/// The window that a sample is pushed to: cleared where the reference restarts.
fn windowed(r: &Ring, owd_ref: Option<(u64, u32)>, now_ms: u64) -> Ring {
    let mut window = r.clone();
    if owd_ref.is_some_and(|(recv_ms, _)| now_ms.saturating_sub(recv_ms) >= SPAN_MS) {
        (window.count, window.first) = (0, 0);
    }
    window
}

/// The pair of a sample, as the commit pushes it to an empty window.
fn pair_of(owd_ref: Option<(u64, u32)>, timestamp: u32, now_ms: u64) -> (u32, i64) {
    let (after, _) = sampled_by_commit(&ring_of(2), owd_ref, timestamp, now_ms);
    (after.times[0], after.delays[0])
}

fn on_window(call: u64, r: &Ring, owd_ref: Option<(u64, u32)>, timestamp: u32, now_ms: u64) -> Numbers {
    let line = Numbers::of(&[call]).and(&r.state()).and(&reference(owd_ref));
    line.and(&[timestamp.into(), now_ms]).and(&r.windows())
}

/// A sample pushed to a window, the commit's where that keeps its rule and has its buffers; else the sample's pair is placed as `push_unchecked` places it.
fn sample_unchecked(r: &Ring, owd_ref: Option<(u64, u32)>, timestamp: u32, now_ms: u64) -> Case {
    let outside = !(r.keeps() && r.windows_ok());
    let after = if outside {
        windowed(r, owd_ref, now_ms).placed(pair_of(owd_ref, timestamp, now_ms))
    } else {
        sampled_by_commit(r, owd_ref, timestamp, now_ms).0
    };
    let answer = Numbers::of(&after.state()).and(&after.windows());
    Case::new(on_window(466, r, owd_ref, timestamp, now_ms), (answer, outside))
}

/// The same after its questions: 1 of the window and the reference, 2, 4, and 5, by which no sample is refused.
fn sample_asked(r: &Ring, owd_ref: Option<(u64, u32)>, timestamp: u32, now_ms: u64) -> Case {
    let rule = r.keeps() && owd_ref.is_none_or(|(recv_ms, _)| recv_ms <= MAX_MS);
    let (_, owd_us) = pair_of(owd_ref, timestamp, now_ms);
    let refusal = first_no(&[(1, rule), (2, now_ms <= MAX_MS), (4, r.windows_ok()), (5, delay_ok(owd_us))]);
    let whole = |ring: &Ring, owd_ref| [&ring.state(), &reference(owd_ref)[..], &ring.windows()].concat();
    let answer = asked(refusal, &whole(r, owd_ref), || {
        let (after, owd_ref) = sampled_by_commit(r, owd_ref, timestamp, now_ms);
        whole(&after, owd_ref)
    });
    Case::new(on_window(467, r, owd_ref, timestamp, now_ms), answer)
}

fn sample_into(r: &Ring, owd_ref: Option<(u64, u32)>, timestamp: u32, now_ms: u64) -> [Case; 2] {
    [
        sample_unchecked(r, owd_ref, timestamp, now_ms),
        sample_asked(r, owd_ref, timestamp, now_ms),
    ]
}

/// Timestamps at the ends of the word and of its sign.
const STAMPS: [u32; 7] = [0, 1, 1000, i32::MAX as u32, 1 << 31, (1 << 31) + 1, u32::MAX];

pub fn boundary_cases(rng: &mut Rng) -> Vec<Case> {
    let mut cases = vec![];
    let mut times = CLOCKS.to_vec();
    times.extend([1 << 30, (1 << 30) - 1, (1 << 30) + 1, 65_535, 65_536, 1 << 32, 1 << 63]);
    for now_ms in times.iter().copied() {
        cases.extend([in_grace(None, now_ms), echo_of(None, 7, now_ms), base_of(None, now_ms, 7)]);
        for at in times.iter().copied() {
            cases.extend([in_grace(Some(at), now_ms), echo_of(Some(at), 7, now_ms)]);
            cases.extend([base_of(Some((at, 9)), now_ms, 7), reference_ok(Some((at, 9)))]);
            cases.push(jitter_after(160, Some(at), 5, 7, now_ms));
        }
    }
    cases.push(reference_ok(None));
    for timestamp in STAMPS {
        for last in STAMPS {
            cases.push(jitter_after(16, Some(1000), last, timestamp, 1500));
            for r in [any_ring(rng), any_ring(rng)] {
                cases.extend(sample_into(&r, Some((1000, last)), timestamp, 1500));
                cases.extend(sample_into(&r, Some((1000, last)), timestamp, 1000 + SPAN_MS - 1));
            }
        }
    }
    for jitter_q4 in [-1, 0, 1, 15, 16, MAX_JITTER - 1, MAX_JITTER, MAX_JITTER + 1, i64::MAX, i64::MIN] {
        cases.push(jitter_after(jitter_q4, None, 5, 7, 9));
        cases.extend([0, 2_147_483].map(|ms| jitter_after(jitter_q4, Some(0), 5, 5, ms)));
    }
    let mut short = any_ring(rng);
    short.times.pop();
    let mut long = any_ring(rng);
    long.delays.push(1);
    for r in lawless().into_iter().chain([short, long, any_ring(rng)]) {
        for now_ms in [0, SPAN_MS, MAX_MS, MAX_MS + 1] {
            cases.extend(sample_into(&r, Some((0, 0)), 1, now_ms));
        }
        cases.extend(sample_into(&r, None, 1, 7));
        cases.extend([MAX_MS, MAX_MS + 1].map(|recv_ms| sample_asked(&r, Some((recv_ms, 0)), 1, 7)));
    }
    cases
}

pub fn random_case(rng: &mut Rng, call: u64) -> Case {
    let timestamp = rng.number(4) as u32;
    let last = match rng.below(3) {
        0 => timestamp.wrapping_add(1 << 31).wrapping_add(rng.below(3) as u32),
        1 => timestamp.wrapping_sub(rng.below(1000) as u32),
        _ => rng.number(4) as u32,
    };
    let at = maybe(rng, clock);
    let now_ms = match (at, rng.below(6)) {
        (Some(ms), 0) => beside(rng, ms),
        (Some(ms), 1) => beside(rng, ms.saturating_add(SPAN_MS)),
        (Some(ms), 2) => beside(rng, ms.saturating_add(65_535)),
        (Some(ms), 3) => ms.saturating_add(rng.below(5000) as u64),
        (Some(ms), 4) => ms.saturating_add(beside(rng, 2_147_483) * rng.below(4) as u64),
        _ => clock(rng),
    };
    let owd_ref = at.map(|ms| (ms, last));
    match call {
        461 => in_grace(at, now_ms),
        462 => jitter_after(near(rng, MAX_JITTER), at, last, timestamp, now_ms),
        463 if rng.below(2) == 0 => reference_ok(Some((about_last_clock(rng), last))),
        463 => reference_ok(owd_ref),
        464 => base_of(owd_ref, now_ms, timestamp),
        465 => echo_of(at, timestamp, now_ms),
        _ => {
            let ring = if rng.below(8) == 0 { spoilt(rng) } else { any_ring(rng) };
            let into = if call == 466 { sample_unchecked } else { sample_asked };
            into(&ring, owd_ref, timestamp, now_ms)
        }
    }
}
