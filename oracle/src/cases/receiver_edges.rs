//! Calls 501 to 519 at the boundaries: every clause of the rule and every question, from both sides.

use crate::cases::gaps::edges as tracker_edges;
use crate::cases::owd::{commits_widest, lawless, requested_sizes, ring_of, with_widest_buffers};
use crate::proto::mmp::receiver::oracle_access::{window, Fields};
use crate::proto::mmp::receiver::ReceiverState;
use crate::records::owd_ring::MAX_WINDOW;
use crate::records::receiver_call::{Call, Frame, PLAIN};
use crate::records::receiver_state::{Receiver, GRACE_MS, MAX_JITTER, SPAN_MS};
use crate::script::bounds::{about, CLOCKS, MAX_FRAME, MAX_MS, MAX_US};
use crate::script::case::{Case, Numbers};
use crate::script::rng::Rng;

fn of(s: &ReceiverState) -> Receiver {
    Receiver::of(s, ring_of(window(s).0))
}

/// A new state of the commit's with a window that is no wider than the greatest, and whether the commit's is wider.
fn clamped(s: &ReceiverState) -> (Receiver, bool) {
    let r = of(s);
    let wider = r.ring.capacity > MAX_WINDOW;
    let ring = ring_of(r.ring.capacity.min(MAX_WINDOW));
    (Receiver { ring, ..r }, wider)
}

pub fn new(owd_window_size: u64) -> Case {
    let (r, wider) = clamped(&ReceiverState::new(owd_window_size as usize));
    let answer = Numbers::of(&r.numbers());
    Case::new(Numbers::of(&[501, owd_window_size]), (answer, false)).as_requested(wider)
}

fn default() -> Case {
    let answer = Numbers::of(&of(&ReceiverState::default()).numbers());
    Case::new(Numbers::of(&[502]), (answer, false))
}

/// A refused constructor, given no state, answers the default one.
pub fn new_with_cold_start(owd_window_size: u64, cold_start_ms: u64) -> Case {
    let good = cold_start_ms <= MAX_MS;
    let s = if good {
        ReceiverState::new_with_cold_start(owd_window_size as usize, cold_start_ms)
    } else {
        ReceiverState::default()
    };
    let (r, wider) = clamped(&s);
    let answer = Numbers::of(&[if good { 0 } else { 2 }]).and(&r.numbers());
    Case::new(Numbers::of(&[503, owd_window_size, cold_start_ms]), (answer, !good)).as_requested(wider)
}

/// A frame to a plain state.
fn frame(counter: u64, timestamp: u32, now_ms: u64) -> Frame {
    Frame {
        counter,
        timestamp,
        bytes: 100,
        ce_flag: true,
        now_ms,
    }
}

fn all(r: &Receiver, cases: &mut Vec<Case>) {
    let now_ms = 7000;
    let f = frame(30, 900, now_ms);
    let mut calls = vec![Call::RecordFrame(f, true), Call::RecordFrame(f, false), Call::RecordRecv(f)];
    calls.extend([Call::Rekey(now_ms), Call::BuildReport(now_ms), Call::ShouldSend(now_ms)]);
    calls.extend([Call::FromSrtt(600_000), Call::WithBounds(600_000, 500, 10_000)]);
    calls.extend(PLAIN);
    cases.extend(calls.into_iter().map(|call| r.call(call).0));
}

/// A state in the middle of an interval, with a full window of four.
fn plain() -> Receiver {
    let mut r = of(&ReceiverState::new(4));
    r.fields = Fields {
        cumulative_packets_recv: 20,
        cumulative_bytes_recv: 5000,
        cumulative_reorder_count: 2,
        highest_counter: 25,
        interval_packets_recv: 6,
        interval_bytes_recv: 900,
        owd_ref: Some((4000, 300)),
        ecn_ce_count: 1,
        last_sender_timestamp: 800,
        last_recv_ms: Some(6500),
        rekey_jitter_grace_until_ms: None,
        last_report_ms: Some(5000),
        report_interval_ms: 1000,
        interval_has_data: true,
        srtt_sample_count: 3,
        jitter_q4: 1600,
        gap_tracker: tracker_edges()[2],
    };
    (r.ring.count, r.ring.first) = (4, 3);
    r.ring.times = vec![700, 800, 900, 600];
    r.ring.delays = vec![40, 10, -60, 20];
    r
}

/// States at both sides of each clause of the rule.
fn edges() -> Vec<Receiver> {
    let mut all = vec![plain()];
    let mut with = |change: &dyn Fn(&mut Receiver)| {
        let mut r = plain();
        change(&mut r);
        all.push(r);
    };
    for ms in [MAX_MS, MAX_MS + 1, u64::MAX] {
        with(&|r| r.fields.last_recv_ms = Some(ms));
        with(&|r| r.fields.last_report_ms = Some(ms));
        with(&|r| r.fields.owd_ref = Some((ms, 300)));
        with(&|r| r.fields.report_interval_ms = ms);
        with(&|r| r.fields.rekey_jitter_grace_until_ms = Some(ms));
    }
    for ms in [0, 6999, 7000, 7001, MAX_MS + GRACE_MS, MAX_MS + GRACE_MS + 1] {
        with(&|r| r.fields.rekey_jitter_grace_until_ms = Some(ms));
    }
    for jitter_q4 in [-1, 0, MAX_JITTER, MAX_JITTER + 1, i64::MIN, i64::MAX] {
        with(&|r| r.fields.jitter_q4 = jitter_q4);
    }
    for reorders in [19, 20, 21, u64::MAX] {
        with(&|r| r.fields.cumulative_reorder_count = reorders);
    }
    for t in tracker_edges() {
        with(&|r| r.fields.gap_tracker = t);
    }
    for ring in lawless() {
        with(&|r| r.ring = ring.clone());
    }
    with(&|r| (r.fields.last_recv_ms, r.fields.last_report_ms, r.fields.owd_ref) = (None, None, None));
    with(&|r| (r.ring.count, r.ring.first) = (0, 2));
    with(&|r| r.fields.interval_has_data = false);
    all
}

pub fn boundary_cases() -> Vec<Case> {
    let mut cases = vec![default()];
    for size in requested_sizes() {
        cases.extend([new(size), new_with_cold_start(size, 200)]);
    }
    for size in [0, 2, 32, MAX_WINDOW as u64, u64::MAX] {
        cases.extend([0, MAX_MS, MAX_MS + 1, u64::MAX].map(|ms| new_with_cold_start(size, ms)));
    }
    for r in edges() {
        all(&r, &mut cases);
    }
    about_questions(&mut cases);
    about_frames(&mut cases);
    about_order(&mut cases);
    about_lateness(&mut cases);
    cases
}

/// A state with a window of each size, from new: frames until the window is full, a report, frames until it wraps, a report. Of the frames the two at the turn
/// are cases.
pub fn each_size(rng: &mut Rng) -> Vec<Case> {
    let mut cases = vec![];
    for size in 2..=MAX_WINDOW {
        let mut r = of(&ReceiverState::new(size));
        let (mut counter, mut now_ms) = (0, 1000);
        let mut next = |r: &Receiver| {
            counter += 1;
            now_ms += 1 + rng.below(60) as u64;
            let timestamp = (now_ms - 1000 + rng.below(30) as u64) as u32;
            r.call(Call::RecordRecv(frame(counter, timestamp, now_ms)))
        };
        for _ in 1..size {
            r = next(&r).1;
        }
        let (filling, full) = next(&r);
        let (told, reported) = full.call(Call::BuildReport(70_000));
        let (dropping, mut r) = next(&reported);
        while r.ring.first < size / 2 {
            r = next(&r).1;
        }
        cases.extend([filling, told, dropping, r.call(Call::BuildReport(70_000)).0]);
    }
    cases
}

/// Both sides of each question.
fn about_questions(cases: &mut Vec<Case>) {
    let mut ask = |r: &Receiver, call| cases.push(r.call(call).0);
    let plain = plain();
    for ms in CLOCKS {
        let f = frame(30, 900, ms);
        for call in [
            Call::RecordFrame(f, false),
            Call::RecordRecv(f),
            Call::Rekey(ms),
            Call::BuildReport(ms),
        ] {
            ask(&plain, call);
        }
        ask(&plain, Call::ShouldSend(ms));
        for srtt_us in [-1, 0, 1, 4_000_000] {
            ask(&plain, Call::WithBounds(srtt_us, ms, MAX_MS));
            ask(&plain, Call::WithBounds(srtt_us, 0, ms));
            ask(&plain, Call::WithBounds(srtt_us, ms, 1000));
        }
    }
    for srtt_us in about(MAX_US) {
        for srtt_sample_count in [0, 4, 5, 6, u32::MAX] {
            let mut r = plain.clone();
            r.fields.srtt_sample_count = srtt_sample_count;
            ask(&r, Call::FromSrtt(srtt_us));
        }
        ask(&plain, Call::WithBounds(srtt_us, 3, 2));
        let mut r = plain.clone();
        for slot in 0..4 {
            r.ring.delays[slot] = srtt_us;
            r.ring.count = 2;
            ask(&r, Call::BuildReport(7000));
            r.fields.interval_has_data = false;
            ask(&r, Call::BuildReport(7000));
        }
    }
    let f = frame(30, 900, 7000);
    for ring in [commits_widest(), with_widest_buffers(MAX_WINDOW)] {
        let r = Receiver { ring, ..plain.clone() };
        ask(&r, Call::RecordRecv(f));
        ask(&r, Call::BuildReport(7000));
    }
    for (times, delays) in [(3, 4), (4, 3), (5, 5), (0, 0)] {
        let mut r = plain.clone();
        r.ring.times.resize(times, 1);
        r.ring.delays.resize(delays, MAX_US + 1);
        for call in [
            Call::RecordFrame(f, false),
            Call::RecordRecv(f),
            Call::BuildReport(7000),
            Call::Rekey(7000),
        ] {
            ask(&r, call);
        }
    }
    for bytes in [0, 1, MAX_FRAME, MAX_FRAME + 1, u64::MAX] {
        for received in [0, u64::MAX - bytes, (u64::MAX - bytes).saturating_add(1), u64::MAX] {
            for packets in [20, u64::MAX - 1, u64::MAX] {
                let mut r = plain.clone();
                r.fields.cumulative_bytes_recv = received;
                r.fields.cumulative_packets_recv = packets;
                r.fields.cumulative_reorder_count = packets;
                let f = Frame {
                    bytes,
                    ..frame(7, 900, 7000)
                };
                ask(&r, Call::RecordFrame(f, packets == 20));
            }
        }
    }
}

/// Frames at the ends: bursts, reorders, dwell, the age of the reference, its sign and the grace.
fn about_frames(cases: &mut Vec<Case>) {
    let mut ask = |r: &Receiver, call| cases.push(r.call(call).0);
    let plain = plain();
    for t in tracker_edges() {
        for counter in [0, 24, 25, 26, 99, 100, 101, 100 + 65_535, 100 + 65_536, 100 + 65_537, u64::MAX] {
            let mut r = plain.clone();
            r.fields.gap_tracker = t;
            ask(&r, Call::RecordRecv(frame(counter, 900, 7000)));
        }
    }
    for age in [0, 1, SPAN_MS - 1, SPAN_MS, SPAN_MS + 1] {
        for timestamp in [0, 299, 300, 301, 300 + i32::MAX as u32, 301 + i32::MAX as u32, u32::MAX] {
            ask(&plain, Call::RecordRecv(frame(26, timestamp, 4000 + age)));
        }
    }
    for now_ms in [0, 6499, 6500, 6500 + 65_535, 6500 + 65_536, MAX_MS] {
        let mut r = plain.clone();
        ask(&r, Call::BuildReport(now_ms));
        r.fields.cumulative_packets_recv = u64::MAX;
        r.fields.cumulative_reorder_count = u64::from(u32::MAX) + now_ms % 2;
        r.fields.last_recv_ms = None;
        ask(&r, Call::BuildReport(now_ms));
    }
    for now_ms in [4999, 5000, 5999, 6000, 6001] {
        ask(&plain, Call::ShouldSend(now_ms));
    }
    let mut first = plain.clone();
    first.fields.last_report_ms = None;
    ask(&first, Call::ShouldSend(0));
    let mut full = plain;
    (
        full.fields.interval_packets_recv,
        full.fields.interval_bytes_recv,
        full.fields.ecn_ce_count,
    ) = (u32::MAX, u32::MAX - 9, u32::MAX);
    ask(&full, Call::RecordRecv(frame(26, 900, 7000)));
}

/// Every set of questions answered no: the first of them refuses.
fn about_order(cases: &mut Vec<Case>) {
    for no in 0..32 {
        let asks = |bit: u32| no & (1 << bit) > 0;
        let mut r = plain();
        if asks(0) {
            r.fields.jitter_q4 = -1;
        }
        if asks(2) {
            r.ring.times.pop();
        }
        if asks(3) {
            r.ring.delays[0] = MAX_US + 1;
        }
        if asks(4) {
            r.fields.cumulative_packets_recv = u64::MAX;
        }
        let now_ms = if asks(1) { MAX_MS + 1 } else { 7000 };
        let f = Frame {
            bytes: if asks(3) { MAX_FRAME + 1 } else { 100 },
            ..frame(30, 900, now_ms)
        };
        let srtt_us = if asks(2) { MAX_US + 1 } else { 1000 };
        let min_ms = if asks(3) { now_ms + 1 } else { 500 };
        let calls = [
            Call::RecordRecv(f),
            Call::BuildReport(now_ms),
            Call::WithBounds(srtt_us, min_ms, now_ms),
        ];
        cases.extend(calls.map(|call| r.call(call).0));
    }
}

/// Document 02, W-203: frames about the one that is due, sampled or not, in grace or not; reports that are made and that are not; rekeys; and the accessor.
fn about_lateness(cases: &mut Vec<Case>) {
    let mut ask = |r: &Receiver, call| cases.push(r.call(call).0);
    let numbers = [0, 1, 5, 9, 65_537, u64::MAX];
    for lateness in numbers {
        let mut r = plain();
        r.lateness = lateness;
        for expected_next in [None, Some(0), Some(10), Some(65_537), Some(u64::MAX)] {
            r.fields.gap_tracker.expected_next = expected_next;
            let due = expected_next.unwrap_or(10);
            let counters = [
                0,
                due.saturating_sub(5),
                due.saturating_sub(1),
                due,
                due.saturating_add(3),
                u64::MAX - 1,
                u64::MAX,
            ];
            for counter in counters {
                ask(&r, Call::RecordFrame(frame(counter, 900, 7000), false));
                ask(&r, Call::RecordRecv(frame(counter, 900, 7000)));
            }
        }
        r.fields.rekey_jitter_grace_until_ms = Some(8000);
        r.fields.gap_tracker.expected_next = Some(10);
        ask(&r, Call::RecordRecv(frame(5, 900, 7000)));
        for interval_has_data in [true, false] {
            r.fields.interval_has_data = interval_has_data;
            ask(&r, Call::BuildReport(7000));
            ask(&r, Call::BuildReport(MAX_MS + 1));
        }
        for now_ms in [7000, MAX_MS + 1] {
            ask(&r, Call::Rekey(now_ms));
        }
        for srtt_us in [0, 600_000, MAX_US + 1] {
            ask(&r, Call::FromSrtt(srtt_us));
            ask(&r, Call::WithBounds(srtt_us, 500, 10_000));
        }
        ask(&r, Call::Lateness);
        ask(&r, Call::KeepsRule);
        r.fields.jitter_q4 = -1;
        ask(&r, Call::Lateness);
    }
}
