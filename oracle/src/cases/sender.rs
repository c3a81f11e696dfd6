//! Calls 401 to 417: `SenderState`.

use crate::proto::mmp::sender::oracle_access::{state, Fields};
use crate::proto::mmp::sender::SenderState;
use crate::records::sender_state::{Call, Sender, PLAIN};
use crate::script::bounds::{
    about, about_last_clock, any_bounds, beside, clock, clock_within, maybe, smoothed, CLOCKS, MAX_FRAME, MAX_MS, MAX_US,
};
use crate::script::case::{Case, Numbers};
use crate::script::rng::Rng;

fn new(call: u64) -> Case {
    let s = if call == 401 { SenderState::new() } else { SenderState::default() };
    Case::new(Numbers::of(&[call]), (Numbers::of(&Sender::of(&s).numbers()), false))
}

/// A refused constructor, given no state, answers the default one.
pub fn new_with_cold_start(cold_start_ms: u64) -> Case {
    let good = cold_start_ms <= MAX_MS;
    let s = if good {
        SenderState::new_with_cold_start(cold_start_ms)
    } else {
        SenderState::default()
    };
    let answer = Numbers::of(&[if good { 0 } else { 2 }]).and(&Sender::of(&s).numbers());
    Case::new(Numbers::of(&[403, cold_start_ms]), (answer, !good))
}

/// The commit's multiplier of a state with so many failures, which is whole.
fn backoff_of(failures: u32) -> Case {
    let fields = Fields {
        consecutive_send_failures: failures,
        ..Fields::default()
    };
    let times = state(&fields).send_failure_backoff_multiplier() as u64;
    Case::new(Numbers::of(&[417, failures.into()]), (Numbers::of(&[times]), false))
}

fn all(s: &Sender, cases: &mut Vec<Case>) {
    let now_ms = 7000;
    let frame = Call::RecordSent {
        counter: 8,
        timestamp: 9,
        bytes: 100,
    };
    let mut calls = vec![frame, Call::BuildReport(now_ms), Call::ShouldSend(now_ms)];
    calls.extend([Call::FromSrtt(600_000), Call::WithBounds(600_000, 500, 10_000)]);
    calls.extend(PLAIN);
    cases.extend(calls.into_iter().map(|call| s.call(call).0));
}

/// A state in the middle of an interval.
fn plain() -> Sender {
    Sender {
        fields: Fields {
            cumulative_packets_sent: 12,
            cumulative_bytes_sent: 3400,
            interval_start_counter: 5,
            interval_start_timestamp: 600,
            interval_bytes_sent: 700,
            last_counter: 11,
            last_timestamp: 800,
            interval_has_data: true,
            last_report_ms: Some(5000),
            report_interval_ms: 1000,
            consecutive_send_failures: 1,
            srtt_sample_count: 3,
        },
        no_report_ms: 0,
    }
}

/// States at both sides of each clause of the rule.
fn edges() -> Vec<Sender> {
    let mut all = vec![Sender::default(), plain()];
    for ms in CLOCKS {
        let mut s = plain();
        s.fields.last_report_ms = Some(ms);
        all.push(s);
        s.fields.last_report_ms = None;
        s.no_report_ms = ms;
        all.push(s);
        s = plain();
        s.fields.report_interval_ms = ms;
        all.push(s);
    }
    all
}

pub fn boundary_cases() -> Vec<Case> {
    let mut cases = vec![new(401), new(402)];
    cases.extend(CLOCKS.map(new_with_cold_start));
    cases.extend([0, 1, 4, 5, 6, 31, 32, 64, u32::MAX].map(backoff_of));
    for s in edges() {
        all(&s, &mut cases);
    }
    about_questions(&mut cases);
    about_intervals(&mut cases);
    about_order(&mut cases);
    about_dues(&mut cases);
    cases
}

/// Both sides of each question.
fn about_questions(cases: &mut Vec<Case>) {
    let mut ask = |s: Sender, call| cases.push(s.call(call).0);
    for ms in CLOCKS {
        ask(plain(), Call::BuildReport(ms));
        ask(plain(), Call::ShouldSend(ms));
        for srtt_us in [-1, 0, 1, 4_000_000] {
            ask(plain(), Call::WithBounds(srtt_us, ms, MAX_MS));
            ask(plain(), Call::WithBounds(srtt_us, 0, ms));
            ask(plain(), Call::WithBounds(srtt_us, ms, 1000));
        }
    }
    for srtt_us in about(MAX_US) {
        for srtt_sample_count in [0, 4, 5, 6, u32::MAX] {
            let mut s = plain();
            s.fields.srtt_sample_count = srtt_sample_count;
            ask(s, Call::FromSrtt(srtt_us));
        }
        ask(plain(), Call::WithBounds(srtt_us, 3, 2));
        ask(plain(), Call::WithBounds(srtt_us, 2, MAX_MS + 1));
    }
    for bytes in [0, 1, MAX_FRAME - 1, MAX_FRAME, MAX_FRAME + 1, u64::MAX] {
        for sent in [0, u64::MAX - bytes, (u64::MAX - bytes).saturating_add(1), u64::MAX] {
            for packets in [0, u64::MAX - 1, u64::MAX] {
                let mut s = plain();
                s.fields.cumulative_bytes_sent = sent;
                s.fields.cumulative_packets_sent = packets;
                s.fields.interval_bytes_sent = u32::MAX - 1;
                s.fields.interval_has_data = packets == 0;
                ask(
                    s,
                    Call::RecordSent {
                        counter: u64::MAX,
                        timestamp: u32::MAX,
                        bytes,
                    },
                );
            }
        }
    }
}

/// Frames where the interval's bytes are full, and where it has none.
fn about_intervals(cases: &mut Vec<Case>) {
    for interval_bytes_sent in [0, u32::MAX - 100, u32::MAX - 99, u32::MAX] {
        for interval_has_data in [false, true] {
            let mut s = plain();
            s.fields.interval_bytes_sent = interval_bytes_sent;
            s.fields.interval_has_data = interval_has_data;
            all(&s, cases);
        }
    }
}

/// Every set of questions answered no: the first of them refuses.
fn about_order(cases: &mut Vec<Case>) {
    for no in 0..16 {
        let asks = |bit: u32| no & (1 << bit) > 0;
        let mut s = plain();
        if asks(0) {
            s.fields.report_interval_ms = MAX_MS + 1;
        }
        if asks(1) {
            s.fields.cumulative_packets_sent = u64::MAX;
        }
        let frame = Call::RecordSent {
            counter: 12,
            timestamp: 900,
            bytes: if asks(2) { MAX_FRAME + 1 } else { 100 },
        };
        let srtt_us = if asks(1) { MAX_US + 1 } else { 1000 };
        let max_ms = if asks(2) { MAX_MS + 1 } else { 7000 };
        let min_ms = if asks(3) { max_ms + 1 } else { 500 };
        cases.extend([frame, Call::WithBounds(srtt_us, min_ms, max_ms)].map(|call| s.call(call).0));
    }
}

/// Reports just due and just not, after each number of failures.
fn about_dues(cases: &mut Vec<Case>) {
    for failures in [0, 1, 2, 3, 4, 5, 6, 7, u32::MAX - 1, u32::MAX] {
        for report_interval_ms in [0, 1, 200, MAX_MS] {
            let mut s = plain();
            s.fields.consecutive_send_failures = failures;
            s.fields.report_interval_ms = report_interval_ms;
            let due = 5000 + report_interval_ms * 2u64.pow(failures.min(5));
            for now_ms in [0, 4999, due - 1, due, due + 1] {
                cases.push(s.call(Call::ShouldSend(now_ms)).0);
            }
            cases.extend([Call::Failure, Call::Success, Call::Multiplier].map(|call| s.call(call).0));
            s.fields.last_report_ms = None;
            for no_report_ms in [0, u64::MAX] {
                s.no_report_ms = no_report_ms;
                cases.push(s.call(Call::ShouldSend(0)).0);
            }
        }
    }
}

/// Mostly a few.
pub fn few(rng: &mut Rng) -> u32 {
    match rng.below(3) {
        0 => rng.number(4) as u32,
        _ => rng.below(8) as u32,
    }
}

/// A lawful state.
fn any_sender(rng: &mut Rng) -> Sender {
    let mut wide = || match rng.below(4) {
        0 => u64::MAX - rng.below(3) as u64,
        _ => rng.number(8),
    };
    let mut fields = Fields {
        cumulative_packets_sent: wide(),
        cumulative_bytes_sent: wide(),
        interval_start_counter: wide(),
        last_counter: wide(),
        ..Fields::default()
    };
    fields.interval_start_timestamp = rng.number(4) as u32;
    fields.interval_bytes_sent = rng.number(4) as u32;
    fields.last_timestamp = rng.number(4) as u32;
    fields.interval_has_data = rng.below(3) > 0;
    fields.last_report_ms = maybe(rng, clock_within);
    fields.report_interval_ms = if rng.below(2) == 0 {
        clock_within(rng)
    } else {
        rng.below(9000) as u64
    };
    fields.consecutive_send_failures = match rng.below(12) {
        0 => u32::MAX - rng.below(2) as u32,
        _ => few(rng),
    };
    fields.srtt_sample_count = few(rng);
    let no_report_ms = if rng.below(2) == 0 { 0 } else { rng.number(8) };
    Sender { fields, no_report_ms }
}

/// Breaks one clause of the rule, or not quite.
fn spoil(rng: &mut Rng, s: &mut Sender) {
    match rng.below(2) {
        0 => s.fields.last_report_ms = Some(about_last_clock(rng)),
        _ => s.fields.report_interval_ms = about_last_clock(rng),
    }
}

/// A clock about the time that the next report is due.
pub fn due(rng: &mut Rng, s: &Sender) -> u64 {
    let times = 1 << s.fields.consecutive_send_failures.min(5);
    let at = s
        .fields
        .last_report_ms
        .unwrap_or(0)
        .saturating_add(s.fields.report_interval_ms.saturating_mul(times));
    match rng.below(3) {
        0 => clock(rng),
        _ => beside(rng, at),
    }
}

pub fn random_case(rng: &mut Rng, number: u64) -> Case {
    match number {
        403 => return new_with_cold_start(clock(rng)),
        417 => return backoff_of(few(rng)),
        _ => {}
    }
    let mut s = any_sender(rng);
    if rng.below(8) == 0 {
        spoil(rng, &mut s);
    }
    let call = match number {
        404 => {
            let room = u64::MAX - s.fields.cumulative_bytes_sent;
            Call::RecordSent {
                counter: rng.number(8),
                timestamp: rng.number(4) as u32,
                bytes: match rng.below(4) {
                    0 => beside(rng, room),
                    1 => beside(rng, MAX_FRAME),
                    _ => rng.below(1500) as u64,
                },
            }
        }
        405 => Call::BuildReport(clock(rng)),
        406 => Call::ShouldSend(due(rng, &s)),
        410 => Call::FromSrtt(smoothed(rng)),
        411 => {
            let (min_ms, max_ms) = any_bounds(rng);
            Call::WithBounds(smoothed(rng), min_ms, max_ms)
        }
        _ => *PLAIN.iter().find(|call| call.number() == number).expect("a call of the sender"),
    };
    s.call(call).0
}
