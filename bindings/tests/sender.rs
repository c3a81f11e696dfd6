//! The lent sender's record, beside the commit's `SenderState`: histories, states near every boundary, and states that break the rule.
#![cfg(upstream)]

use oracle::proto::mmp::sender::oracle_access::{fields, state, Fields};
use oracle::script::rng::Rng;
use siwolkert::{Refusal, SenderReport, SenderState};

const MAX_MS: u64 = (1 << 48) - 1;
const MAX_FRAME: u64 = u32::MAX as u64;

/// Our record of the commit's fields.
fn lent(f: &Fields) -> SenderState {
    SenderState {
        cumulative_packets_sent: f.cumulative_packets_sent,
        cumulative_bytes_sent: f.cumulative_bytes_sent,
        interval_start_counter: f.interval_start_counter,
        interval_start_timestamp: f.interval_start_timestamp,
        interval_bytes_sent: f.interval_bytes_sent,
        last_counter: f.last_counter,
        last_timestamp: f.last_timestamp,
        interval_has_data: f.interval_has_data,
        has_last_report: f.last_report_ms.is_some(),
        last_report_ms: f.last_report_ms.unwrap_or(0),
        report_interval_ms: f.report_interval_ms,
        consecutive_send_failures: f.consecutive_send_failures,
        srtt_sample_count: f.srtt_sample_count,
    }
}

fn keeps(s: &SenderState) -> bool {
    (!s.has_last_report || s.last_report_ms <= MAX_MS) && s.report_interval_ms <= MAX_MS
}

/// A number near an end of its range, or anywhere.
fn near(rng: &mut Rng, most: u64) -> u64 {
    match rng.draw() % 5 {
        0 => rng.draw() % 3,
        1 => most.wrapping_sub(rng.draw() % 3),
        2 => most.wrapping_add(rng.draw() % 3),
        3 => rng.draw() % 10_000,
        _ => rng.draw() & most,
    }
}

fn drawn(rng: &mut Rng) -> Fields {
    Fields {
        cumulative_packets_sent: near(rng, u64::MAX),
        cumulative_bytes_sent: near(rng, u64::MAX),
        interval_start_counter: near(rng, u64::MAX),
        interval_start_timestamp: near(rng, u64::from(u32::MAX)) as u32,
        interval_bytes_sent: near(rng, u64::from(u32::MAX)) as u32,
        last_counter: near(rng, u64::MAX),
        last_timestamp: near(rng, u64::from(u32::MAX)) as u32,
        interval_has_data: rng.draw() % 2 == 0,
        last_report_ms: (rng.draw() % 3 > 0).then(|| near(rng, MAX_MS)),
        report_interval_ms: near(rng, MAX_MS),
        consecutive_send_failures: near(rng, u64::from(u32::MAX)) as u32,
        srtt_sample_count: near(rng, u64::from(u32::MAX)) as u32,
    }
}

/// `record_sent` on both, from one state: our answer and record beside the commit's, or the first question that is answered no.
fn same_sent(f: &Fields, counter: u64, timestamp: u32, bytes: u64) {
    let before = lent(f);
    let mut ours = before;
    let answer = ours.record_sent(counter, timestamp, bytes as usize);
    let fits = |count: u64, more| count.checked_add(more).is_some();
    let expected = if !keeps(&before) {
        Err(Refusal::State)
    } else if bytes > MAX_FRAME {
        Err(Refusal::FrameSize)
    } else if !(fits(f.cumulative_packets_sent, 1) && fits(f.cumulative_bytes_sent, bytes)) {
        Err(Refusal::Counter)
    } else {
        Ok(())
    };
    assert_eq!(answer, expected);
    assert_eq!(before.check(), if keeps(&before) { Ok(()) } else { Err(Refusal::State) });
    if expected.is_ok() {
        let mut theirs = state(f);
        theirs.record_sent(counter, timestamp, bytes as usize);
        assert_eq!(ours, lent(&fields(&theirs)));
    } else {
        assert_eq!(ours, before);
    }
}

fn same_report(f: &Fields, now_ms: u64) {
    let before = lent(f);
    let mut ours = before;
    let answer = ours.build_report(now_ms);
    if !keeps(&before) || now_ms > MAX_MS {
        let refusal = if keeps(&before) { Refusal::Clock } else { Refusal::State };
        assert_eq!((answer, ours), (Err(refusal), before));
        return;
    }
    let mut theirs = state(f);
    let expected = theirs.build_report(now_ms).map(|r| SenderReport {
        interval_start_counter: r.interval_start_counter,
        interval_end_counter: r.interval_end_counter,
        interval_start_timestamp: r.interval_start_timestamp,
        interval_end_timestamp: r.interval_end_timestamp,
        interval_bytes_sent: r.interval_bytes_sent,
        cumulative_packets_sent: r.cumulative_packets_sent,
        cumulative_bytes_sent: r.cumulative_bytes_sent,
    });
    assert_eq!((answer, ours), (Ok(expected), lent(&fields(&theirs))));
}

#[test]
fn a_new_record_is_the_commits() {
    assert_eq!(SenderState::new(), lent(&fields(&oracle::proto::mmp::sender::SenderState::new())));
}

#[test]
fn a_million_frames_and_reports() {
    let mut rng = Rng::new(4);
    for _ in 0..1_000_000 {
        let f = drawn(&mut rng);
        let bytes = near(&mut rng, MAX_FRAME);
        same_sent(&f, near(&mut rng, u64::MAX), rng.draw() as u32, bytes);
        same_report(&f, near(&mut rng, MAX_MS));
    }
}

#[test]
fn a_history() {
    let mut rng = Rng::new(5);
    let mut f = fields(&oracle::proto::mmp::sender::SenderState::new());
    for turn in 0..100_000 {
        let mut theirs = state(&f);
        if rng.draw() % 10 == 0 {
            same_report(&f, turn);
            theirs.build_report(turn);
        } else {
            let (timestamp, bytes) = (rng.draw() as u32, rng.draw() % 1500);
            same_sent(&f, turn, timestamp, bytes);
            theirs.record_sent(turn, timestamp, bytes as usize);
        }
        f = fields(&theirs);
    }
}
