//! What needs no source of upstream: each refusal by its number, and the memory that a refused call was lent, which stays as it was.

use siwolkert::raw::*;
use siwolkert::{check_receiver_payload, check_sender_payload, MessageTooShort, Refusal, SenderReport, SenderState};

const MAX_MS: u64 = (1 << 48) - 1;

#[test]
fn each_number_has_a_refusal() {
    for status in 0..=u8::MAX {
        let number = Refusal::of(status).map(Refusal::number);
        assert_eq!(number, (1..=11).contains(&status).then_some(status));
    }
}

#[test]
fn a_new_record_keeps_its_rule() {
    let new = SenderState::new();
    assert_eq!((new.check(), new), (Ok(()), SenderState::default()));
}

/// Why a frame of so many bytes is refused. The record is as it was.
fn refused(state: SenderState, bytes: usize) -> Refusal {
    let mut lent = state;
    let refusal = lent.record_sent(1, 2, bytes).unwrap_err();
    assert_eq!(lent, state);
    refusal
}

#[test]
fn a_refused_frame_leaves_the_record() {
    let new = SenderState::new();
    let broken = SenderState {
        report_interval_ms: MAX_MS + 1,
        ..new
    };
    let full = SenderState {
        cumulative_packets_sent: u64::MAX,
        ..new
    };
    assert_eq!(refused(broken, 1), Refusal::State);
    assert_eq!(refused(new, 1 << 32), Refusal::FrameSize);
    assert_eq!(refused(full, 1), Refusal::Counter);
}

#[test]
fn a_refused_report_writes_nothing() {
    let mut s = SenderState::new();
    let (mut some, mut report) = (true, SenderReport::default());
    report.interval_bytes_sent = 77;
    // SAFETY: record and out-parameters are locals
    let status = unsafe { siwolkert_sender_build_report(&mut s, MAX_MS + 1, &mut some, &mut report) };
    assert_eq!((status, some, report.interval_bytes_sent, s), (2, true, 77, SenderState::new()));
}

#[test]
fn a_number_beside_no_report_is_free() {
    let mut s = SenderState::new();
    s.last_report_ms = u64::MAX;
    assert_eq!((s.check(), s.record_sent(1, 1, 1)), (Ok(()), Ok(())));
    assert_eq!((s.has_last_report, s.last_report_ms), (false, u64::MAX));
    assert!(s.build_report(1000).is_ok_and(|report| report.is_some()));
    assert_eq!((s.has_last_report, s.last_report_ms), (true, 1000));
}

#[test]
fn a_refused_figure_writes_nothing() {
    let (mut updated, mut value) = (77, 7.5);
    // SAFETY: the out-parameters are locals
    let refused = unsafe {
        (
            siwolkert_jitter_update(-1, 16, &mut updated),
            siwolkert_compute_etx(1.5, 1.0, &mut value),
        )
    };
    assert_eq!((refused, updated, value), ((1, 11), 77, 7.5));
}

#[test]
fn every_length_of_a_payload() {
    let expected = |len: usize, needed| {
        if len < needed {
            Err(MessageTooShort {
                needed: needed as u64,
                given: len as u64,
            })
        } else {
            Ok(())
        }
    };
    for len in 0..=80 {
        let payload = vec![0xA5; len];
        assert_eq!(check_sender_payload(&payload), expected(len, 47));
        assert_eq!(check_receiver_payload(&payload), expected(len, 67));
    }
}

/// The status, and the two lengths, where the caller had 77 and 78.
fn left(check: PayloadCheck, payload: &[u8]) -> (u8, u64, u64) {
    let (mut needed, mut given) = (77, 78);
    // SAFETY: pointer and length are of one slice; the two numbers are locals
    let status = unsafe { check(payload.as_ptr(), payload.len(), &mut needed, &mut given) };
    (status, needed, given)
}

#[test]
fn written_beside_a_seven_only() {
    assert_eq!(left(siwolkert_check_sender_payload, &[0; 47]), (0, 77, 78));
    assert_eq!(left(siwolkert_check_sender_payload, &[0; 46]), (7, 47, 46));
    assert_eq!(left(siwolkert_check_receiver_payload, &[0; 67]), (0, 77, 78));
    assert_eq!(left(siwolkert_check_receiver_payload, &[0; 66]), (7, 67, 66));
}
