//! `ReceiverState`, its rule and its questions, as docs/RULES.md has them, beside the commit's.

use std::collections::VecDeque;

use crate::cases::gaps::{begins_burst, behind_by, counted, gap_before, tracker_keeps, tracker_numbers};
use crate::proto::mmp::algorithms::oracle_access::owd;
use crate::proto::mmp::receiver::oracle_access::{fields, state, window, Fields};
use crate::proto::mmp::receiver::ReceiverState;
use crate::records::owd_ring::Ring;
use crate::records::receiver_call::Call;
use crate::script::bounds::{first_no, optional, MAX_FRAME, MAX_MS, MAX_US};
use crate::script::case::{commit, Case, Numbers};

/// The grace after a rekey.
pub const GRACE_MS: u64 = 15_000;
/// The age at which a reference restarts.
pub const SPAN_MS: u64 = 1 << 30;
/// The greatest scaled jitter.
pub const MAX_JITTER: i64 = 1 << 35;

/// A state with the windows that it is lent.
#[derive(Clone)]
pub struct Receiver {
    pub fields: Fields,
    pub ring: Ring,
    /// The greatest lateness of the interval, document 02, W-203: the commit has no such field.
    pub lateness: u64,
}

impl Receiver {
    /// A new state of the commit's, with windows of any numbers.
    pub fn of(s: &ReceiverState, mut ring: Ring) -> Self {
        (ring.count, ring.first) = (0, 0);
        assert!(window(s) == (ring.capacity, VecDeque::new()), "a new state's window is empty");
        Self {
            fields: fields(s),
            ring,
            lateness: 0,
        }
    }

    pub fn keeps(&self) -> bool {
        let f = &self.fields;
        let clock = |ms: Option<u64>| ms.is_none_or(|ms| ms <= MAX_MS);
        clock(f.last_recv_ms)
            && clock(f.last_report_ms)
            && clock(f.owd_ref.map(|(recv_ms, _)| recv_ms))
            && f.report_interval_ms <= MAX_MS
            && f.rekey_jitter_grace_until_ms.is_none_or(|ms| ms <= MAX_MS + GRACE_MS)
            && (0..=MAX_JITTER).contains(&f.jitter_q4)
            && self.ring.keeps()
            && tracker_keeps(&f.gap_tracker)
            && f.cumulative_reorder_count <= f.cumulative_packets_recv
    }

    pub fn numbers(&self) -> Vec<u64> {
        let f = &self.fields;
        let mut all = vec![
            f.cumulative_packets_recv,
            f.cumulative_bytes_recv,
            f.cumulative_reorder_count,
            f.highest_counter,
            f.interval_packets_recv.into(),
            f.interval_bytes_recv.into(),
            f.jitter_q4 as u64,
        ];
        all.extend(self.ring.state());
        all.extend(reference(f.owd_ref));
        all.extend(tracker_numbers(&f.gap_tracker));
        all.extend([f.ecn_ce_count, f.last_sender_timestamp].map(u64::from));
        for ms in [f.last_recv_ms, f.rekey_jitter_grace_until_ms, f.last_report_ms] {
            all.extend(optional(ms));
        }
        all.extend([f.report_interval_ms, f.interval_has_data.into(), f.srtt_sample_count.into()]);
        all.push(self.lateness);
        all
    }

    fn refusal(&self, call: Call) -> u64 {
        let f = &self.fields;
        let windows = (4, self.ring.windows_ok());
        let mut questions = vec![(1, self.keeps())];
        match call {
            Call::RecordFrame(frame, _) | Call::RecordRecv(frame) => {
                let fits = |count: u64, more| count.checked_add(more).is_some();
                let bursts = !begins_burst(&f.gap_tracker, frame.counter) || f.gap_tracker.burst_count < u32::MAX;
                let counted = fits(f.cumulative_packets_recv, 1) && fits(f.cumulative_bytes_recv, frame.bytes);
                questions.extend([(2, frame.now_ms <= MAX_MS), (3, frame.bytes <= MAX_FRAME), windows]);
                questions.push((10, counted && bursts));
            }
            Call::Rekey(now_ms) | Call::ShouldSend(now_ms) => questions.push((2, now_ms <= MAX_MS)),
            Call::BuildReport(now_ms) => {
                questions.push((2, now_ms <= MAX_MS));
                let asked = first_no(&questions);
                return if asked > 0 { asked } else { self.ring.trend_refusal() };
            }
            Call::FromSrtt(srtt_us) => questions.push((8, srtt_us <= MAX_US)),
            Call::WithBounds(srtt_us, min_ms, max_ms) => {
                questions.push((2, min_ms <= MAX_MS && max_ms <= MAX_MS));
                questions.push((8, srtt_us <= MAX_US));
                questions.push((9, srtt_us <= 0 || min_ms <= max_ms));
            }
            _ => {}
        }
        first_no(&questions)
    }

    /// The commit's state. A call that takes no windows does not read the pairs.
    fn commit(&self) -> ReceiverState {
        let pairs = if self.ring.windows_ok() {
            self.ring.live()
        } else {
            VecDeque::from(vec![(0, 0); self.ring.count])
        };
        state(&self.fields, owd(self.ring.capacity, pairs))
    }

    /// The ring after an accepted call: where it is cleared and written is the port's own, its pairs are the commit's.
    fn ring_after(&self, call: Call, s: &ReceiverState) -> Ring {
        let mut ring = self.ring.clone();
        let pushed = call.frame().filter(|(frame, sampled)| *sampled && !self.in_grace(frame.now_ms));
        let restarts = pushed.is_some_and(|(frame, _)| self.restarts(frame.now_ms));
        if restarts || matches!(call, Call::Rekey(_)) {
            (ring.count, ring.first) = (0, 0);
        }
        if pushed.is_some() {
            let (_, pairs) = window(s);
            ring = ring.placed(*pairs.back().expect("a frame was pushed"));
        }
        if ring.windows_ok() {
            assert!(window(s) == (ring.capacity, ring.live()), "the commit's window is the ring's");
        }
        ring
    }

    /// The lateness after an accepted call that made a report, or not: every frame that is behind raises it, a report that is made and a rekey zero it.
    fn lateness_after(&self, call: Call, report: bool) -> u64 {
        match call {
            Call::RecordFrame(frame, _) | Call::RecordRecv(frame) => self.lateness.max(behind_by(&self.fields.gap_tracker, frame.counter)),
            Call::BuildReport(_) if report => 0,
            Call::Rekey(_) => 0,
            _ => self.lateness,
        }
    }

    fn in_grace(&self, now_ms: u64) -> bool {
        self.fields.rekey_jitter_grace_until_ms.is_some_and(|deadline| now_ms < deadline)
    }

    fn restarts(&self, now_ms: u64) -> bool {
        self.fields
            .owd_ref
            .is_some_and(|(recv_ms, _)| now_ms.saturating_sub(recv_ms) >= SPAN_MS)
    }

    /// The case of a call, and the state after it.
    pub fn call(&self, call: Call) -> (Case, Receiver) {
        let mut line = Numbers::of(&[call.number()]).and(&self.numbers()).and(&call.arguments());
        if call.takes_windows() {
            line = line.and(&self.ring.windows());
        }
        if let Call::KeepsRule = call {
            return (Case::new(line, (Numbers::of(&[self.keeps().into()]), true)), self.clone());
        }
        let refusal = self.refusal(call);
        if let Call::Lateness = call {
            let value = if refusal == 0 { self.lateness } else { 0 };
            return (Case::new(line, (Numbers::of(&[refusal, value]), true)), self.clone());
        }
        // Where a counter is full, or the bounds cross, the commit panics.
        assert!(
            refusal < 9 || commit(|| call.run(&mut self.commit())).is_none(),
            "the commit answers where {refusal} refuses"
        );
        let frame = call.frame().filter(|_| refusal == 0);
        let gap = frame.map_or(0, |(frame, _)| gap_before(&self.fields.gap_tracker, frame.counter));
        let (values, after) = if refusal > 0 {
            (vec![0; call.values()], self.clone())
        } else {
            let mut s = self.commit();
            let values = call.run(&mut s);
            let ring = self.ring_after(call, &s);
            let lateness = self.lateness_after(call, values.first() == Some(&1));
            let mut fields = fields(&s);
            fields.gap_tracker = counted(gap, fields.gap_tracker);
            let after = Receiver { fields, ring, lateness };
            (values, after)
        };
        let mut answer = Numbers::of(&[refusal]).and(&values);
        if call.moves() {
            answer = answer.and(&after.numbers());
        }
        if call.frame().is_some() {
            answer = answer.and(&after.ring.windows());
        }
        let late = frame.map_or(0, |(frame, _)| behind_by(&self.fields.gap_tracker, frame.counter));
        let case = Case::new(line, (answer, refusal > 0))
            .behind(gap)
            .late(late, after.lateness > self.lateness);
        let tells_trend = matches!(call, Call::BuildReport(_)) && values.first() == Some(&1);
        (if tells_trend { case.over(&self.ring) } else { case }, after)
    }
}

/// A reference: a flag and the pair.
pub fn reference(owd_ref: Option<(u64, u32)>) -> [u64; 3] {
    owd_ref.map_or([0; 3], |(recv_ms, timestamp)| [1, recv_ms, timestamp.into()])
}
