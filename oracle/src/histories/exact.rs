//! The averages of document 01, "The exact averages", which round nothing. They are fed the arguments of the calls that were not refused, and no record.

use crate::histories::whole::Whole;
use crate::proto::mmp::wire::ReceiverReport;
use crate::records::receiver_state::GRACE_MS;
use crate::records::report_kind::{counters, kind_of, Kind};
use crate::records::{metrics_call, receiver_call};

/// S and V over 8^n, after n samples.
#[derive(Clone)]
pub struct RoundTrip {
    pub n: usize,
    pub s: Whole,
    pub v: Whole,
}

/// Of the calls on a metrics record: the report kept, by its five counters, S and V, and how many reports there were and of each kind.
#[derive(Clone, Default)]
pub struct Reports {
    kept: Option<[u64; 5]>,
    pub average: Option<RoundTrip>,
    pub tallies: [u64; 6],
}

/// R in whole milliseconds, where a sample is taken.
fn sample_ms(rr: &ReceiverReport, our_timestamp_ms: u32) -> Option<u64> {
    let done = u64::from(rr.timestamp_echo) + u64::from(rr.dwell_time);
    let ours = u64::from(our_timestamp_ms);
    (rr.timestamp_echo > 0 && ours > done).then(|| ours - done)
}

impl RoundTrip {
    /// "The first sets S = R, V = R/2".
    fn first(r_us: u64) -> Self {
        Self {
            n: 1,
            s: Whole::of(r_us).times(8),
            v: Whole::of(r_us).times(4),
        }
    }

    /// "V = 3/4 V + 1/4 |S − R| with the old S, then S = 7/8 S + 1/8 R".
    fn stepped(&self, r_us: u64) -> Self {
        let r = Whole::of(r_us).shifted(3 * self.n);
        Self {
            n: self.n + 1,
            v: self.v.times(6).plus(&self.s.distance(&r).times(2)),
            s: self.s.times(7).plus(&r),
        }
    }
}

impl Reports {
    /// The kind of a report beside the one kept; none of another call.
    pub fn kind(&self, call: &metrics_call::Call) -> Option<Kind> {
        match call {
            metrics_call::Call::Process {
                report, our_timestamp_ms, ..
            } => Some(kind_of(self.kept, report, *our_timestamp_ms)),
            _ => None,
        }
    }

    /// An accepted call.
    pub fn hear(&mut self, call: &metrics_call::Call) {
        let kind = self.kind(call);
        if let Some(kind) = kind {
            self.tallies[0] += 1;
            self.tallies[1 + kind as usize] += 1;
        }
        match call {
            metrics_call::Call::Process { .. } if kind == Some(Kind::Stale) => {}
            metrics_call::Call::Process {
                report, our_timestamp_ms, ..
            } => {
                self.kept = Some(counters(report));
                if let Some(ms) = sample_ms(report, *our_timestamp_ms) {
                    let r_us = 1000 * ms;
                    let average = self.average.as_ref();
                    self.average = Some(average.map_or_else(|| RoundTrip::first(r_us), |a| a.stepped(r_us)));
                }
            }
            metrics_call::Call::Rekey => self.kept = None,
            _ => {}
        }
    }
}

/// Of the calls on a receiver: the last sampled frame, the deadline of a grace, and A over 16^n after n differences.
#[derive(Clone)]
pub struct Frames {
    last: Option<(u64, u32)>,
    deadline_ms: Option<u64>,
    pub n: usize,
    pub a: Whole,
}

impl Default for Frames {
    fn default() -> Self {
        Self {
            last: None,
            deadline_ms: None,
            n: 0,
            a: Whole::of(0),
        }
    }
}

impl Frames {
    /// An accepted call.
    pub fn hear(&mut self, call: receiver_call::Call) {
        if let receiver_call::Call::Rekey(now_ms) = call {
            *self = Self {
                deadline_ms: Some(now_ms + GRACE_MS),
                ..Self::default()
            };
        }
        if let Some((frame, true)) = call.frame() {
            self.sampled(frame.timestamp, frame.now_ms);
        }
    }

    fn sampled(&mut self, timestamp: u32, now_ms: u64) {
        if self.deadline_ms.is_none_or(|deadline| deadline <= now_ms) {
            self.deadline_ms = None;
            if let Some((recv_ms, before)) = self.last {
                let step = i128::from(now_ms.saturating_sub(recv_ms));
                let d = 1000 * (step - (i128::from(timestamp) - i128::from(before)));
                self.given(u64::from((d as i32).unsigned_abs()));
            }
        }
        self.last = Some((now_ms, timestamp));
    }

    /// "A into A + (|D| − A)/16".
    fn given(&mut self, d: u64) {
        self.a = self.a.times(15).plus(&Whole::of(d).shifted(4 * self.n));
        self.n += 1;
    }
}
