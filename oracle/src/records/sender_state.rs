//! `SenderState`, its rule and its calls, as docs/RULES.md has them, beside the commit's.

use crate::cases::wire::sender_fields;
use crate::proto::mmp::sender::oracle_access::{fields, state, Fields};
use crate::proto::mmp::sender::SenderState;
use crate::script::bounds::{bits, first_no, optional, MAX_FRAME, MAX_MS, MAX_US};
use crate::script::case::{commit, Case, Numbers};

#[derive(Clone, Copy, Default)]
pub struct Sender {
    pub fields: Fields,
    /// What stands for the clock of the last report where there was none: any number, and no call looks at it.
    pub no_report_ms: u64,
}

/// Calls 404 to 416.
#[derive(Clone, Copy)]
pub enum Call {
    RecordSent { counter: u64, timestamp: u32, bytes: u64 },
    BuildReport(u64),
    ShouldSend(u64),
    Failure,
    Success,
    Multiplier,
    FromSrtt(i64),
    WithBounds(i64, u64, u64),
    Packets,
    Bytes,
    Interval,
    Failures,
    KeepsRule,
}

/// The calls that take nothing beside the state.
pub const PLAIN: [Call; 8] = [
    Call::Failure,
    Call::Success,
    Call::Multiplier,
    Call::Packets,
    Call::Bytes,
    Call::Interval,
    Call::Failures,
    Call::KeepsRule,
];

impl Call {
    pub fn number(self) -> u64 {
        match self {
            Call::RecordSent { .. } => 404,
            Call::BuildReport(_) => 405,
            Call::ShouldSend(_) => 406,
            Call::Failure => 407,
            Call::Success => 408,
            Call::Multiplier => 409,
            Call::FromSrtt(_) => 410,
            Call::WithBounds(..) => 411,
            Call::Packets => 412,
            Call::Bytes => 413,
            Call::Interval => 414,
            Call::Failures => 415,
            Call::KeepsRule => 416,
        }
    }

    fn arguments(self) -> Vec<u64> {
        match self {
            Call::RecordSent { counter, timestamp, bytes } => vec![counter, timestamp.into(), bytes],
            Call::BuildReport(now_ms) | Call::ShouldSend(now_ms) => vec![now_ms],
            Call::FromSrtt(srtt_us) => vec![srtt_us as u64],
            Call::WithBounds(srtt_us, min_ms, max_ms) => vec![srtt_us as u64, min_ms, max_ms],
            _ => vec![],
        }
    }

    /// How many numbers stand between the refusal and the state.
    pub fn values(self) -> usize {
        match self {
            Call::RecordSent { .. } | Call::FromSrtt(_) | Call::WithBounds(..) => 0,
            Call::BuildReport(_) => 8,
            _ => 1,
        }
    }

    /// Whether the answer has the state.
    fn moves(self) -> bool {
        self.number() < 412 && !matches!(self, Call::ShouldSend(_) | Call::Multiplier)
    }

    /// What the commit answers beside the state.
    pub fn run(self, s: &mut SenderState) -> Vec<u64> {
        match self {
            Call::RecordSent { counter, timestamp, bytes } => {
                s.record_sent(counter, timestamp, bytes as usize);
                vec![]
            }
            Call::BuildReport(now_ms) => match s.build_report(now_ms) {
                Some(report) => [&[1], &sender_fields(&report)[..]].concat(),
                None => vec![0; 8],
            },
            Call::ShouldSend(now_ms) => vec![s.should_send_report(now_ms).into()],
            Call::Failure => vec![s.record_send_failure().into()],
            Call::Success => vec![s.record_send_success().into()],
            Call::Multiplier => vec![bits(s.send_failure_backoff_multiplier())],
            Call::FromSrtt(srtt_us) => {
                s.update_report_interval_from_srtt(srtt_us);
                vec![]
            }
            Call::WithBounds(srtt_us, min_ms, max_ms) => {
                s.update_report_interval_with_bounds(srtt_us, min_ms, max_ms);
                vec![]
            }
            Call::Packets => vec![s.cumulative_packets_sent()],
            Call::Bytes => vec![s.cumulative_bytes_sent()],
            Call::Interval => vec![s.report_interval_ms()],
            Call::Failures => vec![s.consecutive_send_failures().into()],
            Call::KeepsRule => unreachable!("the commit has no rule"),
        }
    }
}

impl Sender {
    pub fn of(s: &SenderState) -> Self {
        Self {
            fields: fields(s),
            no_report_ms: 0,
        }
    }

    pub fn keeps(&self) -> bool {
        let late = |ms: u64| ms > MAX_MS;
        !self.fields.last_report_ms.is_some_and(late) && !late(self.fields.report_interval_ms)
    }

    pub fn numbers(&self) -> [u64; 13] {
        let f = &self.fields;
        let [there, last_report_ms] = optional(f.last_report_ms);
        [
            f.cumulative_packets_sent,
            f.cumulative_bytes_sent,
            f.interval_start_counter,
            f.interval_start_timestamp.into(),
            f.interval_bytes_sent.into(),
            f.last_counter,
            f.last_timestamp.into(),
            f.interval_has_data.into(),
            there,
            if there == 0 { self.no_report_ms } else { last_report_ms },
            f.report_interval_ms,
            f.consecutive_send_failures.into(),
            f.srtt_sample_count.into(),
        ]
    }

    fn refusal(&self, call: Call) -> u64 {
        let f = &self.fields;
        let mut questions = vec![(1, self.keeps())];
        match call {
            Call::RecordSent { bytes, .. } => {
                let fits = |count: u64, more| count.checked_add(more).is_some();
                questions.push((3, bytes <= MAX_FRAME));
                questions.push((10, fits(f.cumulative_packets_sent, 1) && fits(f.cumulative_bytes_sent, bytes)));
            }
            Call::BuildReport(now_ms) | Call::ShouldSend(now_ms) => questions.push((2, now_ms <= MAX_MS)),
            Call::Failure => questions.push((10, f.consecutive_send_failures < u32::MAX)),
            Call::FromSrtt(srtt_us) => questions.push((8, srtt_us <= MAX_US)),
            Call::WithBounds(srtt_us, min_ms, max_ms) => {
                questions.push((2, min_ms <= MAX_MS && max_ms <= MAX_MS));
                questions.push((8, srtt_us <= MAX_US));
                questions.push((9, srtt_us <= 0 || min_ms <= max_ms));
            }
            _ => {}
        }
        first_no(&questions)
    }

    /// The case of a call, and the state after it.
    pub fn call(&self, call: Call) -> (Case, Sender) {
        let line = Numbers::of(&[call.number()]).and(&self.numbers()).and(&call.arguments());
        if let Call::KeepsRule = call {
            return (Case::new(line, (Numbers::of(&[self.keeps().into()]), true)), *self);
        }
        let refusal = self.refusal(call);
        let mut s = state(&self.fields);
        // Where a counter is full, or the bounds cross, the commit panics.
        assert!(
            refusal < 9 || commit(|| call.run(&mut state(&self.fields))).is_none(),
            "the commit answers where {refusal} refuses"
        );
        let (values, after) = if refusal > 0 {
            (vec![0; call.values()], *self)
        } else {
            let values = call.run(&mut s);
            let no_report_ms = self.no_report_ms;
            (
                values,
                Sender {
                    no_report_ms,
                    ..Sender::of(&s)
                },
            )
        };
        let mut answer = Numbers::of(&[refusal]).and(&values);
        if call.moves() {
            answer = answer.and(&after.numbers());
        }
        (Case::new(line, (answer, refusal > 0)), after)
    }
}
