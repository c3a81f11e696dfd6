//! The calls of `ReceiverState`: what a line and an answer have of each, and the commit's answer.

use crate::cases::wire::receiver_fields;
use crate::proto::mmp::receiver::ReceiverState;
use crate::script::bounds::optional;

#[derive(Clone, Copy)]
pub struct Frame {
    pub counter: u64,
    pub timestamp: u32,
    pub bytes: u64,
    pub ce_flag: bool,
    pub now_ms: u64,
}

/// Calls 504 to 519.
#[derive(Clone, Copy)]
pub enum Call {
    RecordFrame(Frame, bool),
    RecordRecv(Frame),
    Rekey(u64),
    BuildReport(u64),
    ShouldSend(u64),
    FromSrtt(i64),
    WithBounds(i64, u64, u64),
    Packets,
    Bytes,
    Highest,
    Jitter,
    Interval,
    LastRecv,
    Ecn,
    KeepsRule,
    Lateness,
}

/// The calls that take nothing beside the state.
pub const PLAIN: [Call; 9] = [
    Call::Packets,
    Call::Bytes,
    Call::Highest,
    Call::Jitter,
    Call::Interval,
    Call::LastRecv,
    Call::Ecn,
    Call::KeepsRule,
    Call::Lateness,
];

impl Call {
    pub fn number(self) -> u64 {
        match self {
            Call::RecordFrame(..) => 504,
            Call::RecordRecv(_) => 505,
            Call::Rekey(_) => 506,
            Call::BuildReport(_) => 507,
            Call::ShouldSend(_) => 508,
            Call::FromSrtt(_) => 509,
            Call::WithBounds(..) => 510,
            Call::Packets => 511,
            Call::Bytes => 512,
            Call::Highest => 513,
            Call::Jitter => 514,
            Call::Interval => 515,
            Call::LastRecv => 516,
            Call::Ecn => 517,
            Call::KeepsRule => 518,
            Call::Lateness => 519,
        }
    }

    pub fn arguments(self) -> Vec<u64> {
        let frame = |f: Frame| vec![f.counter, f.timestamp.into(), f.bytes, f.ce_flag.into(), f.now_ms];
        match self {
            Call::RecordFrame(f, sampled) => [frame(f), vec![sampled.into()]].concat(),
            Call::RecordRecv(f) => frame(f),
            Call::Rekey(now_ms) | Call::BuildReport(now_ms) | Call::ShouldSend(now_ms) => vec![now_ms],
            Call::FromSrtt(srtt_us) => vec![srtt_us as u64],
            Call::WithBounds(srtt_us, min_ms, max_ms) => vec![srtt_us as u64, min_ms, max_ms],
            _ => vec![],
        }
    }

    /// How many numbers stand between the refusal and the state.
    pub fn values(self) -> usize {
        match self {
            Call::RecordFrame(..) | Call::RecordRecv(_) | Call::Rekey(_) => 0,
            Call::FromSrtt(_) | Call::WithBounds(..) => 0,
            Call::BuildReport(_) => 15,
            Call::LastRecv => 2,
            _ => 1,
        }
    }

    /// Whether the answer has the state.
    pub fn moves(self) -> bool {
        self.number() < 511 && !matches!(self, Call::ShouldSend(_))
    }

    pub fn takes_windows(self) -> bool {
        self.number() < 506 || self.number() == 507
    }

    pub fn frame(self) -> Option<(Frame, bool)> {
        match self {
            Call::RecordFrame(frame, sampled) => Some((frame, sampled)),
            Call::RecordRecv(frame) => Some((frame, true)),
            _ => None,
        }
    }

    /// What the commit answers beside the state.
    pub fn run(self, s: &mut ReceiverState) -> Vec<u64> {
        match self {
            Call::RecordFrame(f, sampled) => {
                s.record_frame(f.counter, f.timestamp, f.bytes as usize, f.ce_flag, f.now_ms, sampled);
                vec![]
            }
            Call::RecordRecv(f) => {
                s.record_recv(f.counter, f.timestamp, f.bytes as usize, f.ce_flag, f.now_ms);
                vec![]
            }
            Call::Rekey(now_ms) => {
                s.reset_for_rekey(now_ms);
                vec![]
            }
            Call::BuildReport(now_ms) => match s.build_report(now_ms) {
                Some(report) => [&[1], &receiver_fields(&report)[..]].concat(),
                None => vec![0; 15],
            },
            Call::ShouldSend(now_ms) => vec![s.should_send_report(now_ms).into()],
            Call::FromSrtt(srtt_us) => {
                s.update_report_interval_from_srtt(srtt_us);
                vec![]
            }
            Call::WithBounds(srtt_us, min_ms, max_ms) => {
                s.update_report_interval_with_bounds(srtt_us, min_ms, max_ms);
                vec![]
            }
            Call::Packets => vec![s.cumulative_packets_recv()],
            Call::Bytes => vec![s.cumulative_bytes_recv()],
            Call::Highest => vec![s.highest_counter()],
            Call::Jitter => vec![s.jitter_us().into()],
            Call::Interval => vec![s.report_interval_ms()],
            Call::LastRecv => optional(s.last_recv_ms()).to_vec(),
            Call::Ecn => vec![s.ecn_ce_count().into()],
            Call::KeepsRule | Call::Lateness => unreachable!("the commit has no rule and no lateness"),
        }
    }
}
