//! The calls of `MmpMetrics`: what a line and an answer have of each, and the commit's answer.

use crate::cases::wire::receiver_fields;
use crate::proto::mmp::metrics::{MmpMetrics, RrLog};
use crate::proto::mmp::wire::ReceiverReport;
use crate::script::bounds::{bits, optional};

/// Calls 603 to 621.
#[derive(Clone)]
pub enum Call {
    Process {
        report: ReceiverReport,
        our_timestamp_ms: u32,
        now_ms: u64,
    },
    Rekey,
    Reverse {
        packets: u64,
        highest: u64,
    },
    SrttMs,
    LossRate,
    SmoothedLoss,
    QualityIndex,
    SmoothedEtx,
    Goodput,
    Ecn,
    Counters,
    Seen,
    Samples,
    Zeros,
    Failures,
    LastRtt,
    KeepsRule,
    Stale,
    NoEcho,
}

/// The calls that take nothing beside the state and leave it.
pub const PLAIN: [Call; 16] = [
    Call::SrttMs,
    Call::LossRate,
    Call::SmoothedLoss,
    Call::QualityIndex,
    Call::SmoothedEtx,
    Call::Goodput,
    Call::Ecn,
    Call::Counters,
    Call::Seen,
    Call::Samples,
    Call::Zeros,
    Call::Failures,
    Call::LastRtt,
    Call::KeepsRule,
    Call::Stale,
    Call::NoEcho,
];

fn float(x: Option<f64>) -> Vec<u64> {
    optional(x.map(bits)).to_vec()
}

/// A log entry: its kind and three numbers.
fn log_numbers(log: &RrLog) -> [u64; 4] {
    match *log {
        RrLog::None => [0; 4],
        RrLog::Stale {
            prev_highest,
            prev_packets,
            prev_bytes,
        } => [1, prev_highest, prev_packets, prev_bytes],
        RrLog::RttSample { rtt_ms, srtt_ms } => [2, rtt_ms.into(), bits(srtt_ms), 0],
        RrLog::InvalidRtt => [3, 0, 0, 0],
    }
}

impl Call {
    pub fn number(&self) -> u64 {
        match self {
            Call::Process { .. } => 603,
            Call::Rekey => 604,
            Call::Reverse { .. } => 605,
            Call::SrttMs => 606,
            Call::LossRate => 607,
            Call::SmoothedLoss => 608,
            Call::QualityIndex => 609,
            Call::SmoothedEtx => 610,
            Call::Goodput => 611,
            Call::Ecn => 612,
            Call::Counters => 613,
            Call::Seen => 614,
            Call::Samples => 615,
            Call::Zeros => 616,
            Call::Failures => 617,
            Call::LastRtt => 618,
            Call::KeepsRule => 619,
            Call::Stale => 620,
            Call::NoEcho => 621,
        }
    }

    pub fn arguments(&self) -> Vec<u64> {
        match self {
            Call::Process {
                report,
                our_timestamp_ms,
                now_ms,
            } => [&receiver_fields(report)[..], &[(*our_timestamp_ms).into(), *now_ms]].concat(),
            Call::Reverse { packets, highest } => vec![*packets, *highest],
            _ => vec![],
        }
    }

    /// How many numbers stand between the refusal and the state.
    pub fn values(&self) -> usize {
        match self {
            Call::Process { .. } => 5,
            Call::Rekey | Call::Reverse { .. } => 0,
            Call::SrttMs | Call::SmoothedLoss | Call::QualityIndex | Call::SmoothedEtx | Call::LastRtt => 2,
            Call::Counters => 4,
            _ => 1,
        }
    }

    /// Whether the answer has the state.
    pub fn moves(&self) -> bool {
        self.number() < 606
    }

    /// What the commit answers beside the state.
    pub fn run(&self, s: &mut MmpMetrics) -> Vec<u64> {
        match self {
            Call::Process {
                report,
                our_timestamp_ms,
                now_ms,
            } => {
                let (first_srtt, log) = s.process_receiver_report(report, *our_timestamp_ms, *now_ms);
                [&[first_srtt.into()], &log_numbers(&log)[..]].concat()
            }
            Call::Rekey => {
                s.reset_for_rekey();
                vec![]
            }
            Call::Reverse { packets, highest } => {
                s.update_reverse_delivery(*packets, *highest);
                vec![]
            }
            Call::SrttMs => float(s.srtt_ms()),
            Call::LossRate => vec![bits(s.loss_rate())],
            Call::SmoothedLoss => float(s.smoothed_loss()),
            Call::QualityIndex => float(s.quality_index()),
            Call::SmoothedEtx => float(s.smoothed_etx()),
            Call::Goodput => vec![bits(s.goodput_bps())],
            Call::Ecn => vec![s.last_ecn_ce_count().into()],
            Call::Counters => s.rr_counters().map_or(vec![0; 4], |(highest, packets, reorders)| {
                vec![1, highest, packets, reorders.into()]
            }),
            Call::Seen => vec![s.reports_seen()],
            Call::Samples => vec![s.rtt_samples()],
            Call::Zeros => vec![s.rtt_zero()],
            Call::Failures => vec![s.rtt_arith_fail()],
            Call::LastRtt => optional(s.last_rtt_ms().map(u64::from)).to_vec(),
            Call::KeepsRule => unreachable!("the commit has no rule"),
            Call::Stale | Call::NoEcho => unreachable!("the commit counts neither"),
        }
    }
}
