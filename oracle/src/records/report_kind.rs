//! The five kinds of a report, document 02, W-205, told from the report, the counters kept and our time alone: the commit counts three of them.

use std::cmp::Ordering;

use crate::proto::mmp::wire::ReceiverReport;

/// In the order in which the request names them.
#[derive(Clone, Copy, PartialEq)]
pub enum Kind {
    Stale,
    NoEcho,
    Sample,
    Zero,
    Failure,
}

/// The counters that the stale test reads.
pub fn counters(report: &ReceiverReport) -> [u64; 5] {
    [
        report.highest_counter,
        report.cumulative_packets_recv,
        report.cumulative_bytes_recv,
        report.ecn_ce_count.into(),
        report.cumulative_reorder_count.into(),
    ]
}

/// The kind of a report beside the counters of the one kept, if one is.
pub fn kind_of(kept: Option<[u64; 5]>, report: &ReceiverReport, our_timestamp_ms: u32) -> Kind {
    let now = counters(report);
    if kept.is_some_and(|kept| now == kept || now.iter().zip(kept).any(|(now, kept)| *now < kept)) {
        return Kind::Stale;
    }
    if report.timestamp_echo == 0 {
        return Kind::NoEcho;
    }
    let done = u64::from(report.timestamp_echo) + u64::from(report.dwell_time);
    match u64::from(our_timestamp_ms).cmp(&done) {
        Ordering::Greater => Kind::Sample,
        Ordering::Equal => Kind::Zero,
        Ordering::Less => Kind::Failure,
    }
}
