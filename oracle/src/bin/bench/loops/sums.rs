//! What the loops share: the random numbers, and the checksum of a report.

use oracle::proto::mmp::wire::{ReceiverReport, SenderReport};

/// The first random number.
pub const START: u64 = 88172645463325252;

/// Marsaglia's xorshift.
pub fn next(x: u64) -> u64 {
    let a = x ^ (x << 13);
    let b = a ^ (a >> 7);
    b ^ (b << 17)
}

pub fn sender_sum(r: &SenderReport) -> u64 {
    let counters = r.interval_start_counter ^ r.interval_end_counter;
    let times = r.interval_start_timestamp ^ r.interval_end_timestamp ^ r.interval_bytes_sent;
    counters ^ u64::from(times) ^ r.cumulative_packets_sent ^ r.cumulative_bytes_sent
}

pub fn receiver_sum(r: &ReceiverReport) -> u64 {
    let counts = r.highest_counter ^ r.cumulative_packets_recv ^ r.cumulative_bytes_recv;
    let bursts = r.dwell_time ^ r.max_burst_loss ^ r.mean_burst_loss;
    let delays = r.timestamp_echo ^ r.jitter ^ r.ecn_ce_count ^ r.owd_trend as u32 ^ r.burst_loss_count;
    let intervals = r.cumulative_reorder_count ^ r.interval_packets_recv ^ r.interval_bytes_recv;
    counts ^ u64::from(bursts) ^ u64::from(delays) ^ u64::from(intervals)
}
