//! The loop over a sender's record: eight peers' records in memory, of which the random number picks one, and the call on it.

use super::sums::{next, sender_sum, START};
use oracle::proto::mmp::sender::oracle_access::fields;
use oracle::proto::mmp::sender::SenderState;

fn state_sum(state: &SenderState) -> u64 {
    let r = fields(state);
    let counts = r.cumulative_packets_sent ^ r.cumulative_bytes_sent ^ r.last_counter;
    let start = r.interval_start_counter ^ u64::from(r.interval_start_timestamp);
    let words = r.interval_bytes_sent ^ r.last_timestamp ^ r.consecutive_send_failures ^ r.srtt_sample_count;
    let times = r.last_report_ms.unwrap_or(0) ^ r.report_interval_ms;
    let flags = u64::from(r.interval_has_data) ^ u64::from(r.last_report_ms.is_some());
    counts ^ start ^ u64::from(words) ^ times ^ flags
}

/// 400, the loop alone; 404, a frame sent; 405, a frame sent and a report built.
#[inline(never)]
pub fn sum(call: u64, count: u64) -> u64 {
    let mut states: [SenderState; 8] = std::array::from_fn(|_| SenderState::new());
    let mut x = START;
    let mut sum = 0u64;
    for _ in 0..count {
        x = next(x);
        let bytes = (x % 4294967297) as usize;
        sum = sum.wrapping_add(bytes as u64);
        let state = &mut states[(x % 8) as usize];
        if call >= 404 {
            state.record_sent(x, x as u32, bytes);
        }
        if call >= 405 {
            let part = state.build_report(x >> 20).map_or(0, |r| sender_sum(&r) ^ 1);
            sum = sum.wrapping_add(part);
        }
    }
    states.iter().fold(sum, |sum, state| sum.wrapping_add(state_sum(state)))
}
