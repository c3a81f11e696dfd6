//! The loop over a receiver's record with a full window of 32 pairs, whose oldest stands a third from its start.

use super::sums::{next, receiver_sum, START};
use super::table::{held, is_set, option_sum, place, Numbers};
use super::{access, wrapped};
use oracle::proto::mmp::algorithms::OwdTrendDetector;
use oracle::proto::mmp::receiver::oracle_access::{fields, into_window, state, window_size, Fields, Tracker};
use oracle::proto::mmp::receiver::ReceiverState;

const CAPACITY: usize = 32;

/// The expected counter: above every highest counter.
fn expected(n: u64) -> u64 {
    n | 1 << 36
}

/// One record in 64 is in a burst.
fn tracker_of(s: &Numbers, from: usize, x: u64) -> Tracker {
    let at = |k: usize| s[from + k];
    Tracker {
        expected_next: is_set(at(3)).then_some(expected(at(8))),
        in_burst: x >> 58 == 0,
        current_burst_len: held(at(4), 0) as u16,
        burst_count: held(at(5), 7) as u32,
        max_burst_len: at(6) as u16,
        total_burst_len: at(7) >> 20,
    }
}

fn tracker_sum(t: &Tracker) -> u64 {
    let lengths = u64::from(t.current_burst_len ^ t.max_burst_len);
    option_sum(t.expected_next) ^ u64::from(t.in_burst) ^ lengths ^ u64::from(t.burst_count) ^ t.total_burst_len
}

fn state_of(s: &Numbers, from: usize, x: u64, window: OwdTrendDetector) -> ReceiverState {
    let at = |k: usize| s[from + k];
    let f = Fields {
        cumulative_packets_recv: at(19) | 1 << 36,
        cumulative_bytes_recv: at(20),
        cumulative_reorder_count: at(21),
        highest_counter: at(22),
        interval_packets_recv: at(23) as u32,
        interval_bytes_recv: at(24) as u32,
        owd_ref: is_set(at(10)).then_some((at(11), at(12) as u32)),
        ecn_ce_count: at(25) as u32,
        last_sender_timestamp: at(26) as u32,
        last_recv_ms: is_set(at(13)).then_some(at(14)),
        rekey_jitter_grace_until_ms: (!is_set(at(15))).then_some(at(16)),
        last_report_ms: is_set(at(17)).then_some(at(18)),
        report_interval_ms: at(27),
        interval_has_data: is_set(at(28)),
        srtt_sample_count: at(29) as u32,
        jitter_q4: at(9) as i64,
        gap_tracker: tracker_of(s, from, x),
    };
    state(&f, window)
}

/// The commit's ring shows no slot: `first` is the port's.
fn state_sum(state: &ReceiverState, first: u64) -> u64 {
    let r = fields(state);
    let counts = r.cumulative_packets_recv ^ r.cumulative_bytes_recv ^ r.cumulative_reorder_count ^ r.highest_counter;
    let words = r.interval_packets_recv ^ r.interval_bytes_recv ^ r.ecn_ce_count ^ r.last_sender_timestamp ^ r.srtt_sample_count;
    let times =
        option_sum(r.last_recv_ms) ^ option_sum(r.rekey_jitter_grace_until_ms) ^ option_sum(r.last_report_ms) ^ r.report_interval_ms;
    let reference = r.owd_ref.map_or(1, |(recv_ms, timestamp)| recv_ms ^ u64::from(timestamp));
    let (capacity, count) = window_size(state);
    let window = (capacity ^ count) as u64 ^ first;
    let figures = r.jitter_q4 as u64 ^ window ^ reference ^ tracker_sum(&r.gap_tracker);
    counts ^ u64::from(words) ^ times ^ figures ^ u64::from(r.interval_has_data)
}

/// A frame is in order, one in 16 a counter ahead, and less than 2^24 ms after the reference.
fn called(call: u64, x: u64, s: &Numbers, state: &mut ReceiverState) -> u64 {
    let from = place(x);
    let given = s[from + 30];
    match call {
        504 | 1504 => {
            let counter = expected(s[from + 8]).wrapping_add(u64::from(x >> 60 == 0));
            let now_ms = s[from + 11].wrapping_add(x >> 40);
            let bytes = held(given, x >> 48) as usize;
            let sampled = is_set(given) == (call == 504);
            state.record_frame(counter, x as u32, bytes, x % 2 == 1, now_ms, sampled);
            state_sum(state, if sampled { 11 } else { 10 })
        }
        507 => {
            let report = state.build_report(given);
            state_sum(state, 10) ^ report.map_or(0, |r| receiver_sum(&r) ^ 1)
        }
        _ => state_sum(state, 10) ^ given,
    }
}

#[inline(never)]
pub fn sum(call: u64, count: u64) -> u64 {
    let mut numbers = [0; 64];
    let mut window = wrapped(CAPACITY);
    let mut x = START;
    let mut sum = 0u64;
    for _ in 0..count {
        x = next(x);
        numbers[(x % 64) as usize] = x >> 29;
        let slot = (x % CAPACITY as u64) as usize;
        let pair = (x as u32, (x >> 24) as i64);
        access::owd_set(&mut window, (slot + CAPACITY - CAPACITY / 3) % CAPACITY, pair);
        let mut state = state_of(&numbers, place(x), x, window);
        sum = sum.wrapping_add(called(call, x, &numbers, &mut state));
        window = into_window(state);
    }
    sum
}
