//! The twin of crates/bench over the commit's Rust: the same inputs, the same loops, each a function of its own, the same checksum.
//! `encode` makes a Vec, as the commit does; the port fills a lent array.

mod processed;
mod received;
mod sent;
mod sums;
mod table;

use std::collections::VecDeque;
use std::env;

use oracle::proto::mmp::algorithms::oracle_access as access;
use oracle::proto::mmp::algorithms::{compute_etx, OwdTrendDetector};
use oracle::proto::mmp::wire::{PathMtuNotification, ReceiverReport, SenderReport};

use sums::{next, receiver_sum, sender_sum, START};

fn sender_of(x: u64) -> SenderReport {
    SenderReport {
        interval_start_counter: x,
        interval_end_counter: x ^ 1,
        interval_start_timestamp: (x ^ 2) as u32,
        interval_end_timestamp: (x ^ 3) as u32,
        interval_bytes_sent: (x ^ 4) as u32,
        cumulative_packets_sent: x ^ 5,
        cumulative_bytes_sent: x ^ 6,
    }
}

fn receiver_of(x: u64) -> ReceiverReport {
    ReceiverReport {
        highest_counter: x,
        cumulative_packets_recv: x ^ 1,
        cumulative_bytes_recv: x ^ 2,
        timestamp_echo: (x ^ 3) as u32,
        dwell_time: (x ^ 4) as u16,
        max_burst_loss: (x ^ 5) as u16,
        mean_burst_loss: (x ^ 6) as u16,
        jitter: (x ^ 7) as u32,
        ecn_ce_count: (x ^ 8) as u32,
        owd_trend: (x ^ 9) as i32,
        burst_loss_count: (x ^ 10) as u32,
        cumulative_reorder_count: (x ^ 11) as u32,
        interval_packets_recv: (x ^ 12) as u32,
        interval_bytes_recv: (x ^ 13) as u32,
    }
}

/// The byte of the output that the number picks.
fn picked(x: u64, out: &[u8]) -> u64 {
    out[(x % out.len() as u64) as usize].into()
}

/// What the call adds to the checksum.
fn called(call: u64, x: u64, payload: &[u8], out: &[u8]) -> u64 {
    match call {
        201 => picked(x, &sender_of(x).encode()),
        202 => SenderReport::decode(payload)
            .map_or(0, |r| sender_sum(&r))
            .wrapping_add(picked(x, out)),
        203 => picked(x, &receiver_of(x).encode()),
        204 => ReceiverReport::decode(payload)
            .map_or(0, |r| receiver_sum(&r))
            .wrapping_add(picked(x, out)),
        206 => picked(x, &PathMtuNotification::new(x as u16).encode()),
        207 => PathMtuNotification::decode(payload)
            .map_or(0, |p| u64::from(p.path_mtu))
            .wrapping_add(picked(x, out)),
        _ => picked(x, out),
    }
}

#[inline(never)]
fn reports(call: u64, count: u64) -> u64 {
    let mut payload = [0; 67];
    let out = [0; 68];
    let mut x = START;
    let mut sum = 0u64;
    for _ in 0..count {
        x = next(x);
        payload[(x % 67) as usize] = (x >> 56) as u8;
        sum = sum.wrapping_add(called(call, x, &payload, &out));
    }
    sum
}

/// The number that the bits of x from `shift` on pick.
fn number(s: &[u64; 64], x: u64, shift: u32) -> u64 {
    s[((x >> shift) % 64) as usize]
}

fn float(s: &[u64; 64], x: u64, shift: u32) -> f64 {
    f64::from(number(s, x, shift) as u32)
}

fn bit(x: u64, shift: u32) -> bool {
    (x >> shift) % 2 == 1
}

fn jitter(s: &[u64; 64], x: u64) -> u64 {
    let mut estimator = access::jitter(number(s, x, 8) as i64);
    estimator.update(x as i32);
    access::jitter_q4(&estimator) as u64
}

fn srtt(s: &[u64; 64], x: u64) -> u64 {
    let mut estimator = access::srtt(number(s, x, 8) as i64, number(s, x, 16) as i64, true);
    estimator.update(number(s, x, 24) as i64);
    estimator.srtt_us() as u64 ^ estimator.rttvar_us() as u64
}

fn ewma(s: &[u64; 64], x: u64) -> u64 {
    let mut detector = access::ewma(float(s, x, 8), float(s, x, 16), true);
    detector.update(float(s, x, 24));
    u64::from(detector.short() < detector.long())
}

fn ratios(s: &[u64; 64], x: u64) -> u64 {
    let scale = 0.000_000_000_232_830_643_653_869_628_906_25;
    u64::from(compute_etx(float(s, x, 8) * scale, float(s, x, 16) * scale) < 2.0)
}

fn spin(s: &[u64; 64], x: u64) -> u64 {
    let mut state = access::spin(bit(x, 1), bit(x, 2), number(s, x, 16), Some(number(s, x, 8)));
    let rtt_ms = state.rx_observe(bit(x, 3), number(s, x, 32), number(s, x, 24));
    rtt_ms.unwrap_or(0) ^ access::spin_fields(&state).2
}

/// The port's unchecked steps (306, 318, 328, 343, 357) stand beside the same calls.
fn figure(call: u64, x: u64, numbers: &[u64; 64], detector: &OwdTrendDetector) -> u64 {
    match call {
        303 | 306 => jitter(numbers, x),
        313 | 318 => srtt(numbers, x),
        323 | 328 => ewma(numbers, x),
        334 | 1334 => u64::from(detector.trend_us_per_sec() as u32),
        341 | 343 => ratios(numbers, x),
        355 | 357 => spin(numbers, x),
        _ => number(numbers, x, 8),
    }
}

/// A full window whose oldest pair stands a third from its start, as the port's does.
fn wrapped(n: usize) -> OwdTrendDetector {
    let mut samples = VecDeque::with_capacity(n);
    for _ in 0..n / 3 {
        samples.push_back((0, 0));
    }
    for _ in 0..n / 3 {
        samples.pop_front();
    }
    samples.extend(std::iter::repeat_n((0, 0), n));
    access::owd(n, samples)
}

#[inline(never)]
fn figures(call: u64, count: u64) -> u64 {
    let n = if call == 1334 { 256 } else { 32 };
    let mut numbers = [0; 64];
    let mut detector = wrapped(n);
    let mut x = START;
    let mut sum = 0u64;
    for _ in 0..count {
        x = next(x);
        numbers[(x % 64) as usize] = x >> 29;
        let slot = (x % n as u64) as usize;
        let pair = (x as u32, (x >> 24) as i64);
        access::owd_set(&mut detector, (slot + n - n / 3) % n, pair);
        sum = sum.wrapping_add(figure(call, x, &numbers, &detector));
    }
    sum
}

pub fn run() {
    let words: Vec<u64> = env::args().skip(1).map(|word| word.parse().expect("a number")).collect();
    let word = |i: usize| words.get(i).copied().unwrap_or(0);
    let call = word(0);
    let sum_of = |count| match call % 1000 / 100 {
        3 => figures(call, count),
        4 => sent::sum(call, count),
        5 => received::sum(call, count),
        6 => processed::sum(call, count),
        _ => reports(call, count),
    };
    println!("{}", sum_of(word(1)).wrapping_sub(sum_of(word(2))));
}
