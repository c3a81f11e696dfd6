//! The loop over a metrics record and a report.

use super::sums::{next, receiver_sum, START};
use super::table::{held, is_set, option_sum, place, Numbers};
use oracle::cases::{ewma, srtt};
use oracle::proto::mmp::metrics::oracle_access::{fields, state, Fields};
use oracle::proto::mmp::metrics::{MmpMetrics, RrLog};
use oracle::proto::mmp::wire::ReceiverReport;

/// From 0 up to 1.
type Floats = [f64; 64];

/// Where one of eight rows of tallies begins.
fn row(x: u64) -> usize {
    ((x % 8) << 3) as usize
}

/// A row that keeps the port's rule: the reports seen, and the five kinds that they are the sum of, each below 2^35.
fn store_tallies(t: &mut Numbers, from: usize, x: u64) {
    let kinds = [x >> 29, x >> 30, x >> 31, x >> 32, x >> 33];
    t[from] = kinds.iter().sum();
    t[from + 1..from + 6].copy_from_slice(&kinds);
}

fn state_of(s: &Numbers, f: &Floats, from: usize, t: &Numbers, row: usize) -> MmpMetrics {
    let at = |k: usize| s[from + k];
    let trend = |k: usize, n: u64| ewma::State {
        short: f[from + k],
        long: f[from + k + 1],
        initialized: is_set(n),
    };
    state(&Fields {
        srtt: srtt::State {
            srtt_us: at(0) as i64,
            rttvar_us: at(1) as i64,
            initialized: is_set(at(2)),
        },
        rtt_trend: trend(0, at(3)),
        loss_trend: trend(2, at(4)),
        goodput_trend: trend(4, at(5)),
        jitter_trend: trend(6, at(6)),
        etx_trend: trend(8, at(7)),
        delivery_ratio_forward: f[from + 10],
        delivery_ratio_reverse: f[from + 11],
        etx: 1.0 + f[from + 12],
        goodput_bps: f[from + 13],
        prev_rr_cum_packets: at(12),
        prev_rr_cum_bytes: at(13),
        prev_rr_highest_counter: at(14),
        prev_rr_ecn_ce: (at(15) >> 8) as u32,
        prev_rr_reorder: (at(16) >> 8) as u32,
        prev_rr_ms: is_set(at(8)).then_some(at(9)),
        has_prev_rr: is_set(at(17)),
        prev_reverse_packets: at(18),
        prev_reverse_highest: at(19),
        has_prev_reverse: is_set(at(20)),
        reports_seen: t[row],
        rtt_samples: t[row + 3],
        rtt_zero: t[row + 4],
        rtt_arith_fail: t[row + 5],
        last_rtt_ms: is_set(at(10)).then_some(at(11) as u32),
    })
}

/// A report whose counters are all above the ones kept, or, where it is late, all 0.
fn report_of(s: &Numbers, from: usize, x: u64, late: bool) -> ReceiverReport {
    let at = |k: usize| s[from + k];
    let count = if late { 0 } else { 1 << 36 };
    ReceiverReport {
        highest_counter: held(at(25), count),
        cumulative_packets_recv: held(at(26), count),
        cumulative_bytes_recv: held(at(27), count),
        timestamp_echo: (at(28) >> 8) as u32,
        dwell_time: x as u16,
        max_burst_loss: (x >> 1) as u16,
        mean_burst_loss: (x >> 2) as u16,
        jitter: (x ^ 7) as u32,
        ecn_ce_count: held(at(29), count >> 5) as u32,
        owd_trend: (x ^ 9) as i32,
        burst_loss_count: (x ^ 10) as u32,
        cumulative_reorder_count: held(at(30), count >> 5) as u32,
        interval_packets_recv: (x ^ 12) as u32,
        interval_bytes_recv: (x ^ 13) as u32,
    }
}

/// The floats of a record, added up.
fn total(m: &MmpMetrics) -> f64 {
    let rtt = m.rtt_trend.short() + m.rtt_trend.long();
    let loss = m.loss_trend.short() + m.loss_trend.long();
    let goodput = m.goodput_trend.short() + m.goodput_trend.long();
    let jitter = m.jitter_trend.short() + m.jitter_trend.long();
    let etx = m.etx_trend.short() + m.etx_trend.long();
    let ratios = m.delivery_ratio_forward + m.delivery_ratio_reverse + m.etx + m.goodput_bps;
    rtt + loss + goodput + jitter + etx + ratios
}

fn state_sum(m: &MmpMetrics) -> u64 {
    let r = fields(m);
    let round_trip = m.srtt.srtt_us() as u64 ^ m.srtt.rttvar_us() as u64;
    let words = r.prev_rr_ecn_ce ^ r.prev_rr_reorder;
    let kept = r.prev_rr_cum_packets ^ r.prev_rr_cum_bytes ^ r.prev_rr_highest_counter ^ u64::from(words);
    let reverse = r.prev_reverse_packets ^ r.prev_reverse_highest;
    let counts = r.reports_seen ^ r.rtt_samples ^ r.rtt_zero ^ r.rtt_arith_fail;
    let times = option_sum(r.prev_rr_ms) ^ r.last_rtt_ms.map_or(1, u64::from);
    let trends = m.rtt_trend.initialized() & m.loss_trend.initialized() & m.goodput_trend.initialized();
    let others = m.jitter_trend.initialized() & m.etx_trend.initialized();
    let begun = m.srtt.initialized() & trends & others & r.has_prev_rr & r.has_prev_reverse;
    let flags = u64::from(begun) ^ u64::from(total(m) < 8.0);
    round_trip ^ kept ^ reverse ^ counts ^ times ^ flags
}

fn log_sum(log: &RrLog) -> u64 {
    match log {
        RrLog::None => 1,
        RrLog::Stale {
            prev_highest,
            prev_packets,
            prev_bytes,
        } => prev_highest ^ prev_packets ^ prev_bytes,
        RrLog::RttSample { rtt_ms, srtt_ms } => u64::from(*rtt_ms) ^ u64::from(*srtt_ms < 8.0),
        RrLog::InvalidRtt => 3,
    }
}

/// The commit counts no stale report and none without an echo: the port's two counts are raised here.
fn others_sum(stale: u64, no_echo: u64, log: &RrLog) -> u64 {
    match log {
        RrLog::None => stale ^ no_echo.wrapping_add(1),
        RrLog::Stale { .. } => stale.wrapping_add(1) ^ no_echo,
        _ => stale ^ no_echo,
    }
}

/// Our time is after the echo and the dwell.
fn called(call: u64, x: u64, s: &Numbers, f: &Floats, t: &Numbers) -> u64 {
    let from = place(x);
    let row = row(x >> 20);
    let mut state = state_of(s, f, from, t, row);
    let (stale, no_echo) = (t[row + 1], t[row + 2]);
    let rr = report_of(s, from, x, call == 1603);
    let given = receiver_sum(&rr);
    let now_ms = s[from + 31];
    match call {
        603 | 1603 => {
            let ours = (s[from + 28] >> 8 | 1 << 28) as u32;
            let (first_srtt, log) = state.process_receiver_report(&rr, ours, now_ms);
            given ^ state_sum(&state) ^ others_sum(stale, no_echo, &log) ^ log_sum(&log) ^ u64::from(first_srtt)
        }
        _ => given ^ state_sum(&state) ^ stale ^ no_echo ^ now_ms,
    }
}

#[inline(never)]
pub fn sum(call: u64, count: u64) -> u64 {
    let mut numbers = [0; 64];
    let mut floats = [0.0; 64];
    let mut tallies = [0; 64];
    let mut x = START;
    let mut sum = 0u64;
    for _ in 0..count {
        x = next(x);
        let slot = (x % 64) as usize;
        numbers[slot] = x >> 29;
        floats[slot] = f64::from(x as u32) * 0.000_000_000_232_830_643_653_869_628_906_25;
        store_tallies(&mut tallies, row(x >> 16), x);
        sum = sum.wrapping_add(called(call, x, &numbers, &floats, &tallies));
    }
    sum
}
