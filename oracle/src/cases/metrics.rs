//! Calls 601 to 621 on any state that keeps the rule, or just not.

use crate::cases::tallies::{self, count};
use crate::cases::wire::{fields, receiver, RECEIVER};
use crate::cases::{ewma, srtt};
use crate::proto::mmp::metrics::oracle_access::Fields;
use crate::proto::mmp::wire::ReceiverReport;
use crate::records::metrics_call::{Call, PLAIN};
use crate::records::metrics_state::{Metrics, MAX_ETX, MAX_GOODPUT};
use crate::script::bounds::{
    beside, between_floats, clock, clock_within, float, floats_about, in_range, maybe, near, unit, MAX_MS, MAX_TREND, MAX_US,
};
use crate::script::case::Case;
use crate::script::rng::Rng;

/// A float from 0 to the bound: often at an end, or about it.
fn from_zero(rng: &mut Rng, bound: f64) -> f64 {
    let x = if rng.below(3) == 0 {
        let all = floats_about(bound);
        all[rng.below(all.len())]
    } else {
        float(rng, bound)
    };
    if in_range(x, 0.0, bound) {
        x
    } else {
        bound * unit(rng)
    }
}

fn any_etx(rng: &mut Rng) -> f64 {
    match rng.below(6) {
        0 => 1.0,
        1 => 1.0 + f64::EPSILON,
        2 => MAX_ETX,
        3 => f64::from_bits(MAX_ETX.to_bits() - 1),
        _ => 1.0 + 99.0 * unit(rng),
    }
}

/// Trends, not always begun, whose floats are from 0 to about the bound that a history has for them, or to 2^64.
fn any_trend(rng: &mut Rng, usual: f64) -> ewma::State {
    let bound = if rng.below(3) == 0 { MAX_TREND } else { usual };
    let short = from_zero(rng, bound);
    ewma::State {
        short,
        long: if rng.below(4) == 0 { short } else { from_zero(rng, bound) },
        initialized: rng.below(4) > 0,
    }
}

/// A lawful state.
fn any_metrics(rng: &mut Rng) -> Metrics {
    let [reports_seen, stale, no_echo, rtt_samples, rtt_zero, rtt_arith_fail] = tallies::lawful(rng);
    let fields = Fields {
        srtt: srtt::State {
            srtt_us: near(rng, MAX_US).clamp(0, MAX_US),
            rttvar_us: near(rng, MAX_US).clamp(0, MAX_US),
            initialized: rng.below(3) > 0,
        },
        rtt_trend: any_trend(rng, 4_294_967_295_000.0),
        loss_trend: any_trend(rng, 1.0),
        goodput_trend: any_trend(rng, 1_000_000.0),
        jitter_trend: any_trend(rng, 4_294_967_295.0),
        etx_trend: any_trend(rng, MAX_ETX),
        delivery_ratio_forward: from_zero(rng, 1.0),
        delivery_ratio_reverse: from_zero(rng, 1.0),
        etx: any_etx(rng),
        goodput_bps: match rng.below(4) {
            0 => [0.0, -0.0][rng.below(2)],
            1 => from_zero(rng, 1_000_000.0),
            _ => from_zero(rng, MAX_GOODPUT),
        },
        prev_rr_cum_packets: count(rng),
        prev_rr_cum_bytes: count(rng),
        prev_rr_highest_counter: count(rng),
        prev_rr_ecn_ce: rng.number(4) as u32,
        prev_rr_reorder: rng.number(4) as u32,
        prev_rr_ms: maybe(rng, clock_within),
        has_prev_rr: rng.below(4) > 0,
        prev_reverse_packets: count(rng),
        prev_reverse_highest: count(rng),
        has_prev_reverse: rng.below(3) > 0,
        reports_seen,
        rtt_samples,
        rtt_zero,
        rtt_arith_fail,
        last_rtt_ms: maybe(rng, |rng| rng.number(4) as u32),
    };
    Metrics { fields, stale, no_echo }
}

/// Breaks one clause of the rule, or not quite.
fn spoil(rng: &mut Rng, m: &mut Metrics) {
    let trend = rng.below(5);
    let mut about = |bound: f64| {
        let all = floats_about(bound);
        all[rng.below(all.len())]
    };
    let (ratio, etx, goodput, sample) = (about(1.0), about(MAX_ETX), about(MAX_GOODPUT), about(MAX_TREND));
    let f = &mut m.fields;
    match rng.below(12) {
        0 => f.prev_rr_ms = Some(beside(rng, MAX_MS)),
        1 => f.srtt.srtt_us = near(rng, MAX_US),
        2 => f.srtt.rttvar_us = [-1, MAX_US, MAX_US + 1][rng.below(3)],
        3 => f.delivery_ratio_forward = ratio,
        4 => f.delivery_ratio_reverse = ratio,
        5 => {
            f.etx = if rng.below(2) == 0 {
                etx
            } else {
                f64::from_bits(1.0f64.to_bits() - 1)
            }
        }
        6 => f.goodput_bps = goodput,
        7..=9 => {
            let mut tallies = m.tallies();
            tallies::spoil(rng, &mut tallies);
            m.set_tallies(tallies);
        }
        10 => m.trend_mut(trend).short = sample,
        _ => m.trend_mut(trend).long = sample,
    }
}

/// A count from the one before on: the same, one more or less, some more, or any.
fn on_from(rng: &mut Rng, before: u64) -> u64 {
    match rng.below(8) {
        0 => before.saturating_sub(1),
        1..=3 => before,
        4 => before.saturating_add(rng.number(8)),
        5 => before.saturating_add(between_floats(rng)),
        _ => before.saturating_add(rng.below(2000) as u64),
    }
}

/// A report: mostly past the one that is kept, or equal in all five counters, or one of them fell; some without an echo.
pub fn any_report(rng: &mut Rng, m: &Metrics) -> ReceiverReport {
    let f = &m.fields;
    let mut report = receiver(&fields(rng, &RECEIVER));
    if rng.below(8) == 0 {
        report.timestamp_echo = 0;
    }
    if rng.below(10) == 0 {
        return report;
    }
    report.highest_counter = f.prev_rr_highest_counter;
    report.cumulative_packets_recv = f.prev_rr_cum_packets;
    report.cumulative_bytes_recv = f.prev_rr_cum_bytes;
    report.ecn_ce_count = f.prev_rr_ecn_ce;
    report.cumulative_reorder_count = f.prev_rr_reorder;
    match rng.below(12) {
        0 => {}
        1 => report.highest_counter = beside(rng, report.highest_counter),
        2 => report.cumulative_packets_recv = beside(rng, report.cumulative_packets_recv),
        3 => report.cumulative_bytes_recv = beside(rng, report.cumulative_bytes_recv),
        4 => report.ecn_ce_count = beside(rng, report.ecn_ce_count.into()) as u32,
        5 => report.cumulative_reorder_count = beside(rng, report.cumulative_reorder_count.into()) as u32,
        6 => report.highest_counter = on_from(rng, report.highest_counter),
        _ => {
            let span = match rng.below(6) {
                0 => rng.number(8),
                1 => between_floats(rng),
                _ => rng.below(300) as u64,
            };
            let came = if rng.below(3) == 0 { span } else { rng.below(300) as u64 };
            report.highest_counter = report.highest_counter.saturating_add(span);
            report.cumulative_packets_recv = report.cumulative_packets_recv.saturating_add(came);
            report.cumulative_bytes_recv = on_from(rng, report.cumulative_bytes_recv);
            report.ecn_ce_count = report.ecn_ce_count.saturating_add(rng.below(3) as u32);
            report.cumulative_reorder_count = report.cumulative_reorder_count.saturating_add(rng.below(3) as u32);
        }
    }
    report
}

/// Our time: about the end of the echo and the dwell, some milliseconds past it, or any.
pub fn our_time(rng: &mut Rng, report: &ReceiverReport) -> u32 {
    let done = u64::from(report.timestamp_echo) + u64::from(report.dwell_time);
    match rng.below(6) {
        0 | 1 => beside(rng, done) as u32,
        2 => rng.number(4) as u32,
        _ => (done + rng.below(5000) as u64) as u32,
    }
}

/// A clock: about that of the report kept, some time past it, or any.
fn report_clock(rng: &mut Rng, m: &Metrics) -> u64 {
    let before = m.fields.prev_rr_ms.unwrap_or(0);
    match rng.below(4) {
        0 => beside(rng, before),
        1 => clock(rng),
        _ => before + rng.below(20_000) as u64,
    }
}

fn any_call(rng: &mut Rng, m: &Metrics, number: u64) -> Call {
    match number {
        603 => {
            let report = any_report(rng, m);
            Call::Process {
                our_timestamp_ms: our_time(rng, &report),
                report,
                now_ms: report_clock(rng, m),
            }
        }
        604 => Call::Rekey,
        605 => Call::Reverse {
            packets: on_from(rng, m.fields.prev_reverse_packets),
            highest: on_from(rng, m.fields.prev_reverse_highest),
        },
        _ => PLAIN
            .iter()
            .find(|call| call.number() == number)
            .expect("a call of the metrics")
            .clone(),
    }
}

pub fn random_case(rng: &mut Rng, number: u64) -> Case {
    let mut m = any_metrics(rng);
    if rng.below(6) == 0 {
        spoil(rng, &mut m);
    }
    let call = any_call(rng, &m, number);
    m.call(&call).0
}
