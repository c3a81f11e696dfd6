//! Calls 631 to 637: the figures that a report moves, each from a few numbers, by what they leave in the commit's record.

use crate::cases::tallies;
use crate::cases::wire::{fields, receiver, receiver_fields, RECEIVER};
use crate::proto::mmp::metrics::oracle_access::{fields as taken_apart, state, Fields};
use crate::proto::mmp::metrics::{MmpMetrics, RrLog};
use crate::proto::mmp::wire::ReceiverReport;
use crate::records::metrics_state::{Metrics, MAX_GOODPUT};
use crate::script::bounds::{
    beside, between_floats, bits, clock, float, floats_about, in_range, maybe, near, neighbour, optional, CLOCKS, MAX_US,
};
use crate::script::case::{Case, Numbers};
use crate::script::rng::{boundaries, Rng};

fn new() -> Fields {
    taken_apart(&MmpMetrics::new())
}

/// A report with every field 0 but the highest counter.
fn bare() -> ReceiverReport {
    receiver(&[1, 0, 0, 0, 0, 0, 0, 0, 0, 0, 0, 0, 0, 0])
}

/// The counters kept are highest, packets, bytes, ECN and reorders.
fn is_stale(kept: [u64; 5], report: &ReceiverReport) -> Case {
    let mut f = new();
    f.has_prev_rr = true;
    [f.prev_rr_highest_counter, f.prev_rr_cum_packets, f.prev_rr_cum_bytes] = [kept[0], kept[1], kept[2]];
    [f.prev_rr_ecn_ce, f.prev_rr_reorder] = [kept[3] as u32, kept[4] as u32];
    let (_, log) = state(&f).process_receiver_report(report, 0, 0);
    let stale = matches!(log, RrLog::Stale { .. });
    let line = Numbers::of(&[631]).and(&kept).and(&receiver_fields(report));
    Case::new(line, (Numbers::of(&[stale.into()]), false))
}

fn round_trip(report: &ReceiverReport, our_timestamp_ms: u32) -> Case {
    let mut s = MmpMetrics::new();
    let (_, log) = s.process_receiver_report(report, our_timestamp_ms, 0);
    let answer = match log {
        RrLog::RttSample { rtt_ms, .. } => [1, rtt_ms.into()],
        RrLog::InvalidRtt if s.rtt_zero() == 1 => [2, 0],
        RrLog::InvalidRtt => [3, 0],
        _ => [0, 0],
    };
    let line = Numbers::of(&[632]).and(&receiver_fields(report)).and(&[our_timestamp_ms.into()]);
    Case::new(line, (Numbers::of(&answer), false))
}

fn smoothed_ms(srtt_us: i64, initialized: bool) -> Case {
    let mut f = new();
    (f.srtt.srtt_us, f.srtt.initialized) = (srtt_us, true);
    let ms = state(&f).srtt_ms().expect("the round trip has begun");
    let line = Numbers::of(&[633, srtt_us as u64, 7, initialized.into()]);
    Case::new(line, (Numbers::of(&[bits(ms)]), false))
}

fn tallies_ok(tallies: [u64; 6]) -> Case {
    let mut m = Metrics::of(&MmpMetrics::new());
    m.set_tallies(tallies);
    let answer = Numbers::of(&[m.keeps().into()]);
    Case::new(Numbers::of(&[634]).and(&tallies), (answer, true))
}

/// The commit asks for no ratio over a span of 0.
fn delivery_ratio(packets: u64, span: u64) -> Case {
    let mut f = new();
    f.has_prev_reverse = true;
    let mut s = state(&f);
    s.update_reverse_delivery(packets, span);
    let ratio = if span == 0 {
        (packets as f64 / 0.0).clamp(0.0, 1.0)
    } else {
        s.delivery_ratio_reverse
    };
    Case::new(Numbers::of(&[635, packets, span]), (Numbers::of(&[bits(ratio)]), span == 0))
}

fn goodput_ok(x: f64) -> Case {
    let answer = Numbers::of(&[in_range(x, 0.0, MAX_GOODPUT).into()]);
    Case::new(Numbers::of(&[636, x.to_bits()]), (answer, true))
}

fn goodput_after(goodput: f64, bytes: u64, prev_ms: Option<u64>, now_ms: u64) -> Case {
    let mut f = new();
    (f.goodput_bps, f.prev_rr_ms, f.has_prev_rr) = (goodput, prev_ms, true);
    let mut report = bare();
    report.cumulative_bytes_recv = bytes;
    let mut s = state(&f);
    s.process_receiver_report(&report, 0, now_ms);
    let [there, ms] = optional(prev_ms);
    let line = Numbers::of(&[637, goodput.to_bits(), bytes, there, ms, now_ms]);
    Case::new(line, (Numbers::of(&[bits(s.goodput_bps())]), false))
}

pub fn boundary_cases(rng: &mut Rng) -> Vec<Case> {
    let mut cases = vec![];
    for n in boundaries(8) {
        let kept = [n, n, n, n & 0xffff_ffff, n & 0xffff_ffff];
        let mut report = receiver(&[n, n, n, 0, 0, 0, 0, 0, kept[3], 0, 0, kept[4], 0, 0]);
        cases.push(is_stale(kept, &report));
        report.cumulative_packets_recv = report.cumulative_packets_recv.saturating_add(1);
        cases.push(is_stale(kept, &report));
        report.cumulative_bytes_recv = report.cumulative_bytes_recv.saturating_sub(1);
        cases.push(is_stale(kept, &report));
        for m in boundaries(8).into_iter().step_by(6) {
            cases.push(delivery_ratio(n, m));
        }
        cases.push(tallies_ok([n, n, 0, 0, 0, 0]));
        cases.push(tallies_ok([n, 0, 0, n.saturating_sub(1), 1, 0]));
        cases.push(tallies_ok([n, 0, 1, 1, 1, n]));
        cases.push(smoothed_ms(n as i64, n % 2 == 0));
    }
    cases.extend(tallies::edges().into_iter().map(tallies_ok));
    about_counters(&mut cases);
    about_rounding(&mut cases);
    for (echo, dwell) in [
        (0, 9),
        (1, 0),
        (u32::MAX, 0),
        (u32::MAX, 65_535),
        (u32::MAX - 7, 7),
        (u32::MAX - 6, 7),
        (1000, 20),
    ] {
        let mut report = bare();
        (report.timestamp_echo, report.dwell_time) = (echo, dwell);
        for ours in [0, 1, 2, 1019, 1020, 1030, u32::MAX - 1, u32::MAX] {
            cases.push(round_trip(&report, ours));
        }
    }
    for x in [floats_about(MAX_GOODPUT), floats_about(1.0)].concat() {
        cases.push(goodput_ok(x));
        for bytes in [0, 1, u64::MAX] {
            cases.push(goodput_after(x, bytes, None, 7));
            for now_ms in CLOCKS {
                cases.push(goodput_after(x, bytes, Some(1), now_ms));
            }
        }
    }
    (631..=637).for_each(|call| (0..4).for_each(|_| cases.push(random_case(rng, call))));
    cases
}

/// Each of the five counters one less, and one more, beside the others as they were.
fn about_counters(cases: &mut Vec<Case>) {
    let kept: [u64; 5] = [110, 100, 80_000, 3, 2];
    for i in 0..5 {
        for step in [-1, 1] {
            let mut next = kept;
            next[i] = next[i].wrapping_add_signed(step);
            let [highest, packets, bytes, ecn, reorders] = next;
            let report = receiver(&[highest, packets, bytes, 0, 0, 0, 0, 0, ecn, 0, 0, reorders, 0, 0]);
            cases.push(is_stale(kept, &report));
        }
    }
}

/// Bytes in a second, so that the goodput is the number as a float: half way between two floats, the even one below and above, and beside that.
fn about_rounding(cases: &mut Vec<Case>) {
    for dropped in 1..12 {
        for kept in [1 << 52, (1 << 52) + 1, (1 << 53) - 2, (1 << 53) - 1] {
            let half: u64 = (kept << dropped) | (1 << (dropped - 1));
            for n in [half - 1, half, half + 1] {
                cases.push(goodput_after(0.0, n, Some(0), 1000));
            }
        }
    }
}

pub fn random_case(rng: &mut Rng, call: u64) -> Case {
    let mut report = receiver(&fields(rng, &RECEIVER));
    match call {
        631 => {
            let all = receiver_fields(&report);
            let mut kept = [all[0], all[1], all[2], all[8], all[11]];
            let i = rng.below(5);
            if rng.below(2) == 0 {
                kept[i] = beside(rng, kept[i]) & if i < 3 { u64::MAX } else { 0xffff_ffff };
            }
            is_stale(kept, &report)
        }
        632 => {
            if rng.below(2) == 0 {
                report.timestamp_echo = u32::MAX - rng.below(70_000) as u32;
            }
            let done = u64::from(report.timestamp_echo) + u64::from(report.dwell_time);
            let ours = beside(rng, done).saturating_add(rng.below(3000) as u64 * rng.below(2) as u64);
            round_trip(&report, ours.min(u32::MAX.into()) as u32)
        }
        633 => smoothed_ms(near(rng, MAX_US), rng.below(2) == 0),
        634 => {
            let mut all = tallies::lawful(rng);
            if rng.below(2) == 0 {
                tallies::spoil(rng, &mut all);
            }
            tallies_ok(all)
        }
        635 => {
            let span = whole(rng);
            delivery_ratio(if rng.below(2) == 0 { beside(rng, span) } else { whole(rng) }, span)
        }
        636 if rng.below(2) == 0 => goodput_ok(neighbour(rng, MAX_GOODPUT)),
        636 => goodput_ok(float(rng, MAX_GOODPUT)),
        _ => {
            let prev_ms = maybe(rng, clock);
            let now_ms = prev_ms.unwrap_or(0).saturating_add(rng.below(9000) as u64);
            let goodput = if rng.below(4) == 0 { 0.0 } else { float(rng, MAX_GOODPUT) };
            goodput_after(goodput, whole(rng), prev_ms, if rng.below(4) == 0 { clock(rng) } else { now_ms })
        }
    }
}

/// A number that becomes a float: any, or one that is to be rounded.
fn whole(rng: &mut Rng) -> u64 {
    match rng.below(4) {
        0 => between_floats(rng),
        _ => rng.number(8),
    }
}
