//! Calls 601 to 621 at the boundaries: every clause of the rule and every question, from both sides.

use crate::cases::wire::receiver;
use crate::cases::{ewma, tallies};
use crate::proto::mmp::metrics::MmpMetrics;
use crate::proto::mmp::wire::ReceiverReport;
use crate::records::metrics_call::{Call, PLAIN};
use crate::records::metrics_state::{Metrics, MAX_ETX, MAX_GOODPUT};
use crate::records::report_kind::Kind;
use crate::script::bounds::{about, floats_about, CLOCKS, MAX_MS, MAX_TREND, MAX_US};
use crate::script::case::{Case, Numbers};

fn new(call: u64) -> Case {
    let s = if call == 601 { MmpMetrics::new() } else { MmpMetrics::default() };
    Case::new(Numbers::of(&[call]), (Numbers::of(&Metrics::of(&s).numbers()), false))
}

/// A link that has had some reports, of each kind another number.
fn plain() -> Metrics {
    let mut m = Metrics::of(&MmpMetrics::new());
    let trend = |short, long| ewma::State {
        short,
        long,
        initialized: true,
    };
    let f = &mut m.fields;
    (f.srtt.srtt_us, f.srtt.rttvar_us, f.srtt.initialized) = (40_125, 7_000, true);
    (f.rtt_trend, f.loss_trend) = (trend(41_000.0, 39_000.5), trend(0.125, 0.0625));
    (f.goodput_trend, f.jitter_trend) = (trend(9_000.0, 8_000.0), trend(300.0, 250.0));
    f.etx_trend = trend(1.5, 1.25);
    (f.delivery_ratio_forward, f.delivery_ratio_reverse) = (0.875, 0.75);
    (f.etx, f.goodput_bps) = (1.5, 12_000.0);
    (f.prev_rr_highest_counter, f.prev_rr_cum_packets, f.prev_rr_cum_bytes) = (110, 100, 80_000);
    (f.prev_rr_ecn_ce, f.prev_rr_reorder) = (3, 2);
    (f.prev_rr_ms, f.has_prev_rr) = (Some(5000), true);
    (f.prev_reverse_packets, f.prev_reverse_highest, f.has_prev_reverse) = (90, 95, true);
    f.last_rtt_ms = Some(40);
    m.set_tallies([15, 3, 5, 4, 1, 2]);
    m
}

/// A report that is past the plain state's, of a frame that was 40 ms under way.
fn report() -> ReceiverReport {
    receiver(&[130, 116, 90_000, 1000, 20, 3, 256, 310, 3, 0, 1, 2, 16, 10_000])
}

fn process(report: ReceiverReport, our_timestamp_ms: u32, now_ms: u64) -> Call {
    Call::Process {
        report,
        our_timestamp_ms,
        now_ms,
    }
}

const KINDS: [Kind; 5] = [Kind::Stale, Kind::NoEcho, Kind::Sample, Kind::Zero, Kind::Failure];

/// A report of each kind on the plain state, with our time.
fn of_kind(kind: Kind) -> (ReceiverReport, u32) {
    let mut report = report();
    match kind {
        Kind::Stale => report.highest_counter = 0,
        Kind::NoEcho => report.timestamp_echo = 0,
        _ => {}
    }
    let ours = match kind {
        Kind::Zero => 1020,
        Kind::Failure => 1019,
        _ => 1060,
    };
    (report, ours)
}

/// The calls that move the state, the rule, and one of the others in turn.
fn some(i: usize, m: &Metrics, cases: &mut Vec<Case>) {
    let reverse = Call::Reverse { packets: 93, highest: 99 };
    let other = PLAIN[i % PLAIN.len()].clone();
    let calls = [process(report(), 1060, 7000), Call::Rekey, reverse, other, Call::KeepsRule];
    cases.extend(calls.iter().map(|call| m.call(call).0));
}

/// States at both sides of each clause of the rule, and lawful ones that no history comes to.
fn edges() -> Vec<Metrics> {
    let mut all = vec![plain(), Metrics::of(&MmpMetrics::new())];
    let mut with = |change: &dyn Fn(&mut Metrics)| {
        let mut m = plain();
        change(&mut m);
        all.push(m);
    };
    for ms in [0, MAX_MS, MAX_MS + 1, u64::MAX] {
        with(&|m| m.fields.prev_rr_ms = Some(ms));
    }
    for us in about(MAX_US) {
        with(&|m| m.fields.srtt.srtt_us = us);
        with(&|m| m.fields.srtt.rttvar_us = us);
    }
    for x in floats_about(MAX_TREND) {
        for i in 0..5 {
            with(&|m| m.trend_mut(i).short = x);
            with(&|m| m.trend_mut(i).long = x);
        }
    }
    for x in floats_about(1.0) {
        with(&|m| m.fields.delivery_ratio_forward = x);
        with(&|m| m.fields.delivery_ratio_reverse = x);
    }
    for x in [floats_about(1.0), floats_about(MAX_ETX)].concat() {
        with(&|m| m.fields.etx = x);
        with(&|m| (m.fields.etx_trend.short, m.fields.etx_trend.long) = (x, x));
    }
    for x in floats_about(MAX_GOODPUT) {
        with(&|m| m.fields.goodput_bps = x);
    }
    for tallies in tallies::edges() {
        with(&|m| m.set_tallies(tallies));
    }
    with(&|m| m.fields.prev_rr_ms = None);
    with(&|m| m.fields.has_prev_rr = false);
    with(&|m| m.fields.has_prev_reverse = false);
    with(&|m| m.fields.srtt.initialized = false);
    with(&|m| m.fields.last_rtt_ms = None);
    with(&|m| (0..5).for_each(|i| m.trend_mut(i).initialized = false));
    all
}

pub fn boundary_cases() -> Vec<Case> {
    let mut cases = vec![new(601), new(602)];
    for (i, m) in edges().iter().enumerate() {
        some(i, m, &mut cases);
    }
    about_accessors(&mut cases);
    about_staleness(&mut cases);
    about_round_trips(&mut cases);
    about_deltas(&mut cases);
    about_order(&mut cases);
    about_kinds(&mut cases);
    cases
}

/// Every accessor of a new state, of one in the middle, and of one that breaks the rule.
fn about_accessors(cases: &mut Vec<Case>) {
    let mut states = vec![Metrics::of(&MmpMetrics::new()), plain(), plain(), plain()];
    states[2].fields.goodput_bps = -1.0;
    states[3].set_tallies([1, 0, 0, 0, 0, 0]);
    for srtt_us in [-1, (1 << 53) + 1, i64::MAX, i64::MIN] {
        let mut m = plain();
        m.fields.srtt.srtt_us = srtt_us;
        states.push(m);
    }
    for m in states {
        cases.extend(PLAIN.iter().map(|call| m.call(call).0));
    }
}

/// Each of the five counters one less, the same and one more, beside each of the others.
fn about_staleness(cases: &mut Vec<Case>) {
    let same = |report: &mut ReceiverReport| {
        (report.highest_counter, report.cumulative_packets_recv, report.cumulative_bytes_recv) = (110, 100, 80_000);
        (report.ecn_ce_count, report.cumulative_reorder_count) = (3, 2);
    };
    let mut first = plain();
    first.fields.has_prev_rr = false;
    for moves in 0..243 {
        let step = |i: u32| u64::from(moves / 3u32.pow(i) % 3);
        let mut report = report();
        same(&mut report);
        report.highest_counter = report.highest_counter - 1 + step(0);
        report.cumulative_packets_recv = report.cumulative_packets_recv - 1 + step(1);
        report.cumulative_bytes_recv = report.cumulative_bytes_recv - 1 + step(2);
        report.ecn_ce_count = report.ecn_ce_count - 1 + step(3) as u32;
        report.cumulative_reorder_count = report.cumulative_reorder_count - 1 + step(4) as u32;
        let call = process(report, 1060, 7000);
        cases.push(plain().call(&call).0);
        if moves % 9 == 0 {
            cases.push(first.call(&call).0);
        }
    }
}

/// Our time beside the echo and the dwell, an echo of 0, and sums past 32 bits.
fn about_round_trips(cases: &mut Vec<Case>) {
    let top = u32::MAX;
    for (echo, dwell) in [
        (0, 0),
        (0, 20),
        (1, 0),
        (1000, 20),
        (1000, 65_535),
        (top, 0),
        (top - 20, 20),
        (top - 19, 20),
        (top, 65_535),
    ] {
        let done = u64::from(echo) + u64::from(dwell);
        let turns = [done.saturating_sub(1), done, done + 1, done + 40].map(|ms| ms.min(top.into()) as u32);
        for ours in turns.into_iter().chain([0, top]) {
            for initialized in [false, true] {
                let mut m = plain();
                m.fields.srtt.initialized = initialized;
                let mut report = report();
                (report.timestamp_echo, report.dwell_time) = (echo, dwell);
                cases.push(m.call(&process(report, ours, 7000)).0);
            }
        }
    }
}

/// Spans, packets, bytes and times of 0, of 1 and at the ends.
fn about_deltas(cases: &mut Vec<Case>) {
    let ends = [0, 1, 3, 7, (1 << 53) + 1, (1 << 53) + 3, u64::MAX - 1, u64::MAX];
    for a in ends {
        for b in ends {
            let mut m = plain();
            let f = &mut m.fields;
            (f.prev_rr_highest_counter, f.prev_rr_cum_packets, f.prev_rr_cum_bytes) = (0, 0, 0);
            (f.prev_reverse_packets, f.prev_reverse_highest) = (0, 0);
            let mut report = report();
            (report.highest_counter, report.cumulative_packets_recv) = (a, b);
            (report.cumulative_bytes_recv, report.jitter) = (b, a as u32);
            cases.push(m.call(&process(report.clone(), 1060, 7000)).0);
            cases.push(m.call(&Call::Reverse { packets: b, highest: a }).0);
            for (goodput_bps, now_ms) in [
                (0.0, 5001),
                (-0.0, 5000),
                (f64::from_bits(1), 6000),
                (MAX_GOODPUT, MAX_MS),
                (7.0, 0),
            ] {
                m.fields.goodput_bps = goodput_bps;
                cases.push(m.call(&process(report.clone(), 1060, now_ms)).0);
            }
            (m.fields.prev_reverse_packets, m.fields.prev_reverse_highest) = (3, 3);
            cases.push(m.call(&Call::Reverse { packets: b, highest: a }).0);
        }
    }
    for ms in CLOCKS {
        cases.push(plain().call(&process(report(), 1060, ms)).0);
    }
}

/// Every set of questions answered no: the first of them refuses. The rule is broken by a float, or by the kinds that do not add up.
fn about_order(cases: &mut Vec<Case>) {
    for no in 0..16 {
        let asks = |bit: u32| no & (1 << bit) > 0;
        let mut m = plain();
        if asks(0) {
            m.fields.etx = f64::NAN;
        }
        if asks(2) {
            m.set_tallies([u64::MAX, 3, 5, 4, 1, u64::MAX - 13]);
        }
        if asks(3) {
            m.no_echo -= 1;
        }
        let now_ms = if asks(1) { MAX_MS + 1 } else { 7000 };
        for kind in KINDS {
            let (report, ours) = of_kind(kind);
            cases.push(m.call(&process(report, ours, now_ms)).0);
        }
    }
}

/// A report of each kind where all reports before it were of one kind: the first ones, the last that fits, and where the count is full.
fn about_kinds(cases: &mut Vec<Case>) {
    for held in 1..6 {
        for kind in KINDS {
            for seen in [0, 1, u64::MAX - 2, u64::MAX - 1, u64::MAX] {
                let mut m = plain();
                let mut tallies = [seen, 0, 0, 0, 0, 0];
                tallies[held] = seen;
                m.set_tallies(tallies);
                let (report, ours) = of_kind(kind);
                let (case, after) = m.call(&process(report, ours, 7000));
                cases.push(case);
                cases.extend([Call::Rekey, Call::Seen, Call::Stale, Call::NoEcho].map(|call| after.call(&call).0));
            }
        }
    }
    from_new(cases);
}

/// Every kind in a history from new, with each count after each call: the same report again is stale, but for a first one after a rekey.
fn from_new(cases: &mut Vec<Case>) {
    let (no_echo, ours) = of_kind(Kind::NoEcho);
    let (mut sample, mut zero, mut failure) = (report(), report(), report());
    (sample.highest_counter, zero.highest_counter, failure.highest_counter) = (131, 132, 133);
    let calls = [
        process(no_echo.clone(), ours, 1000),
        process(no_echo.clone(), ours, 2000),
        process(sample, 1060, 3000),
        process(no_echo.clone(), ours, 4000),
        process(zero, 1020, 5000),
        Call::Reverse { packets: 93, highest: 99 },
        process(failure.clone(), 1019, 6000),
        Call::Rekey,
        process(failure, 1019, 7000),
        process(no_echo, ours, 8000),
    ];
    let told = [
        [1, 0, 1, 0, 0, 0],
        [2, 1, 1, 0, 0, 0],
        [3, 1, 1, 1, 0, 0],
        [4, 2, 1, 1, 0, 0],
        [5, 2, 1, 1, 1, 0],
        [5, 2, 1, 1, 1, 0],
        [6, 2, 1, 1, 1, 1],
        [6, 2, 1, 1, 1, 1],
        [7, 2, 1, 1, 1, 2],
        [8, 3, 1, 1, 1, 2],
    ];
    let mut m = Metrics::of(&MmpMetrics::new());
    for (call, tallies) in calls.iter().zip(told) {
        let (case, after) = m.call(call);
        cases.push(case);
        assert!(after.tallies() == tallies, "the history's kinds are others");
        cases.extend(PLAIN.iter().map(|call| after.call(call).0));
        m = after;
    }
}
