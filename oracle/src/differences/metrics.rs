//! What the commit does where `MmpMetrics` refuses: the smallest input of each, and the commit run on it.

use crate::cases::wire::receiver as report_of;
use crate::differences::Points;
use crate::proto::mmp::metrics::oracle_access as metrics_access;
use crate::proto::mmp::metrics::MmpMetrics;
use crate::records::metrics_call::Call as OnMetrics;
use crate::records::metrics_state::Metrics;
use crate::script::bounds::MAX_MS;

fn float(bits: u64) -> String {
    f64::from_bits(bits).to_string()
}

/// A report with every field 0.
fn process(now_ms: u64) -> OnMetrics {
    OnMetrics::Process {
        report: report_of(&[0; 14]),
        our_timestamp_ms: 0,
        now_ms,
    }
}

pub fn rows(points: &mut Points) {
    refused(points);
    uncounted(points);
}

/// Document 02, W-205: the first report of each kind that the commit does not count.
fn uncounted(points: &mut Points) {
    let new = Metrics::of(&MmpMetrics::new());
    let mut kept = new;
    kept.fields.has_prev_rr = true;
    for (m, input, place, kind) in [
        (new, "a first report, echo 0", 46, "without an echo"),
        (kept, "a stale report", 45, "stale"),
    ] {
        points.shown(
            "`MmpMetrics::process_receiver_report`",
            input,
            || {
                let mut c = metrics_access::state(&m.fields);
                process(0).run(&mut c);
                format!("reports seen: {}", c.reports_seen())
            },
            || m.call(&process(0)).0,
            |numbers| format!("reports seen: {}, {kind}: {}", numbers[39], numbers[place]),
        );
    }
}

fn refused(points: &mut Points) {
    let new = Metrics::of(&MmpMetrics::new());
    let with = |change: &dyn Fn(&mut metrics_access::Fields)| {
        let mut m = new;
        change(&mut m.fields);
        m
    };
    type Tells = dyn Fn(&[u64], &metrics_access::Fields) -> String;
    let mut on = |name: &str, input: &str, m: Metrics, call: OnMetrics, tell: &Tells| {
        let run = || {
            let mut c = metrics_access::state(&m.fields);
            let values = call.run(&mut c);
            tell(&values, &metrics_access::fields(&c))
        };
        points.row(name, input, run, || m.call(&call).0);
    };
    let name = "`MmpMetrics::process_receiver_report`";
    let seen = |_: &[u64], f: &metrics_access::Fields| format!("reports seen: {}", f.reports_seen);
    let kept = with(&|f| f.has_prev_rr = true);
    let [mut full, mut full_kept] = [new, kept];
    full.set_tallies([u64::MAX, u64::MAX, 0, 0, 0, 0]);
    full_kept.set_tallies([u64::MAX, u64::MAX, 0, 0, 0, 0]);
    on(name, "2^64 − 1 stale reports seen, a first report", full, process(0), &seen);
    on(name, "2^64 − 1 stale reports seen, a stale report", full_kept, process(0), &seen);
    on(name, "a new state, clock 2^48", new, process(MAX_MS + 1), &|_, f| {
        format!("report kept from {}", f.prev_rr_ms.unwrap_or(0))
    });
    on(name, "a stale report, clock 2^48", kept, process(MAX_MS + 1), &seen);
    let nan = with(&|f| (f.jitter_trend.short, f.jitter_trend.initialized) = (f64::NAN, true));
    on(name, "jitter trend NaN, a first report", nan, process(0), &|_, f| {
        format!("jitter trend {}", f.jitter_trend.short)
    });
    let tallied = with(&|f| f.rtt_samples = 1);
    on(
        name,
        "1 sample beside 0 reports seen, a first report",
        tallied,
        process(0),
        &|_, f| format!("samples: {}, reports seen: {}", f.rtt_samples, f.reports_seen),
    );
    let of_no_kind = with(&|f| f.reports_seen = 1);
    on(name, "1 report seen, 0 of each kind, a first report", of_no_kind, process(0), &seen);
    let reverse = OnMetrics::Reverse { packets: 0, highest: 1 };
    let etx = with(&|f| f.etx = 0.99);
    on(
        "`MmpMetrics::update_reverse_delivery`",
        "ETX 0.99, the first update",
        etx,
        reverse.clone(),
        &|_, f| format!("ETX {}", f.etx),
    );
    let forward = with(&|f| (f.delivery_ratio_forward, f.has_prev_reverse) = (f64::NAN, true));
    on(
        "`MmpMetrics::update_reverse_delivery`",
        "forward ratio NaN, 0 of 1 packets",
        forward,
        reverse,
        &|_, f| format!("ETX {}", f.etx),
    );
    let late = with(&|f| f.prev_rr_ms = Some(MAX_MS + 1));
    on(
        "`MmpMetrics::reset_for_rekey`",
        "report kept from 2^48",
        late,
        OnMetrics::Rekey,
        &|_, f| if f.prev_rr_ms.is_none() { "none kept" } else { "one kept" }.into(),
    );
    let below = with(&|f| (f.srtt.srtt_us, f.srtt.initialized) = (-1, true));
    on(
        "`MmpMetrics::srtt_ms`, and each accessor",
        "SRTT −1",
        below,
        OnMetrics::SrttMs,
        &|v, _| float(v[1]),
    );
    let ratio = with(&|f| f.delivery_ratio_forward = 1.5);
    on(
        "`MmpMetrics::loss_rate`",
        "forward ratio 1.5",
        ratio,
        OnMetrics::LossRate,
        &|v, _| float(v[0]),
    );
    let goodput = with(&|f| f.goodput_bps = -1.0);
    on("`MmpMetrics::goodput_bps`", "goodput −1", goodput, OnMetrics::Goodput, &|v, _| {
        float(v[0])
    });
}
