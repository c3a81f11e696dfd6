//! What the commit does where `SenderState` refuses: the smallest input of each, and the commit run on it.

use crate::cases::sender;
use crate::differences::{yes, Points};
use crate::proto::mmp::sender::oracle_access as sender_access;
use crate::proto::mmp::sender::SenderState;
use crate::records::sender_state::{Call as OnSender, Sender};
use crate::script::bounds::{MAX_FRAME, MAX_MS, MAX_US};

pub fn rows(points: &mut Points) {
    let new = Sender::of(&SenderState::new());
    let with = |change: &dyn Fn(&mut Sender)| {
        let mut s = new;
        change(&mut s);
        s
    };
    let frame = |bytes| OnSender::RecordSent {
        counter: 0,
        timestamp: 0,
        bytes,
    };
    // The commit's answer, then the fields that show the difference.
    let mut on = |name: &str, input: &str, s: Sender, call: OnSender, tell: &dyn Fn(&[u64], &sender_access::Fields) -> String| {
        let run = || {
            let mut c = sender_access::state(&s.fields);
            let values = call.run(&mut c);
            tell(&values, &sender_access::fields(&c))
        };
        points.row(name, input, run, || s.call(call).0);
    };
    let full = with(&|s| s.fields.cumulative_packets_sent = u64::MAX);
    let full_bytes = with(&|s| s.fields.cumulative_bytes_sent = u64::MAX);
    let late = with(&|s| s.fields.report_interval_ms = MAX_MS + 1);
    let data = with(&|s| s.fields.interval_has_data = true);
    let failed = with(&|s| s.fields.consecutive_send_failures = u32::MAX);
    let name = "`SenderState::record_sent`";
    on(name, "report interval 2^48, a frame of 0 bytes", late, frame(0), &|_, f| {
        format!("packets: {}", f.cumulative_packets_sent)
    });
    on(name, "a new state, a frame of 2^32 bytes", new, frame(MAX_FRAME + 1), &|_, f| {
        format!(
            "interval's bytes {}, lifetime bytes {}",
            f.interval_bytes_sent, f.cumulative_bytes_sent
        )
    });
    on(name, "2^64 − 1 packets, a frame of 0 bytes", full, frame(0), &|_, f| {
        format!("packets: {}", f.cumulative_packets_sent)
    });
    on(name, "2^64 − 1 bytes, a frame of 1 byte", full_bytes, frame(1), &|_, f| {
        format!("bytes: {}", f.cumulative_bytes_sent)
    });
    on(
        "`SenderState::build_report`",
        "data, clock 2^48",
        data,
        OnSender::BuildReport(MAX_MS + 1),
        &|v, f| {
            let some = if v[0] == 1 { "a report" } else { "none" };
            format!("{some}, last report at {}", f.last_report_ms.unwrap_or(0))
        },
    );
    on(
        "`SenderState::should_send_report`",
        "data, clock 2^48",
        data,
        OnSender::ShouldSend(MAX_MS + 1),
        &|v, _| yes(v[0]),
    );
    on(
        "`SenderState::record_send_failure`",
        "2^32 − 1 failures",
        failed,
        OnSender::Failure,
        &|v, _| format!("failures: {}", v[0]),
    );
    let reported = with(&|s| (s.fields.last_report_ms, s.fields.interval_has_data) = (Some(MAX_MS + 1), true));
    on(
        "`SenderState::should_send_report`",
        "data, last report at 2^48, clock 0",
        reported,
        OnSender::ShouldSend(0),
        &|v, _| yes(v[0]),
    );
    on(
        "`SenderState::report_interval_ms`, and each accessor",
        "report interval 2^48",
        late,
        OnSender::Interval,
        &|v, _| v[0].to_string(),
    );
    let interval = |_: &[u64], f: &sender_access::Fields| format!("interval {} ms", f.report_interval_ms);
    for (srtt_us, input) in [(MAX_US + 1, "smoothed value 2^42 + 1"), (1 << 62, "smoothed value 2^62")] {
        on(
            "`SenderState::update_report_interval_from_srtt`",
            input,
            new,
            OnSender::FromSrtt(srtt_us),
            &interval,
        );
    }
    let name = "`SenderState::update_report_interval_with_bounds`";
    for (srtt_us, min_ms, max_ms, input) in [
        (1, 0, MAX_MS + 1, "smoothed value 1, bounds 0 and 2^48"),
        (0, 0, MAX_MS + 1, "smoothed value 0, bounds 0 and 2^48"),
        (MAX_US + 1, 0, 0, "smoothed value 2^42 + 1, bounds 0 and 0"),
        (1, 1, 0, "smoothed value 1, bounds 1 and 0"),
    ] {
        on(name, input, new, OnSender::WithBounds(srtt_us, min_ms, max_ms), &interval);
    }
    let cold_start = || format!("interval {} ms", SenderState::new_with_cold_start(MAX_MS + 1).report_interval_ms());
    points.row("`SenderState::new_with_cold_start`", "2^48 ms", cold_start, || {
        sender::new_with_cold_start(MAX_MS + 1)
    });
}
