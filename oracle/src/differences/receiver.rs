//! What the commit does where `ReceiverState` refuses: the smallest input of each, and the commit run on it.

use crate::cases::owd::{ring_of, ring_with};
use crate::cases::receiver_edges;
use crate::differences::{yes, Points};
use crate::proto::mmp::algorithms::oracle_access::owd;
use crate::proto::mmp::receiver::oracle_access as receiver_access;
use crate::proto::mmp::receiver::ReceiverState;
use crate::records::owd_ring::MAX_WINDOW;
use crate::records::receiver_call::{Call as OnReceiver, Frame};
use crate::records::receiver_state::{Receiver, GRACE_MS};
use crate::script::bounds::{MAX_FRAME, MAX_MS, MAX_US};

pub fn rows(points: &mut Points) {
    calls(points);
    rule(points);
}

fn new_receiver() -> Receiver {
    Receiver::of(&ReceiverState::new(2), ring_of(2))
}

/// The part of the commit's answer and fields that shows the difference.
type Tells = dyn Fn(&[u64], &receiver_access::Fields) -> String;

fn on_receiver(points: &mut Points, name: &str, input: &str, r: &Receiver, call: OnReceiver, tell: &Tells) {
    let run = || {
        let live = (0..r.ring.count).map(|k| (r.ring.times[k], r.ring.delays[k])).collect();
        let mut c = receiver_access::state(&r.fields, owd(r.ring.capacity, live));
        let values = call.run(&mut c);
        tell(&values, &receiver_access::fields(&c))
    };
    points.row(name, input, run, || r.call(call).0);
}

fn frame(counter: u64, bytes: u64, now_ms: u64) -> OnReceiver {
    let frame = Frame {
        counter,
        timestamp: 0,
        bytes,
        ce_flag: false,
        now_ms,
    };
    OnReceiver::RecordFrame(frame, true)
}

fn calls(points: &mut Points) {
    let new = new_receiver();
    let with = |change: &dyn Fn(&mut Receiver)| {
        let mut r = new_receiver();
        change(&mut r);
        r
    };
    let late = MAX_MS + 1;
    let full = with(&|r| r.fields.cumulative_packets_recv = u64::MAX);
    let full_bytes = with(&|r| r.fields.cumulative_bytes_recv = u64::MAX);
    let full_bursts = with(&|r| {
        r.fields.gap_tracker.expected_next = Some(1);
        r.fields.gap_tracker.burst_count = u32::MAX;
    });
    let data = with(&|r| r.fields.interval_has_data = true);
    let far = with(&|r| {
        r.fields.interval_has_data = true;
        r.ring = ring_with(&[(0, 0), (1, MAX_US + 1)]);
    });
    let mut on = |name: &str, input: &str, r: &Receiver, call, tell: &Tells| on_receiver(points, name, input, r, call, tell);
    let name = "`ReceiverState::record_frame`, `record_recv`";
    on(name, "a new state, clock 2^48", &new, frame(0, 0, late), &|_, f| {
        format!("last frame at {}", f.last_recv_ms.unwrap_or(0))
    });
    on(
        name,
        "a new state, a frame of 2^32 bytes",
        &new,
        frame(0, MAX_FRAME + 1, 0),
        &|_, f| {
            format!(
                "interval's bytes {}, lifetime bytes {}",
                f.interval_bytes_recv, f.cumulative_bytes_recv
            )
        },
    );
    on(name, "2^64 − 1 packets, a frame of 0 bytes", &full, frame(0, 0, 0), &|_, f| {
        format!("packets: {}", f.cumulative_packets_recv)
    });
    on(name, "2^64 − 1 bytes, a frame of 1 byte", &full_bytes, frame(0, 1, 0), &|_, f| {
        format!("bytes: {}", f.cumulative_bytes_recv)
    });
    on(
        name,
        "2^32 − 1 bursts, none under way, counter 2 where 1 is expected",
        &full_bursts,
        frame(2, 0, 0),
        &|_, f| format!("bursts: {}", f.gap_tracker.burst_count),
    );
    for (now_ms, input) in [(late, "clock 2^48"), (u64::MAX - GRACE_MS + 1, "clock 2^64 − 15,000")] {
        on(
            "`ReceiverState::reset_for_rekey`",
            input,
            &new,
            OnReceiver::Rekey(now_ms),
            &|_, f| format!("grace until {}", f.rekey_jitter_grace_until_ms.unwrap_or(0)),
        );
    }
    on(
        "`ReceiverState::build_report`",
        "data, clock 2^48",
        &data,
        OnReceiver::BuildReport(late),
        &|v, f| {
            let some = if v[0] == 1 { "a report" } else { "none" };
            format!("{some}, last report at {}", f.last_report_ms.unwrap_or(0))
        },
    );
    on(
        "`ReceiverState::build_report`",
        "data, pairs (0 ms, 0 µs) and (1, 2^42 + 1)",
        &far,
        OnReceiver::BuildReport(0),
        &|v, _| format!("a report, trend {}", v[10] as i64),
    );
    on(
        "`ReceiverState::should_send_report`",
        "data, clock 2^48",
        &data,
        OnReceiver::ShouldSend(late),
        &|v, _| yes(v[0]),
    );
    let interval = |_: &[u64], f: &receiver_access::Fields| format!("interval {} ms", f.report_interval_ms);
    for (srtt_us, input) in [(MAX_US + 1, "smoothed value 2^42 + 1"), (1 << 62, "smoothed value 2^62")] {
        on(
            "`ReceiverState::update_report_interval_from_srtt`",
            input,
            &new,
            OnReceiver::FromSrtt(srtt_us),
            &interval,
        );
    }
    let name = "`ReceiverState::update_report_interval_with_bounds`";
    for (srtt_us, min_ms, max_ms, input) in [
        (1, 0, late, "smoothed value 1, bounds 0 and 2^48"),
        (0, 0, late, "smoothed value 0, bounds 0 and 2^48"),
        (MAX_US + 1, 0, 0, "smoothed value 2^42 + 1, bounds 0 and 0"),
        (1, 1, 0, "smoothed value 1, bounds 1 and 0"),
    ] {
        on(name, input, &new, OnReceiver::WithBounds(srtt_us, min_ms, max_ms), &interval);
    }
    let cold_start = || format!("interval {} ms", ReceiverState::new_with_cold_start(2, late).report_interval_ms());
    points.row("`ReceiverState::new_with_cold_start`", "2^48 ms", cold_start, || {
        receiver_edges::new_with_cold_start(2, late)
    });
    wide_requests(points);
}

/// Document 02, W-202: the first size that the commit takes and the port clamps.
fn wide_requests(points: &mut Points) {
    let capacity = |s: &ReceiverState| format!("capacity {}", receiver_access::window_size(s).0);
    points.shown(
        "`ReceiverState::new`",
        "a size of 257",
        || capacity(&ReceiverState::new(MAX_WINDOW + 1)),
        || receiver_edges::new(MAX_WINDOW as u64 + 1),
        |numbers| format!("capacity {}", numbers[7]),
    );
    points.shown(
        "`ReceiverState::new_with_cold_start`",
        "a size of 257, 0 ms",
        || capacity(&ReceiverState::new_with_cold_start(MAX_WINDOW + 1, 0)),
        || receiver_edges::new_with_cold_start(MAX_WINDOW as u64 + 1, 0),
        |numbers| format!("capacity {}", numbers[8]),
    );
}

/// States that break the receiver's rule, a clause each.
fn rule(points: &mut Points) {
    let with = |change: &dyn Fn(&mut Receiver)| {
        let mut r = new_receiver();
        r.fields.interval_has_data = true;
        change(&mut r);
        r
    };
    let late = MAX_MS + 1;
    let mut on = |name: &str, input: &str, r: Receiver, call, tell: &Tells| on_receiver(points, name, input, &r, call, tell);
    let report = "`ReceiverState::build_report`";
    let reorders = with(&|r| r.fields.cumulative_reorder_count = 1);
    on(
        report,
        "1 reorder beside 0 packets",
        reorders,
        OnReceiver::BuildReport(0),
        &|v, _| format!("reorders: {}, packets: {}", v[12], v[2]),
    );
    let outside = with(&|r| r.fields.gap_tracker.current_burst_len = 1);
    on(
        report,
        "outside a burst, its length 1",
        outside,
        OnReceiver::BuildReport(0),
        &|v, f| format!("bursts: {}, the length stays {}", v[11], f.gap_tracker.current_burst_len),
    );
    let uncounted = with(&|r| r.fields.gap_tracker.in_burst = true);
    on(
        report,
        "inside a burst, 0 bursts",
        uncounted,
        OnReceiver::BuildReport(0),
        &|v, _| format!("bursts: {}", v[11]),
    );
    let total = with(&|r| {
        r.fields.gap_tracker.burst_count = 1;
        r.fields.gap_tracker.total_burst_len = 65_536;
    });
    on(
        report,
        "1 burst, lengths 65,536 in all",
        total,
        OnReceiver::BuildReport(0),
        &|v, _| format!("mean {}", v[7]),
    );
    let heard = with(&|r| r.fields.last_recv_ms = Some(late));
    on(report, "last frame at 2^48, clock 0", heard, OnReceiver::BuildReport(0), &|v, _| {
        format!("dwell {}", v[5])
    });
    let reported = with(&|r| r.fields.last_report_ms = Some(late));
    on(
        "`ReceiverState::should_send_report`",
        "data, last report at 2^48, clock 0",
        reported,
        OnReceiver::ShouldSend(0),
        &|v, _| yes(v[0]),
    );
    let slow = with(&|r| r.fields.report_interval_ms = late);
    on(
        "`ReceiverState::report_interval_ms`, and each accessor",
        "report interval 2^48",
        slow,
        OnReceiver::Interval,
        &|v, _| v[0].to_string(),
    );
    let jittery = with(&|r| r.fields.jitter_q4 = -1);
    on(
        "`ReceiverState::jitter_us`",
        "scaled jitter −1",
        jittery,
        OnReceiver::Jitter,
        &|v, _| v[0].to_string(),
    );
    let name = "`ReceiverState::record_frame`, `record_recv`";
    let grace = with(&|r| r.fields.rekey_jitter_grace_until_ms = Some(late + GRACE_MS));
    on(name, "grace until 2^48 + 15,000, clock 0", grace, frame(0, 0, 0), &|_, f| {
        if f.owd_ref.is_some() {
            "a delay pair"
        } else {
            "no delay pair: in grace"
        }
        .into()
    });
    let reference = with(&|r| r.fields.owd_ref = Some((late, 0)));
    on(name, "reference at 2^48, clock 0", reference, frame(0, 0, 0), &|_, f| {
        format!("reference at {}", f.owd_ref.map_or(0, |(recv_ms, _)| recv_ms))
    });
    for (capacity, input) in [(1, "capacity 1, clock 0"), (MAX_WINDOW + 1, "capacity 257, clock 0")] {
        on(
            "`ReceiverState::reset_for_rekey`",
            input,
            with(&|r| r.ring = ring_of(capacity)),
            OnReceiver::Rekey(0),
            &|_, f| format!("grace until {}", f.rekey_jitter_grace_until_ms.unwrap_or(0)),
        );
    }
}
