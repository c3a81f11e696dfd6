//! Where the gap tracker and a frame's jitter answer where the commit panics, or differ from it: the smallest input of each, and the commit run on it.

use std::collections::VecDeque;

use crate::cases::gaps::{finish, observe_asked, observed};
use crate::cases::samples::jitter_after;
use crate::differences::Points;
use crate::proto::mmp::algorithms::oracle_access::owd;
use crate::proto::mmp::receiver::oracle_access as receiver_access;
use crate::proto::mmp::receiver::oracle_access::{finish_burst, observe, Tracker};

/// The tracker after its questions and without them, and the jitter of a frame: without them a full count saturates, a D is reduced.
pub fn rows(points: &mut Points) {
    long_gaps(points);
    late_frame(points);
    let full = Tracker {
        expected_next: Some(1),
        burst_count: u32::MAX,
        ..Tracker::default()
    };
    let full_input = "2^32 − 1 bursts, none under way, counter 2 where 1 is expected";
    let full_run = || format!("bursts: {}", observe(&full, 2).1.burst_count);
    points.row("`GapTracker::observe`", full_input, full_run, || observe_asked(&full, 2));
    points.shown(
        "`GapTracker::observe_unchecked`, the commit's `observe`",
        full_input,
        full_run,
        || observed(&full, 2).0,
        |numbers| format!("bursts: {}", numbers[7]),
    );
    let stray = Tracker {
        current_burst_len: 1,
        ..Tracker::default()
    };
    points.row(
        "`GapTracker::observe`, `finish_burst`, `take_interval_stats`",
        "a length of 1 outside a burst, counter 0",
        || format!("length {}", observe(&stray, 0).1.current_burst_len),
        || observe_asked(&stray, 0),
    );
    let long = Tracker {
        in_burst: true,
        current_burst_len: 1,
        burst_count: 1,
        total_burst_len: u64::MAX,
        ..Tracker::default()
    };
    points.shown(
        "`GapTracker::finish_burst_unchecked`, `take_interval_stats_unchecked`, the commit's",
        "lengths 2^64 − 1 in all, a burst of 1",
        || format!("lengths {} in all", finish_burst(&long).total_burst_len),
        || finish(&long),
        |numbers| format!("lengths {} in all", numbers[6]),
    );
    let far = (1 << 63) / 1000 + 1;
    for (jitter_q4, now_ms, input) in [
        (0, far, "last frame at 0, clock 2^63 / 1000 rounded up"),
        (-2, 0, "scaled jitter −2, last frame and clock at 0"),
    ] {
        let fields = receiver_access::Fields {
            jitter_q4,
            last_recv_ms: Some(0),
            ..receiver_access::Fields::default()
        };
        points.shown(
            "`jitter_after_unchecked`",
            input,
            || {
                let mut s = receiver_access::state(&fields, owd(2, VecDeque::new()));
                receiver_access::sample(&mut s, 0, now_ms);
                format!("scaled jitter {}", receiver_access::fields(&s).jitter_q4)
            },
            || jitter_after(jitter_q4, Some(0), 0, 0, now_ms),
            |numbers| format!("scaled jitter {}", numbers[0]),
        );
    }
}

/// Document 02, W-201: the first gap that the commit counts otherwise, where it begins a burst and where it extends one.
fn long_gaps(points: &mut Points) {
    let due = Tracker {
        expected_next: Some(1),
        ..Tracker::default()
    };
    let under_way = Tracker {
        expected_next: Some(3),
        in_burst: true,
        current_burst_len: 1,
        burst_count: 1,
        ..Tracker::default()
    };
    for (t, counter, input) in [
        (due, 65_537, "counter 65,537 where 1 is expected"),
        (under_way, 65_539, "a burst of 1 under way, counter 65,539 where 3 is expected"),
    ] {
        points.shown(
            "`GapTracker::observe`",
            input,
            || {
                let (lost, after) = observe(&t, counter);
                format!("lost {lost}, length {}", after.current_burst_len)
            },
            || observe_asked(&t, counter),
            |numbers| format!("lost {}, length {}", numbers[1], numbers[7]),
        );
    }
}

/// Document 02, W-203: the first frame that is behind, of which the commit says what it says of one in sequence.
fn late_frame(points: &mut Points) {
    let due = Tracker {
        expected_next: Some(1),
        ..Tracker::default()
    };
    points.shown(
        "`GapTracker::observe`",
        "counter 0 where 1 is expected",
        || format!("lost {}", observe(&due, 0).0),
        || observe_asked(&due, 0),
        |numbers| match numbers[2..4] {
            [3, n] => format!("lost {}, behind by {n}", numbers[1]),
            _ => "not behind".into(),
        },
    );
}
