//! Where RFC 6298 and RFC 3550, read to the letter, differ from the commit and the port: the smallest input of each point, its exact average, and what is answered.

use std::fmt;

use crate::cases::jitter;
use crate::cases::links::report_built;
use crate::cases::owd::{ring_of, ring_with, trend};
use crate::cases::srtt;
use crate::cases::wire::receiver as report_of;
use crate::differences::Points;
use crate::proto::mmp::metrics::MmpMetrics;
use crate::proto::mmp::receiver::ReceiverState;
use crate::proto::mmp::wire::ReceiverReport;
use crate::records::metrics_call;
use crate::records::metrics_state::Metrics;
use crate::records::receiver_call::{self, Frame};
use crate::records::receiver_state::Receiver;
use crate::script::case::Case;

pub fn rows(points: &mut Points) {
    estimated(points);
    measured(points);
    jitter_alone(points);
    heard(points);
    sloped(points);
}

/// A number over 2^24. That nothing is cut off is asserted.
#[derive(Clone, Copy)]
struct Exact(i128);

const ONE: i128 = 1 << 24;

impl Exact {
    fn of(n: i64) -> Self {
        Self(i128::from(n) * ONE)
    }

    /// So many parts of n.
    fn parts(self, parts: i128, n: i128) -> Self {
        assert!(self.0 * parts % n == 0, "2^24 is a large enough denominator");
        Self(self.0 * parts / n)
    }

    fn plus(self, other: Self) -> Self {
        Self(self.0 + other.0)
    }

    fn distance(self, other: Self) -> Self {
        Self((self.0 - other.0).abs())
    }
}

impl fmt::Display for Exact {
    fn fmt(&self, f: &mut fmt::Formatter) -> fmt::Result {
        write!(f, "{}", self.0 / ONE)?;
        let mut rest = self.0 % ONE;
        if rest > 0 {
            write!(f, ".")?;
        }
        while rest > 0 {
            write!(f, "{}", 10 * rest / ONE)?;
            rest = 10 * rest % ONE;
        }
        Ok(())
    }
}

/// RFC 6298, (2.2) and (2.3): SRTT and RTTVAR of these round trips.
fn round_trips(us: &[i64]) -> String {
    let (mut s, mut v) = (Exact::of(us[0]), Exact::of(us[0]).parts(1, 2));
    for r in us[1..].iter().map(|us| Exact::of(*us)) {
        v = v.parts(3, 4).plus(s.distance(r).parts(1, 4));
        s = s.parts(7, 8).plus(r.parts(1, 8));
    }
    format!("SRTT {s}, RTTVAR {v}")
}

/// RFC 3550, 6.4.1: J of these differences.
fn jitter_of(ds: &[i64]) -> Exact {
    let step = |j: Exact, d: &i64| j.parts(15, 16).plus(Exact::of(d.abs()).parts(1, 16));
    ds.iter().fold(Exact::of(0), step)
}

/// Round trips handed to the estimator, in µs.
fn estimated(points: &mut Points) {
    for (point, input, us) in [
        ("RTTVAR of the first round trip", "1 µs, handed to the estimator", &[1][..]),
        ("SRTT, each term rounded down", "1, 2 and 1 ms", &[1000, 2000, 1000]),
        ("RTTVAR, each term rounded down", "3, 11 and 3 ms", &[3000, 11_000, 3000]),
        ("SRTT below the exact average", "0 and 1 µs, handed to the estimator", &[0, 1]),
    ] {
        let mut s = srtt::new_state();
        let mut calls = vec![];
        for rtt_us in us {
            calls.push(srtt::update(s, *rtt_us));
            s = s.stepped(*rtt_us);
        }
        let answered = format!("SRTT {}, RTTVAR {}", s.srtt_us, s.rttvar_us);
        points.parted(point, input, round_trips(us), answered, calls);
    }
}

/// A report whose counters are all n.
fn report(n: u64, timestamp_echo: u32, dwell_time: u16) -> ReceiverReport {
    let mut report = report_of(&[n, n, n, 0, 0, 0, 0, 0, 0, 0, 0, 0, 0, 0]);
    (report.timestamp_echo, report.dwell_time) = (timestamp_echo, dwell_time);
    report
}

/// Reports processed by a new state, each with our time: what it has then, and the calls.
fn processed(reports: &[(ReceiverReport, u32)]) -> (String, Vec<Case>) {
    let mut m = Metrics::of(&MmpMetrics::new());
    let mut calls = vec![];
    for (report, our_timestamp_ms) in reports {
        let call = metrics_call::Call::Process {
            report: report.clone(),
            our_timestamp_ms: *our_timestamp_ms,
            now_ms: 0,
        };
        let (case, after) = m.call(&call);
        calls.push(case);
        m = after;
    }
    let f = &m.fields;
    let taken = if f.srtt.initialized {
        format!("SRTT {}, RTTVAR {}", f.srtt.srtt_us, f.srtt.rttvar_us)
    } else {
        "none".into()
    };
    let counts = [(f.rtt_zero, "zero"), (f.rtt_arith_fail, "arithmetic failure")];
    let counted = counts.iter().filter(|(n, _)| *n > 0).map(|(n, name)| format!("; {n} {name}"));
    (taken + &counted.collect::<String>(), calls)
}

/// Round trips of reports, in whole milliseconds.
fn measured(points: &mut Points) {
    for (point, input, us, reports) in [
        (
            "a round trip of 0 ms",
            "1 ms, then echo 1, dwell 0, our time 1",
            &[1000, 0][..],
            vec![(report(1, 1, 0), 2), (report(2, 1, 0), 1)],
        ),
        ("an echo of 0", "echo 0, dwell 0, our time 1", &[1000], vec![(report(1, 0, 0), 1)]),
        (
            "our time wraps under way",
            "echo 2^32 − 1, dwell 0, our time 0",
            &[1000],
            vec![(report(1, u32::MAX, 0), 0)],
        ),
        (
            "a report that comes twice",
            "echo 1, dwell 0, our time 2; again at 3",
            &[1000, 2000],
            vec![(report(1, 1, 0), 2), (report(1, 1, 0), 3)],
        ),
    ] {
        let (answered, calls) = processed(&reports);
        points.parted(point, input, round_trips(us), answered, calls);
    }
    let (r, mut calls) = received(None, &[(1, 0, true)]);
    let (built, _) = r.call(receiver_call::Call::BuildReport(65_536));
    let report = report_built(&built).expect("there is data");
    calls.push(built);
    let (answered, more) = processed(&[(report, 65_538)]);
    calls.extend(more);
    let input = "a frame with timestamp 1, the report 65,536 ms later, our time 65,538";
    points.parted("a dwell past 65,535 ms", input, round_trips(&[1000]), answered, calls);
}

/// Differences handed to the estimator, in µs.
fn jitter_alone(points: &mut Points) {
    for (point, input, ds) in [
        ("J/16, rounded down", "D 16, then 0", &[16, 0][..]),
        ("J/16, rounded down and not to nearest", "D 16, 0 and 0", &[16, 0, 0]),
    ] {
        let mut q4 = 0;
        let mut calls = vec![];
        for d in ds {
            calls.push(jitter::update(q4, *d as i32));
            q4 = jitter::stepped(q4, *d as i32);
        }
        calls.push(jitter::jitter_us(q4));
        // RFC 3550, A.8, in whole numbers scaled by 16
        let nearest = ds.iter().fold(0, |j, d| j + d - ((j + 8) >> 4));
        let exact = format!("J {}; by A.8's whole numbers scaled {nearest}", jitter_of(ds));
        points.parted(point, input, exact, jitter_told(q4), calls);
    }
}

fn jitter_told(q4: i64) -> String {
    format!("J {}, scaled {q4}", q4 >> 4)
}

/// The slope of the line through two pairs, in µs per second.
fn sloped(points: &mut Points) {
    let (ms, us) = (1000, 1001);
    let ring = ring_with(&[(0, 0), (ms, us)]);
    let exact = Exact::of(1000 * us).parts(1, ms.into()).to_string();
    let answered = ring.commit().trend_us_per_sec().to_string();
    points.parted(
        "the trend, cut toward zero",
        "pairs (0 ms, 0 µs) and (1000, 1001)",
        exact,
        answered,
        vec![trend(&ring)],
    );
}

/// Frames to a new state, after a rekey or not: timestamp, clock and whether the frame is sampled.
fn received(rekey_ms: Option<u64>, frames: &[(u32, u64, bool)]) -> (Receiver, Vec<Case>) {
    let mut r = Receiver::of(&ReceiverState::new(2), ring_of(2));
    let mut calls: Vec<receiver_call::Call> = rekey_ms.map(receiver_call::Call::Rekey).into_iter().collect();
    for (counter, (timestamp, now_ms, sampled)) in frames.iter().enumerate() {
        let frame = Frame {
            counter: counter as u64,
            timestamp: *timestamp,
            bytes: 0,
            ce_flag: false,
            now_ms: *now_ms,
        };
        calls.push(receiver_call::Call::RecordFrame(frame, *sampled));
    }
    let mut cases = vec![];
    for call in calls {
        let (case, after) = r.call(call);
        cases.push(case);
        r = after;
    }
    (r, cases)
}

/// Frames that a receiver counts: D is of each and the one that came before it, the timestamps' difference modulo 2^32.
fn heard(points: &mut Points) {
    let wide = 2_147_484;
    for (point, input, rekey_ms, frames) in [
        (
            "a receive clock that fell",
            "frames at 1 and at 0 ms, timestamp 0",
            None,
            [(0, 1, true), (0, 0, true)],
        ),
        (
            "D in 32 bits",
            "frames at 0 and at 2,147,484 ms, timestamp 0",
            None,
            [(0, 0, true), (0, wide, true)],
        ),
        (
            "D in 32 bits",
            "frames at 0 and at 4,294,968 ms, timestamp 0",
            None,
            [(0, 0, true), (0, 2 * wide, true)],
        ),
        (
            "the sender's timestamp wraps",
            "timestamps 2^32 − 1 and 0, at 0 and at 1 ms",
            None,
            [(u32::MAX, 0, true), (0, 1, true)],
        ),
        (
            "a frame that was overtaken",
            "timestamps 1 and 0, both at 0 ms",
            None,
            [(1, 0, true), (0, 0, true)],
        ),
        (
            "the grace after a rekey",
            "rekey at 0, frames at 0 and at 14,999 ms, timestamp 0",
            Some(0),
            [(0, 0, true), (0, 14_999, true)],
        ),
        (
            "a frame that is not sampled",
            "frames at 0 and, not sampled, at 5 ms, timestamp 0",
            None,
            [(0, 0, true), (0, 5, false)],
        ),
    ] {
        let d = |pair: &[(u32, u64, bool)]| {
            let sent = i64::from(pair[1].0.wrapping_sub(pair[0].0) as i32);
            1000 * (pair[1].1 as i64 - pair[0].1 as i64 - sent)
        };
        let ds: Vec<i64> = frames.windows(2).map(d).collect();
        let (r, calls) = received(rekey_ms, &frames);
        let exact = format!("D {}, J {}", ds[0], jitter_of(&ds));
        points.parted(point, input, exact, jitter_told(r.fields.jitter_q4), calls);
    }
}
