//! What the commit does where codec, wire and the algorithms refuse, or answer where it panics: the smallest input of each, and the commit run on it.

use std::collections::VecDeque;

use crate::cases::owd::{clear, new, push, ring_of, ring_with, trend};
use crate::cases::{codec, etx, ewma, jitter};
use crate::cases::{spin, srtt, wire};
use crate::differences::Points;
use crate::proto::codec::oracle_access::{reader, writer};
use crate::proto::codec::Writer;
use crate::proto::mmp::algorithms::oracle_access::{ewma, jitter, owd, owd_window, spin, spin_fields, srtt};
use crate::proto::mmp::algorithms::{compute_etx, quality_index, OwdTrendDetector};
use crate::proto::mmp::wire::{PathMtuNotification, ReceiverReport, SenderReport};
use crate::records::owd_ring::{Ring, MAX_WINDOW};
use crate::records::receiver_state::MAX_JITTER;
use crate::script::bounds::{MAX_MS, MAX_TREND, MAX_US};

pub fn rows(points: &mut Points) {
    reading(points);
    writing(points);
    averages(points);
    delays(points);
    ratios(points);
}

fn reading(points: &mut Points) {
    let end = usize::MAX;
    points.row(
        "`Reader::remaining`",
        "place 1, no payload",
        || reader(&[], 1).remaining().to_string(),
        || codec::plain(101, 1, &[]),
    );
    points.shown(
        "`Reader::rest`",
        "place 1, no payload",
        || format!("{} bytes", reader(&[], 1).rest().len()),
        || codec::plain(102, 1, &[]),
        |numbers| format!("{} bytes", numbers[0]),
    );
    points.row(
        "`Reader::require`",
        "n = 1 at place 2^64 − 1, no payload",
        || {
            if reader(&[], end).require(1).is_ok() {
                "accepts"
            } else {
                "too short"
            }
            .into()
        },
        || codec::counted(103, end, 1, &[]),
    );
    points.row(
        "`Reader::read_u8`, and every read",
        "place 2^64 − 1, no payload",
        || {
            if reader(&[], end).read_u8().is_ok() {
                "a byte"
            } else {
                "too short"
            }
            .into()
        },
        || codec::plain(105, end, &[]),
    );
    points.row(
        "`Reader::advance`",
        "n = 1, no payload",
        || {
            let mut r = reader(&[], 0);
            r.advance(1);
            format!("place {}", r.position())
        },
        || codec::counted(104, 0, 1, &[]),
    );
}

fn writing(points: &mut Points) {
    points.row(
        "`Writer::write_u8`, and every write",
        "a buffer of 0 bytes",
        || {
            let mut w = writer(vec![]);
            w.write_u8(7);
            format!("{} byte", w.len())
        },
        || codec::write_number(123, 0, 7, &[]),
    );
    points.row(
        "`Writer::with_capacity`",
        "n = 1, a buffer of 0 bytes",
        || format!("place {}", Writer::with_capacity(1).len()),
        || codec::with_capacity(1, &[]),
    );
    let sender_report = || SenderReport::decode(&[0; 47]).expect("47 bytes are enough");
    let receiver_report = || ReceiverReport::decode(&[0; 67]).expect("67 bytes are enough");
    points.row(
        "`SenderReport::encode`",
        "a buffer of 47 bytes",
        || format!("{} bytes", sender_report().encode().len()),
        || wire::encode_sender(&[0; 7], &[0; 47]),
    );
    points.row(
        "`ReceiverReport::encode`",
        "a buffer of 67 bytes",
        || format!("{} bytes", receiver_report().encode().len()),
        || wire::encode_receiver(&[0; 14], &[0; 67]),
    );
    points.row(
        "`PathMtuNotification::encode`",
        "a buffer of 1 byte",
        || format!("{} bytes", PathMtuNotification::new(0).encode().len()),
        || wire::encode_path_mtu(0, &[0]),
    );
}

/// Jitter, round trip and trends: states and samples just out of range.
fn averages(points: &mut Points) {
    for (q4, input) in [(-1, "scaled jitter −1, D 0"), (MAX_JITTER + 1, "scaled jitter 2^35 + 1, D 0")] {
        let stepped = || format!("scaled jitter {}", jitter::stepped(q4, 0));
        points.row("`JitterEstimator::update`", input, stepped, || jitter::update(q4, 0));
    }
    points.row(
        "`JitterEstimator::jitter_us`",
        "scaled jitter −1",
        || jitter(-1).jitter_us().to_string(),
        || jitter::jitter_us(-1),
    );
    points.shown(
        "`JitterEstimator::update_unchecked`, the commit's `update`",
        "scaled jitter −2, D 0",
        || format!("scaled jitter {}", jitter::stepped(-2, 0)),
        || jitter::step(-2, 0),
        |numbers| format!("scaled jitter {}", numbers[0]),
    );
    let of = |srtt_us, rttvar_us, initialized| srtt::State {
        srtt_us,
        rttvar_us,
        initialized,
    };
    for (s, rtt_us, input) in [
        (of(-1, 0, true), 0, "SRTT −1, round trip 0"),
        (of(MAX_US + 1, 0, true), 0, "SRTT 2^42 + 1, round trip 0"),
        (of(0, -1, true), 0, "RTTVAR −1, round trip 0"),
        (of(0, 0, false), -1, "a new state, round trip −1"),
        (of(0, 0, false), MAX_US + 1, "a new state, round trip 2^42 + 1"),
    ] {
        let stepped = || {
            let after = s.stepped(rtt_us);
            format!("SRTT {}, RTTVAR {}", after.srtt_us, after.rttvar_us)
        };
        points.row("`SrttEstimator::update`", input, stepped, || srtt::update(s, rtt_us));
    }
    points.row(
        "`SrttEstimator::srtt_us`, and each accessor",
        "SRTT −1",
        || srtt(-1, 0, true).srtt_us().to_string(),
        || srtt::accessor(314, of(-1, 0, true)),
    );
    points.shown(
        "`SrttEstimator::update_unchecked`, the commit's `update`",
        "a new state, round trip −1",
        || {
            let s = of(0, 0, false).stepped(-1);
            format!("SRTT {}, RTTVAR {}", s.srtt_us, s.rttvar_us)
        },
        || srtt::step(of(0, 0, false), -1),
        |numbers| format!("SRTT {}, RTTVAR {}", numbers[0], numbers[1]),
    );
    let past = f64::from_bits(MAX_TREND.to_bits() + 1);
    let of = |short, initialized| ewma::State {
        short,
        long: 0.0,
        initialized,
    };
    for (s, sample, input) in [
        (of(f64::NAN, true), 0.0, "short NaN, sample 0"),
        (of(-1.0, true), 0.0, "short −1, sample 0"),
        (of(0.0, false), f64::NAN, "a new state, sample NaN"),
        (of(0.0, false), -1.0, "a new state, sample −1"),
        (of(0.0, false), past, "a new state, sample 2^64 + 4096"),
    ] {
        let stepped = || format!("short {}", s.stepped(sample).short);
        points.row("`DualEwma::update`", input, stepped, || ewma::update(s, sample));
    }
    points.row(
        "`DualEwma::short`, and each accessor",
        "short NaN",
        || ewma(f64::NAN, 0.0, true).short().to_string(),
        || ewma::accessor(324, of(f64::NAN, true)),
    );
}

/// The delay window and the spin bit.
fn delays(points: &mut Points) {
    let one = ring_with(&[(0, 0)]);
    let three = Ring {
        capacity: 2,
        ..ring_with(&[(0, 0); 3])
    };
    let wide = ring_of(MAX_WINDOW + 1);
    for (ring, input) in [
        (&one, "capacity 1, one pair"),
        (&wide, "capacity 257, no pair"),
        (&three, "capacity 2, three pairs"),
    ] {
        let grown = || {
            let mut c = owd(ring.capacity, vec![(0, 0); ring.count].into());
            c.push(1, 0);
            format!("pairs: {}", owd_window(&c).1.len())
        };
        points.row("`OwdTrendDetector::push`", input, grown, || push(ring, 1, 0));
    }
    points.shown(
        "`OwdTrendDetector::new`",
        "a size of 257",
        || format!("capacity {}", owd_window(&OwdTrendDetector::new(MAX_WINDOW + 1)).0),
        || new(MAX_WINDOW as u64 + 1),
        |numbers| format!("capacity {}", numbers[0]),
    );
    points.row(
        "`OwdTrendDetector::clear`",
        "capacity 1, one pair",
        || {
            let mut c = one.commit();
            c.clear();
            format!("pairs: {}", owd_window(&c).1.len())
        },
        || clear(&one),
    );
    points.row(
        "`OwdTrendDetector::push`",
        "a delay of 2^42 + 1 µs",
        || {
            let mut c = owd(2, VecDeque::new());
            c.push(0, MAX_US + 1);
            format!("pairs: {}", owd_window(&c).1.len())
        },
        || push(&ring_of(2), 0, MAX_US + 1),
    );
    let far = ring_with(&[(0, 0), (1, MAX_US + 1)]);
    points.row(
        "`OwdTrendDetector::trend_us_per_sec`",
        "pairs (0 ms, 0 µs) and (1, 2^42 + 1)",
        || far.commit().trend_us_per_sec().to_string(),
        || trend(&far),
    );
    for (edge, now_ms, input) in [
        (None, MAX_MS + 1, "no edge yet, clock 2^48"),
        (Some(MAX_MS + 1), 0, "last edge at 2^48, clock 0"),
    ] {
        let observed = || {
            let mut c = spin(true, false, 0, edge);
            let rtt = c.rx_observe(false, 1, now_ms);
            let rtt = rtt.map_or("no round trip".into(), |ms| format!("round trip {ms}"));
            format!("{rtt}, edge at {}", spin_fields(&c).3.unwrap_or(0))
        };
        points.row("`SpinBitState::rx_observe`", input, observed, || {
            spin::rx_observe(spin::initiator(edge), false, 1, now_ms)
        });
    }
}

fn ratios(points: &mut Points) {
    for (a, input) in [(1.5, "ratios 1.5 and 1"), (-1.0, "ratios −1 and 1"), (f64::NAN, "ratios NaN and 1")] {
        points.row(
            "`compute_etx`",
            input,
            || compute_etx(a, 1.0).to_string(),
            || {
                let [checked, _] = etx::etx(a, 1.0);
                checked
            },
        );
    }
    for (etx, rtt_ms, input) in [
        (0.5, 0.0, "ETX 0.5, 0 ms"),
        (101.0, 0.0, "ETX 101, 0 ms"),
        (1.0, -1.0, "ETX 1, −1 ms"),
        (1.0, f64::NAN, "ETX 1, NaN ms"),
        (1.0, 8_589_934_593.0, "ETX 1, 2^33 + 1 ms"),
    ] {
        points.row(
            "`quality_index`",
            input,
            || quality_index(etx, rtt_ms).to_string(),
            || {
                let [checked, _] = etx::quality(etx, rtt_ms);
                checked
            },
        );
    }
}
