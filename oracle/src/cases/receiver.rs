//! Calls 501 to 519 on any state that keeps the rule, or just not.

use crate::cases::gaps::{any_tracker, counter_for, spoil as spoil_tracker};
use crate::cases::owd::{any_ring, lawless, requested};
use crate::cases::receiver_edges::{new, new_with_cold_start};
use crate::cases::sender::few;
use crate::proto::mmp::receiver::oracle_access::Fields;
use crate::records::receiver_call::{Call, Frame, PLAIN};
use crate::records::receiver_state::{Receiver, GRACE_MS, MAX_JITTER, SPAN_MS};
use crate::script::bounds::{about, about_last_clock, any_bounds, beside, clock, clock_within, maybe, smoothed, MAX_FRAME, MAX_MS, MAX_US};
use crate::script::case::Case;
use crate::script::rng::Rng;

/// A lawful state.
fn any_receiver(rng: &mut Rng) -> Receiver {
    let packets = if rng.below(6) == 0 {
        u64::MAX - rng.below(2) as u64
    } else {
        rng.number(8)
    };
    let fields = Fields {
        cumulative_packets_recv: packets,
        cumulative_bytes_recv: if rng.below(6) == 0 {
            u64::MAX - rng.number(4)
        } else {
            rng.number(8)
        },
        cumulative_reorder_count: match rng.below(3) {
            0 => packets,
            1 => rng.number(8).min(packets),
            _ => (rng.below(9) as u64).min(packets),
        },
        highest_counter: rng.number(8),
        interval_packets_recv: rng.number(4) as u32,
        interval_bytes_recv: rng.number(4) as u32,
        owd_ref: maybe(rng, |rng| (clock_within(rng), rng.number(4) as u32)),
        ecn_ce_count: rng.number(4) as u32,
        last_sender_timestamp: rng.number(4) as u32,
        last_recv_ms: maybe(rng, clock_within),
        rekey_jitter_grace_until_ms: if rng.below(3) == 0 {
            Some(clock_within(rng) + rng.below(15_001) as u64)
        } else {
            None
        },
        last_report_ms: maybe(rng, clock_within),
        report_interval_ms: if rng.below(2) == 0 {
            clock_within(rng)
        } else {
            rng.below(9000) as u64
        },
        interval_has_data: rng.below(3) > 0,
        srtt_sample_count: few(rng),
        jitter_q4: match rng.below(3) {
            0 => MAX_JITTER - rng.below(20) as i64,
            1 => rng.below(40) as i64,
            _ => (rng.draw() % (MAX_JITTER as u64 + 1)) as i64,
        },
        gap_tracker: any_tracker(rng),
    };
    Receiver {
        fields,
        ring: any_ring(rng),
        lateness: match rng.below(4) {
            0 => 0,
            1 => rng.below(9) as u64,
            _ => rng.number(8),
        },
    }
}

/// Breaks one clause of the rule, or not quite; or hands in a window that is not the state's.
fn spoil(rng: &mut Rng, r: &mut Receiver) {
    let slot = rng.below(r.ring.capacity);
    match rng.below(13) {
        0 => r.fields.last_recv_ms = Some(about_last_clock(rng)),
        1 => r.fields.last_report_ms = Some(about_last_clock(rng)),
        2 => r.fields.owd_ref = Some((about_last_clock(rng), 1)),
        3 => r.fields.report_interval_ms = about_last_clock(rng),
        4 => r.fields.rekey_jitter_grace_until_ms = Some(beside(rng, MAX_MS + GRACE_MS)),
        5 => r.fields.jitter_q4 = [-1, MAX_JITTER, MAX_JITTER + 1][rng.below(3)],
        6 => r.fields.cumulative_reorder_count = beside(rng, r.fields.cumulative_packets_recv),
        7 => spoil_tracker(rng, &mut r.fields.gap_tracker),
        8 => r.ring.count = beside(rng, r.ring.capacity as u64) as usize,
        9 => r.ring.first = beside(rng, r.ring.capacity as u64) as usize,
        10 => r.ring.delays[slot] = [MAX_US, MAX_US + 1, -MAX_US, -MAX_US - 1][rng.below(4)],
        11 => r.ring = lawless()[rng.below(10)].clone(),
        _ => {
            r.ring.times.pop();
        }
    }
}

/// One of the window's delays, live or not, about the bounds.
fn stretch(rng: &mut Rng, r: &mut Receiver) {
    let slot = rng.below(r.ring.delays.len().max(1));
    if let Some(delay) = r.ring.delays.get_mut(slot) {
        *delay = about(MAX_US)[rng.below(11)];
    }
}

/// A clock about one of the times that the state turns at.
fn turning(rng: &mut Rng, r: &Receiver) -> u64 {
    let f = &r.fields;
    let since = |ms: Option<u64>, more: u64| ms.unwrap_or(0).saturating_add(more);
    let at = match rng.below(10) {
        0 => since(f.last_recv_ms, 65_535),
        1 => since(f.last_report_ms, f.report_interval_ms),
        2 => since(f.rekey_jitter_grace_until_ms, 0),
        3 => since(f.owd_ref.map(|(ms, _)| ms), SPAN_MS),
        4 => since(f.last_recv_ms, rng.below(3000) as u64),
        5 => since(f.owd_ref.map(|(ms, _)| ms), rng.number(4)),
        8 => f.last_recv_ms.unwrap_or(0).saturating_sub(rng.below(3000) as u64),
        9 => since(f.last_recv_ms, 2_147_483 * rng.below(4) as u64),
        _ => return clock(rng),
    };
    beside(rng, at)
}

fn any_frame(rng: &mut Rng, r: &Receiver) -> Frame {
    let f = &r.fields;
    Frame {
        counter: match rng.below(3) {
            0 => beside(rng, f.highest_counter),
            _ => counter_for(rng, &f.gap_tracker),
        },
        timestamp: match rng.below(5) {
            0 => f
                .owd_ref
                .map_or(0, |(_, ts)| ts.wrapping_add(1 << 31).wrapping_sub(rng.below(3) as u32)),
            1 => f.last_sender_timestamp.wrapping_add(rng.below(2000) as u32),
            2 => beside(rng, f.last_sender_timestamp.into()) as u32,
            _ => rng.number(4) as u32,
        },
        bytes: match rng.below(8) {
            0 => beside(rng, u64::MAX - f.cumulative_bytes_recv),
            1 => beside(rng, MAX_FRAME),
            _ => rng.below(1500) as u64,
        },
        ce_flag: rng.below(4) == 0,
        now_ms: turning(rng, r),
    }
}

pub fn random_case(rng: &mut Rng, number: u64) -> Case {
    match number {
        501 => return new(requested(rng)),
        503 => return new_with_cold_start(requested(rng), clock(rng)),
        _ => {}
    }
    let mut r = any_receiver(rng);
    if rng.below(6) == 0 {
        spoil(rng, &mut r);
    }
    let call = match number {
        504 => Call::RecordFrame(any_frame(rng, &r), rng.below(3) > 0),
        505 => Call::RecordRecv(any_frame(rng, &r)),
        506 => Call::Rekey(clock(rng)),
        507 => {
            if rng.below(12) == 0 {
                stretch(rng, &mut r);
            }
            Call::BuildReport(turning(rng, &r))
        }
        508 => Call::ShouldSend(turning(rng, &r)),
        509 => Call::FromSrtt(smoothed(rng)),
        510 => {
            let (min_ms, max_ms) = any_bounds(rng);
            Call::WithBounds(smoothed(rng), min_ms, max_ms)
        }
        _ => *PLAIN.iter().find(|call| call.number() == number).expect("a call of the receiver"),
    };
    r.call(call).0
}
