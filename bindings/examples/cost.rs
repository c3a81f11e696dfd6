//! One call in a loop, for counting its instructions across the boundary: `cost CALL TURNS`, CALL `none` being the loop alone. `tools/measure boundary` runs it.

use siwolkert::{check_receiver_payload, compute_etx, jitter_update, SenderState};
use std::hint::black_box;

fn looped(turns: u64, mut call: impl FnMut(u64) -> u64) {
    let mut sum = 0u64;
    for turn in 0..turns {
        sum = sum.wrapping_add(call(black_box(turn)));
    }
    println!("{sum}");
}

fn main() {
    let mut words = std::env::args().skip(1);
    let call = words.next().expect("a call");
    let turns: u64 = words.next().and_then(|w| w.parse().ok()).expect("a number of turns");
    let payload = [0u8; 67];
    let mut state = SenderState::new();
    let mut scaled = 0;
    match call.as_str() {
        "none" => looped(turns, |n| n),
        "check_receiver_payload" => looped(turns, |_| check_receiver_payload(black_box(&payload)).is_ok().into()),
        "jitter_update" => looped(turns, |n| {
            scaled = jitter_update(scaled, n as i32 & 0xffff).unwrap_or(0);
            scaled as u64
        }),
        "compute_etx" => looped(turns, |n| compute_etx(0.5, black_box(0.25)).map_or(0, f64::to_bits) + n),
        "sender_check" => looped(turns, |_| state.check().is_ok().into()),
        "record_sent" => looped(turns, |n| state.record_sent(n, n as u32, 100).is_ok().into()),
        "build_report" => looped(turns, |n| {
            state.interval_has_data = true;
            let built = state.build_report(n);
            built.map_or(0, |report| report.map_or(0, |r| r.interval_end_counter))
        }),
        other => panic!("no call {other}"),
    }
}
