//! Lists of samples, and the calls that give them to one end.

use crate::cases::links::new_end;
use crate::cases::wire::receiver;
use crate::records::ends::{Call, History};
use crate::records::metrics_call;
use crate::records::receiver_call::{self, Frame};
use crate::script::rng::Rng;

/// How many samples a list of them has.
const SAMPLES: usize = 200;

/// Any whole milliseconds: about one value, with spells about another.
pub fn any_samples(rng: &mut Rng) -> Vec<u32> {
    let (still, slow) = (1 + rng.below(300) as u32, 1 + rng.number(3) as u32);
    let spread = 1 + rng.below(40);
    let mut sample = || {
        let about = if rng.below(9) == 0 { slow } else { still };
        about + rng.below(spread) as u32
    };
    (0..SAMPLES).map(|_| sample()).collect()
}

/// Reports that give these round trips, one after another, to one end.
pub fn of_round_trips(rng: &mut Rng, ms: &[u32]) -> History {
    let call = |(i, ms): (usize, &u32)| {
        let packets = i as u64 + 1;
        let report = receiver(&[packets, packets, packets, 1, 0, 0, 0, 0, 0, 0, 0, 0, 0, 0]);
        let call = metrics_call::Call::Process {
            report,
            our_timestamp_ms: 1 + ms,
            now_ms: packets,
        };
        (0, Call::Metrics(call))
    };
    History {
        begun: [new_end(rng), new_end(rng)],
        calls: ms.iter().enumerate().map(call).collect(),
    }
}

/// Frames with one timestamp, each so many milliseconds after the last, and a report after each.
pub fn of_jitter_steps(rng: &mut Rng, ms: &[u32]) -> History {
    let mut calls = vec![];
    let mut now_ms = 1000;
    for (i, ms) in [0].iter().chain(ms).enumerate() {
        now_ms += u64::from(*ms);
        let frame = Frame {
            counter: i as u64,
            timestamp: 1000,
            bytes: 100,
            ce_flag: false,
            now_ms,
        };
        calls.push((0, Call::Receiver(receiver_call::Call::RecordRecv(frame))));
        calls.push((0, Call::Receiver(receiver_call::Call::BuildReport(now_ms))));
    }
    History {
        begun: [new_end(rng), new_end(rng)],
        calls,
    }
}
