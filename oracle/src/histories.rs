//! Histories of two ends beside the exact averages, and the same with stale reports struck out. What runs is the commit's own Rust, after the refusals.

pub mod climb;
pub mod exact;
pub mod sample_lists;
pub mod whole;

use crate::cases::links::{lived, new_end, report_built};
use crate::histories::exact::{Frames, Reports};
use crate::histories::sample_lists::{any_samples, of_jitter_steps, of_round_trips};
use crate::histories::whole::Whole;
use crate::proto::mmp::wire::ReceiverReport;
use crate::records::ends::{Call, End, History};
use crate::records::metrics_call;
use crate::records::report_kind::Kind;
use crate::script::case::{Answer, Case};
use crate::script::rng::Rng;

/// The farthest that the figures were from the exact averages, in µs, and how often they were set beside them.
#[derive(Default)]
struct Worst {
    trips: usize,
    srtt_above: f64,
    rttvar_above: f64,
    rttvar_below: f64,
    reports: usize,
    jitter_above: f64,
    jitter_below: f64,
}

/// A call that was made: its refusal and its values, and whether it was a stale report.
struct Entry {
    answer: Vec<u64>,
    refusal: u64,
    stale: bool,
}

/// A number over 2^bits.
fn over(n: u64, bits: usize) -> Whole {
    Whole::of(n).shifted(bits)
}

impl Worst {
    /// SRTT is never below S and less than 7 above it; RTTVAR is less than 10 off V.
    fn round_trip(&mut self, end: &End, reports: &Reports) {
        let Some(exact) = &reports.average else { return };
        let bits = 3 * exact.n;
        let srtt = over(end.metrics.fields.srtt.srtt_us as u64, bits);
        let rttvar = over(end.metrics.fields.srtt.rttvar_us as u64, bits);
        let (above, off) = (srtt.distance(&exact.s), rttvar.distance(&exact.v));
        assert!(exact.s <= srtt, "SRTT is below the exact average");
        assert!(above < over(7, bits), "SRTT is 7 µs above the exact average");
        assert!(off < over(10, bits), "RTTVAR is 10 µs off the exact average");
        self.trips += 1;
        self.srtt_above = self.srtt_above.max(above.over(bits));
        let side = if exact.v <= rttvar {
            &mut self.rttvar_above
        } else {
            &mut self.rttvar_below
        };
        *side = side.max(off.over(bits));
    }

    /// The jitter of a decoded report is less than 1 from A at its building.
    fn jitter(&mut self, built: &ReceiverReport, frames: &Frames) {
        let decoded = ReceiverReport::decode(&built.encode()[1..]).expect("a report is long enough");
        let bits = 4 * frames.n;
        let jitter = over(decoded.jitter.into(), bits);
        let off = jitter.distance(&frames.a);
        assert!(off < over(1, bits), "jitter is 1 µs off the exact average");
        self.reports += 1;
        let side = if frames.a <= jitter {
            &mut self.jitter_above
        } else {
            &mut self.jitter_below
        };
        *side = side.max(off.over(bits));
    }
}

/// What a call answered beside its record.
fn entry(call: &Call, case: &Case) -> Entry {
    let Answer::Numbers(numbers) = &case.answer else {
        unreachable!("a call's line is not malformed")
    };
    // A rule that is asked for refuses nothing.
    let plain = matches!(case.call, 416 | 518 | 619);
    let values = match call {
        Call::Sender(call) => call.values(),
        Call::Receiver(call) => call.values(),
        Call::Metrics(call) => call.values(),
    };
    Entry {
        answer: numbers[..if plain { 1 } else { 1 + values }].to_vec(),
        refusal: if plain { 0 } else { numbers[0] },
        stale: false,
    }
}

/// Makes the calls, and holds every figure against its exact average.
fn follow(history: &History, worst: &mut Worst) -> (Vec<Entry>, [End; 2]) {
    let mut ends = history.begun.clone();
    let mut reports = [Reports::default(), Reports::default()];
    let mut frames = [Frames::default(), Frames::default()];
    let mut entries = vec![];
    for (side, call) in &history.calls {
        let case = ends[*side].call(call);
        let mut made = entry(call, &case);
        assert!(made.refusal != 1, "a call was refused by the rule");
        match call {
            Call::Metrics(call) if made.refusal == 0 => {
                made.stale = reports[*side].kind(call) == Some(Kind::Stale);
                reports[*side].hear(call);
                assert!(
                    ends[*side].metrics.tallies() == reports[*side].tallies,
                    "reports seen, or those of a kind, are not those processed"
                );
                worst.round_trip(&ends[*side], &reports[*side]);
            }
            Call::Receiver(call) if made.refusal == 0 => {
                frames[*side].hear(*call);
                if let Some(built) = report_built(&case) {
                    worst.jitter(&built, &frames[*side]);
                }
            }
            _ => {}
        }
        entries.push(made);
    }
    (entries, ends)
}

/// The records, with so many stale reports more at each end.
fn records(ends: &[End; 2], more: [u64; 2]) -> Vec<Vec<u64>> {
    let of = |(end, more): (&End, u64)| {
        let mut metrics = end.metrics;
        metrics.fields.reports_seen += more;
        metrics.stale += more;
        let receiver = [end.receiver.numbers(), end.receiver.ring.windows()].concat();
        vec![end.sender.numbers().to_vec(), receiver, metrics.numbers()]
    };
    ends.iter().zip(more).flat_map(of).collect()
}

#[derive(Default)]
struct Struck {
    histories: usize,
    calls: usize,
    answers: usize,
}

/// Takes one, some or all of the stale calls out: every other answer and the records stay, the counts of reports seen and of stale ones lower by what was
/// struck out before at that end.
fn strike(rng: &mut Rng, history: &History, entries: &[Entry], ends: &[End; 2], struck: &mut Struck) {
    let stale: Vec<usize> = (0..entries.len()).filter(|i| entries[*i].stale).collect();
    if stale.is_empty() || entries.iter().any(|entry| entry.refusal == 10) {
        return;
    }
    let one = stale[rng.below(stale.len())];
    let part = rng.below(3);
    let mut stays = |i: &usize| {
        let out = match part {
            0 => true,
            1 => *i == one,
            _ => rng.below(2) == 0,
        };
        !(out && entries[*i].stale)
    };
    let left: Vec<usize> = (0..entries.len()).filter(|i| stays(i)).collect();
    if left.len() == entries.len() {
        return;
    }
    let shorter = History {
        begun: history.begun.clone(),
        calls: left.iter().map(|i| history.calls[*i].clone()).collect(),
    };
    let (mut again, after) = follow(&shorter, &mut Worst::default());
    let out_before = |i: usize| {
        let mut out = [0; 2];
        for j in (0..i).filter(|j| left.binary_search(j).is_err()) {
            out[history.calls[j].0] += 1;
        }
        out
    };
    for (entry, i) in again.iter_mut().zip(&left) {
        let (side, call) = &history.calls[*i];
        if matches!(call, Call::Metrics(metrics_call::Call::Seen | metrics_call::Call::Stale)) {
            entry.answer[1] += out_before(*i)[*side];
        }
        assert!(entry.answer == entries[*i].answer, "an answer moved with a stale report");
        struck.answers += 1;
    }
    assert!(
        records(&after, out_before(entries.len())) == records(ends, [0, 0]),
        "a record moved with a stale report"
    );
    struck.histories += 1;
    struck.calls += entries.len() - left.len();
}

/// Reports come again, later, with other clocks: most of them are stale.
fn with_repeats(rng: &mut Rng, history: &mut History) {
    for i in (0..history.calls.len()).rev() {
        let (side, call) = history.calls[i].clone();
        if let Call::Metrics(metrics_call::Call::Process { report, now_ms, .. }) = call {
            let again = metrics_call::Call::Process {
                our_timestamp_ms: rng.number(4) as u32,
                now_ms: now_ms.saturating_add(rng.below(5000) as u64),
                report,
            };
            let at = i + 1 + rng.below(history.calls.len() - i);
            history.calls.insert(at, (side, Call::Metrics(again)));
        }
    }
}

/// Runs so many histories of a link, a tenth as many lists of samples, and the lists found by a search; prints the worst of each. A figure out of its
/// bound, or an answer that a stale report moved, ends the run.
pub fn run(seed: u64, count: usize) {
    let rng = &mut Rng::new(seed);
    let [mut lives, mut drawn, mut sought] = [Worst::default(), Worst::default(), Worst::default()];
    let mut struck = Struck::default();
    let (mut calls, mut stale) = (0, 0);
    for _ in 0..count {
        let begun = [new_end(rng), new_end(rng)];
        let (mut history, _) = lived(rng, begun);
        with_repeats(rng, &mut history);
        let (entries, ends) = follow(&history, &mut lives);
        calls += entries.len();
        stale += entries.iter().filter(|entry| entry.stale).count();
        strike(rng, &history, &entries, &ends, &mut struck);
    }
    for _ in 0..count.div_ceil(10) {
        let ms = any_samples(rng);
        follow(&of_round_trips(rng, &ms), &mut drawn);
        follow(&of_jitter_steps(rng, &ms), &mut drawn);
    }
    for ms in climb::round_trips(rng) {
        follow(&of_round_trips(rng, &ms), &mut sought);
    }
    for ms in climb::jitter_steps(rng) {
        follow(&of_jitter_steps(rng, &ms), &mut sought);
    }
    println!("{count} histories of a link, {calls} calls, {stale} of them stale reports");
    println!(
        "{:<24} {:>12} {:>12} {:>12} {:>6}",
        "the most, in µs", "of a link", "drawn", "sought", "bound"
    );
    let all = [&lives, &drawn, &sought];
    let row = |name: &str, of: fn(&Worst) -> f64, bound: u32| {
        let [a, b, c] = all.map(of);
        println!("{name:<24} {a:>12.9} {b:>12.9} {c:>12.9} {bound:>6}");
    };
    row("SRTT above S", |w| w.srtt_above, 7);
    row("RTTVAR above V", |w| w.rttvar_above, 10);
    row("RTTVAR below V", |w| w.rttvar_below, 10);
    row("reported jitter above A", |w| w.jitter_above, 1);
    row("reported jitter below A", |w| w.jitter_below, 1);
    let row = |name: &str, of: fn(&Worst) -> usize| {
        let [a, b, c] = all.map(of);
        println!("{name:<24} {a:>12} {b:>12} {c:>12}");
    };
    row("round trips compared", |w| w.trips);
    row("reports compared", |w| w.reports);
    println!(
        "struck out: {} stale reports of {} histories; {} other answers, none moved",
        struck.calls, struck.histories, struck.answers
    );
}
