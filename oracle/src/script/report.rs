//! What the comparison found, call by call.

use std::collections::{BTreeMap, BTreeSet};
use std::iter::Sum;

use crate::records::owd_ring::MAX_WINDOW;
use crate::script::case::{Answer, Case, LAST_GAP};
use crate::script::tables::{call, Part};

/// How many differing lines are printed in full.
const SHOWN: usize = 10;

/// The decoders of a payload, with the place of its length in their lines.
const DECODERS: [(u64, usize); 7] = [(168, 1), (169, 1), (170, 2), (171, 2), (202, 1), (204, 1), (207, 1)];

/// The payloads that are counted by their length.
const LONGEST: usize = 80;

/// Cases of a call, by what settles the answer.
#[derive(Default, Clone, Copy)]
struct Count {
    cases: usize,
    /// The commit, by running.
    commit: usize,
    /// A refusal by its number (document 01, "Before any figure: the checks").
    refused: usize,
    /// The rules of docs/REPLAY.md: the commit has no such call or state.
    rules: usize,
    /// A change request: the commit answers otherwise.
    requests: usize,
    different: usize,
}

impl<'a> Sum<&'a Count> for Count {
    fn sum<I: Iterator<Item = &'a Count>>(counts: I) -> Self {
        counts.fold(Count::default(), |all, count| Count {
            cases: all.cases + count.cases,
            commit: all.commit + count.commit,
            refused: all.refused + count.refused,
            rules: all.rules + count.rules,
            requests: all.requests + count.requests,
            different: all.different + count.different,
        })
    }
}

#[derive(Default)]
pub struct Report {
    counts: BTreeMap<u64, Count>,
    /// Accepted frames after a gap: well below `LAST_GAP`, the last two up to it, the first two past it, longer ones.
    gaps: [usize; 4],
    /// Accepted frames on a receiver that are behind, and those of them that raise the greatest lateness: by 1, by more.
    late: [[usize; 2]; 2],
    /// The full windows whose trend the commit settles, by call: their sizes, not wrapped and wrapped.
    windows: BTreeMap<u64, [BTreeSet<usize>; 2]>,
    /// Accepted reports of each kind, those after which the count of reports is full, and the sets of kinds that the records before them had.
    reports: [usize; 5],
    last_reports: usize,
    kinds_before: BTreeSet<[bool; 5]>,
    /// The payloads decoded, by call: how many, and their lengths up to `LONGEST`.
    payloads: BTreeMap<u64, (usize, BTreeSet<usize>)>,
    shown: usize,
}

/// Whether an answer refuses by a number.
fn refuses(case: &Case) -> bool {
    let first = call(case.call).and_then(|call| call.parts.first());
    matches!(&case.answer, Answer::Numbers(numbers) if first == Some(&(0, Part::Refusal)) && numbers[0] > 0)
}

impl Report {
    /// Compares the answers to a script with the expected ones.
    pub fn add(&mut self, cases: &[Case], answers: &str) {
        let mut answers = answers.lines();
        for (i, case) in cases.iter().enumerate() {
            let count = self.counts.entry(case.call).or_default();
            count.cases += 1;
            match (case.outside, refuses(case)) {
                (false, _) => count.commit += 1,
                (true, true) => count.refused += 1,
                (true, false) if case.requested => count.requests += 1,
                (true, false) => count.rules += 1,
            }
            if case.gap > 0 {
                let past = [LAST_GAP - 2, LAST_GAP, LAST_GAP + 2].iter().filter(|end| case.gap > **end);
                self.gaps[past.count()] += 1;
            }
            if let (n @ 1.., raises) = case.late {
                let by = usize::from(n > 1);
                self.late[0][by] += 1;
                self.late[1][by] += usize::from(raises);
            }
            if let Some((size, wrapped)) = case.window {
                self.windows.entry(case.call).or_default()[usize::from(wrapped)].insert(size);
            }
            if let Some((kind, [seen, kinds @ ..])) = case.report {
                self.reports[kind as usize] += 1;
                self.last_reports += usize::from(seen == u64::MAX - 1);
                self.kinds_before.insert(kinds.map(|n| n > 0));
            }
            if let Some((call, place)) = DECODERS.iter().find(|(call, _)| *call == case.call) {
                let length = case.line.split(' ').nth(*place).and_then(|word| word.parse::<usize>().ok());
                let (many, lengths) = self.payloads.entry(*call).or_default();
                *many += 1;
                lengths.extend(length.filter(|n| *n <= LONGEST));
            }
            let expected = case.expected(i + 1);
            let answer = answers.next();
            if answer == Some(expected.as_str()) {
                continue;
            }
            count.different += 1;
            self.shown += 1;
            if self.shown <= SHOWN {
                println!("line {}: {}", i + 1, case.line);
                println!("  expected {expected}");
                println!("  answered {}", answer.unwrap_or("nothing"));
            }
        }
        let left = answers.count();
        if left > 0 {
            println!("{left} answers more than lines");
            self.counts.entry(0).or_default().different += left;
        }
    }

    pub fn different(&self) -> usize {
        self.counts.values().map(|count| count.different).sum()
    }

    /// Prints a line for each call.
    pub fn print(&self) {
        println!("     call    cases   commit  refused    rules requests differences");
        let row = |name: &str, n: &Count| {
            println!(
                "{name:>9} {:>8} {:>8} {:>8} {:>8} {:>8} {:>11}",
                n.cases, n.commit, n.refused, n.rules, n.requests, n.different
            );
        };
        for (call, count) in &self.counts {
            row(&if *call == 0 { "malformed".into() } else { call.to_string() }, count);
        }
        let all: Count = self.counts.values().sum();
        row("all", &all);
        let [below, up_to, past, long] = self.gaps;
        println!(
            "accepted frames behind a gap: {below} of 1 to 65533, {up_to} of 65534 and 65535, {past} of 65536 and 65537, {long} of more"
        );
        let [[one, more], [raised_one, raised_more]] = self.late;
        println!(
            "late frames on a receiver, accepted: {one} behind by 1 and {more} by more; of these {raised_one} and {raised_more} raise the greatest lateness"
        );
        let [stale, no_echo, samples, zeros, failures] = self.reports;
        println!(
            "accepted reports: {stale} stale, {no_echo} without an echo, {samples} samples, {zeros} zeros, {failures} arithmetic failures; {} the last that fits; before them {} of the 32 sets of kinds",
            self.last_reports,
            self.kinds_before.len()
        );
        for (call, (many, lengths)) in &self.payloads {
            println!(
                "payloads that {call} decodes: {many}, of {} of the {} lengths from 0 to {LONGEST}",
                lengths.len(),
                LONGEST + 1
            );
        }
        for (call, [straight, wrapped]) in &self.windows {
            println!(
                "full windows of 2 to {MAX_WINDOW} whose trend {call} tells: {} of {} sizes not wrapped, {} wrapped",
                straight.len(),
                MAX_WINDOW - 1,
                wrapped.len()
            );
        }
    }
}
