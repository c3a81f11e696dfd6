//! Scripts made from a seed, and `replay` run on one.

pub mod bounds;
pub mod case;
pub mod covered;
pub mod lines;
pub mod report;
pub mod rng;
pub mod tables;

use std::collections::VecDeque;
use std::io::{self, Read, Write};
use std::path::Path;
use std::process::{Command, Stdio};
use std::thread;

use crate::cases::{
    algorithms, codec, fields, figures, gaps, held, links, malformed, metrics, metrics_edges, receiver, receiver_edges, samples, sender,
    wire,
};
use crate::script::case::Case;
use crate::script::rng::Rng;
use crate::script::tables::calls;

/// Calls that are drawn more often than the others, and how often: a report processed, a frame, a report built, and what they lean on.
const OFTEN: [(u64, usize); 8] = [(603, 7), (507, 3), (334, 3), (504, 2), (505, 2), (605, 2), (462, 2), (466, 2)];

/// Every call that takes arguments, as often as it is drawn.
fn pool() -> Vec<u64> {
    let times = |number| OFTEN.iter().find(|(often, _)| *often == number).map_or(1, |(_, times)| *times);
    let numbers = calls().iter().filter(|call| !call.arguments.is_empty()).map(|call| call.number);
    numbers.flat_map(|number| vec![number; times(number)]).collect()
}

/// A good line of a call.
fn random_case(rng: &mut Rng, call: u64) -> Case {
    match call {
        101..=129 => codec::random_case(rng, call),
        141..=159 => fields::random_case(rng, call),
        161..=175 => held::random_case(rng, call),
        201..=207 => wire::random_case(rng, call),
        301..=357 => algorithms::random_case(rng, call),
        401..=417 => sender::random_case(rng, call),
        451..=459 | 471..=473 => gaps::random_case(rng, call),
        461..=467 => samples::random_case(rng, call),
        501..=519 => receiver::random_case(rng, call),
        601..=621 => metrics::random_case(rng, call),
        _ => figures::random_case(rng, call),
    }
}

/// Calls on the same records, each on what the last one left.
fn history(rng: &mut Rng) -> Vec<Case> {
    match rng.below(8) {
        0 => algorithms::history(rng),
        1 => gaps::history(rng),
        _ => links::history(rng),
    }
}

/// How many histories of a link follow the boundaries.
const LINKS: usize = 4;

/// The list that is stored: every boundary, some histories of a link, and every way to be malformed.
pub fn stored(rng: &mut Rng) -> Vec<Case> {
    let mut cases = codec::boundary_cases(rng);
    cases.extend(fields::boundary_cases(rng));
    cases.extend(held::boundary_cases(rng));
    cases.extend(wire::boundary_cases(rng));
    cases.extend(algorithms::boundary_cases(rng));
    cases.extend(sender::boundary_cases());
    cases.extend(gaps::boundary_cases());
    cases.extend(samples::boundary_cases(rng));
    cases.extend(receiver_edges::boundary_cases());
    cases.extend(metrics_edges::boundary_cases());
    cases.extend(figures::boundary_cases(rng));
    let malformed = malformed::boundary_cases(&cases);
    cases.extend(malformed);
    (0..LINKS).for_each(|_| cases.extend(links::history(rng)));
    cases.push(random_case(rng, 603).with_zeros());
    cases
}

/// The stored list, receivers with a window of each size, then random cases without end: mostly single ones, each call in turn by chance; some histories; some malformed.
pub struct Script {
    rng: Rng,
    pool: Vec<u64>,
    ready: VecDeque<Case>,
}

impl Script {
    pub fn new(seed: u64) -> Self {
        let mut rng = Rng::new(seed);
        let mut ready = stored(&mut rng);
        ready.extend(receiver_edges::each_size(&mut rng));
        Self {
            ready: ready.into(),
            pool: pool(),
            rng,
        }
    }
}

impl Iterator for Script {
    type Item = Case;

    fn next(&mut self) -> Option<Case> {
        while self.ready.is_empty() {
            let rng = &mut self.rng;
            let call = self.pool[rng.below(self.pool.len())];
            match rng.below(600) {
                0 => self.ready.extend(history(rng)),
                1..=12 => {
                    let good = random_case(rng, call);
                    self.ready.push_back(malformed::random_case(rng, &good));
                }
                13..=20 => self.ready.push_back(random_case(rng, call).with_zeros()),
                _ => self.ready.push_back(random_case(rng, call)),
            }
        }
        self.ready.pop_front()
    }
}

/// The script: no line feed ends the last line.
pub fn text(cases: &[Case]) -> String {
    let lines: Vec<&str> = cases.iter().map(|case| case.line.as_str()).collect();
    lines.join("\n")
}

/// What `replay` writes for a script.
pub fn run(replay: &Path, script: String) -> io::Result<String> {
    let run = Command::new(replay).stdin(Stdio::piped()).stdout(Stdio::piped()).spawn();
    let mut child = run.map_err(|e| io::Error::other(format!("cannot run {}: {e}", replay.display())))?;
    let mut stdin = child.stdin.take().expect("stdin is piped");
    let mut stdout = child.stdout.take().expect("stdout is piped");
    let feeder = thread::spawn(move || stdin.write_all(script.as_bytes()));
    let mut answers = String::new();
    stdout.read_to_string(&mut answers)?;
    feeder.join().expect("the feeder does not panic")?;
    child.wait()?;
    Ok(answers)
}
