//! The points at which the commit, the RFCs and the rules differ, each run on its smallest input, and whether docs/DIFFERENCES.md has them as they were run.

pub mod bursts;
pub mod figures;
pub mod metrics;
pub mod receiver;
pub mod rfcs;
pub mod sender;

use std::hint::black_box;
use std::io;
use std::path::Path;

use crate::script;
use crate::script::case::{commit, Answer, Case};
use crate::script::report::Report;
use crate::script::tables::{call, Part};

/// The cells of a row, those that this build has run.
type Row = Vec<Option<String>>;

/// Rows, and the cases that the port is to answer as the rows say.
pub struct Points {
    /// Whether the commit is built with overflow checks and debug assertions.
    pub checked: bool,
    pub rows: Vec<Row>,
    pub cases: Vec<Case>,
}

/// What the port answers: a refusal, or what is shown of the answer.
fn told(case: &Case, shown: impl FnOnce(&[u64]) -> String) -> String {
    let Answer::Numbers(numbers) = &case.answer else {
        return "malformed".into();
    };
    let refuses = call(case.call).is_some_and(|call| call.parts.first() == Some(&(0, Part::Refusal)));
    match numbers[0] {
        7 if refuses => format!("refusal 7, needed {}, given {}", numbers[1], numbers[2]),
        n if refuses && n > 0 => format!("refusal {n}"),
        _ => shown(numbers),
    }
}

/// A bit as a word.
fn yes(bit: u64) -> String {
    if bit == 1 { "yes" } else { "no" }.into()
}

/// As the document writes a number below 0.
fn minus(told: &str) -> String {
    told.replace('-', "−")
}

impl Points {
    /// A call that the commit answers, or panics at, where the port refuses or answers otherwise.
    pub fn row(&mut self, name: &str, input: &str, answer: impl FnOnce() -> String, case: impl FnOnce() -> Case) {
        self.shown(name, input, answer, case, |numbers| numbers[0].to_string());
    }

    /// The same, with what is shown of the port's answer.
    pub fn shown(
        &mut self,
        name: &str,
        input: &str,
        answer: impl FnOnce() -> String,
        case: impl FnOnce() -> Case,
        shown: impl FnOnce(&[u64]) -> String,
    ) {
        let answer = commit(answer).map_or("panics".into(), |told| minus(&told));
        let mut here = None;
        if self.checked {
            let case = case();
            here = Some(told(&case, shown));
            self.cases.push(case);
        }
        self.rows.push(vec![Some(name.into()), Some(input.into()), Some(answer), here]);
    }

    /// A point where an RFC differs from the commit and the port: what is exact, and what is answered. The calls that show it are compared too.
    pub fn parted(&mut self, point: &str, input: &str, exact: String, answered: String, calls: Vec<Case>) {
        self.rows
            .push([point.into(), input.into(), minus(&exact), minus(&answered)].map(Some).to_vec());
        self.cases.extend(calls);
    }
}

/// Whether a line of the document has the row's cells. A cell says what the commit does, and then, where it differs, what it does unchecked.
fn stands(line: &str, row: &Row, checked: bool) -> bool {
    let mut cells = line.trim_matches('|').split('|').map(str::trim);
    row.iter().all(|cell| {
        let there = cells.next().unwrap_or("");
        let (usual, unchecked) = there.split_once("; unchecked: ").unwrap_or((there, there));
        let there = if checked { usual } else { unchecked };
        cell.as_deref().is_none_or(|cell| cell == there)
    })
}

fn printed(row: &Row) -> String {
    let cells: Vec<&str> = row.iter().map(|cell| cell.as_deref().unwrap_or("")).collect();
    format!("| {} |", cells.join(" | "))
}

/// The rows of the document's tables of smallest inputs.
fn rows_of(document: &str) -> Vec<&str> {
    let mut inside = false;
    let is_row = |line: &&str| {
        let was = inside && line.starts_with('|');
        inside = was || line.contains("| smallest input |");
        was && !line.starts_with("|--")
    };
    document.lines().filter(is_row).collect()
}

/// Runs every point; prints those that the document does not have and the rows that it has beside them, and answers whether there are none and the port
/// answers as the points say.
pub fn run(replay: &Path, document: &str) -> io::Result<bool> {
    let mut points = Points {
        checked: commit(|| black_box(u8::MAX) + black_box(1)).is_none(),
        rows: vec![],
        cases: vec![],
    };
    figures::rows(&mut points);
    sender::rows(&mut points);
    bursts::rows(&mut points);
    receiver::rows(&mut points);
    metrics::rows(&mut points);
    rfcs::rows(&mut points);
    let there = rows_of(document);
    let lacks = |row: &&Row| !there.iter().any(|line| stands(line, row, points.checked));
    let lacking: Vec<&Row> = points.rows.iter().filter(lacks).collect();
    lacking.iter().for_each(|row| println!("{}", printed(row)));
    let not_run = |line: &&&str| !points.rows.iter().any(|row| stands(line, row, points.checked));
    let not_run: Vec<&&str> = there.iter().filter(not_run).collect();
    not_run.iter().for_each(|line| println!("not run: {line}"));
    let mut report = Report::default();
    report.add(&points.cases, &script::run(replay, script::text(&points.cases))?);
    let build = if points.checked { "checked" } else { "unchecked" };
    let different = report.different();
    println!(
        "{} points, the commit {build}: {} not in the document so, {} there and not run; {} calls of the port, {different} differences",
        points.rows.len(),
        lacking.len(),
        not_run.len(),
        points.cases.len()
    );
    Ok(lacking.is_empty() && not_run.is_empty() && different == 0)
}
