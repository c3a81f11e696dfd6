//! Whether a script with its answers has every call of docs/REPLAY.md's tables, every refusal that a row names, both answers of every bool, every kind of the
//! others, and every way to be malformed; and every size of a window that the commit settles, asked for, and full in a trend, wrapped and not.

use std::collections::BTreeSet;

use crate::records::owd_ring::MAX_WINDOW;
use crate::script::lines::{misfits, read, Fault};
use crate::script::tables::{calls, Call, Part};

/// What a line shows.
#[derive(Clone, Copy, PartialEq, Eq, PartialOrd, Ord)]
enum Shown {
    Line(u64),
    /// A part of a call's answer, by its place, with its number.
    Part(u64, usize, u64),
    Malformed(Fault),
    /// A constructor's size.
    Size(u64, u64),
    /// A full window with a trend: its size, and whether it wraps.
    Trend(u64, bool),
}

/// The calls whose first argument is a requested size, and the one that answers the trend of a window.
const CONSTRUCTORS: [u64; 3] = [331, 501, 503];
const TREND: u64 = 334;

/// Everything that the tables have.
fn wanted() -> BTreeSet<Shown> {
    use Fault::{Empty, NoCall, OtherByte, SpaceBefore, SpaceBehind, SpaceDoubled, TooLarge, TooManyNumbers};
    let plain = [
        Empty,
        OtherByte,
        SpaceBefore,
        SpaceBehind,
        SpaceDoubled,
        TooLarge,
        TooManyNumbers,
        NoCall,
    ];
    let mut all: BTreeSet<Shown> = plain.map(Shown::Malformed).into();
    for call in calls() {
        all.insert(Shown::Line(call.number));
        for (at, part) in &call.parts {
            let numbers = match part {
                Part::Refusal => [&[0], &call.refusals[..]].concat(),
                Part::Bool | Part::Optional => vec![0, 1],
                Part::Choice => vec![0, 1, 2, 3],
            };
            all.extend(numbers.into_iter().map(|n| Shown::Part(call.number, *at, n)));
        }
        all.insert(Shown::Malformed(Fault::Many(call.number)));
        if !call.arguments.is_empty() {
            all.insert(Shown::Malformed(Fault::Few(call.number)));
        }
        for (i, kind) in call.arguments.iter().enumerate() {
            let faults = misfits(*kind).into_iter().map(|misfit| Fault::Argument(call.number, i, misfit));
            all.extend(faults.map(Shown::Malformed));
        }
    }
    for size in 0..=MAX_WINDOW as u64 + 1 {
        all.extend(CONSTRUCTORS.map(|call| Shown::Size(call, size)));
    }
    for size in 2..=MAX_WINDOW as u64 {
        all.extend([false, true].map(|wrapped| Shown::Trend(size, wrapped)));
    }
    all
}

/// What a good line and its answer show: on a refusal nothing beside it.
fn shown(call: &Call, arguments: &[u64], answer: &str) -> Vec<Shown> {
    let numbers: Vec<u64> = answer.split(' ').filter_map(|n| n.parse().ok()).collect();
    let mut all = vec![Shown::Line(call.number)];
    if CONSTRUCTORS.contains(&call.number) {
        all.push(Shown::Size(call.number, arguments[0]));
    }
    if call.number == TREND && numbers[0] == 0 {
        let (capacity, count, first) = (arguments[0], arguments[1], arguments[2]);
        if count == capacity {
            all.push(Shown::Trend(capacity, first > 0));
        }
    }
    for (at, part) in &call.parts {
        all.push(Shown::Part(call.number, *at, numbers[*at]));
        if *part == Part::Refusal && numbers[*at] > 0 {
            break;
        }
    }
    all
}

fn told(shown: Shown) -> String {
    let name = |number: u64| {
        let call = calls().iter().find(|call| call.number == number);
        format!("{number} {}", call.map_or("", |call| call.name.as_str()))
    };
    match shown {
        Shown::Line(call) => format!("{}: no line", name(call)),
        Shown::Part(call, 0, n) if calls().iter().any(|c| c.number == call && c.parts[0].1 == Part::Refusal) => {
            format!("{}: refusal {n}", name(call))
        }
        Shown::Part(call, at, n) => format!("{}: {n} at place {at} of an answer", name(call)),
        Shown::Malformed(Fault::Few(call)) => format!("{}: a number too few", name(call)),
        Shown::Malformed(Fault::Many(call)) => format!("{}: a number too many", name(call)),
        Shown::Malformed(Fault::Argument(call, i, misfit)) => format!("{}: argument {i} malformed, {misfit:?}", name(call)),
        Shown::Malformed(fault) => format!("malformed: {fault:?}"),
        Shown::Size(call, size) => format!("{}: a size of {size}", name(call)),
        Shown::Trend(size, wrapped) => format!(
            "{}: a full window of {size}, {}",
            name(TREND),
            if wrapped { "wrapped" } else { "not wrapped" }
        ),
    }
}

/// Prints what the script lacks, and answers whether it lacks nothing.
pub fn covered(script: &str, answers: &str) -> bool {
    let mut missing = wanted();
    let (all, lines) = (missing.len(), script.split('\n').count());
    let mut good = lines == answers.lines().count();
    if !good {
        println!("there are not as many answers as lines");
    }
    for (i, (line, answer)) in script.split('\n').zip(answers.lines()).enumerate() {
        let malformed = answer.starts_with("malformed");
        let seen = match read(line) {
            Ok((call, arguments)) if !malformed => shown(call, &arguments, answer),
            Err(fault) if malformed => vec![Shown::Malformed(fault)],
            _ => {
                println!("line {}: the tables and the answer disagree whether it is malformed", i + 1);
                good = false;
                vec![]
            }
        };
        seen.iter().for_each(|shown| {
            missing.remove(shown);
        });
    }
    missing.iter().for_each(|shown| println!("missing: {}", told(*shown)));
    println!(
        "{lines} lines, {} calls: {} of {all} points stand in the list",
        calls().len(),
        all - missing.len()
    );
    good && missing.is_empty()
}
