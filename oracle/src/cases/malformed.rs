//! Lines that are no call, or not the call's arguments.

use std::collections::BTreeMap;

use crate::script::case::{joined, Case};
use crate::script::lines::{misfits, places, Misfit, MOST_BYTES, MOST_NUMBERS, MOST_WINDOW};
use crate::script::rng::Rng;
use crate::script::tables::{call, Call, Kind};

/// Lines that are malformed whatever their call, or that have none.
const PLAIN: [&str; 77] = [
    // no number, no call
    "",
    " ",
    "x",
    "-1",
    "+1",
    "0",
    "1",
    "99",
    "100",
    "113",
    "120",
    "130",
    "140",
    "149",
    "150",
    "156",
    "160",
    "175",
    "199",
    "200",
    "208",
    "299",
    "300",
    "307",
    "310",
    "319",
    "320",
    "329",
    "330",
    "337",
    "340",
    "345",
    "350",
    "358",
    "400",
    "418",
    "450",
    "474",
    "460",
    "467",
    "500",
    "520",
    "600",
    "622",
    "630",
    "638",
    "999",
    "18446744073709551615",
    // too large
    "18446744073709551616",
    "18446744073709551620",
    "18446744073709551744",
    "99999999999999999999999999",
    "128 18446744073709551616",
    // bytes that stand in no number
    "128 0x1",
    "128 1.0",
    "128 -1",
    "128 1e3",
    "128\t1",
    "128 1\r",
    "128,1",
    "128 1 #",
    "128 /",
    "128 :",
    // spaces
    " 128 1",
    "128 1 ",
    "128  1",
    // a buffer or a window longer than its line
    "101 0 1",
    "101 0 2 1",
    "101 0 1024 1",
    "101 0 18446744073709551615",
    "101 0 18446744073709551615 1",
    "127 0 18446744073709551615 0 0",
    "127 0 1 1",
    "333 2 0 0 1 1 2 0 0",
    "333 2 0 0 1 1 2 0 0 2 0",
    "334 2 0 0 4100 0 0",
    "334 2 0 0 18446744073709551615 0 0",
];

/// One line for each way to be malformed: those of any line, and those of each call, from a good line of it.
pub fn boundary_cases(good: &[Case]) -> Vec<Case> {
    let mut lines: Vec<String> = PLAIN.map(String::from).to_vec();
    let repeated = |n: usize| vec!["7"; n].join(" ");
    lines.extend([MOST_NUMBERS, MOST_NUMBERS + 1].map(repeated));
    lines.push(format!("128{}", " 1".repeat(9000)));
    lines.push("9".repeat(5000));
    let mut shortest: BTreeMap<u64, &str> = BTreeMap::new();
    for case in good {
        let line = shortest.entry(case.call).or_insert(&case.line);
        if case.line.len() < line.len() {
            *line = &case.line;
        }
    }
    for (number, line) in shortest {
        let call = call(number).expect("a good line has a call of the tables");
        let numbers: Vec<u64> = line.split(' ').map(|n| n.parse().expect("a good line has numbers")).collect();
        lines.extend(spoilt(call, &numbers[1..]).iter().map(|numbers| joined(numbers)));
    }
    lines.into_iter().map(Case::malformed).collect()
}

/// A call's good line with a number too few, with one too many, and with each argument in each way that does not fit.
fn spoilt(call: &Call, arguments: &[u64]) -> Vec<Vec<u64>> {
    let line = |arguments: &[u64]| [&[call.number], arguments].concat();
    let places = places(call, arguments).expect("a good line's arguments fit");
    let mut lines = vec![[&line(arguments), &[1][..]].concat()];
    if let Some((_, fewer)) = arguments.split_last() {
        lines.push(line(fewer));
    }
    for (i, kind) in call.arguments.iter().enumerate() {
        let (before, after) = (&arguments[..places[i]], &arguments[places[i + 1]..]);
        let with = |misfit: Misfit| line(&[before, &misfitting(*kind, misfit), after].concat());
        lines.extend(misfits(*kind).into_iter().map(with));
    }
    lines
}

/// An argument that does not fit, just so.
fn misfitting(kind: Kind, misfit: Misfit) -> Vec<u64> {
    let past = match kind {
        Kind::Number(most) | Kind::Optional(most) | Kind::Window(most) => most.saturating_add(1),
        Kind::Buffer => 256,
        Kind::Reference | Kind::Signed32 | Kind::Arrival => 1 << 32,
    };
    let longest = if matches!(kind, Kind::Buffer) { MOST_BYTES } else { MOST_WINDOW };
    match (misfit, kind) {
        (Misfit::Number, _) => vec![past],
        (Misfit::Above, _) => vec![1 << 31],
        (Misfit::Below, _) => vec![i64::from(i32::MIN) as u64 - 1],
        (Misfit::Flag, Kind::Reference) => vec![2, 0, 0],
        (Misfit::Absent, Kind::Reference) => vec![0, 1, 0],
        (Misfit::AbsentSecond, _) => vec![0, 0, 1],
        (Misfit::Present, Kind::Reference) => vec![1, 0, past],
        (Misfit::Flag, Kind::Arrival) => vec![4, 0],
        (Misfit::Absent, Kind::Arrival) => vec![1, 1],
        (Misfit::Flag, _) => vec![2, 0],
        (Misfit::Absent, _) => vec![0, 1],
        (Misfit::Present, _) => vec![1, past],
        (Misfit::Element, _) => vec![1, past],
        (Misfit::Length, _) => [vec![longest + 1], vec![7; longest as usize + 1]].concat(),
    }
}

/// A good line, spoilt.
pub fn random_case(rng: &mut Rng, good: &Case) -> Case {
    let mut words: Vec<&str> = good.line.split(' ').collect();
    let i = rng.below(words.len());
    match rng.below(6) {
        0 => {
            words.pop();
        }
        1 => words.push("1"),
        2 => words[i] = "18446744073709551616",
        3 => words[i] = "1a",
        4 => words[i] = "",
        _ => words[i] = "-1",
    }
    Case::malformed(words.join(" "))
}
