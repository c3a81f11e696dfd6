//! The tables of docs/REPLAY.md: every call, what stands in its line and what its answer shows.

use std::sync::LazyLock;

const DOCUMENT: &str = include_str!("../../../docs/REPLAY.md");

/// An argument of a line.
#[derive(Clone, Copy)]
pub enum Kind {
    /// At most this. A bool is at most 1; the pattern of an i64 or an f64 is any number.
    Number(u64),
    /// The pattern of an i32.
    Signed32,
    /// A flag and a number that is at most this.
    Optional(u64),
    Reference,
    /// A case of four and its number: the first two have none.
    Arrival,
    Buffer,
    /// A length and so many numbers that are at most this.
    Window(u64),
}

/// A part of an answer that has few values.
#[derive(Clone, Copy, PartialEq)]
pub enum Part {
    Refusal,
    Bool,
    Optional,
    /// A log entry, a kind of round trip, or an arrival.
    Choice,
}

pub struct Call {
    pub number: u64,
    pub name: String,
    pub arguments: Vec<Kind>,
    /// The refusals that the row names.
    pub refusals: Vec<u64>,
    /// Parts of the answer, each with its place.
    pub parts: Vec<(usize, Part)>,
}

static CALLS: LazyLock<Vec<Call>> = LazyLock::new(|| rows().map(call_of).collect());

/// Every call, in the order of the tables.
pub fn calls() -> &'static [Call] {
    &CALLS
}

pub fn call(number: u64) -> Option<&'static Call> {
    calls().iter().find(|call| call.number == number)
}

/// The rows whose first cell is a call.
fn rows() -> impl Iterator<Item = Vec<&'static str>> {
    let cells = |line: &'static str| line.trim_matches('|').split('|').map(str::trim).collect::<Vec<_>>();
    let is_call = |row: &Vec<&str>| row.len() == 4 && row[0].parse::<u64>().is_ok();
    DOCUMENT.lines().filter(|line| line.starts_with('|')).map(cells).filter(is_call)
}

fn call_of(row: Vec<&'static str>) -> Call {
    let (parts, refusals) = parts_of(row[3]);
    Call {
        number: row[0].parse().expect("the first cell is a number"),
        name: row[1].replace('`', ""),
        arguments: items(row[2]).into_iter().flat_map(kinds).collect(),
        refusals,
        parts,
    }
}

/// A cell's items: what stands between commas, outside brackets, up to a colon or a semicolon.
fn items(cell: &'static str) -> Vec<&'static str> {
    let (mut all, mut from, mut depth) = (vec![], 0, 0);
    for (i, c) in cell.char_indices() {
        match c {
            '(' => depth += 1,
            ')' => depth -= 1,
            ':' | ';' if depth == 0 => {
                all.push(cell[from..i].trim());
                return all;
            }
            ',' if depth == 0 => {
                all.push(cell[from..i].trim());
                from = i + 1;
            }
            _ => {}
        }
    }
    all.push(cell[from..].trim());
    all
}

/// The greatest number of a type, where it is one.
fn greatest(name: &str) -> Option<u64> {
    Some(match name {
        "bool" => 1,
        "u8" => u8::MAX.into(),
        "u16" => u16::MAX.into(),
        "u32" => u32::MAX.into(),
        "u64" | "i64" | "f64" => u64::MAX,
        _ => return None,
    })
}

/// The arguments that an item stands for: one, or those of a record.
fn kinds(item: &'static str) -> Vec<Kind> {
    let item = item.split(" as in ").next().expect("an item has a start");
    let words: Vec<&str> = item.split(' ').collect();
    let last = words[words.len() - 1];
    let optional = words.len() > 1 && words[words.len() - 2] == "optional";
    match (last, greatest(last)) {
        (_, Some(most)) if optional => vec![Kind::Optional(most)],
        (_, Some(most)) => vec![Kind::Number(most)],
        ("i32", _) => vec![Kind::Signed32],
        ("reference", _) => vec![Kind::Reference],
        ("arrival", _) => vec![Kind::Arrival],
        ("buffer", _) => vec![Kind::Buffer],
        ("times", _) => vec![Kind::Window(u32::MAX.into())],
        ("delays", _) => vec![Kind::Window(u64::MAX)],
        ("none", _) => vec![],
        _ => record(item),
    }
}

/// The fields of the record that an item ends in: a paragraph of the document that begins with its name, up to the first full stop.
fn record(item: &str) -> Vec<Kind> {
    let of = |paragraph: &'static str| {
        let (name, fields) = paragraph.trim().split_once(": ")?;
        let name = name.to_lowercase();
        let named = item == name
            || item
                .strip_suffix(&name)
                .is_some_and(|rest| rest.ends_with(' ') && !rest.trim().contains(' '));
        named.then(|| fields.split('.').next().expect("the fields have a start"))
    };
    let fields = DOCUMENT.split("\n\n").find_map(of);
    let fields = fields.unwrap_or_else(|| panic!("docs/REPLAY.md has no record for `{item}`"));
    let of_line = |line: &'static str| items(line).into_iter().filter(|item| !item.is_empty());
    fields.lines().flat_map(of_line).flat_map(kinds).collect()
}

/// The parts of an answer up to its first record or buffer, and the refusals that it names.
fn parts_of(cell: &'static str) -> (Vec<(usize, Part)>, Vec<u64>) {
    let (mut parts, mut refusals, mut at) = (vec![], vec![], 0);
    for item in items(cell) {
        let last = item.rsplit(' ').next().expect("an item has a word");
        if item.starts_with("length answer") {
            refusals.push(7);
            parts.push((at, Part::Refusal));
            at += 3;
        } else if let Some(named) = item.strip_prefix("refusal (") {
            let number = |part: &str| part.trim_start().split([' ', ')']).next().and_then(|n| n.parse().ok());
            refusals.extend(named.split(',').filter_map(number).collect::<Vec<u64>>());
            parts.push((at, Part::Refusal));
            at += 1;
        } else if item.split(' ').any(|word| word == "optional") {
            parts.push((at, Part::Optional));
            at += 2;
        } else if let Some(width) = [("log", 4), ("kind", 1), ("arrival", 2)]
            .iter()
            .find_map(|(name, width)| (item == *name).then_some(width))
        {
            parts.push((at, Part::Choice));
            at += width;
        } else if last == "bool" {
            parts.push((at, Part::Bool));
            at += 1;
        } else if item == "0" || last == "i32" || greatest(last).is_some() {
            at += 1;
        } else {
            break;
        }
    }
    (parts, refusals)
}
