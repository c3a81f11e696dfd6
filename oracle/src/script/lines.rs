//! A line of a script as docs/REPLAY.md reads it: the call with its numbers, or what is wrong with it.

use crate::script::tables::{call, Call, Kind};

/// The most numbers of a line, bytes of a buffer and numbers of a window.
pub const MOST_NUMBERS: usize = 8500;
pub const MOST_BYTES: u64 = 1024;
pub const MOST_WINDOW: u64 = 4100;

/// A way to be malformed.
#[derive(Clone, Copy, PartialEq, Eq, PartialOrd, Ord, Debug)]
pub enum Fault {
    Empty,
    OtherByte,
    SpaceBefore,
    SpaceBehind,
    SpaceDoubled,
    TooLarge,
    TooManyNumbers,
    NoCall,
    /// A call's line ends before its arguments.
    Few(u64),
    Many(u64),
    /// An argument of a call, by its place among them.
    Argument(u64, usize, Misfit),
}

#[derive(Clone, Copy, PartialEq, Eq, PartialOrd, Ord, Debug)]
pub enum Misfit {
    Number,
    /// A number above the positive ones of an i32, or below the pattern of the least.
    Above,
    Below,
    /// No flag, or no case of an arrival.
    Flag,
    /// A number beside a flag that is 0, or beside a plain case; the second of a reference.
    Absent,
    AbsentSecond,
    Present,
    Length,
    Element,
}

/// The ways in which an argument may misfit.
pub fn misfits(kind: Kind) -> Vec<Misfit> {
    match kind {
        Kind::Number(u64::MAX) => vec![],
        Kind::Number(_) => vec![Misfit::Number],
        Kind::Signed32 => vec![Misfit::Above, Misfit::Below],
        Kind::Optional(u64::MAX) => vec![Misfit::Flag, Misfit::Absent],
        Kind::Optional(_) => vec![Misfit::Flag, Misfit::Absent, Misfit::Present],
        Kind::Reference => vec![Misfit::Flag, Misfit::Absent, Misfit::AbsentSecond, Misfit::Present],
        Kind::Arrival => vec![Misfit::Flag, Misfit::Absent],
        Kind::Buffer => vec![Misfit::Length, Misfit::Element],
        Kind::Window(u64::MAX) => vec![Misfit::Length],
        Kind::Window(_) => vec![Misfit::Length, Misfit::Element],
    }
}

/// How many of the numbers an argument takes, where it begins with the first of them.
fn width(kind: Kind, numbers: &[u64]) -> Result<usize, Option<Misfit>> {
    let number = |i: usize| numbers.get(i).copied().ok_or(None);
    let misfit = |no: bool, how| if no { Err(Some(how)) } else { Ok(()) };
    let first = number(0)?;
    match kind {
        Kind::Number(most) => {
            misfit(first > most, Misfit::Number)?;
            Ok(1)
        }
        Kind::Signed32 => {
            let least = i64::from(i32::MIN) as u64;
            misfit(first > i32::MAX as u64 && first < 1 << 63, Misfit::Above)?;
            misfit(first >= 1 << 63 && first < least, Misfit::Below)?;
            Ok(1)
        }
        Kind::Optional(most) => {
            let second = number(1)?;
            misfit(first > 1, Misfit::Flag)?;
            misfit(first == 0 && second > 0, Misfit::Absent)?;
            misfit(second > most, Misfit::Present)?;
            Ok(2)
        }
        Kind::Reference => {
            let (second, third) = (number(1)?, number(2)?);
            misfit(first > 1, Misfit::Flag)?;
            misfit(first == 0 && second > 0, Misfit::Absent)?;
            misfit(first == 0 && third > 0, Misfit::AbsentSecond)?;
            misfit(third > u32::MAX.into(), Misfit::Present)?;
            Ok(3)
        }
        Kind::Arrival => {
            let second = number(1)?;
            misfit(first > 3, Misfit::Flag)?;
            misfit(first < 2 && second > 0, Misfit::Absent)?;
            Ok(2)
        }
        Kind::Buffer => counted(numbers, MOST_BYTES, u8::MAX.into()),
        Kind::Window(most) => counted(numbers, MOST_WINDOW, most),
    }
}

/// A length, at most the greatest, and so many numbers, each at most `most`.
fn counted(numbers: &[u64], greatest: u64, most: u64) -> Result<usize, Option<Misfit>> {
    if numbers[0] > greatest {
        return Err(Some(Misfit::Length));
    }
    let end = 1 + numbers[0] as usize;
    let elements = numbers.get(1..end).ok_or(None)?;
    if elements.iter().any(|n| *n > most) {
        return Err(Some(Misfit::Element));
    }
    Ok(end)
}

/// Where each argument begins, and the end.
pub fn places(call: &Call, arguments: &[u64]) -> Result<Vec<usize>, Fault> {
    let mut places = vec![0];
    for (i, kind) in call.arguments.iter().enumerate() {
        let at = places[i];
        let width = width(*kind, &arguments[at..]).map_err(|how| match how {
            Some(misfit) => Fault::Argument(call.number, i, misfit),
            None => Fault::Few(call.number),
        })?;
        places.push(at + width);
    }
    Ok(places)
}

/// The call and its arguments.
pub fn read(line: &str) -> Result<(&'static Call, Vec<u64>), Fault> {
    if line.is_empty() {
        return Err(Fault::Empty);
    }
    if line.bytes().any(|b| b != b' ' && !b.is_ascii_digit()) {
        return Err(Fault::OtherByte);
    }
    if line.starts_with(' ') {
        return Err(Fault::SpaceBefore);
    }
    if line.ends_with(' ') {
        return Err(Fault::SpaceBehind);
    }
    if line.contains("  ") {
        return Err(Fault::SpaceDoubled);
    }
    let numbers: Result<Vec<u64>, _> = line.split(' ').map(str::parse).collect();
    let mut numbers = numbers.map_err(|_| Fault::TooLarge)?;
    if numbers.len() > MOST_NUMBERS {
        return Err(Fault::TooManyNumbers);
    }
    let call = call(numbers[0]).ok_or(Fault::NoCall)?;
    let arguments = numbers.split_off(1);
    let end = places(call, &arguments)?[call.arguments.len()];
    if end < arguments.len() {
        return Err(Fault::Many(call.number));
    }
    Ok((call, arguments))
}
