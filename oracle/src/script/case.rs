//! A line of the script with the expected answer, and where that comes from.

use std::cell::Cell;
use std::panic::{self, AssertUnwindSafe};

use crate::records::owd_ring::Ring;
use crate::records::report_kind::Kind;

pub enum Answer {
    Numbers(Vec<u64>),
    Malformed,
}

pub struct Case {
    /// 0 for a line that is malformed.
    pub call: u64,
    pub line: String,
    pub answer: Answer,
    /// The commit panics here, has nothing to refuse with, or a request differs from it: the answer is the rule of docs/REPLAY.md.
    pub outside: bool,
    /// Whether it is a change request that parts from the commit.
    pub requested: bool,
    /// The frames missing before the one that an accepted call counts; 0 for any other call.
    pub gap: u64,
    /// How far behind the frame of an accepted call on a receiver is, 0 where it is not; and whether it raises the greatest lateness.
    pub late: (u64, bool),
    /// The window of an accepted trend or report, where it is full: its size, and whether it wraps.
    pub window: Option<(usize, bool)>,
    /// The kind of an accepted report, with reports seen and those of each kind before it.
    pub report: Option<(Kind, [u64; 6])>,
}

/// The greatest gap whose length is the commit's. Document 02, W-201, settles the length of a longer one.
pub const LAST_GAP: u64 = 65_535;

impl Case {
    pub fn new(line: Numbers, (answer, outside): (Numbers, bool)) -> Self {
        Self {
            call: line.0[0],
            line: joined(&line.0),
            answer: Answer::Numbers(answer.0),
            outside,
            requested: false,
            gap: 0,
            late: (0, false),
            window: None,
            report: None,
        }
    }

    /// Where a request differs from the commit, what it alters is the request's.
    pub fn as_requested(mut self, parts: bool) -> Self {
        self.requested |= parts;
        self.outside |= parts;
        self
    }

    /// An accepted frame, with the gap before it.
    pub fn behind(mut self, gap: u64) -> Self {
        self.gap = gap;
        self.as_requested(gap > LAST_GAP)
    }

    /// An accepted frame, with how far behind it is.
    pub fn late(mut self, n: u64, raises: bool) -> Self {
        self.late = (n, raises);
        self
    }

    /// A trend, or a report with one, of this window.
    pub fn over(mut self, ring: &Ring) -> Self {
        let full = ring.count == ring.capacity;
        self.window = (full && !self.outside).then(|| (ring.capacity, ring.wrapped()));
        self
    }

    /// An accepted report of this kind, on a record with these tallies.
    pub fn report(mut self, kind: Option<Kind>, tallies: [u64; 6]) -> Self {
        self.report = kind.map(|kind| (kind, tallies));
        self
    }

    pub fn malformed(line: String) -> Self {
        Self {
            call: 0,
            line,
            answer: Answer::Malformed,
            outside: true,
            requested: false,
            gap: 0,
            late: (0, false),
            window: None,
            report: None,
        }
    }

    /// The same line with zeros before each number.
    pub fn with_zeros(mut self) -> Self {
        self.line = format!("0{}", self.line.replace(' ', " 000"));
        self
    }

    /// The answer to line number n.
    pub fn expected(&self, n: usize) -> String {
        match &self.answer {
            Answer::Numbers(numbers) => joined(numbers),
            Answer::Malformed => format!("malformed {n}"),
        }
    }
}

pub fn joined(numbers: &[u64]) -> String {
    let words: Vec<String> = numbers.iter().map(u64::to_string).collect();
    words.join(" ")
}

/// The numbers of a line or of an answer.
#[derive(Clone)]
pub struct Numbers(pub Vec<u64>);

impl Numbers {
    pub fn of(numbers: &[u64]) -> Self {
        Self(numbers.to_vec())
    }

    pub fn and(mut self, numbers: &[u64]) -> Self {
        self.0.extend(numbers);
        self
    }

    /// The bytes with their length before them.
    pub fn buffer(mut self, bytes: &[u8]) -> Self {
        self.0.push(bytes.len() as u64);
        self.0.extend(bytes.iter().map(|b| u64::from(*b)));
        self
    }
}

/// A signed number's 64-bit pattern.
pub fn pattern(z: i32) -> u64 {
    i64::from(z) as u64
}

thread_local! {
    static IN_COMMIT: Cell<bool> = const { Cell::new(false) };
}

/// A panic of the commit is an answer, and prints nothing.
pub fn hush_commit() {
    let usual = panic::take_hook();
    panic::set_hook(Box::new(move |info| {
        if !IN_COMMIT.get() {
            usual(info);
        }
    }));
}

/// What the commit answers, or `None` where it panics.
pub fn commit<T>(call: impl FnOnce() -> T) -> Option<T> {
    IN_COMMIT.set(true);
    let answer = panic::catch_unwind(AssertUnwindSafe(call)).ok();
    IN_COMMIT.set(false);
    answer
}
