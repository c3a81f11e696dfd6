//! A record's fields as they stand in memory, from a place that the random number picks: the twin of crates/bench/src/table.rt.

/// The numbers are below 2^35.
pub type Numbers = [u64; 64];

/// Where a record begins, below 32.
pub fn place(x: u64) -> usize {
    ((x >> 8) % 32) as usize
}

/// A number that every record has: the shifted part is 0.
pub fn held(n: u64, number: u64) -> u64 {
    number ^ (n >> 35)
}

/// A flag that is set in every record.
pub fn is_set(n: u64) -> bool {
    n >> 35 == 0
}

/// What an optional number adds to a sum.
pub fn option_sum(n: Option<u64>) -> u64 {
    n.unwrap_or(1)
}
