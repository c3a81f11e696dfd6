//! The loop over payloads whose length is read from memory in each turn, as crates/bench/src/decoded.rt. It is a program of its own: in one with `bench` each
//! decoder has two callers, is then called and not inlined, and costs the commit two and a half times as much.

use std::env;

use oracle::proto::codec::Reader;
use oracle::proto::mmp::wire::{PathMtuNotification, ReceiverReport, SenderReport};
use oracle::proto::Error;

#[path = "../bench/loops/sums.rs"]
mod sums;

use sums::{next, receiver_sum, sender_sum, START};

/// What a refusal adds: its two lengths.
fn lengths_of(error: &Error) -> u64 {
    let Error::MessageTooShort { expected, got } = error;
    (expected ^ got) as u64
}

/// A field read at a place: its value and the place after.
fn field<T: Into<u64>>(payload: &[u8], pos: usize, read: impl Fn(&mut Reader) -> Result<T, Error>) -> u64 {
    let mut reader = Reader::new(payload);
    reader.advance(pos);
    match read(&mut reader) {
        Ok(value) => value.into() ^ reader.position() as u64,
        Err(error) => lengths_of(&error),
    }
}

/// Which arm of `called` a call is: 0, the loop alone, is an arm as the others are.
fn arm(call: u64) -> u64 {
    match call {
        106 => 1,
        107 => 2,
        108 => 3,
        1202 => 4,
        1204 => 5,
        1207 => 6,
        _ => 0,
    }
}

fn called(arm: u64, payload: &[u8], pos: usize) -> u64 {
    match arm {
        0 => (payload.len() ^ pos) as u64,
        1 => field(payload, pos, |r| r.read_u16_le()),
        2 => field(payload, pos, |r| r.read_u32_le()),
        3 => field(payload, pos, |r| r.read_u64_le()),
        4 => SenderReport::decode(payload).map_or_else(|e| lengths_of(&e), |r| sender_sum(&r)),
        5 => ReceiverReport::decode(payload).map_or_else(|e| lengths_of(&e), |r| receiver_sum(&r)),
        6 => PathMtuNotification::decode(payload).map_or_else(|e| lengths_of(&e), |p| u64::from(p.path_mtu)),
        _ => 0,
    }
}

#[inline(never)]
fn sum(call: u64, count: u64, short: u64) -> u64 {
    let arm = arm(call);
    let mut payload = [0; 80];
    let mut lengths = [67usize.saturating_sub(short as usize); 8];
    let mut x = START;
    let mut sum = 0u64;
    for _ in 0..count {
        x = next(x);
        payload[(x % 67) as usize] = (x >> 56) as u8;
        let n = lengths[((x >> 8) % 8) as usize];
        lengths[((x >> 16) % 8) as usize] = n;
        let part = called(arm, payload.get(..n).unwrap_or(&payload), ((x >> 24) % 32) as usize);
        sum = sum.wrapping_add(part);
    }
    sum
}

pub fn run() {
    let words: Vec<u64> = env::args().skip(1).map(|word| word.parse().expect("a number")).collect();
    let word = |i: usize| words.get(i).copied().unwrap_or(0);
    println!("{}", sum(word(0), word(1), word(3)).wrapping_sub(sum(word(0), word(2), word(3))));
}
