//! Calls 161 to 175: codec.rs, the `Reader` that holds its payload, the reports that it decodes, and what it is made of.

use crate::cases::codec::{length_at, place, plain_answer, rest_at};
use crate::cases::wire::{receiver_fields, sender_fields};
use crate::proto::mmp::wire::{ReceiverReport, SenderReport};
use crate::script::case::{Case, Numbers};
use crate::script::rng::Rng;

/// The calls on a slice and a place that do the same reads.
const READS: [u64; 7] = [105, 106, 107, 108, 110, 111, 112];

/// The payloads' lengths.
const SENDER_BYTES: usize = 47;
const RECEIVER_BYTES: usize = 67;

fn read(call: u64, pos: usize, payload: &[u8]) -> Case {
    let answer = plain_answer(READS[(call - 161) as usize], pos, payload);
    Case::new(Numbers::of(&[call, pos as u64]).buffer(payload), answer)
}

fn sender_in(payload: &[u8]) -> [u64; 7] {
    let Ok(report) = SenderReport::decode(payload) else {
        unreachable!("47 bytes are there")
    };
    sender_fields(&report)
}

fn receiver_in(payload: &[u8]) -> [u64; 14] {
    let Ok(report) = ReceiverReport::decode(payload) else {
        unreachable!("67 bytes are there")
    };
    receiver_fields(&report)
}

/// A report from a place on: the commit's length answer there, and its decoding of what is left.
fn decode(call: u64, pos: usize, payload: &[u8]) -> Case {
    let sender = call % 2 == 0;
    let (length, by_rule) = length_at(pos, if sender { SENDER_BYTES } else { RECEIVER_BYTES }, payload);
    let head = Numbers::of(&length);
    let answer = match (length[0], sender) {
        (0, true) => head.and(&sender_in(rest_at(pos, payload))),
        (0, false) => head.and(&receiver_in(rest_at(pos, payload))),
        (_, true) => head.and(&[0; 7]),
        (_, false) => head.and(&[0; 14]),
    };
    let line = if call < 170 { vec![call] } else { vec![call, pos as u64] };
    Case::new(Numbers::of(&line).buffer(payload), (answer, by_rule))
}

fn needed_for(pos: usize, n: usize) -> Case {
    let needed = pos.saturating_add(n);
    Case::new(Numbers::of(&[174, pos as u64, n as u64]), (Numbers::of(&[needed as u64]), true))
}

/// How many bytes a new reader has left: the commit's answer at the start.
fn remaining(payload: &[u8]) -> Case {
    Case::new(Numbers::of(&[175]).buffer(payload), plain_answer(101, 0, payload))
}

/// Every read about the end of a payload, and every report from every place up to 80 bytes.
pub fn boundary_cases(rng: &mut Rng) -> Vec<Case> {
    let mut cases = vec![];
    for len in [0, 1, 2, 3, 4, 7, 8, 9, 40] {
        let payload = rng.bytes(len);
        for call in 161..=167 {
            for pos in [
                0,
                1,
                len.saturating_sub(8),
                len.saturating_sub(1),
                len,
                len + 1,
                usize::MAX - 1,
                usize::MAX,
            ] {
                cases.push(read(call, pos, &payload));
            }
        }
    }
    for len in 0..=80 {
        let payload = rng.bytes(len);
        cases.extend([168, 169].map(|call| decode(call, 0, &payload)));
        cases.push(remaining(&payload));
        for pos in [
            0,
            1,
            len.saturating_sub(67),
            len.saturating_sub(47),
            len,
            len + 1,
            usize::MAX - 46,
            usize::MAX,
        ] {
            cases.extend([170, 171].map(|call| decode(call, pos, &payload)));
        }
    }
    for pos in [0, 1, 47, usize::MAX - 47, usize::MAX] {
        cases.extend([0, 1, 46, 47, 48, usize::MAX].map(|n| needed_for(pos, n)));
    }
    cases
}

pub fn random_case(rng: &mut Rng, call: u64) -> Case {
    let len = rng.below(120);
    let payload = rng.bytes(len);
    match call {
        161..=167 => read(call, place(rng, len, 8), &payload),
        168 | 169 => decode(call, 0, &payload),
        170 | 171 => decode(call, place(rng, len, 67.min(len)), &payload),
        175 => remaining(&payload),
        _ => needed_for(rng.number(8) as usize, rng.number(8) as usize),
    }
}
