//! Calls 141 to 159: little-endian fields, which the commit reads and writes by `from_le_bytes` and `to_le_bytes`.

use crate::cases::codec::{place, places};
use crate::script::case::{pattern, Case, Numbers};
use crate::script::rng::{boundaries, top, Rng};

/// The n bytes at a position, where they lie in the buffer.
fn span<const N: usize>(at: usize, buffer: &[u8]) -> Option<[u8; N]> {
    buffer.get(at..at.checked_add(N)?)?.try_into().ok()
}

fn field_at(call: u64, at: usize, buffer: &[u8]) -> Case {
    let value = match call {
        141 => span(at, buffer).map(|b| u8::from_le_bytes(b).into()),
        142 => span(at, buffer).map(|b| u16::from_le_bytes(b).into()),
        143 => span(at, buffer).map(|b| u32::from_le_bytes(b).into()),
        144 => span(at, buffer).map(u64::from_le_bytes),
        145 => span(at, buffer).map(|b| pattern(i32::from_le_bytes(b))),
        _ => buffer.get(at..).map(|rest| rest.len() as u64),
    };
    let answer = (Numbers::of(&[value.unwrap_or(0)]), value.is_none());
    Case::new(Numbers::of(&[call, at as u64]).buffer(buffer), answer)
}

/// `v` is the line's number: of 155 the pattern of an i32.
fn put_field(call: u64, at: usize, v: u64, buffer: &[u8]) -> Case {
    let bytes = match call {
        151 => (v as u8).to_le_bytes().to_vec(),
        152 => (v as u16).to_le_bytes().to_vec(),
        153 => (v as u32).to_le_bytes().to_vec(),
        154 => v.to_le_bytes().to_vec(),
        _ => (v as i32).to_le_bytes().to_vec(),
    };
    let mut after = buffer.to_vec();
    let place = at.checked_add(bytes.len()).and_then(|end| after.get_mut(at..end));
    let outside = place.is_none();
    if let Some(place) = place {
        place.copy_from_slice(&bytes);
    }
    Case::new(
        Numbers::of(&[call, at as u64, v]).buffer(buffer),
        (Numbers::of(&[]).buffer(&after), outside),
    )
}

fn signed32(x: u32) -> Case {
    let answer = Numbers::of(&[pattern(i32::from_le_bytes(x.to_le_bytes()))]);
    Case::new(Numbers::of(&[147, x.into()]), (answer, false))
}

fn bits32(z: i32) -> Case {
    let answer = Numbers::of(&[u32::from_le_bytes(z.to_le_bytes()).into()]);
    Case::new(Numbers::of(&[148, pattern(z)]), (answer, false))
}

/// A field from its bytes: as many as the call takes.
fn word(call: u64, b: [u8; 8]) -> Case {
    let [b0, b1, b2, b3, ..] = b;
    let (n, value) = match call {
        156 => (2, u16::from_le_bytes([b0, b1]).into()),
        157 => (4, u32::from_le_bytes([b0, b1, b2, b3]).into()),
        158 => (8, u64::from_le_bytes(b)),
        _ => (4, pattern(i32::from_le_bytes([b0, b1, b2, b3]))),
    };
    let line = b[..n].iter().fold(Numbers::of(&[call]), |line, byte| line.and(&[(*byte).into()]));
    Case::new(line, (Numbers::of(&[value]), false))
}

/// A call that stores a number, and how many bytes that has.
const PUTS: [(u64, usize); 5] = [(151, 1), (152, 2), (153, 4), (154, 8), (155, 4)];
const FIELDS: [u64; 6] = [141, 142, 143, 144, 145, 146];
const WORDS: [u64; 4] = [156, 157, 158, 159];

/// The number as the call's line has it.
fn given(call: u64, v: u64) -> u64 {
    if call == 155 {
        pattern(v as i32)
    } else {
        v
    }
}

/// Every call at its boundaries.
pub fn boundary_cases(rng: &mut Rng) -> Vec<Case> {
    let mut cases = vec![];
    for len in [0, 1, 2, 3, 4, 7, 8, 9, 40] {
        let buffer = rng.bytes(len);
        for n in [1, 2, 4, 8] {
            for at in places(len, n) {
                cases.extend(FIELDS.iter().map(|call| field_at(*call, at, &buffer)));
            }
        }
        for (call, n) in PUTS {
            for at in places(len, n) {
                cases.push(put_field(call, at, given(call, rng.draw() & top(n)), &buffer));
            }
        }
    }
    for (call, n) in PUTS {
        for v in boundaries(n) {
            cases.push(put_field(call, 1, given(call, v), &[7; 10]));
            cases.extend(FIELDS.iter().map(|call| field_at(*call, 0, &v.to_le_bytes())));
        }
    }
    for call in WORDS {
        for n in [2, 4, 8] {
            cases.extend(boundaries(n).iter().map(|v| word(call, v.to_le_bytes())));
        }
        cases.extend((0..64).map(|bit| word(call, (1u64 << bit).to_le_bytes())));
    }
    cases.extend(boundaries(4).iter().map(|x| signed32(*x as u32)));
    cases.extend(boundaries(4).iter().map(|x| bits32(*x as i32)));
    cases
}

pub fn random_case(rng: &mut Rng, call: u64) -> Case {
    let len = rng.below(81);
    let buffer = rng.bytes(len);
    match call {
        147 => signed32(rng.number(4) as u32),
        148 => bits32(rng.number(4) as i32),
        156..=159 => word(call, rng.number(8).to_le_bytes()),
        151..=155 => {
            let (_, n) = PUTS[(call - 151) as usize];
            let v = rng.number(n);
            put_field(call, place(rng, len, n), given(call, v), &buffer)
        }
        _ => {
            let n = [1, 2, 4, 8, 4, 0][(call - 141) as usize];
            field_at(call, place(rng, len, n), &buffer)
        }
    }
}
