//! Calls 101 to 129: codec.rs, `Reader` and `Writer`.

use crate::proto::codec::oracle_access::{reader, writer};
use crate::proto::codec::{Reader, Writer};
use crate::proto::Error;
use crate::script::case::{commit, Case, Numbers};
use crate::script::rng::{boundaries, top, Rng};

/// Refusal, needed and given, of the commit's answer.
fn length<T>(answer: &Result<T, Error>) -> [u64; 3] {
    match answer {
        Ok(_) => [0, 0, 0],
        Err(Error::MessageTooShort { expected, got }) => [7, *expected as u64, *got as u64],
    }
}

/// The same for n bytes at a place, by the rule.
fn length_rule(pos: usize, n: usize, payload: &[u8]) -> [u64; 3] {
    if pos.checked_add(n).is_some_and(|end| end <= payload.len()) {
        [0, 0, 0]
    } else {
        [7, pos.saturating_add(n) as u64, payload.len() as u64]
    }
}

/// The commit's answer to a reader at a place that is asked for n bytes, and whether it is the rule's because the commit has none.
pub fn length_at(pos: usize, n: usize, payload: &[u8]) -> ([u64; 3], bool) {
    match commit(|| reader(payload, pos).require(n)) {
        Some(answer) => (length(&answer), false),
        None => (length_rule(pos, n, payload), true),
    }
}

/// What the commit's reader has left at a place that is not past the end.
pub fn rest_at(pos: usize, payload: &[u8]) -> &[u8] {
    reader(payload, pos).rest()
}

/// A read of n bytes: what is shown of the value, or `none` where it is refused.
fn read<'a, T>(
    pos: usize,
    n: usize,
    payload: &'a [u8],
    call: impl FnOnce(&mut Reader<'a>) -> Result<T, Error>,
    shown: impl FnOnce(T) -> Vec<u64>,
    none: &[u64],
) -> (Numbers, bool) {
    let answer = commit(|| {
        let mut r = reader(payload, pos);
        let value = call(&mut r);
        (value, r.position())
    });
    match answer {
        Some((value, after)) => {
            let numbers = Numbers::of(&length(&value));
            let value = value.map_or(none.to_vec(), shown);
            (numbers.and(&value).and(&[after as u64]), false)
        }
        None => (Numbers::of(&length_rule(pos, n, payload)).and(none).and(&[pos as u64]), true),
    }
}

fn numbers_of(bytes: &[u8]) -> Vec<u64> {
    bytes.iter().map(|b| u64::from(*b)).collect()
}

/// Calls on a place and a payload.
pub fn plain(call: u64, pos: usize, payload: &[u8]) -> Case {
    Case::new(Numbers::of(&[call, pos as u64]).buffer(payload), plain_answer(call, pos, payload))
}

pub fn plain_answer(call: u64, pos: usize, payload: &[u8]) -> (Numbers, bool) {
    match call {
        101 => match commit(|| reader(payload, pos).remaining()) {
            Some(n) => (Numbers::of(&[n as u64]), false),
            None => (Numbers::of(&[0]), true),
        },
        102 => match commit(|| reader(payload, pos).rest()) {
            Some(rest) => (Numbers::of(&[]).buffer(rest), false),
            None => (Numbers::of(&[0]), true),
        },
        105 => read(pos, 1, payload, |r| r.read_u8(), |v| vec![v.into()], &[0]),
        106 => read(pos, 2, payload, |r| r.read_u16_le(), |v| vec![v.into()], &[0]),
        107 => read(pos, 4, payload, |r| r.read_u32_le(), |v| vec![v.into()], &[0]),
        108 => read(pos, 8, payload, |r| r.read_u64_le(), |v| vec![v], &[0]),
        110 => read(pos, 2, payload, |r| r.read_array::<2>(), |v| numbers_of(&v), &[0; 2]),
        111 => read(pos, 4, payload, |r| r.read_array::<4>(), |v| numbers_of(&v), &[0; 4]),
        _ => read(pos, 8, payload, |r| r.read_array::<8>(), |v| numbers_of(&v), &[0; 8]),
    }
}

/// Calls on a place, a count and a payload.
pub fn counted(call: u64, pos: usize, n: usize, payload: &[u8]) -> Case {
    let answer = match call {
        103 => {
            let (length, by_rule) = length_at(pos, n, payload);
            (Numbers::of(&length), by_rule)
        }
        104 => {
            let after = commit(|| {
                let mut r = reader(payload, pos);
                r.advance(n);
                r.position()
            });
            let length = Numbers::of(&length_rule(pos, n, payload));
            (length.and(&[after.unwrap_or(pos) as u64]), after.is_none())
        }
        _ => {
            let shown = |v: &[u8]| Numbers::of(&[]).buffer(v).0;
            read(pos, n, payload, |r| r.read_bytes(n), shown, &[0])
        }
    };
    Case::new(Numbers::of(&[call, pos as u64, n as u64]).buffer(payload), answer)
}

/// A write at a place of a buffer. The commit appends to the bytes before the place; what does not fit it has no answer for.
fn write(pos: usize, n: usize, buffer: &[u8], call: impl FnOnce(&mut Writer)) -> (Numbers, bool) {
    if pos.checked_add(n).is_none_or(|end| end > buffer.len()) {
        return (Numbers::of(&[6, pos as u64]).buffer(buffer), true);
    }
    let mut w = writer(buffer[..pos].to_vec());
    call(&mut w);
    let after = w.len();
    let mut bytes = w.into_vec();
    bytes.extend(&buffer[after..]);
    (Numbers::of(&[0, after as u64]).buffer(&bytes), false)
}

pub fn write_number(call: u64, pos: usize, v: u64, buffer: &[u8]) -> Case {
    let answer = match call {
        123 => write(pos, 1, buffer, |w| w.write_u8(v as u8)),
        124 => write(pos, 2, buffer, |w| w.write_u16_le(v as u16)),
        125 => write(pos, 4, buffer, |w| w.write_u32_le(v as u32)),
        _ => write(pos, 8, buffer, |w| w.write_u64_le(v)),
    };
    Case::new(Numbers::of(&[call, pos as u64, v]).buffer(buffer), answer)
}

fn write_bytes(pos: usize, v: &[u8], buffer: &[u8]) -> Case {
    let answer = write(pos, v.len(), buffer, |w| w.write_bytes(v));
    Case::new(Numbers::of(&[127, pos as u64]).buffer(v).buffer(buffer), answer)
}

fn new() -> Case {
    let pos = Writer::new().len();
    assert!(pos == Writer::default().len(), "the default is a new one");
    Case::new(Numbers::of(&[121]), (Numbers::of(&[pos as u64]), false))
}

pub fn with_capacity(n: usize, buffer: &[u8]) -> Case {
    let answer = if n <= buffer.len() {
        (Numbers::of(&[0, Writer::with_capacity(n).len() as u64]), false)
    } else {
        (Numbers::of(&[6, 0]), true)
    };
    Case::new(Numbers::of(&[122, n as u64]).buffer(buffer), answer)
}

fn len_of(pos: usize) -> Case {
    let outside = pos > 65536;
    let answer = if outside { pos } else { writer(vec![0; pos]).len() };
    Case::new(Numbers::of(&[128, pos as u64]), (Numbers::of(&[answer as u64]), outside))
}

fn into_vec(pos: usize, buffer: &[u8]) -> Case {
    let outside = pos > buffer.len();
    let bytes = if outside {
        buffer.to_vec()
    } else {
        writer(buffer[..pos].to_vec()).into_vec()
    };
    Case::new(
        Numbers::of(&[129, pos as u64]).buffer(buffer),
        (Numbers::of(&[]).buffer(&bytes), outside),
    )
}

const PLAIN: [u64; 9] = [101, 102, 105, 106, 107, 108, 110, 111, 112];
const COUNTED: [u64; 3] = [103, 104, 109];
/// A call that writes a number, and how many bytes that has.
const WRITES: [(u64, usize); 4] = [(123, 1), (124, 2), (125, 4), (126, 8)];
/// Places about n bytes before the end, about the end, and where a sum with n wraps.
pub fn places(len: usize, n: usize) -> Vec<usize> {
    let last = len.saturating_sub(n);
    let wraps = usize::MAX - n;
    let mut all = vec![0, 1, last.saturating_sub(1), last, last + 1, len, len + 1];
    all.extend([wraps, wraps.saturating_add(1), usize::MAX]);
    all.sort_unstable();
    all.dedup();
    all
}

/// Every call at its boundaries.
pub fn boundary_cases(rng: &mut Rng) -> Vec<Case> {
    let mut cases = vec![new()];
    for len in [0, 1, 2, 3, 4, 7, 8, 9, 40] {
        let payload = rng.bytes(len);
        for pos in places(len, 8) {
            cases.extend(PLAIN.iter().map(|call| plain(*call, pos, &payload)));
            cases.push(into_vec(pos, &payload));
        }
        for n in [1, 2, 4] {
            let pos = len.saturating_sub(n);
            for pos in [pos, pos + 1] {
                cases.extend(PLAIN.iter().map(|call| plain(*call, pos, &payload)));
            }
        }
        for n in [0, 1, len, len + 1, usize::MAX] {
            for pos in places(len, n) {
                cases.extend(COUNTED.iter().map(|call| counted(*call, pos, n, &payload)));
            }
            cases.push(with_capacity(n, &payload));
        }
        for n in [0, 1, 3, len, len + 1] {
            for pos in places(len, n) {
                cases.push(write_bytes(pos, &rng.bytes(n), &payload));
            }
        }
        for (call, n) in WRITES {
            for pos in places(len, n) {
                cases.push(write_number(call, pos, rng.draw() & top(n), &payload));
            }
        }
    }
    for pos in [0, 1, 47, 48, 68, 65535, 65536, usize::MAX] {
        cases.push(len_of(pos));
    }
    for (call, n) in WRITES {
        cases.extend(boundaries(n).iter().map(|v| write_number(call, 1, *v, &[7; 10])));
    }
    let longest = rng.bytes(1024);
    cases.push(plain(102, 0, &longest));
    cases.push(counted(109, 1, 1023, &longest));
    cases.push(write_bytes(0, &longest, &[9; 1024]));
    cases
}

/// A place that mostly leaves room for n bytes.
pub fn place(rng: &mut Rng, len: usize, n: usize) -> usize {
    match rng.below(8) {
        0 => rng.number(8) as usize,
        1 => usize::MAX - rng.below(12),
        2 => len.saturating_sub(n) + rng.below(3),
        _ => rng.below(len.saturating_sub(n) + 1),
    }
}

pub fn random_case(rng: &mut Rng, call: u64) -> Case {
    let len = rng.below(81);
    let buffer = rng.bytes(len);
    match call {
        103 | 104 | 109 => {
            let n = place(rng, len, 0);
            let pos = place(rng, len, n.min(len));
            counted(call, pos, n, &buffer)
        }
        122 => with_capacity(place(rng, len, 0), &buffer),
        123..=126 => {
            let n = 1 << (call - 123);
            write_number(call, place(rng, len, n), rng.number(n), &buffer)
        }
        127 => {
            let n = rng.below(40);
            write_bytes(place(rng, len, n), &rng.bytes(n), &buffer)
        }
        128 if rng.below(2) == 0 => len_of(rng.below(2000)),
        128 => len_of(rng.number(8) as usize),
        129 => into_vec(place(rng, len, 0), &buffer),
        _ => {
            let n = match call {
                101 | 102 => 0,
                105 => 1,
                106 | 110 => 2,
                107 | 111 => 4,
                _ => 8,
            };
            plain(call, place(rng, len, n), &buffer)
        }
    }
}
