//! Calls 201 to 207: wire.rs.

use crate::proto::mmp::wire::{PathMtuNotification, ReceiverReport, SenderReport};
use crate::proto::Error;
use crate::script::case::{pattern, Case, Numbers};
use crate::script::rng::{boundaries, Rng};

/// The widths of the reports' fields.
const SENDER: [usize; 7] = [8, 8, 4, 4, 4, 8, 8];
pub const RECEIVER: [usize; 14] = [8, 8, 8, 4, 2, 2, 2, 4, 4, 4, 4, 4, 4, 4];
/// The receiver's signed field, the one-way delay trend.
const TREND: usize = 9;

fn sender(f: &[u64]) -> SenderReport {
    SenderReport {
        interval_start_counter: f[0],
        interval_end_counter: f[1],
        interval_start_timestamp: f[2] as u32,
        interval_end_timestamp: f[3] as u32,
        interval_bytes_sent: f[4] as u32,
        cumulative_packets_sent: f[5],
        cumulative_bytes_sent: f[6],
    }
}

pub fn sender_fields(r: &SenderReport) -> [u64; 7] {
    [
        r.interval_start_counter,
        r.interval_end_counter,
        r.interval_start_timestamp.into(),
        r.interval_end_timestamp.into(),
        r.interval_bytes_sent.into(),
        r.cumulative_packets_sent,
        r.cumulative_bytes_sent,
    ]
}

pub fn receiver(f: &[u64]) -> ReceiverReport {
    ReceiverReport {
        highest_counter: f[0],
        cumulative_packets_recv: f[1],
        cumulative_bytes_recv: f[2],
        timestamp_echo: f[3] as u32,
        dwell_time: f[4] as u16,
        max_burst_loss: f[5] as u16,
        mean_burst_loss: f[6] as u16,
        jitter: f[7] as u32,
        ecn_ce_count: f[8] as u32,
        owd_trend: f[TREND] as i32,
        burst_loss_count: f[10] as u32,
        cumulative_reorder_count: f[11] as u32,
        interval_packets_recv: f[12] as u32,
        interval_bytes_recv: f[13] as u32,
    }
}

pub fn receiver_fields(r: &ReceiverReport) -> [u64; 14] {
    [
        r.highest_counter,
        r.cumulative_packets_recv,
        r.cumulative_bytes_recv,
        r.timestamp_echo.into(),
        r.dwell_time.into(),
        r.max_burst_loss.into(),
        r.mean_burst_loss.into(),
        r.jitter.into(),
        r.ecn_ce_count.into(),
        pattern(r.owd_trend),
        r.burst_loss_count.into(),
        r.cumulative_reorder_count.into(),
        r.interval_packets_recv.into(),
        r.interval_bytes_recv.into(),
    ]
}

/// What is written over the start of the buffer. The commit makes the bytes up itself: a buffer that is too short is refused by document 01, question 6.
fn laid(bytes: &[u8], buffer: &[u8]) -> (Numbers, bool) {
    if buffer.len() < bytes.len() {
        return (Numbers::of(&[6]).buffer(buffer), true);
    }
    let mut after = bytes.to_vec();
    after.extend(&buffer[bytes.len()..]);
    (Numbers::of(&[0]).buffer(&after), false)
}

/// Refusal, needed, given and the fields, all 0 where it is refused.
fn decoded<const N: usize>(answer: Result<[u64; N], Error>) -> (Numbers, bool) {
    let numbers = match answer {
        Ok(fields) => Numbers::of(&[0, 0, 0]).and(&fields),
        Err(Error::MessageTooShort { expected, got }) => Numbers::of(&[7, expected as u64, got as u64]).and(&[0; N]),
    };
    (numbers, false)
}

pub fn encode_sender(fields: &[u64], buffer: &[u8]) -> Case {
    let answer = laid(&sender(fields).encode(), buffer);
    Case::new(Numbers::of(&[201]).and(fields).buffer(buffer), answer)
}

fn decode_sender(payload: &[u8]) -> Case {
    let answer = SenderReport::decode(payload).map(|r| sender_fields(&r));
    Case::new(Numbers::of(&[202]).buffer(payload), decoded(answer))
}

pub fn encode_receiver(fields: &[u64], buffer: &[u8]) -> Case {
    let answer = laid(&receiver(fields).encode(), buffer);
    Case::new(Numbers::of(&[203]).and(fields).buffer(buffer), answer)
}

pub fn decode_receiver(payload: &[u8]) -> Case {
    let answer = ReceiverReport::decode(payload).map(|r| receiver_fields(&r));
    Case::new(Numbers::of(&[204]).buffer(payload), decoded(answer))
}

fn new_path_mtu(mtu: u16) -> Case {
    let answer = Numbers::of(&[PathMtuNotification::new(mtu).path_mtu.into()]);
    Case::new(Numbers::of(&[205, mtu.into()]), (answer, false))
}

pub fn encode_path_mtu(mtu: u16, buffer: &[u8]) -> Case {
    let answer = laid(&PathMtuNotification::new(mtu).encode(), buffer);
    Case::new(Numbers::of(&[206, mtu.into()]).buffer(buffer), answer)
}

fn decode_path_mtu(body: &[u8]) -> Case {
    let answer = PathMtuNotification::decode(body).map(|p| [p.path_mtu.into()]);
    Case::new(Numbers::of(&[207]).buffer(body), decoded(answer))
}

/// A report's fields as its line has them.
pub fn fields(rng: &mut Rng, widths: &[usize]) -> Vec<u64> {
    let mut all: Vec<u64> = widths.iter().map(|w| rng.number(*w)).collect();
    if widths.len() == RECEIVER.len() {
        all[TREND] = pattern(all[TREND] as i32);
    }
    all
}

/// Reports in which one field stands at a boundary.
fn at_boundaries(rng: &mut Rng, widths: &[usize]) -> Vec<Vec<u64>> {
    let mut all = vec![];
    for (i, width) in widths.iter().enumerate() {
        for v in boundaries(*width) {
            let mut report = fields(rng, widths);
            let signed = widths.len() == RECEIVER.len() && i == TREND;
            report[i] = if signed { pattern(v as i32) } else { v };
            all.push(report);
        }
    }
    all
}

/// Every field at its boundaries, every length from 0 to 80, reports of one bit.
pub fn boundary_cases(rng: &mut Rng) -> Vec<Case> {
    let mut cases = vec![];
    for report in at_boundaries(rng, &SENDER) {
        cases.push(encode_sender(&report, &[0xaa; 48]));
        cases.push(decode_sender(&sender(&report).encode()[1..]));
    }
    for report in at_boundaries(rng, &RECEIVER) {
        cases.push(encode_receiver(&report, &[0xaa; 68]));
        cases.push(decode_receiver(&receiver(&report).encode()[1..]));
    }
    for len in 0..=80 {
        for payload in [rng.bytes(len), vec![0; len], vec![0xff; len]] {
            cases.push(decode_sender(&payload));
            cases.push(decode_receiver(&payload));
            cases.push(decode_path_mtu(&payload));
        }
        let buffer = rng.bytes(len);
        cases.push(encode_sender(&fields(rng, &SENDER), &buffer));
        cases.push(encode_receiver(&fields(rng, &RECEIVER), &buffer));
        cases.push(encode_path_mtu(rng.number(2) as u16, &buffer));
    }
    for at in 0..67 {
        let mut payload = [0; 67];
        payload[at] = 1 << rng.below(8);
        cases.push(decode_receiver(&payload));
        cases.push(decode_sender(&payload[..47.max(at + 1)]));
    }
    for mtu in boundaries(2) {
        cases.push(new_path_mtu(mtu as u16));
        cases.push(encode_path_mtu(mtu as u16, &[1, 2, 3]));
    }
    let longest = rng.bytes(1024);
    cases.push(decode_sender(&longest));
    cases.push(decode_receiver(&longest));
    cases.push(encode_receiver(&fields(rng, &RECEIVER), &longest));
    cases
}

/// A copy with a bit or a byte changed, cut short, or with bytes after it.
fn damaged(rng: &mut Rng, bytes: &[u8]) -> Vec<u8> {
    let mut copy = bytes.to_vec();
    match rng.below(5) {
        0 => {
            let i = rng.below(copy.len());
            copy[i] ^= 1 << rng.below(8);
        }
        1 => {
            let i = rng.below(copy.len());
            copy[i] = rng.draw() as u8;
        }
        2 => copy.truncate(rng.below(bytes.len() + 1)),
        3 => copy.truncate(bytes.len() - 1),
        _ => {
            let n = rng.below(14);
            copy.extend(rng.bytes(n));
        }
    }
    copy
}

/// The bytes, a damaged copy of them, or others.
fn any_payload(rng: &mut Rng, bytes: &[u8]) -> Vec<u8> {
    match rng.below(3) {
        0 => bytes.to_vec(),
        1 => damaged(rng, bytes),
        _ => {
            let len = rng.below(81);
            rng.bytes(len)
        }
    }
}

/// A buffer one byte short, exact, longer, or of any length.
fn room(rng: &mut Rng, n: usize) -> Vec<u8> {
    let len = match rng.below(4) {
        0 => n - 1,
        1 => n,
        2 => n + 1 + rng.below(12),
        _ => rng.below(81),
    };
    rng.bytes(len)
}

pub fn random_case(rng: &mut Rng, call: u64) -> Case {
    match call {
        201 => encode_sender(&fields(rng, &SENDER), &room(rng, 48)),
        202 => {
            let payload = sender(&fields(rng, &SENDER)).encode();
            decode_sender(&any_payload(rng, &payload[1..]))
        }
        203 => encode_receiver(&fields(rng, &RECEIVER), &room(rng, 68)),
        204 => {
            let payload = receiver(&fields(rng, &RECEIVER)).encode();
            decode_receiver(&any_payload(rng, &payload[1..]))
        }
        205 => new_path_mtu(rng.number(2) as u16),
        206 => encode_path_mtu(rng.number(2) as u16, &room(rng, 2)),
        _ => decode_path_mtu(&room(rng, 2)),
    }
}
