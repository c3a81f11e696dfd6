//! Histories of two ends of a link: frames and reports sent, lost, delayed, reordered and repeated; rekeys, report intervals and the figures.

use crate::cases::metrics::our_time;
use crate::cases::owd::ring_of;
use crate::cases::sender::due;
use crate::cases::tallies;
use crate::cases::wire::{decode_receiver, encode_receiver, receiver, receiver_fields};
use crate::proto::mmp::metrics::MmpMetrics;
use crate::proto::mmp::receiver::oracle_access::window;
use crate::proto::mmp::receiver::ReceiverState;
use crate::proto::mmp::sender::SenderState;
use crate::proto::mmp::wire::ReceiverReport;
use crate::records::ends::{Call, End, History};
use crate::records::metrics_call;
use crate::records::metrics_state::Metrics;
use crate::records::owd_ring::MAX_WINDOW;
use crate::records::receiver_call::{self, Frame};
use crate::records::receiver_state::Receiver;
use crate::records::sender_state::{self, Sender};
use crate::script::bounds::{bounds, smoothed, MAX_MS};
use crate::script::case::{Answer, Case};
use crate::script::rng::Rng;

/// A frame under way: its counter, its timestamp, its size and its mark.
#[derive(Clone, Copy)]
struct Sent {
    counter: u64,
    timestamp: u32,
    bytes: u64,
    ce_flag: bool,
}

/// What the calls of a history have been so far, and the lines that they make.
struct Told {
    calls: Vec<(usize, Call)>,
    cases: Vec<Case>,
}

/// An end, 0 or 1, and what is under way from it.
struct Peer {
    side: usize,
    end: End,
    /// The next counter, and the time at which the session's timestamps begin.
    counter: u64,
    began_ms: u64,
    frames: Vec<Sent>,
    reports: Vec<ReceiverReport>,
}

/// The report that an answer of `build_report` has.
pub fn report_built(case: &Case) -> Option<ReceiverReport> {
    match &case.answer {
        Answer::Numbers(numbers) if case.call == 507 && numbers[..2] == [0, 1] => Some(receiver(&numbers[2..16])),
        _ => None,
    }
}

/// One of those under way, mostly the oldest; seldom it stays, to come again.
fn arriving<T: Clone>(rng: &mut Rng, under_way: &mut Vec<T>) -> Option<T> {
    if under_way.is_empty() {
        return None;
    }
    let i = if rng.below(5) == 0 { rng.below(under_way.len()) } else { 0 };
    let one = under_way[i].clone();
    if rng.below(20) > 0 {
        under_way.remove(i);
    }
    Some(one)
}

/// A new end, its windows with any numbers.
pub fn new_end(rng: &mut Rng) -> End {
    let size = match rng.below(200) {
        0 => MAX_WINDOW,
        1..=9 => 32,
        10..=99 => 2 + rng.below(63),
        _ => 2 + rng.below(9),
    };
    let receiver = ReceiverState::new_with_cold_start(size, [200, 1000][rng.below(2)]);
    let mut ring = ring_of(window(&receiver).0);
    ring.times.fill_with(|| rng.number(4) as u32);
    ring.delays.fill_with(|| rng.draw() as i64);
    End {
        sender: Sender::of(&SenderState::new()),
        receiver: Receiver::of(&receiver, ring),
        metrics: Metrics::of(&MmpMetrics::new()),
    }
}

impl Peer {
    fn new(rng: &mut Rng, side: usize, end: End, began_ms: u64) -> Self {
        Self {
            side,
            end,
            counter: if rng.below(10) == 0 { u64::MAX - 30 } else { 0 },
            began_ms,
            frames: vec![],
            reports: vec![],
        }
    }

    fn call(&mut self, call: Call, told: &mut Told) {
        told.cases.push(self.end.call(&call));
        told.calls.push((self.side, call));
    }

    fn send(&mut self, call: sender_state::Call, told: &mut Told) {
        self.call(Call::Sender(call), told);
    }

    fn receive(&mut self, call: receiver_call::Call, told: &mut Told) {
        self.call(Call::Receiver(call), told);
    }

    fn measure(&mut self, call: metrics_call::Call, told: &mut Told) {
        self.call(Call::Metrics(call), told);
    }

    fn frame_sent(&mut self, rng: &mut Rng, now_ms: u64, told: &mut Told) {
        let sent = Sent {
            counter: self.counter,
            timestamp: now_ms.wrapping_sub(self.began_ms) as u32,
            bytes: rng.below(1500) as u64,
            ce_flag: rng.below(12) == 0,
        };
        let jump = if rng.below(60) == 0 { rng.number(3) } else { 1 };
        self.counter = self.counter.saturating_add(jump);
        self.frames.push(sent);
        let call = sender_state::Call::RecordSent {
            counter: sent.counter,
            timestamp: sent.timestamp,
            bytes: sent.bytes,
        };
        self.send(call, told);
    }

    fn frame_received(&mut self, rng: &mut Rng, sent: Sent, now_ms: u64, told: &mut Told) {
        let frame = Frame {
            counter: sent.counter,
            timestamp: sent.timestamp,
            bytes: sent.bytes,
            ce_flag: sent.ce_flag,
            now_ms,
        };
        let call = match rng.below(8) {
            0 => receiver_call::Call::RecordFrame(frame, false),
            1 => receiver_call::Call::RecordFrame(frame, true),
            _ => receiver_call::Call::RecordRecv(frame),
        };
        self.receive(call, told);
    }

    /// A report, decoded from its bytes.
    fn report_sent(&mut self, now_ms: u64, told: &mut Told) {
        self.receive(receiver_call::Call::BuildReport(now_ms), told);
        let built = told.cases.last().and_then(report_built);
        if let Some(built) = built {
            let bytes = built.encode();
            told.cases.push(encode_receiver(&receiver_fields(&built), &[0; 68]));
            told.cases.push(decode_receiver(&bytes[1..]));
            self.reports
                .push(ReceiverReport::decode(&bytes[1..]).expect("a report is long enough"));
        }
    }

    /// Our time is the session's; seldom it is about the echo and the dwell, or any.
    fn report_received(&mut self, rng: &mut Rng, report: ReceiverReport, now_ms: u64, told: &mut Told) {
        let our_timestamp_ms = match rng.below(8) {
            0 => our_time(rng, &report),
            _ => now_ms.wrapping_sub(self.began_ms) as u32,
        };
        let call = metrics_call::Call::Process {
            report,
            our_timestamp_ms,
            now_ms,
        };
        self.measure(call, told);
        if rng.below(3) == 0 {
            let srtt_us = self.end.metrics.fields.srtt.srtt_us;
            self.send(sender_state::Call::FromSrtt(srtt_us), told);
            self.receive(receiver_call::Call::FromSrtt(srtt_us), told);
        }
    }

    /// The new session begins with counter 0 and reset timestamps; frames of the old one may still come.
    fn rekey(&mut self, now_ms: u64, told: &mut Told) {
        (self.counter, self.began_ms) = (0, now_ms);
        self.receive(receiver_call::Call::Rekey(now_ms), told);
        self.measure(metrics_call::Call::Rekey, told);
    }

    /// The calls beside the frames.
    fn tend(&mut self, rng: &mut Rng, now_ms: u64, told: &mut Told) {
        let (min_ms, max_ms) = bounds(rng);
        let srtt_us = smoothed(rng);
        match rng.below(24) {
            0..=3 => self.report_sent(now_ms, told),
            4 => self.receive(receiver_call::Call::ShouldSend(now_ms), told),
            5 => self.receive(receiver_call::Call::FromSrtt(srtt_us), told),
            6 => self.receive(receiver_call::Call::WithBounds(srtt_us, min_ms, max_ms), told),
            7 | 8 => self.receive(receiver_call::PLAIN[rng.below(receiver_call::PLAIN.len())], told),
            9 | 10 => self.send(sender_state::Call::BuildReport(now_ms), told),
            11 => self.send(sender_state::Call::ShouldSend(now_ms), told),
            12 => self.send(sender_state::Call::ShouldSend(due(rng, &self.end.sender)), told),
            13 => self.send(sender_state::Call::FromSrtt(srtt_us), told),
            14 => self.send(sender_state::Call::WithBounds(srtt_us, min_ms, max_ms), told),
            15 => self.send(sender_state::Call::Failure, told),
            16 => self.send(sender_state::PLAIN[rng.below(8)], told),
            17..=19 => {
                let packets = self.end.receiver.fields.cumulative_packets_recv;
                let highest = self.end.receiver.fields.highest_counter;
                self.measure(metrics_call::Call::Reverse { packets, highest }, told);
            }
            _ => self.measure(metrics_call::PLAIN[rng.below(metrics_call::PLAIN.len())].clone(), told),
        }
    }
}

/// Time goes on; seldom a long silence, or a clock that falls.
fn later(rng: &mut Rng, now_ms: u64) -> u64 {
    match rng.below(150) {
        0 => now_ms.saturating_add((1 << 30) - 300 + rng.below(600) as u64),
        1 => now_ms.saturating_add(65_000 + rng.below(1000) as u64),
        2 => now_ms.saturating_add(14_000 + rng.below(2000) as u64),
        3 => now_ms.saturating_sub(rng.below(100_000) as u64),
        4 => now_ms.saturating_sub(1 << 31),
        5 => now_ms.saturating_add(1 << 32),
        _ => now_ms + rng.below(60) as u64,
    }
}

/// A history from these records on, and the lines that it makes.
pub fn lived(rng: &mut Rng, begun: [End; 2]) -> (History, Vec<Case>) {
    let mut told = Told {
        calls: vec![],
        cases: vec![],
    };
    let mut now_ms = match rng.below(4) {
        0 => (1 << 32) - rng.below(5000) as u64,
        1 => MAX_MS - rng.below(20_000) as u64,
        _ => rng.below(1 << 30) as u64,
    };
    let began_ms = if rng.below(2) == 0 { now_ms } else { 0 };
    let mut peers = [0, 1].map(|side| Peer::new(rng, side, begun[side].clone(), began_ms));
    for _ in 0..rng.below(300) {
        now_ms = later(rng, now_ms);
        let here = rng.below(2);
        let lost = rng.below(12) == 0;
        match rng.below(26) {
            0..=6 => peers[here].frame_sent(rng, now_ms, &mut told),
            7..=14 => {
                if let Some(sent) = arriving(rng, &mut peers[1 - here].frames).filter(|_| !lost) {
                    peers[here].frame_received(rng, sent, now_ms, &mut told);
                }
            }
            15..=18 => {
                if let Some(report) = arriving(rng, &mut peers[1 - here].reports).filter(|_| !lost) {
                    peers[here].report_received(rng, report, now_ms, &mut told);
                }
            }
            19 => match rng.below(12) {
                0..=2 => peers.iter_mut().for_each(|peer| peer.rekey(now_ms, &mut told)),
                3 => peers[here].rekey(now_ms, &mut told),
                4 => peers[here].measure(metrics_call::Call::Rekey, &mut told),
                _ => peers[here].report_sent(now_ms, &mut told),
            },
            _ => peers[here].tend(rng, now_ms, &mut told),
        }
    }
    let calls = told.calls;
    (History { begun, calls }, told.cases)
}

/// From new ends; seldom a count of reports is nearly full.
pub fn history(rng: &mut Rng) -> Vec<Case> {
    let mut begun = [new_end(rng), new_end(rng)];
    if rng.below(20) == 0 {
        let seen = u64::MAX - rng.below(8) as u64;
        begun[0].metrics.set_tallies(tallies::split(rng, seen));
    }
    lived(rng, begun).1
}
