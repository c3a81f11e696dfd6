//! Proved link measurement, safe to call from Rust.
//!
//! Every call takes any numbers, states and buffers. It answers, or refuses by the number of the first question that is answered no ([`Refusal`]) and
//! changes nothing that it was lent. What each call answers is proved, in crates/siwolkert of the repository; nothing is worked out here.
//!
//! The archive comes from tools/archive.

pub mod raw;

use std::error::Error;
use std::fmt;

/// Why a call refused: the question that was answered no.
#[derive(Debug, Clone, Copy, PartialEq, Eq)]
#[repr(u8)]
pub enum Refusal {
    /// 1: the state breaks its rule.
    State = 1,
    /// 2: a clock reading or an interval above 2^48 − 1 ms.
    Clock = 2,
    /// 3: a frame of more than 2^32 − 1 bytes.
    FrameSize = 3,
    /// 4: a window buffer that is not as long as the state's capacity.
    Windows = 4,
    /// 5: a delay sample outside ±2^42 µs.
    DelaySample = 5,
    /// 6: an output buffer that is too short.
    OutputBuffer = 6,
    /// 7: a payload that is too short.
    Payload = 7,
    /// 8: a round trip, or a smoothed value, outside its range.
    RoundTrip = 8,
    /// 9: a lower interval bound above the upper.
    IntervalBounds = 9,
    /// 10: a counter that can't hold the sum.
    Counter = 10,
    /// 11: a ratio, ETX, RTT or trend sample outside its range, or a NaN.
    Value = 11,
}

impl Refusal {
    /// The number of the question.
    ///
    /// ```
    /// assert_eq!(siwolkert::Refusal::Counter.number(), 10);
    /// ```
    pub fn number(self) -> u8 {
        self as u8
    }

    /// The refusal of a status that a call returned; none for 0.
    ///
    /// ```
    /// use siwolkert::Refusal;
    /// assert_eq!(Refusal::of(0), None);
    /// assert_eq!(Refusal::of(11), Some(Refusal::Value));
    /// ```
    pub fn of(status: u8) -> Option<Refusal> {
        use Refusal::*;
        let all = [
            State,
            Clock,
            FrameSize,
            Windows,
            DelaySample,
            OutputBuffer,
            Payload,
            RoundTrip,
            IntervalBounds,
            Counter,
            Value,
        ];
        all.into_iter().find(|r| r.number() == status)
    }

    /// A status as a result. A number that is no question's can't come from a proved call, so it is a fault of the archive.
    #[inline]
    fn check(status: u8) -> Result<(), Refusal> {
        if status == 0 {
            return Ok(());
        }
        match Refusal::of(status) {
            Some(refusal) => Err(refusal),
            None => panic!("the archive returned {status}, which is no refusal: is libsiwolkert.a of another version?"),
        }
    }
}

impl fmt::Display for Refusal {
    fn fmt(&self, f: &mut fmt::Formatter) -> fmt::Result {
        let why = match self {
            Refusal::State => "the state breaks its rule",
            Refusal::Clock => "a clock or an interval is above 2^48 - 1 ms",
            Refusal::FrameSize => "the frame is larger than 2^32 - 1 bytes",
            Refusal::Windows => "a window buffer is not as long as the capacity",
            Refusal::DelaySample => "a delay sample is outside 2^42 µs",
            Refusal::OutputBuffer => "the output buffer is too short",
            Refusal::Payload => "the payload is too short",
            Refusal::RoundTrip => "a round trip is out of range",
            Refusal::IntervalBounds => "the lower interval bound is above the upper",
            Refusal::Counter => "a counter can't hold the sum",
            Refusal::Value => "a value is out of range, or NaN",
        };
        write!(f, "refused by {}: {why}", self.number())
    }
}

impl Error for Refusal {}

/// A payload that is too short: refusal 7, with both lengths.
#[derive(Debug, Clone, Copy, PartialEq, Eq)]
pub struct MessageTooShort {
    pub needed: u64,
    pub given: u64,
}

impl fmt::Display for MessageTooShort {
    fn fmt(&self, f: &mut fmt::Formatter) -> fmt::Result {
        write!(f, "refused by 7: {} bytes needed, {} given", self.needed, self.given)
    }
}

impl Error for MessageTooShort {}

#[inline]
fn checked(check: raw::PayloadCheck, payload: &[u8]) -> Result<(), MessageTooShort> {
    let (mut needed, mut given) = (0, 0);
    // SAFETY: pointer and length are of one slice; the two numbers are locals
    match unsafe { check(payload.as_ptr(), payload.len(), &mut needed, &mut given) } {
        0 => Ok(()),
        _ => Err(MessageTooShort { needed, given }),
    }
}

/// Whether a payload (what follows the type byte) is long enough for a sender's report.
///
/// ```
/// assert_eq!(siwolkert::check_sender_payload(&[0; 47]), Ok(()));
/// let short = siwolkert::check_sender_payload(&[0; 46]).unwrap_err();
/// assert_eq!((short.needed, short.given), (47, 46));
/// ```
#[inline]
pub fn check_sender_payload(payload: &[u8]) -> Result<(), MessageTooShort> {
    checked(raw::siwolkert_check_sender_payload, payload)
}

/// Whether a payload (what follows the type byte) is long enough for a receiver's report.
///
/// ```
/// assert_eq!(siwolkert::check_receiver_payload(&[0; 67]), Ok(()));
/// assert!(siwolkert::check_receiver_payload(&[]).is_err());
/// ```
#[inline]
pub fn check_receiver_payload(payload: &[u8]) -> Result<(), MessageTooShort> {
    checked(raw::siwolkert_check_receiver_payload, payload)
}

/// A step of the interarrival jitter: scaled jitter (16 times the jitter, in µs) and a transit difference in, the scaled jitter after it out.
///
/// ```
/// use siwolkert::Refusal;
/// assert_eq!(siwolkert::jitter_update(0, 16), Ok(16));
/// assert_eq!(siwolkert::jitter_update(16, 0), Ok(15));
/// assert_eq!(siwolkert::jitter_update(-1, 0), Err(Refusal::State));
/// ```
#[inline]
pub fn jitter_update(jitter_q4: i64, transit_delta: i32) -> Result<i64, Refusal> {
    let mut updated = 0;
    // SAFETY: the out-parameter is a local
    let status = unsafe { raw::siwolkert_jitter_update(jitter_q4, transit_delta, &mut updated) };
    Refusal::check(status).map(|()| updated)
}

/// The expected transmission count of two delivery ratios.
///
/// ```
/// use siwolkert::Refusal;
/// assert_eq!(siwolkert::compute_etx(0.5, 0.5), Ok(4.0));
/// assert_eq!(siwolkert::compute_etx(f64::NAN, 1.0), Err(Refusal::Value));
/// ```
#[inline]
pub fn compute_etx(d_forward: f64, d_reverse: f64) -> Result<f64, Refusal> {
    let mut etx = 0.0;
    // SAFETY: the out-parameter is a local
    let status = unsafe { raw::siwolkert_compute_etx(d_forward, d_reverse, &mut etx) };
    Refusal::check(status).map(|()| etx)
}

/// What an end keeps of the frames that it sends to one peer. The daemon owns it and lends it to each call.
///
/// The fields are the record's, in its order and layout; a record that breaks its rule is refused, whatever made it so.
#[derive(Debug, Clone, Copy, PartialEq, Eq)]
#[repr(C)]
pub struct SenderState {
    pub cumulative_packets_sent: u64,
    pub cumulative_bytes_sent: u64,
    pub interval_start_counter: u64,
    pub interval_start_timestamp: u32,
    pub interval_bytes_sent: u32,
    pub last_counter: u64,
    pub last_timestamp: u32,
    pub interval_has_data: bool,
    /// Whether a report has been built; `last_report_ms` is any number where none has.
    pub has_last_report: bool,
    pub last_report_ms: u64,
    pub report_interval_ms: u64,
    pub consecutive_send_failures: u32,
    pub srtt_sample_count: u32,
}

/// A sender's report.
#[derive(Debug, Clone, Copy, PartialEq, Eq, Default)]
#[repr(C)]
pub struct SenderReport {
    pub interval_start_counter: u64,
    pub interval_end_counter: u64,
    pub interval_start_timestamp: u32,
    pub interval_end_timestamp: u32,
    pub interval_bytes_sent: u32,
    pub cumulative_packets_sent: u64,
    pub cumulative_bytes_sent: u64,
}

impl Default for SenderState {
    fn default() -> Self {
        Self::new()
    }
}

impl SenderState {
    /// A new record: nothing sent, and a first report interval of 200 ms.
    ///
    /// ```
    /// assert_eq!(siwolkert::SenderState::new().check(), Ok(()));
    /// ```
    pub fn new() -> Self {
        SenderState {
            cumulative_packets_sent: 0,
            cumulative_bytes_sent: 0,
            interval_start_counter: 0,
            interval_start_timestamp: 0,
            interval_bytes_sent: 0,
            last_counter: 0,
            last_timestamp: 0,
            interval_has_data: false,
            has_last_report: false,
            last_report_ms: 0,
            report_interval_ms: 200,
            consecutive_send_failures: 0,
            srtt_sample_count: 0,
        }
    }

    /// Whether the record keeps its rule.
    ///
    /// ```
    /// use siwolkert::{Refusal, SenderState};
    /// let mut state = SenderState::new();
    /// state.report_interval_ms = 1 << 48; // no interval is so long
    /// assert_eq!(state.check(), Err(Refusal::State));
    /// ```
    #[inline]
    pub fn check(&self) -> Result<(), Refusal> {
        // SAFETY: the record is borrowed for the call
        Refusal::check(unsafe { raw::siwolkert_sender_check(self) })
    }

    /// A frame is sent. On a refusal the record stays as it is.
    ///
    /// ```
    /// let mut state = siwolkert::SenderState::new();
    /// state.record_sent(7, 1000, 512)?;
    /// assert_eq!(state.cumulative_bytes_sent, 512);
    /// # Ok::<(), siwolkert::Refusal>(())
    /// ```
    #[inline]
    pub fn record_sent(&mut self, counter: u64, timestamp: u32, bytes: usize) -> Result<(), Refusal> {
        // SAFETY: the record is borrowed for the call, and nobody else holds it
        Refusal::check(unsafe { raw::siwolkert_sender_record_sent(self, counter, timestamp, bytes) })
    }

    /// A report of the interval, where a frame has been sent since the last one. On a refusal the record stays as it is.
    ///
    /// ```
    /// let mut state = siwolkert::SenderState::new();
    /// assert_eq!(state.build_report(10), Ok(None));
    /// state.record_sent(7, 1000, 512)?;
    /// let report = state.build_report(20)?.unwrap();
    /// assert_eq!(report.interval_end_counter, 7);
    /// # Ok::<(), siwolkert::Refusal>(())
    /// ```
    #[inline]
    pub fn build_report(&mut self, now_ms: u64) -> Result<Option<SenderReport>, Refusal> {
        let mut some = false;
        let mut report = SenderReport::default();
        // SAFETY: the record is borrowed for the call, and the two out-parameters are locals
        let status = unsafe { raw::siwolkert_sender_build_report(self, now_ms, &mut some, &mut report) };
        Refusal::check(status).map(|()| some.then_some(report))
    }
}

/// README's program in Rust, run as a doc-test; tools/readme-code asks that it is there.
#[cfg(doctest)]
#[doc = include_str!("../../README.md")]
pub struct Readme;

// The layout that the archive was built for: size and each offset.
const _: () = {
    use std::mem::{align_of, offset_of, size_of};
    assert!(size_of::<SenderState>() == 72 && align_of::<SenderState>() == 8);
    assert!(offset_of!(SenderState, cumulative_packets_sent) == 0);
    assert!(offset_of!(SenderState, cumulative_bytes_sent) == 8);
    assert!(offset_of!(SenderState, interval_start_counter) == 16);
    assert!(offset_of!(SenderState, interval_start_timestamp) == 24);
    assert!(offset_of!(SenderState, interval_bytes_sent) == 28);
    assert!(offset_of!(SenderState, last_counter) == 32);
    assert!(offset_of!(SenderState, last_timestamp) == 40);
    assert!(offset_of!(SenderState, interval_has_data) == 44);
    assert!(offset_of!(SenderState, has_last_report) == 45);
    assert!(offset_of!(SenderState, last_report_ms) == 48);
    assert!(offset_of!(SenderState, report_interval_ms) == 56);
    assert!(offset_of!(SenderState, consecutive_send_failures) == 64);
    assert!(offset_of!(SenderState, srtt_sample_count) == 68);
    assert!(size_of::<SenderReport>() == 48 && align_of::<SenderReport>() == 8);
    assert!(offset_of!(SenderReport, interval_start_counter) == 0);
    assert!(offset_of!(SenderReport, interval_end_counter) == 8);
    assert!(offset_of!(SenderReport, interval_start_timestamp) == 16);
    assert!(offset_of!(SenderReport, interval_end_timestamp) == 20);
    assert!(offset_of!(SenderReport, interval_bytes_sent) == 24);
    assert!(offset_of!(SenderReport, cumulative_packets_sent) == 32);
    assert!(offset_of!(SenderReport, cumulative_bytes_sent) == 40);
};
