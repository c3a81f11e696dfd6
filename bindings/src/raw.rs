//! The archive's functions as they are linked: the status is the return value, results go to out-parameters, which a refusal leaves as they were (the
//! payload checks write their two lengths beside a 7, and only there). A byte slice passes as a pointer and a length.

use crate::{SenderReport, SenderState};

pub type PayloadCheck = unsafe extern "C" fn(*const u8, usize, *mut u64, *mut u64) -> u8;

extern "C" {
    pub fn siwolkert_check_sender_payload(payload: *const u8, len: usize, needed: *mut u64, given: *mut u64) -> u8;
    pub fn siwolkert_check_receiver_payload(payload: *const u8, len: usize, needed: *mut u64, given: *mut u64) -> u8;
    pub fn siwolkert_jitter_update(jitter_q4: i64, transit_delta: i32, updated: *mut i64) -> u8;
    pub fn siwolkert_compute_etx(d_forward: f64, d_reverse: f64, etx: *mut f64) -> u8;
    pub fn siwolkert_sender_check(state: *const SenderState) -> u8;
    pub fn siwolkert_sender_record_sent(state: *mut SenderState, counter: u64, timestamp: u32, bytes: usize) -> u8;
    pub fn siwolkert_sender_build_report(state: *mut SenderState, now_ms: u64, some: *mut bool, report: *mut SenderReport) -> u8;
}
