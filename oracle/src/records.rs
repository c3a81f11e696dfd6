//! The records beside the commit's: their rules and questions as docs/RULES.md has them, the calls on them, and two ends that have them.

pub mod ends;
pub mod metrics_call;
pub mod metrics_state;
pub mod owd_ring;
pub mod receiver_call;
pub mod receiver_state;
pub mod report_kind;
pub mod sender_state;
