//! The cases of each call, with the commit's answers: a file for each section of the commit's files, and the edges of the large records apart.

pub mod algorithms;
pub mod codec;
pub mod etx;
pub mod ewma;
pub mod fields;
pub mod figures;
pub mod gaps;
pub mod held;
pub mod jitter;
pub mod links;
pub mod malformed;
pub mod metrics;
pub mod metrics_edges;
pub mod owd;
pub mod receiver;
pub mod receiver_edges;
pub mod samples;
pub mod sender;
pub mod spin;
pub mod srtt;
pub mod tallies;
pub mod wire;
