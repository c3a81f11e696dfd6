//! Two ends of a link, each with its three records, and lists of calls on them.

use crate::records::metrics_call;
use crate::records::metrics_state::Metrics;
use crate::records::receiver_call;
use crate::records::receiver_state::Receiver;
use crate::records::sender_state::{self, Sender};
use crate::script::case::Case;

#[derive(Clone)]
pub struct End {
    pub sender: Sender,
    pub receiver: Receiver,
    pub metrics: Metrics,
}

/// A call on one of an end's records.
#[derive(Clone)]
pub enum Call {
    Sender(sender_state::Call),
    Receiver(receiver_call::Call),
    Metrics(metrics_call::Call),
}

impl End {
    pub fn call(&mut self, call: &Call) -> Case {
        match call {
            Call::Sender(call) => {
                let (case, after) = self.sender.call(*call);
                self.sender = after;
                case
            }
            Call::Receiver(call) => {
                let (case, after) = self.receiver.call(*call);
                self.receiver = after;
                case
            }
            Call::Metrics(call) => {
                let (case, after) = self.metrics.call(call);
                self.metrics = after;
                case
            }
        }
    }
}

/// A list of calls, each with the end that it is on, from the records that the ends begin with.
pub struct History {
    pub begun: [End; 2],
    pub calls: Vec<(usize, Call)>,
}
