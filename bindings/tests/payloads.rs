//! Every payload length from 0 to 80, beside the commit's decoders.
#![cfg(upstream)]

use oracle::proto::mmp::wire::{ReceiverReport, SenderReport};
use oracle::proto::Error;
use siwolkert::{check_receiver_payload, check_sender_payload, MessageTooShort};

fn expected<T>(decoded: Result<T, Error>) -> Result<(), MessageTooShort> {
    decoded
        .map(|_| ())
        .map_err(|Error::MessageTooShort { expected, got }| MessageTooShort {
            needed: expected as u64,
            given: got as u64,
        })
}

#[test]
fn every_length() {
    for len in 0..=80 {
        let payload = vec![0xA5; len];
        assert_eq!(
            check_sender_payload(&payload),
            expected(SenderReport::decode(&payload)),
            "length {len}"
        );
        assert_eq!(
            check_receiver_payload(&payload),
            expected(ReceiverReport::decode(&payload)),
            "length {len}"
        );
    }
}

/// A million of each, by lengths.
#[test]
fn a_million_of_each() {
    let bytes = vec![0x5A; 1000];
    let mut rng = oracle::script::rng::Rng::new(3);
    for _ in 0..1_000_000 {
        let payload = &bytes[..(rng.draw() % 100) as usize];
        assert_eq!(check_sender_payload(payload), expected(SenderReport::decode(payload)));
        assert_eq!(check_receiver_payload(payload), expected(ReceiverReport::decode(payload)));
    }
}
