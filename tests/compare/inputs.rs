//! All inputs of a seed, block by block.

use crate::calls::{on_any_slots, sequence};
use crate::payloads::{family, Payload};
use crate::random::Random;
use crate::request::{Lent, Request};

pub const PAYLOADS_A_BLOCK: u64 = 500;

const ANY_SLOTS_A_BLOCK: usize = 20;

/// A block of requests, which depends on the seed and its own number alone.
pub fn block(seed: u64, number: u64) -> Vec<Request> {
    let mut random = Random::new(seed, number);
    let mut requests = Vec::new();
    while requests.len() < PAYLOADS_A_BLOCK as usize {
        for payload in family(&mut random) {
            let row = row_for(&mut random, &payload);
            requests.push(Request::Read { payload, row });
        }
    }
    requests.truncate(PAYLOADS_A_BLOCK as usize);
    requests.extend(sequence(&mut random));
    for _ in 0..ANY_SLOTS_A_BLOCK {
        requests.extend(on_any_slots(&mut random));
    }
    requests
}

/// A row of about the length that the kind needs.
fn row_for(random: &mut Random, payload: &Payload) -> Lent {
    let needed = row_length(payload.kind);
    let length = match random.below(20) {
        0..12 => needed,
        12..15 => needed + random.between(1, 4),
        15..17 => needed - 1,
        17 => random.below(needed),
        18 => 0,
        _ => 320,
    };
    Lent {
        length,
        first: random.next(),
    }
}

fn row_length(kind: u64) -> usize {
    match kind {
        4 => 3,
        5 => 17,
        45 => 18,
        47 => 4,
        150 => 7,
        154 | 165 => 9,
        155 => 313,
        177 => 95,
        _ => 1,
    }
}
