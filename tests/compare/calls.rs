//! Calls on the eight slots, in sequences from the start and on slots that no call ever made.

use crate::fields::{Give, Visited, Visitor};
use crate::independent::Slots;
use crate::messages::Manner;
use crate::payloads::{family, many_zeros, tailed, Payload};
use crate::random::Random;
use crate::request::{Lent, Request};

const MOST_LENT: usize = 300;

/// A sequence that stays with one slot most of the time.
pub fn sequence(random: &mut Random) -> Vec<Request> {
    let home = random.below(8) as u64;
    let next = (home + 1) % 8;
    let mut calls = vec![
        Request::Start,
        Request::Open { slot: home },
        Request::Open { slot: next },
    ];
    for _ in 0..60 {
        match random.below(12) {
            0 => calls.extend(scene(random, home)),
            _ => {
                let slot = slot_near(random, home);
                calls.push(call(random, slot));
            }
        }
    }
    calls
}

/// Slots that no call ever made, and one call on them.
pub fn on_any_slots(random: &mut Random) -> Vec<Request> {
    let home = random.below(8) as u64;
    let slot = slot_near(random, home);
    vec![any_slots(random), call(random, slot)]
}

/// A region-wise packing beside a frame packing, looked at before and after a picture.
fn scene(random: &mut Random, slot: u64) -> Vec<Request> {
    let whole_table = Request::Table {
        slot,
        rows: Lent {
            length: MOST_LENT,
            first: random.next(),
        },
    };
    vec![
        feed(slot, tailed(random, 45, Manner::Lawful)),
        feed(slot, tailed(random, 155, Manner::Lawful)),
        whole_table.clone(),
        table(random, slot),
        Request::Picture { slot },
        whole_table,
        Request::Picture { slot },
    ]
}

fn call(random: &mut Random, slot: u64) -> Request {
    match random.below(100) {
        0..8 => Request::Open { slot },
        8..10 => Request::Close { slot },
        10..15 => Request::Sequence { slot },
        15..65 => feed(slot, fed(random)),
        65..82 => Request::Picture { slot },
        _ => table(random, slot),
    }
}

fn slot_near(random: &mut Random, home: u64) -> u64 {
    match random.below(20) {
        0..13 => home,
        13..16 => (home + 1) % 8,
        16..19 => random.below(10) as u64,
        _ => random.pick(&[
            8,
            256,
            256 + home,
            (1 << 32) + home,
            (1 << 63) + home,
            u64::MAX,
        ]),
    }
}

fn feed(slot: u64, payload: Payload) -> Request {
    Request::Feed { slot, payload }
}

/// Mostly what is taken and held.
fn fed(random: &mut Random) -> Payload {
    let kind = random.pick(&[45, 45, 45, 47, 150, 154, 155, 155, 155, 4, 5, 165, 177]);
    match random.below(16) {
        0..10 => tailed(random, kind, Manner::Lawful),
        10..13 => tailed(random, kind, Manner::Daring),
        13..15 => one_of(random, family),
        _ => one_of(random, many_zeros),
    }
}

fn one_of(random: &mut Random, family: fn(&mut Random) -> Vec<Payload>) -> Payload {
    let mut payloads = family(random);
    let index = random.below(payloads.len());
    payloads.swap_remove(index)
}

fn table(random: &mut Random, slot: u64) -> Request {
    let rows = random.below(33);
    let length = match random.below(6) {
        0 => random.below(MOST_LENT + 1),
        1 => 9 * rows,
        2 => (9 * rows).saturating_sub(1),
        3 => 9 * rows + 1,
        _ => MOST_LENT,
    };
    Request::Table {
        slot,
        rows: Lent {
            length,
            first: random.next(),
        },
    }
}

fn any_slots(random: &mut Random) -> Request {
    let mut slots = Slots::start();
    slots.visit(&mut Scatter(random));
    let mut bytes = Vec::new();
    slots.visit(&mut Give(&mut bytes));
    Request::Value {
        padding: random.bits(8) as u8,
        slots: bytes,
    }
}

/// Puts any number into each field, and often one that means something.
struct Scatter<'a>(&'a mut Random);

impl Visitor for Scatter<'_> {
    fn field(&mut self, name: &'static str, width: usize, _value: u64) -> u64 {
        let any = self.0.edge(8 * width);
        match name {
            "open" => self.0.pick(&[1, 1, 1, 1, 0, any]),
            "on" => self.0.pick(&[1, 1, 1, 0, any]),
            "matching" | "persistence" | "cancel" => self.0.pick(&[0, 1, any]),
            "count" => self.0.pick(&[0, 1, 2, 15, 16, 17, 255, any]),
            "arrangement_type" => self.0.pick(&[3, 3, 4, 4, 5, any]),
            "degrees.yaw" | "degrees.pitch" | "degrees.roll" => finite(any),
            _ => any,
        }
    }
}

/// The bits of a float that is neither infinite nor no number.
fn finite(bits: u64) -> u64 {
    if f64::from_bits(bits).is_finite() {
        bits
    } else {
        bits >> 2
    }
}
