//! Payloads of all sorts: whole, with every tail, damaged, cut, of wrong sizes and kinds, and random.

use crate::bit_writer::BitWriter;
use crate::messages::{compose, Manner, KINDS};
use crate::random::Random;

const LARGEST_SIZE: usize = 8192;

#[derive(Clone)]
pub struct Payload {
    pub kind: u64,
    pub size: u64,
    pub bytes: Vec<u8>,
}

impl Payload {
    fn whole(kind: u64, bytes: Vec<u8>) -> Self {
        Payload {
            kind,
            size: bytes.len() as u64,
            bytes,
        }
    }
}

/// A few payloads that belong together, one of them at least.
pub fn family(random: &mut Random) -> Vec<Payload> {
    let kind = random.pick(&KINDS);
    match random.below(100) {
        0..55 => vec![tailed(random, kind, Manner::Daring)],
        55..65 => vec![badly_tailed(random, kind)],
        65..77 => vec![damaged(random, kind)],
        77..80 => cut(random, kind),
        80..87 => vec![missized(random, kind)],
        87..91 => vec![of_another_kind(random, kind)],
        91..95 => vec![random_bytes(random, kind)],
        95..98 => many_zeros(random),
        98 => vec![head_of_user_data(random)],
        _ => vec![long(random, kind)],
    }
}

/// A message and, for the kinds that have one, a permitted tail or none.
pub fn tailed(random: &mut Random, kind: u64, manner: Manner) -> Payload {
    let mut bits = compose(random, kind, manner);
    if has_tail(kind) && !(bits.is_aligned() && random.one_in(2)) {
        let extension = match random.below(12) {
            0..5 => 0,
            5 => 1,
            6 => random.between(7, 9),
            7..11 => random.below(64),
            _ => random.below(2_000),
        };
        put_tail(random, &mut bits, extension);
    }
    Payload::whole(kind, bits.into_bytes())
}

fn has_tail(kind: u64) -> bool {
    kind != 4 && kind != 5
}

/// Extension bits, the one, and zeros to the end of its byte.
fn put_tail(random: &mut Random, bits: &mut BitWriter, extension: usize) {
    for _ in 0..extension {
        bits.put(random.flag(), 1);
    }
    bits.put(1, 1);
}

/// Mostly without a one bit after the message, or without one in the last byte.
fn badly_tailed(random: &mut Random, kind: u64) -> Payload {
    let mut bits = compose(random, kind, Manner::Lawful);
    if random.one_in(2) {
        let extension = random.below(40);
        put_tail(random, &mut bits, extension);
    }
    let mut bytes = bits.into_bytes();
    let zeros = random.below(4);
    bytes.resize(bytes.len() + zeros, 0);
    Payload::whole(kind, bytes)
}

fn damaged(random: &mut Random, kind: u64) -> Payload {
    let mut payload = tailed(random, kind, Manner::Lawful);
    for _ in 0..random.between(1, 4) {
        if let Some(last) = payload.bytes.len().checked_sub(1) {
            let byte = random.between(0, last);
            payload.bytes[byte] ^= 1 << random.below(8);
        }
    }
    payload
}

/// A message's beginnings: all of them, and of long ones a stretch.
fn cut(random: &mut Random, kind: u64) -> Vec<Payload> {
    let whole = tailed(random, kind, Manner::Lawful).bytes;
    let most = 80;
    let from = random.below(whole.len().saturating_sub(most) + 1);
    (from..whole.len().min(from + most))
        .map(|length| Payload::whole(kind, whole[..length].to_vec()))
        .collect()
}

/// A size that is not the count of the bytes lent.
fn missized(random: &mut Random, kind: u64) -> Payload {
    let mut payload = tailed(random, kind, Manner::Lawful);
    let length = payload.size;
    match random.below(4) {
        0 => payload.size = random.below(length as usize + 1) as u64,
        1 => lend_more(random, &mut payload),
        2 => {
            let beyond = [
                length + 1,
                length + 8,
                8192,
                8193,
                1 << 16,
                length | 1 << 32,
                1 << 61 | length,
                1 << 63,
                u64::MAX,
            ];
            payload.size = random.pick(&beyond);
        }
        _ => {
            payload
                .bytes
                .resize(random.between(LARGEST_SIZE - 1, LARGEST_SIZE + 9), 0xFF);
            payload.size = random.pick(&[length, 8191, 8192, 8193, 8194, 9000]);
        }
    }
    payload
}

fn lend_more(random: &mut Random, payload: &mut Payload) {
    let count = random.between(1, 20);
    payload.bytes.extend(random.bytes(count));
}

fn of_another_kind(random: &mut Random, kind: u64) -> Payload {
    let mut payload = tailed(random, kind, Manner::Lawful);
    let (near, far) = (random.bits(8), random.next());
    payload.kind = random.pick(&[
        kind - 1,
        kind + 1,
        kind + (1 << 8),
        kind + (1 << 16),
        kind + (1 << 32),
        kind + (1 << 63),
        0,
        301,
        156,
        1 << 63,
        u64::MAX,
        near,
        far,
    ]);
    if random.one_in(4) {
        payload.size = random.pick(&[0, 8193, 9000, u64::MAX]);
    }
    payload
}

fn random_bytes(random: &mut Random, kind: u64) -> Payload {
    let most = random.pick(&[4, 16, 40, 40, 40, 600]);
    let length = random.below(most + 1);
    Payload::whole(kind, random.bytes(length))
}

/// Exp-Golomb numbers with about as many leading zeros as are allowed, cut in every place.
pub fn many_zeros(random: &mut Random) -> Vec<Payload> {
    let kind = random.pick(&[45, 177]);
    let mut bits = BitWriter::default();
    if kind == 177 {
        bits.put(random.bits(4), 4);
        for _ in 0..random.below(3) {
            bits.put_exp_golomb(random.pick(&[0, 3, 3]));
        }
    }
    let zeros = random.between(29, 33);
    bits.put(0, zeros);
    bits.put(1, 1);
    let number = random.edge(zeros);
    bits.put(number, zeros);
    bits.put(random.bits(24), 24);
    bits.put(1, 1);
    let whole = bits.into_bytes();
    (0..=whole.len())
        .map(|length| Payload::whole(kind, whole[..length].to_vec()))
        .collect()
}

/// User data about as long as what it must begin with, and the longest.
fn head_of_user_data(random: &mut Random) -> Payload {
    let kind = random.pick(&[4, 5]);
    let length = match random.below(20) {
        0 => LARGEST_SIZE,
        1 => LARGEST_SIZE + 1,
        _ => random.below(19),
    };
    let mut bytes = random.bytes(length);
    if let Some(first) = bytes.first_mut() {
        *first = random.pick(&[*first, 254, 255]);
    }
    Payload::whole(kind, bytes)
}

/// A message whose tail reaches about as far as a payload may.
fn long(random: &mut Random, kind: u64) -> Payload {
    let mut bytes = tailed(random, kind, Manner::Lawful).bytes;
    bytes.resize(random.between(LARGEST_SIZE - 1, LARGEST_SIZE + 1), 0);
    if let Some(last) = bytes.last_mut() {
        *last = random.pick(&[0, 1, 0x80, 0xFF]);
    }
    Payload::whole(kind, bytes)
}
