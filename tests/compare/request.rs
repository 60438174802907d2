//! What the comparison asks of the library's bridge and of the independent reader, and the form of
//! requests and answers on their pipes.
//!
//! Numbers are eight bytes, least significant first; a payload is kind, size, count of bytes lent and the
//! bytes; lent rows are their count of numbers and the number that stands first in them, each next one
//! being one greater. Held records and slots are moved field by field in their own widths, see fields.rs.
//!
//! | Request | Carries | Answer |
//! |---|---|---|
//! | r | payload, row | number of the read, number of the fields, part offset, part length, row |
//! | b | | 0, slots |
//! | v | padding byte, slots | |
//! | o, c, s | slot | number, slots |
//! | f | slot, payload | number, extension, slots |
//! | p | slot | number, held records, slots |
//! | t | slot, rows | number, count of rows, rows |
//! | . | | nothing, but all answers so far are sent |

use crate::fields::{HELD_LENGTH, SLOTS_LENGTH};
use crate::payloads::Payload;

pub const SEND: u8 = b'.';

const NUMBER: usize = 8;

#[derive(Clone, Copy)]
pub struct Lent {
    pub length: usize,
    pub first: u64,
}

#[derive(Clone)]
pub enum Request {
    Read { payload: Payload, row: Lent },
    Start,
    Value { padding: u8, slots: Vec<u8> },
    Open { slot: u64 },
    Close { slot: u64 },
    Sequence { slot: u64 },
    Feed { slot: u64, payload: Payload },
    Picture { slot: u64 },
    Table { slot: u64, rows: Lent },
}

impl Request {
    pub fn letter(&self) -> u8 {
        match self {
            Request::Read { .. } => b'r',
            Request::Start => b'b',
            Request::Value { .. } => b'v',
            Request::Open { .. } => b'o',
            Request::Close { .. } => b'c',
            Request::Sequence { .. } => b's',
            Request::Feed { .. } => b'f',
            Request::Picture { .. } => b'p',
            Request::Table { .. } => b't',
        }
    }

    pub fn write(&self, to: &mut Vec<u8>) {
        to.push(self.letter());
        match self {
            Request::Read { payload, row } => {
                write_payload(to, payload);
                write_lent(to, row);
            }
            Request::Start => (),
            Request::Value { padding, slots } => {
                write_number(to, u64::from(*padding));
                to.extend(slots);
            }
            Request::Open { slot }
            | Request::Close { slot }
            | Request::Sequence { slot }
            | Request::Picture { slot } => write_number(to, *slot),
            Request::Feed { slot, payload } => {
                write_number(to, *slot);
                write_payload(to, payload);
            }
            Request::Table { slot, rows } => {
                write_number(to, *slot);
                write_lent(to, rows);
            }
        }
    }

    /// The slots after the call, where the request or its answer has them.
    pub fn slots_after<'a>(&'a self, answer: &'a [u8]) -> Option<&'a [u8]> {
        match self {
            Request::Value { slots, .. } => Some(slots),
            Request::Read { .. } | Request::Table { .. } => None,
            _ => Some(&answer[answer.len() - SLOTS_LENGTH..]),
        }
    }

    pub fn answer_length(&self) -> usize {
        match self {
            Request::Read { row, .. } => (4 + row.length) * NUMBER,
            Request::Value { .. } => 0,
            Request::Start
            | Request::Open { .. }
            | Request::Close { .. }
            | Request::Sequence { .. } => NUMBER + SLOTS_LENGTH,
            Request::Feed { .. } => 2 * NUMBER + SLOTS_LENGTH,
            Request::Picture { .. } => NUMBER + HELD_LENGTH + SLOTS_LENGTH,
            Request::Table { rows, .. } => (2 + rows.length) * NUMBER,
        }
    }
}

/// The number at a place of an answer, counted in numbers.
pub fn number_at(answer: &[u8], place: usize) -> u64 {
    let mut bytes = [0; NUMBER];
    bytes.copy_from_slice(&answer[place * NUMBER..][..NUMBER]);
    u64::from_le_bytes(bytes)
}

fn write_number(to: &mut Vec<u8>, number: u64) {
    to.extend(number.to_le_bytes());
}

fn write_payload(to: &mut Vec<u8>, payload: &Payload) {
    write_number(to, payload.kind);
    write_number(to, payload.size);
    write_number(to, payload.bytes.len() as u64);
    to.extend(&payload.bytes);
}

fn write_lent(to: &mut Vec<u8>, lent: &Lent) {
    write_number(to, lent.length as u64);
    write_number(to, lent.first);
}
