//! How often each kind of payload and each call came to each number, and what must have come up.

use crate::fields::{Take, Visited};
use crate::independent::Slots;
use crate::messages::KINDS;
use crate::request::{number_at, Request};
use std::collections::BTreeMap;
use std::fmt;

const NUMBERS: [u64; 12] = [0, 1, 2, 3, 4, 5, 6, 7, 8, 9, 10, 20];

/// Of the payloads with a record: those whose lent row was too short, so that 10 stands in place of 0 or of
/// 20, and those with extension bits.
const NO_ROOM_TAKEN: &str = "10:0";
const NO_ROOM_SET_ASIDE: &str = "10:20";
const EXTENDED: &str = "ext";

/// Of the tables: those of one picture, and of two, by where the second lies.
const WHOLE: &str = "whole";
const BESIDE: &str = "beside";
const BELOW: &str = "below";

const OTHER_KINDS: &str = "other";

#[derive(Default)]
pub struct Tally {
    pub payloads: u64,
    pub calls: u64,
    counts: BTreeMap<(String, String), u64>,
}

impl Tally {
    /// The slots are those before the call, as they stand on a pipe.
    pub fn count(&mut self, request: &Request, slots: &[u8], answer: &[u8]) {
        match request {
            Request::Read { payload, .. } => {
                self.payloads += 1;
                self.count_read(payload.kind, answer);
            }
            Request::Value { .. } => (),
            call => {
                self.calls += 1;
                let number = number_at(answer, 0);
                self.add(call_name(call), &number.to_string());
                if let (Request::Table { slot, .. }, 0) = (call, number) {
                    self.add(call_name(call), table_name(slots, *slot, answer));
                }
            }
        }
    }

    fn count_read(&mut self, kind: u64, answer: &[u8]) {
        let kind = kind_name(kind);
        let number = number_at(answer, 0);
        self.add(&kind, &number.to_string());
        match (number, number_at(answer, 1)) {
            (0, 10) => self.add(&kind, NO_ROOM_TAKEN),
            (20, 10) => self.add(&kind, NO_ROOM_SET_ASIDE),
            (_, 0 | 20) if number_at(answer, 4) > 0 => self.add(&kind, EXTENDED),
            _ => (),
        }
    }

    fn add(&mut self, row: &str, column: &str) {
        *self.counts.entry((row.into(), column.into())).or_default() += 1;
    }

    fn of(&self, row: &str, column: &str) -> u64 {
        let place = (row.to_string(), column.to_string());
        self.counts.get(&place).copied().unwrap_or(0)
    }

    /// The classes that ought to be reached and were not.
    pub fn missing(&self) -> Vec<String> {
        let mut missing = Vec::new();
        for (row, columns) in EXPECTED {
            for column in columns.split(' ') {
                if self.of(row, column) == 0 {
                    missing.push(format!("{row}: {column}"));
                }
            }
        }
        missing
    }
}

/// What each kind and each call can come to.
const EXPECTED: [(&str, &str); 17] = [
    ("4", "0 2 3 10:0"),
    ("5", "0 2 3 10:0"),
    ("45", "0 2 3 4 7 20 10:0 10:20 ext"),
    ("47", "0 2 3 7 10:0 ext"),
    ("150", "0 2 3 7 10:0 ext"),
    ("154", "0 2 3 5 7 10:0 ext"),
    ("155", "0 2 3 5 6 7 10:0 ext"),
    ("165", "0 2 3 7 10:0 ext"),
    ("177", "0 2 3 4 5 7 10:0 ext"),
    (OTHER_KINDS, "1"),
    ("start", "0"),
    ("open", "0 8"),
    ("close", "0 8"),
    ("sequence", "0 8"),
    ("feed", "0 1 2 3 4 5 6 7 8 20"),
    ("picture", "0 8"),
    ("table", "0 8 9 10 whole beside below"),
];

fn kind_name(kind: u64) -> String {
    if KINDS.contains(&kind) {
        kind.to_string()
    } else {
        OTHER_KINDS.into()
    }
}

/// Which table was made of what the slot held.
fn table_name(slots: &[u8], slot: u64, answer: &[u8]) -> &'static str {
    let mut before = Slots::default();
    before.visit(&mut Take(slots));
    let held = &before.slots[slot as usize].held;
    if number_at(answer, 1) == u64::from(held.regions.value.count) {
        return WHOLE;
    }
    match held.frame_packing.value.arrangement_type {
        3 => BESIDE,
        _ => BELOW,
    }
}

pub fn call_name(call: &Request) -> &'static str {
    match call {
        Request::Read { .. } => "read",
        Request::Start => "start",
        Request::Value { .. } => "value",
        Request::Open { .. } => "open",
        Request::Close { .. } => "close",
        Request::Sequence { .. } => "sequence",
        Request::Feed { .. } => "feed",
        Request::Picture { .. } => "picture",
        Request::Table { .. } => "table",
    }
}

impl fmt::Display for Tally {
    fn fmt(&self, out: &mut fmt::Formatter) -> fmt::Result {
        let mut columns: Vec<String> = NUMBERS.iter().map(u64::to_string).collect();
        let classes = [
            NO_ROOM_TAKEN,
            NO_ROOM_SET_ASIDE,
            EXTENDED,
            WHOLE,
            BESIDE,
            BELOW,
        ];
        columns.extend(classes.map(String::from));
        writeln!(
            out,
            "answers of the library, by kind of payload and by call"
        )?;
        writeln!(
            out,
            "10:0, 10:20: the lent row too short where 0 or 20 would be answered; ext: a record with extension bits"
        )?;
        writeln!(
            out,
            "whole: a table of one picture; beside, below: of two, the second to the right or under the first"
        )?;
        write!(out, "{:>9}", "")?;
        for column in &columns {
            write!(out, "{column:>8}")?;
        }
        writeln!(out)?;
        for (row, _) in EXPECTED {
            write!(out, "{row:>9}")?;
            for column in &columns {
                match self.of(row, column) {
                    0 => write!(out, "{:>8}", "-")?,
                    count => write!(out, "{count:>8}")?,
                }
            }
            writeln!(out)?;
        }
        Ok(())
    }
}
