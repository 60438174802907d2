//! A difference in full: the request, and both answers field by field.

use crate::fields::{Take, Visited, Visitor};
use crate::independent::{HeldRecords, Slots};
use crate::payloads::Payload;
use crate::request::{number_at, Lent, Request};
use crate::tally::call_name;
use std::fmt;

pub struct Difference {
    /// Of the request, from 0 on.
    pub index: u64,
    pub request: Request,
    /// Before the call, as they stand on a pipe; nothing where there were none yet.
    pub slots: Vec<u8>,
    /// None where a process ended before it answered.
    pub library: Option<Vec<u8>>,
    pub reader: Option<Vec<u8>>,
}

impl Difference {
    /// Both sides have answered.
    pub fn is_of_answers(&self) -> bool {
        self.library.is_some() && self.reader.is_some()
    }

    fn write_slots(&self, out: &mut fmt::Formatter) -> fmt::Result {
        if self.slots.is_empty() || matches!(self.request, Request::Read { .. }) {
            return Ok(());
        }
        writeln!(out, "slots before the call, but for fields that are 0:")?;
        let mut named = Vec::new();
        name_visited(&mut named, "", &mut Take(&self.slots), Slots::default());
        for (name, value) in named.iter().filter(|(_, value)| *value != 0) {
            writeln!(out, "  {name}: {value:#x}")?;
        }
        Ok(())
    }
}

impl fmt::Display for Difference {
    fn fmt(&self, out: &mut fmt::Formatter) -> fmt::Result {
        writeln!(out, "difference at input {}", self.index)?;
        write_request(out, &self.request)?;
        self.write_slots(out)?;
        let (Some(library), Some(reader)) = (&self.library, &self.reader) else {
            let ended = if self.library.is_none() {
                "library"
            } else {
                "reader"
            };
            return writeln!(out, "the {ended} ended and did not answer");
        };
        writeln!(
            out,
            "answers, [n] being a number lent, but for what is 0 or as lent in both:"
        )?;
        let fields = named_fields(&self.request, library);
        for ((name, ours), (_, theirs)) in fields.iter().zip(named_fields(&self.request, reader)) {
            let unequal = *ours != theirs;
            if unequal || *ours != 0 && !is_as_lent(&self.request, name, *ours) {
                let mark = if unequal { "  <--" } else { "" };
                writeln!(out, "  {name}: library {ours:#x}, reader {theirs:#x}{mark}")?;
            }
        }
        Ok(())
    }
}

fn write_request(out: &mut fmt::Formatter, request: &Request) -> fmt::Result {
    write!(out, "{}", call_name(request))?;
    match request {
        Request::Read { payload, row } => {
            write_payload(out, payload)?;
            write_lent(out, row)?;
        }
        Request::Start | Request::Value { .. } => (),
        Request::Open { slot }
        | Request::Close { slot }
        | Request::Sequence { slot }
        | Request::Picture { slot } => write!(out, " slot {slot}")?,
        Request::Feed { slot, payload } => {
            write!(out, " slot {slot}")?;
            write_payload(out, payload)?;
        }
        Request::Table { slot, rows } => {
            write!(out, " slot {slot}")?;
            write_lent(out, rows)?;
        }
    }
    writeln!(out)
}

fn write_payload(out: &mut fmt::Formatter, payload: &Payload) -> fmt::Result {
    write!(out, " kind {} size {} bytes", payload.kind, payload.size)?;
    for byte in &payload.bytes {
        write!(out, " {byte:02X}")?;
    }
    Ok(())
}

fn write_lent(out: &mut fmt::Formatter, lent: &Lent) -> fmt::Result {
    write!(
        out,
        " lent {} numbers from {:#x} on",
        lent.length, lent.first
    )
}

type Named = (String, u64);

fn named_fields(request: &Request, answer: &[u8]) -> Vec<Named> {
    let heads: &[&str] = match request {
        Request::Read { .. } => &["number", "number with fields", "part offset", "part length"],
        Request::Feed { .. } => &["number", "extension"],
        Request::Table { .. } => &["number", "rows"],
        _ => &["number"],
    };
    let mut named: Vec<Named> = heads
        .iter()
        .enumerate()
        .map(|(place, head)| (head.to_string(), number_at(answer, place)))
        .collect();
    let rest = &answer[8 * heads.len()..];
    match request {
        Request::Read { row, .. } => name_lent(&mut named, rest, row),
        Request::Table { rows, .. } => name_lent(&mut named, rest, rows),
        Request::Picture { .. } => {
            let mut take = Take(rest);
            name_visited(&mut named, "held ", &mut take, HeldRecords::default());
            name_visited(&mut named, "", &mut take, Slots::default());
        }
        _ => name_visited(&mut named, "", &mut Take(rest), Slots::default()),
    }
    named
}

fn name_lent(named: &mut Vec<Named>, answer: &[u8], lent: &Lent) {
    named.extend((0..lent.length).map(|place| (format!("[{place}]"), number_at(answer, place))));
}

fn is_as_lent(request: &Request, name: &str, value: u64) -> bool {
    let (Request::Read { row: lent, .. } | Request::Table { rows: lent, .. }) = request else {
        return false;
    };
    let place = name.trim_matches(['[', ']']).parse::<u64>();
    place.is_ok_and(|place| lent.first.wrapping_add(place) == value)
}

fn name_visited(named: &mut Vec<Named>, prefix: &str, take: &mut Take, mut visited: impl Visited) {
    visited.visit(&mut Namer {
        named,
        take,
        path: vec![prefix.to_string()],
    });
}

/// Takes each field and notes it by its name.
struct Namer<'a, 'b> {
    named: &'a mut Vec<Named>,
    take: &'a mut Take<'b>,
    path: Vec<String>,
}

impl Visitor for Namer<'_, '_> {
    fn field(&mut self, name: &'static str, width: usize, value: u64) -> u64 {
        let value = self.take.field(name, width, value);
        self.named.push((self.path.concat() + name, value));
        value
    }

    fn enter(&mut self, name: &'static str, index: usize) {
        self.path.push(format!("{name} {index} "));
    }

    fn leave(&mut self) {
        self.path.pop();
    }
}
