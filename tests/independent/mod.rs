//! A reader of the nine payload kinds, a machine of eight slots and the region table, in plain Rust.
//! It is written from the rules of the messages alone, to be held against the library.

// A program that includes this may use a part of it.
#![allow(dead_code, unused_imports)]

mod alpha;
mod bits;
mod depth;
mod equirectangular;
mod frame_packing;
mod numbers;
mod orientation;
mod refusal;
mod region_wise;
mod rotation;
mod row;
mod slots;
mod table;
mod tail;
mod user_data;

pub use alpha::Alpha;
pub use depth::{Depth, DepthNumber, Element};
pub use equirectangular::Equirectangular;
pub use frame_packing::FramePacking;
pub use orientation::Orientation;
pub use region_wise::{Region, RegionWise, MOST_REGIONS};
pub use rotation::{Degrees, Rotation};
pub use row::write_row;
pub use slots::{Held, HeldRecords, Pictured, Slot, Slots};
pub use table::Tabled;
pub use user_data::{Part, Registered, Unregistered};

use bits::Bits;
use refusal::Refusal;

/// What a call answers where it refuses nothing.
pub const TAKEN: u32 = 0;
/// What a whole message of kind 45 that is not to be used is answered with.
pub const SET_ASIDE: u32 = 20;

const LARGEST_SIZE: u64 = 8192;

#[derive(Clone, Copy, Debug)]
pub enum Record {
    Registered(Registered),
    Unregistered(Unregistered),
    FramePacking(FramePacking),
    Orientation(Orientation),
    Equirectangular(Equirectangular),
    Rotation(Rotation),
    RegionWise(RegionWise),
    Alpha(Alpha),
    Depth(Depth),
}

/// The number, the count of extension bits, and the record where the number is 0 or 20.
#[derive(Clone, Copy, Debug)]
pub struct Answer {
    pub number: u32,
    pub extension: u32,
    pub record: Option<Record>,
}

impl Answer {
    fn refused(refusal: Refusal) -> Self {
        Answer {
            number: refusal as u32,
            extension: 0,
            record: None,
        }
    }
}

/// Reads the first `size` of the lent bytes as a payload of `kind`.
pub fn read(kind: u64, size: u64, bytes: &[u8]) -> Answer {
    let read: fn(&mut Bits) -> Answer = match kind {
        4 => |bits| answer(bits, user_data::read_registered, Record::Registered),
        5 => |bits| answer(bits, user_data::read_unregistered, Record::Unregistered),
        45 => |bits| answer(bits, frame_packing::read, Record::FramePacking),
        47 => |bits| answer(bits, orientation::read, Record::Orientation),
        150 => |bits| answer(bits, equirectangular::read, Record::Equirectangular),
        154 => |bits| answer(bits, rotation::read, Record::Rotation),
        155 => |bits| answer(bits, region_wise::read, Record::RegionWise),
        165 => |bits| answer(bits, alpha::read, Record::Alpha),
        177 => |bits| answer(bits, depth::read, Record::Depth),
        _ => return Answer::refused(Refusal::Kind),
    };
    match payload(size, bytes) {
        Some(payload) => read(&mut Bits::new(payload)),
        None => Answer::refused(Refusal::Size),
    }
}

/// What follows the head of user data that is taken, as a part of the lent bytes.
pub fn part(answer: &Answer) -> Part {
    match answer.record {
        Some(Record::Registered(message)) => message.rest,
        Some(Record::Unregistered(message)) => message.rest,
        _ => Part::default(),
    }
}

fn payload(size: u64, bytes: &[u8]) -> Option<&[u8]> {
    if size > LARGEST_SIZE {
        return None;
    }
    bytes.get(..size as usize)
}

/// The message, then its tail, and last whether it is set aside.
#[inline]
fn answer<T>(
    bits: &mut Bits,
    read: fn(&mut Bits) -> Result<T, Refusal>,
    record: fn(T) -> Record,
) -> Answer {
    let message = match read(bits) {
        Ok(message) => message,
        Err(refusal) => return Answer::refused(refusal),
    };
    let extension = match tail::extension(bits) {
        Ok(extension) => extension,
        Err(refusal) => return Answer::refused(refusal),
    };
    let record = record(message);
    Answer {
        number: number(&record),
        extension,
        record: Some(record),
    }
}

fn number(record: &Record) -> u32 {
    match record {
        Record::FramePacking(message) if message.is_set_aside() => SET_ASIDE,
        _ => TAKEN,
    }
}
