//! The Rust side: the plain reader of tests/independent behind the calls of sides.h.

#[path = "../tests/independent/mod.rs"]
mod independent;

use independent::{Slots, TAKEN};
use std::hint::black_box;
use std::slice;

type Read = unsafe extern "C" fn(u64, u64, *const u8, usize) -> u32;
type ReadTo = unsafe extern "C" fn(u64, u64, *const u8, usize, *mut u64, usize) -> u32;
type Change = extern "C" fn(&mut Slots, u64) -> u32;

/// `struct side` of sides.h.
#[repr(C)]
pub struct Side {
    read: Read,
    row: ReadTo,
    make: extern "C" fn() -> Box<Slots>,
    start: extern "C" fn(&mut Slots) -> u32,
    open: Change,
    close: Change,
    sequence: Change,
    feed: unsafe extern "C" fn(&mut Slots, u64, u64, u64, *const u8, usize, &mut u64) -> u32,
    picture: extern "C" fn(&mut Slots, u64, &mut [u64; 5]) -> u32,
    table: unsafe extern "C" fn(&mut Slots, u64, *mut u64, usize, &mut u64) -> u32,
}

#[export_name = "reader"]
pub static READER: Side = Side {
    read,
    row,
    make,
    start,
    open,
    close,
    sequence,
    feed,
    picture,
    table,
};

unsafe extern "C" fn read(kind: u64, size: u64, bytes: *const u8, length: usize) -> u32 {
    let bytes = unsafe { slice::from_raw_parts(bytes, length) };
    independent::read(kind, size, bytes).number
}

unsafe extern "C" fn row(
    kind: u64,
    size: u64,
    bytes: *const u8,
    length: usize,
    row: *mut u64,
    row_length: usize,
) -> u32 {
    let bytes = unsafe { slice::from_raw_parts(bytes, length) };
    let lent = unsafe { slice::from_raw_parts_mut(row, row_length) };
    let answer = independent::read(kind, size, bytes);
    independent::write_row(&answer, lent);
    answer.number
}

extern "C" fn make() -> Box<Slots> {
    Box::new(Slots::start())
}

extern "C" fn start(slots: &mut Slots) -> u32 {
    *slots = Slots::start();
    TAKEN
}

extern "C" fn open(slots: &mut Slots, slot: u64) -> u32 {
    slots.open(slot)
}

extern "C" fn close(slots: &mut Slots, slot: u64) -> u32 {
    slots.close(slot)
}

extern "C" fn sequence(slots: &mut Slots, slot: u64) -> u32 {
    slots.sequence(slot)
}

unsafe extern "C" fn feed(
    slots: &mut Slots,
    slot: u64,
    kind: u64,
    size: u64,
    bytes: *const u8,
    length: usize,
    extension: &mut u64,
) -> u32 {
    let bytes = unsafe { slice::from_raw_parts(bytes, length) };
    let answer = slots.feed(slot, kind, size, bytes);
    *extension = answer.extension.into();
    answer.number
}

/// The whole picture is made, though only its marks are looked at.
extern "C" fn picture(slots: &mut Slots, slot: u64, held: &mut [u64; 5]) -> u32 {
    let pictured = slots.picture(slot);
    let records = &black_box(&pictured).held;
    *held = [
        records.frame_packing.on,
        records.orientation.on,
        records.equirectangular.on,
        records.rotation.on,
        records.regions.on,
    ]
    .map(u64::from);
    pictured.number
}

unsafe extern "C" fn table(
    slots: &mut Slots,
    slot: u64,
    rows: *mut u64,
    length: usize,
    written: &mut u64,
) -> u32 {
    let rows = unsafe { slice::from_raw_parts_mut(rows, length) };
    let tabled = slots.table(slot, rows);
    *written = tabled.rows.into();
    tabled.number
}
