//! The region table of what a slot holds (8.15.5.2).

use super::refusal::Refusal;
use super::{FramePacking, HeldRecords, Region, RegionWise, MOST_REGIONS};

const ROW: usize = 9;

/// The number, and how many rows were written.
#[derive(Clone, Copy, Debug)]
pub struct Tabled {
    pub number: u32,
    pub rows: u32,
}

/// What is added to the places of the second picture's regions.
#[derive(Clone, Copy, Default)]
struct Offsets {
    projected_left: u64,
    projected_top: u64,
    packed_left: u64,
    packed_top: u64,
}

/// Writes the rows and answers how many they are.
pub fn write(held: &HeldRecords, lent: &mut [u64]) -> Result<u32, Refusal> {
    let message = held.regions.get().ok_or(Refusal::Table)?;
    let regions = regions(message).ok_or(Refusal::Table)?;
    let second = match message.matching {
        0 => None,
        _ => Some(second_offsets(message, held.frame_packing.get()).ok_or(Refusal::Table)?),
    };
    let pictures = [Some(Offsets::default()), second];
    let rows = regions.len() * pictures.iter().flatten().count();
    let lent = lent.get_mut(..ROW * rows).ok_or(Refusal::Room)?;
    let pairs = pictures
        .iter()
        .flatten()
        .flat_map(|offsets| regions.iter().map(move |region| (region, offsets)));
    for (place, (region, offsets)) in lent.chunks_exact_mut(ROW).zip(pairs) {
        place.copy_from_slice(&row(region, offsets));
    }
    Ok(rows as u32)
}

/// None where the count is one that no message has.
fn regions(message: &RegionWise) -> Option<&[Region]> {
    match usize::from(message.count) {
        count @ 1..=MOST_REGIONS => Some(&message.regions[..count]),
        _ => None,
    }
}

/// Half the sizes in the direction of the split, for which "the held kind 45 must have type 3 or 4".
fn second_offsets(message: &RegionWise, frame_packing: Option<&FramePacking>) -> Option<Offsets> {
    match frame_packing?.arrangement_type {
        3 => Some(Offsets {
            projected_left: u64::from(message.projected_width / 2),
            packed_left: u64::from(message.packed_width / 2),
            ..Offsets::default()
        }),
        4 => Some(Offsets {
            projected_top: u64::from(message.projected_height / 2),
            packed_top: u64::from(message.packed_height / 2),
            ..Offsets::default()
        }),
        _ => None,
    }
}

fn row(region: &Region, offsets: &Offsets) -> [u64; ROW] {
    [
        u64::from(region.projected_left) + offsets.projected_left,
        u64::from(region.projected_top) + offsets.projected_top,
        region.projected_width.into(),
        region.projected_height.into(),
        u64::from(region.packed_left) + offsets.packed_left,
        u64::from(region.packed_top) + offsets.packed_top,
        region.packed_width.into(),
        region.packed_height.into(),
        region.transform.into(),
    ]
}
