//! Kind 155, region-wise packing (8.15.5.1).

use super::bits::Bits;
use super::equirectangular::guard_type;
use super::refusal::{rule, Refusal};

pub const MOST_REGIONS: usize = 16;

#[derive(Clone, Copy, Default, Debug)]
pub struct Region {
    pub transform: u8,
    pub guarded: u8,
    pub projected_width: u32,
    pub projected_height: u32,
    pub projected_top: u32,
    pub projected_left: u32,
    pub packed_width: u16,
    pub packed_height: u16,
    pub packed_top: u16,
    pub packed_left: u16,
    pub left_width: u8,
    pub right_width: u8,
    pub top_height: u8,
    pub bottom_height: u8,
    pub not_used: u8,
    pub guard_types: [u8; 4],
}

#[derive(Clone, Copy, Default, Debug)]
pub struct RegionWise {
    pub cancel: u8,
    pub persistence: u8,
    pub matching: u8,
    pub count: u8,
    pub projected_width: u32,
    pub projected_height: u32,
    pub packed_width: u16,
    pub packed_height: u16,
    pub regions: [Region; MOST_REGIONS],
}

pub fn read(bits: &mut Bits) -> Result<RegionWise, Refusal> {
    let mut message = RegionWise {
        cancel: bits.flag()?,
        ..RegionWise::default()
    };
    if message.cancel == 1 {
        return Ok(message);
    }
    read_head(bits, &mut message)?;
    for region in &mut message.regions[..message.count.into()] {
        read_region(bits, region)?;
    }
    Ok(message)
}

fn read_head(bits: &mut Bits, message: &mut RegionWise) -> Result<(), Refusal> {
    message.persistence = bits.flag()?;
    message.matching = bits.flag()?;
    bits.reserved(5)?;
    message.count = region_count(bits)?;
    message.projected_width = bits.u32(32)?;
    rule(message.projected_width >= 1)?;
    message.projected_height = bits.u32(32)?;
    rule(message.projected_height >= 1)?;
    message.packed_width = bits.u16(16)?;
    rule(message.packed_width >= 1)?;
    message.packed_height = bits.u16(16)?;
    rule(message.packed_height >= 1)
}

fn region_count(bits: &mut Bits) -> Result<u8, Refusal> {
    let count = bits.u8(8)?;
    rule(count >= 1)?;
    if usize::from(count) > MOST_REGIONS {
        return Err(Refusal::Regions);
    }
    Ok(count)
}

fn read_region(bits: &mut Bits, region: &mut Region) -> Result<(), Refusal> {
    bits.reserved(4)?;
    region.transform = bits.u8(3)?;
    region.guarded = bits.flag()?;
    region.projected_width = bits.u32(32)?;
    region.projected_height = bits.u32(32)?;
    region.projected_top = bits.u32(32)?;
    region.projected_left = bits.u32(32)?;
    region.packed_width = bits.u16(16)?;
    region.packed_height = bits.u16(16)?;
    region.packed_top = bits.u16(16)?;
    region.packed_left = bits.u16(16)?;
    if region.guarded == 1 {
        read_guard_bands(bits, region)?;
    }
    Ok(())
}

fn read_guard_bands(bits: &mut Bits, region: &mut Region) -> Result<(), Refusal> {
    region.left_width = bits.u8(8)?;
    region.right_width = bits.u8(8)?;
    region.top_height = bits.u8(8)?;
    region.bottom_height = bits.u8(8)?;
    region.not_used = bits.flag()?;
    for handed_out in &mut region.guard_types {
        let coded = bits.u8(3)?;
        rule(coded != 0 || region.not_used == 1)?;
        *handed_out = guard_type(coded);
    }
    bits.reserved(3)
}
