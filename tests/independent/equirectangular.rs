//! Kind 150, equirectangular projection (8.15.2.1).

use super::bits::Bits;
use super::refusal::Refusal;

#[derive(Clone, Copy, Default, Debug)]
pub struct Equirectangular {
    pub cancel: u8,
    pub persistence: u8,
    pub guarded: u8,
    pub guard_type: u8,
    pub left_width: u8,
    pub right_width: u8,
}

pub fn read(bits: &mut Bits) -> Result<Equirectangular, Refusal> {
    let mut message = Equirectangular {
        cancel: bits.flag()?,
        ..Equirectangular::default()
    };
    if message.cancel == 1 {
        return Ok(message);
    }
    message.persistence = bits.flag()?;
    message.guarded = bits.flag()?;
    bits.reserved(2)?;
    if message.guarded == 1 {
        message.guard_type = guard_type(bits.u8(3)?);
        message.left_width = bits.u8(8)?;
        message.right_width = bits.u8(8)?;
    }
    Ok(message)
}

/// "Guard band types 4 to 7 are handed out as 0."
pub fn guard_type(coded: u8) -> u8 {
    if coded > 3 {
        0
    } else {
        coded
    }
}
