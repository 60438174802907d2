//! Kind 165, alpha channel information (8.23.1).

use super::bits::Bits;
use super::refusal::Refusal;

#[derive(Clone, Copy, Default, Debug)]
pub struct Alpha {
    pub cancel: u8,
    pub use_idc: u8,
    pub bit_depth_minus8: u8,
    pub transparent: u16,
    pub opaque: u16,
    pub increment: u8,
    pub clip: u8,
    pub clip_type: u8,
}

pub fn read(bits: &mut Bits) -> Result<Alpha, Refusal> {
    let mut message = Alpha {
        cancel: bits.flag()?,
        ..Alpha::default()
    };
    if message.cancel == 1 {
        return Ok(message);
    }
    message.use_idc = bits.u8(3)?;
    message.bit_depth_minus8 = bits.u8(3)?;
    let value_length = usize::from(message.bit_depth_minus8) + 9;
    message.transparent = bits.u16(value_length)?;
    message.opaque = bits.u16(value_length)?;
    message.increment = bits.flag()?;
    message.clip = bits.flag()?;
    if message.clip == 1 {
        message.clip_type = bits.flag()?;
    }
    Ok(message)
}
