//! Kind 47, display orientation (8.25.1).

use super::bits::Bits;
use super::refusal::Refusal;

#[derive(Clone, Copy, Default, Debug)]
pub struct Orientation {
    pub cancel: u8,
    pub persistence: u8,
    pub transform: u8,
}

pub fn read(bits: &mut Bits) -> Result<Orientation, Refusal> {
    let mut message = Orientation {
        cancel: bits.flag()?,
        ..Orientation::default()
    };
    if message.cancel == 0 {
        message.persistence = bits.flag()?;
        message.transform = bits.u8(3)?;
        bits.reserved(3)?;
    }
    Ok(message)
}
