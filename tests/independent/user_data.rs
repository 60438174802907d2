//! Kinds 4 and 5, user data (8.3.1, 8.4.1). "Both run to the end of the payload and have no tail."

use super::bits::Bits;
use super::refusal::Refusal;

/// Bytes `offset` to `offset + length - 1` of those lent.
#[derive(Clone, Copy, Default, Debug)]
pub struct Part {
    pub offset: u64,
    pub length: u64,
}

#[derive(Clone, Copy, Default, Debug)]
pub struct Registered {
    pub country_code: u8,
    pub extension_byte: u8,
    pub rest: Part,
}

#[derive(Clone, Copy, Default, Debug)]
pub struct Unregistered {
    pub identifier: [u8; 16],
    pub rest: Part,
}

pub fn read_registered(bits: &mut Bits) -> Result<Registered, Refusal> {
    let country_code = bits.u8(8)?;
    let extension_byte = match country_code {
        255 => bits.u8(8)?,
        _ => 0,
    };
    Ok(Registered {
        country_code,
        extension_byte,
        rest: rest(bits),
    })
}

/// The identifier is "one element of 128 bits".
pub fn read_unregistered(bits: &mut Bits) -> Result<Unregistered, Refusal> {
    Ok(Unregistered {
        identifier: bits.u128()?,
        rest: rest(bits),
    })
}

fn rest(bits: &mut Bits) -> Part {
    let part = Part {
        offset: bits.position() as u64 / 8,
        length: (bits.end() - bits.position()) as u64 / 8,
    };
    bits.skip_to_end();
    part
}
