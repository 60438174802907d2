//! The end of a payload: what may follow a message's last bit.

use super::bits::Bits;
use super::refusal::Refusal;

/// The count of extension bits. "The last one bit at or after p must exist and lie in the final byte".
pub fn extension(bits: &Bits) -> Result<u32, Refusal> {
    let after = bits.position();
    if after == bits.end() {
        return Ok(0);
    }
    match last_one_of_final_byte(bits) {
        Some(last) if last >= after => Ok((last - after) as u32),
        _ => Err(Refusal::Tail),
    }
}

fn last_one_of_final_byte(bits: &Bits) -> Option<usize> {
    let final_byte = *bits.payload().last()?;
    if final_byte == 0 {
        return None;
    }
    Some(bits.end() - 1 - final_byte.trailing_zeros() as usize)
}
