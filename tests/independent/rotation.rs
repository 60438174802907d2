//! Kind 154, sphere rotation (8.15.4.1).

use super::bits::Bits;
use super::numbers;
use super::refusal::{rule, Refusal};
use std::ops::RangeInclusive;

const YAW_AND_ROLL: RangeInclusive<i32> = -11_796_480..=11_796_479;
const PITCH: RangeInclusive<i32> = -5_898_240..=5_898_240;

#[derive(Clone, Copy, Default, Debug)]
pub struct Degrees {
    pub yaw: f64,
    pub pitch: f64,
    pub roll: f64,
}

#[derive(Clone, Copy, Default, Debug)]
pub struct Rotation {
    pub cancel: u8,
    pub persistence: u8,
    pub yaw: i32,
    pub pitch: i32,
    pub roll: i32,
    pub degrees: Degrees,
}

pub fn read(bits: &mut Bits) -> Result<Rotation, Refusal> {
    let mut message = Rotation {
        cancel: bits.flag()?,
        ..Rotation::default()
    };
    if message.cancel == 1 {
        return Ok(message);
    }
    message.persistence = bits.flag()?;
    bits.reserved(6)?;
    message.yaw = angle(bits, YAW_AND_ROLL)?;
    message.pitch = angle(bits, PITCH)?;
    message.roll = angle(bits, YAW_AND_ROLL)?;
    message.degrees = Degrees {
        yaw: numbers::degrees(message.yaw),
        pitch: numbers::degrees(message.pitch),
        roll: numbers::degrees(message.roll),
    };
    Ok(message)
}

fn angle(bits: &mut Bits, bounds: RangeInclusive<i32>) -> Result<i32, Refusal> {
    let coded = bits.i32()?;
    rule(bounds.contains(&coded))?;
    Ok(coded)
}
