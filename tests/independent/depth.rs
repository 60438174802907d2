//! Kind 177, depth representation information (8.22.1).

use super::bits::Bits;
use super::numbers;
use super::refusal::{rule, Refusal};

pub const MOST_LISTED: usize = 63;

const UNSPECIFIED_EXPONENT: u8 = 127;

#[derive(Clone, Copy, Default, Debug)]
pub enum DepthNumber {
    #[default]
    Absent,
    Unspecified,
    Number(f64),
}

#[derive(Clone, Copy, Default, Debug)]
pub struct Element {
    pub sign: u8,
    pub exponent: u8,
    pub mantissa_length_minus1: u8,
    pub mantissa: u32,
    pub number: DepthNumber,
}

#[derive(Clone, Copy, Debug)]
pub struct Depth {
    pub z_near_flag: u8,
    pub z_far_flag: u8,
    pub d_min_flag: u8,
    pub d_max_flag: u8,
    pub representation_type: u8,
    pub reference_view: u32,
    pub z_near: Element,
    pub z_far: Element,
    pub d_min: Element,
    pub d_max: Element,
    pub count: u8,
    pub list: [u16; MOST_LISTED],
}

pub fn read(bits: &mut Bits) -> Result<Depth, Refusal> {
    let z_near_flag = bits.flag()?;
    let z_far_flag = bits.flag()?;
    let d_min_flag = bits.flag()?;
    let d_max_flag = bits.flag()?;
    let representation_type = at_most(bits, 15)? as u8;
    let reference_view = match d_min_flag | d_max_flag {
        0 => 0,
        _ => bits.ue()?,
    };
    let mut message = Depth {
        z_near_flag,
        z_far_flag,
        d_min_flag,
        d_max_flag,
        representation_type,
        reference_view,
        z_near: element_if(z_near_flag, bits)?,
        z_far: element_if(z_far_flag, bits)?,
        d_min: element_if(d_min_flag, bits)?,
        d_max: element_if(d_max_flag, bits)?,
        count: 0,
        list: [0; MOST_LISTED],
    };
    if representation_type == 3 {
        read_list(bits, &mut message)?;
    }
    Ok(message)
}

/// ue(v) under a rule.
fn at_most(bits: &mut Bits, most: u32) -> Result<u32, Refusal> {
    let value = bits.ue()?;
    rule(value <= most)?;
    Ok(value)
}

fn read_list(bits: &mut Bits, message: &mut Depth) -> Result<(), Refusal> {
    message.count = at_most(bits, 62)? as u8 + 1;
    for listed in &mut message.list[..message.count.into()] {
        *listed = at_most(bits, 65_535)? as u16;
    }
    Ok(())
}

fn element_if(flag: u8, bits: &mut Bits) -> Result<Element, Refusal> {
    if flag == 0 {
        return Ok(Element::default());
    }
    let sign = bits.flag()?;
    let exponent = bits.u8(7)?;
    let mantissa_length_minus1 = bits.u8(5)?;
    let mantissa = bits.u32(usize::from(mantissa_length_minus1) + 1)?;
    Ok(Element {
        sign,
        exponent,
        mantissa_length_minus1,
        mantissa,
        number: number(sign, exponent, mantissa_length_minus1, mantissa),
    })
}

fn number(sign: u8, exponent: u8, mantissa_length_minus1: u8, mantissa: u32) -> DepthNumber {
    let length = u32::from(mantissa_length_minus1) + 1;
    match exponent {
        UNSPECIFIED_EXPONENT => DepthNumber::Unspecified,
        0 => DepthNumber::Number(numbers::subnormal(sign == 1, mantissa, length)),
        _ => DepthNumber::Number(numbers::normal(
            sign == 1,
            exponent.into(),
            mantissa,
            length,
        )),
    }
}
