//! The 64-bit floats of the records, put together from their fields as the rules give them.

const FRACTION_BITS: u32 = 52;

/// A coded angle over 65,536.
pub fn degrees(coded: i32) -> f64 {
    let size = coded.unsigned_abs();
    if size == 0 {
        return 0.0;
    }
    let k = size.ilog2();
    float(coded < 0, k + 1007, fraction_below_top(size, k))
}

/// A depth number with exponent 1 to 126: (-1)^s * 2^(e-31) * (1 + n / 2^v).
pub fn normal(sign: bool, exponent: u32, mantissa: u32, length: u32) -> f64 {
    float(
        sign,
        exponent + 992,
        u64::from(mantissa) << (FRACTION_BITS - length),
    )
}

/// A depth number with exponent 0: (-1)^s * n / 2^(30+v). "Zero is always positive zero."
pub fn subnormal(sign: bool, mantissa: u32, length: u32) -> f64 {
    if mantissa == 0 {
        return 0.0;
    }
    let k = mantissa.ilog2();
    float(sign, 993 - length + k, fraction_below_top(mantissa, k))
}

/// (n - 2^k) * 2^(52-k), where bit k is the topmost one of n.
fn fraction_below_top(n: u32, k: u32) -> u64 {
    u64::from(n ^ (1 << k)) << (FRACTION_BITS - k)
}

fn float(sign: bool, exponent_field: u32, fraction_field: u64) -> f64 {
    f64::from_bits(
        u64::from(sign) << 63 | u64::from(exponent_field) << FRACTION_BITS | fraction_field,
    )
}
