//! Upward rounding of sums, products and quotients of finite doubles in plain Rust, with u128 throughout.
//!
//! The lowest digit of a significand that is to be rounded is sticky: it is 1 if anything was cut off below it.

const SIGN: u64 = 1 << 63;
pub const INFINITY: u64 = 0x7ff << FRACTION;
const LARGEST: u64 = INFINITY - 1;

/// Bits of the fraction field, digits of a significand, and bits of a wide one.
const FRACTION: i32 = 52;
const DIGITS: i32 = 53;
const WIDE: i32 = 128;

/// What the smallest positive double is worth: 2^-POINT.
const POINT: i32 = 1074;

/// Digits that a sum keeps below the greater significand's last.
const GUARD: i32 = 64;

/// The significand and the exponent of a magnitude, in units of the smallest positive double.
fn unpack(magnitude: u64) -> (u128, i32) {
    let field = magnitude >> FRACTION;
    if field == 0 {
        return (magnitude as u128, 0);
    }
    let exponent = field - 1;
    (
        (magnitude - (exponent << FRACTION)) as u128,
        exponent as i32,
    )
}

/// Shifted right, with a sticky last digit.
fn shifted(significand: u128, shift: i32) -> u128 {
    if shift >= WIDE {
        return (significand != 0) as u128;
    }
    let kept = significand >> shift;
    kept | (kept << shift != significand) as u128
}

/// The double, or +inf, that is next above significand * 2^exponent.
fn round_up(negative: bool, significand: u128, exponent: i32) -> u64 {
    let length = WIDE - significand.leading_zeros() as i32;
    let cut = (length - DIGITS).max(-exponent);
    let (kept, inexact) = if cut >= WIDE {
        (0, significand != 0)
    } else if cut > 0 {
        let kept = significand >> cut;
        (kept as u64, kept << cut != significand)
    } else {
        ((significand as u64) << -cut, false)
    };
    if kept == 0 && !inexact {
        return 0;
    }
    let pattern = (((exponent + cut) as u64) << FRACTION) + kept;
    if !negative {
        return (pattern + inexact as u64).min(INFINITY);
    }
    match pattern.min(LARGEST) {
        0 => 0,
        magnitude => SIGN | magnitude,
    }
}

pub fn add_ru(a: u64, b: u64) -> u64 {
    let (great, small) = if a & !SIGN < b & !SIGN {
        (b, a)
    } else {
        (a, b)
    };
    let (high, exponent) = unpack(great & !SIGN);
    let (low, below) = unpack(small & !SIGN);
    let high = high << GUARD;
    let low = shifted(low << GUARD, exponent - below);
    let sum = if (a ^ b) < SIGN {
        high + low
    } else {
        high - low
    };
    round_up(great >= SIGN, sum, exponent - GUARD)
}

pub fn mul_ru(a: u64, b: u64) -> u64 {
    let (m, e) = unpack(a & !SIGN);
    let (n, f) = unpack(b & !SIGN);
    round_up((a ^ b) >= SIGN, m * n, e + f - POINT)
}

pub fn div_ru(a: u64, b: u64) -> u64 {
    let (m, e) = unpack(a & !SIGN);
    let (n, f) = unpack(b & !SIGN);
    if m == 0 {
        return 0;
    }
    let shift = m.leading_zeros() as i32;
    let dividend = m << shift;
    let quotient = dividend / n;
    let rest = dividend - quotient * n;
    round_up(
        (a ^ b) >= SIGN,
        quotient | (rest != 0) as u128,
        e - f - shift + POINT,
    )
}
