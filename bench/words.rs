//! The same roundings, tuned: words of 64 bits but for the product and the dividend, and few branches.
//!
//! The lowest digit of a significand that is to be rounded is sticky: it is 1 if anything was cut off below it.

const SIGN: u64 = 1 << 63;
const INFINITY: u64 = 0x7ff << FRACTION;
const LARGEST: u64 = INFINITY - 1;

/// Bits of the fraction field, and digits of a significand.
const FRACTION: i32 = 52;
const DIGITS: i32 = 53;

/// What the smallest positive double is worth: 2^-POINT.
const POINT: i32 = 1074;

/// Digits that a sum keeps below the greater significand's last.
const GUARD: i32 = 10;

/// Digits of a word that is to be rounded below the leading digits of a product or a quotient.
const SPARE: i32 = 10;
const AFTER: i32 = 60;

/// The significand and the exponent of a magnitude, in units of the smallest positive double.
fn unpack(magnitude: u64) -> (u64, i32) {
    let field = magnitude >> FRACTION;
    if field == 0 {
        return (magnitude, 0);
    }
    let exponent = field - 1;
    (magnitude - (exponent << FRACTION), exponent as i32)
}

/// The same, with all digits of the significand.
fn normalise(magnitude: u64) -> (u64, i32) {
    let (significand, exponent) = unpack(magnitude);
    let shift = significand.leading_zeros() as i32 - (64 - DIGITS);
    (significand << shift, exponent - shift)
}

/// Shifted right, with a sticky last digit.
fn shifted(significand: u64, shift: i32) -> u64 {
    if shift >= 64 {
        return (significand != 0) as u64;
    }
    let kept = significand >> shift;
    kept | (kept << shift != significand) as u64
}

/// The double, or +inf, that is next above significand * 2^exponent.
fn round_up(negative: bool, significand: u64, exponent: i32) -> u64 {
    let length = 64 - significand.leading_zeros() as i32;
    let cut = (length - DIGITS).max(-exponent);
    let (kept, inexact) = if cut >= 64 {
        (0, significand != 0)
    } else if cut > 0 {
        let kept = significand >> cut;
        (kept, kept << cut != significand)
    } else {
        (significand << -cut, false)
    };
    if kept == 0 && !inexact {
        return 0;
    }
    let pattern = (((exponent + cut) as u64) << FRACTION) + kept;
    if !negative {
        return (pattern + inexact as u64).min(INFINITY);
    }
    match pattern.min(LARGEST) {
        0 => 0,
        magnitude => SIGN | magnitude,
    }
}

pub fn add_ru(a: u64, b: u64) -> u64 {
    let (great, small) = if a & !SIGN < b & !SIGN {
        (b, a)
    } else {
        (a, b)
    };
    let (high, exponent) = unpack(great & !SIGN);
    let (low, below) = unpack(small & !SIGN);
    let high = high << GUARD;
    let low = shifted(low << GUARD, exponent - below);
    let sum = if (a ^ b) < SIGN {
        high + low
    } else {
        high - low
    };
    round_up(great >= SIGN, sum, exponent - GUARD)
}

pub fn mul_ru(a: u64, b: u64) -> u64 {
    let (x, y) = (a & !SIGN, b & !SIGN);
    if x == 0 || y == 0 {
        return 0;
    }
    let (m, e) = normalise(x);
    let (n, f) = normalise(y);
    let product = ((m << SPARE) as u128) * ((n << SPARE) as u128);
    let upper = (product >> 64) as u64 | (product as u64 != 0) as u64;
    round_up((a ^ b) >= SIGN, upper, e + f + 64 - 2 * SPARE - POINT)
}

pub fn div_ru(a: u64, b: u64) -> u64 {
    let x = a & !SIGN;
    if x == 0 {
        return 0;
    }
    let (m, e) = normalise(x);
    let (n, f) = normalise(b & !SIGN);
    let (dividend, divisor) = ((m as u128) << AFTER, n as u128);
    let quotient = dividend / divisor;
    let rest = dividend - quotient * divisor;
    round_up(
        (a ^ b) >= SIGN,
        quotient as u64 | (rest != 0) as u64,
        e - f - AFTER + POINT,
    )
}
