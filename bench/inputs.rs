//! Random operands: finite doubles, and no zero divisor.

const FRACTION: u32 = 52;
const FIELDS: u64 = 2047;
const SIGN: u64 = 1 << 63;

/// How far apart the exponents of near operands are at most.
const NEAR: u64 = 8;

/// Marsaglia's xorshift, so that every run has the same inputs.
pub struct Random(pub u64);

impl Random {
    fn bits(&mut self) -> u64 {
        self.0 ^= self.0 << 13;
        self.0 ^= self.0 >> 7;
        self.0 ^= self.0 << 17;
        self.0
    }

    fn below(&mut self, end: u64) -> u64 {
        (self.bits() >> 32) * end >> 32
    }

    fn with_sign(&mut self, magnitude: u64) -> u64 {
        magnitude | self.bits() & SIGN
    }

    fn with_field(&mut self, field: u64) -> u64 {
        let fraction = self.bits() >> (64 - FRACTION);
        self.with_sign(field.min(FIELDS - 1) << FRACTION | fraction)
    }

    fn finite(&mut self) -> u64 {
        let field = self.below(FIELDS);
        self.with_field(field).max(1)
    }

    fn subnormal(&mut self) -> u64 {
        let digits = 1 + self.below(FRACTION as u64);
        let magnitude = self.bits() >> (64 - digits);
        self.with_sign(magnitude.max(1))
    }
}

pub type Pair = fn(&mut Random) -> (u64, u64);

fn near(r: &mut Random) -> (u64, u64) {
    let first = 1 + r.below(FIELDS - 1);
    let second = first.saturating_sub(NEAR).max(1) + r.below(2 * NEAR + 1);
    (r.with_field(first), r.with_field(second))
}

fn all(r: &mut Random) -> (u64, u64) {
    (r.finite(), r.finite())
}

/// Half of the operands are subnormal.
fn subnormal(r: &mut Random) -> (u64, u64) {
    let one = |r: &mut Random| {
        if r.below(2) == 0 {
            r.subnormal()
        } else {
            r.finite()
        }
    };
    (one(r), one(r))
}

/// Of unlike signs, and the same but for at most some of the last digits, which alone are left in the sum.
fn cancelling(r: &mut Random) -> (u64, u64) {
    let first = r.finite();
    let digits = 1 + r.below(FRACTION as u64);
    let apart = r.bits() >> (64 - digits);
    (first, first ^ apart ^ SIGN)
}

pub type Kind = (&'static str, Pair);

pub const KINDS: [Kind; 3] = [
    ("near exponents", near),
    ("all exponents", all),
    ("subnormal", subnormal),
];

/// For sums there is one kind more.
pub const KINDS_OF_SUMS: [Kind; 4] = [KINDS[0], KINDS[1], KINDS[2], ("cancelling", cancelling)];
