// The constants that the crate's operations name, by the standard's meaning:
// the crate's own file cannot be had.

use crate::{interval::*, simd::F64X2};
use std::mem::transmute;

// An interval is held as [-a; b], the empty one as two NaNs.
const fn held(neg_inf: f64, sup: f64) -> Interval {
    Interval {
        rep: unsafe { transmute::<[f64; 2], F64X2>([neg_inf, sup]) },
    }
}

impl Interval {
    pub const EMPTY: Self = held(f64::NAN, f64::NAN);
    pub const ENTIRE: Self = held(f64::INFINITY, f64::INFINITY);
}

impl DecInterval {
    pub const EMPTY: Self = Self::new_unchecked(Interval::EMPTY, Decoration::Trv);
    pub const NAI: Self = Self::new_unchecked(Interval::EMPTY, Decoration::Ill);
}
