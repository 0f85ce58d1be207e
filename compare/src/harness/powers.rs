//! Random powers, in their range and outside of it (request 106).

use crate::random::Random;
use crate::reference::energy::MAX_POWER;
use crate::types::Powers;

/// The powers with which energy is time.
pub const BOTH_1: Powers = Powers { computing: 1, saving: 1 };

/// Two powers in range: any, the ends alone, or powers of two.
pub fn in_range(r: &mut Random) -> Powers {
    let style = r.below(3);
    let mut power = || match style {
        0 => r.between(1, MAX_POWER),
        1 => r.pick(&[1, MAX_POWER]),
        _ => r.pick(&[1, 2, 4, 8, 16]),
    };
    Powers { computing: power(), saving: power() }
}

/// A power out of range. Some are in range after a wrap at 2^8, 2^16 or 2^32;
/// others times a multiple of 16 are small after one at 2^64.
fn outside(r: &mut Random) -> u64 {
    let inside = r.between(1, MAX_POWER);
    match r.below(4) {
        0 => r.pick(&[0, u64::MAX]),
        1 => r.pick(&[MAX_POWER + 1, MAX_POWER + 2]),
        2 => inside + (1 << r.pick(&[8, 16, 32])),
        _ => inside + (1 << r.pick(&[60, 63])),
    }
}

/// Two powers, one of them or both out of range.
pub fn out_of_range(r: &mut Random) -> Powers {
    let mut powers = in_range(r);
    let which = r.below(3);
    if which != 0 {
        powers.computing = outside(r);
    }
    if which != 1 {
        powers.saving = outside(r);
    }
    powers
}

pub fn any(r: &mut Random) -> Powers {
    match r.below(10) {
        0..=1 => BOTH_1,
        2..=7 => in_range(r),
        _ => out_of_range(r),
    }
}
