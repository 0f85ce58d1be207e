//! The growth sums of one stretch: what planners here share, and a quick way to
//! work them out.
//!
//! A tick has 2^24 units: a growth times ticks is a number of units.

use compare::types::Platform;

const SHIFT: u32 = 24;
pub const UNIT: u64 = 1 << SHIFT;
pub const EXPONENT_LIMIT: u64 = 1 << 26;
pub const LAST_TERM: u64 = 32;
/// Terms are carried in units of 2^-30, 64 of which make one of 2^-24.
pub const TERM_UNIT: u64 = 1 << 30;
pub const GUARD: u64 = 64;
pub const SETTLED_FROM: u64 = 4;

/// What one stretch has whatever lies before it; `error` is 0 if it is not
/// allowed.
#[derive(Clone, Copy, Default)]
pub struct Factors {
    /// up(G(y_s) × (up(W × H(y_f)) + V)).
    pub work: u64,
    /// G(y_s).
    pub silent: u64,
    /// G(y_s + y_f).
    pub error: u64,
}

/// Units to ticks, rounded up.
pub fn up(p: u64) -> u64 {
    (p + (UNIT - 1)) >> SHIFT
}

/// 2^64 / k rounded up, for k from 2 on: the high half of a product with it is
/// the product's other factor divided by k, if that is below 2^58.
const INVERSES: [u64; LAST_TERM as usize + 2] = {
    let mut inverses = [0; LAST_TERM as usize + 2];
    let mut k = 2;
    while k < inverses.len() {
        inverses[k] = u64::MAX / k as u64 + 1;
        k += 1;
    }
    inverses
};

/// p / k rounded up, k being from 2 to 33.
fn divided(p: u64, k: u64) -> u64 {
    let product = u128::from(p + k - 1) * u128::from(INVERSES[k as usize]);
    (product >> 64) as u64
}

/// G(y_s), G(y_s + y_f) and H(y_f), in step, since a term waits for the one
/// before it. 33 terms; dividing by 2^24 first and by k + 1 + shift next rounds
/// up the same way. The second product is the largest. From term 4 on, if it is
/// 1 or 0, each product stands for all later terms of its sum.
fn growths(silent: u64, stop: u64) -> [u64; 3] {
    let (y, shift) = ([silent, silent + stop, stop], [0, 0, 1]);
    let mut term = [y[0] * GUARD, y[1] * GUARD, (y[2] * GUARD).div_ceil(2)];
    let mut sum = term.map(|term| TERM_UNIT + term);
    for k in 1..LAST_TERM {
        let product = [0, 1, 2].map(|i| up(term[i] * y[i]));
        if k >= SETTLED_FROM && product[1] <= 1 {
            (0..3).for_each(|i| sum[i] += (LAST_TERM - k) * product[i]);
            break;
        }
        term = [0, 1, 2].map(|i| divided(product[i], k + 1 + shift[i]));
        (0..3).for_each(|i| sum[i] += term[i]);
    }
    sum.map(|sum| sum.div_ceil(GUARD))
}

pub fn factors(p: &Platform, weight: u64) -> Factors {
    let silent = up(u64::from(p.silent) * weight);
    let stop = up(u64::from(p.failstop) * weight);
    if silent + stop > EXPONENT_LIMIT {
        return Factors::default();
    }
    let [silent, error, mean] = growths(silent, stop);
    let work = up(silent * (up(weight * mean) + u64::from(p.v)));
    Factors { work, silent, error }
}
