//! Growth sums G and H, with request 103.

/// One, in units of 2^-24.
pub const ONE: u128 = 1 << 24;
/// One, in the units of 2^-30 that terms are carried in.
const FINE_ONE: u128 = 1 << 30;
/// What the whole sum is divided by.
const FINER: u128 = 64;
/// The largest argument of a sum, and the exponent limit of a stretch.
pub const EXPONENT_LIMIT: u128 = 1 << 26;

/// "Terms of G and H are now carried in units of 2^-30": terms 0 to 32, the
/// first 2^30; term k is the one before times y / ((k + shift) x 2^24), rounded
/// up. "The whole sum is divided by 64 and rounded up once." A term stays under
/// 2^34 and y under 2^27, so nothing wraps.
fn sum(y: u128, shift: u128) -> u128 {
    if y > EXPONENT_LIMIT {
        return 0;
    }
    let mut term = FINE_ONE;
    let mut total = term;
    for k in 1..=32u128 {
        term = (term * y).div_ceil((k + shift) * ONE);
        total += term;
    }
    total.div_ceil(FINER)
}

/// G(y), for e^z.
pub fn g(y: u128) -> u128 {
    sum(y, 0)
}

/// H(y), for (e^z - 1) / z.
pub fn h(y: u128) -> u128 {
    sum(y, 1)
}
