//! Request 103: how far the growth sums lie above the exact 33 terms.

use compare::random::Random;
use compare::reference::growth::{g, h};

/// A growth sum is in units of 2^-24, the exact one in units of 2^-84.
const FINE: u32 = 60;

/// The exact sum of the 33 terms from below and from above: each term rounded
/// down, and up. A term stays under 2^88 and y under 2^27, so nothing wraps.
fn exact(y: u128, shift: u128) -> (u128, u128) {
    let (mut down, mut up) = (1u128 << (24 + FINE), 1u128 << (24 + FINE));
    let (mut least, mut most) = (down, up);
    for k in 1..=32 {
        let divisor = (k + shift) << 24;
        down = down * y / divisor;
        up = (up * y).div_ceil(divisor);
        least += down;
        most += up;
    }
    (least, most)
}

/// All small y, those beside powers of 2, and many drawn of every size.
fn arguments() -> Vec<u128> {
    let mut random = Random::new(103);
    let mut all: Vec<u128> = (0..3000).collect();
    for bit in 0..26u32 {
        let power = 1 << bit;
        all.extend([2 * power - 1, 2 * power]);
        all.extend((0..2000).map(|_| u128::from(random.between(power as u64, 2 * power as u64))));
    }
    all
}

/// "less than 2 units of 2^-24 above the exact 33 terms, never below". That 1
/// would be too few is seen too, so that the test can fail.
#[test]
fn sums_lie_within_two_units() {
    for (shift, sum) in [(0, g as fn(u128) -> u128), (1, h)] {
        let mut past_one = 0;
        for y in arguments() {
            let (least, most) = exact(y, shift);
            let given = sum(y) << FINE;
            assert!(given >= most, "below at {y}");
            assert!(given < least + (2 << FINE), "2 units above at {y}");
            past_one += u32::from(given > most + (1 << FINE));
        }
        assert!(past_one > 1000, "{past_one} sums lie more than 1 unit above");
    }
}
