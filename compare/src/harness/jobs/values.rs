//! Random weights, rates and costs, and a search for an edge.

use crate::random::Random;
use crate::reference::sheet;
use crate::types::Platform;

/// The largest cost and the largest total of weights.
pub const MAX_TICKS: u64 = sheet::MAX_TICKS as u64;

/// n weights that add up to `total`.
pub fn split(r: &mut Random, n: usize, total: u64) -> Vec<u32> {
    let mut left = total;
    let mut weights = Vec::new();
    for later in (0..n as u64).rev() {
        let most = left - later;
        let share = 2 * (most / (later + 1)).max(1);
        let weight = if later == 0 { left } else { r.between(1, share.min(most)) };
        weights.push(weight as u32);
        left -= weight;
    }
    weights
}

/// n equal weights.
pub fn even(n: usize, weight: u64) -> Vec<u32> {
    vec![weight as u32; n]
}

pub fn total(weights: &[u32]) -> u64 {
    weights.iter().map(|&w| u64::from(w)).sum()
}

/// Weights of any total that n tasks may have.
pub fn any_weights(r: &mut Random, n: usize) -> Vec<u32> {
    let total = r.sized(30).clamp(n as u64, MAX_TICKS);
    match r.below(4) {
        0 => even(n, (total / n as u64).max(1)),
        _ => split(r, n, total),
    }
}

/// A rate that brings a weight near an exponent.
pub fn rate_for(exponent: u64, weight: u64) -> u32 {
    let rate = (u128::from(exponent) << 24) / u128::from(weight.max(1));
    rate.min(u128::from(u32::MAX)) as u32
}

/// Rates for which all the work has an exponent of up to twice the limit.
pub fn any_rates(r: &mut Random, weight: u64) -> (u32, u32) {
    let mut rate = || match r.below(8) {
        0 => 0,
        1 => r.draw() as u32,
        _ => rate_for(r.sized(27), weight),
    };
    (rate(), rate())
}

/// A cost of up to about `scale`.
pub fn any_cost(r: &mut Random, scale: u64) -> u32 {
    let bits = 64 - u64::from(scale.leading_zeros());
    r.sized(bits.min(30)) as u32
}

/// A platform of these rates whose costs are of up to about `scale`.
pub fn any_costs(r: &mut Random, scale: u64, failstop: u32, silent: u32) -> Platform {
    let mut cost = || any_cost(r, scale);
    Platform { failstop, silent, cd: cost(), cm: cost(), v: cost(), rd: cost(), rm: cost() }
}

/// The largest value up to `max` that meets a condition, where no value above
/// one that fails it meets it.
pub fn largest(max: u64, meets: impl Fn(u64) -> bool) -> u64 {
    let (mut low, mut high) = (0, max);
    while low < high {
        let middle = (low + high).div_ceil(2);
        if meets(middle) {
            low = middle;
        } else {
            high = middle - 1;
        }
    }
    low
}
