//! One stretch: its exponents, whether it is allowed, and S of equation (4).
//! `Costs` is what time and energy have in common.

use crate::reference::growth::{g, h, EXPONENT_LIMIT, ONE};
use crate::types::{Job, Platform};

/// p / 2^24, rounded up.
pub fn up(p: u128) -> u128 {
    p.div_ceil(ONE)
}

/// The exponents y_f and y_s of a weight.
fn exponents(platform: &Platform, weight: u128) -> (u128, u128) {
    let exponent = |rate: u32| up(u128::from(rate) * weight);
    (exponent(platform.failstop), exponent(platform.silent))
}

/// Whether a stretch of this weight keeps the exponent limit.
pub fn allowed(platform: &Platform, weight: u128) -> bool {
    let (yf, ys) = exponents(platform, weight);
    ys + yf <= EXPONENT_LIMIT
}

/// What equation (4) needs of one stretch: its weight and its growths.
#[derive(Clone, Copy, Debug)]
pub struct Growths {
    pub weight: u128,
    /// G(y_s).
    pub g_silent: u128,
    /// G(y_s + y_f).
    pub g_both: u128,
    /// H(y_f).
    pub h_failstop: u128,
}

/// The growths of the stretch from position u to v, if it is allowed.
pub fn growths(job: &Job, u: usize, v: usize) -> Option<Growths> {
    let weight = job.weight(u, v);
    if !allowed(&job.platform, weight) {
        return None;
    }
    let (yf, ys) = exponents(&job.platform, weight);
    Some(Growths { weight, g_silent: g(ys), g_both: g(ys + yf), h_failstop: h(yf) })
}

/// The growths of every stretch. They depend on rates and weights alone, so
/// one table serves jobs that differ in costs.
pub struct Table(Vec<Vec<Option<Growths>>>);

impl Table {
    pub fn new(job: &Job) -> Table {
        let n = job.tasks;
        let entry = |u: usize, v: usize| if u < v { growths(job, u, v) } else { None };
        let row = |u: usize| (0..=n).map(|v| entry(u, v)).collect();
        Table((0..=n).map(row).collect())
    }

    pub fn tasks(&self) -> usize {
        self.0.len() - 1
    }

    pub fn get(&self, u: usize, v: usize) -> Option<Growths> {
        self.0[u][v]
    }
}

/// What lies before a stretch.
#[derive(Clone, Copy, Debug)]
pub struct Before {
    /// Last disk copy.
    pub d: usize,
    /// Last memory copy.
    pub m: usize,
    /// M'.
    pub mem: u128,
    /// Q'.
    pub q: u128,
}

/// S of one stretch. M' and Q' are at most 2^64 (times are cut there) and a
/// growth is under 2^30, so a product is under 2^96.
pub fn time(platform: &Platform, s: &Growths, before: &Before) -> u128 {
    let (rd, rm) = (u128::from(platform.rd), u128::from(platform.rm));
    // Request 102: R_D' is R_D + R_M, still 0 if d = 0.
    let rd = if before.d == 0 { 0 } else { rd + rm };
    let rm = if before.m == 0 { 0 } else { rm };
    let work = up(s.weight * s.h_failstop) + u128::from(platform.v);
    let first = up(s.g_silent * work);
    let second = up((s.g_both - s.g_silent) * (rd + before.mem));
    let third = up((s.g_both - ONE) * before.q);
    let fourth = up((s.g_silent - ONE) * rm);
    first + second + third + fourth
}

/// What the equations ask of costs, in ticks of time or in units of energy.
pub trait Costs {
    /// S of one stretch.
    fn stretch(&self, s: &Growths, before: &Before) -> u128;
    /// What M has for the copy.
    fn memory_copy(&self) -> u128;
    /// What D has for the copy.
    fn disk_copy(&self) -> u128;
}

/// The costs in time.
impl Costs for Platform {
    fn stretch(&self, s: &Growths, before: &Before) -> u128 {
        time(self, s, before)
    }

    fn memory_copy(&self) -> u128 {
        u128::from(self.cm)
    }

    fn disk_copy(&self) -> u128 {
        u128::from(self.cd)
    }
}
