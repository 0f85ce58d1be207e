//! Request 106: plans by energy.

use crate::reference::growth::ONE;
use crate::reference::plan;
use crate::reference::sheet::{self, MAX_TICKS};
use crate::reference::stretch::{up, Before, Costs, Growths};
use crate::types::{Job, Platform, Powers, Refusal};

/// "A user gives two powers, 1 to 16 units."
pub const MAX_POWER: u64 = 16;

/// The costs of a platform in units of energy.
pub struct EnergyCosts {
    platform: Platform,
    powers: Powers,
}

impl EnergyCosts {
    pub fn new(job: &Job, powers: Powers) -> EnergyCosts {
        EnergyCosts { platform: job.platform, powers }
    }

    /// "One for computing and verifying." Any power fits: what is multiplied is
    /// under 2^40. S is asked for with powers that passed 29.
    fn computing(&self, ticks: u128) -> u128 {
        ticks * u128::from(self.powers.computing)
    }

    /// "One for saving and recovering."
    fn saving(&self, cost: u32) -> u128 {
        u128::from(cost) * u128::from(self.powers.saving)
    }
}

impl Costs for EnergyCosts {
    /// "In S the rounded W x H(y_f) and V are multiplied by the first,
    /// recoveries by the second." Q' and M' are energies already.
    fn stretch(&self, s: &Growths, before: &Before) -> u128 {
        let p = &self.platform;
        let work = self.computing(up(s.weight * s.h_failstop));
        let verification = self.computing(u128::from(p.v));
        // Request 102: R_D' is R_D + R_M, 0 if d = 0.
        let from_disk = if before.d == 0 { 0 } else { self.saving(p.rd) + self.saving(p.rm) };
        let from_memory = if before.m == 0 { 0 } else { self.saving(p.rm) };
        up(s.g_silent * (work + verification))
            + up((s.g_both - s.g_silent) * (from_disk + before.mem))
            + up((s.g_both - ONE) * before.q)
            + up((s.g_silent - ONE) * from_memory)
    }

    /// "C_M and C_D by the second."
    fn memory_copy(&self) -> u128 {
        self.saving(self.platform.cm)
    }

    fn disk_copy(&self) -> u128 {
        self.saving(self.platform.cd)
    }
}

/// Whether a power is in its range.
pub fn in_range(power: u64) -> bool {
    (1..=MAX_POWER).contains(&power)
}

/// The total weight and the five costs, each with its power.
pub fn products(job: &Job, powers: Powers) -> [u128; 6] {
    let costs = EnergyCosts::new(job, powers);
    let Platform { cd, cm, v, rd, rm, .. } = job.platform;
    let all = costs.computing(job.weight(0, job.tasks));
    let [cd, cm, rd, rm] = [cd, cm, rd, rm].map(|cost| costs.saving(cost));
    [all, cd, cm, costs.computing(u128::from(v)), rd, rm]
}

/// Refusal 29: "a power is outside its range, or a product of the total weight
/// or of any cost with its power passes 2^30".
pub fn check_powers(job: &Job, powers: Powers) -> Result<(), Refusal> {
    let inside = in_range(powers.computing) && in_range(powers.saving);
    if !inside || products(job, powers).iter().any(|&product| product > MAX_TICKS) {
        return Err(29);
    }
    Ok(())
}

/// The plan of least energy for a buffer of a size: refusals 1 to 8, 29, 11
/// and 13.
pub fn energy(sheet: &[u8], powers: Powers, buffer_size: usize) -> Result<(u64, Vec<u8>), Refusal> {
    let job = sheet::read(sheet)?;
    check_powers(&job, powers)?;
    plan::plan_under(&EnergyCosts::new(&job, powers), &job, buffer_size)
}
