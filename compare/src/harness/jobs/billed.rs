//! Jobs with powers at an edge of request 106.

use crate::harness::jobs::values::{any_cost, largest, rate_for, split, MAX_TICKS};
use crate::harness::powers;
use crate::random::Random;
use crate::reference::energy::EnergyCosts;
use crate::reference::plan::{self, Plan};
use crate::reference::setting::MAX_TIME;
use crate::reference::sheet;
use crate::reference::stretch::Table;
use crate::types::{Job, Platform, Powers};

/// The first tasks of a job alone.
fn shortened(job: &Job, most: usize) -> Job {
    let weights = job.task_weights();
    Job::new(job.platform, &weights[..weights.len().min(most)])
}

/// The job with another total of weights and about the same exponents.
fn with_total(r: &mut Random, job: &Job, all: u64) -> Job {
    let before = job.weight(0, job.tasks);
    let rate = |rate: u32| rate_for(((u128::from(rate) * before) >> 24) as u64, all);
    let (failstop, silent) = (rate(job.platform.failstop), rate(job.platform.silent));
    Job::new(Platform { failstop, silent, ..job.platform }, &split(r, job.tasks, all))
}

/// A copy of the job, the total weight or a cost of which, or all of these,
/// have the largest product with their power up to 2^30, or the next one; or
/// up to 2^32, where a wrap makes it small.
fn at_product(r: &mut Random, job: &Job) -> (Job, Powers) {
    let (mut job, powers) = (shortened(job, 5), powers::in_range(r));
    let product = r.pick(&[MAX_TICKS, MAX_TICKS, MAX_TICKS, 1 << 32]);
    let over = r.pick(&[0, 0, 1]);
    let edge = |power: u64| (product / power + over).min(MAX_TICKS + 1);
    let (computed, saved) = (edge(powers.computing), edge(powers.saving));
    let which = r.below(8);
    let chosen = |amount: u64| which == amount || which > 5;
    if chosen(0) {
        job = with_total(r, &job, computed);
    }
    let Platform { cd, cm, v, rd, rm, .. } = &mut job.platform;
    let costs = [(1, v, computed), (2, cd, saved), (3, cm, saved), (4, rd, saved), (5, rm, saved)];
    for (_, cost, value) in costs.into_iter().filter(|&(amount, ..)| chosen(amount)) {
        *cost = value as u32;
    }
    (job, powers)
}

/// A copy of the job whose values are multiples of 16, with a power out of
/// range, so that products may be small after a wrap at 2^64.
fn of_sixteens(r: &mut Random, job: &Job) -> (Job, Powers) {
    let mut job = shortened(job, 5);
    let tasks = job.tasks;
    let Platform { cd, cm, v, rd, rm, .. } = &mut job.platform;
    [cd, cm, v, rd, rm].into_iter().for_each(|cost| *cost &= !15);
    job.weights[..tasks].iter_mut().for_each(|weight| *weight = (*weight & !15).max(16));
    (job, powers::out_of_range(r))
}

/// The plan of least energy.
fn least(job: &Job, powers: Powers) -> Plan {
    plan::by_rows_under(&EnergyCosts::new(job, powers), &Table::new(job))
}

/// Heavy work, as the first power has it, and copies of half the largest cost.
fn heavy(r: &mut Random, powers: Powers) -> Job {
    let n = r.pick(&[1, 1, 2, 3]);
    let all = r.between(MAX_TICKS / 2, MAX_TICKS) / powers.computing;
    let failstop = rate_for(r.below(1 << 24), all);
    let copy = (MAX_TICKS / 2 / powers.saving) as u32;
    let v = r.between(1 << 12, 1 << 24) / powers.computing;
    let (rd, rm) = (any_cost(r, u64::from(copy)), any_cost(r, u64::from(copy)));
    let platform = Platform { failstop, silent: 0, cd: copy, cm: copy, v: v as u32, rd, rm };
    Job::new(platform, &split(r, n, all))
}

/// A job whose least energy is 2^34 - 1 or 2^34: the silent rate is raised as
/// far as the energy stays within that, and C_D has the rest, once V leaves
/// one that the disk copies can share.
pub fn at_energy_limit(r: &mut Random) -> (Job, Powers) {
    let powers = powers::in_range(r);
    let mut job = heavy(r, powers);
    let target = MAX_TIME + u128::from(r.below(2));
    let with = |silent: u64| {
        let mut changed = job;
        changed.platform.silent = silent as u32;
        changed
    };
    let within = |silent: u64| {
        let job = with(silent);
        sheet::check_values(&job).is_ok() && least(&job, powers).time <= target
    };
    job = with(largest(u64::from(u32::MAX), within));
    for _ in 0..100 {
        let best = least(&job, powers);
        let copies = best.marks.iter().filter(|&&mark| mark == 3).count() as u128;
        let (rest, share) = (target - best.time, copies * u128::from(powers.saving));
        if rest % share == 0 {
            job.platform.cd += (rest / share) as u32;
            break;
        }
        job.platform.v -= 1;
    }
    (job, powers)
}

/// A job at an edge with its powers, at times a changed copy of this one.
pub fn billed(r: &mut Random, job: &Job) -> (Job, Powers) {
    match r.below(10) {
        0..=4 => at_product(r, job),
        5..=6 => of_sixteens(r, job),
        _ => at_energy_limit(r),
    }
}
