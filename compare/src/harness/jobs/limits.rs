//! Jobs at the limits of exponent and time.

use crate::harness::jobs::values::{any_costs, even, largest, rate_for, split, MAX_TICKS};
use crate::harness::marks;
use crate::random::Random;
use crate::reference::plan;
use crate::reference::setting::{self, MAX_TIME};
use crate::reference::sheet;
use crate::reference::stretch::{self, Table};
use crate::types::{Job, Platform};

/// Errors so often that times may be far beyond the limit.
pub fn heavy(r: &mut Random, n: usize) -> Job {
    let all = r.between(1 << 24, MAX_TICKS);
    let weights = if r.chance(30) { even(n, all / n as u64) } else { split(r, n, all) };
    let each = all / n as u64;
    let exponent = r.between(1 << 22, 1 << 26);
    let part = r.below(exponent + 1);
    let base = if r.chance(50) { all } else { each };
    let (failstop, silent) = (rate_for(part, base), rate_for(exponent - part, base));
    Job::new(any_costs(r, MAX_TICKS, failstop, silent), &weights)
}

/// The largest weight up to 2^30 that is allowed as a stretch.
fn largest_allowed(platform: &Platform) -> u64 {
    largest(MAX_TICKS, |weight| stretch::allowed(platform, u128::from(weight)))
}

/// A task, or some tasks in a row, just at the exponent limit or just above.
pub fn at_exponent_limit(r: &mut Random, n: usize) -> Job {
    let mut rate = || {
        let bits = r.between(22, 32);
        let high = r.between(1 << 21, (1 << bits) - 1) as u32;
        r.pick(&[0, high, high])
    };
    let (failstop, silent) = (rate(), rate());
    let mut platform = any_costs(r, 1 << 12, failstop, silent);
    if platform.failstop == 0 && platform.silent == 0 {
        platform.silent = 1 << 31;
    }
    let edge = largest_allowed(&platform) + r.below(2);
    let together = r.between(1, n as u64);
    let mut weights = even(n, 1);
    if edge < together || edge + n as u64 > MAX_TICKS {
        return Job::new(platform, &weights);
    }
    let together = together as usize;
    let first = r.index(n - together + 1);
    weights.splice(first..first + together, split(r, together, edge));
    Job::new(platform, &weights)
}

/// A time just at the limit, or one or two above or below.
fn edge_time(r: &mut Random) -> u128 {
    MAX_TIME - 2 + u128::from(r.below(5))
}

/// Raises V, C_M and C_D, one after the other, as far as the time stays
/// within the target; with one disk mark the last one meets it exactly.
fn raise_costs(job: &mut Job, target: u128, time: impl Fn(&Job) -> u128) {
    let costs: [fn(&mut Platform) -> &mut u32; 3] = [|p| &mut p.v, |p| &mut p.cm, |p| &mut p.cd];
    for cost in costs {
        let with = |value: u64| {
            let mut changed = *job;
            *cost(&mut changed.platform) = value as u32;
            changed
        };
        *job = with(largest(MAX_TICKS, |value| time(&with(value)) <= target));
    }
}

/// Heavy work without V and C_M, to be raised to an edge.
fn to_be_raised(r: &mut Random, n: usize) -> Job {
    let all = r.between(1 << 28, MAX_TICKS);
    let exponent = r.between((n as u64 + 3) << 23, (n as u64 + 1) << 25);
    let part = if r.chance(30) { 0 } else { r.below(exponent + 1) };
    let (failstop, silent) = (rate_for(part, all), rate_for(exponent - part, all));
    let mut platform = any_costs(r, MAX_TICKS, failstop, silent);
    platform.v = 0;
    platform.cm = 0;
    Job::new(platform, &split(r, n, all))
}

/// A job, and marks of it whose time is at the limit or near it.
pub fn priced_at_limit(r: &mut Random, n: usize) -> (Job, Vec<u8>) {
    let mut job = to_be_raised(r, n);
    let mut marks = marks::allowed(r, &job);
    if r.chance(70) {
        marks[..n - 1].iter_mut().for_each(|m| *m = (*m).min(2));
    }
    if sheet::check_values(&job).is_ok() && setting::allowed(&job, &marks) {
        let target = edge_time(r);
        raise_costs(&mut job, target, |job| setting::time(job, &marks));
    }
    (job, marks)
}

/// A job whose least time is at the limit or near it.
pub fn planned_at_limit(r: &mut Random, n: usize) -> Job {
    let mut job = to_be_raised(r, n);
    if sheet::check_values(&job).is_ok() {
        let target = edge_time(r);
        let table = Table::new(&job);
        raise_costs(&mut job, target, |job| plan::by_rows_with(job, &table).time);
    }
    job
}

/// A job in which no two tasks may be one stretch, so that each has a V, and
/// copies cost little beside it. V is raised until marks of 3 alone are at the
/// limit, and then changed by up to 3 percent: the least time is near the
/// limit, however many tasks there are.
pub fn all_marked_near_limit(r: &mut Random, n: usize) -> Job {
    let each = r.between(1 << 26, 1 << 28) / n as u64;
    let weights: Vec<u32> = (0..n).map(|_| r.between(each, each + each / 4) as u32).collect();
    let exponent = r.between(17 << 21, 25 << 21);
    let part = if r.chance(30) { 0 } else { r.below(exponent + 1) };
    let (failstop, silent) = (rate_for(part, each), rate_for(exponent - part, each));
    let mut job = Job::new(any_costs(r, 1 << 16, failstop, silent), &weights);
    let (table, marks) = (Table::new(&job), vec![3; n]);
    let growths = |u, v| table.get(u, v).expect("a task alone");
    let within = |v: u64| {
        let platform = Platform { v: v as u32, ..job.platform };
        setting::time_with(&platform, &marks, growths) <= MAX_TIME
    };
    let v = largest(MAX_TICKS, within) * r.between(99, 103) / 100;
    job.platform.v = v.min(MAX_TICKS) as u32;
    job
}
