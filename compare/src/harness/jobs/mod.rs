//! Random jobs, many of them at an edge.

mod billed;
mod dearer;
mod limits;
mod partners;
mod ties;
mod values;

use crate::random::Random;
use crate::types::{Job, Platform, MAX_TASKS};
pub use billed::{at_energy_limit, billed};
pub use dearer::{costs, dearer};
pub use partners::{light, partner};
pub use values::largest;
use values::{any_costs, any_rates, any_weights, rate_for, split, total, MAX_TICKS};

/// The reference takes its time over more tasks than these, so that few such
/// jobs are planned more than once.
pub const MANY_TASKS: usize = 16;

/// A job, and marks that belong to it if it was made for some.
pub struct Case {
    pub job: Job,
    pub marks: Option<Vec<u8>>,
}

/// A task count, mostly small; 8 is the most for the equations as printed.
fn tasks(r: &mut Random) -> usize {
    let (low, high) = match r.below(1000) {
        0..=809 => (1, 6),
        810..=849 => (8, 9),
        850..=949 => (7, 16),
        950..=986 => (17, 40),
        987..=995 => (41, 64),
        _ => (64, 64),
    };
    r.between(low, high) as usize
}

/// A task count of a long chain, mostly of the shorter ones.
fn long(r: &mut Random) -> usize {
    let high = r.pick(&[36, 36, 36, 36, 36, MAX_TASKS as u64]);
    r.between(32, high) as usize
}

/// Any job of up to `most` tasks.
pub fn any(r: &mut Random, most: usize) -> Case {
    let n = tasks(r).min(most);
    let job = match r.below(100) {
        0..=20 => ordinary(r, n),
        21..=23 => rarely_stopped(r, n),
        24..=33 => ties::tied(r, n),
        34..=38 => ties::nearly_tied(r, n),
        39..=44 => ties::at_switch(r, (n + 2).min(9).min(most)),
        45..=51 => without_rates(r, n),
        52..=62 => limits::at_exponent_limit(r, n),
        63..=66 => {
            let n = long(r).min(most);
            limits::all_marked_near_limit(r, n)
        }
        67..=73 => {
            let (job, marks) = limits::priced_at_limit(r, n);
            return Case { job, marks: Some(marks) };
        }
        74..=80 => limits::planned_at_limit(r, n.min(12)),
        81..=90 => limits::heavy(r, n),
        _ => out_of_range(r, n),
    };
    Case { job, marks: None }
}

/// A job of few tasks with a least time, or a time of its marks, at the limit
/// or near it.
pub fn at_time_limit(r: &mut Random) -> Case {
    let n = r.between(1, 4) as usize;
    if r.chance(35) {
        return Case { job: limits::planned_at_limit(r, n), marks: None };
    }
    let (job, marks) = limits::priced_at_limit(r, n);
    Case { job, marks: Some(marks) }
}

/// Costs small beside the tasks, so that plans have many marks.
fn ordinary(r: &mut Random, n: usize) -> Job {
    let weights = any_weights(r, n);
    let all = total(&weights);
    let (failstop, silent) = any_rates(r, all);
    let scale = (all / n as u64) >> r.below(8);
    Job::new(any_costs(r, scale, failstop, silent), &weights)
}

/// Fail-stop errors so rare that rounding decides what they add to the time,
/// which then may be less for a longer stretch.
fn rarely_stopped(r: &mut Random, n: usize) -> Job {
    let mut job = ordinary(r, n);
    let all = total(job.task_weights());
    job.platform.failstop = r.between(1, 4) as u32;
    job.platform.silent = rate_for(r.between(1 << 22, 1 << 26), all);
    job
}

/// No fail-stop errors, no silent ones, or neither.
fn without_rates(r: &mut Random, n: usize) -> Job {
    let mut job = ordinary(r, n);
    let which = r.below(3);
    if which != 0 {
        job.platform.failstop = 0;
    }
    if which != 1 {
        job.platform.silent = 0;
    }
    job
}

fn cost_field<'a>(r: &mut Random, platform: &'a mut Platform) -> &'a mut u32 {
    match r.below(5) {
        0 => &mut platform.cd,
        1 => &mut platform.cm,
        2 => &mut platform.v,
        3 => &mut platform.rd,
        _ => &mut platform.rm,
    }
}

/// A value just inside or outside of its range.
fn out_of_range(r: &mut Random, n: usize) -> Job {
    let mut job = ordinary(r, n);
    if r.chance(50) {
        job.platform.failstop = 0;
        job.platform.silent = 0;
    }
    let at = r.index(n);
    let max = MAX_TICKS as u32;
    match r.below(7) {
        0 => *cost_field(r, &mut job.platform) = max + 1,
        1 => *cost_field(r, &mut job.platform) = max,
        2 => *cost_field(r, &mut job.platform) = r.pick(&[u32::MAX, 1 << 31, max + 2]),
        3 => job.weights[at] = 0,
        4 => job.weights[at] = r.pick(&[max + 1, u32::MAX, max, 1 << 31]),
        5 => {
            let all = MAX_TICKS + r.below(2);
            job = Job::new(job.platform, &split(r, n, all));
        }
        // Weights whose total would be small again after a wrap at 2^32.
        _ => job.weights[..n.min(5)].fill(max),
    }
    job
}
