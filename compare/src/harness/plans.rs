//! Counts edges of the plans that are compared.

use crate::harness::jobs;
use crate::harness::tally::Tally;
use crate::reference::plan;
use crate::reference::setting::MAX_TIME;
use crate::types::{Answer, Job};

/// Up to this many tasks the settings of least time are counted.
const MAX_COUNTED_TASKS: usize = 5;
/// A chain of this many tasks is long.
const LONG: usize = 32;
/// A time is near the limit if it is this near.
const NEAR: u128 = 1 << 30;

/// The least time of a sheet that passed 1 to 8, if the answer is a plan or 13.
fn least(job: &Job, answer: &Answer) -> Option<u128> {
    match answer.number {
        0 => Some(u128::from(answer.time)),
        13 => Some(plan::by_rows(job).time),
        _ => None,
    }
}

/// Whether another allowed setting has the least time, if that is counted.
fn is_tied(job: &Job, least: u128) -> bool {
    job.tasks <= MAX_COUNTED_TASKS && plan::settings_of_time(job, least) > 1
}

/// Counts a time just at the limit.
pub fn count_edge(tally: &mut Tally, time: u128) {
    tally.at_limit += u64::from(time == MAX_TIME);
    tally.over_limit += u64::from(time == MAX_TIME + 1);
}

/// Counts the reference's answer for a sheet that passed 1 to 8.
pub fn count(tally: &mut Tally, job: &Job, answer: &Answer) {
    let Some(least) = least(job, answer) else { return };
    count_edge(tally, least);
    let (planned, near) = (answer.number == 0, least.abs_diff(MAX_TIME) <= NEAR);
    let zero_rate = job.platform.failstop == 0 || job.platform.silent == 0;
    let edges = &mut tally.plans;
    edges.past_limit += u64::from(!planned && near);
    edges.long_near_limit += u64::from(near && job.tasks >= LONG);
    if planned {
        edges.tied += u64::from(is_tied(job, least));
        edges.zero_cost += u64::from(jobs::costs(job).contains(&0));
        edges.zero_rate += u64::from(zero_rate);
        edges.near_limit += u64::from(near);
        edges.long += u64::from(job.tasks >= LONG);
    }
}
