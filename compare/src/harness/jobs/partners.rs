//! Second jobs for a join, many of them at an edge with the first.

use crate::harness::jobs::values::{even, split, total, MAX_TICKS};
use crate::random::Random;
use crate::types::{Job, Platform, MAX_TASKS};

/// A task count; often both jobs have 64 to 66 tasks together.
fn tasks(r: &mut Random, first: usize) -> usize {
    if r.chance(50) {
        (MAX_TASKS + r.index(3)).saturating_sub(first).clamp(1, MAX_TASKS)
    } else {
        r.between(1, 8) as usize
    }
}

/// n weights; often both jobs have a total of 2^30 together, or one more.
fn weights(r: &mut Random, first: &Job, n: usize) -> Vec<u32> {
    let left = MAX_TICKS.saturating_sub(total(first.task_weights()));
    let total = match r.below(4) {
        0 | 1 => left + r.below(2),
        2 => r.sized(30),
        _ => return even(n, 1 + r.below(4)),
    };
    split(r, n, total.clamp(n as u64, MAX_TICKS))
}

/// Changes one of the seven fields, by one bit or by one.
fn other_platform(r: &mut Random, platform: &Platform) -> Platform {
    let mut other = *platform;
    let p = &mut other;
    let fields =
        [&mut p.failstop, &mut p.silent, &mut p.cd, &mut p.cm, &mut p.v, &mut p.rd, &mut p.rm];
    let field = fields.into_iter().nth(r.index(7)).expect("one of seven");
    *field = if r.chance(50) { *field ^ (1 << r.below(30)) } else { field.wrapping_add(1) };
    other
}

/// A job to be joined with this one, mostly of its platform.
pub fn partner(r: &mut Random, first: &Job) -> Job {
    let n = tasks(r, first.tasks);
    let weights = weights(r, first, n);
    let same = r.chance(80);
    let platform = if same { first.platform } else { other_platform(r, &first.platform) };
    Job::new(platform, &weights)
}

/// A first job without errors, so that no weight is refused by 8.
pub fn light(r: &mut Random, platform: &Platform) -> Job {
    let n = r.between(1, MAX_TASKS as u64) as usize;
    let all = r.between(n as u64, MAX_TICKS);
    Job::new(Platform { failstop: 0, silent: 0, ..*platform }, &split(r, n, all))
}
