//! A planner with the rows of the plain one, in which copies are cut by bounds
//! on all that is still to come:
//!
//! 1. the bounds, once;
//! 2. a limit: the time of the setting that the bounds suggest;
//! 3. rows of memory and disk copies, each copy with offers up to the last one
//!    that can be part of a plan within the limit; again without that limit if
//!    nothing is within it;
//! 4. the walk back, with rows cut in the same way.
//!
//! A row is exact wherever it can be part of a plan, and elsewhere not less.
//!
//! A time beyond the limit is kept as NONE = 2^34. A growth is under 2^29.8
//! and a time with a recovery at most 2^34 + 2^31, so products fit 64 bits.

use crate::bounds::Bounds;
use crate::rows::{Plan, Row, NONE};
use compare::types::{Job, MAX_TASKS};

/// The next memory copy after u by which after d u is what it is.
fn suggested<const N: usize>(b: &Bounds<N>, d: usize, u: usize) -> Option<usize> {
    let disk = b.least_disk(d, u);
    (u + 1..=b.tasks).find(|&v| b.low(u, 0, disk, v) + b.after(d, v) == b.after(d, u))
}

/// The time of the setting that after 0 0 suggests, mostly a plan's, or NONE.
fn guess<const N: usize>(b: &Bounds<N>) -> u64 {
    let (mut d, mut u) = (0, 0);
    let (mut time, mut memory) = (0, 0);
    while d < b.tasks {
        if d < u && b.after(d, u) == b.disk_copy() + b.after(u, u) {
            time += memory + b.disk_copy();
            (d, memory) = (u, 0);
            continue;
        }
        let Some(v) = suggested(b, d, u) else { return NONE };
        let q = b.pairs.verified(u, b.recovery(d) + memory, v);
        memory += q[v] + b.memory_copy();
        if memory >= NONE {
            return NONE;
        }
        u = v;
    }
    time
}

/// The best M from d, exact where it is less than `left` with what follows. A
/// copy m that is not can be part of no plan; another one has offers up to the
/// last position at which it can improve on the row and be part of a plan.
fn memory_row<const N: usize>(b: &Bounds<N>, d: usize, left: u64, top: usize) -> Row<N> {
    let mut row = Row::from(d);
    for m in d..top {
        let time = row.time[m];
        if time + b.after(d, m) >= left {
            continue;
        }
        let disk = b.recovery(d) + time;
        let matters = |&v: &usize| {
            let low = b.low(m, time, disk, v);
            low < row.time[v] && low + b.after(d, v) < left
        };
        let Some(far) = (m + 1..=top).rev().find(matters) else { continue };
        let q = b.pairs.verified(m, disk, far);
        for v in m + 1..=far {
            row.offer(v, m, time + q[v] + b.memory_copy());
        }
    }
    row
}

/// The best D, exact where it is within the limit with what follows.
fn disk_row<const N: usize>(b: &Bounds<N>, limit: u64) -> Row<N> {
    let n = b.tasks;
    let mut row = Row::from(0);
    for d in 0..n {
        let (time, bound) = (row.time[d], row.time[n].min(limit + 1));
        if time + b.after(d, d) >= bound {
            continue;
        }
        let memory = memory_row(b, d, bound - time, n);
        for v in d + 1..=n {
            row.offer(v, d, time + memory.time[v] + b.disk_copy());
        }
    }
    row
}

/// The row within the guessed limit, or else within the limit of all times.
fn search<const N: usize>(b: &Bounds<N>) -> Row<N> {
    let limit = guess(b).min(NONE - 1);
    let row = disk_row(b, limit);
    if limit < row.time[b.tasks] && limit < NONE - 1 {
        disk_row(b, NONE - 1)
    } else {
        row
    }
}

/// Marks the verifications from the memory copy m to the next one, `copy`.
fn mark_verified<const N: usize>(
    b: &Bounds<N>,
    marks: &mut [u8],
    disk: u64,
    m: usize,
    copy: usize,
) {
    let q = b.pairs.verified(m, disk, copy);
    let mut v = copy;
    while v > m {
        marks[v - 1] = 1;
        v = b.pairs.verified_before(m, disk, &q, v);
    }
}

/// Marks from the end down, each position from the one after it.
fn marks<const N: usize>(b: &Bounds<N>, disk: &Row<N>) -> [u8; MAX_TASKS] {
    let mut marks = [0; MAX_TASKS];
    let mut end = b.tasks;
    while end > 0 {
        let d = disk.before[end];
        let left = disk.time[b.tasks] + 1 - disk.time[d];
        let memory = memory_row(b, d, left, end);
        let mut copy = end;
        while copy > d {
            let m = memory.before[copy];
            mark_verified(b, &mut marks, b.recovery(d) + memory.time[m], m, copy);
            marks[copy - 1] = 2;
            copy = m;
        }
        marks[end - 1] = 3;
        end = d;
    }
    marks
}

/// The plan by tables for up to N positions.
fn plan_within<const N: usize>(job: &Job) -> Option<Plan> {
    let mut bounds = Bounds::<N>::empty(job);
    bounds.fill(job);
    let disk = search(&bounds);
    let time = disk.time[job.tasks];
    (time < NONE).then(|| Plan { time, marks: marks(&bounds, &disk) })
}

/// The plan of a sheet that passed 1 to 8, or nothing if it is too slow.
pub fn plan(job: &Job) -> Option<Plan> {
    match job.tasks {
        1..=8 => plan_within::<9>(job),
        9..=16 => plan_within::<17>(job),
        17..=32 => plan_within::<33>(job),
        _ => plan_within::<65>(job),
    }
}
