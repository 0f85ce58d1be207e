//! A planner in plain Rust that fills every row: rows filled forward at three
//! levels, the growth sums of each pair of ends worked out once, and a walk back
//! that fills again the rows that it needs.
//!
//! A time beyond the limit is kept as NONE = 2^34. A growth is under 2^29.8
//! and a time with a recovery at most 2^34 + 2^31, so products fit 64 bits.

use crate::rows::{self, unless_start, Plan, NONE};
use crate::stretch::{
    up, Factors, EXPONENT_LIMIT, GUARD, LAST_TERM, SETTLED_FROM, TERM_UNIT, UNIT,
};
use compare::types::{Job, Platform, MAX_TASKS};

const POSITIONS: usize = MAX_TASKS + 1;

type Row = rows::Row<POSITIONS>;

/// The growth sums of each pair of ends, by earlier end.
type Table = [[Factors; POSITIONS]; POSITIONS];

/// 33 terms; dividing by 2^24 first and by k + shift next rounds up the same
/// way. From term 4 on, a product of 1 or 0 stands for all later terms.
fn growth(shift: u64, y: u64) -> u64 {
    if y > EXPONENT_LIMIT {
        return 0;
    }
    let (mut term, mut sum) = (TERM_UNIT, TERM_UNIT);
    for k in 0..LAST_TERM {
        let product = up(term * y);
        if k >= SETTLED_FROM && product <= 1 {
            sum += (LAST_TERM - k) * product;
            break;
        }
        term = product.div_ceil(k + 1 + shift);
        sum += term;
    }
    sum.div_ceil(GUARD)
}

fn factors(p: &Platform, weight: u64) -> Factors {
    let silent = up(u64::from(p.silent) * weight);
    let stop = up(u64::from(p.failstop) * weight);
    let growing = growth(0, silent);
    let work = up(growing * (up(weight * growth(1, stop)) + u64::from(p.v)));
    Factors { work, silent: growing, error: growth(0, silent + stop) }
}

fn table(job: &Job) -> Table {
    let mut table = [[Factors::default(); POSITIONS]; POSITIONS];
    for u in 0..job.tasks {
        let mut weight = 0;
        for v in u + 1..=job.tasks {
            weight += u64::from(job.weights[v - 1]);
            table[u][v] = factors(&job.platform, weight);
        }
    }
    table
}

/// The best Q from m; `disk` is R_D' + M' and `memory` is R_M'.
fn verification_row(t: &Table, m: usize, disk: u64, memory: u64, top: usize) -> Row {
    let mut row = Row::from(m);
    for u in m..top {
        let q = row.time[u];
        if q >= NONE {
            continue;
        }
        for v in u + 1..=top {
            let f = &t[u][v];
            if f.error != 0 {
                let stopped = up((f.error - f.silent) * disk);
                let struck = up((f.error - UNIT) * q);
                let failed = up((f.silent - UNIT) * memory);
                row.offer(v, u, q + f.work + stopped + struck + failed);
            }
        }
    }
    row
}

/// The verifications after the memory copy m, whose M is `time`.
fn after_copy(t: &Table, p: &Platform, d: usize, m: usize, time: u64, top: usize) -> Row {
    let (rd, rm) = (u64::from(p.rd), u64::from(p.rm));
    let disk = unless_start(rd + rm, d) + time;
    verification_row(t, m, disk, unless_start(rm, m), top)
}

/// The best M from d.
fn memory_row(t: &Table, p: &Platform, d: usize, top: usize) -> Row {
    let mut row = Row::from(d);
    for m in d..top {
        let time = row.time[m];
        if time >= NONE {
            continue;
        }
        let q = after_copy(t, p, d, m, time, top);
        for v in m + 1..=top {
            row.offer(v, m, time + q.time[v] + u64::from(p.cm));
        }
    }
    row
}

/// The best D.
fn disk_row(t: &Table, p: &Platform, n: usize) -> Row {
    let mut row = Row::from(0);
    for d in 0..n {
        let time = row.time[d];
        if time >= NONE {
            continue;
        }
        let memory = memory_row(t, p, d, n);
        for v in d + 1..=n {
            row.offer(v, d, time + memory.time[v] + u64::from(p.cd));
        }
    }
    row
}

/// Marks from the end down, each position from the one after it.
fn marks(t: &Table, p: &Platform, disk: &Row, n: usize) -> [u8; MAX_TASKS] {
    let mut marks = [0; MAX_TASKS];
    let mut end = n;
    while end > 0 {
        let d = disk.before[end];
        let memory = memory_row(t, p, d, end);
        let mut copy = end;
        while copy > d {
            let m = memory.before[copy];
            let row = after_copy(t, p, d, m, memory.time[m], copy);
            let mut v = copy;
            while v > m {
                marks[v - 1] = 1;
                v = row.before[v];
            }
            marks[copy - 1] = 2;
            copy = m;
        }
        marks[end - 1] = 3;
        end = d;
    }
    marks
}

/// The plan of a sheet that passed 1 to 8.
pub fn plan(job: &Job) -> Option<Plan> {
    let (p, n) = (&job.platform, job.tasks);
    let table = table(job);
    let disk = disk_row(&table, p, n);
    let time = disk.time[n];
    (time < NONE).then(|| Plan { time, marks: marks(&table, p, &disk, n) })
}
