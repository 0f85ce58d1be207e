//! Marks, and the time of a setting by the literal equations.

use crate::reference::sheet;
use crate::reference::stretch::{self, Before, Costs, Growths};
use crate::types::{Job, Refusal};

/// The longest time that is not too slow, and the largest energy.
pub const MAX_TIME: u128 = (1 << 34) - 1;

/// Times are exact below this and cut to it above. No Q, M or D of a setting
/// is larger than its D(n): each joins the next one whole. So one cut value
/// leaves D(n) at this or above, which is beyond MAX_TIME and refused by 13
/// whatever it is, and such a setting never is nor ties with a plan.
pub const CEILING: u128 = 1 << 64;

fn cut(time: u128) -> u128 {
    time.min(CEILING)
}

/// The last position before v with a mark of `least` or more, or 0.
fn last(marks: &[u8], v: usize, least: u8) -> usize {
    (1..v).rev().find(|&p| marks[p - 1] >= least).unwrap_or(0)
}

/// D(n) of an allowed setting, cut at CEILING. `growths(u, v)` gives those of
/// the stretch from u to v.
pub fn time_with(
    costs: &impl Costs,
    marks: &[u8],
    growths: impl Fn(usize, usize) -> Growths,
) -> u128 {
    let n = marks.len();
    let mut q = vec![0; n + 1];
    let mut mem = vec![0; n + 1];
    let mut disk = vec![0; n + 1];
    for v in 1..=n {
        let mark = marks[v - 1];
        if mark == 0 {
            continue;
        }
        let u = last(marks, v, 1);
        let m = last(marks, v, 2);
        let d = last(marks, v, 3);
        let mem_before = if m == d { 0 } else { mem[m] };
        let q_before = if u == m { 0 } else { q[u] };
        let before = Before { d, m, mem: mem_before, q: q_before };
        q[v] = cut(q_before + costs.stretch(&growths(u, v), &before));
        if mark >= 2 {
            mem[v] = cut(mem_before + q[v] + costs.memory_copy());
        }
        if mark == 3 {
            disk[v] = cut(disk[d] + mem[v] + costs.disk_copy());
        }
    }
    disk[n]
}

/// D(n) of an allowed setting under some costs, cut at CEILING.
pub fn time_under(costs: &impl Costs, job: &Job, marks: &[u8]) -> u128 {
    let growths = |u, v| stretch::growths(job, u, v).expect("an allowed setting");
    time_with(costs, marks, growths)
}

/// D(n) of an allowed setting, cut at CEILING.
pub fn time(job: &Job, marks: &[u8]) -> u128 {
    time_under(&job.platform, job, marks)
}

/// Whether every stretch of the marks is allowed.
pub fn allowed(job: &Job, marks: &[u8]) -> bool {
    let mut from = 0;
    for v in 1..=marks.len() {
        if marks[v - 1] != 0 {
            if !stretch::allowed(&job.platform, job.weight(from, v)) {
                return false;
            }
            from = v;
        }
    }
    true
}

/// Refusals 9 and 10.
pub fn check_marks(job: &Job, marks: &[u8]) -> Result<(), Refusal> {
    if marks.len() != job.tasks || marks.iter().any(|&m| m > 3) || marks.last() != Some(&3) {
        return Err(9);
    }
    if !allowed(job, marks) {
        return Err(10);
    }
    Ok(())
}

/// Refusal 13.
pub fn check_time(time: u128) -> Result<u64, Refusal> {
    if time > MAX_TIME {
        return Err(13);
    }
    Ok(time as u64)
}

/// The price of marks: refusals 1 to 10 and 13.
pub fn price(sheet: &[u8], marks: &[u8]) -> Result<u64, Refusal> {
    let job = sheet::read(sheet)?;
    check_marks(&job, marks)?;
    check_time(time(&job, marks))
}
