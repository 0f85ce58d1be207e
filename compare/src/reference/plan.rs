//! The plan: every setting is tried for up to 6 tasks, and rows of least
//! times are filled from the equations above that.

use crate::reference::setting::{self, CEILING};
use crate::reference::sheet;
use crate::reference::stretch::{Before, Costs, Table};
use crate::types::{Job, Refusal};

/// Up to this many tasks every setting is tried.
pub const MAX_TRIED_TASKS: usize = 6;

/// A setting and its time under some costs, which may be beyond what an answer
/// holds.
#[derive(Clone, Debug, PartialEq, Eq)]
pub struct Plan {
    pub time: u128,
    pub marks: Vec<u8>,
}

/// Positions with a mark of `least` or more, from the end down, then 0.
fn positions(marks: &[u8], least: u8) -> Vec<usize> {
    let mut list: Vec<usize> = (1..=marks.len()).filter(|&p| marks[p - 1] >= least).collect();
    list.reverse();
    list.push(0);
    list
}

/// Whether a goes before b among settings of equal time.
pub fn wins_tie(a: &[u8], b: &[u8]) -> bool {
    for least in [3, 2, 1] {
        let (a, b) = (positions(a, least), positions(b, least));
        for (x, y) in a.iter().zip(&b) {
            if x != y {
                return x < y;
            }
        }
    }
    false
}

/// Setting number `code` of n tasks, in base 4, the last mark being 3.
fn setting_of(code: usize, n: usize) -> Vec<u8> {
    let mark = |i: usize| ((code >> (2 * i)) & 3) as u8;
    (0..n - 1).map(mark).chain([3]).collect()
}

/// Every allowed setting of a sheet that passed 1 to 8, with its time under
/// some costs.
fn allowed_settings<'a>(costs: &'a impl Costs, job: &'a Job) -> impl Iterator<Item = Plan> + 'a {
    let table = Table::new(job);
    let all = (0..1usize << (2 * (job.tasks - 1))).map(|code| setting_of(code, job.tasks));
    all.filter(|marks| setting::allowed(job, marks)).map(move |marks| {
        let growths = |u, v| table.get(u, v).expect("an allowed setting");
        Plan { time: setting::time_with(costs, &marks, growths), marks }
    })
}

/// The plan under some costs by trying every setting of a sheet that passed 1
/// to 8.
pub fn by_trying_under(costs: &impl Costs, job: &Job) -> Plan {
    let better =
        |a: &Plan, b: &Plan| a.time < b.time || (a.time == b.time && wins_tie(&a.marks, &b.marks));
    let best = allowed_settings(costs, job).reduce(|a, b| if better(&b, &a) { b } else { a });
    best.expect("all marks 3 is allowed")
}

/// How many allowed settings of a sheet that passed 1 to 8 have a time.
pub fn settings_of_time(job: &Job, time: u128) -> usize {
    allowed_settings(&job.platform, job).filter(|setting| setting.time == time).count()
}

/// The plan by trying every setting of a sheet that passed 1 to 8.
pub fn by_trying(job: &Job) -> Plan {
    by_trying_under(&job.platform, job)
}

/// A part of a setting: its time, then its marked positions as bits (3; 2 or
/// 3; any mark), position p at bit p - 1. Of two lists from the end down the
/// one with the earlier position at the first difference is the smaller
/// number, so the derived order is least time first, then the rule for ties.
#[derive(Clone, Copy, Debug, PartialEq, Eq, PartialOrd, Ord)]
pub struct Part {
    pub time: u128,
    pub disk: u64,
    pub mem: u64,
    pub any: u64,
}

/// The least part to each position, or none yet.
type Row = Vec<Option<Part>>;

impl Part {
    pub const EMPTY: Part = Part { time: 0, disk: 0, mem: 0, any: 0 };

    /// This part, then the next one.
    pub fn then(self, next: Part) -> Part {
        Part {
            time: (self.time + next.time).min(CEILING),
            disk: self.disk | next.disk,
            mem: self.mem | next.mem,
            any: self.any | next.any,
        }
    }

    pub fn marks(&self, n: usize) -> Vec<u8> {
        let has = |set: u64, p: usize| u8::from(set & bit(p) != 0);
        (1..=n).map(|p| has(self.any, p) + has(self.mem, p) + has(self.disk, p)).collect()
    }
}

pub fn bit(position: usize) -> u64 {
    1 << (position - 1)
}

/// A row with the empty part at its start.
fn row_from(start: usize, n: usize) -> Row {
    let mut row = vec![None; n + 1];
    row[start] = Some(Part::EMPTY);
    row
}

fn keep_least(best: &mut Option<Part>, part: Part) {
    if best.is_none_or(|b| part < b) {
        *best = Some(part);
    }
}

/// Q: the least parts from memory copy m by verifications alone, `mem` being
/// M'. Q grows strictly with Q', M with M' and D with D(d), so a least setting
/// is made of least parts, ties included.
fn verification_row(costs: &impl Costs, table: &Table, d: usize, m: usize, mem: u128) -> Row {
    let mut row = row_from(m, table.tasks());
    for v in m + 1..=table.tasks() {
        let through = |u: usize| {
            let (growths, so_far): (_, Part) = (table.get(u, v)?, row[u]?);
            let before = Before { d, m, mem, q: so_far.time };
            let time = costs.stretch(&growths, &before);
            Some(so_far.then(Part { time, any: bit(v), ..Part::EMPTY }))
        };
        row[v] = (m..v).filter_map(through).min();
    }
    row
}

/// M: the least parts from disk copy d to a memory copy.
fn memory_row(costs: &impl Costs, table: &Table, d: usize) -> Row {
    let mut row = row_from(d, table.tasks());
    for m in d..table.tasks() {
        let Some(so_far) = row[m] else { continue };
        let verified = verification_row(costs, table, d, m, so_far.time);
        for v in m + 1..=table.tasks() {
            let Some(part) = verified[v] else { continue };
            let copy = Part { time: costs.memory_copy(), mem: bit(v), ..Part::EMPTY };
            keep_least(&mut row[v], so_far.then(part).then(copy));
        }
    }
    row
}

/// D: the least parts from the start to a disk copy.
fn disk_row(costs: &impl Costs, table: &Table) -> Row {
    let mut row = row_from(0, table.tasks());
    for d in 0..table.tasks() {
        let Some(so_far) = row[d] else { continue };
        let saved = memory_row(costs, table, d);
        for v in d + 1..=table.tasks() {
            let Some(part) = saved[v] else { continue };
            let copy = Part { time: costs.disk_copy(), disk: bit(v), ..Part::EMPTY };
            keep_least(&mut row[v], so_far.then(part).then(copy));
        }
    }
    row
}

/// The plan under some costs by rows, `table` having the growths of the job's
/// stretches.
pub fn by_rows_under(costs: &impl Costs, table: &Table) -> Plan {
    let n = table.tasks();
    let best = disk_row(costs, table)[n].expect("all marks 3 is allowed");
    Plan { time: best.time, marks: best.marks(n) }
}

/// The plan by rows, `table` having the growths of the job's stretches.
pub fn by_rows_with(job: &Job, table: &Table) -> Plan {
    by_rows_under(&job.platform, table)
}

/// The plan by rows of a sheet that passed 1 to 8.
pub fn by_rows(job: &Job) -> Plan {
    by_rows_with(job, &Table::new(job))
}

/// The plan under some costs for a buffer of a size: refusals 11 and 13.
pub fn plan_under(
    costs: &impl Costs,
    job: &Job,
    buffer_size: usize,
) -> Result<(u64, Vec<u8>), Refusal> {
    if buffer_size < job.tasks {
        return Err(11);
    }
    let best = if job.tasks <= MAX_TRIED_TASKS {
        by_trying_under(costs, job)
    } else {
        by_rows_under(costs, &Table::new(job))
    };
    let time = setting::check_time(best.time)?;
    Ok((time, best.marks))
}

/// The plan for a buffer of a size: refusals 1 to 8, 11 and 13.
pub fn plan(sheet: &[u8], buffer_size: usize) -> Result<(u64, Vec<u8>), Refusal> {
    let job = sheet::read(sheet)?;
    plan_under(&job.platform, &job, buffer_size)
}
