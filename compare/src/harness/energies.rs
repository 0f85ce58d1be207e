//! Plans by energy, by library and reference, and plans by time beside them.

use crate::harness::jobs::{self, MANY_TASKS};
use crate::harness::lent::{self, filled, Filled, Lent};
use crate::harness::powers::{self, BOTH_1};
use crate::harness::sheets;
use crate::harness::tally::{Call, Energies, Tally};
use crate::library;
use crate::random::Random;
use crate::reference::calls;
use crate::reference::energy::{self, EnergyCosts};
use crate::reference::plan::{self, MAX_TRIED_TASKS};
use crate::reference::setting::MAX_TIME;
use crate::reference::sheet::{self, MAX_TICKS};
use crate::reference::stretch::Table;
use crate::types::{Answer, Job, Powers};

/// Whether the least energy is 2^34, just past the limit.
fn just_past(job: &Job, powers: Powers) -> bool {
    let least = || plan::by_rows_under(&EnergyCosts::new(job, powers), &Table::new(job)).time;
    job.tasks <= MAX_TRIED_TASKS && least() == MAX_TIME + 1
}

/// Counts edges of an answer on a sheet that passed 1 to 8.
fn count(edges: &mut Energies, job: &Job, powers: Powers, room: usize, answer: &Answer) {
    match answer.number {
        0 if powers != BOTH_1 => {
            let at_product = energy::products(job, powers).contains(&MAX_TICKS);
            edges.at_product += u64::from(at_product);
            edges.at_limit += u64::from(u128::from(answer.time) == MAX_TIME);
        }
        13 if powers != BOTH_1 => edges.over_limit += u64::from(just_past(job, powers)),
        29 => {
            let inside = energy::in_range(powers.computing) && energy::in_range(powers.saving);
            edges.outside += u64::from(!inside);
            edges.over_product += u64::from(inside);
            edges.short += u64::from(room < job.tasks);
        }
        _ => {}
    }
}

/// Counts a plan, or a refusal by 13, beside the answer by time.
fn count_beside(edges: &mut Energies, powers: Powers, energy: &Filled, time: &Filled) {
    match (energy.0.number, time.0.number) {
        (0, 0) if powers == BOTH_1 => edges.as_time += 1,
        (0, 0) => edges.other_marks += u64::from(energy.1 != time.1),
        (13, 0) => edges.too_dear += 1,
        _ => {}
    }
}

/// Compares one plan by energy; the whole memory of the lent buffers is
/// compared. Powers 1 and 1 give the time plan.
fn compare(r: &mut Random, tally: &mut Tally, sheet: &[u8], tasks: usize, powers: Powers) {
    let room = lent::room(r, tasks);
    let lent = Lent::new(r, room);
    let energy = filled(&lent, |buffer| library::energy(sheet, powers, buffer));
    let reference = filled(&lent, |buffer| calls::energy(sheet, powers, buffer));
    let number = reference.0.number;
    tally.count(Call::Energy, number);
    tally.same("plan by energy", sheet, &(powers, room), &energy, &reference);
    if let Ok(job) = sheet::read(sheet) {
        count(&mut tally.energies, &job, powers, room, &reference.0);
    }
    if powers == BOTH_1 || matches!(number, 0 | 13) {
        let time = filled(&lent, |buffer| library::plan(sheet, buffer));
        count_beside(&mut tally.energies, powers, &reference, &time);
        if powers == BOTH_1 {
            tally.same("energy and time", sheet, &room, &energy, &time);
        }
    }
}

/// A plan by energy of the sheet, and now and then one of a job at an edge.
pub fn one(r: &mut Random, tally: &mut Tally, sheet: &[u8], job: &Job) {
    let planned = job.tasks <= MANY_TASKS || r.chance(20);
    let powers = if planned { powers::any(r) } else { powers::out_of_range(r) };
    compare(r, tally, sheet, job.tasks, powers);
    if r.chance(22) {
        let (job, powers) = jobs::billed(r, job);
        let sheet = sheets::whole(r, &job);
        compare(r, tally, &sheet, job.tasks, powers);
    }
}
