//! Sheets beside dearer ones, answered by the library: no time and no energy
//! falls, and no 13 goes (request 107).

use crate::harness::changes::{Change, Changes};
use crate::harness::jobs::{self, Case, MANY_TASKS};
use crate::harness::lent::{self, filled, Lent};
use crate::harness::marks;
use crate::harness::powers::{self, BOTH_1};
use crate::harness::sheets;
use crate::harness::tally::{Call, Dearer, Tally};
use crate::library;
use crate::random::Random;
use crate::reference::calls;
use crate::reference::energy;
use crate::reference::setting;
use crate::reference::sheet::{self, MAX_TICKS};
use crate::sheet_writer::HEADER_SIZE;
use crate::types::{Answer, Job, Powers};
use std::fmt::Debug;

/// Two sheets that pass 1 to 8, and 29 under the powers. They differ in costs
/// alone, none of which is less in the second.
pub struct Pair {
    pub cheaper: Vec<u8>,
    pub dearer: Vec<u8>,
    pub tasks: usize,
    pub powers: Powers,
    /// Whether some cost is raised.
    pub raised: bool,
}

/// Counts which costs are raised, and how far.
fn count_costs(edges: &mut Dearer, before: [u32; 5], after: [u32; 5]) {
    let raised: Vec<usize> = (0..5).filter(|&i| before[i] < after[i]).collect();
    match raised[..] {
        [] => edges.none += 1,
        [cost] => edges.alone[cost] += 1,
        _ => edges.several += 1,
    }
    let at_limit = raised.iter().any(|&cost| u128::from(after[cost]) == MAX_TICKS);
    edges.to_limit += u64::from(at_limit);
}

/// The sheet at hand and a dearer one, the sections of which are in either
/// order.
fn pair(r: &mut Random, edges: &mut Dearer, sheet: &[u8], job: &Job, powers: Powers) -> Pair {
    let dearer_job = jobs::dearer(r, job, powers);
    let (cheaper, dearer) = (sheet.to_vec(), sheets::whole(r, &dearer_job));
    count_costs(edges, jobs::costs(job), jobs::costs(&dearer_job));
    edges.other_order += u64::from(cheaper[HEADER_SIZE] != dearer[HEADER_SIZE]);
    Pair { cheaper, dearer, tasks: job.tasks, powers, raised: dearer_job != *job }
}

/// Holds the library's answers for a pair against the law; `asked` is printed
/// if they break it. If no cost is raised, the sheets have the same values and
/// one answer.
pub fn hold(
    tally: &mut Tally,
    pair: &Pair,
    asked: &dyn Debug,
    answers: [Answer; 2],
    changes: fn(&mut Dearer) -> &mut Changes,
) {
    let [cheaper, dearer] = answers;
    let change = Change::of(&cheaper, &dearer);
    if pair.raised {
        changes(&mut tally.dearer).count(change);
    }
    let law = if pair.raised { change != Change::Fell } else { cheaper == dearer };
    tally.holds("a dearer sheet", &pair.cheaper, &(asked, &pair.dearer), &answers, law);
}

/// The library's plans of a pair into buffers of unlike size. The dearer one
/// is compared with the reference's, with the whole memory of its buffer.
fn planned(
    r: &mut Random,
    tally: &mut Tally,
    call: Call,
    pair: &Pair,
    library: impl Fn(&[u8], &mut [u8]) -> Answer,
    reference: impl Fn(&[u8], &mut [u8]) -> Answer,
) -> [Answer; 2] {
    let [room, dearer_room] = lent::two_rooms(r, pair.tasks);
    let cheaper = library(&pair.cheaper, Lent::new(r, room).buffer());
    let lent = Lent::new(r, dearer_room);
    let dearer = filled(&lent, |buffer| library(&pair.dearer, buffer));
    let expected = filled(&lent, |buffer| reference(&pair.dearer, buffer));
    tally.count(call, expected.0.number);
    let input = (pair.powers, dearer_room);
    tally.same("plan of a dearer sheet", &pair.dearer, &input, &dearer, &expected);
    [cheaper, dearer.0]
}

fn plans(r: &mut Random, tally: &mut Tally, pair: &Pair) {
    let answers = planned(r, tally, Call::Plan, pair, library::plan, calls::plan);
    hold(tally, pair, &"plan", answers, |dearer| &mut dearer.plans);
}

fn prices(tally: &mut Tally, pair: &Pair, marks: &[u8]) {
    let answers = [&pair.cheaper, &pair.dearer].map(|sheet| library::price(sheet, marks));
    let reference = calls::price(&pair.dearer, marks);
    tally.count(Call::Price, reference.number);
    tally.same("price of a dearer sheet", &pair.dearer, &marks, &answers[1], &reference);
    hold(tally, pair, &("price", marks), answers, |dearer| &mut dearer.prices);
}

/// Plans by energy with the same powers, unless 29 refuses them.
fn energies(r: &mut Random, tally: &mut Tally, sheet: &[u8], job: &Job, powers: Powers) {
    if energy::check_powers(job, powers).is_err() {
        return;
    }
    let pair = pair(r, &mut tally.dearer, sheet, job, powers);
    let library = |sheet: &[u8], buffer: &mut [u8]| library::energy(sheet, powers, buffer);
    let reference = |sheet: &[u8], buffer: &mut [u8]| calls::energy(sheet, powers, buffer);
    let answers = planned(r, tally, Call::Energy, &pair, library, reference);
    hold(tally, &pair, &("energy", powers), answers, |dearer| &mut dearer.energies);
}

/// The marks that belong to a job if they pass 9 and 10, or others that do.
fn marks_for(r: &mut Random, job: &Job, own: Option<Vec<u8>>) -> Vec<u8> {
    own.filter(|marks| setting::check_marks(job, marks).is_ok())
        .unwrap_or_else(|| marks::allowed(r, job))
}

/// The price of marks and the plan.
fn times(r: &mut Random, tally: &mut Tally, sheet: &[u8], case: Case) {
    let marks = marks_for(r, &case.job, case.marks);
    let pair = pair(r, &mut tally.dearer, sheet, &case.job, BOTH_1);
    prices(tally, &pair, &marks);
    plans(r, tally, &pair);
}

/// A job whose time is at the limit or near it.
fn at_time_limit(r: &mut Random, tally: &mut Tally) {
    let case = jobs::at_time_limit(r);
    if sheet::check_values(&case.job).is_ok() {
        let sheet = sheets::whole(r, &case.job);
        times(r, tally, &sheet, case);
    }
}

/// A job whose least energy is at the limit.
fn at_energy_limit(r: &mut Random, tally: &mut Tally) {
    let (job, powers) = jobs::at_energy_limit(r);
    if sheet::check_values(&job).is_ok() {
        let sheet = sheets::whole(r, &job);
        energies(r, tally, &sheet, &job, powers);
    }
}

/// A sheet that passes 1 to 8 beside dearer ones, and now and then another one
/// at the limit.
pub fn one(r: &mut Random, tally: &mut Tally, sheet: &[u8], case: Case) {
    if case.job.tasks <= MANY_TASKS || r.chance(20) {
        let (job, powers) = (case.job, powers::in_range(r));
        times(r, tally, sheet, case);
        energies(r, tally, sheet, &job, powers);
    }
    match r.below(10) {
        0..=1 => at_time_limit(r, tally),
        2 => at_energy_limit(r, tally),
        _ => {}
    }
}
