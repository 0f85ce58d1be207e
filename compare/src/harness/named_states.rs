//! States of runs with names that no history gives: spoiled ones, which 21
//! refuses, and others that nearly are (request 109).

use crate::harness::commands::Pool;
use crate::harness::runs;
use crate::random::Random;
use crate::reference::run::{self, MAX_TOTAL};
use crate::types::{Held, NamedRun, Place, Run, Sums, MAX_NAMES, MAX_TASKS};

/// How a state is altered.
#[derive(Clone, Copy, PartialEq, Eq)]
pub enum Alteration {
    /// More than 16 names.
    Count,
    /// A name held twice.
    Twice,
    /// A held place with a position past n.
    Position,
    /// A held place that awaits a verification where none is.
    Awaiting,
    /// A held place whose kept does not fit its position.
    Kept,
    /// A held place with a total above 2^40.
    Total,
    /// The run itself.
    Run,
    /// The run itself, and a name held twice.
    Both,
    /// A held place with a total of 2^40.
    AtTotal,
    /// A held place that awaits a verification, by the byte 255.
    By255,
    /// 16 names.
    Sixteen,
    /// Any bytes in free entries.
    Unread,
}

pub const ALTERATIONS: [Alteration; 12] = [
    Alteration::Count,
    Alteration::Twice,
    Alteration::Position,
    Alteration::Awaiting,
    Alteration::Kept,
    Alteration::Total,
    Alteration::Run,
    Alteration::Both,
    Alteration::AtTotal,
    Alteration::By255,
    Alteration::Sixteen,
    Alteration::Unread,
];

impl Alteration {
    /// Whether 21 is due.
    pub fn spoils(self) -> bool {
        let near =
            [Alteration::AtTotal, Alteration::By255, Alteration::Sixteen, Alteration::Unread];
        !near.contains(&self)
    }
}

/// Names the present place, under names not held, until so many are.
fn fill(state: &mut NamedRun, count: usize) {
    let NamedRun { run, names } = state;
    for name in 0..=u8::MAX {
        if names.count < count && !names.holds(name) {
            names.entries[names.count] = Held { name, place: run.place };
            names.count += 1;
        }
    }
}

/// A place at a position, with the kept that fits it and no other sum.
fn place_at(run: &Run, position: usize) -> Place {
    let kept = run.job.weight(0, position) as u64;
    Place { position, awaiting: 0, sums: Sums { kept, ..Sums::ZERO } }
}

/// Some position from 1 to n with a mark, or with none.
fn find_mark(r: &mut Random, run: &Run, marked: bool) -> Option<usize> {
    let n = run.job.tasks;
    let from = r.index(n);
    let mut positions = (0..n).map(|at| (from + at) % n);
    positions.find(|&at| (run.marks[at] != 0) == marked).map(|at| at + 1)
}

/// Past n: by one, with a kept that would fit, by more, or far enough that a
/// wrap gives the former position.
fn spoil_position(r: &mut Random, run: &Run, place: &mut Place) {
    let after = run.job.tasks + 1;
    let wrapped = place.position + (1 << r.pick(&[8, 16, 32, 63]));
    match r.below(4) {
        0 if after <= MAX_TASKS => *place = place_at(run, after),
        1 => place.position = wrapped,
        _ => place.position = r.pick(&[after, MAX_TASKS + 1, usize::MAX]),
    }
}

/// A verification awaited at position 0, or at one without a mark.
fn spoil_awaiting(r: &mut Random, run: &Run, place: &mut Place) {
    let unmarked = if r.chance(70) { find_mark(r, run, false) } else { None };
    *place = place_at(run, unmarked.unwrap_or(0));
    place.awaiting = r.pick(&[1, 2, 128, 255]);
}

fn spoil_kept(r: &mut Random, sums: &mut Sums) {
    let off = r.pick(&[1, u64::MAX, 1 << 32]);
    sums.kept = sums.kept.wrapping_add(off);
}

/// Above 2^40 by little, or by 2^64.
fn spoil_total(r: &mut Random, sums: &mut Sums) {
    if r.chance(30) {
        sums.redone += 1 << 63;
        sums.recovery += 1 << 63;
    } else {
        raise_total(r, sums);
        *runs::sum_field(r, sums) += r.between(1, 3);
    }
}

/// To 2^40.
fn raise_total(r: &mut Random, sums: &mut Sums) {
    let missing = (MAX_TOTAL - sums.total()) as u64;
    *runs::sum_field(r, sums) += missing;
}

fn spoil_run(r: &mut Random, run: &mut Run) {
    let fine = *run;
    while !run::is_broken(run) {
        *run = runs::changed(r, &fine);
    }
}

fn spoil_count(r: &mut Random, count: &mut usize) {
    let over = r.pick(&[1 << 8, 1 << 16, 1 << 32, 1 << 63]);
    *count = r.pick(&[MAX_NAMES + 1, MAX_NAMES + 2, usize::MAX, *count + over]);
}

fn repeat_name(r: &mut Random, held: &mut [Held]) {
    let at = r.index(held.len());
    let other = (at + r.between(1, held.len() as u64 - 1) as usize) % held.len();
    held[at].name = held[other].name;
}

/// Any bytes past the names held and, in the run, past task n.
pub fn fill_unread(r: &mut Random, pool: &Pool, state: &mut NamedRun) {
    runs::change_unread(r, &mut state.run);
    for entry in state.names.entries.iter_mut().skip(state.names.count) {
        let mut sum = || r.sized(41);
        let (kept, redone, verify) = (sum(), sum(), sum());
        let sums = Sums { kept, redone, verify, saves: sum(), recovery: sum() };
        let place = Place { position: r.index(MAX_TASKS + 2), awaiting: r.byte(), sums };
        *entry = Held { name: pool.any(r), place };
    }
}

/// The state altered in that way, with two names at least. One that is not
/// spoiled may be as after a return to the altered place.
pub fn altered(r: &mut Random, pool: &Pool, state: &NamedRun, way: Alteration) -> NamedRun {
    let mut state = *state;
    fill(&mut state, r.pick(&[2, 2, MAX_NAMES]));
    let at = r.index(state.names.count);
    let NamedRun { run, names } = &mut state;
    let place = &mut names.entries[at].place;
    match way {
        Alteration::Count => spoil_count(r, &mut names.count),
        Alteration::Twice => repeat_name(r, &mut names.entries[..names.count]),
        Alteration::Position => spoil_position(r, run, place),
        Alteration::Awaiting => spoil_awaiting(r, run, place),
        Alteration::Kept => spoil_kept(r, &mut place.sums),
        Alteration::Total => spoil_total(r, &mut place.sums),
        Alteration::Run => spoil_run(r, run),
        Alteration::Both => {
            spoil_run(r, run);
            repeat_name(r, &mut names.entries[..names.count]);
        }
        Alteration::AtTotal => raise_total(r, &mut place.sums),
        Alteration::By255 => {
            *place = place_at(run, find_mark(r, run, true).expect("the last mark is 3"));
            place.awaiting = 255;
        }
        Alteration::Sixteen => fill(&mut state, MAX_NAMES),
        Alteration::Unread => fill_unread(r, pool, &mut state),
    }
    if !way.spoils() && r.chance(50) {
        state.run.place = state.names.entries[at].place;
    }
    state
}
