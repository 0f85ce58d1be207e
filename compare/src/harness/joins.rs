//! Joins a sheet with another, by library and reference.

use crate::harness::jobs;
use crate::harness::lent::Lent;
use crate::harness::marks;
use crate::harness::sheets;
use crate::harness::tally::{Call, Tally};
use crate::library;
use crate::random::Random;
use crate::reference::calls;
use crate::reference::sheet::{self, MAX_TICKS};
use crate::types::{Job, Joined, MAX_TASKS};

/// The bytes of a sheet of n tasks without gaps.
fn size_of(n: usize) -> usize {
    50 + 4 * n
}

/// Room for the joined sheet, often just enough or one byte less.
fn room(r: &mut Random, n: usize) -> usize {
    match r.below(10) {
        0..=1 => size_of(n) - 1,
        2..=4 => size_of(n),
        5 => r.index(size_of(n)),
        6..=7 => size_of(n) + r.index(9),
        8 => 0,
        _ => 4096,
    }
}

fn any_sheet(r: &mut Random, job: &Job) -> Vec<u8> {
    if r.chance(5) {
        sheets::damaged(r, job)
    } else {
        sheets::whole(r, job)
    }
}

/// The sheet at hand and a partner, in either order, or two made for a join.
fn pair(r: &mut Random, sheet: &[u8], job: &Job) -> (Vec<u8>, Vec<u8>, usize) {
    let made = r.chance(50);
    let job = if made { jobs::light(r, &job.platform) } else { *job };
    let partner = jobs::partner(r, &job);
    let tasks = job.tasks + partner.tasks;
    let one = if made { any_sheet(r, &job) } else { sheet.to_vec() };
    let other = any_sheet(r, &partner);
    if r.chance(50) {
        (one, other, tasks)
    } else {
        (other, one, tasks)
    }
}

/// Counts the edges: 64 and 65 tasks, totals of 2^30 and one more, a buffer
/// that is one byte short.
fn count_edges(tally: &mut Tally, first: &[u8], second: &[u8], room: usize, number: u64) {
    let (Ok(a), Ok(b)) = (sheet::read(first), sheet::read(second)) else {
        return;
    };
    let tasks = a.tasks + b.tasks;
    let total = a.weight(0, a.tasks) + b.weight(0, b.tasks);
    let edges = &mut tally.joins;
    edges.of_64 += u64::from(number == 0 && tasks == MAX_TASKS);
    edges.of_65 += u64::from(number == 3 && tasks == MAX_TASKS + 1);
    edges.at_total += u64::from(number == 0 && total == MAX_TICKS);
    edges.over_total += u64::from(number == 7 && total == MAX_TICKS + 1);
    edges.one_short += u64::from(number == 11 && room + 1 == size_of(tasks));
}

/// The joined sheet is read as the values of both, and priced as such.
fn reread(r: &mut Random, tally: &mut Tally, first: &[u8], second: &[u8], joined: &[u8]) {
    let values = |bytes: &[u8]| sheet::read(bytes).expect("a sheet that was joined");
    let (a, b, whole) = (values(first), values(second), values(joined));
    let expected = Job::new(a.platform, &[a.task_weights(), b.task_weights()].concat());
    tally.same("reading the joined sheet", joined, &(a, b), &whole, &expected);
    let marks = marks::allowed(r, &whole);
    let library = library::price(joined, &marks);
    let reference = calls::price(joined, &marks);
    tally.count(Call::Price, reference.number);
    tally.same("price of the joined sheet", joined, &marks, &library, &reference);
}

/// Compares one join; the whole memory of the lent buffers is compared.
pub fn one(r: &mut Random, tally: &mut Tally, sheet: &[u8], job: &Job) {
    let (first, second, tasks) = pair(r, sheet, job);
    let room = room(r, tasks);
    let mut lent = Lent::new(r, room);
    let mut library_lent = lent.clone();
    let library = library::join(&first, &second, library_lent.buffer());
    let reference: Joined = calls::join(&first, &second, lent.buffer());
    tally.count(Call::Join, reference.number);
    count_edges(tally, &first, &second, room, reference.number);
    let input = (&second, room);
    tally.same("join", &first, &input, &(library, &library_lent), &(reference, &lent));
    if reference.number == 0 {
        reread(r, tally, &first, &second, &lent.buffer()[..reference.length]);
    }
}
