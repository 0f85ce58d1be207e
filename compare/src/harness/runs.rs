//! Events, states and logs for runs, in turn and out of turn.

use crate::log_writer;
use crate::random::Random;
use crate::reference::run::{self, MAX_TOTAL};
use crate::types::{Event, Job, Platform, Run, Sums, MAX_TASKS, RECORD_SIZE};

const ANY_LOST: [u32; 5] = [0, 1, 1 << 30, (1 << 30) + 1, u32::MAX];

/// The running task's weight, or some weight if none is running.
fn running(run: &Run) -> u32 {
    run.job.weights[run.place.position.min(MAX_TASKS - 1)]
}

/// An event that is in turn.
fn in_turn(r: &mut Random, run: &Run) -> Event {
    let smooth = r.chance(80);
    match (run.place.awaits(), smooth) {
        (true, true) => Event::Passed,
        (true, false) => Event::Failed,
        (false, true) => Event::Done,
        (false, false) => Event::Stopped(r.between(0, u64::from(running(run))) as u32),
    }
}

fn stopped_at_edge(r: &mut Random, run: &Run) -> Event {
    let weight = running(run);
    Event::Stopped(r.pick(&[weight, weight.wrapping_add(1), weight / 2, u32::MAX]))
}

/// Any event, for most of the time in turn.
pub fn event(r: &mut Random, run: &Run) -> Event {
    match r.below(100) {
        0..=87 => in_turn(r, run),
        88..=91 => stopped_at_edge(r, run),
        _ => {
            let lost = r.pick(&ANY_LOST);
            r.pick(&[Event::Done, Event::Passed, Event::Failed, Event::Stopped(lost)])
        }
    }
}

/// A state whose total with the next event meets 2^40, passes it by one, or
/// stays one below.
pub fn near_total(r: &mut Random, run: &Run, event: Event) -> Run {
    let Ok(next) = run::step(run, event) else { return *run };
    let ticks = next.place.sums.total() - run.place.sums.total();
    let target = MAX_TOTAL - 1 + u128::from(r.below(4));
    let mut near = *run;
    let missing = target.saturating_sub(ticks + run.place.sums.total()) as u64;
    *sum_field(r, &mut near.place.sums) += missing;
    near
}

/// One of the four sums that are not tied to the position.
pub fn sum_field<'a>(r: &mut Random, sums: &'a mut Sums) -> &'a mut u64 {
    match r.below(4) {
        0 => &mut sums.redone,
        1 => &mut sums.verify,
        2 => &mut sums.saves,
        _ => &mut sums.recovery,
    }
}

fn change_sheet_value(r: &mut Random, run: &mut Run) {
    let over = r.pick(&[(1 << 30) + 1, u32::MAX, 1 << 30]);
    let rate = r.draw() as u32;
    let at = r.index(MAX_TASKS);
    let tasks = run.job.tasks.clamp(1, MAX_TASKS);
    let Job { platform: p, weights, .. } = &mut run.job;
    match r.below(10) {
        0 => p.cd = over,
        1 => p.cm = over,
        2 => p.v = over,
        3 => p.rd = over,
        4 => p.rm = over,
        5 => p.failstop = rate,
        6 => p.silent = rate,
        7 => weights[at % tasks] = 0,
        8 => weights[at % tasks] = over,
        _ => weights[at] = weights[at].wrapping_add(1),
    }
}

fn change_place(r: &mut Random, run: &mut Run) {
    let (job, place) = (&run.job, &mut run.place);
    match r.below(7) {
        0 => place.position = r.pick(&[64, 65, usize::MAX, job.tasks.wrapping_add(1)]),
        1 => place.position = r.index(MAX_TASKS + 1),
        2 => place.awaiting = u8::from(!place.awaits()),
        // Any byte that is not 0 says the same as 1.
        3 => place.awaiting = r.between(1, 255) as u8,
        4 => place.sums.kept = place.sums.kept.wrapping_add(1),
        5 => place.sums.kept = place.sums.kept.wrapping_sub(1),
        // Another position whose kept fits it.
        _ => {
            place.position = r.index(job.tasks.min(MAX_TASKS) + 1);
            place.sums.kept = job.weight(0, place.position) as u64;
            place.awaiting = r.pick(&[0, 0, 1, 2, 255]);
        }
    }
}

fn change_sums(r: &mut Random, run: &mut Run) {
    let value = match r.below(4) {
        0 => u64::MAX,
        1 => (MAX_TOTAL as u64).saturating_sub(run.place.sums.total() as u64) + r.below(3),
        2 => MAX_TOTAL as u64 + 1,
        _ => r.sized(41),
    };
    *sum_field(r, &mut run.place.sums) = value;
    if r.chance(20) {
        *sum_field(r, &mut run.place.sums) = u64::MAX - r.below(3);
    }
}

fn change_marks(r: &mut Random, run: &mut Run) {
    let n = run.job.tasks.clamp(1, MAX_TASKS);
    match r.below(4) {
        0 => run.marks[r.index(n)] = r.pick(&[4, 255, 128]),
        1 => run.marks[n - 1] = r.between(0, 2) as u8,
        2 => run.marks[r.index(n)] = r.between(0, 3) as u8,
        _ => run.marks[..n - 1].fill(0),
    }
}

/// Entries past task n, which are carried along unread.
pub fn change_unread(r: &mut Random, run: &mut Run) {
    for at in run.job.tasks.min(MAX_TASKS)..MAX_TASKS {
        run.job.weights[at] = r.draw() as u32;
        run.marks[at] = r.byte();
    }
}

/// A state changed in one way or two; it may be broken or not.
pub fn changed(r: &mut Random, run: &Run) -> Run {
    let mut run = *run;
    for _ in 0..r.between(1, 2) {
        match r.below(6) {
            0 => run.job.tasks = r.pick(&[0, 1, 63, 64, 65, usize::MAX, run.job.tasks + 1]),
            1 => change_sheet_value(r, &mut run),
            2 => change_place(r, &mut run),
            3 => change_sums(r, &mut run),
            4 => change_marks(r, &mut run),
            _ => change_unread(r, &mut run),
        }
        run.job.tasks = run.job.tasks.min(usize::MAX - 1);
    }
    run
}

/// A log of events from a run, mostly in turn.
pub fn log(r: &mut Random, run: &Run) -> Vec<u8> {
    let mut bytes = Vec::new();
    let mut now = *run;
    for _ in 0..r.below(12) {
        if now.place.position >= MAX_TASKS {
            break;
        }
        let event = if r.chance(97) { in_turn(r, &now) } else { event(r, &now) };
        bytes.extend(log_writer::record(event));
        now = run::step(&now, event).unwrap_or(now);
        if run::is_finished(&now) && r.chance(90) {
            break;
        }
    }
    bytes
}

/// Records of a long log.
pub const LONG: usize = 10_000;

/// Whether a long log cannot pass 2^40: an event takes three of these values at
/// most, so that 10,000 of them stay below 2^39.
pub fn may_be_long(job: &Job) -> bool {
    let Platform { cd, cm, v, rd, rm, .. } = job.platform;
    let costs = [cd, cm, v, rd, rm];
    costs.iter().chain(job.task_weights()).all(|&ticks| ticks <= 1 << 24)
}

/// An event in turn after which the run goes on: the last verification fails.
fn goes_on(r: &mut Random, run: &Run) -> Event {
    if run.place.awaits() && run.place.position == run.job.tasks {
        return Event::Failed;
    }
    in_turn(r, run)
}

/// A log of 10,000 records in turn. The last may be one that is refused: its
/// code is that of an event out of turn, or none.
pub fn long_log(r: &mut Random, run: &Run, refused: bool) -> Vec<u8> {
    let mut bytes = Vec::new();
    let mut now = *run;
    for _ in 1..LONG {
        let event = goes_on(r, &now);
        bytes.extend(log_writer::record(event));
        now = run::step(&now, event).expect("an event in turn");
    }
    let last = goes_on(r, &now);
    bytes.extend(log_writer::record(last));
    if refused {
        bytes[RECORD_SIZE * (LONG - 1)] = match (r.below(2), now.place.awaits()) {
            (0, true) => 1,
            (0, false) => 2,
            _ => 5,
        };
    }
    bytes
}

/// A log with a cut, unknown or wrongly filled record.
pub fn damaged_log(r: &mut Random, run: &Run) -> Vec<u8> {
    let mut bytes = log(r, run);
    let records = bytes.len() / RECORD_SIZE;
    if records == 0 {
        let size = r.between(1, 12) as usize;
        return r.bytes(size);
    }
    let at = RECORD_SIZE * r.index(records);
    match r.below(4) {
        0 => bytes.truncate(at + r.between(1, 4) as usize),
        1 => bytes[at] = r.pick(&[0, 5, 6, 255, b'1']),
        2 => {
            bytes[at] = r.between(1, 3) as u8;
            bytes[at + r.between(1, 4) as usize] = r.between(1, 255) as u8;
        }
        _ => {
            let size = r.between(1, 4) as usize;
            bytes.extend(r.bytes(size));
        }
    }
    bytes
}
