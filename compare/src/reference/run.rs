//! Following a run by its history: each attempt at a task and each copy is kept,
//! and position, kept and redone are worked out anew from all of them after each
//! step; what was paid is added up.

use crate::reference::setting;
use crate::reference::sheet;
use crate::types::{Event, Job, Place, Refusal, Run, Sums, MAX_TASKS};

/// The largest total of the five sums.
pub const MAX_TOTAL: u128 = 1 << 40;

fn fresh(job: Job, marks: &[u8]) -> Run {
    let mut run = Run { job, marks: [0; MAX_TASKS], place: Place::ZERO };
    run.marks[..marks.len()].copy_from_slice(marks);
    run
}

/// Starting a run: refusals 1 to 10.
pub fn start(sheet: &[u8], marks: &[u8]) -> Result<Run, Refusal> {
    let job = sheet::read(sheet)?;
    setting::check_marks(&job, marks)?;
    Ok(fresh(job, marks))
}

/// The condition of refusal 22.
pub fn is_finished(run: &Run) -> bool {
    run.place.position == run.job.tasks && !run.place.awaits()
}

/// The rules of refusal 21 for task count, sheet values and marks.
fn breaks_values(run: &Run) -> bool {
    let job = &run.job;
    if job.tasks == 0 || job.tasks > MAX_TASKS {
        return true;
    }
    let marks = &run.marks[..job.tasks];
    sheet::check_values(job).is_err() || setting::check_marks(job, marks).is_err()
}

/// Those for position, awaited verification and sums, for a place in a run that
/// keeps the others.
pub fn breaks_place(run: &Run, place: &Place) -> bool {
    let job = &run.job;
    if place.position > job.tasks {
        return true;
    }
    if place.awaits() && (place.position == 0 || run.marks[place.position - 1] == 0) {
        return true;
    }
    u128::from(place.sums.kept) != job.weight(0, place.position) || place.sums.total() > MAX_TOTAL
}

/// The condition of refusal 21.
pub fn is_broken(run: &Run) -> bool {
    breaks_values(run) || breaks_place(run, &run.place)
}

/// Refusals 21 to 24 for an event.
fn check_turn(run: &Run, event: Event) -> Result<(), Refusal> {
    if is_broken(run) {
        return Err(21);
    }
    if is_finished(run) {
        return Err(22);
    }
    let of_a_task = matches!(event, Event::Done | Event::Stopped(_));
    if of_a_task == run.place.awaits() {
        return Err(23);
    }
    match event {
        Event::Stopped(lost) if lost > run.job.weights[run.place.position] => Err(24),
        _ => Ok(()),
    }
}

/// A saved copy. Each disk copy has its memory copy.
#[derive(Clone, Copy)]
struct Saved {
    at: usize,
    on_disk: bool,
}

/// One time a task was done, and whether that work was lost later.
#[derive(Clone)]
struct Attempt {
    task: usize,
    lost: bool,
}

/// The events of a history, applied one after the other.
#[derive(Clone)]
struct Replay {
    base: Run,
    attempts: Vec<Attempt>,
    saved: Vec<Saved>,
    awaiting: u8,
    lost_ticks: u64,
    verify: u64,
    saves: u64,
    recovery: u64,
    /// Ticks of all events, for the law that they equal the five sums.
    ticks: u128,
}

impl Replay {
    /// Before the first event: the tasks up to the position were done, and
    /// their marks passed, save one that is awaited.
    fn new(base: &Run) -> Replay {
        let place = &base.place;
        let mut replay = Replay {
            base: *base,
            attempts: (1..=place.position).map(|task| Attempt { task, lost: false }).collect(),
            saved: vec![Saved { at: 0, on_disk: true }],
            awaiting: place.awaiting,
            lost_ticks: 0,
            verify: 0,
            saves: 0,
            recovery: 0,
            ticks: 0,
        };
        for position in 1..=place.position - usize::from(place.awaits()) {
            replay.save(position);
        }
        replay
    }

    /// The mark at a position from 1 to n.
    fn mark(&self, position: usize) -> u8 {
        self.base.marks[position - 1]
    }

    fn weight(&self, task: usize) -> u64 {
        u64::from(self.base.job.weights[task - 1])
    }

    /// The tasks whose work stands, in order, are 1 to this.
    fn position(&self) -> usize {
        self.attempts.iter().filter(|a| !a.lost).map(|a| a.task).max().unwrap_or(0)
    }

    fn save(&mut self, position: usize) {
        let mark = self.mark(position);
        if mark >= 2 {
            self.saved.push(Saved { at: position, on_disk: mark == 3 });
        }
    }

    fn last_saved(&self) -> usize {
        self.saved.last().map_or(0, |s| s.at)
    }

    fn go_back(&mut self, position: usize) {
        for attempt in self.attempts.iter_mut().filter(|a| a.task > position) {
            attempt.lost = true;
        }
        self.awaiting = 0;
    }

    fn done(&mut self) {
        let task = self.position() + 1;
        self.attempts.push(Attempt { task, lost: false });
        self.awaiting = u8::from(self.mark(task) != 0);
        self.ticks += u128::from(self.weight(task));
    }

    fn passed(&mut self) {
        let position = self.position();
        let platform = self.base.job.platform;
        let mark = self.mark(position);
        let mut saves = 0;
        if mark >= 2 {
            saves += u64::from(platform.cm);
        }
        if mark == 3 {
            saves += u64::from(platform.cd);
        }
        self.verify += u64::from(platform.v);
        self.saves += saves;
        self.save(position);
        self.awaiting = 0;
        self.ticks += u128::from(platform.v) + u128::from(saves);
    }

    fn failed(&mut self) {
        let platform = self.base.job.platform;
        let back = self.last_saved();
        let cost = if back == 0 { 0 } else { u64::from(platform.rm) };
        self.verify += u64::from(platform.v);
        self.recovery += cost;
        self.go_back(back);
        self.ticks += u128::from(platform.v) + u128::from(cost);
    }

    fn stopped(&mut self, lost: u32) {
        while self.saved.last().is_some_and(|s| !s.on_disk) {
            self.saved.pop();
        }
        let platform = self.base.job.platform;
        let back = self.last_saved();
        // Request 102: the disk image is read, and memory is filled again.
        let refilled = u64::from(platform.rd) + u64::from(platform.rm);
        let cost = if back == 0 { 0 } else { refilled };
        self.lost_ticks += u64::from(lost);
        self.recovery += cost;
        self.go_back(back);
        self.ticks += u128::from(lost) + u128::from(cost);
    }

    fn apply(&mut self, event: Event) {
        match event {
            Event::Done => self.done(),
            Event::Passed => self.passed(),
            Event::Failed => self.failed(),
            Event::Stopped(lost) => self.stopped(lost),
        }
    }

    /// Weights of the attempts that are lost, or of those that stand.
    fn worked(&self, lost: bool) -> u64 {
        self.attempts.iter().filter(|a| a.lost == lost).map(|a| self.weight(a.task)).sum()
    }

    fn run(&self) -> Run {
        let before = self.base.place.sums;
        let sums = Sums {
            kept: self.worked(false),
            redone: before.redone + self.worked(true) + self.lost_ticks,
            verify: before.verify + self.verify,
            saves: before.saves + self.saves,
            recovery: before.recovery + self.recovery,
        };
        assert_eq!(before.total() + self.ticks, sums.total(), "ticks of the history");
        let place = Place { position: self.position(), awaiting: self.awaiting, sums };
        Run { place, ..self.base }
    }
}

/// A run: where it stands, and its history since it was taken up.
pub struct History {
    run: Run,
    replay: Option<Replay>,
}

impl History {
    /// A run taken up in a state, fresh or not. A broken one cannot be
    /// replayed, and no event asks for that.
    pub fn new(base: &Run) -> History {
        History { run: *base, replay: None }
    }

    /// The state after all events.
    pub fn run(&self) -> Run {
        self.run
    }

    /// One event: refusals 21 to 25, or the event joins the history.
    pub fn step(&mut self, event: Event) -> Result<Run, Refusal> {
        check_turn(&self.run, event)?;
        let mut replay = self.replay.clone().unwrap_or_else(|| Replay::new(&self.run));
        replay.apply(event);
        let run = replay.run();
        if run.place.sums.total() > MAX_TOTAL {
            return Err(25);
        }
        *self = History { run, replay: Some(replay) };
        Ok(run)
    }
}

/// The state after events that were accepted one after the other.
pub fn replayed(base: &Run, events: &[Event]) -> Run {
    let mut replay = Replay::new(base);
    events.iter().for_each(|&event| replay.apply(event));
    replay.run()
}

/// One event from a state.
pub fn step(run: &Run, event: Event) -> Result<Run, Refusal> {
    History::new(run).step(event)
}
