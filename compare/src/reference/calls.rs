//! The library's calls as document 01 and the requests have them: the same types, and what a
//! refusal hands back.

use crate::reference::energy as by_energy;
use crate::reference::growth::{g, h};
use crate::reference::join as joiner;
use crate::reference::log;
use crate::reference::names::{self, Followed};
use crate::reference::plan as planner;
use crate::reference::printed as equations;
use crate::reference::run::{self, History};
use crate::reference::setting;
use crate::reference::sheet;
use crate::types::{
    Answer, Command, Event, Found, Job, Joined, NamedRun, NamedStepped, Outcome, Place, Platform,
    Powers, Refusal, Run, MAX_TASKS,
};

/// The state of a refused start.
const ZERO: Run = Run {
    job: Job {
        tasks: 0,
        platform: Platform { failstop: 0, silent: 0, cd: 0, cm: 0, v: 0, rd: 0, rm: 0 },
        weights: [0; MAX_TASKS],
    },
    marks: [0; MAX_TASKS],
    place: Place::ZERO,
};

fn answer(result: Result<u64, Refusal>) -> Answer {
    match result {
        Ok(time) => Answer { number: 0, time },
        Err(number) => Answer { number, time: 0 },
    }
}

fn outcome(result: Result<Run, Refusal>, refused: &Run) -> Outcome {
    match result {
        Ok(run) => Outcome { number: 0, run },
        Err(number) => Outcome { number, run: *refused },
    }
}

fn stepped(result: Result<NamedRun, Refusal>, refused: &NamedRun) -> NamedStepped {
    match result {
        Ok(state) => NamedStepped { number: 0, state },
        Err(number) => NamedStepped { number, state: *refused },
    }
}

pub fn growth(y: u64) -> u64 {
    g(u128::from(y)) as u64
}

pub fn mean_growth(y: u64) -> u64 {
    h(u128::from(y)) as u64
}

pub fn lookup(bytes: &[u8], kind: u64) -> Found {
    match sheet::lookup(bytes, kind) {
        Ok(section) => Found { number: 0, start: section.start, size: section.size },
        Err(number) => Found { number, start: 0, size: 0 },
    }
}

pub fn join(first: &[u8], second: &[u8], buffer: &mut [u8]) -> Joined {
    match joiner::join(first, second, buffer.len()) {
        Ok(sheet) => {
            buffer[..sheet.len()].copy_from_slice(&sheet);
            Joined { number: 0, length: sheet.len() }
        }
        Err(number) => Joined { number, length: 0 },
    }
}

pub fn price(bytes: &[u8], marks: &[u8]) -> Answer {
    answer(setting::price(bytes, marks))
}

/// A plan's marks go to the front of the buffer.
fn planned(result: Result<(u64, Vec<u8>), Refusal>, buffer: &mut [u8]) -> Answer {
    if let Ok((_, marks)) = &result {
        buffer[..marks.len()].copy_from_slice(marks);
    }
    answer(result.map(|(time, _)| time))
}

pub fn plan(bytes: &[u8], buffer: &mut [u8]) -> Answer {
    planned(planner::plan(bytes, buffer.len()), buffer)
}

pub fn printed(bytes: &[u8], buffer: &mut [u8]) -> Answer {
    planned(equations::printed(bytes, buffer.len()), buffer)
}

/// The energy is in the answer's time.
pub fn energy(bytes: &[u8], powers: Powers, buffer: &mut [u8]) -> Answer {
    planned(by_energy::energy(bytes, powers, buffer.len()), buffer)
}

pub fn start(bytes: &[u8], marks: &[u8]) -> Outcome {
    outcome(run::start(bytes, marks), &ZERO)
}

pub fn follow(run: &Run, bytes: &[u8]) -> Outcome {
    outcome(log::follow(run, bytes), run)
}

/// One event from a state.
pub fn step(run: &Run, event: Event) -> Outcome {
    next(&mut History::new(run), event)
}

/// One event after a whole history.
pub fn next(history: &mut History, event: Event) -> Outcome {
    let before = history.run();
    outcome(history.step(event), &before)
}

/// One command from a state.
pub fn command(state: &NamedRun, command: &Command) -> NamedStepped {
    stepped(names::command(state, command), state)
}

/// One command after whole histories.
pub fn next_command(followed: &mut Followed, command: &Command) -> NamedStepped {
    let before = followed.state();
    stepped(followed.obey(command).map(|()| followed.state()), &before)
}
