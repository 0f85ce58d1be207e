//! Runs with names, by library and reference (request 109).

use crate::harness::commands::{self, Pool};
use crate::harness::named_states::{self, ALTERATIONS};
use crate::harness::tally::{Call, Commands, Tally};
use crate::library;
use crate::random::Random;
use crate::reference::calls;
use crate::reference::names::{self, Followed};
use crate::reference::run;
use crate::types::{Command, NamedRun, NamedStepped, Names, Run, MAX_NAMES};

/// A run of one sheet, with what is drawn and counted.
struct Check<'a> {
    random: &'a mut Random,
    tally: &'a mut Tally,
    sheet: &'a [u8],
    pool: Pool,
}

/// Follows random commands from the start of a run.
pub fn one(random: &mut Random, tally: &mut Tally, sheet: &[u8], fresh: &Run) {
    let pool = Pool::new(random);
    let mut state = NamedRun { run: *fresh, names: Names::NONE };
    if random.chance(50) {
        named_states::fill_unread(random, &pool, &mut state);
    }
    Check { random, tally, sheet, pool }.follow(&state);
}

fn call_of(command: &Command) -> Call {
    match command {
        Command::Name(_) => Call::Name,
        Command::Drop(_) => Call::Drop,
        Command::Return(_) => Call::Return,
        Command::Follow(_) => Call::FollowNamed,
    }
}

/// Counts edges of an accepted command.
fn count(edges: &mut Commands, before: &NamedRun, command: &Command, after: &NamedRun) {
    let finished = u64::from(run::is_finished(&before.run));
    match *command {
        Command::Name(name) => {
            let again = before.names.holds(name);
            edges.again += u64::from(again);
            edges.again_full += u64::from(again && before.names.count == MAX_NAMES);
            edges.awaited += u64::from(before.run.place.awaits());
            edges.finished[0] += finished;
        }
        Command::Drop(name) => {
            let last = before.names.held().last().is_some_and(|held| held.name == name);
            edges.moved += u64::from(!last);
            edges.finished[1] += finished;
        }
        Command::Return(_) => {
            let [from, to] = [before, after].map(|state| state.run.place.sums.total());
            edges.back += u64::from(to < from);
            edges.onward += u64::from(to > from);
            edges.finished[2] += finished;
        }
        Command::Follow(_) => {}
    }
}

/// Counts a refusal that comes before another one.
fn count_order(edges: &mut Commands, before: &NamedRun, command: &Command, number: u64) {
    match *command {
        Command::Name(name) if number == 21 => {
            let full = before.names.count >= MAX_NAMES && !before.names.holds(name);
            edges.before_31 += u64::from(full);
        }
        Command::Drop(name) | Command::Return(name) if number == 21 => {
            edges.before_30 += u64::from(!before.names.holds(name));
        }
        Command::Follow(ref log) => {
            edges.after_12 += u64::from(number == 12 && names::is_broken(before));
            edges.empty += u64::from(number == 21 && log.is_empty());
        }
        _ => {}
    }
}

impl Check<'_> {
    /// Compares what the reference gave for a command.
    fn compare(&mut self, before: &NamedRun, command: &Command, reference: &NamedStepped) {
        let NamedStepped { number, state } = reference;
        let library = library::command(before, command);
        self.tally.count(call_of(command), *number);
        self.tally.same("a named run", self.sheet, &(before, command), &library, reference);
        if *number == 0 {
            count(&mut self.tally.commands, before, command, state);
        } else {
            count_order(&mut self.tally.commands, before, command, *number);
        }
    }

    fn next(&mut self, followed: &mut Followed, command: &Command) {
        let before = followed.state();
        let reference = calls::next_command(followed, command);
        self.compare(&before, command, &reference);
    }

    /// Names as many places as there are names, with logs between.
    fn fill(&mut self, followed: &mut Followed) {
        for name in self.pool.names() {
            self.next(followed, &Command::Name(name));
            if self.random.chance(50) {
                let log = commands::log(self.random, &followed.state().run);
                self.next(followed, &Command::Follow(log));
            }
        }
    }

    /// Commands from a state, with turns aside to altered ones.
    fn follow(&mut self, state: &NamedRun) {
        let mut followed = Followed::new(state).expect("the start of a run");
        if self.random.chance(50) {
            self.fill(&mut followed);
        }
        for _ in 0..self.random.between(1, 30) {
            let state = followed.state();
            let command = commands::any(self.random, &self.pool, &state);
            self.next(&mut followed, &command);
            if self.random.chance(25) {
                self.altered(&state);
            }
        }
        self.altered(&followed.state());
    }

    /// Commands from a state altered in one way.
    fn altered(&mut self, state: &NamedRun) {
        let way = self.random.pick(&ALTERATIONS);
        let due = if way.spoils() { 21 } else { 0 };
        let mut state = named_states::altered(self.random, &self.pool, state, way);
        for _ in 0..3 {
            let command = commands::any(self.random, &self.pool, &state);
            let reference = calls::command(&state, &command);
            self.compare(&state, &command, &reference);
            self.tally.commands.altered[way as usize] += u64::from(reference.number == due);
            state = reference.state;
        }
    }
}
