//! Named places (request 109), by lists of events: the present one, and for each
//! name the one at its naming. Each state is worked out anew from these.

use crate::reference::log;
use crate::reference::run;
use crate::types::{Command, Event, Held, NamedRun, Names, Refusal, Run, MAX_NAMES, RECORD_SIZE};

/// The condition of refusal 21 for a state with names.
pub fn is_broken(state: &NamedRun) -> bool {
    let NamedRun { run, names } = state;
    if run::is_broken(run) || names.count > MAX_NAMES {
        return true;
    }
    let held = names.held();
    let is_second = |at: usize| held[..at].iter().any(|earlier| earlier.name == held[at].name);
    (0..held.len()).any(is_second) || held.iter().any(|h| run::breaks_place(run, &h.place))
}

/// A history: the state in which the run was taken up, and the events since.
#[derive(Clone)]
struct Past {
    base: Run,
    events: Vec<Event>,
}

impl Past {
    fn new(base: Run) -> Past {
        Past { base, events: Vec::new() }
    }

    fn run(&self) -> Run {
        run::replayed(&self.base, &self.events)
    }
}

/// A name, and the history up to its naming.
struct Named {
    name: u8,
    past: Past,
}

/// A followed run with its names.
pub struct Followed {
    present: Past,
    /// In the order of first naming.
    held: Vec<Named>,
    /// The entries past the names held.
    free: Vec<Held>,
}

impl Followed {
    /// A run taken up in a state, or refusal 21.
    pub fn new(state: &NamedRun) -> Result<Followed, Refusal> {
        if is_broken(state) {
            return Err(21);
        }
        let past = |h: &Held| Past::new(Run { place: h.place, ..state.run });
        let (held, free) = state.names.entries.split_at(state.names.count);
        Ok(Followed {
            present: Past::new(state.run),
            held: held.iter().map(|h| Named { name: h.name, past: past(h) }).collect(),
            free: free.to_vec(),
        })
    }

    /// The state after all commands.
    pub fn state(&self) -> NamedRun {
        let held = self.held.iter().map(|n| Held { name: n.name, place: n.past.run().place });
        let mut names = Names { count: self.held.len(), ..Names::NONE };
        for (entry, of) in names.entries.iter_mut().zip(held.chain(self.free.iter().copied())) {
            *entry = of;
        }
        NamedRun { run: self.present.run(), names }
    }

    /// Where a name is held, or refusal 30.
    fn find(&self, name: u8) -> Result<usize, Refusal> {
        self.held.iter().position(|named| named.name == name).ok_or(30)
    }

    /// A replaced name keeps its turn.
    fn name(&mut self, name: u8) -> Result<(), Refusal> {
        let past = self.present.clone();
        if let Ok(at) = self.find(name) {
            self.held[at].past = past;
            return Ok(());
        }
        if self.held.len() == MAX_NAMES {
            return Err(31);
        }
        self.held.push(Named { name, past });
        self.free.remove(0);
        Ok(())
    }

    fn forget(&mut self, name: u8) -> Result<(), Refusal> {
        self.held.remove(self.find(name)?);
        self.free.insert(0, Held::FREE);
        Ok(())
    }

    fn go_back(&mut self, name: u8) -> Result<(), Refusal> {
        self.present = self.held[self.find(name)?].past.clone();
        Ok(())
    }

    fn follow(&mut self, log: &[u8]) -> Result<(), Refusal> {
        log::follow(&self.present.run(), log)?;
        self.present.events.extend(log::events(log)?);
        Ok(())
    }

    /// One command: it is refused, or the lists change.
    pub fn obey(&mut self, command: &Command) -> Result<(), Refusal> {
        match command {
            Command::Name(name) => self.name(*name),
            Command::Drop(name) => self.forget(*name),
            Command::Return(name) => self.go_back(*name),
            Command::Follow(log) => self.follow(log),
        }
    }
}

/// One command from a state. In a log, 12 of the first record comes before 21.
pub fn command(state: &NamedRun, command: &Command) -> Result<NamedRun, Refusal> {
    if let Command::Follow(log) = command {
        log::events(&log[..log.len().min(RECORD_SIZE)])?;
    }
    let mut followed = Followed::new(state)?;
    followed.obey(command)?;
    Ok(followed.state())
}
