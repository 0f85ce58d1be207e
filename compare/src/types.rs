//! The types that cross the border, laid out as the library declares them,
//! and the few others that reference and writers share.

/// The most tasks that a sheet may have.
pub const MAX_TASKS: usize = 64;

/// The most names that are held.
pub const MAX_NAMES: usize = 16;

/// Bytes of an event's record in a log.
pub const RECORD_SIZE: usize = 5;

/// A refusal by its number in document 01 or in a request.
pub type Refusal = u64;

/// The seven platform fields, in the sheet's order.
#[derive(Clone, Copy, Debug, PartialEq, Eq)]
#[repr(C)]
pub struct Platform {
    pub failstop: u32,
    pub silent: u32,
    pub cd: u32,
    pub cm: u32,
    pub v: u32,
    pub rd: u32,
    pub rm: u32,
}

/// A user's two powers, of any size until they are checked.
#[derive(Clone, Copy, Debug, PartialEq, Eq)]
pub struct Powers {
    /// Of computing and verifying.
    pub computing: u64,
    /// Of saving and recovering.
    pub saving: u64,
}

/// A sheet's values. Weights past the last task are 0 in a sheet's job.
#[derive(Clone, Copy, Debug, PartialEq, Eq)]
#[repr(C)]
pub struct Job {
    pub tasks: usize,
    pub platform: Platform,
    pub weights: [u32; MAX_TASKS],
}

/// The five sums of a run, in ticks.
#[derive(Clone, Copy, Debug, PartialEq, Eq)]
#[repr(C)]
pub struct Sums {
    pub kept: u64,
    pub redone: u64,
    pub verify: u64,
    pub saves: u64,
    pub recovery: u64,
}

/// Where a run stands, and what it has counted.
#[derive(Clone, Copy, Debug, PartialEq, Eq)]
#[repr(C)]
pub struct Place {
    pub position: usize,
    /// Not 0 while the verification of this position is awaited.
    pub awaiting: u8,
    pub sums: Sums,
}

impl Place {
    pub const ZERO: Place = Place { position: 0, awaiting: 0, sums: Sums::ZERO };

    pub fn awaits(&self) -> bool {
        self.awaiting != 0
    }
}

/// The state of a run.
#[derive(Clone, Copy, Debug, PartialEq, Eq)]
#[repr(C)]
pub struct Run {
    pub job: Job,
    pub marks: [u8; MAX_TASKS],
    pub place: Place,
}

/// A name and the place that it is held for (request 109).
#[derive(Clone, Copy, Debug, PartialEq, Eq)]
#[repr(C)]
pub struct Held {
    pub name: u8,
    pub place: Place,
}

impl Held {
    /// An entry from which a drop has taken the name.
    pub const FREE: Held = Held { name: 0, place: Place::ZERO };
}

/// The names that are held, in the order of first naming, and free entries.
#[derive(Clone, Copy, Debug, PartialEq, Eq)]
#[repr(C)]
pub struct Names {
    pub count: usize,
    pub entries: [Held; MAX_NAMES],
}

impl Names {
    pub const NONE: Names = Names { count: 0, entries: [Held::FREE; MAX_NAMES] };

    /// The entries that are not free: all of them if the count passes 16.
    pub fn held(&self) -> &[Held] {
        &self.entries[..self.count.min(MAX_NAMES)]
    }

    pub fn holds(&self, name: u8) -> bool {
        self.held().iter().any(|held| held.name == name)
    }
}

/// The state of a run with its names.
#[derive(Clone, Copy, Debug, PartialEq, Eq)]
#[repr(C)]
pub struct NamedRun {
    pub run: Run,
    pub names: Names,
}

/// The answer to a lookup: 0 or the refusal, and a part of the sheet.
#[derive(Clone, Copy, Debug, PartialEq, Eq)]
#[repr(C)]
pub struct Found {
    pub number: u64,
    pub start: usize,
    pub size: usize,
}

/// The answer to a join: 0 or the refusal, and how many bytes were written.
#[derive(Clone, Copy, Debug, PartialEq, Eq)]
#[repr(C)]
pub struct Joined {
    pub number: u64,
    pub length: usize,
}

/// The answer to a price or a plan: 0 or the refusal, and a time, or an energy
/// for a plan by energy.
#[derive(Clone, Copy, Debug, PartialEq, Eq)]
#[repr(C)]
pub struct Answer {
    pub number: u64,
    pub time: u64,
}

/// The answer to a start, an event or a log: 0 or the refusal, and a state.
#[derive(Clone, Copy, Debug, PartialEq, Eq)]
#[repr(C)]
pub struct Outcome {
    pub number: u64,
    pub run: Run,
}

/// The answer to a command: 0 or the refusal, and a state.
#[derive(Clone, Copy, Debug, PartialEq, Eq)]
#[repr(C)]
pub struct NamedStepped {
    pub number: u64,
    pub state: NamedRun,
}

/// What is asked of a run with names; each is a call of its own.
#[derive(Clone, Debug)]
pub enum Command {
    Name(u8),
    Drop(u8),
    Return(u8),
    /// A log.
    Follow(Vec<u8>),
}

/// An event of a run. It crosses the border as a record of a log.
#[derive(Clone, Copy, Debug, PartialEq, Eq)]
pub enum Event {
    Done,
    Passed,
    Failed,
    Stopped(u32),
}

impl Job {
    pub fn new(platform: Platform, weights: &[u32]) -> Job {
        let mut job = Job { tasks: weights.len(), platform, weights: [0; MAX_TASKS] };
        job.weights[..weights.len()].copy_from_slice(weights);
        job
    }

    /// The weights of the tasks alone.
    pub fn task_weights(&self) -> &[u32] {
        &self.weights[..self.tasks]
    }

    /// The weight of the stretch from position u to position v.
    pub fn weight(&self, u: usize, v: usize) -> u128 {
        self.weights[u..v].iter().map(|&w| u128::from(w)).sum()
    }
}

impl Sums {
    pub const ZERO: Sums = Sums { kept: 0, redone: 0, verify: 0, saves: 0, recovery: 0 };

    /// All five, which need not fit 64 bits in a state that breaks a rule.
    pub fn total(&self) -> u128 {
        let all = [self.kept, self.redone, self.verify, self.saves, self.recovery];
        all.iter().map(|&s| u128::from(s)).sum()
    }
}
