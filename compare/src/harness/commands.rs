//! Random commands to a run with names (request 109).

use crate::harness::runs;
use crate::log_writer;
use crate::random::Random;
use crate::types::{Command, NamedRun, Names, Run};

/// The names that are drawn in one run. After 255 comes 0, the name in a free
/// entry.
pub struct Pool {
    first: u8,
    size: u8,
}

impl Pool {
    /// Fewer names than can be held, just as many, or more.
    pub fn new(r: &mut Random) -> Pool {
        let any = r.byte();
        Pool { first: r.pick(&[0, 250, any]), size: r.pick(&[2, 5, 16, 17, 20]) }
    }

    /// Each name once.
    pub fn names(&self) -> impl Iterator<Item = u8> {
        let first = self.first;
        (0..self.size).map(move |at| first.wrapping_add(at))
    }

    /// One of its names, or now and then any.
    pub fn any(&self, r: &mut Random) -> u8 {
        match r.below(20) {
            0 => r.byte(),
            1 => 0,
            _ => self.first.wrapping_add(r.below(u64::from(self.size)) as u8),
        }
    }
}

/// A log, mostly of one event; it may be empty or damaged.
pub fn log(r: &mut Random, run: &Run) -> Vec<u8> {
    match r.below(10) {
        0 => Vec::new(),
        1..=5 => log_writer::record(runs::event(r, run)).to_vec(),
        6..=7 => runs::log(r, run),
        _ => runs::damaged_log(r, run),
    }
}

/// A name that is held, or any of the pool.
fn name(r: &mut Random, pool: &Pool, names: &Names) -> u8 {
    let held = names.held();
    if !held.is_empty() && r.chance(40) {
        return held[r.index(held.len())].name;
    }
    pool.any(r)
}

pub fn any(r: &mut Random, pool: &Pool, state: &NamedRun) -> Command {
    let name = name(r, pool, &state.names);
    match r.below(10) {
        0..=2 => Command::Name(name),
        3 => Command::Drop(name),
        4..=5 => Command::Return(name),
        _ => Command::Follow(log(r, &state.run)),
    }
}
