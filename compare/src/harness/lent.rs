//! A lent buffer of random bytes, with guards before and after it. Two are
//! the same if all their memory is.

use crate::random::Random;
use crate::types::{Answer, MAX_TASKS};

const GUARD: usize = 16;

/// Room for n marks, often just enough, and now and then too little.
pub fn room(r: &mut Random, n: usize) -> usize {
    match r.below(20) {
        0 => n - 1,
        1 => r.index(n),
        2..=9 => n,
        10..=14 => n + 1 + r.index(8),
        15..=17 => MAX_TASKS.max(n),
        _ => 200,
    }
}

/// Two rooms of unlike size that each hold n marks, one of them just so.
pub fn two_rooms(r: &mut Random, n: usize) -> [usize; 2] {
    let more = n + 1 + r.index(MAX_TASKS);
    if r.chance(50) {
        [n, more]
    } else {
        [more, n]
    }
}

#[derive(Clone, Debug, PartialEq, Eq)]
pub struct Lent {
    memory: Vec<u8>,
}

impl Lent {
    pub fn new(r: &mut Random, size: usize) -> Lent {
        Lent { memory: r.bytes(size + 2 * GUARD) }
    }

    pub fn buffer(&mut self) -> &mut [u8] {
        let end = self.memory.len() - GUARD;
        &mut self.memory[GUARD..end]
    }
}

/// An answer with the memory that was lent for the marks.
pub type Filled = (Answer, Lent);

/// Lends a copy of the memory to a call.
pub fn filled(lent: &Lent, call: impl FnOnce(&mut [u8]) -> Answer) -> Filled {
    let mut lent = lent.clone();
    (call(lent.buffer()), lent)
}
