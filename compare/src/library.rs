//! The calls of the proved library. All foreign calls are in this file.
//!
//! Without the feature `linked` the reference stands in for the library, so
//! that the comparison itself can be tested without one.

use crate::log_writer;
use crate::types::{Event, Outcome, Run};

#[cfg(feature = "linked")]
pub use linked::{
    command, energy, follow, growth, join, lookup, mean_growth, plan, price, printed, start, NAME,
};

#[cfg(not(feature = "linked"))]
pub use crate::reference::calls::{
    command, energy, follow, growth, join, lookup, mean_growth, plan, price, printed, start,
};

#[cfg(not(feature = "linked"))]
pub const NAME: &str = "stand-in (the reference itself, no library is compared)";

/// The library has no call for one event: it is a log of one record.
pub fn step(run: &Run, event: Event) -> Outcome {
    follow(run, &log_writer::record(event))
}

#[cfg(feature = "linked")]
mod linked {
    use crate::types::{
        Answer, Command, Found, Joined, NamedRun, NamedStepped, Outcome, Powers, Run,
    };

    pub const NAME: &str = "linked";

    #[link(name = "pulvanor")]
    extern "C" {
        fn pulvanor_growth(y: u64) -> u64;
        fn pulvanor_mean_growth(y: u64) -> u64;
        fn pulvanor_lookup(s: *const u8, s_len: usize, kind: u64) -> Found;
        fn pulvanor_join(
            first: *const u8,
            first_len: usize,
            second: *const u8,
            second_len: usize,
            b: *mut u8,
            b_len: usize,
        ) -> Joined;
        fn pulvanor_price(s: *const u8, s_len: usize, m: *const u8, m_len: usize) -> Answer;
        fn pulvanor_plan(s: *const u8, s_len: usize, b: *mut u8, b_len: usize) -> Answer;
        fn pulvanor_printed(s: *const u8, s_len: usize, b: *mut u8, b_len: usize) -> Answer;
        fn pulvanor_energy(
            s: *const u8,
            s_len: usize,
            computing: u64,
            saving: u64,
            b: *mut u8,
            b_len: usize,
        ) -> Answer;
        fn pulvanor_start(s: *const u8, s_len: usize, m: *const u8, m_len: usize) -> Outcome;
        fn pulvanor_follow(run: Run, log: *const u8, log_len: usize) -> Outcome;
        fn pulvanor_name(state: NamedRun, name: u8) -> NamedStepped;
        fn pulvanor_drop(state: NamedRun, name: u8) -> NamedStepped;
        fn pulvanor_return(state: NamedRun, name: u8) -> NamedStepped;
        fn pulvanor_follow_named(state: NamedRun, log: *const u8, log_len: usize) -> NamedStepped;
    }

    pub fn growth(y: u64) -> u64 {
        // SAFETY: numbers alone cross the border.
        unsafe { pulvanor_growth(y) }
    }

    pub fn mean_growth(y: u64) -> u64 {
        // SAFETY: as above.
        unsafe { pulvanor_mean_growth(y) }
    }

    pub fn lookup(sheet: &[u8], kind: u64) -> Found {
        // SAFETY: pointer and length are of one slice, as in the calls below.
        unsafe { pulvanor_lookup(sheet.as_ptr(), sheet.len(), kind) }
    }

    pub fn join(first: &[u8], second: &[u8], buffer: &mut [u8]) -> Joined {
        let (start, len) = (buffer.as_mut_ptr(), buffer.len());
        let (a, b) = (first, second);
        unsafe { pulvanor_join(a.as_ptr(), a.len(), b.as_ptr(), b.len(), start, len) }
    }

    pub fn price(sheet: &[u8], marks: &[u8]) -> Answer {
        unsafe { pulvanor_price(sheet.as_ptr(), sheet.len(), marks.as_ptr(), marks.len()) }
    }

    pub fn plan(sheet: &[u8], buffer: &mut [u8]) -> Answer {
        let (start, len) = (buffer.as_mut_ptr(), buffer.len());
        unsafe { pulvanor_plan(sheet.as_ptr(), sheet.len(), start, len) }
    }

    pub fn printed(sheet: &[u8], buffer: &mut [u8]) -> Answer {
        let (start, len) = (buffer.as_mut_ptr(), buffer.len());
        unsafe { pulvanor_printed(sheet.as_ptr(), sheet.len(), start, len) }
    }

    pub fn energy(sheet: &[u8], powers: Powers, buffer: &mut [u8]) -> Answer {
        let (start, len) = (buffer.as_mut_ptr(), buffer.len());
        let Powers { computing, saving } = powers;
        unsafe { pulvanor_energy(sheet.as_ptr(), sheet.len(), computing, saving, start, len) }
    }

    pub fn start(sheet: &[u8], marks: &[u8]) -> Outcome {
        unsafe { pulvanor_start(sheet.as_ptr(), sheet.len(), marks.as_ptr(), marks.len()) }
    }

    pub fn follow(run: &Run, log: &[u8]) -> Outcome {
        unsafe { pulvanor_follow(*run, log.as_ptr(), log.len()) }
    }

    pub fn command(state: &NamedRun, command: &Command) -> NamedStepped {
        match command {
            Command::Name(name) => unsafe { pulvanor_name(*state, *name) },
            Command::Drop(name) => unsafe { pulvanor_drop(*state, *name) },
            Command::Return(name) => unsafe { pulvanor_return(*state, *name) },
            Command::Follow(log) => unsafe {
                pulvanor_follow_named(*state, log.as_ptr(), log.len())
            },
        }
    }
}
