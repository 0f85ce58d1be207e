//! Makes inputs, asks library and reference, and counts.

pub mod changes;
pub mod check;
pub mod commands;
pub mod dearer;
mod energies;
pub mod jobs;
mod joins;
mod lent;
pub mod marks;
pub mod named_states;
mod names;
mod plans;
mod powers;
pub mod runs;
pub mod sheets;
pub mod tally;
