//! The proved library compared with a reference written apart from it.
//!
//! A module uses only modules above it in this list:
//!
//! - `types`: the structs that cross the border to the library. Uses nothing.
//! - `random`: a generator of random numbers. Uses nothing.
//! - `sheet_writer`, `log_writer`: how a sheet and an event's record are
//!   written in bytes. They use `types`.
//! - `reference`: document 01 and the requests read literally: `growth`,
//!   `stretch`, `sheet`, `setting`, `plan`, `energy`, `printed`, `join`, `run`,
//!   `log`, `names`, `calls`, each using those before it. It uses `types` and
//!   nothing else.
//! - `library`: the calls of the proved library. Uses `types`, `log_writer`
//!   and, where a stand-in answers for the library, `reference`.
//! - `harness`: random inputs (`marks`, `powers`, `jobs`, `sheets`, `runs`,
//!   `commands`, `named_states`), the counts (`changes`, `tally`, `plans`) and
//!   the comparison (`check`, which calls `joins`, `energies`, `dearer` and
//!   `names`). Uses all of the above.
//!
//! Two programs use these: `compare` (`main.rs`), and `bench` (`bin/bench`)
//! with two planners of its own that nothing else uses. `tests/circles.rs`
//! fails if files use each other in a circle.

pub mod harness;
pub mod library;
pub mod log_writer;
pub mod random;
pub mod reference;
pub mod sheet_writer;
pub mod types;
