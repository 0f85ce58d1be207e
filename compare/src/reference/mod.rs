//! Document 01 and the requests, followed literally. Plain and slow on purpose.

pub mod calls;
pub mod energy;
pub mod growth;
pub mod join;
pub mod log;
pub mod names;
pub mod plan;
pub mod printed;
pub mod run;
pub mod setting;
pub mod sheet;
pub mod stretch;
