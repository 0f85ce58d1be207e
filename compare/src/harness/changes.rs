//! How an answer changes when a cost is raised (request 107).

use crate::types::Answer;

/// What a dearer sheet's answer is beside the cheaper one's. Either may be a
/// result or refused by 13.
#[derive(Clone, Copy, Debug, PartialEq, Eq)]
pub enum Change {
    Rose,
    Stayed,
    /// A result, and 13 for the dearer sheet.
    Became13,
    Both13,
    /// Whatever the request rules out: a time that is less, a 13 that is gone,
    /// another refusal.
    Fell,
}

impl Change {
    pub fn of(cheaper: &Answer, dearer: &Answer) -> Change {
        match (cheaper.number, dearer.number) {
            (0, 0) if cheaper.time < dearer.time => Change::Rose,
            (0, 0) if cheaper.time == dearer.time => Change::Stayed,
            (0, 13) => Change::Became13,
            (13, 13) => Change::Both13,
            _ => Change::Fell,
        }
    }
}

/// How often answers changed in each way.
#[derive(Default)]
pub struct Changes {
    pub rose: u64,
    pub stayed: u64,
    pub became_13: u64,
    pub both_13: u64,
    pub fell: u64,
}

impl Changes {
    pub fn count(&mut self, change: Change) {
        let seen = match change {
            Change::Rose => &mut self.rose,
            Change::Stayed => &mut self.stayed,
            Change::Became13 => &mut self.became_13,
            Change::Both13 => &mut self.both_13,
            Change::Fell => &mut self.fell,
        };
        *seen += 1;
    }
}
