//! Rows of least times, which all planners here share.

use compare::types::MAX_TASKS;

/// 'None yet', and any time above the limit.
pub const NONE: u64 = 1 << 34;

/// A time and marks of least time.
pub struct Plan {
    pub time: u64,
    pub marks: [u8; MAX_TASKS],
}

/// The best time to each of N positions, and the position before it.
pub struct Row<const N: usize> {
    pub time: [u64; N],
    pub before: [usize; N],
}

impl<const N: usize> Row<N> {
    pub fn from(start: usize) -> Row<N> {
        let mut row = Row { time: [NONE; N], before: [0; N] };
        row.time[start] = 0;
        row
    }

    pub fn offer(&mut self, v: usize, u: usize, time: u64) {
        if time < self.time[v] {
            self.time[v] = time;
            self.before[v] = u;
        }
    }
}

/// A recovery's cost, which is 0 at the start.
pub fn unless_start(cost: u64, position: usize) -> u64 {
    if position == 0 {
        0
    } else {
        cost
    }
}
