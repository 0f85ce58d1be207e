//! Lower bounds on what a plan still takes, worked out backward once.
//!
//! - base u is a whole multiple of 2^24 ticks that no disk term at u is below, so
//!   that what it adds to a stretch is a whole number of ticks.
//! - part m v is Q(v) from the memory copy m with that disk term: whatever the
//!   disk copy, Q(v) is not less.
//! - time v is the least time of a memory copy at v by such parts, and risk v
//!   the least sum of G(y_s + y_f) - G(y_s) over allowed stretches to v. Both
//!   are used by their differences alone, which are 0 where they would be less.
//! - after d u is not more than what follows the memory copy u, d being the
//!   last disk copy.
//!
//! The least of times that are rounded up is the least time rounded up, so the
//! inner loops compare units, and one time is rounded for each row.

use crate::pairs::Pairs;
use crate::rows::{unless_start, NONE};
use crate::stretch::{up, UNIT};
use compare::types::{Job, Platform};

/// NONE in units.
const NO_UNITS: u64 = NONE * UNIT;
/// Slopes are cut here, so that products fit 64 bits.
const STEEPEST: u64 = 1 << 28;

/// The next memory copy after another: part and C_M in units, and the slope.
#[derive(Clone, Copy, Default)]
struct Step {
    part: u64,
    slope: u64,
}

/// The tables for up to N positions.
pub struct Bounds<const N: usize> {
    platform: Platform,
    pub tasks: usize,
    pub pairs: Pairs<N>,
    /// In ticks.
    base: [u64; N],
    part: [[u64; N]; N],
    time: [u64; N],
    risk: [u64; N],
    /// In units.
    after: [[u64; N]; N],
}

impl<const N: usize> Bounds<N> {
    /// All bounds 0. They are filled apart from this, so that no table is moved.
    pub fn empty(job: &Job) -> Bounds<N> {
        let Job { platform, tasks, .. } = *job;
        let (row, table) = ([0; N], [[0; N]; N]);
        Bounds {
            platform,
            tasks,
            pairs: Pairs::empty(),
            base: row,
            part: table,
            time: row,
            risk: row,
            after: table,
        }
    }

    pub fn fill(&mut self, job: &Job) {
        self.pairs.fill(job);
        for v in 1..=self.tasks {
            self.fill_parts(v);
            self.time[v] = self.time_by_parts(v);
            self.base[v] = self.least_disk_term(v) / UNIT * UNIT;
        }
        self.fill_risks();
        self.fill_after();
    }

    /// The parts that end at v.
    fn fill_parts(&mut self, v: usize) {
        for m in 0..v {
            let (first, pairs) = self.pairs.to(m, v);
            let (base, row) = (self.base[m], &mut self.part[m]);
            let before = pairs.iter().zip(&row[first..v]);
            let arrivals = before.map(|(pair, &q)| pair.arrival_in_units(base, q));
            row[v] = up(arrivals.fold(NO_UNITS, u64::min));
        }
    }

    fn time_by_parts(&self, v: usize) -> u64 {
        let to = |u: usize| self.time[u] + self.part[u][v] + self.memory_copy();
        (0..v).map(to).fold(NONE, u64::min)
    }

    /// The least disk term at v over the disk copies up to it.
    fn least_disk_term(&self, v: usize) -> u64 {
        (0..=v).map(|d| self.least_disk(d, v)).min().expect("v itself")
    }

    fn fill_risks(&mut self) {
        for v in 1..=self.tasks {
            let (first, pairs) = self.pairs.to(0, v);
            let before = pairs.iter().zip(&self.risk[first..v]);
            let risks = before.map(|(pair, risk)| risk + u64::from(pair.stop));
            self.risk[v] = risks.fold(NONE, u64::min);
        }
    }

    /// By u from the end down; what a next copy takes is the same for every d,
    /// and past the last step that is a time nothing is looked at.
    fn fill_after(&mut self) {
        let n = self.tasks;
        let disk_copy = self.disk_copy() * UNIT;
        for d in 0..n {
            self.after[d][n] = disk_copy;
        }
        let mut steps = [Step::default(); N];
        for u in (0..n).rev() {
            (u + 1..=n).for_each(|v| steps[v] = self.step(u, v));
            let end = (u + 1..=n).rev().find(|&v| steps[v].part < NO_UNITS).unwrap_or(u);
            let steps = &steps[u + 1..=end];
            let own = self.after_next(steps, u, u);
            self.after[u][u] = own;
            for d in 0..u {
                self.after[d][u] = self.after_next(steps, d, u).min(disk_copy + own);
            }
        }
    }

    fn step(&self, u: usize, v: usize) -> Step {
        Step { part: (self.part[u][v] + self.memory_copy()) * UNIT, slope: self.slope(u, v) }
    }

    /// The least of the next memory copies after u and of all that follows.
    fn after_next(&self, steps: &[Step], d: usize, u: usize) -> u64 {
        let disk = self.beyond(u, self.least_disk(d, u));
        let next = steps.iter().zip(&self.after[d][u + 1..]);
        let least = next.map(|(step, after)| step.part + step.slope * disk + after);
        up(least.fold(NO_UNITS, u64::min)) * UNIT
    }

    fn slope(&self, u: usize, v: usize) -> u64 {
        self.risk[v].saturating_sub(self.risk[u]).min(STEEPEST)
    }

    pub fn memory_copy(&self) -> u64 {
        u64::from(self.platform.cm)
    }

    pub fn disk_copy(&self) -> u64 {
        u64::from(self.platform.cd)
    }

    /// R_D'.
    pub fn recovery(&self, d: usize) -> u64 {
        unless_start(u64::from(self.platform.rd) + u64::from(self.platform.rm), d)
    }

    /// R_D' and the least M' of a memory copy at u.
    pub fn least_disk(&self, d: usize, u: usize) -> u64 {
        self.recovery(d) + self.time[u].saturating_sub(self.time[d])
    }

    /// What of a disk term at u lies beyond the base.
    fn beyond(&self, u: usize, disk: u64) -> u64 {
        disk.saturating_sub(self.base[u])
    }

    /// The next memory copy, at v, is not before this, the last one being at u
    /// at a time with this disk term.
    pub fn low(&self, u: usize, time: u64, disk: u64, v: usize) -> u64 {
        let disk = self.beyond(u, disk);
        time + self.part[u][v] + up(self.slope(u, v) * disk) + self.memory_copy()
    }

    pub fn after(&self, d: usize, u: usize) -> u64 {
        self.after[d][u] / UNIT
    }
}
