//! What each pair of ends adds to a time, by its later end, and the rows of
//! verifications that are filled with it.

use crate::rows::NONE;
use crate::stretch::{factors, up, Factors, UNIT};
use compare::types::Job;

/// One pair of ends that is allowed as a stretch.
#[derive(Clone, Copy, Default)]
pub struct Pair {
    /// Work, verification and the return to the memory copy, in units.
    work: u64,
    /// G(y_s + y_f).
    error: u32,
    /// G(y_s + y_f) - G(y_s).
    pub stop: u32,
}

impl Pair {
    fn new(f: &Factors, memory: u64) -> Pair {
        let work = f.work + up((f.silent - UNIT) * memory);
        let stop = (f.error - f.silent) as u32;
        Pair { work: work.min(NONE) * UNIT, error: f.error as u32, stop }
    }

    /// Q, from Q' and the disk term R_D' + M'. Since Q' is whole, it joins what
    /// an error makes of it: Q' + up((error - 2^24) × Q') = up(error × Q').
    pub fn arrival(&self, disk: u64, q: u64) -> u64 {
        self.work / UNIT + up(u64::from(self.stop) * disk) + up(u64::from(self.error) * q)
    }

    /// The same in units and not rounded up, with a disk term of at most two
    /// costs: the sum stays below 2^64.
    pub fn arrival_in_units(&self, disk: u64, q: u64) -> u64 {
        self.work + u64::from(self.stop) * disk + u64::from(self.error) * q
    }
}

/// The pairs of N positions that are allowed.
pub struct Pairs<const N: usize> {
    /// For a memory copy at 0, and for a later one.
    tables: [[[Pair; N]; N]; 2],
    /// The earliest allowed beginning of a stretch to each end.
    from: [usize; N],
}

impl<const N: usize> Pairs<N> {
    pub fn empty() -> Pairs<N> {
        Pairs { tables: [[[Pair::default(); N]; N]; 2], from: [0; N] }
    }

    pub fn fill(&mut self, job: &Job) {
        (1..=job.tasks).for_each(|v| self.fill_to(job, v));
    }

    /// All pairs that end at v, from the shortest to the longest allowed.
    fn fill_to(&mut self, job: &Job, v: usize) {
        let mut weight = 0;
        self.from[v] = v;
        for u in (0..v).rev() {
            weight += u64::from(job.weights[u]);
            let f = factors(&job.platform, weight);
            if f.error == 0 {
                break;
            }
            self.tables[0][v][u] = Pair::new(&f, 0);
            self.tables[1][v][u] = Pair::new(&f, u64::from(job.platform.rm));
            self.from[v] = u;
        }
    }

    /// The pairs that end at v and begin at the memory copy m or after it, and
    /// where the first of them begins.
    pub fn to(&self, m: usize, v: usize) -> (usize, &[Pair]) {
        let first = self.from[v].max(m);
        (first, &self.tables[usize::from(m != 0)][v][first..v])
    }

    /// The best Q from the memory copy m up to `top`; `disk` is R_D' + M'. No
    /// position from `end` on is reached.
    pub fn verified(&self, m: usize, disk: u64, top: usize) -> [u64; N] {
        let mut q = [NONE; N];
        q[m] = 0;
        let mut end = m + 1;
        for v in m + 1..=top {
            let (first, pairs) = self.to(m, v);
            let before = pairs.iter().zip(&q[first..end.max(first)]);
            let arrivals = before.map(|(pair, &q)| pair.arrival(disk, q));
            q[v] = arrivals.fold(NONE, u64::min);
            if q[v] < NONE {
                end = v + 1;
            }
        }
        q
    }

    /// The verification before v in such a row: the first that gives its Q.
    pub fn verified_before(&self, m: usize, disk: u64, q: &[u64; N], v: usize) -> usize {
        let (first, pairs) = self.to(m, v);
        let gives = |(pair, &before): (&Pair, &u64)| pair.arrival(disk, before) == q[v];
        first + pairs.iter().zip(&q[first..v]).position(gives).expect("a position gives it")
    }
}
