//! Jobs for which unlike settings have one time.

use crate::harness::jobs::values::{any_cost, even, largest, rate_for, split, total};
use crate::random::Random;
use crate::reference::plan;
use crate::reference::setting;
use crate::reference::stretch::Table;
use crate::types::{Job, Platform};

/// Equal weights and few different values: many settings of one time.
pub fn tied(r: &mut Random, n: usize) -> Job {
    let weight = 1 + r.sized(16);
    let mut few = || r.pick(&[0, 0, 0, 1, 2, 16]);
    let [cd, cm, v, rd, rm] = [few(), few(), few(), few(), few()];
    let mut rate = || r.pick(&[0, 0, 1, 1 << 10, 1 << 16, 1 << 24]);
    let (failstop, silent) = (rate(), rate());
    Job::new(Platform { failstop, silent, cd, cm, v, rd, rm }, &even(n, weight))
}

/// Errors that cost a few ticks a task, as marks do: settings of all kinds
/// meet in one least time.
pub fn nearly_tied(r: &mut Random, n: usize) -> Job {
    let weight = r.between(1 << 8, 1 << 13);
    let most = r.between(1, 12);
    let mut rate = || {
        let ticks = r.between(0, most);
        ((ticks << 48) / (weight * weight)).min(u64::from(u32::MAX)) as u32
    };
    let (failstop, silent) = (rate(), rate());
    let mut cost = || r.between(0, most) as u32;
    let platform =
        Platform { failstop, silent, cd: cost(), cm: cost(), v: cost(), rd: cost(), rm: cost() };
    let weights: Vec<u32> = match r.below(3) {
        0 => (0..n).map(|_| (weight + r.below(3)) as u32).collect(),
        1 => (0..n).map(|_| r.pick(&[weight / 2, weight, weight * 2]) as u32).collect(),
        _ => even(n, weight),
    };
    Job::new(platform, &weights)
}

/// Work for which marks of every kind are worth while. Its exponents add up
/// to at most the limit, and its costs are less than its weight, so that every
/// stretch is allowed and no plan is too slow.
fn worth_marks(r: &mut Random, n: usize) -> Job {
    let all = r.between(1 << 12, 1 << 24);
    let (failstop, silent) = (r.between(1 << 20, 1 << 25), r.between(1 << 20, 1 << 25));
    let (failstop, silent) = (rate_for(failstop, all), rate_for(silent, all));
    let mut cost = |shift: u64| any_cost(r, all >> shift);
    let (cd, cm, v, rd, rm) = (cost(3), cost(5), cost(7), cost(3), cost(5));
    let weights = if r.chance(50) { even(n, all / n as u64) } else { split(r, n, all) };
    Job::new(Platform { failstop, silent, cd, cm, v, rd, rm }, &weights)
}

/// A job whose C_D, or C_M, is varied.
struct Varied {
    job: Job,
    /// Whether it is C_D.
    disk: bool,
    table: Table,
}

impl Varied {
    /// The time is linear in C_D, and in C_M without fail-stop errors, so
    /// that equal times are common.
    fn new(r: &mut Random, n: usize) -> Varied {
        let mut job = worth_marks(r, n);
        let disk = r.chance(50);
        if !disk {
            job.platform.failstop = 0;
        }
        Varied { job, disk, table: Table::new(&job) }
    }

    fn with(&self, cost: u64) -> Job {
        let mut job = self.job;
        let field = if self.disk { &mut job.platform.cd } else { &mut job.platform.cm };
        *field = cost as u32;
        job
    }

    /// The plan's marks at a cost.
    fn marks(&self, cost: u64) -> Vec<u8> {
        plan::by_rows_with(&self.with(cost), &self.table).marks
    }

    /// The plan's copies of the kind that has the cost.
    fn copies(&self, cost: u64) -> usize {
        let least = if self.disk { 3 } else { 2 };
        self.marks(cost).iter().filter(|&&m| m >= least).count()
    }
}

/// Whether the rule for ties and one that looks at all marks first disagree.
fn at_odds(a: &[u8], b: &[u8]) -> bool {
    let all = |marks: &[u8]| (0..marks.len()).rev().map(|i| marks[i] != 0).collect::<Vec<_>>();
    all(a) != all(b) && plan::wins_tie(a, b) != (all(a) < all(b))
}

/// The cost at which the plan changes from more copies of a kind to fewer,
/// and whether two settings at odds are equal there.
fn switch(r: &mut Random, n: usize) -> (Job, bool) {
    let varied = Varied::new(r, n);
    let fewer = r.between(1, varied.copies(0).max(1) as u64) as usize;
    let max = total(varied.job.task_weights());
    let last = largest(max, |cost| varied.copies(cost) > fewer);
    let (a, b) = (varied.marks(last), varied.marks(last + 1));
    let equal = |job: &Job| setting::time(job, &a) == setting::time(job, &b);
    let met = [varied.with(last), varied.with(last + 1)].into_iter().find(equal);
    let odd = met.is_some() && at_odds(&a, &b);
    (met.unwrap_or_else(|| varied.with(last)), odd)
}

/// Unlike settings of one least time, if a few tries find them.
pub fn at_switch(r: &mut Random, n: usize) -> Job {
    let mut found = switch(r, n);
    for _ in 0..20 {
        if found.1 {
            break;
        }
        found = switch(r, n);
    }
    found.0
}
