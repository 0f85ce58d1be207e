//! The sheets that are measured: four platforms, and classes of random sheets.

use crate::bounded;
use crate::stretch::UNIT;
use compare::harness::jobs::largest;
use compare::random::Random;
use compare::reference::sheet;
use compare::sheet_writer;
use compare::types::{Job, Platform};

/// Seconds of work (source document 000, section 4), in ticks of 1/100 s.
const WORK: u32 = 25_000 * 100;
/// The largest cost and the largest total of weights.
const MAX_TICKS: u64 = sheet::MAX_TICKS as u64;

/// Sheets of one class for one number of tasks.
pub const SHEETS: usize = 12;

/// A platform of source document 000, table 1.
pub struct Listed {
    pub name: &'static str,
    /// Errors a second.
    failstop: f64,
    silent: f64,
    /// Tenths of seconds.
    cd: u32,
    cm: u32,
}

pub const HERA: Listed =
    Listed { name: "Hera", failstop: 9.46e-7, silent: 3.38e-6, cd: 3000, cm: 154 };
const ATLAS: Listed =
    Listed { name: "Atlas", failstop: 5.19e-7, silent: 7.78e-6, cd: 4390, cm: 91 };
const COASTAL: Listed =
    Listed { name: "Coastal", failstop: 4.02e-7, silent: 2.01e-6, cd: 10510, cm: 45 };
const COASTAL_SSD: Listed =
    Listed { name: "Coastal SSD", failstop: 4.02e-7, silent: 2.01e-6, cd: 25000, cm: 1800 };

pub const TABLE: [Listed; 4] = [HERA, ATLAS, COASTAL, COASTAL_SSD];

/// Errors a second to units of 2^-48 a tick.
fn rate(a_second: f64) -> u32 {
    (a_second / 100.0 * (1u64 << 48) as f64).round() as u32
}

/// The work split as evenly as whole ticks allow.
fn even(n: usize) -> Vec<u32> {
    let n = n as u32;
    (0..n).map(|i| WORK / n + u32::from(i < WORK % n)).collect()
}

/// R_D = C_D, R_M = C_M and V = C_M, as in source documents 000 and 002.
pub fn listed(of: &Listed, n: usize) -> Job {
    let (failstop, silent) = (rate(of.failstop), rate(of.silent));
    let (cd, cm) = (of.cd * 10, of.cm * 10);
    Job::new(Platform { failstop, silent, cd, cm, v: cm, rd: cd, rm: cm }, &even(n))
}

/// The sheet of a job.
pub fn sheet(job: &Job) -> Vec<u8> {
    sheet_writer::sheet(&job.platform, job.task_weights())
}

/// A class of random jobs, all of which pass 1 to 8.
pub struct Class {
    pub name: &'static str,
    job: fn(&mut Random, usize) -> Job,
}

pub const CLASSES: [Class; 7] = [
    Class { name: "mild", job: mild },
    Class { name: "harsh", job: harsh },
    Class { name: "zeros", job: zeros },
    Class { name: "tiny", job: tiny },
    Class { name: "many copies", job: many_copies },
    Class { name: "near 2^34", job: near_limit },
    Class { name: "ties", job: ties },
];

/// The jobs of a class for a number of tasks, the same ones each time.
pub fn jobs(class: &Class, n: usize) -> Vec<Job> {
    let mut random = Random::new(3);
    (0..SHEETS).map(|_| (class.job)(&mut random, n)).collect()
}

fn up_to(r: &mut Random, high: u64) -> u32 {
    r.between(0, high) as u32
}

/// n weights of up to twice the mean.
fn uneven(r: &mut Random, n: usize, mean: u64) -> Vec<u32> {
    (0..n).map(|_| r.between(1, 2 * mean) as u32).collect()
}

/// Fail-stop and silent rates that give a weight this exponent together.
fn rates(r: &mut Random, exponent: u64, weight: u64) -> (u32, u32) {
    let failstop = r.between(0, exponent);
    let rate = |exponent: u64| (exponent * UNIT / weight) as u32;
    (rate(failstop), rate(exponent - failstop))
}

/// Moderate rates and costs: copies every few tasks, and every stretch allowed.
fn mild(r: &mut Random, n: usize) -> Job {
    let (cd, cm, v) = (up_to(r, 200_000), up_to(r, 20_000), up_to(r, 20_000));
    let (failstop, silent) = (up_to(r, 1 << 23), up_to(r, 1 << 25));
    let platform = Platform { failstop, silent, cd, cm, v, rd: cd, rm: cm };
    Job::new(platform, &uneven(r, n, u64::from(WORK) / n as u64))
}

/// High rates: a task has an exponent of 1/16 to 1 on average, so that long
/// stretches are not allowed and others are dear.
fn harsh(r: &mut Random, n: usize) -> Job {
    let mean = r.between(1 << 17, 1 << 20);
    let exponent = r.between(UNIT / 16, UNIT);
    let (failstop, silent) = rates(r, exponent, mean);
    let mut cost = || up_to(r, mean / 2);
    let (cd, cm, v, rd, rm) = (cost(), cost(), cost(), cost(), cost());
    let platform = Platform { failstop, silent, cd, cm, v, rd, rm };
    Job::new(platform, &uneven(r, n, mean))
}

/// Mild or harsh, with some of the costs and rates 0, or all of them.
fn zeros(r: &mut Random, n: usize) -> Job {
    let mut job = if r.chance(50) { mild(r, n) } else { harsh(r, n) };
    let p = &mut job.platform;
    let all = r.chance(10);
    for field in
        [&mut p.failstop, &mut p.silent, &mut p.cd, &mut p.cm, &mut p.v, &mut p.rd, &mut p.rm]
    {
        if all || r.chance(50) {
            *field = 0;
        }
    }
    job
}

/// Weights of 1 to 4 ticks and costs of 0 to 3: rounding decides.
fn tiny(r: &mut Random, n: usize) -> Job {
    let (failstop, silent) = (r.sized(32) as u32, r.sized(32) as u32);
    let mut cost = || up_to(r, 3);
    let (cd, cm, v, rd, rm) = (cost(), cost(), cost(), cost(), cost());
    let platform = Platform { failstop, silent, cd, cm, v, rd, rm };
    Job::new(platform, &uneven(r, n, 2))
}

/// Errors that are dear beside copies: most tasks end with one.
fn many_copies(r: &mut Random, n: usize) -> Job {
    let mean = r.between(1 << 17, 1 << 20);
    let exponent = r.between(UNIT / 8, UNIT / 2);
    let (failstop, silent) = rates(r, exponent, mean);
    let (cd, cm, v) = (up_to(r, mean / 8), up_to(r, mean / 64), up_to(r, mean / 64));
    let platform = Platform { failstop, silent, cd, cm, v, rd: cd, rm: cm };
    Job::new(platform, &uneven(r, n, mean))
}

/// Costs with which the plan takes about 2^34 ticks, a few percent more or
/// less: the largest that are not too slow, changed a little.
fn near_limit(r: &mut Random, n: usize) -> Job {
    let mean = r.between(MAX_TICKS / 3, MAX_TICKS / 2) / n as u64;
    let weights = uneven(r, n, mean);
    let exponent = (r.between(10, 24) * UNIT / n as u64).min(2 * UNIT - 1);
    let (failstop, silent) = rates(r, exponent, mean);
    let with = |cost: u64| {
        let (cd, cm, v) = (cost as u32, (cost / 2) as u32, (cost / 4) as u32);
        Job::new(Platform { failstop, silent, cd, cm, v, rd: cd, rm: cm }, &weights)
    };
    let edge = largest(MAX_TICKS, |cost| bounded::plan(&with(cost)).is_some());
    with((edge * r.between(94, 102) / 100).min(MAX_TICKS))
}

/// Equal weights, and errors that cost a few ticks a task, as marks do, or
/// nothing: many settings of one time.
fn ties(r: &mut Random, n: usize) -> Job {
    let weight = r.between(1 << 10, 1 << 13);
    let most = r.between(0, 6);
    let mut rate = || ((r.between(0, most) << 48) / (weight * weight)) as u32;
    let (failstop, silent) = (rate(), rate());
    let mut cost = || up_to(r, most);
    let (cd, cm, v, rd, rm) = (cost(), cost(), cost(), cost(), cost());
    let platform = Platform { failstop, silent, cd, cm, v, rd, rm };
    Job::new(platform, &vec![weight as u32; n])
}
