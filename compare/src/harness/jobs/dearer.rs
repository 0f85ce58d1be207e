//! Dearer jobs: one cost raised, or several (request 107).

use crate::harness::jobs::values::MAX_TICKS;
use crate::random::Random;
use crate::types::{Job, Platform, Powers};

/// C_D, C_M, V, R_D and R_M.
pub fn costs(job: &Job) -> [u32; 5] {
    let Platform { cd, cm, v, rd, rm, .. } = job.platform;
    [cd, cm, v, rd, rm]
}

/// The largest costs, in the same order, that 29 leaves under these powers.
fn limits(powers: Powers) -> [u64; 5] {
    let Powers { computing, saving } = powers;
    [saving, saving, computing, saving, saving].map(|power| MAX_TICKS / power)
}

/// A cost raised by 0, by 1, by little, by up to itself, by any amount, or to
/// its limit.
fn raised(r: &mut Random, cost: u32, limit: u64) -> u32 {
    let most = limit - u64::from(cost);
    let by = match r.below(7) {
        0 => 0,
        1 => 1,
        2 => r.between(2, 100),
        3 => r.between(0, u64::from(cost)),
        4 => r.sized(30),
        5 => r.between(0, most),
        _ => most,
    };
    cost + by.min(most) as u32
}

/// A job with one cost raised, each as often as the others, and now and then
/// with several. It is not refused by 29 under powers with which the first one
/// is not.
pub fn dearer(r: &mut Random, job: &Job, powers: Powers) -> Job {
    let (mut costs, limits) = (costs(job), limits(powers));
    let (one, several) = (r.index(5), r.chance(20));
    for i in 0..5 {
        if i == one || (several && r.chance(50)) {
            costs[i] = raised(r, costs[i], limits[i]);
        }
    }
    let [cd, cm, v, rd, rm] = costs;
    Job { platform: Platform { cd, cm, v, rd, rm, ..job.platform }, ..*job }
}
