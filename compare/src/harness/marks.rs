//! Random marks, whole and damaged.

use crate::random::Random;
use crate::reference::stretch;
use crate::types::Job;

/// n marks, the last of them 3, few or many of each kind.
pub fn any(r: &mut Random, n: usize) -> Vec<u8> {
    let style = r.below(5);
    let mut mark = || match style {
        0 => r.pick(&[0, 0, 0, 0, 1, 2, 3]),
        1 => r.pick(&[0, 1, 1, 1, 2]),
        2 => r.pick(&[1, 2, 2, 3]),
        3 => r.pick(&[0, 1, 2, 3]),
        _ => r.pick(&[0, 3]),
    };
    let mut marks: Vec<u8> = (0..n).map(|_| mark()).collect();
    marks[n - 1] = 3;
    marks
}

/// Marks with every stretch allowed, if each task alone is.
pub fn allowed(r: &mut Random, job: &Job) -> Vec<u8> {
    let mut marks = any(r, job.tasks);
    let mut from = 0;
    for v in 1..=job.tasks {
        let next = (v + 1).min(job.tasks);
        if marks[v - 1] == 0 && !stretch::allowed(&job.platform, job.weight(from, next)) {
            marks[v - 1] = r.between(1, 3) as u8;
        }
        if marks[v - 1] != 0 {
            from = v;
        }
    }
    marks
}

/// Marks that break 9 in some way.
pub fn damaged(r: &mut Random, n: usize) -> Vec<u8> {
    let mut marks = any(r, n);
    let at = r.index(n);
    match r.below(8) {
        0 => marks.push(3),
        1 => {
            marks.pop();
        }
        2 => marks.clear(),
        3 => marks.resize(r.pick(&[63, 64, 65, 100, 256 + n]), 3),
        4 => marks[at] = r.pick(&[4, 5, 7, 128, 255]),
        5 => marks.iter_mut().for_each(|m| *m += b'0'),
        6 => marks[n - 1] = r.between(0, 2) as u8,
        _ => marks = r.bytes(n),
    }
    marks
}

/// Marks for a sheet of n tasks, mostly whole.
pub fn for_sheet(r: &mut Random, n: usize) -> Vec<u8> {
    if r.chance(15) {
        damaged(r, n)
    } else {
        any(r, n)
    }
}
