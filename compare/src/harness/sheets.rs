//! Sheets of jobs, whole and damaged.

use crate::random::Random;
use crate::sheet_writer::{self, put, HEADER_SIZE, PAIRS};
use crate::types::Job;

fn get(sheet: &[u8], at: usize) -> u32 {
    u32::from_le_bytes([sheet[at], sheet[at + 1], sheet[at + 2], sheet[at + 3]])
}

/// Junk in one gap, or in any of the three: before, between and after the
/// sections.
fn gaps(r: &mut Random) -> [Vec<u8>; 3] {
    let chosen = if r.chance(60) { 1 << r.below(3) } else { r.between(1, 7) };
    [0, 1, 2].map(|i| {
        let size = if chosen >> i & 1 == 1 { r.between(1, 6) as usize } else { 0 };
        r.bytes(size)
    })
}

/// A header and two sections, with gaps.
fn with_gaps(r: &mut Random, tasks: usize, sections: [&[u8]; 2]) -> Vec<u8> {
    let gaps = gaps(r);
    sheet_writer::assembled(tasks, sections, gaps.each_ref().map(Vec::as_slice))
}

/// The sections of a job, in either order.
fn sections(r: &mut Random, job: &Job) -> [Vec<u8>; 2] {
    let platform = sheet_writer::platform_section(&job.platform);
    let weights = sheet_writer::weights_section(job.task_weights());
    let platform_first = r.chance(50);
    if platform_first {
        [platform, weights]
    } else {
        [weights, platform]
    }
}

/// The sheet of a job, sections in either order.
pub fn whole(r: &mut Random, job: &Job) -> Vec<u8> {
    let sections = sections(r, job);
    sheet_writer::assembled(job.tasks, sections.each_ref().map(Vec::as_slice), [&[]; 3])
}

/// The same with stray bytes.
fn gapped(r: &mut Random, job: &Job) -> Vec<u8> {
    let sections = sections(r, job);
    with_gaps(r, job.tasks, sections.each_ref().map(Vec::as_slice))
}

/// A sheet of the job that has a wrong size, kind or count in a section.
fn wrong_sections(r: &mut Random, job: &Job) -> Vec<u8> {
    let mut platform = sheet_writer::platform_section(&job.platform);
    let mut weights = sheet_writer::weights_section(job.task_weights());
    let mut tasks = job.tasks;
    match r.below(7) {
        0 => platform[0] = r.pick(&[0, 2, 3, 255]),
        1 => weights[0] = r.pick(&[0, 1, 3, 255]),
        2 => platform.push(0),
        3 => platform.truncate(platform.len() - 1),
        4 => weights.push(0),
        5 => weights.truncate(weights.len() - 1),
        _ => tasks = r.between(1, 64) as usize,
    }
    if r.chance(65) {
        with_gaps(r, tasks, [&platform, &weights])
    } else {
        sheet_writer::assembled(tasks, [&platform, &weights], [&[]; 3])
    }
}

fn flip(r: &mut Random, sheet: &mut [u8], from: usize, to: usize) {
    let at = from + r.index(to - from);
    sheet[at] ^= 1 << r.below(8);
}

/// Changes to the pairs of offset and length.
fn shift_pairs(r: &mut Random, sheet: &mut [u8]) {
    let size = sheet.len() as u32;
    let pair = r.pick(&PAIRS);
    let (start, length) = (get(sheet, pair), get(sheet, pair + 4));
    match r.below(9) {
        0 => put(sheet, pair, start.wrapping_add(1)),
        1 => put(sheet, pair, start.wrapping_sub(1)),
        2 => put(sheet, pair + 4, 0),
        // The end one byte past the sheet, or just at it.
        3 => put(sheet, pair + 4, size.wrapping_sub(start).wrapping_add(r.below(2) as u32)),
        4 => put(sheet, pair, size.wrapping_sub(length).wrapping_add(r.below(2) as u32)),
        // An end that would be small again after a wrap at 2^32.
        5 => {
            let back = r.between(1, 64) as u32;
            put(sheet, pair, back.wrapping_neg());
            put(sheet, pair + 4, back.wrapping_add(length));
        }
        6 => put(sheet, pair, r.below(21) as u32),
        7 => {
            let (other, other_size) = (get(sheet, 16 - pair), get(sheet, 20 - pair));
            put(sheet, pair, other);
            put(sheet, pair + 4, other_size);
        }
        _ => {
            let first: Vec<u8> = sheet[4..12].to_vec();
            sheet.copy_within(12..20, 4);
            sheet[12..20].copy_from_slice(&first);
        }
    }
}

/// Sizes near the least and the most.
fn resized(r: &mut Random, mut sheet: Vec<u8>) -> Vec<u8> {
    let size = match r.below(6) {
        0 => r.index(21),
        1 => r.pick(&[0, 1, 19, 20]),
        2 => r.pick(&[4095, 4096]),
        3 => r.pick(&[4097, 4098, 8192, 70000]),
        4 => sheet.len() - 1,
        _ => r.index(sheet.len()),
    };
    let junk = r.byte();
    sheet.resize(size, junk);
    sheet
}

fn odd_header(r: &mut Random, sheet: &mut [u8]) {
    match r.below(6) {
        0 => sheet[0] = r.pick(&[0, 2, 255]),
        1 => sheet[3] = r.pick(&[1, 255]),
        2 => sheet[1] = r.pick(&[0, 65, 66, 128, 255]),
        3 => sheet[2] = r.pick(&[0, 1, 3, 255]),
        4 => flip(r, sheet, 0, 4),
        _ => {
            flip(r, sheet, 0, 4);
            flip(r, sheet, 0, 4);
        }
    }
}

/// A sheet with some damage, at times in two places.
pub fn damaged(r: &mut Random, job: &Job) -> Vec<u8> {
    let mut sheet = damaged_once(r, job);
    if sheet.len() >= HEADER_SIZE && r.chance(35) {
        match r.below(3) {
            0 => shift_pairs(r, &mut sheet),
            _ => odd_header(r, &mut sheet),
        }
    }
    sheet
}

fn damaged_once(r: &mut Random, job: &Job) -> Vec<u8> {
    let mut sheet = whole(r, job);
    let size = sheet.len();
    match r.below(30) {
        0..=3 => odd_header(r, &mut sheet),
        4..=8 => shift_pairs(r, &mut sheet),
        9..=13 => return wrong_sections(r, job),
        14..=16 => return resized(r, sheet),
        17 => flip(r, &mut sheet, 4, HEADER_SIZE),
        18 => flip(r, &mut sheet, HEADER_SIZE, size),
        19 => flip(r, &mut sheet, 0, size),
        20..=28 => return gapped(r, job),
        _ => {
            let count = r.index(200);
            sheet = r.bytes(count);
            if count > 3 && r.chance(80) {
                sheet[..4].copy_from_slice(&[1, r.between(1, 64) as u8, 2, 0]);
            }
        }
    }
    sheet
}
