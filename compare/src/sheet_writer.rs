//! How a job sheet is written in bytes.

use crate::types::Platform;

/// The header and the two pairs of offset and length.
pub const HEADER_SIZE: usize = 20;

/// Where the pairs stand: an offset, and its length 4 bytes after it.
pub const PAIRS: [usize; 2] = [4, 12];

/// Writes a field over four bytes.
pub fn put(sheet: &mut [u8], at: usize, value: u32) {
    sheet[at..at + 4].copy_from_slice(&value.to_le_bytes());
}

fn section(kind: u8, fields: &[u32]) -> Vec<u8> {
    let mut bytes = vec![kind];
    fields.iter().for_each(|field| bytes.extend(field.to_le_bytes()));
    bytes
}

pub fn platform_section(p: &Platform) -> Vec<u8> {
    section(1, &[p.failstop, p.silent, p.cd, p.cm, p.v, p.rd, p.rm])
}

pub fn weights_section(weights: &[u32]) -> Vec<u8> {
    section(2, weights)
}

/// A header and two sections, with a gap before, between and after them.
pub fn assembled(tasks: usize, sections: [&[u8]; 2], gaps: [&[u8]; 3]) -> Vec<u8> {
    let mut sheet = vec![1, tasks as u8, 2, 0];
    sheet.resize(HEADER_SIZE, 0);
    for i in 0..2 {
        sheet.extend(gaps[i]);
        let offset = sheet.len() as u32;
        put(&mut sheet, PAIRS[i], offset);
        put(&mut sheet, PAIRS[i] + 4, sections[i].len() as u32);
        sheet.extend(sections[i]);
    }
    sheet.extend(gaps[2]);
    sheet
}

/// The platform, then the weights, without gaps.
pub fn sheet(platform: &Platform, weights: &[u32]) -> Vec<u8> {
    let sections = [&platform_section(platform)[..], &weights_section(weights)];
    assembled(weights.len(), sections, [&[]; 3])
}
