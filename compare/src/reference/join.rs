//! Request 101: two chains joined.

use crate::reference::sheet::{self, MAX_TICKS};
use crate::types::{Platform, Refusal, MAX_TASKS};

/// Form 1 of these values: the platform at 20, the weights at 49, no gaps.
fn form_one(p: &Platform, weights: &[u32]) -> Vec<u8> {
    let mut sheet = vec![1, weights.len() as u8, 2, 0];
    let fields = |sheet: &mut Vec<u8>, values: &[u32]| {
        values.iter().for_each(|value| sheet.extend(value.to_le_bytes()));
    };
    fields(&mut sheet, &[20, 29, 49, 1 + 4 * weights.len() as u32]);
    sheet.push(1);
    fields(&mut sheet, &[p.failstop, p.silent, p.cd, p.cm, p.v, p.rd, p.rm]);
    sheet.push(2);
    fields(&mut sheet, weights);
    sheet
}

/// The joined sheet, if a buffer of `room` bytes holds it. Each sheet is read
/// with 1 to 8, the first one first; then 26, and then 3, 7 and 11.
pub fn join(first: &[u8], second: &[u8], room: usize) -> Result<Vec<u8>, Refusal> {
    let first = sheet::read(first)?;
    let second = sheet::read(second)?;
    if first.platform != second.platform {
        return Err(26);
    }
    let weights = [first.task_weights(), second.task_weights()].concat();
    if weights.len() > MAX_TASKS {
        return Err(3);
    }
    if weights.iter().map(|&w| u128::from(w)).sum::<u128>() > MAX_TICKS {
        return Err(7);
    }
    let joined = form_one(&first.platform, &weights);
    if room < joined.len() {
        return Err(11);
    }
    Ok(joined)
}
