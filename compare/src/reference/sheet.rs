//! Reading a job sheet: refusals 1 to 8, 28 among them after 5, and lookup by
//! kind.

use crate::reference::stretch;
use crate::types::{Job, Platform, Refusal, MAX_TASKS};

/// The largest cost, weight and total of weights.
pub const MAX_TICKS: u128 = 1 << 30;
/// Bytes of the header with its two pairs.
const HEADER_SIZE: usize = 20;
const MAX_SIZE: usize = 4096;
const PLATFORM_SIZE: usize = 29;

/// A section of the sheet, kind byte included. Both fields come from 4 bytes,
/// so that their sum does not wrap.
#[derive(Clone, Copy, Debug, PartialEq, Eq)]
pub struct Section {
    pub start: usize,
    pub size: usize,
}

/// Where the two sections lie.
pub struct Layout {
    tasks: usize,
    platform: Section,
    weights: Section,
}

fn field(sheet: &[u8], at: usize) -> u32 {
    u32::from_le_bytes([sheet[at], sheet[at + 1], sheet[at + 2], sheet[at + 3]])
}

fn pair(sheet: &[u8], at: usize) -> Section {
    Section { start: field(sheet, at) as usize, size: field(sheet, at + 4) as usize }
}

/// The two pairs of a sheet that has a header, whatever they say.
pub fn pairs(sheet: &[u8]) -> [Section; 2] {
    [pair(sheet, 4), pair(sheet, 12)]
}

/// Request 105: a byte from 20 on is in no section.
pub fn has_stray_byte(sheet: &[u8], sections: &[Section; 2]) -> bool {
    let holds = |section: &Section, byte: usize| {
        section.start <= byte && byte < section.start + section.size
    };
    (HEADER_SIZE..sheet.len()).any(|byte| !sections.iter().any(|s| holds(s, byte)))
}

/// Refusal 5 for one section, `floor` being the lowest offset it may have.
fn misplaced(section: Section, floor: usize, sheet_size: usize) -> bool {
    section.size == 0 || section.start < floor || section.start + section.size > sheet_size
}

/// The two sections as 1 to 5 leave them.
fn sections(sheet: &[u8]) -> Result<[Section; 2], Refusal> {
    let size = sheet.len();
    if !(HEADER_SIZE..=MAX_SIZE).contains(&size) {
        return Err(1);
    }
    if sheet[0] != 1 || sheet[3] != 0 {
        return Err(2);
    }
    if sheet[1] == 0 || usize::from(sheet[1]) > MAX_TASKS {
        return Err(3);
    }
    if sheet[2] != 2 {
        return Err(4);
    }
    let [first, second] = pairs(sheet);
    if misplaced(first, HEADER_SIZE, size) {
        return Err(5);
    }
    if misplaced(second, first.start + first.size, size) {
        return Err(5);
    }
    Ok([first, second])
}

/// Refusal 6, or which section is of which kind.
pub fn by_kind(sheet: &[u8], [first, second]: [Section; 2]) -> Result<Layout, Refusal> {
    let tasks = usize::from(sheet[1]);
    let (platform, weights) = match (sheet[first.start], sheet[second.start]) {
        (1, 2) => (first, second),
        (2, 1) => (second, first),
        _ => return Err(6),
    };
    if platform.size != PLATFORM_SIZE || weights.size != 1 + 4 * tasks {
        return Err(6);
    }
    Ok(Layout { tasks, platform, weights })
}

/// Refusals 1 to 5, 28 and 6.
fn layout(sheet: &[u8]) -> Result<Layout, Refusal> {
    let sections = sections(sheet)?;
    if has_stray_byte(sheet, &sections) {
        return Err(28);
    }
    by_kind(sheet, sections)
}

fn content(sheet: &[u8], layout: &Layout) -> Job {
    let f = |i: usize| field(sheet, layout.platform.start + 1 + 4 * i);
    let platform =
        Platform { failstop: f(0), silent: f(1), cd: f(2), cm: f(3), v: f(4), rd: f(5), rm: f(6) };
    let weight = |i: usize| field(sheet, layout.weights.start + 1 + 4 * i);
    let weights: Vec<u32> = (0..layout.tasks).map(weight).collect();
    Job::new(platform, &weights)
}

/// Refusals 7 and 8.
pub fn check_values(job: &Job) -> Result<(), Refusal> {
    let p = &job.platform;
    let dear = [p.cd, p.cm, p.v, p.rd, p.rm].iter().any(|&c| u128::from(c) > MAX_TICKS);
    let odd = job.task_weights().iter().any(|&w| w == 0 || u128::from(w) > MAX_TICKS);
    if dear || odd || job.weight(0, job.tasks) > MAX_TICKS {
        return Err(7);
    }
    let alone = |task: usize| stretch::allowed(p, job.weight(task, task + 1));
    if !(0..job.tasks).all(alone) {
        return Err(8);
    }
    Ok(())
}

/// Refusals 1 to 8 with 28, or the sheet's content.
pub fn read(sheet: &[u8]) -> Result<Job, Refusal> {
    let layout = layout(sheet)?;
    let job = content(sheet, &layout);
    check_values(&job)?;
    Ok(job)
}

/// The section of a kind: refusals 1 to 6 with 28.
pub fn lookup(sheet: &[u8], kind: u64) -> Result<Section, Refusal> {
    let layout = layout(sheet)?;
    match kind {
        1 => Ok(layout.platform),
        2 => Ok(layout.weights),
        _ => Err(6),
    }
}
