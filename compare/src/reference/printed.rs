//! Request 104: the equations of section 3.1 of source document 000, asked as
//! they are printed. Each time comes with the marks that give it; `None` says
//! that no allowed stretch leads there. Answers of E_mem are remembered, since
//! E asks for them each time.

use crate::reference::plan::{bit, Part, Plan};
use crate::reference::setting;
use crate::reference::sheet;
use crate::reference::stretch::{self, Before, Table};
use crate::types::{Job, Refusal};
use std::cell::RefCell;
use std::collections::HashMap;

/// The most tasks that the equations are asked for.
pub const MAX_PRINTED_TASKS: usize = 8;

/// A job of the lecture, with the growths of its stretches.
struct Page<'a> {
    job: &'a Job,
    table: Table,
    memory: RefCell<HashMap<(usize, usize), Option<Part>>>,
}

impl Page<'_> {
    /// E_disk(d2) = min { E_disk(d1) + E_mem(d1, d2) + C_D }.
    fn e_disk(&self, d2: usize) -> Option<Part> {
        if d2 == 0 {
            return Some(Part::EMPTY);
        }
        let cd = u128::from(self.job.platform.cd);
        let copy = Part { time: cd, disk: bit(d2), ..Part::EMPTY };
        let by = |d1| Some(self.e_disk(d1)?.then(self.e_mem(d1, d2)?).then(copy));
        (0..d2).filter_map(by).min()
    }

    /// E_mem(d1, m2) = min { E_mem(d1, m1) + E_verif(d1, m1, m2) + C_M }.
    fn e_mem(&self, d1: usize, m2: usize) -> Option<Part> {
        if m2 == d1 {
            return Some(Part::EMPTY);
        }
        if let Some(&known) = self.memory.borrow().get(&(d1, m2)) {
            return known;
        }
        let cm = u128::from(self.job.platform.cm);
        let copy = Part { time: cm, mem: bit(m2), ..Part::EMPTY };
        let by = |m1| Some(self.e_mem(d1, m1)?.then(self.e_verif(d1, m1, m2)?).then(copy));
        let least = (d1..m2).filter_map(by).min();
        self.memory.borrow_mut().insert((d1, m2), least);
        least
    }

    /// (1) E_verif(d1, m1, v2) = min { E_verif(d1, m1, v1) + E(d1, m1, v1, v2) }.
    fn e_verif(&self, d1: usize, m1: usize, v2: usize) -> Option<Part> {
        if v2 == m1 {
            return Some(Part::EMPTY);
        }
        let by = |v1| Some(self.e_verif(d1, m1, v1)?.then(self.e(d1, m1, v1, v2)?));
        (m1..v2).filter_map(by).min()
    }

    /// (4) E(d1, m1, v1, v2).
    fn e(&self, d1: usize, m1: usize, v1: usize, v2: usize) -> Option<Part> {
        let growths = self.table.get(v1, v2)?;
        let mem = self.e_mem(d1, m1)?.time;
        let q = self.e_verif(d1, m1, v1)?.time;
        let before = Before { d: d1, m: m1, mem, q };
        let time = stretch::time(&self.job.platform, &growths, &before);
        Some(Part { time, any: bit(v2), ..Part::EMPTY })
    }
}

/// The plan by the equations of a sheet that passed 1 to 8.
pub fn by_equations(job: &Job) -> Plan {
    let page = Page { job, table: Table::new(job), memory: RefCell::default() };
    let best = page.e_disk(job.tasks).expect("all marks 3 is allowed");
    Plan { time: best.time, marks: best.marks(job.tasks) }
}

/// The plan for a buffer of a size: refusals 1 to 8, 27, 11 and 13.
pub fn printed(sheet: &[u8], buffer_size: usize) -> Result<(u64, Vec<u8>), Refusal> {
    let job = sheet::read(sheet)?;
    if job.tasks > MAX_PRINTED_TASKS {
        return Err(27);
    }
    if buffer_size < job.tasks {
        return Err(11);
    }
    let best = by_equations(&job);
    let time = setting::check_time(best.time)?;
    Ok((time, best.marks))
}
