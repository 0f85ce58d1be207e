//! Compares library and reference on one random sheet and runs of it.

use crate::harness::dearer;
use crate::harness::energies;
use crate::harness::jobs::{self, Case};
use crate::harness::joins;
use crate::harness::lent::{self, Lent};
use crate::harness::marks;
use crate::harness::names;
use crate::harness::plans;
use crate::harness::runs;
use crate::harness::sheets;
use crate::harness::tally::{Call, Tally};
use crate::library;
use crate::random::Random;
use crate::reference::calls;
use crate::reference::growth::EXPONENT_LIMIT;
use crate::reference::printed::MAX_PRINTED_TASKS;
use crate::reference::run::{self, History};
use crate::reference::setting;
use crate::reference::sheet;
use crate::sheet_writer::HEADER_SIZE;
use crate::types::{Answer, Event, Job, Outcome, Run, MAX_TASKS};

/// Of so many runs in a hundred, named places are compared too.
const NAMED_PERCENT: u64 = 30;

/// One sheet at hand, with what is drawn and counted.
struct Check<'a> {
    random: &'a mut Random,
    tally: &'a mut Tally,
    sheet: Vec<u8>,
}

/// Makes one sheet and compares all calls on it.
pub fn one(random: &mut Random, tally: &mut Tally) {
    let case = jobs::any(random, MAX_TASKS);
    let sheet = if random.chance(35) {
        sheets::damaged(random, &case.job)
    } else {
        sheets::whole(random, &case.job)
    };
    let copy = sheet.clone();
    let mut check = Check { random, tally, sheet };
    check.all(&case);
    let Check { tally, sheet, .. } = check;
    tally.same("the lent sheet", &copy, &"unchanged", &sheet, &copy);
}

/// Makes a sheet, a run and a long log, and compares the log.
pub fn long_log(random: &mut Random, tally: &mut Tally) {
    loop {
        let job = jobs::any(random, MAX_TASKS).job;
        let sheet = sheets::whole(random, &job);
        if sheet::read(&sheet).is_err() || !runs::may_be_long(&job) {
            continue;
        }
        let marks = marks::allowed(random, &job);
        let fresh = run::start(&sheet, &marks).expect("an allowed setting");
        return Check { random, tally, sheet }.long_log(&fresh);
    }
}

impl Check<'_> {
    fn all(&mut self, case: &Case) {
        self.tally.sheets += 1;
        self.growths();
        self.lookups();
        joins::one(self.random, self.tally, &self.sheet, &case.job);
        let job = sheet::read(&self.sheet);
        self.count_strays(job.as_ref().err().copied().unwrap_or(0));
        let planned = self.plan(case.job.tasks);
        self.printed(case.job.tasks, job.is_ok());
        energies::one(self.random, self.tally, &self.sheet, &case.job);
        let Ok(job) = job else {
            let marks = marks::for_sheet(self.random, case.job.tasks);
            self.price(&marks);
            self.start(&marks);
            return;
        };
        self.tally.read += 1;
        plans::count(self.tally, &job, &planned);
        self.prices(&job, case);
        let read = Case { job, marks: case.marks.clone() };
        dearer::one(self.random, self.tally, &self.sheet, read);
        self.runs(&job);
    }

    fn growths(&mut self) {
        let limit = EXPONENT_LIMIT as u64;
        let any = self.random.draw();
        let inside = any % (limit + 1);
        let sized = self.random.sized(26);
        let edge = self.random.pick(&[0, 1, 2, limit - 1, limit, limit + 1, u64::MAX, 1 << 32]);
        for y in [any, inside, sized, edge] {
            self.tally.growths += 2;
            let library = (library::growth(y), library::mean_growth(y));
            let reference = (calls::growth(y), calls::mean_growth(y));
            self.tally.same("growth sums", &[], &y, &library, &reference);
        }
    }

    fn lookups(&mut self) {
        let odd = self.random.pick(&[0, 3, 255, 257, 258, (1 << 32) + 1, u64::MAX]);
        for kind in [1, 2, odd] {
            let library = library::lookup(&self.sheet, kind);
            let reference = calls::lookup(&self.sheet, kind);
            self.tally.count(Call::Lookup, reference.number);
            self.tally.same("lookup", &self.sheet, &kind, &library, &reference);
        }
    }

    /// Counts sheets with stray bytes by where these are and by what else is
    /// wrong, and accepted ones with the weights first.
    fn count_strays(&mut self, number: u64) {
        if !matches!(number, 0 | 5 | 28) {
            return;
        }
        let (sheet, strays) = (&self.sheet, &mut self.tally.strays);
        let [first, second] = sheet::pairs(sheet);
        match number {
            0 => strays.weights_first += u64::from(sheet[first.start] == 2),
            5 => strays.after_extents += u64::from(sheet::has_stray_byte(sheet, &[first, second])),
            _ => {
                let before = first.start > HEADER_SIZE;
                let between = second.start > first.start + first.size;
                let after = sheet.len() > second.start + second.size;
                match [before, between, after] {
                    [true, false, false] => strays.alone[0] += 1,
                    [false, true, false] => strays.alone[1] += 1,
                    [false, false, true] => strays.alone[2] += 1,
                    _ => {}
                }
                let kinds = sheet::by_kind(sheet, [first, second]);
                strays.before_kinds += u64::from(kinds.is_err());
            }
        }
    }

    fn price(&mut self, marks: &[u8]) {
        let library = library::price(&self.sheet, marks);
        let reference = calls::price(&self.sheet, marks);
        self.tally.count(Call::Price, reference.number);
        self.tally.same("price", &self.sheet, &marks, &library, &reference);
        if reference.number == 0 {
            self.count_refills(marks);
        }
    }

    /// Counts an accepted price that has R_M in an R_D'.
    fn count_refills(&mut self, marks: &[u8]) {
        let platform = sheet::read(&self.sheet).expect("a sheet that has a price").platform;
        let before_last = &marks[..marks.len() - 1];
        let disk = before_last.iter().position(|&mark| mark == 3);
        if let (Some(disk), 1.., 1..) = (disk, platform.failstop, platform.rm) {
            self.tally.refills.priced += 1;
            self.tally.refills.past_disk += u64::from(before_last[disk..].contains(&2));
        }
    }

    fn prices(&mut self, job: &Job, case: &Case) {
        if let Some(marks) = &case.marks {
            self.price(marks);
            if setting::check_marks(job, marks).is_ok() {
                plans::count_edge(self.tally, setting::time(job, marks));
            }
        }
        for _ in 0..2 {
            let marks = marks::for_sheet(self.random, job.tasks);
            self.price(&marks);
        }
        let marks = marks::allowed(self.random, job);
        self.price(&marks);
    }

    /// A plan into a buffer with guards; the whole memory is compared. Hands
    /// back the reference's answer.
    fn plan(&mut self, n: usize) -> Answer {
        let size = lent::room(self.random, n);
        let mut lent = Lent::new(self.random, size);
        let mut library_lent = lent.clone();
        let library = library::plan(&self.sheet, library_lent.buffer());
        let reference = calls::plan(&self.sheet, lent.buffer());
        self.tally.count(Call::Plan, reference.number);
        let (library, expected) = ((library, &library_lent), (reference, &lent));
        self.tally.same("plan", &self.sheet, &size, &library, &expected);
        if reference.number == 0 {
            self.price_of_plan(lent.buffer(), reference.time);
        }
        reference
    }

    /// The equations as printed, into a buffer that holds the marks and, now
    /// and then, into a short one too.
    fn printed(&mut self, n: usize, read: bool) {
        let long = n > MAX_PRINTED_TASKS && self.random.chance(50);
        let size = if long { self.random.index(n) } else { lent::room(self.random, n) };
        self.printed_into(size, read);
        if size < n {
            self.printed_into(n, read);
        }
    }

    /// The equations as printed, and the planner beside them: a sheet that is
    /// not too long for them has one answer.
    fn printed_into(&mut self, size: usize, read: bool) {
        let mut lent = Lent::new(self.random, size);
        let (mut printed_lent, mut planned_lent) = (lent.clone(), lent.clone());
        let printed = library::printed(&self.sheet, printed_lent.buffer());
        let reference = calls::printed(&self.sheet, lent.buffer());
        self.tally.count(Call::Printed, reference.number);
        let (library, expected) = ((printed, &printed_lent), (reference, &lent));
        self.tally.same("the equations", &self.sheet, &size, &library, &expected);
        if !read || usize::from(self.sheet[1]) <= MAX_PRINTED_TASKS {
            let planned = library::plan(&self.sheet, planned_lent.buffer());
            let (one, other) = ((printed, &printed_lent), (planned, &planned_lent));
            self.tally.same("both engines", &self.sheet, &size, &one, &other);
            self.tally.printed.both += u64::from(planned.number == 0);
        }
        self.count_printed(size, reference.number);
    }

    /// Counts edges of the equations' answers.
    fn count_printed(&mut self, size: usize, number: u64) {
        let edges = &mut self.tally.printed;
        let n = self.sheet.get(1).map_or(0, |&n| usize::from(n));
        edges.of_8 += u64::from(number == 0 && n == MAX_PRINTED_TASKS);
        edges.of_9 += u64::from(number == 27 && n == MAX_PRINTED_TASKS + 1);
        edges.long_and_short += u64::from(number == 27 && size < n);
    }

    /// The price of the plan's marks is the plan's time.
    fn price_of_plan(&mut self, buffer: &[u8], time: u64) {
        let marks = &buffer[..usize::from(self.sheet[1])];
        let library = library::price(&self.sheet, marks);
        let reference = Answer { number: 0, time };
        self.tally.count(Call::Price, 0);
        self.tally.same("price of the plan", &self.sheet, &marks, &library, &reference);
    }

    fn start(&mut self, marks: &[u8]) -> Option<Run> {
        let library = library::start(&self.sheet, marks);
        let reference = calls::start(&self.sheet, marks);
        self.tally.count(Call::Start, reference.number);
        self.tally.same("start", &self.sheet, &marks, &library, &reference);
        (reference.number == 0).then_some(reference.run)
    }

    fn runs(&mut self, job: &Job) {
        let marks = marks::for_sheet(self.random, job.tasks);
        self.start(&marks);
        let marks = marks::allowed(self.random, job);
        if let Some(fresh) = self.start(&marks) {
            self.follow_run(&fresh);
            if self.random.chance(NAMED_PERCENT) {
                names::one(self.random, self.tally, &self.sheet, &fresh);
            }
        }
    }

    /// A run from its start, with turns aside to other states and to logs.
    fn follow_run(&mut self, fresh: &Run) {
        let mut history = History::new(fresh);
        let steps = self.random.between(1, 3 * fresh.job.tasks as u64 + 6).min(80);
        for _ in 0..steps {
            let run = history.run();
            let event = runs::event(self.random, &run);
            let reference = calls::next(&mut history, event);
            self.step(&run, event, reference);
            match self.random.below(8) {
                0 => self.near_total(&run),
                1 => self.changed(&run),
                2 => self.log(&run),
                _ => {}
            }
            if run::is_finished(&run) && self.random.chance(50) {
                break;
            }
        }
        let last = history.run();
        self.near_total(&last);
        self.changed(&last);
        self.log(&last);
        self.log(fresh);
    }

    fn step(&mut self, run: &Run, event: Event, reference: Outcome) {
        let library = library::step(run, event);
        self.tally.count(Call::Step, reference.number);
        self.tally.same("step", &self.sheet, &(run, event), &library, &reference);
        if let (0, Event::Stopped(_), 1..) = (reference.number, event, run.job.platform.rm) {
            self.tally.refills.stopped += u64::from(reference.run.place.position > 0);
        }
    }

    fn lone_step(&mut self, run: &Run, event: Event) -> Run {
        let reference = calls::step(run, event);
        self.step(run, event, reference);
        reference.run
    }

    fn near_total(&mut self, run: &Run) {
        let event = runs::event(self.random, run);
        let near = runs::near_total(self.random, run, event);
        self.lone_step(&near, event);
    }

    fn changed(&mut self, run: &Run) {
        let mut changed = runs::changed(self.random, run);
        for _ in 0..3 {
            let event = runs::event(self.random, &changed);
            changed = self.lone_step(&changed, event);
            if run::is_broken(&changed) {
                break;
            }
        }
    }

    /// A log of 10,000 records, from the start or from the middle of a run.
    fn long_log(&mut self, fresh: &Run) {
        let mut run = *fresh;
        for _ in 0..self.random.below(2 * fresh.job.tasks as u64) {
            let event = runs::event(self.random, &run);
            run = run::step(&run, event).unwrap_or(run);
        }
        if run::is_finished(&run) {
            run = *fresh;
        }
        let refused = self.random.chance(40);
        let log = runs::long_log(self.random, &run, refused);
        let number = self.followed(&run, log);
        self.tally.long_logs.accepted += u64::from(number == 0);
        self.tally.long_logs.refused += u64::from(number != 0);
    }

    fn log(&mut self, run: &Run) {
        let run = match self.random.below(10) {
            0..=1 => runs::changed(self.random, run),
            2 => {
                let event = runs::event(self.random, run);
                runs::near_total(self.random, run, event)
            }
            _ => *run,
        };
        let log = if self.random.chance(35) {
            runs::damaged_log(self.random, &run)
        } else {
            runs::log(self.random, &run)
        };
        self.followed(&run, log);
    }

    /// A log by library and reference; the reference's number.
    fn followed(&mut self, run: &Run, log: Vec<u8>) -> u64 {
        let library = library::follow(run, &log);
        let reference = calls::follow(run, &log);
        self.tally.count(Call::Follow, reference.number);
        self.tally.same("follow", &self.sheet, &(run, log), &library, &reference);
        reference.number
    }
}
