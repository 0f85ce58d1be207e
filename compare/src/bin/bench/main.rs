//! `bench`: the library's plan beside two Rust planners, a plain one and one
//! with bounds as the library has them, its plan by energy beside that by time,
//! how many prices, steps and returns a second, and what a record of a log takes.

// Loops go by positions, as the equations do.
#![allow(clippy::needless_range_loop)]

mod bounded;
mod bounds;
mod cases;
mod follower;
mod pairs;
mod plain;
mod rows;
mod stretch;
mod timing;

use compare::harness::runs;
use compare::library;
use compare::random::Random;
use compare::reference::log;
use compare::reference::names;
use compare::reference::run;
use compare::reference::setting;
use compare::reference::sheet;
use compare::types::{
    Command, Event, Job, NamedRun, Names, Platform, Powers, Run, MAX_NAMES, MAX_TASKS,
};
use rows::Plan;
use std::hint::black_box;
use std::process::ExitCode;
use timing::{median, timed};

const SIZES: [usize; 4] = [8, 16, 32, 64];
const POWERS: Powers = Powers { computing: 2, saving: 3 };

/// A time and marks, all 0 if refused.
type Planned = (u64, [u8; MAX_TASKS]);

/// Medians in microseconds.
struct Medians {
    library: f64,
    plain: f64,
    bounded: f64,
}

fn library_plan(sheet: &[u8]) -> Planned {
    let mut buffer = [0; MAX_TASKS];
    let answer = library::plan(sheet, &mut buffer);
    (answer.time, buffer)
}

fn rust_plan(sheet: &[u8], planner: fn(&Job) -> Option<Plan>) -> Planned {
    let plan = sheet::read(sheet).ok().and_then(|job| planner(&job));
    plan.map_or((0, [0; MAX_TASKS]), |p| (p.time, p.marks))
}

/// Repetitions and calls in one, by size.
fn effort(n: usize) -> (usize, u32) {
    match n {
        8 => (101, 20),
        16 => (101, 5),
        32 => (61, 1),
        _ => (31, 1),
    }
}

/// One planner on all the sheets, one after the other.
fn pass(batch: u32, sheets: &[Vec<u8>], planner: impl Fn(&[u8]) -> Planned) -> f64 {
    timed(batch, || sheets.iter().map(|s| planner(black_box(s)).0).sum::<u64>())
}

/// The planners in turn on all the sheets, the first place changing hands.
fn planners(sheets: &[Vec<u8>], n: usize) -> Medians {
    let (rounds, batch) = effort(n);
    let mut times = [Vec::new(), Vec::new(), Vec::new()];
    for round in 0..rounds {
        for turn in 0..3 {
            let which = (round + turn) % 3;
            times[which].push(match which {
                0 => pass(batch, sheets, library_plan),
                1 => pass(batch, sheets, |s| rust_plan(s, plain::plan)),
                _ => pass(batch, sheets, |s| rust_plan(s, bounded::plan)),
            });
        }
    }
    let [library, plain, bounded] = times.map(median);
    Medians { library, plain, bounded }
}

/// The planners agree on a sheet.
fn agree(sheet: &[u8]) -> bool {
    let ours = library_plan(sheet);
    ours == rust_plan(sheet, plain::plan) && ours == rust_plan(sheet, bounded::plan)
}

fn row(name: &str, n: usize, jobs: &[Job]) {
    let sheets: Vec<_> = jobs.iter().map(cases::sheet).collect();
    if !sheets.iter().all(|s| agree(s)) {
        println!("{name:<12}{n:>6}  the planners differ");
        return;
    }
    let m = planners(&sheets, n);
    let (a, b) = (m.library / m.plain, m.library / m.bounded);
    print!("{name:<12}{n:>6}{:>11.1}{:>11.1}{:>11.1}", m.library, m.plain, m.bounded);
    println!("{a:>15.2}{b:>17.2}");
}

fn heading(what: &str) {
    print!("{what:<12}{:>6}{:>11}{:>11}{:>11}", "tasks", "library", "plain", "bounded");
    println!("{:>15}{:>17}", "library/plain", "library/bounded");
}

fn plans() {
    println!("plan, medians in microseconds");
    heading("platform");
    for platform in &cases::TABLE {
        for n in SIZES {
            row(platform.name, n, &[cases::listed(platform, n)]);
        }
    }
    println!("plans of {} random sheets, medians of their total", cases::SHEETS);
    heading("class");
    for class in &cases::CLASSES {
        for n in SIZES {
            row(class.name, n, &cases::jobs(class, n));
        }
    }
}

fn hera(n: usize) -> Vec<u8> {
    cases::sheet(&cases::listed(&cases::HERA, n))
}

fn energy_plan(sheet: &[u8]) -> Planned {
    let mut buffer = [0; MAX_TASKS];
    let answer = library::energy(sheet, POWERS, &mut buffer);
    assert_eq!(answer.number, 0, "a plan by energy");
    (answer.time, buffer)
}

/// Medians of the library's plans by time and by energy, in turn.
fn time_and_energy(sheet: &[u8], n: usize) -> (f64, f64) {
    let (rounds, batch) = effort(n);
    let (mut times, mut energies) = (Vec::new(), Vec::new());
    for _ in 0..rounds {
        times.push(timed(batch, || library_plan(black_box(sheet))));
        energies.push(timed(batch, || energy_plan(black_box(sheet))));
    }
    (median(times), median(energies))
}

fn energies() {
    let Powers { computing, saving } = POWERS;
    println!("library's plans, Hera, powers {computing} and {saving}, medians in microseconds");
    println!("{:<12}{:>6}{:>11}{:>11}{:>15}", "", "tasks", "by time", "by energy", "energy/time");
    for n in SIZES {
        let (time, energy) = time_and_energy(&hera(n), n);
        println!("{:<12}{n:>6}{time:>11.1}{energy:>11.1}{:>15.2}", "", energy / time);
    }
}

/// Calls a second by the median of 51 rounds, library and reference in turn.
fn pace<A, B>(name: &str, batch: u32, library: impl Fn() -> A, reference: impl Fn() -> B) {
    let (mut ours, mut theirs) = (Vec::new(), Vec::new());
    for _ in 0..51 {
        ours.push(timed(batch, &library));
        theirs.push(timed(batch, &reference));
    }
    let (a, b) = (1e6 / median(ours), 1e6 / median(theirs));
    println!("{name:<18}{a:>14.0}{b:>14.0}{:>9.2}", a / b);
}

/// Every mark 2, and the last 3.
fn marks(n: usize) -> Vec<u8> {
    let mut marks = vec![2; n];
    marks[n - 1] = 3;
    marks
}

/// A run in the middle of its tasks, a verification awaited.
fn middle(sheet: &[u8], n: usize) -> Run {
    let mut run = run::start(sheet, &marks(n)).expect("a valid sheet");
    for _ in 0..n / 2 {
        run = run::step(&run, Event::Done).expect("in turn");
        run = run::step(&run, Event::Passed).expect("in turn");
    }
    run::step(&run, Event::Done).expect("in turn")
}

/// The run with its place held under 16 names.
fn full(run: Run) -> NamedRun {
    let mut state = NamedRun { run, names: Names::NONE };
    for k in 0..MAX_NAMES {
        state = names::command(&state, &Command::Name(k as u8)).expect("room");
    }
    state
}

fn calls() {
    println!("calls a second, Hera, every mark 2 and the last 3");
    println!("{:<18}{:>14}{:>14}{:>9}", "call", "library", "reference", "ratio");
    for n in SIZES {
        let (sheet, marks) = (hera(n), marks(n));
        let library = || library::price(black_box(&sheet), black_box(&marks));
        let reference = || setting::price(black_box(&sheet), black_box(&marks));
        pace(&format!("price, {n} tasks"), 200, library, reference);
    }
    for n in SIZES {
        let run = middle(&hera(n), n);
        let library = || library::step(black_box(&run), Event::Passed);
        let reference = || run::step(black_box(&run), Event::Passed);
        pace(&format!("step, {n} tasks"), 2000, library, reference);
    }
    for n in SIZES {
        let (state, back) = (full(middle(&hera(n), n)), Command::Return(0));
        let library = || library::command(black_box(&state), &back);
        let reference = || names::command(black_box(&state), &back);
        pace(&format!("return, {n} tasks"), 2000, library, reference);
    }
}

/// Small costs and weights, so that no total passes 2^40; marks 1, 2, 1, 3 in
/// turn and the last 3.
fn long_run(n: usize) -> Run {
    let platform = Platform { failstop: 1, silent: 1, cd: 9, cm: 3, v: 2, rd: 8, rm: 4 };
    let job = Job::new(platform, &vec![100; n]);
    let mut marks: Vec<u8> = [1, 2, 1, 3].into_iter().cycle().take(n).collect();
    marks[n - 1] = 3;
    run::start(&cases::sheet(&job), &marks).expect("an allowed setting")
}

/// Nanoseconds a record, by the median of 31 rounds in turn, of a log of
/// 10,000 records: the library, a follower in Rust that is written for speed,
/// and, once, the reference.
fn logs() {
    println!("a log of {} records, nanoseconds a record", runs::LONG);
    println!(
        "{:<12}{:>6}{:>11}{:>11}{:>15}{:>11}",
        "", "tasks", "library", "follower", "lib/follower", "reference"
    );
    let a_record = |micros: f64| micros * 1e3 / runs::LONG as f64;
    for n in SIZES {
        let run = long_run(n);
        let log = runs::long_log(&mut Random::new(n as u64), &run, false);
        let reference = timed(1, || assert!(log::follow(&run, &log).is_ok()));
        let expected = log::follow(&run, &log);
        assert_eq!(Ok(library::follow(&run, &log).run), expected, "the library's log");
        assert_eq!(follower::follow(&run, &log), expected, "the follower's log");
        let (mut ours, mut theirs) = (Vec::new(), Vec::new());
        for _ in 0..31 {
            ours.push(timed(20, || library::follow(black_box(&run), black_box(&log))));
            theirs.push(timed(20, || follower::follow(black_box(&run), black_box(&log))));
        }
        let (a, b) = (a_record(median(ours)), a_record(median(theirs)));
        println!("{:<12}{n:>6}{a:>11.1}{b:>11.1}{:>15.2}{:>11.0}", "", a / b, a_record(reference));
    }
}

const PARTS: [(&str, fn()); 4] =
    [("plans", plans), ("energies", energies), ("calls", calls), ("logs", logs)];

/// All parts, or the one that the first argument names.
fn main() -> ExitCode {
    let named = std::env::args().nth(1);
    let chosen = |name: &str| named.as_deref().is_none_or(|n| n == name);
    if !PARTS.iter().any(|part| chosen(part.0)) {
        eprintln!("usage: bench [plans|energies|calls|logs]");
        return ExitCode::from(2);
    }
    println!("library: {}", library::NAME);
    PARTS.iter().filter(|part| chosen(part.0)).for_each(|part| part.1());
    ExitCode::SUCCESS
}

#[cfg(test)]
mod tests {
    use crate::bounded;
    use crate::cases::{self, CLASSES};
    use crate::follower;
    use crate::plain;
    use crate::rows::Plan;
    use compare::harness::jobs;
    use compare::harness::marks;
    use compare::harness::runs;
    use compare::random::Random;
    use compare::reference::log;
    use compare::reference::names;
    use compare::reference::plan;
    use compare::reference::run;
    use compare::reference::setting::MAX_TIME;
    use compare::reference::sheet;
    use compare::types::Job;

    /// The jobs of the class of a name.
    fn of_class(name: &str, n: usize) -> Vec<Job> {
        let class = CLASSES.iter().find(|class| class.name == name).expect("a class");
        cases::jobs(class, n)
    }

    fn planned(planner: fn(&Job) -> Option<Plan>, job: &Job) -> Option<plan::Plan> {
        let plan = planner(job)?;
        Some(plan::Plan { time: u128::from(plan.time), marks: plan.marks[..job.tasks].to_vec() })
    }

    /// Both planners give the reference's plan, or none if that is too slow.
    fn agree_with_reference(job: &Job) {
        let reference = plan::by_rows(job);
        let reference = (reference.time <= MAX_TIME).then_some(reference);
        assert_eq!(planned(plain::plan, job), reference, "plain, {job:?}");
        assert_eq!(planned(bounded::plan, job), reference, "bounded, {job:?}");
    }

    fn agree(job: &Job) {
        assert_eq!(planned(bounded::plan, job), planned(plain::plan, job), "{job:?}");
    }

    #[test]
    fn both_agree_with_the_reference() {
        let mut random = Random::new(11);
        for _ in 0..3000 {
            let job = jobs::any(&mut random, 24).job;
            if sheet::check_values(&job).is_ok() {
                agree_with_reference(&job);
            }
        }
    }

    #[test]
    fn both_agree_with_the_reference_on_the_classes() {
        for class in &CLASSES {
            for n in [1, 2, 3, 5, 8, 9, 16, 17, 24] {
                cases::jobs(class, n).iter().for_each(agree_with_reference);
            }
        }
    }

    #[test]
    fn both_agree_on_long_chains() {
        for class in &CLASSES {
            for n in [32, 33, 48, 64] {
                cases::jobs(class, n).iter().for_each(agree);
            }
        }
    }

    #[test]
    fn classes_pass_1_to_8() {
        for class in &CLASSES {
            for n in [1, 2, 3, 4, 8, 16, 32, 64] {
                for job in cases::jobs(class, n) {
                    assert_eq!(sheet::read(&cases::sheet(&job)), Ok(job), "{}", class.name);
                }
            }
        }
    }

    /// From a state that 21 accepts, fresh or not, the follower has the
    /// reference's answer.
    #[test]
    fn follower_agrees_with_the_reference() {
        let mut random = Random::new(7);
        let mut compared = 0;
        while compared < 2000 {
            let job = jobs::any(&mut random, 24).job;
            let marks = marks::allowed(&mut random, &job);
            let Ok(mut run) = run::start(&cases::sheet(&job), &marks) else { continue };
            for log in [runs::log, runs::damaged_log, runs::log].map(|draw| draw(&mut random, &run))
            {
                let answer = log::follow(&run, &log);
                assert_eq!(follower::follow(&run, &log), answer, "{log:?}");
                run = answer.unwrap_or(run);
                compared += 1;
            }
        }
    }

    /// Most least times are within 5 percent of 2^34, and some are above it.
    #[test]
    fn near_limit_is_near_the_limit() {
        let limit = MAX_TIME as f64;
        for n in [8, 16, 32, 64] {
            let jobs = of_class("near 2^34", n);
            let times: Vec<u128> = jobs.iter().map(|job| plan::by_rows(job).time).collect();
            let near = times.iter().filter(|&&time| (time as f64 / limit - 1.0).abs() < 0.05);
            assert!(near.count() * 4 >= times.len() * 3, "{n} tasks: {times:?}");
            assert!(times.iter().any(|&time| time > MAX_TIME), "{n} tasks: {times:?}");
        }
    }

    /// Most plans share their time with another setting.
    #[test]
    fn ties_are_tied() {
        let jobs = of_class("ties", 6);
        let settings = |job| plan::settings_of_time(job, plan::by_rows(job).time);
        let tied = jobs.iter().filter(|job| settings(job) > 1).count();
        assert!(tied * 2 >= jobs.len(), "{tied}");
    }

    #[test]
    fn many_copies_are_many() {
        for n in [8, 16, 32, 64] {
            for job in of_class("many copies", n) {
                let plan = bounded::plan(&job).expect("a plan");
                let copies = |least: u8| plan.marks.iter().filter(|&&mark| mark >= least).count();
                assert!(copies(2) * 2 >= n && copies(3) * 4 >= n, "{job:?}");
            }
        }
    }
}
