//! The known examples of document 01 and of the requests, against the
//! reference.

use compare::reference::energy::{energy, EnergyCosts};
use compare::reference::growth::{g, h};
use compare::reference::join::join;
use compare::reference::log;
use compare::reference::plan;
use compare::reference::printed;
use compare::reference::run::{self, History};
use compare::reference::setting::{self, price};
use compare::reference::sheet::{self, lookup, Section};
use compare::sheet_writer;
use compare::types::{Event, Job, Platform, Powers, Run};

const UNIT: u128 = 1 << 24;

/// Rates 0 and all costs 0.
const FREE: Platform = Platform { failstop: 0, silent: 0, cd: 0, cm: 0, v: 0, rd: 0, rm: 0 };

const PLATFORM_A: Platform =
    Platform { failstop: 0, silent: 1 << 31, cd: 5000, cm: 1000, v: 928, rd: 4000, rm: 1000 };

fn sheet_a() -> Vec<u8> {
    sheet_writer::sheet(&PLATFORM_A, &[131072, 131072])
}

/// The run of A under marks through events.
fn run_under(marks: &[u8], events: &[Event]) -> Run {
    let mut history = History::new(&run::start(&sheet_a(), marks).unwrap());
    for &event in events {
        history.step(event).unwrap();
    }
    history.run()
}

fn run_a(events: &[Event]) -> Run {
    run_under(&[2, 3], events)
}

#[test]
fn growth_sums() {
    assert_eq!((g(0), h(0)), (UNIT, UNIT));
    assert_eq!((g(1), h(1)), (UNIT + 2, UNIT + 1));
    assert_eq!(g(2), UNIT + 3);
    assert_eq!(g(1 << 24), 45605202);
    assert_eq!(g(1 << 25), 123967791);
    assert_eq!((g((1 << 26) + 1), h((1 << 26) + 1)), (0, 0));
    assert_ne!(g(1 << 26), 0);
}

#[test]
fn times_under_a() {
    assert_eq!(price(&sheet_a(), &[0, 3]), Ok(1949854));
    assert_eq!(price(&sheet_a(), &[1, 3]), Ok(1340172));
    assert_eq!(price(&sheet_a(), &[2, 3]), Ok(726347));
    assert_eq!(price(&sheet_a(), &[3, 3]), Ok(731347));
}

#[test]
fn plan_of_a() {
    assert_eq!(plan::plan(&sheet_a(), 2), Ok((726347, vec![2, 3])));
    assert_eq!(plan::plan(&sheet_a(), 1), Err(11));
    let job = sheet::read(&sheet_a()).unwrap();
    assert_eq!(plan::by_rows(&job), plan::by_trying(&job));
}

/// A with itself, and the order of the refusals of two sheets.
#[test]
fn joins_of_a() {
    let (a, joined) = (sheet_a(), sheet_writer::sheet(&PLATFORM_A, &[131072; 4]));
    assert_eq!(join(&a, &a, joined.len()), Ok(joined.clone()));
    assert_eq!(plan::plan(&joined, 4), Ok((1449413, vec![2, 2, 2, 3])));
    assert_eq!(join(&a, &a, joined.len() - 1), Err(11));
    assert_eq!(join(&a[..19], &[], 0), Err(1));
    assert_eq!(join(&a, &a[..57], 0), Err(5));
    let heavy = sheet_writer::sheet(&FREE, &[1 << 24; 64]);
    assert_eq!(join(&heavy, &a, 0), Err(26));
    assert_eq!(join(&heavy, &heavy, 0), Err(3));
    let (large, one) = (sheet_writer::sheet(&FREE, &[1 << 30]), sheet_writer::sheet(&FREE, &[1]));
    assert_eq!(join(&large, &one, 0), Err(7));
}

#[test]
fn one_task_of_16() {
    let platform = Platform { failstop: 1 << 20, cd: 6, cm: 4, v: 3, ..FREE };
    assert_eq!(price(&sheet_writer::sheet(&platform, &[16]), &[3]), Ok(30));
}

#[test]
fn starred_run() {
    use Event::*;
    let sums = run_a(&[Done, Passed, Done, Failed, Done, Passed]).place.sums;
    assert_eq!((sums.kept, sums.redone), (262144, 131072));
    assert_eq!((sums.verify, sums.saves, sums.recovery), (2784, 7000, 1000));
}

#[test]
fn stopped_run() {
    use Event::*;
    let place = run_a(&[Done, Passed, Stopped(500)]).place;
    assert_eq!((place.position, place.sums.kept, place.sums.redone), (0, 0, 131572));
    assert_eq!((place.sums.verify, place.sums.saves, place.sums.recovery), (928, 1000, 0));
}

/// Request 102: going back to a disk copy past the start costs R_D + R_M.
#[test]
fn disk_recovery_refills_memory() {
    use Event::*;
    let platform =
        Platform { failstop: 1 << 28, silent: 1 << 29, cd: 30000, rm: 3000, ..PLATFORM_A };
    let of = |tasks: usize| sheet_writer::sheet(&platform, &vec![131072; tasks]);
    assert_eq!(price(&of(2), &[3, 3]), Ok(424978));
    assert_eq!(price(&of(4), &[3, 2, 3, 3]), Ok(853381));
    assert_eq!(plan::plan(&of(2), 2), Ok((424806, vec![2, 3])));
    let place = run_under(&[3, 3], &[Done, Passed, Stopped(500)]).place;
    assert_eq!((place.position, place.sums.recovery), (1, 5000));
    let place = run_under(&[3, 3], &[Done, Passed, Done, Failed]).place;
    assert_eq!((place.position, place.sums.recovery), (1, 1000));
}

/// Request 106: four plans of one sheet, and the energy of one setting.
#[test]
fn plans_by_energy() {
    let platform = Platform {
        failstop: 1 << 26,
        silent: 1 << 28,
        cd: 300000,
        cm: 60000,
        v: 9000,
        rd: 200000,
        rm: 70000,
    };
    let sheet = sheet_writer::sheet(&platform, &[1048583, 500009, 700001, 900007]);
    let of = |computing, saving| energy(&sheet, Powers { computing, saving }, 4);
    assert_eq!(of(1, 1), Ok((9972471, vec![3, 3, 3, 3])));
    assert_eq!(of(1, 1), plan::plan(&sheet, 4));
    assert_eq!(of(1, 16), Ok((30726004, vec![2, 2, 3, 3])));
    assert_eq!(of(3, 5), Ok((33515995, vec![3, 2, 3, 3])));
    let job = sheet::read(&sheet).unwrap();
    let costs = EnergyCosts::new(&job, Powers { computing: 3, saving: 5 });
    assert_eq!(setting::time_under(&costs, &job, &[2, 1, 3, 3]), 41752193);
}

/// Request 106: the range of the powers, and 29 after 8 and before 11.
#[test]
fn range_of_powers() {
    let a = sheet_a();
    let of = |computing, saving| energy(&a, Powers { computing, saving }, 2).map(|_| ());
    assert_eq!([of(1, 1), of(16, 16), of(1, 16), of(16, 1)], [Ok(()); 4]);
    for power in [0, 17, 1 << 8, (1 << 8) + 1, (1 << 32) + 1, 1 << 63, u64::MAX] {
        assert_eq!([of(power, 1), of(1, power), of(power, power)], [Err(29); 3]);
    }
    let short = |computing| energy(&a, Powers { computing, saving: 1 }, 1);
    assert_eq!((short(16), short(17)), (Err(11), Err(29)));
    let silent = Platform { silent: 1 << 31, ..FREE };
    let alone = sheet_writer::sheet(&silent, &[524289]);
    assert_eq!(energy(&alone, Powers { computing: 0, saving: 0 }, 0), Err(8));
}

/// Request 106: each product may be 2^30, and none may pass it. The total is
/// that of all tasks, and recoveries are not added up.
#[test]
fn products_of_powers() {
    let edge = 1 << 26;
    let of = |platform: Platform, weights: &[u32], computing, saving| {
        let sheet = sheet_writer::sheet(&platform, weights);
        energy(&sheet, Powers { computing, saving }, weights.len()).map(|(energy, _)| energy)
    };
    let largest = Platform { cd: edge, cm: edge, v: edge, rd: edge, rm: edge, ..FREE };
    assert_eq!(of(largest, &[edge - 1, 1], 16, 16), Ok(1 << 32));
    assert_eq!(of(FREE, &[edge, 1], 16, 1), Err(29));
    assert_eq!(of(FREE, &[edge, 1], 15, 16), Ok(15 * (u64::from(edge) + 1)));
    let over = edge + 1;
    assert_eq!(of(Platform { v: over, ..FREE }, &[1], 16, 1), Err(29));
    assert_eq!(of(Platform { v: over, ..FREE }, &[1], 1, 16), Ok(u64::from(over) + 1));
    let saved = [
        Platform { cd: over, ..FREE },
        Platform { cm: over, ..FREE },
        Platform { rd: over, ..FREE },
        Platform { rm: over, ..FREE },
    ];
    for platform in saved {
        assert_eq!(of(platform, &[1], 1, 16), Err(29));
        assert!(of(platform, &[1], 16, 1).is_ok());
    }
}

/// Request 106: the limit is on the energy.
#[test]
fn energy_limit() {
    let of = |cd: u32| {
        let platform = Platform { silent: 11 << 20, cd, ..FREE };
        sheet_writer::sheet(&platform, &[1 << 26])
    };
    let powers = Powers { computing: 16, saving: 1 };
    assert_eq!(energy(&of(383721023), powers, 1), Ok(((1 << 34) - 1, vec![3])));
    assert_eq!(energy(&of(383721024), powers, 1), Err(13));
    assert!(plan::plan(&of(383721024), 1).is_ok());
}

/// The largest cost.
const MAX_COST: u32 = 1 << 30;

/// Request 107: A with a cost raised. Its plan does not pay R_D, and leaves a
/// memory copy that is too dear.
#[test]
fn dearer_plans_of_a() {
    let of = |platform: Platform| plan::plan(&sheet_writer::sheet(&platform, &[131072; 2]), 2);
    let a = PLATFORM_A;
    assert_eq!(of(a), Ok((726347, vec![2, 3])));
    assert_eq!(of(Platform { cd: 6000, ..a }), Ok((727347, vec![2, 3])));
    assert_eq!(of(Platform { cd: MAX_COST, ..a }), Ok((1074463171, vec![2, 3])));
    assert_eq!(of(Platform { cm: 2000, ..a }), Ok((728347, vec![2, 3])));
    assert_eq!(of(Platform { cm: MAX_COST, ..a }), Ok((1075080996, vec![1, 3])));
    assert_eq!(of(Platform { v: 1928, ..a }), Ok((731783, vec![2, 3])));
    assert_eq!(of(Platform { v: MAX_COST, ..a }), Ok((5838187157, vec![2, 3])));
    assert_eq!(of(Platform { rd: MAX_COST, ..a }), Ok((726347, vec![2, 3])));
    assert_eq!(of(Platform { rm: 2000, ..a }), Ok((728065, vec![2, 3])));
    assert_eq!(of(Platform { rm: MAX_COST, ..a }), Ok((1340172, vec![1, 3])));
    let [cd, cm, v, rd, rm] = [MAX_COST; 5];
    assert_eq!(of(Platform { cd, cm, v, rd, rm, ..a }), Ok((10083359269, vec![0, 3])));
}

/// Request 107: the price of marks that pay R_D, beside the plan that does
/// not, and a plan by energy.
#[test]
fn dearer_prices_and_energies() {
    let platform =
        Platform { failstop: 1 << 28, silent: 1 << 29, cd: 30000, rm: 3000, ..PLATFORM_A };
    let of = |rd: u32| sheet_writer::sheet(&Platform { rd, ..platform }, &[131072; 2]);
    assert_eq!(price(&of(4000), &[3, 3]), Ok(424978));
    assert_eq!(price(&of(5000), &[3, 3]), Ok(425149));
    assert_eq!(plan::plan(&of(4000), 2), Ok((424806, vec![2, 3])));
    assert_eq!(plan::plan(&of(5000), 2), Ok((424806, vec![2, 3])));
    let of = |cd: u32| sheet_writer::sheet(&Platform { cd, ..PLATFORM_A }, &[131072; 2]);
    let powers = Powers { computing: 2, saving: 3 };
    assert_eq!(energy(&of(5000), powers, 2), Ok((1461409, vec![2, 3])));
    assert_eq!(energy(&of(6000), powers, 2), Ok((1464409, vec![2, 3])));
}

/// Request 107: a time of 2^34 - 1, and what is dearer, whichever cost it is.
#[test]
fn dearer_than_the_limit() {
    let of = |cd: u32, cm: u32, v: u32| {
        let platform = Platform { silent: 11 << 16, cd, cm, v, ..FREE };
        plan::plan(&sheet_writer::sheet(&platform, &[1 << 30]), 1)
    };
    assert_eq!(of(383721023, 0, 0), Ok(((1 << 34) - 1, vec![3])));
    assert_eq!(of(383721024, 0, 0), Err(13));
    assert_eq!(of(383721023, 1, 0), Err(13));
    assert_eq!(of(383721023, 0, 1), Err(13));
    assert_eq!(of(MAX_COST, MAX_COST, MAX_COST), Err(13));
}

/// Rates are outside request 107. Of two sheets the one with the higher silent
/// rate has the lower least time: y_s of each task is 127 x 2^19 and then one
/// more, and G(y_s + 1) - G(y_s), by which M' is multiplied, falls from 54 to
/// 52 through rounding.
#[test]
fn a_higher_rate_with_a_lower_time() {
    let of = |silent: u32| {
        let platform = Platform { failstop: 1, silent, cm: MAX_COST, ..PLATFORM_A };
        sheet_writer::sheet(&platform, &[524288; 2])
    };
    let times = |silent: u32| [1, 2, 3].map(|mark| price(&of(silent), &[mark, 3]));
    let (rate, y) = (127 << 24, 127 << 19);
    assert_eq!([0, 1].map(|more| g(y + more + 1) - g(y + more)), [54, 52]);
    assert_eq!(times(rate), [2572332433, 2203131339, 2203132794].map(Ok));
    assert_eq!(times(rate + 1), [2572332627, 2203131212, 2203132798].map(Ok));
    assert_eq!(price(&of(rate), &[0, 3]), Err(10));
    assert_eq!(plan::plan(&of(rate), 2), Ok((2203131339, vec![2, 3])));
    assert_eq!(plan::plan(&of(rate + 1), 2), Ok((2203131212, vec![2, 3])));
}

/// Weights are outside it too: A's work as one task takes longer than as two,
/// as long as A under 03.
#[test]
fn one_task_for_two() {
    let one = sheet_writer::sheet(&PLATFORM_A, &[262144]);
    assert_eq!(plan::plan(&one, 1), Ok((1949854, vec![3])));
    assert_eq!(price(&sheet_a(), &[0, 3]), Ok(1949854));
    assert_eq!(plan::plan(&sheet_a(), 2), Ok((726347, vec![2, 3])));
}

#[test]
fn exponent_limit() {
    let platform = Platform { silent: 1 << 31, ..FREE };
    let of = |weight: u32| price(&sheet_writer::sheet(&platform, &[weight]), &[3]);
    assert!(of(524288).is_ok());
    assert_eq!(of(524289), Err(8));
}

#[test]
fn time_limit() {
    let of = |silent: u32| sheet_writer::sheet(&Platform { silent, ..FREE }, &[1 << 30]);
    assert_eq!(plan::plan(&of(1 << 20), 1), Err(13));
    assert_eq!(price(&of(1 << 20), &[3]), Err(13));
    assert_eq!(plan::plan(&of(0), 1), Ok((1 << 30, vec![3])));
}

#[test]
fn sizes() {
    assert_eq!(sheet::read(&sheet_a()[..19]), Err(1));
    let of = |n: usize| sheet::read(&sheet_writer::sheet(&FREE, &vec![1; n]));
    assert_eq!(of(64).map(|job| job.tasks), Ok(64));
    assert_eq!(of(65), Err(3));
}

/// Request 105: a byte before, between or after the sections, in either order
/// of the kinds; 28 comes after 5 and before 6.
#[test]
fn stray_bytes() {
    let platform = sheet_writer::platform_section(&PLATFORM_A);
    let weights = sheet_writer::weights_section(&[131072, 131072]);
    for sections in [[&platform[..], &weights], [&weights, &platform]] {
        let of = |gaps: [&[u8]; 3]| sheet_writer::assembled(2, sections, gaps);
        assert_eq!(price(&of([&[]; 3]), &[2, 3]), Ok(726347));
        for gap in 0..3 {
            let mut gaps: [&[u8]; 3] = [&[]; 3];
            gaps[gap] = &[0];
            let sheet = of(gaps);
            assert_eq!(sheet::read(&sheet), Err(28));
            assert_eq!([1, 2, 3].map(|kind| lookup(&sheet, kind)), [Err(28); 3]);
            assert_eq!(plan::plan(&sheet, 0), Err(28));
            assert_eq!(price(&sheet, &[]), Err(28));
            assert_eq!(run::start(&sheet, &[]), Err(28));
            assert_eq!(printed::printed(&sheet, 0), Err(28));
            assert_eq!(join(&sheet, &[], 0), Err(28));
            assert_eq!(join(&sheet_a(), &sheet, 0), Err(28));
            assert_eq!(join(&[], &sheet, 0), Err(1));
        }
    }
    let two_platforms = sheet_writer::assembled(2, [&platform, &platform], [&[], &[], &[0]]);
    assert_eq!(sheet::read(&two_platforms), Err(28));
    let mut overlap = sheet_writer::assembled(2, [&platform, &weights], [&[], &[], &[0]]);
    sheet_writer::put(&mut overlap, sheet_writer::PAIRS[1], 48);
    assert_eq!(sheet::read(&overlap), Err(5));
}

#[test]
fn lookup_by_kind() {
    let sheet = sheet_a();
    assert_eq!(lookup(&sheet, 1), Ok(Section { start: 20, size: 29 }));
    assert_eq!(lookup(&sheet, 2), Ok(Section { start: 49, size: 9 }));
    assert_eq!(lookup(&sheet, 3), Err(6));
    assert_eq!(lookup(&sheet[..57], 1), Err(5));
}

#[test]
fn log_order() {
    let fresh = run_a(&[]);
    let mut broken = fresh;
    broken.job.tasks = 0;
    assert_eq!(log::follow(&fresh, &[]), Ok(fresh));
    assert_eq!(log::follow(&broken, &[]), Err(21));
    assert_eq!(log::follow(&broken, &[1]), Err(12));
    assert_eq!(log::follow(&broken, &[1, 0, 0, 0, 0]), Err(21));
    assert_eq!(log::follow(&fresh, &[1, 0, 0, 0, 0, 9]), Err(12));
    assert_eq!(log::follow(&fresh, &[2, 0, 0, 0, 0, 9]), Err(23));
    assert_eq!(log::follow(&fresh, &[1, 0, 1, 0, 0]), Err(12));
}

#[test]
fn tie_rule() {
    assert!(plan::wins_tie(&[0, 3], &[1, 3]));
    assert!(plan::wins_tie(&[1, 3], &[2, 3]));
    assert!(plan::wins_tie(&[2, 3], &[3, 3]));
    assert!(plan::wins_tie(&[3, 2, 3], &[2, 3, 3]));
    // Marks of 3 decide before marks of 2 or 3, and these before all marks.
    assert!(plan::wins_tie(&[3, 0, 2, 3], &[0, 3, 0, 3]));
    assert!(plan::wins_tie(&[2, 0, 1, 3], &[0, 2, 0, 3]));
    assert!(!plan::wins_tie(&[2, 3], &[2, 3]));
}

/// Settings of one time are counted: all of them if marks are free, those
/// without a disk copy but the last if copies in memory are.
#[test]
fn settings_of_one_time() {
    let count = |platform: Platform, time: u128| {
        plan::settings_of_time(&Job::new(platform, &[5, 7, 9]), time)
    };
    assert_eq!(count(FREE, 21), 16);
    assert_eq!(count(FREE, 20), 0);
    assert_eq!(count(Platform { cd: 1, ..FREE }, 22), 9);
    assert_eq!(count(Platform { cd: 1, ..FREE }, 23), 6);
    assert_eq!(count(Platform { v: 1, ..FREE }, 22), 1);
}
