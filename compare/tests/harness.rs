//! The harness: what it makes, and that it counts what it sees.

use compare::harness::changes::Changes;
use compare::harness::check;
use compare::harness::commands::Pool;
use compare::harness::dearer::{self, Pair};
use compare::harness::jobs;
use compare::harness::named_states::{self, ALTERATIONS};
use compare::harness::runs;
use compare::harness::tally::{Call, LongLogs, Tally, LONG_WANTED, NUMBERS, WANTED};
use compare::random::Random;
use compare::reference::energy::{self, EnergyCosts, MAX_POWER};
use compare::reference::log;
use compare::reference::names;
use compare::reference::plan;
use compare::reference::printed::{self, MAX_PRINTED_TASKS};
use compare::reference::run;
use compare::reference::setting::MAX_TIME;
use compare::reference::sheet;
use compare::reference::stretch::Table;
use compare::sheet_writer;
use compare::types::{Answer, NamedRun, Names, Platform, Powers, RECORD_SIZE};

/// Two ways to one plan, on jobs made to have ties and edges.
#[test]
fn rows_agree_with_trying() {
    let mut random = Random::new(7);
    let mut compared = 0;
    while compared < 400 {
        let job = jobs::any(&mut random, 5).job;
        if sheet::check_values(&job).is_err() {
            continue;
        }
        let (tried, rows) = (plan::by_trying(&job), plan::by_rows(&job));
        if tried.time <= MAX_TIME {
            assert_eq!(tried, rows);
            compared += 1;
        } else {
            assert!(rows.time > MAX_TIME);
        }
    }
}

/// The same by energy.
#[test]
fn rows_agree_with_trying_by_energy() {
    let mut random = Random::new(13);
    let mut compared = 0;
    while compared < 400 {
        let job = jobs::any(&mut random, 5).job;
        let mut power = || random.between(1, MAX_POWER);
        let powers = Powers { computing: power(), saving: power() };
        if sheet::check_values(&job).is_err() || energy::check_powers(&job, powers).is_err() {
            continue;
        }
        let costs = EnergyCosts::new(&job, powers);
        let tried = plan::by_trying_under(&costs, &job);
        let rows = plan::by_rows_under(&costs, &Table::new(&job));
        if tried.time <= MAX_TIME {
            assert_eq!(tried, rows);
            compared += 1;
        } else {
            assert!(rows.time > MAX_TIME);
        }
    }
}

/// The equations as printed have the same plan, up to their longest chain.
#[test]
fn equations_agree_with_trying() {
    let mut random = Random::new(11);
    let mut compared = [0; MAX_PRINTED_TASKS + 1];
    while compared.iter().skip(1).any(|&n| n < 10) {
        let job = jobs::any(&mut random, MAX_PRINTED_TASKS).job;
        if sheet::check_values(&job).is_err() || compared[job.tasks] == 10 {
            continue;
        }
        let (tried, asked) = (plan::by_trying(&job), printed::by_equations(&job));
        if tried.time <= MAX_TIME {
            assert_eq!(tried, asked);
            compared[job.tasks] += 1;
        } else {
            assert!(asked.time > MAX_TIME);
        }
    }
}

/// A step is a log of one record, and a plan's marks have its price.
#[test]
fn no_differences_and_every_refusal() {
    let mut tally = Tally::default();
    let mut random = Random::new(5);
    for _ in 0..6000 {
        check::one(&mut random, &mut tally);
    }
    assert_eq!((tally.sheets, tally.differences), (6000, 0));
    assert!(tally.complete());
}

#[test]
fn a_difference_is_counted() {
    let mut tally = Tally::default();
    tally.same("numbers", &[], &"any", &1, &1);
    assert_eq!(tally.differences, 0);
    tally.same("numbers", &[], &"any", &1, &2);
    assert_eq!(tally.differences, 1);
}

/// Holds the answers of pairs against the law of request 107, some cost being
/// raised in each of them or none.
fn held(raised: bool, pairs: &[[Answer; 2]]) -> Tally {
    let mut tally = Tally::default();
    let powers = Powers { computing: 1, saving: 1 };
    let pair = Pair { cheaper: Vec::new(), dearer: Vec::new(), tasks: 1, powers, raised };
    for &answers in pairs {
        dearer::hold(&mut tally, &pair, &"plan", answers, |dearer| &mut dearer.plans);
    }
    tally
}

fn result(time: u64) -> Answer {
    Answer { number: 0, time }
}

fn refused(number: u64) -> Answer {
    Answer { number, time: 0 }
}

#[test]
fn a_fall_is_a_difference() {
    let [less, more, too_slow] = [result(8), result(9), refused(13)];
    let lawful = [[less, more], [less, less], [less, too_slow], [too_slow, too_slow]];
    let tally = held(true, &lawful);
    let Changes { rose, stayed, became_13, both_13, fell } = tally.dearer.plans;
    assert_eq!([rose, stayed, became_13, both_13, fell], [1, 1, 1, 1, 0]);
    assert_eq!(tally.differences, 0);
    let fallen = [[more, less], [too_slow, less], [less, refused(7)], [too_slow, refused(7)]];
    let tally = held(true, &fallen);
    assert_eq!((tally.dearer.plans.fell, tally.differences), (4, 4));
}

#[test]
fn without_a_raised_cost_any_change_is_a_difference() {
    let [less, more, too_slow] = [result(8), result(9), refused(13)];
    assert_eq!(held(false, &[[less; 2], [too_slow; 2]]).differences, 0);
    let changed = [[less, more], [more, less], [less, too_slow], [too_slow, less]];
    assert_eq!(held(false, &changed).differences, 4);
}

/// A dearer job has no lower cost, and the same rates and weights; it passes
/// 1 to 8 and 29 if the first one does.
#[test]
fn dearer_jobs_differ_in_costs_alone() {
    let mut random = Random::new(107);
    let mut made = 0;
    while made < 1000 {
        let job = jobs::any(&mut random, 5).job;
        let mut power = || random.between(1, MAX_POWER);
        let powers = Powers { computing: power(), saving: power() };
        if sheet::check_values(&job).is_err() || energy::check_powers(&job, powers).is_err() {
            continue;
        }
        let dearer = jobs::dearer(&mut random, &job, powers);
        let mut costs = jobs::costs(&job).into_iter().zip(jobs::costs(&dearer));
        assert!(costs.all(|(before, after)| before <= after));
        let Platform { failstop, silent, .. } = job.platform;
        let same = Platform { failstop, silent, ..dearer.platform };
        assert_eq!((dearer.task_weights(), dearer.platform), (job.task_weights(), same));
        assert_eq!(sheet::check_values(&dearer), Ok(()));
        assert_eq!(energy::check_powers(&dearer, powers), Ok(()));
        made += 1;
    }
}

#[test]
fn complete_needs_every_number_and_every_edge_often() {
    let mut tally = Tally::default();
    for number in NUMBERS {
        assert!(!tally.complete());
        (0..WANTED).for_each(|_| tally.count(Call::Plan, number));
    }
    let edges: [fn(&mut Tally) -> &mut u64; 80] = [
        |t| &mut t.plans.tied,
        |t| &mut t.plans.zero_cost,
        |t| &mut t.plans.zero_rate,
        |t| &mut t.plans.near_limit,
        |t| &mut t.plans.past_limit,
        |t| &mut t.plans.long,
        |t| &mut t.plans.long_near_limit,
        |t| &mut t.joins.of_64,
        |t| &mut t.joins.of_65,
        |t| &mut t.joins.at_total,
        |t| &mut t.joins.over_total,
        |t| &mut t.joins.one_short,
        |t| &mut t.refills.stopped,
        |t| &mut t.refills.priced,
        |t| &mut t.refills.past_disk,
        |t| &mut t.printed.of_8,
        |t| &mut t.printed.of_9,
        |t| &mut t.printed.long_and_short,
        |t| &mut t.printed.both,
        |t| &mut t.strays.alone[0],
        |t| &mut t.strays.alone[1],
        |t| &mut t.strays.alone[2],
        |t| &mut t.strays.before_kinds,
        |t| &mut t.strays.after_extents,
        |t| &mut t.strays.weights_first,
        |t| &mut t.energies.as_time,
        |t| &mut t.energies.other_marks,
        |t| &mut t.energies.short,
        |t| &mut t.energies.outside,
        |t| &mut t.energies.over_product,
        |t| &mut t.energies.at_product,
        |t| &mut t.energies.too_dear,
        |t| &mut t.energies.at_limit,
        |t| &mut t.energies.over_limit,
        |t| &mut t.dearer.plans.rose,
        |t| &mut t.dearer.plans.stayed,
        |t| &mut t.dearer.plans.became_13,
        |t| &mut t.dearer.plans.both_13,
        |t| &mut t.dearer.prices.rose,
        |t| &mut t.dearer.prices.stayed,
        |t| &mut t.dearer.prices.became_13,
        |t| &mut t.dearer.prices.both_13,
        |t| &mut t.dearer.energies.rose,
        |t| &mut t.dearer.energies.stayed,
        |t| &mut t.dearer.energies.became_13,
        |t| &mut t.dearer.energies.both_13,
        |t| &mut t.dearer.alone[0],
        |t| &mut t.dearer.alone[1],
        |t| &mut t.dearer.alone[2],
        |t| &mut t.dearer.alone[3],
        |t| &mut t.dearer.alone[4],
        |t| &mut t.dearer.several,
        |t| &mut t.dearer.none,
        |t| &mut t.dearer.to_limit,
        |t| &mut t.dearer.other_order,
        |t| &mut t.commands.again,
        |t| &mut t.commands.again_full,
        |t| &mut t.commands.awaited,
        |t| &mut t.commands.moved,
        |t| &mut t.commands.back,
        |t| &mut t.commands.onward,
        |t| &mut t.commands.finished[0],
        |t| &mut t.commands.finished[1],
        |t| &mut t.commands.finished[2],
        |t| &mut t.commands.after_12,
        |t| &mut t.commands.empty,
        |t| &mut t.commands.before_30,
        |t| &mut t.commands.before_31,
        |t| &mut t.commands.altered[0],
        |t| &mut t.commands.altered[1],
        |t| &mut t.commands.altered[2],
        |t| &mut t.commands.altered[3],
        |t| &mut t.commands.altered[4],
        |t| &mut t.commands.altered[5],
        |t| &mut t.commands.altered[6],
        |t| &mut t.commands.altered[7],
        |t| &mut t.commands.altered[8],
        |t| &mut t.commands.altered[9],
        |t| &mut t.commands.altered[10],
        |t| &mut t.commands.altered[11],
    ];
    for edge in edges {
        assert!(!tally.complete());
        *edge(&mut tally) = WANTED;
    }
    assert!(tally.complete());
}

#[test]
fn long_logs_are_to_be_accepted_and_refused() {
    let complete = |accepted, refused| {
        let mut tally = Tally::default();
        tally.long_logs = LongLogs { accepted, refused };
        tally.long_logs_complete()
    };
    assert!(!complete(LONG_WANTED, 0));
    assert!(!complete(0, LONG_WANTED));
    assert!(complete(LONG_WANTED, LONG_WANTED));
}

/// An altered state breaks 21 if it is to be spoiled, and else does not.
#[test]
fn altered_states_are_as_drawn() {
    let platform = Platform { failstop: 1, silent: 1, cd: 9, cm: 3, v: 2, rd: 8, rm: 4 };
    let sheet = sheet_writer::sheet(&platform, &[5, 6, 7]);
    let run = run::start(&sheet, &[2, 0, 3]).unwrap();
    let state = NamedRun { run, names: Names::NONE };
    let mut random = Random::new(109);
    for _ in 0..200 {
        let pool = Pool::new(&mut random);
        for way in ALTERATIONS {
            let altered = named_states::altered(&mut random, &pool, &state, way);
            assert_eq!(names::is_broken(&altered), way.spoils());
        }
    }
}

/// A long log is accepted, or refused by its last record alone.
#[test]
fn long_logs_are_as_drawn() {
    let platform = Platform { failstop: 1, silent: 1, cd: 9, cm: 3, v: 2, rd: 8, rm: 4 };
    let sheet = sheet_writer::sheet(&platform, &[5, 6, 7]);
    let run = run::start(&sheet, &[2, 1, 3]).unwrap();
    let mut random = Random::new(3);
    assert!(log::follow(&run, &runs::long_log(&mut random, &run, false)).is_ok());
    let refused = runs::long_log(&mut random, &run, true);
    assert!(log::follow(&run, &refused).is_err());
    assert!(log::follow(&run, &refused[..refused.len() - RECORD_SIZE]).is_ok());
}
