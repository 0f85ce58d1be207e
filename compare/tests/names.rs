//! Request 109 by hand, against the reference.

use compare::log_writer;
use compare::reference::names::{self, Followed};
use compare::reference::run;
use compare::sheet_writer;
use compare::types::{
    Command, Event, Held, NamedRun, Names, Place, Platform, Refusal, Run, Sums, MAX_NAMES,
};
use Command::{Drop, Name, Return};
use Event::{Done, Passed, Stopped};

/// Three tasks of 50, 60 and 70 under the marks 3, 0, 3.
fn fresh() -> NamedRun {
    let platform = Platform { failstop: 1, silent: 1, cd: 9, cm: 3, v: 2, rd: 8, rm: 4 };
    let sheet = sheet_writer::sheet(&platform, &[50, 60, 70]);
    NamedRun { run: run::start(&sheet, &[3, 0, 3]).unwrap(), names: Names::NONE }
}

fn follow(events: &[Event]) -> Command {
    Command::Follow(events.iter().flat_map(|&event| log_writer::record(event)).collect())
}

/// The state after commands that are accepted.
fn after(state: &NamedRun, commands: &[Command]) -> NamedRun {
    let mut followed = Followed::new(state).unwrap();
    for command in commands {
        assert_eq!(followed.obey(command), Ok(()), "{command:?}");
    }
    followed.state()
}

fn refused(state: &NamedRun, command: Command) -> Option<Refusal> {
    names::command(state, &command).err()
}

fn held_names(state: &NamedRun) -> Vec<u8> {
    state.names.held().iter().map(|held| held.name).collect()
}

/// The names 1 to 16, given at the start.
fn full() -> NamedRun {
    after(&fresh(), &(1..=16).map(Name).collect::<Vec<_>>())
}

/// Two stops after the naming are not in the sums after the return, and one
/// after the return is.
#[test]
fn a_return_before_a_risky_task() {
    let before = after(&fresh(), &[follow(&[Done, Passed, Done]), Name(7)]);
    let sums = Sums { kept: 110, redone: 0, verify: 2, saves: 12, recovery: 0 };
    let place = Place { position: 2, awaiting: 0, sums };
    assert_eq!(before.run.place, place);
    assert_eq!(before.names.held(), [Held { name: 7, place }]);
    let risky = follow(&[Stopped(30), Done, Stopped(20)]);
    let stopped = after(&before, std::slice::from_ref(&risky));
    let twice = Sums { kept: 50, redone: 170, recovery: 24, ..sums };
    assert_eq!(stopped.run.place, Place { position: 1, awaiting: 0, sums: twice });
    assert_eq!(after(&before, &[risky.clone(), Return(7)]), before);
    let onward = after(&before, &[risky, Return(7), follow(&[Stopped(30)])]);
    let once = Sums { kept: 50, redone: 90, recovery: 12, ..sums };
    assert_eq!(onward.run.place, Place { position: 1, awaiting: 0, sums: once });
}

/// A name given after the place returned to is held still, one dropped after it
/// is not.
#[test]
fn names_are_not_rewound() {
    let later = [Name(0), Name(1), follow(&[Done]), Name(255), Drop(1), Return(0)];
    let state = after(&fresh(), &later);
    assert_eq!((state.run, held_names(&state)), (fresh().run, vec![0, 255]));
    assert_eq!(refused(&state, Return(1)), Some(30));
    let onward = after(&state, &[Return(255)]);
    assert_eq!((onward.run.place.position, onward.run.place.awaiting), (1, 1));
    assert_eq!(onward.names, state.names);
}

/// A finished run is named, left and returned to.
#[test]
fn in_a_finished_run() {
    let all = follow(&[Done, Passed, Done, Done, Passed]);
    let finished = after(&fresh(), &[Name(1), all, Name(2)]);
    assert_eq!(refused(&finished, follow(&[Done])), Some(22));
    let left = after(&finished, &[Return(1), Drop(1), follow(&[Done])]);
    let back = after(&left, &[Return(2)]);
    assert_eq!((back.run, held_names(&back)), (finished.run, vec![2]));
}

#[test]
fn a_replaced_name_keeps_its_turn() {
    let state = after(&fresh(), &[Name(5), Name(6), follow(&[Done]), Name(5)]);
    assert_eq!(held_names(&state), [5, 6]);
    assert_eq!(state.names.entries[0].place, state.run.place);
    assert_eq!(state.names.entries[1].place, Place::ZERO);
    assert_eq!(held_names(&after(&state, &[Drop(5), Name(5)])), [6, 5]);
}

/// A drop moves the names after it and leaves a free entry; the entries past it
/// are carried along.
#[test]
fn a_drop_frees_an_entry() {
    let mut state = after(&fresh(), &[Name(1), Name(2), Name(3)]);
    let unread = Held { name: 2, place: Place { position: 99, ..Place::ZERO } };
    state.names.entries[3..].fill(unread);
    let dropped = after(&state, &[Drop(2)]);
    assert_eq!(held_names(&dropped), [1, 3]);
    assert_eq!(dropped.names.entries[2], Held::FREE);
    assert_eq!(dropped.names.entries[3..], [unread; MAX_NAMES - 3]);
    assert_eq!([Drop(2), Return(2)].map(|c| refused(&dropped, c)), [Some(30); 2]);
}

#[test]
fn names_not_held() {
    for name in [0, 1, 255] {
        assert_eq!([Drop(name), Return(name)].map(|c| refused(&fresh(), c)), [Some(30); 2]);
    }
}

#[test]
fn a_name_too_many() {
    assert_eq!(full().names.count, MAX_NAMES);
    assert_eq!(refused(&full(), Name(17)), Some(31));
    assert_eq!(refused(&full(), Name(16)), None);
    assert_eq!(held_names(&after(&full(), &[Drop(1), Name(17)])).last(), Some(&17));
}

/// The full state with one change, which 21 refuses before 30 and 31, and which
/// comes after 12 of a log's first record.
fn assert_broken(change: fn(&mut NamedRun)) {
    let mut state = full();
    change(&mut state);
    for command in [Name(1), Name(99), Drop(99), Return(99), follow(&[]), follow(&[Done])] {
        assert_eq!(refused(&state, command), Some(21));
    }
    assert_eq!(refused(&state, Command::Follow(vec![9])), Some(12));
    let second = [&log_writer::record(Done)[..], &[9]].concat();
    assert_eq!(refused(&state, Command::Follow(second)), Some(21));
}

#[test]
fn broken_states() {
    assert_broken(|state| state.names.count = 17);
    assert_broken(|state| state.names.count = usize::MAX);
    assert_broken(|state| state.names.entries[15].name = 1);
    assert_broken(|state| state.names.entries[15].place.position = 4);
    assert_broken(|state| state.names.entries[0].place.awaiting = 1);
    assert_broken(|state| state.names.entries[3].place.sums.kept = 1);
    assert_broken(|state| state.names.entries[3].place.sums.saves = (1 << 40) + 1);
    assert_broken(|state| state.run.place.sums.kept = 1);
}

/// A held place may have a total of 2^40, and an awaited verification by any
/// byte.
#[test]
fn held_places_at_the_limit() {
    let mut state = full();
    let sums = Sums { kept: 50, redone: (1 << 40) - 50, ..Sums::ZERO };
    let place = Place { position: 1, awaiting: 255, sums };
    state.names.entries[15].place = place;
    let returned = after(&state, &[Return(16)]);
    assert_eq!(returned.run, Run { place, ..state.run });
    assert_eq!(refused(&returned, follow(&[Passed])), Some(25));
    assert_eq!(refused(&returned, follow(&[])), None);
}
