//! The bytes that the writers write, spelled out.

use compare::log_writer::record;
use compare::sheet_writer::{assembled, sheet};
use compare::types::{Event, Platform};

const PLATFORM: Platform =
    Platform { failstop: 1, silent: 1 << 31, cd: 5000, cm: 1000, v: 928, rd: 4000, rm: 1001 };

#[test]
fn a_sheet_of_two_tasks() {
    let expected = [
        &[1, 2, 2, 0][..],
        &[20, 0, 0, 0, 29, 0, 0, 0],
        &[49, 0, 0, 0, 9, 0, 0, 0],
        &[1, 1, 0, 0, 0, 0, 0, 0, 0x80],
        &[0x88, 0x13, 0, 0, 0xe8, 3, 0, 0, 0xa0, 3, 0, 0],
        &[0xa0, 0x0f, 0, 0, 0xe9, 3, 0, 0],
        &[2, 0, 0, 2, 0, 1, 0, 2, 0],
    ];
    assert_eq!(sheet(&PLATFORM, &[131072, 131073]), expected.concat());
}

#[test]
fn sections_with_gaps() {
    let expected = [
        &[1, 3, 2, 0][..],
        &[21, 0, 0, 0, 2, 0, 0, 0],
        &[25, 0, 0, 0, 1, 0, 0, 0],
        &[70],
        &[10, 11],
        &[71, 72],
        &[12],
        &[73, 74, 75],
    ];
    let gaps = [&[70][..], &[71, 72], &[73, 74, 75]];
    assert_eq!(assembled(3, [&[10, 11], &[12]], gaps), expected.concat());
}

#[test]
fn records() {
    assert_eq!(record(Event::Done), [1, 0, 0, 0, 0]);
    assert_eq!(record(Event::Passed), [2, 0, 0, 0, 0]);
    assert_eq!(record(Event::Failed), [3, 0, 0, 0, 0]);
    assert_eq!(record(Event::Stopped(0x0403_0201)), [4, 1, 2, 3, 4]);
}
