//! How an event is written as a record of a log.

use crate::types::{Event, RECORD_SIZE};

pub fn record(event: Event) -> [u8; RECORD_SIZE] {
    let (code, lost) = match event {
        Event::Done => (1, 0),
        Event::Passed => (2, 0),
        Event::Failed => (3, 0),
        Event::Stopped(lost) => (4, lost),
    };
    let [a, b, c, d] = u32::to_le_bytes(lost);
    [code, a, b, c, d]
}
