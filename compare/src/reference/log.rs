//! Following a log, record by record.

use crate::reference::run::{self, History};
use crate::types::{Event, Refusal, Run, RECORD_SIZE};

/// Refusal 12, or the event of a record.
fn event(record: &[u8]) -> Result<Event, Refusal> {
    let &[code, a, b, c, d] = record else { return Err(12) };
    let lost = u32::from_le_bytes([a, b, c, d]);
    match (code, lost) {
        (1, 0) => Ok(Event::Done),
        (2, 0) => Ok(Event::Passed),
        (3, 0) => Ok(Event::Failed),
        (4, lost) => Ok(Event::Stopped(lost)),
        _ => Err(12),
    }
}

/// The events of a log, or refusal 12.
pub fn events(log: &[u8]) -> Result<Vec<Event>, Refusal> {
    log.chunks(RECORD_SIZE).map(event).collect()
}

/// A log from a state: 12 for each record, then 21 to 25 for its event.
pub fn follow(run: &Run, log: &[u8]) -> Result<Run, Refusal> {
    if log.is_empty() && run::is_broken(run) {
        return Err(21);
    }
    let mut history = History::new(run);
    for record in log.chunks(RECORD_SIZE) {
        history.step(event(record)?)?;
    }
    Ok(history.run())
}
