//! A follower written for speed: it tests the state once and carries the last
//! copies from event to event.

use compare::reference::run::{self, MAX_TOTAL};
use compare::types::{Place, Run, RECORD_SIZE};

/// The largest total of the five sums.
const LIMIT: u64 = MAX_TOTAL as u64;

/// A copy, and the weight of the tasks up to it.
#[derive(Clone, Copy)]
struct Saved {
    position: usize,
    kept: u64,
}

struct Follower<'a> {
    run: &'a Run,
    place: Place,
    memory: Saved,
    disk: Saved,
}

impl Follower<'_> {
    /// The last copy before `end` with a mark of `least` or more.
    fn saved(run: &Run, least: u8, end: usize) -> Saved {
        let position = (1..end).rev().find(|&p| run.marks[p - 1] >= least).unwrap_or(0);
        Saved { position, kept: run.job.weight(0, position) as u64 }
    }

    fn new(run: &Run) -> Follower<'_> {
        let end = run.place.position + usize::from(!run.place.awaits());
        let [memory, disk] = [2, 3].map(|least| Self::saved(run, least, end));
        Follower { run, place: run.place, memory, disk }
    }

    fn done(&mut self) {
        let p = self.place.position;
        self.place.sums.kept += u64::from(self.run.job.weights[p]);
        self.place.position = p + 1;
        self.place.awaiting = u8::from(self.run.marks[p] != 0);
    }

    fn passed(&mut self) {
        let (costs, place) = (&self.run.job.platform, &mut self.place);
        let here = Saved { position: place.position, kept: place.sums.kept };
        let mark = self.run.marks[place.position - 1];
        place.sums.verify += u64::from(costs.v);
        if mark >= 2 {
            place.sums.saves += u64::from(costs.cm);
            self.memory = here;
        }
        if mark == 3 {
            place.sums.saves += u64::from(costs.cd);
            self.disk = here;
        }
        place.awaiting = 0;
    }

    fn go_back(&mut self, to: Saved, cost: u64) {
        let place = &mut self.place;
        place.sums.redone += place.sums.kept - to.kept;
        place.sums.kept = to.kept;
        place.sums.recovery += if to.position == 0 { 0 } else { cost };
        place.position = to.position;
        place.awaiting = 0;
    }

    fn failed(&mut self) {
        let costs = &self.run.job.platform;
        self.place.sums.verify += u64::from(costs.v);
        self.go_back(self.memory, u64::from(costs.rm));
    }

    fn stopped(&mut self, lost: u32) {
        let costs = &self.run.job.platform;
        self.place.sums.redone += u64::from(lost);
        self.memory = self.disk;
        self.go_back(self.disk, u64::from(costs.rd) + u64::from(costs.rm));
    }

    /// One record: 12, then 22 to 25.
    fn record(&mut self, record: &[u8]) -> Result<(), u64> {
        let &[code, a, b, c, d] = record else { return Err(12) };
        let lost = u32::from_le_bytes([a, b, c, d]);
        if !matches!((code, lost), (1..=3, 0) | (4, _)) {
            return Err(12);
        }
        let awaits = self.place.awaits();
        if !awaits && self.place.position == self.run.job.tasks {
            return Err(22);
        }
        if awaits == matches!(code, 1 | 4) {
            return Err(23);
        }
        match code {
            1 => self.done(),
            2 => self.passed(),
            3 => self.failed(),
            _ if lost > self.run.job.weights[self.place.position] => return Err(24),
            _ => self.stopped(lost),
        }
        let sums = &self.place.sums;
        let total = sums.kept + sums.redone + sums.verify + sums.saves + sums.recovery;
        if total > LIMIT {
            return Err(25);
        }
        Ok(())
    }
}

/// The state after a log, or a refusal; 21 comes before 12 of the first record.
pub fn follow(run: &Run, log: &[u8]) -> Result<Run, u64> {
    if run::is_broken(run) {
        return Err(21);
    }
    let mut follower = Follower::new(run);
    for record in log.chunks(RECORD_SIZE) {
        follower.record(record)?;
    }
    Ok(Run { place: follower.place, ..*run })
}
