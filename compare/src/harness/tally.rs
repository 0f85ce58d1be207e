//! Counts, and the report of differences.

use crate::harness::changes::Changes;
use crate::harness::named_states::ALTERATIONS;
use std::fmt::Debug;

/// The calls that answer with a number.
#[derive(Clone, Copy)]
pub enum Call {
    Lookup,
    Join,
    Price,
    Plan,
    Printed,
    Energy,
    Start,
    Step,
    Follow,
    Name,
    Drop,
    Return,
    FollowNamed,
}

const CALLS: [&str; 13] = [
    "lookup",
    "join",
    "price",
    "plan",
    "printed",
    "energy",
    "start",
    "step",
    "follow",
    "name",
    "drop",
    "return",
    "named log",
];

/// Every refusal number of document 01 and of the requests.
pub const NUMBERS: [u64; 24] =
    [1, 2, 3, 4, 5, 28, 6, 7, 8, 9, 10, 11, 12, 13, 21, 22, 23, 24, 25, 26, 27, 29, 30, 31];

/// How often each refusal is to be seen in the default run.
pub const WANTED: u64 = 100;

/// How often a long log is to be accepted, and refused, in the default run.
pub const LONG_WANTED: u64 = 20;

/// Differences printed in full.
const SHOWN: u64 = 5;

/// Plans at an edge.
#[derive(Default)]
pub struct Plans {
    /// Several settings have the least time; counted for few tasks.
    pub tied: u64,
    /// A cost is 0.
    pub zero_cost: u64,
    /// A rate is 0.
    pub zero_rate: u64,
    /// Times at most 2^30 below 2^34.
    pub near_limit: u64,
    /// Least times at most 2^30 above that, refused by 13.
    pub past_limit: u64,
    /// Of 32 tasks or more.
    pub long: u64,
    /// Of 32 tasks or more, at most 2^30 below 2^34 or above it.
    pub long_near_limit: u64,
}

/// Logs of 10,000 records.
#[derive(Clone, Copy, Default)]
pub struct LongLogs {
    pub accepted: u64,
    /// At the last record.
    pub refused: u64,
}

/// Joins at an edge.
#[derive(Default)]
pub struct Joins {
    pub of_64: u64,
    pub of_65: u64,
    pub at_total: u64,
    pub over_total: u64,
    pub one_short: u64,
}

/// Recoveries from disk past the start, on platforms with an R_M (request 102).
#[derive(Default)]
pub struct Refills {
    /// Stopped events that go back to a disk copy.
    pub stopped: u64,
    /// Prices with fail-stop errors after a disk copy.
    pub priced: u64,
    /// Such prices in which a memory copy stands past the disk copy.
    pub past_disk: u64,
}

/// Answers of the equations as printed at an edge (request 104).
#[derive(Default)]
pub struct Printed {
    /// Plans of 8 tasks.
    pub of_8: u64,
    /// Sheets of 9 tasks, refused by 27.
    pub of_9: u64,
    /// Sheets refused by 27 though the buffer is short too.
    pub long_and_short: u64,
    /// Plans by the planner beside those by the equations.
    pub both: u64,
}

/// Sheets with stray bytes, and accepted ones with the weights first (request
/// 105).
#[derive(Default)]
pub struct Strays {
    /// Refused by 28 with one gap alone: before, between or after the sections.
    pub alone: [u64; 3],
    /// Refused by 28 though 6 holds too.
    pub before_kinds: u64,
    /// Refused by 5 though a byte is in no section.
    pub after_extents: u64,
    /// Accepted with the weights first.
    pub weights_first: u64,
}

/// Plans by energy at an edge (request 106).
#[derive(Default)]
pub struct Energies {
    /// Plans with powers 1 and 1 beside the time plan.
    pub as_time: u64,
    /// Plans whose marks are not those of the time plan.
    pub other_marks: u64,
    /// Refused by 29 though the buffer is short too.
    pub short: u64,
    /// Refused by 29 for a power out of range.
    pub outside: u64,
    /// Refused by 29 for a product alone.
    pub over_product: u64,
    /// Plans with a product of 2^30, not by powers 1 and 1.
    pub at_product: u64,
    /// Refused by 13 where the time plan is a result.
    pub too_dear: u64,
    /// Energies of 2^34 - 1, not by powers 1 and 1.
    pub at_limit: u64,
    /// Least energies of 2^34, refused by 13, not by powers 1 and 1.
    pub over_limit: u64,
}

/// Sheets beside dearer ones (request 107). Changes are counted where some cost
/// is raised.
#[derive(Default)]
pub struct Dearer {
    /// The plan's time.
    pub plans: Changes,
    /// The time of a user's own marks.
    pub prices: Changes,
    /// The energy of a plan by energy.
    pub energies: Changes,
    /// C_D, C_M, V, R_D or R_M raised alone.
    pub alone: [u64; 5],
    /// Several of them raised at once.
    pub several: u64,
    /// None raised: two sheets of the same values.
    pub none: u64,
    /// A cost raised to 2^30.
    pub to_limit: u64,
    /// The sections in the other order.
    pub other_order: u64,
}

/// Commands to runs with names at an edge (request 109).
#[derive(Default)]
pub struct Commands {
    /// Naming again.
    pub again: u64,
    /// Naming again while 16 names are held.
    pub again_full: u64,
    /// Naming while a verification is awaited.
    pub awaited: u64,
    /// Drops of a name that is not the last.
    pub moved: u64,
    /// Returns to a place with fewer ticks, and to one with more.
    pub back: u64,
    pub onward: u64,
    /// Naming, drops and returns in a finished run.
    pub finished: [u64; 3],
    /// Refused by 12 in the first record of a log though 21 holds.
    pub after_12: u64,
    /// Empty logs refused by 21.
    pub empty: u64,
    /// Refused by 21 though the name is not held, or 16 others are.
    pub before_30: u64,
    pub before_31: u64,
    /// From a state altered in each way, in the order of `ALTERATIONS`: refused
    /// by 21 where it is spoiled, accepted where it is not.
    pub altered: [u64; ALTERATIONS.len()],
}

#[derive(Default)]
pub struct Tally {
    pub sheets: u64,
    pub read: u64,
    pub growths: u64,
    pub at_limit: u64,
    pub over_limit: u64,
    pub plans: Plans,
    pub joins: Joins,
    pub long_logs: LongLogs,
    pub refills: Refills,
    pub printed: Printed,
    pub strays: Strays,
    pub energies: Energies,
    pub dearer: Dearer,
    pub commands: Commands,
    pub differences: u64,
    counts: [[u64; 32]; 13],
}

fn hex(bytes: &[u8]) -> String {
    bytes.iter().map(|b| format!("{b:02x}")).collect()
}

impl Tally {
    fn seen(&self, number: u64) -> u64 {
        self.counts.iter().map(|row| row[number as usize]).sum()
    }

    fn calls(&self, call: Call) -> u64 {
        self.counts[call as usize].iter().sum()
    }

    /// Counts the number that the reference gave.
    pub fn count(&mut self, call: Call, number: u64) {
        self.counts[call as usize][number as usize] += 1;
    }

    /// Compares two results; `sheet` and `input` are printed if they differ.
    pub fn same<T: PartialEq + Debug>(
        &mut self,
        what: &str,
        sheet: &[u8],
        input: &dyn Debug,
        library: &T,
        reference: &T,
    ) {
        if library != reference && self.differs(what, sheet, input) {
            println!("  library   {library:?}");
            println!("  reference {reference:?}");
        }
    }

    /// That a law does not hold of the library's answers is a difference;
    /// `sheet`, `input` and `answers` are printed then.
    pub fn holds(
        &mut self,
        what: &str,
        sheet: &[u8],
        input: &dyn Debug,
        answers: &dyn Debug,
        law: bool,
    ) {
        if !law && self.differs(what, sheet, input) {
            println!("  answers   {answers:?}");
        }
    }

    /// Counts a difference, and prints where it is if few were before.
    fn differs(&mut self, what: &str, sheet: &[u8], input: &dyn Debug) -> bool {
        self.differences += 1;
        let shown = self.differences <= SHOWN;
        if shown {
            println!("difference {} in {what}", self.differences);
            println!("  sheet     {}", hex(sheet));
            println!("  input     {input:?}");
        }
        shown
    }

    /// How often each edge was seen.
    fn edges(&self) -> [(&'static str, u64); 80] {
        let (l, j, r) = (&self.plans, &self.joins, &self.refills);
        let (p, s) = (&self.printed, &self.strays);
        let (e, d, c) = (&self.energies, &self.dearer, &self.commands);
        [
            ("plans, tied", l.tied),
            ("plans, cost 0", l.zero_cost),
            ("plans, rate 0", l.zero_rate),
            ("plans near 2^34", l.near_limit),
            ("13 near 2^34", l.past_limit),
            ("32 tasks or more", l.long),
            ("and near 2^34", l.long_near_limit),
            ("joined, 64 tasks", j.of_64),
            ("refused, 65", j.of_65),
            ("joined, 2^30", j.at_total),
            ("refused, 2^30 + 1", j.over_total),
            ("one byte short", j.one_short),
            ("refills, Stopped", r.stopped),
            ("refills, priced", r.priced),
            ("with m past d", r.past_disk),
            ("printed, 8 tasks", p.of_8),
            ("refused, 9", p.of_9),
            ("27 before 11", p.long_and_short),
            ("by both engines", p.both),
            ("stray, before", s.alone[0]),
            ("stray, between", s.alone[1]),
            ("stray, after", s.alone[2]),
            ("28 before 6", s.before_kinds),
            ("5 before 28", s.after_extents),
            ("weights first", s.weights_first),
            ("energy as time", e.as_time),
            ("with other marks", e.other_marks),
            ("29 before 11", e.short),
            ("29 by a power", e.outside),
            ("29 by a product", e.over_product),
            ("products of 2^30", e.at_product),
            ("13 by energy", e.too_dear),
            ("energy 2^34 - 1", e.at_limit),
            ("energy 2^34", e.over_limit),
            ("dearer, rose", d.plans.rose),
            ("dearer, stayed", d.plans.stayed),
            ("dearer, then 13", d.plans.became_13),
            ("dearer, both 13", d.plans.both_13),
            ("price, rose", d.prices.rose),
            ("price, stayed", d.prices.stayed),
            ("price, then 13", d.prices.became_13),
            ("price, both 13", d.prices.both_13),
            ("energy, rose", d.energies.rose),
            ("energy, stayed", d.energies.stayed),
            ("energy, then 13", d.energies.became_13),
            ("energy, both 13", d.energies.both_13),
            ("C_D raised", d.alone[0]),
            ("C_M raised", d.alone[1]),
            ("V raised", d.alone[2]),
            ("R_D raised", d.alone[3]),
            ("R_M raised", d.alone[4]),
            ("several raised", d.several),
            ("none raised", d.none),
            ("raised to 2^30", d.to_limit),
            ("in other order", d.other_order),
            ("named again", c.again),
            ("and 16 held", c.again_full),
            ("named, awaiting", c.awaited),
            ("dropped, not last", c.moved),
            ("returned back", c.back),
            ("returned onward", c.onward),
            ("ended, named", c.finished[0]),
            ("ended, dropped", c.finished[1]),
            ("ended, returned", c.finished[2]),
            ("12 before 21", c.after_12),
            ("21, empty log", c.empty),
            ("21 before 30", c.before_30),
            ("21 before 31", c.before_31),
            ("21, over 16 names", c.altered[0]),
            ("21, a name twice", c.altered[1]),
            ("21, held position", c.altered[2]),
            ("21, held awaiting", c.altered[3]),
            ("21, held kept", c.altered[4]),
            ("21, held total", c.altered[5]),
            ("21, the run", c.altered[6]),
            ("21, run and names", c.altered[7]),
            ("held, at 2^40", c.altered[8]),
            ("held, awaits 255", c.altered[9]),
            ("16 names held", c.altered[10]),
            ("free, not 0", c.altered[11]),
        ]
    }

    /// Whether every number and every edge was seen often enough.
    pub fn complete(&self) -> bool {
        let edges = self.edges();
        NUMBERS.iter().all(|&n| self.seen(n) >= WANTED) && edges.iter().all(|e| e.1 >= WANTED)
    }

    /// Whether long logs of both kinds were seen often enough.
    pub fn long_logs_complete(&self) -> bool {
        let LongLogs { accepted, refused } = self.long_logs;
        accepted >= LONG_WANTED && refused >= LONG_WANTED
    }

    /// Answers that fell though no cost did; each is a difference.
    fn fallen(&self) -> u64 {
        let Dearer { plans, prices, energies, .. } = &self.dearer;
        plans.fell + prices.fell + energies.fell
    }

    fn named_commands(&self) -> u64 {
        let calls = [Call::Name, Call::Drop, Call::Return, Call::FollowNamed];
        calls.into_iter().map(|call| self.calls(call)).sum()
    }

    fn print_counts(&self) {
        print!("{:<8}", "number");
        CALLS.iter().for_each(|name| print!("{name:>10}"));
        println!("{:>10}", "all");
        for number in [0].into_iter().chain(NUMBERS) {
            let name = if number == 0 { "result".into() } else { number.to_string() };
            print!("{name:<8}");
            self.counts.iter().for_each(|row| print!("{:>10}", row[number as usize]));
            println!("{:>10}", self.seen(number));
        }
    }

    /// The summary, without the last line.
    pub fn print(&self) {
        println!("sheets compared   {} ({} pass 1 to 8)", self.sheets, self.read);
        println!("lookups           {}", self.calls(Call::Lookup));
        println!("joins             {}", self.calls(Call::Join));
        self.edges().iter().for_each(|(name, seen)| println!("{name:<18}{seen}"));
        println!("settings priced   {}", self.calls(Call::Price));
        println!("plans             {}", self.calls(Call::Plan));
        println!("plans as printed  {}", self.calls(Call::Printed));
        println!("plans by energy   {}", self.calls(Call::Energy));
        println!("starts            {}", self.calls(Call::Start));
        println!("steps             {}", self.calls(Call::Step));
        println!("logs              {}", self.calls(Call::Follow));
        println!("of 10,000 records {} accepted", self.long_logs.accepted);
        println!("                  {} refused by the last", self.long_logs.refused);
        println!("named commands    {}", self.named_commands());
        println!("growth sums       {}", self.growths);
        println!("times of 2^34 - 1 {}", self.at_limit);
        println!("times of 2^34     {}", self.over_limit);
        println!("dearer, but fell  {}", self.fallen());
        println!("differences       {}", self.differences);
        self.print_counts();
        for number in NUMBERS.iter().filter(|&&n| self.seen(n) < WANTED) {
            println!("refusal {number} seen fewer than {WANTED} times");
        }
    }
}
