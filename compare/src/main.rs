//! `compare [SEED] [COUNT]`: library against reference on random sheets.

use compare::harness::check;
use compare::harness::tally::Tally;
use compare::library;
use compare::random::Random;
use std::process::ExitCode;

const SEED: u64 = 1;
/// From this count on every refusal number is to be seen often enough.
const COUNT: u64 = 100_000;
/// One long log for so many sheets.
const LONG_EVERY: u64 = 1000;

fn argument(at: usize, default: u64) -> Result<u64, String> {
    match std::env::args().nth(at) {
        None => Ok(default),
        Some(text) => text.parse().map_err(|_| format!("compare: not a number: {text}")),
    }
}

fn arguments() -> Result<(u64, u64), String> {
    if std::env::args().count() > 3 {
        return Err("usage: compare [SEED] [COUNT]".into());
    }
    Ok((argument(1, SEED)?, argument(2, COUNT)?))
}

/// The last line says so if no library was compared.
fn print_last_line(tally: &Tally) {
    let note = if cfg!(feature = "linked") { "" } else { " (stand-in)" };
    println!("compare: {} sheets, {} differences{note}", tally.sheets, tally.differences);
}

fn main() -> ExitCode {
    let (seed, count) = match arguments() {
        Ok(both) => both,
        Err(text) => {
            eprintln!("{text}");
            return ExitCode::from(2);
        }
    };
    println!("library           {}", library::NAME);
    println!("seed              {seed}");
    let mut tally = Tally::default();
    let mut random = Random::new(seed);
    for sheet in 0..count {
        check::one(&mut random, &mut tally);
        if sheet % LONG_EVERY == 0 {
            check::long_log(&mut random, &mut tally);
        }
    }
    tally.print();
    print_last_line(&tally);
    let complete = tally.complete() && tally.long_logs_complete();
    let failed = tally.differences > 0 || (count >= COUNT && !complete);
    ExitCode::from(u8::from(failed))
}
