//! `compare [CALLS [SEED]]`: compares the library with the reference, first over the sweep and then over
//! CALLS random calls, and prints what was hit. Fails on the first difference, and if something that can
//! be hit was not.

use std::process::ExitCode;
use std::time::Instant;

fn main() -> ExitCode {
    let arguments: Result<Vec<u64>, _> =
        std::env::args().skip(1).map(|argument| argument.replace('_', "").parse()).collect();
    let (calls, seed) = match arguments.as_deref() {
        Ok([]) => (200_000, 1),
        Ok([calls]) => (*calls, 1),
        Ok([calls, seed]) => (*calls, *seed),
        _ => {
            eprintln!("usage: compare [CALLS [SEED]]");
            return ExitCode::from(2);
        }
    };
    let start = Instant::now();
    let comparison = match compare::run(calls, seed) {
        Ok(comparison) => comparison,
        Err(difference) => {
            eprintln!("{difference}");
            return ExitCode::FAILURE;
        }
    };
    print!("{}", comparison.coverage);
    let missed = comparison.coverage.missed();
    for row in &missed {
        eprintln!("not hit: {row}");
    }
    let seconds = start.elapsed().as_secs_f64();
    println!("\n{} calls, seed {seed}, {seconds:.1} s: library and reference agree", comparison.calls);
    if missed.is_empty() { ExitCode::SUCCESS } else { ExitCode::FAILURE }
}
