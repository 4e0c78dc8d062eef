//! `mutants [SEED [WORD...]]`: breaks the independent implementation one rule at a time, in a copy, and
//! demands that the bench readings or the comparison notice. With words, only the mutants that have one of
//! them in their name.
//!
//! Its last line is `N noticed, M not noticed`. It fails if one was not noticed, if the text of an edit is
//! not found exactly once, or if a mutant does not compile.

mod table;
mod workshop;

use std::process::ExitCode;
use std::time::Instant;
use table::Edit;
use workshop::{Verdict, Workshop};

/// The random calls that follow the sweep of each comparison.
const CALLS: u64 = 200_000;

fn main() -> ExitCode {
    let mut arguments = std::env::args().skip(1);
    let Ok(seed) = arguments.next().map_or(Ok(1), |seed| seed.parse()) else {
        eprintln!("usage: mutants [SEED [WORD...]]");
        return ExitCode::from(2);
    };
    let words: Vec<String> = arguments.collect();
    match run(seed, &words) {
        Ok(true) => ExitCode::SUCCESS,
        Ok(false) => ExitCode::FAILURE,
        Err(what) => {
            eprintln!("{what}");
            ExitCode::FAILURE
        }
    }
}

/// Tries all mutants that have one of the words in their name, or all. Whether each was noticed.
fn run(seed: u64, words: &[String]) -> Result<bool, String> {
    let start = Instant::now();
    let workshop = Workshop::new(CALLS, seed)?;
    let unedited = workshop.verdict()?;
    if unedited.is_noticed() {
        return Err(format!("without an edit, noticed by {unedited}"));
    }
    println!("{:<34} {:<40} {:>7}  wrong rule", "mutant", "noticed by", "calls");
    let (mut noticed, mut not_noticed) = (0, 0);
    for (file, edit) in table::all() {
        if !words.is_empty() && !words.iter().any(|word| edit.name.contains(word.as_str())) {
            continue;
        }
        let verdict = workshop.try_edit(file, edit)?;
        print_row(edit, &verdict);
        let count = if verdict.is_noticed() { &mut noticed } else { &mut not_noticed };
        *count += 1;
    }
    println!("\nseed {seed}, {:.0} s", start.elapsed().as_secs_f64());
    println!("{noticed} noticed, {not_noticed} not noticed");
    Ok(not_noticed == 0)
}

fn print_row(edit: &Edit, verdict: &Verdict) {
    let calls = verdict.calls().map_or(String::new(), |calls| calls.to_string());
    println!("{:<34} {:<40} {calls:>7}  {}", edit.name, verdict.to_string(), edit.rule);
}
