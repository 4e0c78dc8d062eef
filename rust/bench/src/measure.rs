//! How a case is measured: by time, all versions in turn, or by the instructions that valgrind counts.

use crate::case::{Case, Work};
use crate::lent::{Answer, Lent};
use std::hint::black_box;
use std::process::Command;
use std::time::{Duration, Instant};

impl Case {
    /// Whether the versions of all columns give the same answers and leave the same bytes, over four calls, and none
    /// refuses what it is lent.
    pub fn check(&self, columns: usize) -> Result<(), &'static str> {
        for work in self.works() {
            let library = self.four_calls(work, 0);
            for column in 1..columns {
                let ordinary = self.four_calls(work, column);
                if ordinary.0 != library.0 {
                    return Err("the answers differ");
                }
                if ordinary.1 != library.1 {
                    return Err("the bytes differ");
                }
            }
            if library.0.iter().any(|answer| work.is_refused(answer)) {
                return Err("what is lent is refused");
            }
        }
        Ok(())
    }

    /// The answers of four calls, and what they leave.
    fn four_calls(&self, work: &Work, column: usize) -> ([Answer; 4], Lent) {
        let mut lent = self.lent.clone();
        ([(); 4].map(|()| run(work, column, &mut lent)), lent)
    }

    /// Least nanoseconds of a call in each column.
    pub fn time(&self, columns: usize) -> Vec<f64> {
        const ROUNDS: usize = 60;
        let mut runs: Vec<(usize, &Work, Lent)> =
            (0..columns).flat_map(|column| self.works().map(move |work| (column, work, self.lent.clone()))).collect();
        let mut least = vec![f64::INFINITY; runs.len()];
        for _ in 0..ROUNDS {
            for ((column, work, lent), least) in runs.iter_mut().zip(&mut least) {
                *least = least.min(time_of_call(work, *column, lent));
            }
        }
        let figure = |with: &[f64]| (with[0] - with.get(1).unwrap_or(&0.0)) / self.each as f64;
        least.chunks(runs.len() / columns).map(figure).collect()
    }

    /// One call that is not counted, and one that is. Where a function is counted by its name, the first would be too.
    pub fn one_call(&self, column: usize, with: bool) {
        let Some(work) = self.works().nth(usize::from(!with)) else { return };
        let mut lent = self.lent.clone();
        if self.counted.is_none() {
            black_box(run(work, column, &mut lent));
        }
        black_box(measured_call(work, column, &mut lent));
    }

    /// The instructions of a call in each column. The program runs itself under valgrind, once for each count;
    /// `place` are the words by which it then finds the case.
    pub fn instructions(&self, columns: usize, place: &[String]) -> Option<Vec<f64>> {
        let counted = self.counted.unwrap_or("measured_call");
        let count = |with: &str, column: usize| count_call(counted, with, column, place);
        let figure = |column: usize| {
            let without = if self.without.is_some() { count("without", column)? } else { 0.0 };
            Some((count("with", column)? - without) / self.each as f64)
        };
        (0..columns).map(figure).collect()
    }
}

/// Least nanoseconds of a call over a short time, after one call that is not counted.
fn time_of_call(work: &Work, column: usize, lent: &mut Lent) -> f64 {
    const ROUND: Duration = Duration::from_micros(400);
    let first = Instant::now();
    black_box(run(work, column, lent));
    // A short call is made several times for each look at the clock.
    let batch = if first.elapsed() < ROUND / 8 { 8 } else { 1 };
    let mut least = f64::INFINITY;
    let round = Instant::now();
    while round.elapsed() < ROUND {
        let start = Instant::now();
        for _ in 0..batch {
            black_box(run(black_box(work), column, lent));
        }
        least = least.min(start.elapsed().as_nanos() as f64 / f64::from(batch));
    }
    least
}

/// The instructions of a function in one call.
fn count_call(counted: &str, with: &str, column: usize, place: &[String]) -> Option<f64> {
    let output = Command::new("valgrind")
        .args(["--tool=callgrind", "--callgrind-out-file=/dev/null"])
        .arg(format!("--toggle-collect={counted}"))
        .arg(std::env::current_exe().ok()?)
        .args(["one", &column.to_string(), with])
        .args(place)
        // Vector instructions in memset and memmove: of `rep stosb` and `rep movsb` each byte would be counted.
        .env("GLIBC_TUNABLES", "glibc.cpu.x86_rep_stosb_threshold=1000000:glibc.cpu.x86_rep_movsb_threshold=1000000")
        .output()
        .ok()?;
    let messages = String::from_utf8_lossy(&output.stderr);
    messages.split("Collected :").nth(1)?.split_whitespace().next()?.parse().ok()
}

/// The call whose instructions are counted: its name is what valgrind looks for. It is no tail call and is not
/// merged with `run`, or calls that are not to be counted would be.
#[unsafe(no_mangle)]
#[inline(never)]
fn measured_call(work: &Work, column: usize, lent: &mut Lent) -> Answer {
    black_box(run(work, column, black_box(lent)))
}

#[inline(never)]
fn run(work: &Work, column: usize, lent: &mut Lent) -> Answer {
    lent.calls += 1;
    match work {
        Work::Call(call) => call.run(column, lent),
        Work::Part(part) => part.run(column, lent),
        Work::Reading(reading) => reading.run(column, lent),
    }
}
