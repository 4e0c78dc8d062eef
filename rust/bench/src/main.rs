//! `bench [time|instructions|bars [WORD]]`: measures the proved library beside ordinary Rust over the same bytes. With a
//! word only the groups of cases that have it in their title.
//!
//! Every case is a call, or a part of one, with the same lent bytes for all: the library, and one or two versions in
//! ordinary Rust (see `plain`). First all of them must give the same answers, a set's report included, and leave the same
//! bytes. Then
//!
//! * time: they run in turn, in rounds; the least time of a call over all rounds is kept;
//! * instructions: the program runs itself once for each case and version under `valgrind --tool=callgrind`, which
//!   counts the instructions of one call, after one that is not counted;
//! * bars: the same, and the program fails if the library breaks a bar.
//!
//! The ratio is library to ordinary Rust. Buffers are made before and are not cleared in between.
//!
//! Each file uses only those above it:
//!
//! | File | What it holds |
//! |---|---|
//! | `archive`, `plain` | the parts in the proved archive; the calls and their parts in ordinary Rust |
//! | `lent` | what every version is lent, and what it answers |
//! | `inputs` | the bytes that are lent |
//! | `calls`, `parts`, `reading` | a whole call, a part, and the calls that read a dump, by the version of a column |
//! | `case` | what is measured, and the bars |
//! | `groups` | which cases |
//! | `measure`, `report` | how they are measured; the tables |

mod archive;
mod calls;
mod case;
mod groups;
mod inputs;
mod lent;
mod measure;
mod parts;
#[allow(missing_docs)]
mod plain;
mod reading;
mod report;

use case::Group;
use report::Verdict;
use std::process::ExitCode;

const ABOUT: &str = "\
library: libvarpolicy.a. part: the same function in libbench_parts.a, compiled by itself. The others are ordinary Rust
over the same bytes. standard, small: with the standard library's hash table, or a small one on the stack. pairwise:
every key compared with all before it. whole, by unit: a walk over the records that compares a name at once, or its
first unit first. Every call checks all it is lent: two stores of 32,768 bytes with records of 40 bytes or, where entries
are named, one of 256 bytes. Names of one slot share a slot of the filter in the library's check. In rows of triggers
all entries have the same one, and names of 8 units. In those of quarrels the entries are one dump; where '#' is named,
all have it in one namespace, as often and in names of one length.
In rows of settled variables the stores are full and the entries 128, and the linked variables are spread evenly over
the stores and their entries among the others, but where a row says otherwise. Names alike share their first four units
of 8. as a set: the choice is that of a set. by table: an entry of just the variable's name is looked for first, in the
table of the entries. Both find variables by the small table.
A dump is read by a reader that is started, fed in pieces of 4,096 bytes or of as many as are named, and asked for its
verdict. check: the check of a record with the same entries, in libbench_parts.a. ordinary: with what the ordinary check
has. one pass: with one pass over a name for the test and the hash. The calls alone are the instructions of
varpolicy_reader_feed, without the loop that calls it; by time there are none.
A choice or a search trusts the check before it, so it is the difference of two calls of one function, with and without
it: a set with the engine enabled and disabled, or a name and an empty one. Both run the same machine code, whatever the
compiler inlined; the count of a function by its name would depend on that. The checks are calls that stop behind them.
A comparison of two names is the difference to that of two of different lengths, so that what a call itself costs does
not count.
The bars are for instructions. A number: at most so many times the best ordinary version of the row. Two: so many times
ordinary and so many times check. 40: so many instructions for each byte. under: less than pairwise. (memset and memmove
are then told to use vector instructions: of `rep stosb` every byte would be counted.)
";

/// The groups of cases. Each is made by itself, so that a run under valgrind makes only its own.
const GROUPS: [fn(&[u32]) -> Group; 16] = [
    |_| groups::whole(),
    |_| groups::register(),
    |_| groups::quarrels(),
    |_| groups::settled(),
    |_| groups::reading(),
    |_| groups::small_pieces(),
    |_| groups::single_bytes(),
    |_| groups::listing(),
    |_| groups::choice_in_set(),
    |_| groups::choice(),
    |_| groups::comparison(),
    |_| groups::policy_check(),
    |_| groups::policy_check_of_one_slot(),
    groups::pair_check,
    |_| groups::search(),
    |_| groups::moves(),
];

fn main() -> ExitCode {
    let arguments: Vec<String> = std::env::args().skip(1).collect();
    let arguments: Vec<&str> = arguments.iter().map(String::as_str).collect();
    match arguments.as_slice() {
        ["one", column, with, group, case, one_slot] => {
            match one_call([column, group, case], *with == "with", one_slot) {
                Some(()) => ExitCode::SUCCESS,
                None => ExitCode::from(2),
            }
        }
        [] => bench(true, true, false, ""),
        ["time", word @ ..] if word.len() < 2 => bench(true, false, false, &word.concat()),
        ["instructions", word @ ..] if word.len() < 2 => bench(false, true, false, &word.concat()),
        ["bars", word @ ..] if word.len() < 2 => bench(false, true, true, &word.concat()),
        _ => {
            eprintln!("usage: bench [time|instructions|bars [WORD]]");
            ExitCode::from(2)
        }
    }
}

fn bench(time: bool, instructions: bool, must_hold: bool, word: &str) -> ExitCode {
    let one_slot = inputs::of_one_slot(2 * 819);
    let groups = GROUPS.map(|group| group(&one_slot));
    if let Err(difference) = check(&groups) {
        eprintln!("{difference}");
        return ExitCode::FAILURE;
    }
    println!("{ABOUT}");
    if time {
        println!("NANOSECONDS of a call, the least in 60 rounds run in turn\n");
        let has_time = |group: &&Group| group.cases.iter().all(|case| case.counted.is_none());
        for group in groups.iter().filter(|group| group.title.contains(word)).filter(has_time) {
            report::print(group, None, |case, _| Some(case.time(group.columns.len())));
        }
    }
    if !instructions {
        return ExitCode::SUCCESS;
    }
    println!("INSTRUCTIONS of a call, by valgrind --tool=callgrind\n");
    let mut verdict = Verdict::default();
    let one_slot = one_slot.iter().map(u32::to_string).collect::<Vec<_>>().join(",");
    for (place, group) in groups.iter().enumerate().filter(|(_, group)| group.title.contains(word)) {
        let counted = report::print(group, Some(&mut verdict), |case, place_of_case| {
            case.instructions(group.columns.len(), &[place.to_string(), place_of_case.to_string(), one_slot.clone()])
        });
        if !counted {
            println!("valgrind could not be run: no instruction counts");
            return if must_hold { ExitCode::FAILURE } else { ExitCode::SUCCESS };
        }
    }
    println!("{} bars hold, {} are broken", verdict.hold, verdict.broken);
    if must_hold && verdict.broken > 0 { ExitCode::FAILURE } else { ExitCode::SUCCESS }
}

/// Whether all versions of all cases agree.
fn check(groups: &[Group]) -> Result<(), String> {
    for group in groups {
        for case in &group.cases {
            case.check(group.columns.len()).map_err(|difference| format!("{}: {difference}", case.name))?;
        }
    }
    Ok(())
}

/// What valgrind runs: one call of one version. Nothing if a word is not a number, or too large.
fn one_call(places: [&str; 3], with: bool, one_slot: &str) -> Option<()> {
    let one_slot = one_slot.split(',').map(str::parse).collect::<Result<Vec<u32>, _>>().ok()?;
    let [column, group, case] = places.map(|place| place.parse::<usize>().ok());
    let group = GROUPS.get(group?)?(&one_slot);
    group.columns.get(column?)?;
    group.cases.get(case?)?.one_call(column?, with);
    Some(())
}

#[cfg(test)]
mod tests {
    use super::*;

    #[test]
    fn all_versions_agree() {
        let one_slot = inputs::of_one_slot(2 * 819);
        assert_eq!(check(&GROUPS.map(|group| group(&one_slot))), Ok(()));
    }
}
