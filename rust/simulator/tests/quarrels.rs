//! `simulate --quarrels`: what it prints of a dump in a file or on standard input, and the status that it ends with.

use std::io::Write;
use std::path::{Path, PathBuf};
use std::process::{Command, Output, Stdio};
use varpolicy::{Entry, Lock, MAX_ENTRIES, MAX_NAME_UNITS, Name, Namespace, POLICY_BYTES};

const BOOT: Namespace =
    [0x61, 0xDF, 0xE4, 0x8B, 0xCA, 0x93, 0xD2, 0x11, 0xAA, 0x0D, 0x00, 0xE0, 0x98, 0x03, 0x2B, 0x8C];

fn simulate(arguments: &[&str]) -> Command {
    let mut command = Command::new(env!("CARGO_BIN_EXE_simulate"));
    command.args(arguments);
    command
}

/// Checks the bytes as a dump on standard input.
fn checked(dump: &[u8]) -> Output {
    let mut command = simulate(&["--quarrels", "-"]);
    let pipes = command.stdin(Stdio::piped()).stdout(Stdio::piped()).stderr(Stdio::piped());
    let mut child = pipes.spawn().expect("simulate starts");
    child.stdin.take().expect("piped").write_all(dump).expect("simulate reads");
    child.wait_with_output().expect("simulate ends")
}

/// The status, what is printed, and what is told as an error.
fn told(output: &Output) -> (Option<i32>, String, String) {
    let text = |bytes: &[u8]| String::from_utf8_lossy(bytes).into_owned();
    (output.status.code(), text(&output.stdout), text(&output.stderr))
}

fn none(count: &str) -> (Option<i32>, String, String) {
    (Some(0), format!("no quarrel: {count}, which a rebuild may register in any order\n"), String::new())
}

fn refused(why: &str) -> (Option<i32>, String, String) {
    (Some(2), String::new(), format!("standard input: not a dump: {why}\n"))
}

fn entry(name: &str) -> Entry {
    Entry::new(BOOT, Name::new(name).expect("a name"))
}

fn dump(entries: &[Entry]) -> Vec<u8> {
    entries.iter().flat_map(|entry| entry.pack().to_vec()).collect()
}

fn example() -> PathBuf {
    Path::new(env!("CARGO_MANIFEST_DIR")).join("../../examples/boot.dump")
}

#[test]
fn the_example_is_the_dump_of_the_first_entries_of_quarrels_txt() {
    let order = Entry { lock: Lock::OnCreate, ..entry("BootOrder") };
    let entries = [order, Entry { max_size: 4, ..entry("Boot00##") }, Entry { max_size: 2, ..entry("Boot##01") }];
    assert_eq!(std::fs::read(example()).expect("readable"), dump(&entries));
}

#[test]
fn a_pair_is_told_with_the_name_and_what_to_do() {
    let file = example();
    let output = simulate(&["--quarrels", file.to_str().expect("text")]).output().expect("simulate runs");
    let expected = "\
entries 1 and 2 quarrel: they have the same rank, and \"Boot0001\" is the smallest name that both target
    1: 61DFE48BCA93D211AA0D00E098032B8C \"Boot00##\" max=4
    2: 61DFE48BCA93D211AA0D00E098032B8C \"Boot##01\" max=2
    Of the two, entry 1 goes before, as it was registered first: make one more specific, by a hex digit for a '#', or keep \
their order at every rebuild.
";
    assert_eq!(told(&output), (Some(1), expected.to_string(), String::new()));
    assert_eq!(told(&checked(&std::fs::read(file).expect("readable"))), told(&output));
}

#[test]
fn none_is_told_with_the_number_of_entries() {
    assert_eq!(told(&checked(&[])), none("0 entries"));
    assert_eq!(told(&checked(&dump(&[entry("Boot####")]))), none("1 entry"));
    assert_eq!(told(&checked(&dump(&[entry("Boot00##"), entry(""), entry("Boot0#01")]))), none("3 entries"));
}

#[test]
fn what_is_no_dump_is_told_with_the_place_and_the_byte() {
    let good = dump(&[entry("A#"), entry("BC")]);
    let behind = |bytes: &[u8]| told(&checked(&[&good[..], bytes].concat()));
    let lock = Lock::OnVarState { namespace: BOOT, name: Name::new("T#").expect("a name"), value: 1 };
    let signed = Entry { lock, ..entry("D") }.pack();
    let long = [&[0, 0, 1, 0, 200, 0][..], &[0; 94]].concat();
    for (bytes, why) in [
        (&signed[..], "the trigger's name has a '#'"),
        (&entry("A#").pack(), "entry 0 has that namespace and name"),
        (&[7; 43], "44 bytes are the least, and the rest has 43"),
        (&[0xFF; 44], "Version is 0xFFFFFFFF, not 0x00010000"),
        (&long, "Size is 200, and the rest has 100 bytes"),
    ] {
        assert_eq!(behind(bytes), refused(&format!("entry 2, at byte 100: {why}")));
    }
    let zeros =
        "from byte 100 on all is zero, as in a policy record or behind a dump in its buffer; the entries end there";
    assert_eq!(behind(&[0]), refused(zeros));
    assert_eq!(behind(&vec![0; POLICY_BYTES - 100]), refused(zeros));
}

#[test]
fn more_than_an_engine_holds_is_no_dump() {
    let numbered = |number: usize, units: usize| entry(&format!("{number:0units$}"));
    let full: Vec<Entry> = (0..MAX_ENTRIES).map(|number| numbered(number, 3)).collect();
    assert_eq!(told(&checked(&dump(&full))), none("128 entries"));
    let more = dump(&[&full[..], &[numbered(MAX_ENTRIES, 3)]].concat());
    assert_eq!(told(&checked(&more)), refused("entry 128, at byte 6656: 128 entries are the most"));
    let long: Vec<Entry> = (0..95).map(|number| numbered(number, MAX_NAME_UNITS)).collect();
    let sum = "entry 94, at byte 16356: 16384 bytes are the most, and the entries would have 16530";
    assert_eq!(told(&checked(&dump(&long))), refused(sum));
}

#[test]
fn other_words_get_the_usage() {
    let usage = "usage: simulate [FILE], simulate --quarrels DUMP or simulate --list DUMP [PIECE-BYTES]\n";
    for words in [&["--quarrels"][..], &["--quarrel", "x"], &["--quarrels", "x", "y"], &["x", "y"], &["--other"]] {
        let output = simulate(words).output().expect("simulate runs");
        assert_eq!(told(&output), (Some(2), String::new(), usage.to_string()), "{words:?}");
    }
    let output = simulate(&["--quarrels", "no/such/file"]).output().expect("simulate runs");
    assert_eq!(output.status.code(), Some(2));
    assert!(String::from_utf8_lossy(&output.stderr).starts_with("no/such/file: "));
}

#[test]
fn help_tells_the_statuses() {
    let output = simulate(&["--help"]).output().expect("simulate runs");
    let help = String::from_utf8_lossy(&output.stdout);
    for words in ["simulate --quarrels DUMP", "quarrels [raw HEX]", "with status 0 if no two entries quarrel"] {
        assert!(help.contains(words), "{words}");
    }
}
