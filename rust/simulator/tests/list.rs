//! `simulate --list`: what it prints of a dump that arrives in pieces, and the status that it ends with.

use std::io::Write;
use std::path::{Path, PathBuf};
use std::process::{Command, Output, Stdio};
use varpolicy::{Entry, Lock, Name, Namespace, POLICY_BYTES};

const G: Namespace = [0x5C, 0x67, 0xD1, 0x81, 0xF6, 0x86, 0xDF, 0x48, 0xBD, 0x95, 0x9A, 0x6E, 0x4F, 0x09, 0x25, 0xC3];

fn simulate(arguments: &[&str]) -> Command {
    let mut command = Command::new(env!("CARGO_BIN_EXE_simulate"));
    command.args(arguments);
    command
}

/// Lists what arrives on standard input in these pieces, in pieces of its own of `piece` bytes.
fn listed(pieces: &[&[u8]], piece: &str) -> Output {
    let mut command = simulate(&["--list", "-", piece]);
    let pipes = command.stdin(Stdio::piped()).stdout(Stdio::piped()).stderr(Stdio::piped());
    let mut child = pipes.spawn().expect("simulate starts");
    let mut input = child.stdin.take().expect("piped");
    for piece in pieces {
        // A reader that met a bad entry reads no further.
        let _ = input.write_all(piece);
    }
    drop(input);
    child.wait_with_output().expect("simulate ends")
}

/// The status, what is printed, and what is told as an error.
fn told(output: &Output) -> (Option<i32>, String, String) {
    let text = |bytes: &[u8]| String::from_utf8_lossy(bytes).into_owned();
    (output.status.code(), text(&output.stdout), text(&output.stderr))
}

fn good(lines: &str) -> (Option<i32>, String, String) {
    (Some(0), lines.to_string(), String::new())
}

fn bad(lines: &str, why: &str) -> (Option<i32>, String, String) {
    (Some(2), lines.to_string(), format!("standard input: not a dump: {why}\n"))
}

/// All of G, locked now, and the variables A0 to Af of it.
fn two_entries() -> Vec<u8> {
    let all = Entry { lock: Lock::Now, ..Entry::new(G, Name::EMPTY) }.pack();
    [&all[..], &Entry::new(G, Name::new("A#").expect("a name")).pack()].concat()
}

const BOTH: &str = "0 size 44 lock 1 marks all\n1 size 50 lock 0 marks 1\n";

#[test]
fn a_dump_however_it_is_cut() {
    let dump = two_entries();
    let lines = good(&format!("{BOTH}entries 2 bytes 94\n"));
    for piece in ["1", "7", "43", "44", "45", "94", "4096"] {
        assert_eq!(told(&listed(&[&dump], piece)), lines, "{piece}");
        assert_eq!(told(&listed(&[&dump[..50], &dump[50..]], piece)), lines, "{piece}");
    }
    assert_eq!(told(&listed(&[], "1")), good("entries 0 bytes 0\n"));
}

#[test]
fn a_bad_entry_is_told_with_its_first_byte_and_why() {
    let dump = two_entries();
    let first = "0 size 44 lock 1 marks all\nbad at 44\n";
    let short = bad(first, "entry 1, at byte 44: Size is 50, and the rest has 49 bytes");
    assert_eq!(told(&listed(&[&dump[..93]], "10")), short);
    let twice = bad(&format!("{BOTH}bad at 94\n"), "entry 2, at byte 94: entry 0 has that namespace and name");
    assert_eq!(told(&listed(&[&dump, &dump], "10")), twice);
    let zero =
        "from byte 94 on all is zero, as in a policy record or behind a dump in its buffer; the entries end there";
    assert_eq!(told(&listed(&[&dump, &[0]], "10")), bad(&format!("{BOTH}bad at 94\n"), zero));
}

/// Of more bytes than any dump has, those behind the bad entry are not read.
#[test]
fn what_stands_behind_a_bad_entry_is_not_read() {
    let (status, lines, _) = told(&listed(&[&two_entries(), &vec![7; 100 * POLICY_BYTES]], "4096"));
    assert_eq!((status, lines), (Some(2), format!("{BOTH}bad at 94\n")));
}

fn example() -> PathBuf {
    Path::new(env!("CARGO_MANIFEST_DIR")).join("../../examples/boot.dump")
}

#[test]
fn a_file_is_read_too() {
    let file = example();
    let lines = "0 size 64 lock 2 marks 0\n1 size 62 lock 0 marks 2\n2 size 62 lock 0 marks 2\nentries 3 bytes 188\n";
    for arguments in [&["--list", file.to_str().expect("text")][..], &["--list", file.to_str().expect("text"), "5"]] {
        assert_eq!(told(&simulate(arguments).output().expect("simulate runs")), good(lines));
    }
}

#[test]
fn other_words_get_the_usage() {
    let usage = "usage: simulate [FILE], simulate --quarrels DUMP or simulate --list DUMP [PIECE-BYTES]\n";
    for words in [&["--list"][..], &["--list", "x", "0"], &["--list", "x", "4097"], &["--list", "x", "1", "y"]] {
        let output = simulate(words).output().expect("simulate runs");
        assert_eq!(told(&output), (Some(2), String::new(), usage.to_string()), "{words:?}");
    }
    let output = simulate(&["--list", "no/such/file"]).output().expect("simulate runs");
    assert_eq!(output.status.code(), Some(2));
    assert!(String::from_utf8_lossy(&output.stderr).starts_with("no/such/file: "));
}

#[test]
fn help_tells_the_lines_and_the_statuses() {
    let output = simulate(&["--help"]).output().expect("simulate runs");
    let help = String::from_utf8_lossy(&output.stdout);
    for words in
        ["simulate --list DUMP [PIECE-BYTES]", "start-reader", "feed-dump [PIECE-BYTES]", "with status 0 if the bytes"]
    {
        assert!(help.contains(words), "{words}");
    }
}
