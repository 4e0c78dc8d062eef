//! Every history in examples/ prints what stands beside it, and bad lines are told.

use std::io::Write;
use std::path::Path;
use std::process::{Command, Output, Stdio};

/// Runs the simulator over a history on standard input.
fn simulate(history: &[u8]) -> Output {
    let mut child = Command::new(env!("CARGO_BIN_EXE_simulate"))
        .stdin(Stdio::piped())
        .stdout(Stdio::piped())
        .spawn()
        .expect("simulate starts");
    child.stdin.take().expect("piped").write_all(history).expect("simulate reads");
    child.wait_with_output().expect("simulate ends")
}

#[test]
fn examples_print_what_is_expected() {
    let folder = Path::new(env!("CARGO_MANIFEST_DIR")).join("../../examples");
    let mut run = 0;
    for file in std::fs::read_dir(&folder).expect("examples/ is there") {
        let history = file.expect("readable").path();
        if history.extension().is_none_or(|extension| extension != "txt") {
            continue;
        }
        let expected = std::fs::read_to_string(history.with_extension("expected")).expect("expected output");
        let output = simulate(&std::fs::read(&history).expect("readable"));
        assert_eq!(String::from_utf8_lossy(&output.stdout), expected, "{}", history.display());
        assert!(output.status.success());
        run += 1;
    }
    assert!(run >= 12);
}

#[test]
fn a_bad_line_is_told_and_the_rest_runs() {
    let history = b"power-off\nset G \"A\" BS 01\nnamespace G 5C67D181F686DF48BD959A6E4F0925C3\npower-on now\npower-on\n\
        set G A BS 01\nset G \"A\" BS 0\nset G \"A\" XX 00\nregister G \"A\" lock=later\nregister G \"A\" lock=on-state\n\
        stores 1 many\nrebuild 0\npoke nv 4096 00\nset G \"A\" BS 1024*07\nread G \"A\"\nstate now\nset G \"\" BS 01\n\
        set G hex:410042 BS 01\nset G \"A\\u0000\" BS 01\npoke volatile 0 00\nread G \"A\"\nquarrels now\nquarrels raw 0\n\
        start-reader 7\nfeed 0\nfeed-dump 0\nfeed-dump 4097\nlist all\nsettled G\nsettled G \"A\" now\n";
    let output = simulate(history);
    assert_eq!(output.status.code(), Some(1));
    let expected = "\
1: power-off -> not understood: expected namespace, stores, power-on, restart, register, set, append, delete, read, \
settled, dump, quarrels, start-reader, feed, feed-dump, list, lock, disable, exit, state, rebuild, poke or note, found power-off
2: set G \"A\" BS 01 -> not understood: expected a namespace (an alias, a GUID or 32 hex digits), found G
4: power-on now -> not understood: expected allow-disable or the end of the line, found now
5: power-on -> SUCCESS enabled, unlocked, disabling not allowed
6: set G A BS 01 -> not understood: expected a name in quotes (or hex:DIGITS), found A
7: set G \"A\" BS 0 -> not understood: expected hex digits in pairs, ASCII text in quotes, or COUNT*HH, found 0
8: set G \"A\" XX 00 -> not understood: expected attributes, as NV|BS, 0x8 or 0, found XX
9: register G \"A\" lock=later -> not understood: expected no, now, on-create or on-state after the =, found lock=later
10: register G \"A\" lock=on-state -> not understood: expected trigger= and value= beside lock=on-state at the end of \
the line
11: stores 1 many -> not understood: expected a number of bytes up to 1048576, found many
12: rebuild 0 -> not understood: expected each place of the 0 entries once, counted from 0
13: poke nv 4096 00 -> not understood: expected bytes within the 4096 that are lent
14: set G \"A\" BS 1024*07 -> SUCCESS
15: read G \"A\" -> SUCCESS BS, 1024 bytes: 07 07 07 07 07 07 07 07 07 07 07 07 07 07 07 07 07 07 07 07 07 07 07 07 07 \
07 07 07 07 07 07 07 ..
16: state now -> not understood: expected the end of the line, found now
17: set G \"\" BS 01 -> INVALID_PARAMETER step 1: the name is empty
18: set G hex:410042 BS 01 -> INVALID_PARAMETER step 1: the name has 3 bytes, an odd number
19: set G \"A\\u0000\" BS 01 -> INVALID_PARAMETER step 1: the name has a zero unit
20: poke volatile 0 00 -> written
21: read G \"A\" -> VOLUME_CORRUPTED the volatile store is not sound
22: quarrels now -> not understood: expected raw or the end of the line, found now
23: quarrels raw 0 -> not understood: expected hex digits in pairs, ASCII text in quotes, or COUNT*HH, found 0
24: start-reader 7 -> not understood: expected the end of the line, found 7
25: feed 0 -> not understood: expected hex digits in pairs, ASCII text in quotes, or COUNT*HH, found 0
26: feed-dump 0 -> not understood: expected a number of bytes from 1 to 4096, found 0
27: feed-dump 4097 -> not understood: expected a number of bytes from 1 to 4096, found 4097
28: list all -> not understood: expected the end of the line, found all
29: settled G -> not understood: expected a name in quotes (or hex:DIGITS) at the end of the line
30: settled G \"A\" now -> not understood: expected the end of the line, found now
";
    assert_eq!(String::from_utf8_lossy(&output.stdout), expected);
}

#[test]
fn a_note_is_printed_whole() {
    let output =
        simulate(b"note see https://uefi.org; and \"A // B\n note\t; x\nnote\nlock // told\n; note\n// note\n");
    assert!(output.status.success());
    let expected =
        "see https://uefi.org; and \"A // B\n; x\n\n4: lock -> WRITE_PROTECTED the engine is locked already\n";
    assert_eq!(String::from_utf8_lossy(&output.stdout), expected);
}

#[test]
fn a_rebuild_tells_of_a_quarrel_whose_order_it_changed() {
    let history = b"namespace G 5C67D181F686DF48BD959A6E4F0925C3\npower-on\nregister G \"Boot00##\" max=1\n\
        register G \"Key\"\nregister G \"Boot##01\" max=2\nset G \"Boot0001\" BS 01 02\nrebuild\nrebuild 1 0 2\n\
        set G \"Boot0001\" BS 01 02\nrebuild reverse\nset G \"Boot0001\" BS 01 02\n";
    let output = simulate(history);
    assert!(output.status.success());
    let expected = "\
2: power-on -> SUCCESS enabled, unlocked, disabling not allowed
3: register G \"Boot00##\" max=1 -> SUCCESS
4: register G \"Key\" -> SUCCESS
5: register G \"Boot##01\" max=2 -> SUCCESS
6: set G \"Boot0001\" BS 01 02 -> INVALID_PARAMETER step 4: entry 0, G \"Boot00##\", allows 0 to 1 byte, and the \
payload has 2
7: rebuild -> SUCCESS restart, 3 registered
8: rebuild 1 0 2 -> SUCCESS restart, 3 registered
9: set G \"Boot0001\" BS 01 02 -> INVALID_PARAMETER step 4: entry 1, G \"Boot00##\", allows 0 to 1 byte, and the \
payload has 2
10: rebuild reverse -> SUCCESS restart, 3 registered; entries 1 and 2 of equal rank both target G \"Boot0001\" and \
changed places: later answers may differ
11: set G \"Boot0001\" BS 01 02 -> SUCCESS
";
    assert_eq!(String::from_utf8_lossy(&output.stdout), expected);
}

#[test]
fn a_number_sign_in_a_trigger_is_told_and_so_is_every_defect_before_it() {
    let history = b"namespace G 5C67D181F686DF48BD959A6E4F0925C3\nregister G \"A\" lock=on-state trigger=G:\"T#\" value=01\n\
        power-on\nregister G \"A\" lock=on-state trigger=G:\"T#\" value=01\n\
        register G \"A#\" min=2 max=1 lock=on-state trigger=G:\"T#\" value=01\n\
        register G \"A#\" lock=on-state trigger=G:\"\" value=01\nregister G \"A#\" lock=on-state trigger=G:\"T0\" value=01\n\
        register G \"A#\" lock=on-state trigger=G:\"\\u0023\" value=01\nregister raw 2300\ndump\n";
    let output = simulate(history);
    assert!(output.status.success());
    let expected = "\
2: register G \"A\" lock=on-state trigger=G:\"T#\" value=01 -> WRITE_PROTECTED the engine is locked
3: power-on -> SUCCESS enabled, unlocked, disabling not allowed
4: register G \"A\" lock=on-state trigger=G:\"T#\" value=01 -> INVALID_PARAMETER the trigger's name has a '#'
5: register G \"A#\" min=2 max=1 lock=on-state trigger=G:\"T#\" value=01 -> INVALID_PARAMETER MinSize, 2, is over \
MaxSize, 1
6: register G \"A#\" lock=on-state trigger=G:\"\" value=01 -> INVALID_PARAMETER the trigger's name has no units
7: register G \"A#\" lock=on-state trigger=G:\"T0\" value=01 -> SUCCESS
8: register G \"A#\" lock=on-state trigger=G:\"\\u0023\" value=01 -> INVALID_PARAMETER the trigger's name has a '#'
9: register raw 2300 -> INVALID_PARAMETER 44 bytes are the least, and the entry has 2
10: dump -> SUCCESS 74 bytes
    0: G \"A#\" lock=on-state trigger=G:\"T0\" value=01
";
    assert_eq!(String::from_utf8_lossy(&output.stdout), expected);
}

#[test]
fn help_tells_what_another_order_a_number_sign_a_refused_call_exit_and_settled_mean() {
    let output = Command::new(env!("CARGO_BIN_EXE_simulate")).arg("--help").output().expect("simulate runs");
    let help = String::from_utf8_lossy(&output.stdout);
    let order = "of equal rank target one variable and\n";
    let trigger = "NAME is one variable's and may\n              have no #";
    let refused = "A refused call tells why. A refused set, append or delete";
    let exit = "After exit, until the next power-on or restart, register, dump, lock, disable and a second exit";
    let settled = "A variable is settled if its entry locks now";
    for words in [order, "but not in a note", "matches a hex digit and nothing else", trigger, refused, exit, settled] {
        assert!(help.contains(words), "{words}");
    }
}
