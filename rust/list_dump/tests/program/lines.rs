//! The lines, whatever the bytes are and however they are cut.

use crate::dumps::{Entry, dump, many, mixed, reading};
use crate::run::{check, check_pieces, quietly, root, run, start, written};
use list_dump::{MAX_BYTES, MAX_ENTRIES, listing};
use std::process::Stdio;
use std::time::Duration;

#[test]
fn the_reading_and_the_example_are_listed() {
    let two = "0 size 44 lock 1 marks all\n1 size 50 lock 0 marks 1\nentries 2 bytes 94\n";
    assert_eq!(run(&[&reading()], Duration::ZERO), quietly(two));
    let boot = std::fs::read(root().join("examples/boot.dump")).expect("readable");
    let three = "0 size 64 lock 2 marks 0\n1 size 62 lock 0 marks 2\n2 size 62 lock 0 marks 2\nentries 3 bytes 188\n";
    assert_eq!(run(&[&boot], Duration::ZERO), quietly(three));
    let four = "0 size 50 lock 0 marks 1\n1 size 44 lock 1 marks all\n2 size 62 lock 2 marks 2\n3 size 72 lock 3 marks 0\n\
        entries 4 bytes 228\n";
    assert_eq!(run(&[&mixed()], Duration::ZERO), quietly(four));
}

#[test]
fn empty_input_is_a_dump_of_no_entries() {
    assert_eq!(run(&[], Duration::ZERO), quietly("entries 0 bytes 0\n"));
    assert_eq!(written(start(Stdio::null())), quietly("entries 0 bytes 0\n"));
}

#[test]
fn however_the_bytes_are_cut_the_lines_are_the_same() {
    let bytes = reading();
    for cut in 1..bytes.len() {
        let pieces = [&bytes[..cut], &bytes[cut..]];
        assert_eq!(run(&pieces, Duration::from_millis(1)), quietly(&listing(&bytes)), "cut at {cut}");
    }
    check_pieces(&bytes, 1, Duration::from_millis(1));
    check_pieces(&mixed(), 1, Duration::from_micros(100));
    let full = many(MAX_ENTRIES, 41);
    for length in [1, 2, 43, 44, 45, 127, 129, 4_095, 4_096, 4_097, 9_000] {
        check_pieces(&full, length, Duration::ZERO);
    }
    check_pieces(&full, 1_000, Duration::from_millis(2));
    check_pieces(&[&full[..], &[0]].concat(), 1, Duration::ZERO);
}

#[test]
fn damage_at_every_byte_is_told_where_its_entry_begins() {
    for bytes in [reading(), mixed()] {
        for at in 0..bytes.len() {
            let byte = bytes[at];
            for damage in [0, 1, 3, b'#', 0xFF, byte ^ 0x80, byte.wrapping_add(1)] {
                let mut damaged = bytes.clone();
                damaged[at] = damage;
                check(&damaged);
            }
        }
    }
}

#[test]
fn input_that_ends_early_is_cut_short_at_its_last_entry() {
    for bytes in [reading(), mixed()] {
        for end in 0..bytes.len() {
            check(&bytes[..end]);
        }
    }
    assert_eq!(run(&[&reading()[..93]], Duration::ZERO), quietly("0 size 44 lock 1 marks all\nbad at 44\n"));
}

#[test]
fn what_follows_a_bad_entry_changes_nothing() {
    let (bytes, more) = (mixed(), many(3, 7));
    check(&[&bytes[..], &[0]].concat());
    check(&[&bytes[..], &[0; 44]].concat());
    check(&[&bytes[..], &[0xFF; 44], &more].concat());
    check(&[&bytes[..], &bytes].concat());
    check(&[&bytes[..], &more, &bytes[44..], &more].concat());
    let repeated = [bytes.clone(), bytes.clone()].concat();
    let pieces: Vec<&[u8]> = repeated.chunks(10).collect();
    assert_eq!(run(&pieces, Duration::from_millis(1)), quietly(&listing(&bytes).replace("entries 4 bytes", "bad at")));
}

#[test]
fn a_dump_has_at_most_128_entries() {
    let most = many(MAX_ENTRIES, 8);
    check(&most);
    let (lines, _) = run(&[&most], Duration::ZERO);
    assert!(lines.ends_with("\n127 size 62 lock 0 marks 0\nentries 128 bytes 7936\n"));
    check(&many(MAX_ENTRIES + 1, 8));
    let (lines, _) = run(&[&many(MAX_ENTRIES + 1, 8)], Duration::ZERO);
    assert!(lines.ends_with("\n127 size 62 lock 0 marks 0\nbad at 7936\n"));
    check(&many(3 * MAX_ENTRIES, 8));
}

#[test]
fn a_dump_has_at_most_16384_bytes() {
    let widest =
        |name: &str| Entry { lock: 3, trigger: format!("{:0>64}", "T"), ..Entry::named(&format!("{name:0>64}")) };
    let front = [many(90, 64), widest("a").pack(), widest("b").pack()].concat();
    assert_eq!(front.len(), 90 * 174 + 2 * 322);
    let with_last = |length: usize| [&front[..], &Entry::named(&"c".repeat((length - 46) / 2)).pack()].concat();
    let rest = MAX_BYTES - front.len();
    let most = with_last(rest);
    assert_eq!(most.len(), MAX_BYTES);
    assert!(listing(&most).ends_with("entries 93 bytes 16384\n"));
    assert!(listing(&with_last(rest + 2)).ends_with("\nbad at 16304\n"));
    for bytes in [most.clone(), with_last(rest - 2), with_last(rest + 2)] {
        check(&bytes);
        check_pieces(&bytes, 1, Duration::ZERO);
        check(&[&bytes[..], &[0]].concat());
        check(&[&bytes[..], &Entry::named("").pack()].concat());
        check(&[&bytes[..], &vec![0xFF; 70_000]].concat());
    }
    check(&most[..MAX_BYTES - 1]);
    check(&many(MAX_ENTRIES, 41));
}

#[test]
fn random_dumps_and_damage_in_random_pieces() {
    let mut state: u64 = 13;
    let mut below = |bound: usize| {
        state = state.wrapping_mul(6_364_136_223_846_793_005).wrapping_add(1_442_695_040_888_963_407);
        (state >> 33) as usize % bound
    };
    for _ in 0..300 {
        let entries: Vec<Entry> = (0..below(12))
            .map(|i| Entry {
                namespace: below(3) as u8,
                name: ["", "A", "#", "Boot####", "Boot00##"][below(5)].to_string() + &["", "x"][below(2)].repeat(i),
                lock: below(4) as u8,
                trigger: ["T", "Trigger", "T#"][below(30) / 14].to_string(),
            })
            .collect();
        let mut bytes = dump(&entries);
        if below(3) == 0 && !bytes.is_empty() {
            let at = below(bytes.len());
            bytes[at] = below(256) as u8;
        }
        bytes.truncate(bytes.len() - below(2) * below(bytes.len() + 1));
        let mut pieces = Vec::new();
        let mut rest = &bytes[..];
        while !rest.is_empty() {
            let (piece, behind) = rest.split_at(1 + below(rest.len().min(100)));
            pieces.push(piece);
            rest = behind;
        }
        assert_eq!(run(&pieces, Duration::ZERO), quietly(&listing(&bytes)), "of {bytes:02X?}");
    }
}
