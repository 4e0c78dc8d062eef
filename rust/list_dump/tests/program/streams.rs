//! What it reads and when it writes; input without an end, and reads and writes that fail.

use crate::dumps::reading;
use crate::run::{by_shell, feed, quietly, start, written};
use list_dump::{MAX_BYTES, listing};
use std::fs::File;
use std::io::{BufRead, BufReader, ErrorKind, Seek, Write};
use std::os::fd::OwnedFd;
use std::os::unix::net::UnixStream;
use std::process::Stdio;
use std::time::Duration;

#[test]
fn a_line_is_written_as_soon_as_its_entry_is_whole() {
    let bytes = reading();
    let mut child = start(Stdio::piped());
    let mut stdin = child.stdin.take().expect("piped");
    let mut lines = BufReader::new(child.stdout.take().expect("piped")).lines();
    let mut next = || lines.next().map(|line| line.expect("readable"));
    stdin.write_all(&bytes[..50]).expect("it reads");
    assert_eq!(next().as_deref(), Some("0 size 44 lock 1 marks all"));
    stdin.write_all(&bytes[50..]).expect("it reads");
    assert_eq!(next().as_deref(), Some("1 size 50 lock 0 marks 1"));
    drop(stdin);
    assert_eq!(next().as_deref(), Some("entries 2 bytes 94"));
    assert_eq!(next(), None);
    assert!(child.wait().expect("list_dump ends").success());
}

#[test]
fn endless_input_ends_at_its_first_bad_entry() {
    let bytes = reading();
    let cut_short = [&[0, 0, 1, 0, 0xFF, 0xFF, 44, 0][..], &[0; 36]].concat();
    for (front, endless) in [
        (&bytes[..], &[0xFF; 64][..]),
        (&bytes, &[0; 1_000]),
        (&bytes, &bytes),
        (&[], &[7; 4_096]),
        (&cut_short, &[0; 1]),
        (&bytes, b"Boot"),
    ] {
        let mut child = start(Stdio::piped());
        let mut stdin = child.stdin.take().expect("piped");
        stdin.write_all(front).expect("it reads");
        let refused = loop {
            if let Err(error) = stdin.write_all(endless) {
                break error.kind();
            }
        };
        assert_eq!(refused, ErrorKind::BrokenPipe);
        let much = [front, &endless.repeat(MAX_BYTES)].concat();
        assert_eq!(written(child), quietly(&listing(&much)));
    }
    let zeros = File::open("/dev/zero").expect("there is one");
    assert_eq!(written(start(zeros)), quietly("bad at 0\n"));
}

#[test]
fn nothing_is_read_behind_the_piece_that_ends_it() {
    let path = std::env::temp_dir().join(format!("list_dump-{}", std::process::id()));
    let bytes = [reading(), vec![0; 1_000_000]].concat();
    std::fs::write(&path, &bytes).expect("writable");
    let mut file = File::open(&path).expect("readable");
    std::fs::remove_file(&path).expect("removable");
    let child = start(file.try_clone().expect("the same position"));
    assert_eq!(written(child), quietly(&listing(&bytes)));
    assert_eq!(file.stream_position().expect("a file"), 4_096);
}

#[test]
fn a_read_error_is_told_and_no_closing_line_is_written() {
    let folder = File::open("/").expect("readable");
    assert_eq!(written(start(folder)), (String::new(), "standard input: Is a directory\n".to_string()));
    let closed = by_shell("exec \"$0\" <&-", Stdio::null(), Stdio::piped());
    assert_eq!(written(closed), (String::new(), "standard input: Bad file descriptor\n".to_string()));
}

#[test]
fn lines_before_a_read_error_stay() {
    let (mut writer, reader) = UnixStream::pair().expect("two sockets");
    reader.set_nonblocking(true).expect("a socket");
    writer.write_all(&reading()[..60]).expect("there is room");
    let told = "standard input: Resource temporarily unavailable\n".to_string();
    assert_eq!(written(start(OwnedFd::from(reader))), ("0 size 44 lock 1 marks all\n".to_string(), told));
}

/// What is told on standard error where standard output takes nothing.
fn told_unwritten(script: &str, stdout: impl Into<Stdio>) -> String {
    let mut child = by_shell(script, Stdio::piped(), stdout);
    feed(&mut child, &[&reading(), &[0; 200_000]], Duration::from_millis(20));
    written(child).1
}

#[test]
fn a_write_error_is_told_and_ends_it() {
    let full = || File::options().write(true).open("/dev/full").expect("there is one");
    let here = "exec \"$0\"";
    assert_eq!(told_unwritten(here, full()), "standard output: No space left on device\n");
    assert_eq!(told_unwritten("exec \"$0\" >&-", Stdio::null()), "standard output: Bad file descriptor\n");
    let (reader, writer) = std::io::pipe().expect("a pipe");
    drop(reader);
    assert_eq!(told_unwritten("trap '' PIPE; exec \"$0\"", writer), "standard output: Broken pipe\n");
    let closing = by_shell(here, Stdio::null(), full());
    assert_eq!(written(closing).1, "standard output: No space left on device\n");
}

// The language has SIGPIPE ignored from the start of a program on.
#[test]
fn a_pipe_that_nobody_reads_ends_it_as_any_write_that_fails() {
    let (reader, writer) = std::io::pipe().expect("a pipe");
    drop(reader);
    assert_eq!(told_unwritten("exec \"$0\"", writer), "standard output: Broken pipe\n");
}
