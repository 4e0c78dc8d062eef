//! Runs of the program.

use list_dump::listing;
use std::io::{ErrorKind, Write};
use std::path::{Path, PathBuf};
use std::process::{Child, Command, Output, Stdio};
use std::thread;
use std::time::Duration;

pub fn root() -> PathBuf {
    Path::new(env!("CARGO_MANIFEST_DIR")).join("../..")
}

pub fn program() -> PathBuf {
    let program = std::env::var_os("LIST_DUMP").map_or_else(|| root().join("target/bin/list_dump"), PathBuf::from);
    let name = program.display();
    assert!(program.is_file(), "{name} is missing: run `rust/archives list_dump` at the root of the repository first");
    program
}

pub fn start(stdin: impl Into<Stdio>) -> Child {
    let mut command = Command::new(program());
    let pipes = command.stdin(stdin).stdout(Stdio::piped()).stderr(Stdio::piped());
    pipes.spawn().expect("list_dump starts")
}

/// What was written to standard output and to standard error by a program that ended by itself.
pub fn written(child: Child) -> (String, String) {
    let Output { status, stdout, stderr } = child.wait_with_output().expect("list_dump ends");
    assert_eq!(status.code(), Some(0), "the program has no other status");
    let text = |bytes| String::from_utf8(bytes).expect("ASCII");
    (text(stdout), text(stderr))
}

pub fn quietly(lines: &str) -> (String, String) {
    (lines.to_string(), String::new())
}

/// Writes the pieces with a pause before each, as long as the program reads.
pub fn feed(child: &mut Child, pieces: &[&[u8]], pause: Duration) {
    let mut stdin = child.stdin.take().expect("piped");
    for piece in pieces {
        thread::sleep(pause);
        match stdin.write_all(piece) {
            Ok(()) => {}
            Err(error) if error.kind() == ErrorKind::BrokenPipe => return,
            Err(error) => panic!("{error}"),
        }
    }
}

/// What the program writes for pieces through a pipe.
pub fn run(pieces: &[&[u8]], pause: Duration) -> (String, String) {
    let mut child = start(Stdio::piped());
    feed(&mut child, pieces, pause);
    written(child)
}

/// Runs it on the bytes and compares with what the rules say.
pub fn check(bytes: &[u8]) {
    assert_eq!(run(&[bytes], Duration::ZERO), quietly(&listing(bytes)), "of {bytes:02X?}");
}

pub fn check_pieces(bytes: &[u8], length: usize, pause: Duration) {
    let pieces: Vec<&[u8]> = bytes.chunks(length).collect();
    assert_eq!(run(&pieces, pause), quietly(&listing(bytes)), "pieces of {length} bytes");
}

/// Runs it by the shell, which may close a descriptor or have a signal ignored first.
pub fn by_shell(script: &str, stdin: impl Into<Stdio>, stdout: impl Into<Stdio>) -> Child {
    let mut command = Command::new("sh");
    let pipes = command.args(["-c", script]).arg(program()).stdin(stdin).stdout(stdout).stderr(Stdio::piped());
    pipes.spawn().expect("sh starts")
}
