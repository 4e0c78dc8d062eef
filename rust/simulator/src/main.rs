//! `simulate [FILE]`: reads a history from FILE or standard input, one call to a line, makes each call
//! through the proved library, and prints its status by UEFI name with the values beside it. Of a refused call it prints
//! why.
//!
//! A line that is not understood gets a message with its number and what was expected; the rest still
//! runs, and the program ends with status 1. `simulate --help` prints the language.
//!
//! `simulate --quarrels DUMP`: reads the bytes of a dump and prints whether two of its entries quarrel. It ends with
//! status 0 if none do, 1 if two do, and 2 if the bytes are not a dump.
//!
//! `simulate --list DUMP [PIECE-BYTES]`: reads the bytes of a dump in pieces, as they arrive, and prints a line for each good
//! entry and a closing line. It ends with status 0 if the bytes are a dump, and with 2 if not.

mod command;
mod describe;
mod quarrel;
mod reading;
mod reason;
mod simulation;
mod text;

use command::Parser;
use reading::Reading;
use simulation::Simulation;
use std::collections::BTreeMap;
use std::io::{self, BufWriter, Read, Write};
use std::process::ExitCode;
use varpolicy::MAX_PIECE;

const HELP: &str = "\
usage: simulate [FILE]
       simulate --quarrels DUMP
       simulate --list DUMP [PIECE-BYTES]

Reads a history from FILE or standard input, one call to a line:

  namespace ALIAS GUID                 names a namespace
  stores NV-BYTES VOLATILE-BYTES       two erased stores (without this line 4096 bytes each)
  power-on [allow-disable]             restart [allow-disable]
  register NAMESPACE NAME [FIELDS]     register raw HEX
  set NAMESPACE NAME ATTRIBUTES [PAYLOAD]
  append NAMESPACE NAME ATTRIBUTES [PAYLOAD]
  delete NAMESPACE NAME                read NAMESPACE NAME
  settled NAMESPACE NAME               whether the variable's lock holds and hangs on nothing that may still
                                       change; then a line for each variable from it over triggers, with
                                       its chosen entry, and one that says why yes or why no
  dump [BUFFER-BYTES]                  lock, disable, state
  exit                                 the operating system starts, and boot services are gone
  rebuild [reverse | PLACES]           restart, then the entries of a dump again, in order or as told
                                       (another order changes the entries' places in dumps and reports
                                       alone, unless two entries of equal rank target one variable and
                                       change places: the line says so); then disable, lock and exit, each
                                       if it was so. After exit, when no dump is to be had, the dump is the
                                       last one before it, or one that is made just before it: the line
                                       says which, and PLACES count in it
  quarrels [raw HEX]                   of the engine's entries, or of these bytes as a dump, the first two of
                                       equal rank that target one variable, with the smallest such name
  start-reader                         a reader of a dump that arrives in pieces; nothing arrived yet
  feed [PAYLOAD]                       feeds it these bytes as a piece, which has 1 to 4096
  feed-dump [PIECE-BYTES]              feeds it the engine's dump in pieces of so many bytes (4096)
  list                                 a line for each good entry of what arrived, up to the first that is
                                       not, and a closing line: their number and their bytes, or where the
                                       bad entry begins
  poke nv|volatile|policy AT HEX       damages what is lent
  note TEXT                            prints the text

  NAMESPACE   an alias, a GUID, or 32 hex digits
  NAME        \"text\", in which \\uXXXX is one 16-bit unit; elsewhere than in register also
              hex:DIGITS for any bytes; in register also * for the whole namespace, and # in
              the text matches a hex digit and nothing else
  ATTRIBUTES  NV|BS|RT|APPEND, a number such as 0x8, or 0
  PAYLOAD     hex digits, \"text\", or COUNT*HH, in any number
  FIELDS      min=N max=N must=ATTRIBUTES cant=ATTRIBUTES lock=no|now|on-create|on-state, and with
              lock=on-state also trigger=NAMESPACE:NAME value=HH, where NAME is one variable's and may
              have no #; min and max measure the payload as it would be afterwards, an append's with
              what is stored

A refused call tells why. A refused set, append or delete begins with the step of docs/RULES.md, 10.9, and
at step 4 names the entry, by its place in a dump and its name. A set without APPEND that has no payload, or
neither BS nor RT, is a deletion, and its line says so.

A variable is settled if its entry locks now; or locks on create, and the variable exists; or locks on the state
of a trigger, which holds the value and is settled in turn, over at most 16 triggers. While the engine is enabled
and locked, nothing but a start changes, creates or deletes it; where the engine is not, a line says so.

After exit, until the next power-on or restart, register, dump, lock, disable and a second exit are refused, and
with dump the lines quarrels and feed-dump that need one; reads show variables with RT alone; a set needs NV, BS
and RT; and no volatile variable is written or deleted. Entries are enforced as before, also by triggers that
can no longer be read.

; and // begin a comment, but not in a note. Before the first power-on the engine is locked.

With --quarrels, reads the file DUMP (- is standard input), the bytes that a dump wrote and nothing behind
them, and prints what the line quarrels does. It ends with status 0 if no two entries quarrel, with 1 if two
do, and with 2 if the bytes are not a dump: it then tells the place and the first byte of the entry at fault.

With --list, reads the file DUMP (- is standard input) in pieces of so many bytes (4096) up to its end or to a
bad entry, and prints what the line list does. It ends with status 0 if the bytes are a dump, and with 2 if not.
";

const USAGE: &str = "usage: simulate [FILE], simulate --quarrels DUMP or simulate --list DUMP [PIECE-BYTES]";

fn main() -> ExitCode {
    let arguments: Vec<String> = std::env::args().skip(1).collect();
    let arguments: Vec<&str> = arguments.iter().map(String::as_str).collect();
    let ended = match arguments.as_slice() {
        [] => history("-"),
        ["--help" | "-h"] => print(HELP).map(|()| ExitCode::SUCCESS),
        ["--quarrels", dump] => quarrels(dump),
        ["--list", dump] => list(dump, MAX_PIECE),
        ["--list", dump, piece] => text::piece(piece).ok_or(USAGE.to_string()).and_then(|piece| list(dump, piece)),
        [file] if !file.starts_with("--") => history(file),
        _ => Err(USAGE.to_string()),
    };
    ended.unwrap_or_else(|message| {
        eprintln!("{message}");
        ExitCode::from(2)
    })
}

/// Runs the history in a file.
fn history(file: &str) -> Result<ExitCode, String> {
    let history = read(file)?;
    let bad_lines = run(&String::from_utf8_lossy(&history), BufWriter::new(io::stdout().lock()));
    match unless_unread(bad_lines)? {
        0 => Ok(ExitCode::SUCCESS),
        _ => Ok(ExitCode::FAILURE),
    }
}

/// Tells of a dump in a file whether two of its entries quarrel.
fn quarrels(file: &str) -> Result<ExitCode, String> {
    let dump = read(file)?;
    let (told, ended) = match varpolicy::quarrels(&dump) {
        Ok(None) => (quarrel::none(&dump), ExitCode::SUCCESS),
        Ok(Some(pair)) => (quarrel::pair(&dump, &pair, &BTreeMap::new()), ExitCode::FAILURE),
        Err(_) => return Err(format!("{}: {}", named(file), reason::no_dump(&dump))),
    };
    print(&format!("{told}\n"))?;
    Ok(ended)
}

/// Reads a dump in a file in pieces of so many bytes, and lists its good entries.
fn list(file: &str, piece: usize) -> Result<ExitCode, String> {
    let mut reading = Reading::default();
    opened(file).and_then(|dump| read_pieces(dump, piece, &mut reading)).map_err(|error| failed(file, error))?;
    print(&format!("{}\n", reading.lines().join("\n")))?;
    match reading.fault() {
        None => Ok(ExitCode::SUCCESS),
        Some(why) => Err(format!("{}: {why}", named(file))),
    }
}

/// Feeds a reader what a file holds, up to its end or until no further piece changes anything.
fn read_pieces(mut file: impl Read, piece: usize, reading: &mut Reading) -> io::Result<()> {
    let mut buffer = vec![0; piece];
    while !reading.has_ended() {
        match file.read(&mut buffer) {
            Ok(0) => return Ok(()),
            Ok(length) => {
                reading.feed(&buffer[..length]);
            }
            Err(error) if error.kind() == io::ErrorKind::Interrupted => {}
            Err(error) => return Err(error),
        }
    }
    Ok(())
}

/// The bytes of a file, or of standard input for `-`.
fn read(file: &str) -> Result<Vec<u8>, String> {
    let mut bytes = Vec::new();
    let read = opened(file).and_then(|mut opened| opened.read_to_end(&mut bytes));
    read.map(|_| bytes).map_err(|error| failed(file, error))
}

fn opened(file: &str) -> io::Result<Box<dyn Read>> {
    match file {
        "-" => Ok(Box::new(io::stdin().lock())),
        _ => Ok(Box::new(std::fs::File::open(file)?)),
    }
}

fn failed(file: &str, error: io::Error) -> String {
    format!("{}: {error}", named(file))
}

fn named(file: &str) -> &str {
    if file == "-" { "standard input" } else { file }
}

fn print(text: &str) -> Result<(), String> {
    unless_unread(io::stdout().lock().write_all(text.as_bytes()))
}

/// What was written, even if nobody reads it any more, or the failure.
fn unless_unread<T: Default>(written: io::Result<T>) -> Result<T, String> {
    match written {
        Err(error) if error.kind() == io::ErrorKind::BrokenPipe => Ok(T::default()),
        written => written.map_err(|error| error.to_string()),
    }
}

/// Runs a history and answers how many lines were not understood.
fn run(history: &str, mut out: impl Write) -> io::Result<usize> {
    let mut parser = Parser::default();
    let mut simulation = Simulation::default();
    let mut bad_lines = 0;
    for (index, line) in history.lines().enumerate() {
        let number = index + 1;
        let words = text::statement(line);
        if words.is_empty() {
            continue;
        }
        let answer = parser.parse(words).and_then(|command| simulation.run(command, parser.namespaces()));
        match answer {
            Ok(None) => {}
            Ok(Some(answer)) if text::is_note(words) => writeln!(out, "{answer}")?,
            Ok(Some(answer)) => writeln!(out, "{number}: {words} -> {answer}")?,
            Err(expected) => {
                bad_lines += 1;
                writeln!(out, "{number}: {words} -> not understood: {expected}")?;
            }
        }
    }
    out.flush()?;
    Ok(bad_lines)
}
