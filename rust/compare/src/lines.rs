//! What a reader says of a dump in lines, one for each good entry and a closing one, from either side.

use crate::pieces::Piece;
use crate::reader::{READER_BYTES, Reader};
use reference::Reading;
use varpolicy::{MAX_NAME_UNITS, Status};

/// The lines that the library gives for a dump in these pieces, of which none is refused.
pub fn by_library(dump: &[u8], pieces: &[Piece]) -> Vec<String> {
    let mut reader = Reader::over(&[0x5A; READER_BYTES]);
    let mut rest = dump;
    for piece in pieces {
        let (bytes, behind) = rest.split_at(piece.length());
        assert_eq!(reader.feed(bytes), Status::Success, "a piece of {} bytes", bytes.len());
        rest = behind;
    }
    let (mut lines, mut at) = (Vec::new(), 0);
    while let Some(listed) = reader.entry_at(at) {
        let marks = Some(listed.rank).filter(|rank| *rank <= MAX_NAME_UNITS);
        lines.push(entry_line(lines.len(), listed.size, listed.lock, marks));
        at += listed.size;
    }
    let verdict = reader.verdict();
    lines.push(closing_line(verdict.whole, verdict.entries, verdict.bytes));
    lines
}

/// The lines that the reference gives for it.
pub fn by_reference(dump: &[u8]) -> Vec<String> {
    let Reading { entries, bytes, fault } = reference::read_dump(dump);
    let numbered = entries.iter().enumerate();
    let lines = numbered.map(|(number, listed)| entry_line(number, listed.size, listed.lock, listed.marks));
    lines.chain([closing_line(fault.is_none(), entries.len(), bytes)]).collect()
}

fn entry_line(number: usize, size: usize, lock: u32, marks: Option<usize>) -> String {
    let marks = marks.map_or("all".to_string(), |count| count.to_string());
    format!("{number} size {size} lock {lock} marks {marks}")
}

fn closing_line(whole: bool, entries: usize, bytes: usize) -> String {
    if whole { format!("entries {entries} bytes {bytes}") } else { format!("bad at {bytes}") }
}
