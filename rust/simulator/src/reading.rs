//! A dump that is read in pieces (docs/RULES.md, 10.12), as text. Which entries are good is the library's answer.

use crate::reason;
use varpolicy::{MAX_PIECE, Reader};

/// A reader, and the bytes that it was fed: in them stands why an entry is bad.
#[derive(Default)]
pub struct Reading {
    reader: Reader,
    arrived: Vec<u8>,
}

impl Reading {
    /// Feeds a piece and tells the status.
    pub fn feed(&mut self, piece: &[u8]) -> String {
        match self.reader.feed(piece) {
            Ok(()) => {
                self.arrived.extend(piece);
                "SUCCESS".to_string()
            }
            Err(refused) => format!("{refused} a piece has 1 to {MAX_PIECE} bytes, and this one has {}", piece.len()),
        }
    }

    /// Whether no further piece changes anything.
    pub fn has_ended(&self) -> bool {
        self.reader.verdict().ended
    }

    /// A line for each good entry, and the closing line.
    pub fn lines(&self) -> Vec<String> {
        let entries = self.reader.entries().map(|entry| entry.to_string());
        entries.chain([self.reader.verdict().to_string()]).collect()
    }

    /// Why the bytes that arrived are not a dump, if they are none.
    pub fn fault(&self) -> Option<String> {
        self.reader.verdict().bad_at().map(|_| reason::no_dump(&self.arrived))
    }
}

#[cfg(test)]
mod tests {
    use super::*;
    use varpolicy::{Entry, Name};

    #[test]
    fn a_bad_entry_is_told_with_its_reason() {
        let mut reading = Reading::default();
        let entry = Entry::new([1; 16], Name::new("A#").unwrap()).pack();
        assert_eq!((reading.lines(), reading.fault()), (vec!["entries 0 bytes 0".to_string()], None));
        assert_eq!(reading.feed(&entry[..7]), "SUCCESS");
        let short = "not a dump: entry 0, at byte 0: 44 bytes are the least, and the rest has 7";
        assert_eq!((reading.lines(), reading.fault().as_deref()), (vec!["bad at 0".to_string()], Some(short)));
        assert!(!reading.has_ended());
        assert_eq!(reading.feed(&[]), "INVALID_PARAMETER a piece has 1 to 4096 bytes, and this one has 0");
        assert_eq!(reading.feed(&[&entry[7..], &entry].concat()), "SUCCESS");
        let twice = "not a dump: entry 1, at byte 50: entry 0 has that namespace and name";
        let lines = ["0 size 50 lock 0 marks 1", "bad at 50"].map(String::from).to_vec();
        assert_eq!((reading.lines(), reading.fault().as_deref()), (lines, Some(twice)));
        assert!(reading.has_ended());
    }
}
