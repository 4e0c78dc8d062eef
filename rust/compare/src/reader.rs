//! The library's reader of a dump that comes in pieces (docs/RULES.md, 10.12), in bytes that are guarded and can be
//! looked at.

use crate::state::Guarded;
use varpolicy::Status;
use varpolicy::calls::{self, ReaderEntry, ReaderVerdict};
pub use varpolicy::{MAX_PIECE, READER_BYTES};

/// What a reader says of the bytes that came so far.
#[derive(Clone, Copy, PartialEq, Eq, Debug)]
pub struct Verdict {
    /// Whether nothing stands behind the good entries.
    pub whole: bool,
    /// Whether no further piece changes anything.
    pub ended: bool,
    /// How many good entries stand before the first that is not.
    pub entries: usize,
    /// How many bytes they have.
    pub bytes: usize,
}

/// What a reader says of a good entry.
#[derive(Clone, Copy, PartialEq, Eq, Debug)]
pub struct Listed {
    /// Its Size.
    pub size: usize,
    /// Its lock type.
    pub lock: u32,
    /// Its rank.
    pub rank: usize,
}

/// A reader.
#[derive(Clone, PartialEq, Debug)]
pub struct Reader {
    bytes: Guarded,
}

impl Reader {
    /// A reader that is started over these old bytes.
    pub fn over(old: &[u8]) -> Reader {
        let mut reader = Reader::of(old);
        reader.start();
        reader
    }

    /// A reader of these bytes, which is not started.
    pub fn of(bytes: &[u8]) -> Reader {
        assert_eq!(bytes.len(), READER_BYTES, "the length of a reader");
        Reader { bytes: Guarded::new(bytes, 3) }
    }

    /// Starts it, or starts it again.
    pub fn start(&mut self) {
        assert_eq!(calls::reader_start(self.array_mut()), Status::Success, "the start of a reader");
    }

    /// Feeds it a piece.
    pub fn feed(&mut self, piece: &[u8]) -> Status {
        calls::reader_feed(self.array_mut(), piece)
    }

    /// What it says of the bytes so far.
    pub fn verdict(&self) -> Verdict {
        let ReaderVerdict { status, whole, ended, entries, bytes } = calls::reader_verdict(self.array());
        assert_eq!(status, Status::Success, "a verdict");
        Verdict { whole, ended, entries, bytes }
    }

    /// What it says of the good entry that begins at this byte; nothing, if the good entries end there or before.
    pub fn entry_at(&self, at: usize) -> Option<Listed> {
        let ReaderEntry { status, size, lock, rank } = calls::reader_entry(self.array(), at);
        match (status, size, lock, rank) {
            (Status::Success, ..) => Some(Listed { size, lock, rank: rank as usize }),
            (Status::NotFound, 0, 0, 0) => None,
            other => panic!("an entry is answered by {other:?}"),
        }
    }

    /// Its bytes.
    pub fn bytes(&self) -> &[u8] {
        &self.bytes
    }

    /// Whether no byte around it has changed.
    pub fn is_intact(&self) -> bool {
        self.bytes.is_intact()
    }

    fn array(&self) -> &[u8; READER_BYTES] {
        self.bytes[..].try_into().expect("as many")
    }

    fn array_mut(&mut self) -> &mut [u8; READER_BYTES] {
        (&mut self.bytes[..]).try_into().expect("as many")
    }
}
