//! A dump that arrives in pieces.

use crate::calls::{self, ReaderVerdict};
use crate::{MAX_PIECE, READER_BYTES, Status, WHOLE_NAMESPACE_RANK};
use core::fmt;
use core::iter::FusedIterator;

/// Reads a dump that arrives in pieces of 1 to [`MAX_PIECE`] bytes. However it is cut, the reader says the same of it:
/// which entries are good, up to the first that is malformed, repeated, past the limits or cut short.
///
/// It keeps [`READER_BYTES`] bytes in itself, with those of the dump first, and no engine is asked.
///
/// ```
/// use varpolicy::{Entry, Lock, Name, Reader};
///
/// let board = *b"sixteen bytes..!";
/// let entry = Entry { lock: Lock::Now, ..Entry::new(board, Name::EMPTY) }.pack();
/// let other = Entry::new(board, Name::new("A#").unwrap()).pack();
///
/// let mut reader = Reader::new();
/// for piece in [&entry[..7], &entry[7..], &other] {
///     reader.feed(piece)?;
/// }
/// let lines: Vec<String> = reader.entries().map(|entry| entry.to_string()).collect();
/// assert_eq!(lines, ["0 size 44 lock 1 marks all", "1 size 50 lock 0 marks 1"]);
/// assert_eq!(reader.entries().nth(1).unwrap().bytes, &other[..]);
/// assert_eq!(reader.verdict().to_string(), "entries 2 bytes 94");
///
/// // One more byte, and the last entry is cut short.
/// reader.feed(&[0])?;
/// assert_eq!(reader.verdict().bad_at(), Some(94));
/// assert_eq!(reader.verdict().to_string(), "bad at 94");
/// # Ok::<(), varpolicy::Status>(())
/// ```
#[derive(Clone, Debug)]
pub struct Reader {
    bytes: [u8; READER_BYTES],
}

impl Reader {
    /// A reader to which nothing was fed.
    pub fn new() -> Reader {
        let mut reader = Reader { bytes: [0; READER_BYTES] };
        reader.start_again();
        reader
    }

    /// Forgets what was fed: see [`calls::reader_start`].
    pub fn start_again(&mut self) {
        calls::reader_start(&mut self.bytes);
    }

    /// Feeds the next piece: see [`calls::reader_feed`]. Whatever it holds, one of 1 to [`MAX_PIECE`] bytes is taken;
    /// what is wrong with it, the verdict tells.
    ///
    /// * INVALID_PARAMETER: it has another length, and the reader stands as before.
    #[inline]
    pub fn feed(&mut self, piece: &[u8]) -> Result<(), Status> {
        calls::reader_feed(&mut self.bytes, piece).ok()
    }

    /// Feeds any number of bytes, in pieces of at most [`MAX_PIECE`].
    pub fn feed_all(&mut self, bytes: &[u8]) {
        for piece in bytes.chunks(MAX_PIECE) {
            self.feed(piece).expect("1 to MAX_PIECE bytes");
        }
    }

    /// What is to be said of the bytes that were fed: see [`calls::reader_verdict`].
    pub fn verdict(&self) -> Verdict {
        let ReaderVerdict { status: _, whole, ended, entries, bytes } = calls::reader_verdict(&self.bytes);
        Verdict { whole, ended, entries, bytes }
    }

    /// The good entries, in the order of the dump.
    pub fn entries(&self) -> Entries<'_> {
        Entries { reader: self, place: 0, at: 0 }
    }
}

impl Default for Reader {
    fn default() -> Reader {
        Reader::new()
    }
}

/// What a reader says of the bytes that it was fed. As text it is `entries 2 bytes 94`, or `bad at 44`.
#[derive(Clone, Copy, PartialEq, Eq, Hash, Debug)]
pub struct Verdict {
    /// They are good entries and nothing else: a dump.
    pub whole: bool,
    /// No further piece changes anything: a bad entry was met.
    pub ended: bool,
    /// How many good entries there are. No piece makes one of them bad.
    pub entries: usize,
    /// How many bytes they take.
    pub bytes: usize,
}

impl Verdict {
    /// The first byte of the first entry that is malformed, repeated, past the limits or cut short; nothing of a dump.
    pub fn bad_at(self) -> Option<usize> {
        if self.whole { None } else { Some(self.bytes) }
    }
}

impl fmt::Display for Verdict {
    fn fmt(&self, out: &mut fmt::Formatter) -> fmt::Result {
        match self.bad_at() {
            None => write!(out, "entries {} bytes {}", self.entries, self.bytes),
            Some(at) => write!(out, "bad at {at}"),
        }
    }
}

/// Which variables of its namespace an entry is for. As text it is a number, or `all`.
#[derive(Clone, Copy, PartialEq, Eq, Hash, Debug)]
pub enum Marks {
    /// Those that match its name, which has this many `#`.
    Count(u32),
    /// All: it has no name.
    All,
}

impl Marks {
    fn of_rank(rank: u32) -> Marks {
        match rank {
            WHOLE_NAMESPACE_RANK => Marks::All,
            count => Marks::Count(count),
        }
    }
}

impl fmt::Display for Marks {
    fn fmt(&self, out: &mut fmt::Formatter) -> fmt::Result {
        match self {
            Marks::Count(count) => write!(out, "{count}"),
            Marks::All => write!(out, "all"),
        }
    }
}

/// A good entry of a dump. As text it is `0 size 44 lock 1 marks all`, which begins with its place.
#[derive(Clone, Copy, PartialEq, Eq, Debug)]
pub struct ListedEntry<'a> {
    /// Its place, counted from 0.
    pub place: usize,
    /// Its first byte in the dump.
    pub at: usize,
    /// The number of its lock type: 0 to 3, in the order of [`Lock`](crate::Lock).
    pub lock: u32,
    /// How many `#` its name has, or that it is for all of its namespace.
    pub marks: Marks,
    /// Its bytes, a part of the reader.
    pub bytes: &'a [u8],
}

impl ListedEntry<'_> {
    /// How many bytes it has.
    pub fn size(&self) -> usize {
        self.bytes.len()
    }
}

impl fmt::Display for ListedEntry<'_> {
    fn fmt(&self, out: &mut fmt::Formatter) -> fmt::Result {
        write!(out, "{} size {} lock {} marks {}", self.place, self.size(), self.lock, self.marks)
    }
}

/// The good entries of what a reader was fed.
#[derive(Clone, Debug)]
pub struct Entries<'a> {
    reader: &'a Reader,
    place: usize,
    at: usize,
}

impl<'a> Iterator for Entries<'a> {
    type Item = ListedEntry<'a>;

    fn next(&mut self) -> Option<ListedEntry<'a>> {
        let Entries { reader, place, at } = *self;
        let entry = calls::reader_entry(&reader.bytes, at);
        if entry.status != Status::Success {
            return None;
        }
        let end = at + entry.size;
        *self = Entries { reader, place: place + 1, at: end };
        let marks = Marks::of_rank(entry.rank);
        Some(ListedEntry { place, at, lock: entry.lock, marks, bytes: &reader.bytes[at..end] })
    }
}

impl FusedIterator for Entries<'_> {}
