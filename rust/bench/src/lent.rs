//! What every version of a call or of a part is lent, and what it answers.

use crate::plain::reader::Reader;
use varpolicy::{Namespace, READER_BYTES, Switches};

/// The namespace of all variables here, and of most entries.
pub const OURS: Namespace = [7; 16];

/// The switches of the engine, but where a case says another.
pub const SWITCHES: Switches = Switches { enabled: true, locked: false, disabling_allowed: false, exited: false };

/// An answer as numbers, so that all versions can be compared: those of a set are its status and its report, the others
/// have fewer and then zeros.
pub type Answer = [u32; 7];

/// An answer of fewer numbers.
pub fn answer<const COUNT: usize>(numbers: [usize; COUNT]) -> Answer {
    let mut all = [0; 7];
    for (place, number) in all.iter_mut().zip(numbers) {
        *place = number as u32;
    }
    all
}

/// What is lent, and how many calls were made.
#[derive(Clone, PartialEq)]
pub struct Lent {
    /// The non-volatile store.
    pub nv: Vec<u8>,
    /// The volatile store.
    pub volatile: Vec<u8>,
    /// The policy record.
    pub policy: Vec<u8>,
    /// Where its entries end.
    pub policy_end: usize,
    /// What a dump, a copy or a move is written to.
    pub buffer: Vec<u8>,
    /// What a reader of a dump is kept in.
    pub readers: Readers,
    /// How many calls were made.
    pub calls: usize,
}

/// Readers of a dump: the bytes lent to the library, and those of ordinary Rust. Each is the version's own, so that they are
/// not compared.
#[derive(Clone)]
pub struct Readers {
    /// Lent to the library.
    pub library: Box<[u8; READER_BYTES]>,
    /// Ordinary Rust that goes over a name once.
    pub one_pass: Box<Reader<true>>,
    /// Ordinary Rust with what the check of a policy record has.
    pub ordinary: Box<Reader<false>>,
}

impl Readers {
    /// Readers that were not started.
    pub fn new() -> Readers {
        Readers {
            library: Box::new([0; READER_BYTES]),
            one_pass: Box::new(Reader::new()),
            ordinary: Box::new(Reader::new()),
        }
    }
}

impl PartialEq for Readers {
    fn eq(&self, _: &Readers) -> bool {
        true
    }
}
