//! A dump that is read in pieces, by the library and by ordinary Rust, beside the check of a policy record with the same
//! entries.

use crate::archive::{self, Numbers};
use crate::lent::{Answer, Lent, answer};
use crate::plain::reader::{Listed, Reader};
use std::slice::from_ref;
use varpolicy::{MAX_PIECE, READER_BYTES, Status, calls};

/// A reader at work.
pub enum Reading {
    /// It is started, fed the entries in pieces of so many bytes, and asked for its verdict.
    Pieces(usize),
    /// The same in the largest pieces, and then the entries are listed in the buffer.
    List,
}

impl Reading {
    /// Reads by the version of a column.
    pub fn run(&self, column: usize, lent: &mut Lent) -> Answer {
        let Lent { policy, policy_end, buffer, readers, .. } = lent;
        let dump = &policy[..*policy_end];
        match (self, column) {
            (Reading::Pieces(piece), 0) => by_library(&mut readers.library, dump, *piece),
            (Reading::Pieces(piece), 1) => by_ordinary(&mut readers.one_pass, dump, *piece),
            (Reading::Pieces(piece), 2) => by_ordinary(&mut readers.ordinary, dump, *piece),
            (Reading::Pieces(_), _) => by_check(policy),
            (Reading::List, 0) => {
                let verdict = by_library(&mut readers.library, dump, MAX_PIECE);
                list_by_library(&readers.library, buffer);
                verdict
            }
            (Reading::List, _) => {
                let verdict = by_ordinary(&mut readers.one_pass, dump, MAX_PIECE);
                list_by_ordinary(&readers.one_pass, buffer);
                verdict
            }
        }
    }

    /// Whether an answer tells that the entries are no dump.
    pub fn is_refused(&self, answer: &Answer) -> bool {
        answer[0] == 0
    }
}

/// Feeds a dump in pieces. Pieces of one byte have a loop of their own, as where bytes arrive one by one.
#[inline(always)]
fn feed_all(dump: &[u8], piece: usize, mut feed: impl FnMut(&[u8])) {
    if piece == 1 {
        dump.iter().for_each(|byte| feed(from_ref(byte)));
    } else {
        dump.chunks(piece).for_each(feed);
    }
}

fn by_library(reader: &mut [u8; READER_BYTES], dump: &[u8], piece: usize) -> Answer {
    calls::reader_start(reader);
    feed_all(dump, piece, |piece| _ = calls::reader_feed(reader, piece));
    let verdict = calls::reader_verdict(reader);
    answer([verdict.whole.into(), verdict.ended.into(), verdict.entries, verdict.bytes])
}

fn by_ordinary<const ONE_PASS: bool>(reader: &mut Reader<ONE_PASS>, dump: &[u8], piece: usize) -> Answer {
    reader.start();
    feed_all(dump, piece, |piece| _ = reader.feed(piece));
    let verdict = reader.verdict();
    answer([verdict.whole.into(), verdict.ended.into(), verdict.entries, verdict.bytes])
}

fn by_check(policy: &[u8]) -> Answer {
    let Numbers { kind, first, second } = archive::check_policy(policy);
    answer([kind as usize, 0, first, second])
}

fn list_by_library(reader: &[u8; READER_BYTES], lines: &mut [u8]) {
    let mut at = 0;
    for line in lines.as_chunks_mut().0 {
        let entry = calls::reader_entry(reader, at);
        if entry.status != Status::Success {
            break;
        }
        *line = line_of(entry.size, entry.lock, entry.rank);
        at += entry.size;
    }
}

fn list_by_ordinary<const ONE_PASS: bool>(reader: &Reader<ONE_PASS>, lines: &mut [u8]) {
    for (line, Listed { size, lock, rank }) in lines.as_chunks_mut().0.iter_mut().zip(reader.entries()) {
        *line = line_of(size, lock, rank);
    }
}

/// What is listed of an entry.
fn line_of(size: usize, lock: u32, rank: u32) -> [u8; 4] {
    let [low, high] = (size as u16).to_le_bytes();
    [low, high, lock as u8, rank as u8]
}
