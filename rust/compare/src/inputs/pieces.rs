//! Counts the dumps that are read in pieces: what the pieces are and where they end, what the dump is or why it is none,
//! and when the reader ended.

use super::count_if;
use super::labels::{LOCK_TYPES, crossed};
use super::signs::NUMBER_SIGN;
use super::triggers::without_signs;
use crate::coverage::{Coverage, Input};
use crate::damage::size_field;
use crate::make::LONGEST;
use crate::pieces::Piece;
use crate::reader::MAX_PIECE;
use crate::tallies::Each;
use crate::{FORMER_ENTRIES, FORMER_POLICY_BYTES};
use reference::{Entry, Fault, Listed, MAX_ENTRIES, POLICY_BYTES, Reading};
use std::cmp::Ordering;

/// Lengths of pieces.
pub const PIECE_LENGTH: [&str; 11] =
    ["0", "1", "2", "3 to 4,094", "4,095", "4,096", "4,097", "4,098 to 2^16 - 1", "2^16", "2^16 + 1", "longer"];

/// Where a piece ends.
pub const PIECE_END: [&str; 12] = [
    "between two entries",
    "in Version",
    "before Size",
    "in Size",
    "behind Size",
    "in OffsetToName",
    "in the header behind it",
    "behind the header",
    "behind it, at an odd byte",
    "behind it, at an even byte",
    "before the last byte",
    "in a bad entry or behind it",
];

/// How a dump is cut.
pub const PIECES: [&str; 8] = [
    "no piece",
    "one piece",
    "two pieces",
    "more pieces",
    "byte by byte",
    "several, as few as there can be",
    "an entry in three pieces or more",
    "three entries or more in one piece",
];

/// What is a dump.
pub const READ_WHOLE: [&str; 8] = [
    "no bytes",
    "one entry",
    "more entries",
    "as many entries as the limit",
    "a sum at the limit",
    "both at once",
    "more entries than before E5",
    "a longer sum than before E5",
];

/// The first bad entry.
pub const READ_BAD: [&str; 28] = [
    "cut short before Size",
    "cut short in the header",
    "cut short behind the header",
    "cut short by one byte",
    "cut short, Size over 322",
    "1 to 5 zeros",
    "6 to 43 zeros",
    "44 zeros or more",
    "the room of a policy record",
    "another byte alone",
    "malformed, the first",
    "malformed, a later one",
    "malformed, the 128th",
    "malformed, Size under 44",
    "malformed, Size over 322",
    "malformed, '#' in a trigger's name",
    "repeated, of the one before",
    "repeated, of an earlier one",
    "repeated, a whole namespace",
    "repeated, a pattern",
    "repeated, with another lock type",
    "the 129th, the sum within",
    "the 129th, the sum over the limit",
    "the 129th, cut short",
    "the 129th, malformed",
    "the 129th, repeated",
    "sum two over the limit",
    "sum more over the limit",
];

/// What stands behind a bad entry that is not cut short.
pub const READ_BEHIND: [&str; 4] = ["nothing", "a well-formed entry", "other bytes", "over 16,384 bytes in all"];

/// When a reader ended.
pub const READ_END: [&str; 6] = [
    "not at all, a dump",
    "not at all, an entry cut short",
    "with the last piece",
    "before the last piece",
    "with the first of several pieces",
    "over 4,096 bytes before the last",
];

/// Where an entry is asked for.
pub const READ_PLACE: [&str; 5] = [
    "the first byte of a good one",
    "another byte, and no entry stands there",
    "another byte, where an entry stands in another",
    "the byte where the good ones end",
    "a later byte",
];

/// A piece for a reader of any bytes.
pub const ANY_READER: [&str; 4] = ["taken", "taken, ended", "refused", "refused, ended"];

/// Pieces that are refused.
pub fn refused_labels() -> Vec<String> {
    let places =
        ["before all", "in an entry", "between two entries", "behind all", "behind a bad entry", "behind another"];
    crossed(&["no bytes", "too many"], &places)
}

/// Entries by lock type and name.
pub fn read_lock_labels() -> Vec<String> {
    crossed(&LOCK_TYPES, &["whole namespace", "without '#'", "with '#'", "'#' alone"])
}

/// Counts a dump by what the reference says of it.
pub fn count_dump(coverage: &mut Coverage, dump: &[u8], reading: &Reading) {
    let (entries, bytes) = (reading.entries.len(), reading.bytes);
    for listed in &reading.entries {
        count_entry(coverage, listed, &dump[listed.first..listed.first + listed.size]);
    }
    let Some(fault) = reading.fault else {
        let (many, long) = (entries == MAX_ENTRIES, bytes == POLICY_BYTES);
        let former = [entries > FORMER_ENTRIES, bytes > FORMER_POLICY_BYTES];
        let holds = [entries == 0, entries == 1, entries > 1, many, long, many && long, former[0], former[1]];
        count_if(coverage, Input::ReadWhole, &holds, 0);
        coverage.each(Each::ReadEntries, entries);
        return;
    };
    coverage.each(Each::ReadBefore, entries);
    count_bad(coverage, dump, reading, fault);
    if fault != Fault::CutShort {
        let behind = dump[bytes..].get(size_field(&dump[bytes..]).unwrap_or(0)..).unwrap_or(&[]);
        let entry = size_field(behind).and_then(|size| behind.get(..size)).and_then(Entry::decode);
        let holds = [behind.is_empty(), entry.is_some(), entry.is_none() && !behind.is_empty()];
        count_if(coverage, Input::ReadBehind, &holds, 0);
        count_if(coverage, Input::ReadBehind, &[dump.len() > POLICY_BYTES && bytes < POLICY_BYTES], 3);
    }
}

/// Counts a good entry.
fn count_entry(coverage: &mut Coverage, listed: &Listed, bytes: &[u8]) {
    let Some(entry) = Entry::decode(bytes) else {
        return;
    };
    let units = entry.name.len();
    let signs = entry.name.iter().filter(|unit| **unit == NUMBER_SIGN).count();
    let name = match (units, signs) {
        (0, _) => 0,
        (_, 0) => 1,
        _ if signs < units => 2,
        _ => 3,
    };
    coverage.input(Input::ReadLock, 4 * listed.lock as usize + name);
    if units > 0 {
        coverage.each(Each::ReadSigns, (units - 1) * (units + 2) / 2 + signs);
    }
    coverage.each(Each::ReadSize, bytes.len().saturating_sub(46) / 2);
}

/// Counts the first bad entry.
fn count_bad(coverage: &mut Coverage, dump: &[u8], reading: &Reading, fault: Fault) {
    let (rest, number) = (&dump[reading.bytes..], reading.entries.len());
    let size = size_field(rest);
    let over = size.is_some_and(|size| size > LONGEST);
    match fault {
        Fault::CutShort => count_cut(coverage, rest, number),
        Fault::Malformed => {
            let zeros = rest.iter().all(|byte| *byte == 0);
            let record = zeros && dump.len() == POLICY_BYTES;
            count_if(coverage, Input::ReadBad, &[zeros && rest.len() < 44, zeros && rest.len() >= 44, record], 6);
            let under = !zeros && size.is_some_and(|size| size < 44);
            let holds = [number == 0, number > 0, number + 1 == MAX_ENTRIES, under, over, has_sign_in_trigger(rest)];
            count_if(coverage, Input::ReadBad, &holds, 10);
            count_if(coverage, Input::ReadBad, &[number == MAX_ENTRIES], 24);
        }
        Fault::Repeated => count_repeat(coverage, dump, reading),
        Fault::TooMany => {
            let within = reading.bytes + size.unwrap_or(0) <= POLICY_BYTES;
            count_if(coverage, Input::ReadBad, &[within, !within], 21);
        }
        Fault::TooLong => {
            let sum = reading.bytes + size.unwrap_or(0);
            count_if(coverage, Input::ReadBad, &[sum == POLICY_BYTES + 2, sum > POLICY_BYTES + 2], 26);
        }
    }
}

/// Counts an entry that is cut short.
fn count_cut(coverage: &mut Coverage, rest: &[u8], number: usize) {
    let size = size_field(rest);
    let over = size.is_some_and(|size| size > LONGEST);
    let (length, lacks) = (rest.len(), size.map_or(0, |size| size - rest.len()));
    let zeros = rest.iter().all(|byte| *byte == 0);
    let header = !over && (6..44).contains(&length);
    let holds = [length < 6 && !zeros, header, !over && length >= 44 && lacks > 1, !over && lacks == 1, over, zeros];
    count_if(coverage, Input::ReadBad, &holds, 0);
    count_if(coverage, Input::ReadBad, &[length == 1 && !zeros], 9);
    count_if(coverage, Input::ReadBad, &[number == MAX_ENTRIES], 23);
    if length < 6 || size == Some(LONGEST) {
        coverage.each(Each::ReadCut, length - 1);
    }
}

/// Counts an entry that repeats another.
fn count_repeat(coverage: &mut Coverage, dump: &[u8], reading: &Reading) {
    let entry_at = |first: usize| {
        let rest = &dump[first..];
        Entry::decode(rest.get(..size_field(rest)?)?)
    };
    let Some(entry) = entry_at(reading.bytes) else {
        return;
    };
    let mut known = reading.entries.iter().filter_map(|listed| entry_at(listed.first));
    let Some(place) = known.position(|known| known.repeats(&entry)) else {
        return;
    };
    let next = place + 1 == reading.entries.len();
    let lock = u32::from(dump[reading.bytes + 40]);
    let pattern = entry.name.contains(&NUMBER_SIGN);
    let holds = [next, !next, entry.name.is_empty(), pattern, lock != reading.entries[place].lock];
    count_if(coverage, Input::ReadBad, &holds, 16);
    count_if(coverage, Input::ReadBad, &[reading.entries.len() == MAX_ENTRIES], 25);
}

/// Whether the first entry is well formed but for '#' in its trigger's name.
fn has_sign_in_trigger(rest: &[u8]) -> bool {
    let Some(entry) = size_field(rest).and_then(|size| rest.get(..size)).filter(|entry| entry.len() >= 44) else {
        return false;
    };
    let (places, plain) = without_signs(entry);
    !places.is_empty() && Entry::decode(&plain).is_some()
}

/// Counts the pieces of a dump of which the reference says this, and behind how many bytes the reader ended.
pub fn count(coverage: &mut Coverage, reading: &Reading, count: usize, pieces: &[Piece], ended: Option<usize>) {
    let lengths: Vec<usize> = pieces.iter().filter_map(|piece| piece.taken()).collect();
    let several = lengths.len() > 1;
    let few = lengths.len() == count.div_ceil(MAX_PIECE);
    let holds = [lengths.is_empty(), lengths.len() == 1, lengths.len() == 2, lengths.len() > 2];
    count_if(coverage, Input::Pieces, &holds, 0);
    count_if(coverage, Input::Pieces, &[several && lengths.iter().all(|length| *length == 1), several && few], 4);
    let last = count - lengths.last().unwrap_or(&0);
    let ends = match ended {
        None => [reading.fault.is_none(), reading.fault.is_some(), false, false, false, false],
        Some(at) => [false, false, at > last, at <= last, several && at == lengths[0], at + MAX_PIECE < last],
    };
    count_if(coverage, Input::ReadEnd, &ends, 0);
    count_spread(coverage, reading, &lengths);
    count_each(coverage, reading, pieces, count, ended);
}

/// Counts entries in many pieces, and pieces of many entries.
fn count_spread(coverage: &mut Coverage, reading: &Reading, lengths: &[usize]) {
    let Some(listed) = reading.entries.last() else {
        return;
    };
    let mut end = 0;
    let (mut within, mut most) = (0, 0);
    for length in lengths {
        let starts = reading.entries.partition_point(|listed| listed.first < end);
        end += length;
        let ends = reading.entries.partition_point(|listed| listed.first + listed.size <= end);
        most = most.max(ends.saturating_sub(starts));
        within += usize::from(end > listed.first && end < listed.first + listed.size);
    }
    count_if(coverage, Input::Pieces, &[within > 1, most > 2], 6);
}

/// Counts each piece: its length, where it ends, and where it comes if it is refused.
fn count_each(coverage: &mut Coverage, reading: &Reading, pieces: &[Piece], count: usize, ended: Option<usize>) {
    let mut end = 0;
    for (number, piece) in pieces.iter().enumerate() {
        let length = piece.length();
        coverage.input(Input::PieceLength, length_label(length));
        match piece {
            Piece::Next(length) => {
                end += length;
                coverage.each(Each::ReadPieceLength, length - 1);
                if end < count {
                    count_end(coverage, reading, end);
                }
            }
            Piece::Refused(length) => {
                if *length > MAX_PIECE {
                    coverage.each(Each::ReadRefused, length - MAX_PIECE - 1);
                }
                let bad = ended.is_some_and(|at| at <= end);
                let between = end_label(reading, end).0 == 0;
                let (first, last) = (end == 0, end == count);
                let again = number > 0 && matches!(pieces[number - 1], Piece::Refused(_));
                let inside = !first && !last && !bad;
                let holds = [first, inside && !between, inside && between, last && !bad, bad, again];
                count_if(coverage, Input::Refused, &holds, 6 * usize::from(*length > 0));
            }
        }
    }
}

fn length_label(length: usize) -> usize {
    match length {
        0..=2 => length,
        3..=4094 => 3,
        4095..=4097 => length - 4091,
        4098..=0xFFFF => 7,
        0x1_0000 | 0x1_0001 => length - 0xFFF8,
        _ => 10,
    }
}

/// Counts where a piece ends that another follows.
fn count_end(coverage: &mut Coverage, reading: &Reading, end: usize) {
    let (label, offset, size) = end_label(reading, end);
    coverage.input(Input::PieceEnd, label);
    if size == LONGEST {
        coverage.each(Each::ReadPieceEnd, offset.wrapping_sub(1));
    }
}

/// The place in [`PIECE_END`] of an end, how many bytes of an entry stand before it, and the entry's Size.
fn end_label(reading: &Reading, end: usize) -> (usize, usize, usize) {
    if end > reading.bytes {
        return (11, end - reading.bytes, 0);
    }
    let place = reading.entries.partition_point(|listed| listed.first <= end);
    let Some(listed) = reading.entries[..place].last().filter(|listed| end < listed.first + listed.size) else {
        return (0, 0, 0);
    };
    let offset = end - listed.first;
    let label = match offset {
        0 => 0,
        1..=3 => 1,
        4..=7 => offset - 2,
        8..=43 => 6,
        44 => 7,
        _ if offset + 1 == listed.size => 10,
        _ if offset % 2 == 1 => 8,
        _ => 9,
    };
    (label, offset, listed.size)
}

/// Counts a byte at which an entry is asked for, and whether one stands there.
pub fn count_place(coverage: &mut Coverage, reading: &Reading, at: usize, stands: bool) {
    let first = reading.entries.binary_search_by_key(&at, |listed| listed.first).is_ok();
    let label = match at.cmp(&reading.bytes) {
        Ordering::Less if first => 0,
        Ordering::Less => 1 + usize::from(stands),
        Ordering::Equal => 3,
        Ordering::Greater => 4,
    };
    coverage.input(Input::ReadPlace, label);
}

/// Counts a piece for a reader of any bytes.
pub fn count_any(coverage: &mut Coverage, taken: bool, ended: bool) {
    coverage.input(Input::AnyReader, 2 * usize::from(!taken) + usize::from(ended));
}
