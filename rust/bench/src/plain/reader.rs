//! A dump that arrives in pieces: the bytes that arrived, a table of the entries that were found good, and how many bytes
//! must have arrived before there is something to look at again.
//!
//! There are two. One finds an entry well formed and new by what the check of a policy record has. The other goes over a
//! name once, where that goes over it twice: it tests eight units for zero and hashes the same sixteen bytes.

use super::index::Small;
use super::pattern::{eight, signs};
use super::policy::{COVER, closed_units, is_entry, is_entry_with, name_of};
use super::{ENTRY_HEADER, MAX_NAME, le16};
use std::array::from_fn;
use varpolicy::{MAX_ENTRIES, MAX_ENTRY_SIZE, MAX_PIECE, POLICY_BYTES};

/// The slots of the table.
const SLOTS: usize = 1024;

/// As many bytes as are held where no more are taken.
const STOPPED: usize = usize::MAX;

/// What a reader says of the bytes that arrived.
#[derive(Clone, Copy, PartialEq, Eq, Debug)]
pub struct Verdict {
    pub whole: bool,
    pub ended: bool,
    pub entries: usize,
    pub bytes: usize,
}

/// A good entry: its size, its lock type and its rank.
#[derive(Clone, Copy, PartialEq, Eq, Debug)]
pub struct Listed {
    pub size: usize,
    pub lock: u32,
    pub rank: u32,
}

/// A reader.
#[derive(Clone)]
pub struct Reader<const ONE_PASS: bool> {
    bytes: [u8; POLICY_BYTES],
    /// How many bytes arrived.
    held: usize,
    /// From how many on the next entry is complete, as far as is known.
    next: usize,
    /// Where each good entry ends, and how many there are.
    ends: [u16; MAX_ENTRIES],
    count: usize,
    /// A slot is 0 or 1 + place.
    table: [u8; SLOTS],
}

impl<const ONE_PASS: bool> Reader<ONE_PASS> {
    /// A reader to which nothing was fed.
    pub fn new() -> Self {
        Reader {
            bytes: [0; POLICY_BYTES],
            held: 0,
            next: ENTRY_HEADER,
            ends: [0; MAX_ENTRIES],
            count: 0,
            table: [0; SLOTS],
        }
    }

    /// Begins anew. The bytes and the ends stay where they are.
    #[inline(never)]
    pub fn start(&mut self) {
        self.held = 0;
        self.next = ENTRY_HEADER;
        self.count = 0;
        self.table = [0; SLOTS];
    }

    /// Feeds a piece of 1 to [`MAX_PIECE`] bytes; false if it has another length. It is a call of its own, as the library's
    /// is. What a byte mostly takes stands before all else.
    #[inline(never)]
    pub fn feed(&mut self, piece: &[u8]) -> bool {
        let held = self.held;
        match (piece, self.bytes.get_mut(held)) {
            ([byte], Some(place)) => {
                *place = *byte;
                self.held = held + 1;
                if held + 1 >= self.next {
                    self.judge();
                }
                true
            }
            _ => self.feed_more(piece),
        }
    }

    /// The same of any piece.
    #[inline(never)]
    fn feed_more(&mut self, piece: &[u8]) -> bool {
        if piece.len().wrapping_sub(1) >= MAX_PIECE {
            return false;
        }
        let held = self.held;
        let Some(room) = self.bytes.get_mut(held..) else { return true };
        if let Some(place) = room.get_mut(..piece.len()) {
            place.copy_from_slice(piece);
            self.held = held + piece.len();
            if self.held >= self.next {
                self.judge();
            }
        } else {
            room.copy_from_slice(&piece[..room.len()]);
            self.held = POLICY_BYTES;
            self.judge();
            self.held = STOPPED;
        }
        true
    }

    /// Judges the complete entries behind the good ones.
    #[inline(never)]
    fn judge(&mut self) {
        let Some(held) = self.bytes.get(..self.held) else { return };
        let mut at = self.good();
        let mut count = self.count;
        loop {
            let Some(header) = held[at..].first_chunk::<ENTRY_HEADER>() else {
                self.next = at + ENTRY_HEADER;
                break;
            };
            let size = usize::from(le16(header, 4));
            let end = at + size;
            let Some(entry) = held.get(at..end) else {
                // No entry is so long, whatever is still to come.
                if size > MAX_ENTRY_SIZE {
                    self.held = STOPPED;
                }
                self.next = end;
                break;
            };
            let Some((slot, place)) = self.free_slot(entry).zip(self.ends.get_mut(count)) else {
                self.held = STOPPED;
                break;
            };
            *place = end as u16;
            count += 1;
            self.table[slot] = count as u8;
            at = end;
        }
        self.count = count;
    }

    /// Where an entry belongs in the table. Nothing if it is not well formed, or one of the same namespace and name is there.
    #[inline(always)]
    fn free_slot(&self, entry: &[u8]) -> Option<usize> {
        let hash = if ONE_PASS { hash_in_one_pass(entry)? } else { hash_of(entry)? };
        let mut slot = hash % SLOTS;
        while self.table[slot] != 0 {
            let known = self.entry(usize::from(self.table[slot]) - 1);
            if known[8..24] == entry[8..24] && name_of(known) == name_of(entry) {
                return None;
            }
            slot = (slot + 1) % SLOTS;
        }
        Some(slot)
    }

    /// How many bytes the good entries take.
    fn good(&self) -> usize {
        match self.count {
            0 => 0,
            count => self.ends[count - 1].into(),
        }
    }

    /// A good entry.
    fn entry(&self, place: usize) -> &[u8] {
        let start = if place == 0 { 0 } else { usize::from(self.ends[place - 1]) };
        &self.bytes[start..usize::from(self.ends[place])]
    }

    /// What is to be said of the bytes that arrived.
    #[inline(never)]
    pub fn verdict(&self) -> Verdict {
        let good = self.good();
        Verdict { whole: self.held == good, ended: self.held > POLICY_BYTES, entries: self.count, bytes: good }
    }

    /// The good entries.
    pub fn entries(&self) -> impl Iterator<Item = Listed> {
        let mut start = 0;
        self.ends[..self.count].iter().map(move |end| {
            let end = usize::from(*end);
            let entry = &self.bytes[start..end];
            start = end;
            let rank = match name_of(entry) {
                [] => 65,
                name => signs(name) as u32,
            };
            Listed { size: entry.len(), lock: entry[40].into(), rank }
        })
    }
}

/// A hash of an entry's namespace and name. Nothing if it is not well formed.
#[inline(always)]
fn hash_of(entry: &[u8]) -> Option<usize> {
    is_entry(entry).then(|| Small::hash(&entry[8..24]) ^ Small::hash(name_of(entry)))
}

/// The same, by one pass over the name.
#[inline(always)]
fn hash_in_one_pass(entry: &[u8]) -> Option<usize> {
    const FACTORS: [u64; 2] = [0x9E37_79B9_7F4A_7C15, 0xD1B5_4A32_D192_ED03];
    let mut mixed = (0, 0);
    let has_name = |offset: usize| {
        let found = closed_units(entry, offset).and_then(|name| mix(entry, name));
        mixed = found.unwrap_or_default();
        found.is_some()
    };
    is_entry_with(entry, has_name).then(|| {
        let (low, high) = (word(entry, 8) ^ mixed.0 ^ FACTORS[0], word(entry, 16) ^ mixed.1 ^ FACTORS[1]);
        let product = u128::from(low) * u128::from(high);
        (product as u64 ^ (product >> 64) as u64) as usize
    })
}

/// The units of the name that ends an entry, mixed to two numbers. Nothing if one is zero. The last eight are taken first,
/// and if there are fewer, what stands before them in the entry is covered.
#[inline(always)]
fn mix(entry: &[u8], name: &[u8]) -> Option<(u64, u64)> {
    const FACTOR: u64 = 0x9E37_79B9_7F4A_7C15;
    let end = entry.len() - 2;
    let last = eight(entry[..end].last_chunk()?);
    let (mut low, mut high) = (word(entry, end - 16), word(entry, end - 8));
    let mut zero: [i16; 8];
    if name.len() < 16 {
        let cover = &COVER.as_flattened()[name.len()..];
        low |= word(cover, 0);
        high |= word(cover, 8);
        let cover = eight(cover.first_chunk()?);
        zero = from_fn(|k| is_zero(last[k] | cover[k]));
    } else {
        zero = last.map(is_zero);
        // With so few blocks the loop is unrolled.
        for at in (0..MAX_NAME - 16).step_by(16) {
            if at + 16 >= name.len() {
                break;
            }
            let units = eight(name[at..].first_chunk()?);
            zero = from_fn(|k| zero[k] | is_zero(units[k]));
            low = low.wrapping_mul(FACTOR) ^ word(name, at);
            high = high.wrapping_mul(FACTOR) ^ word(name, at + 8);
        }
    }
    zero.iter().all(|unit| *unit == 0).then_some((low, high))
}

/// All ones for a zero unit.
#[inline(always)]
fn is_zero(unit: u16) -> i16 {
    -i16::from(unit == 0)
}

/// The number at a place.
#[inline(always)]
fn word(bytes: &[u8], at: usize) -> u64 {
    bytes[at..].first_chunk().map_or(0, |word| u64::from_le_bytes(*word))
}

#[cfg(test)]
mod tests {
    use super::*;
    use crate::inputs::{dumps, with_entries, with_triggers};
    use varpolicy::{Entry, Marks, Name};

    fn listed(entry: varpolicy::ListedEntry) -> Listed {
        let rank = match entry.marks {
            Marks::Count(count) => count,
            Marks::All => 65,
        };
        Listed { size: entry.size(), lock: entry.lock, rank }
    }

    /// Whether a reader says of a dump in pieces what the library does, after each piece.
    fn agrees<const ONE_PASS: bool>(reader: &mut Reader<ONE_PASS>, dump: &[u8], piece: usize) {
        let mut library = varpolicy::Reader::new();
        reader.start();
        for piece in dump.chunks(piece) {
            assert_eq!(reader.feed(piece), library.feed(piece).is_ok());
            let varpolicy::Verdict { whole, ended, entries, bytes } = library.verdict();
            assert_eq!(reader.verdict(), Verdict { whole, ended, entries, bytes });
        }
        assert!(reader.entries().eq(library.entries().map(listed)));
    }

    fn both_agree(dump: &[u8], pieces: &[usize]) {
        let (mut one, mut other) = (Reader::<false>::new(), Reader::<true>::new());
        for piece in pieces {
            agrees(&mut one, dump, *piece);
            agrees(&mut other, dump, *piece);
        }
    }

    #[test]
    fn dumps_are_read() {
        for count in [1, 2, 31, MAX_ENTRIES] {
            for (_, entries) in dumps(count.max(2)) {
                let lent = with_entries(&entries[..count]);
                both_agree(&lent.policy[..lent.policy_end], &[1, 7, 64, 5000, MAX_PIECE]);
            }
        }
        both_agree(&[], &[1]);
    }

    #[test]
    fn what_is_no_dump_ends_where_it_is_bad() {
        let names = [Name::EMPTY, Name::new("A#").expect("a name"), Name::new("BCDEFGHIJKLM#").expect("a name")];
        let entries = names.map(|name| Entry::new([7; 16], name));
        let lent = with_entries(&[&entries[..], &with_triggers(2, 9)].concat());
        let mut dump = lent.policy[..lent.policy_end].to_vec();
        for end in 0..dump.len() {
            both_agree(&dump[..end], &[MAX_PIECE]);
        }
        both_agree(&lent.policy, &[1, MAX_PIECE]);
        for place in 0..dump.len() {
            for value in [0, 1, 3, 0x23, 0xFF] {
                let old = std::mem::replace(&mut dump[place], value);
                both_agree(&dump, &[5, MAX_PIECE]);
                dump[place] = old;
            }
        }
        both_agree(&[&dump[..], &dump[..44]].concat(), &[3, MAX_PIECE]);
    }

    #[test]
    fn limits_are_kept() {
        let packed = |number: u8, units: usize| {
            let name = Name::new(&"#".repeat(units)).expect("at most 64 units");
            Entry::new([number; 16], name).pack().to_vec()
        };
        let many: Vec<u8> = (0..=MAX_ENTRIES as u8).flat_map(|number| packed(number, 1)).collect();
        let long: Vec<u8> = (0..100).flat_map(|number| packed(number, 64)).collect();
        for dump in [many, long] {
            both_agree(&dump, &[1, 100, MAX_PIECE]);
        }
    }
}
