//! The policy record: the check, and the choice.

use super::index::Small;
use super::pattern::{Four, SIGN, eight, matches, signs};
use super::{ENTRY_HEADER, MAX_NAME, all_are, is_closed_name, le16, le32};
use std::array::from_fn;
use std::ptr::from_ref;
use varpolicy::{MAX_ENTRIES, POLICY_BYTES};

/// Whether bytes are a well-formed entry. It is part of the walk's loop, where the compiler would not put it by itself.
#[inline(always)]
pub fn is_entry(bytes: &[u8]) -> bool {
    is_entry_with(bytes, |offset| is_closed_name(&bytes[offset..]))
}

/// The same, with the test of a name, if there is one, that begins at a place.
#[inline(always)]
pub fn is_entry_with(bytes: &[u8], has_name: impl FnOnce(usize) -> bool) -> bool {
    if bytes.len() < ENTRY_HEADER {
        return false;
    }
    let offset = usize::from(le16(bytes, 6));
    if le32(bytes, 0) != 0x0001_0000
        || usize::from(le16(bytes, 4)) != bytes.len()
        || offset > bytes.len()
        || le32(bytes, 24) > le32(bytes, 28)
        || le32(bytes, 32) & le32(bytes, 36) != 0
    {
        return false;
    }
    let lock_is_sound = match bytes[40] {
        0..=2 => offset == ENTRY_HEADER,
        3 => ends_in_trigger(&bytes[..offset]),
        _ => false,
    };
    lock_is_sound && (offset == bytes.len() || has_name(offset))
}

/// Where the name of a trigger begins.
const TRIGGER_NAME: usize = 62;

/// Whether bytes, an entry up to its name, end in the name of a trigger.
#[inline(always)]
fn ends_in_trigger(bytes: &[u8]) -> bool {
    closed_units(bytes, TRIGGER_NAME).is_some_and(|name| is_plain(bytes, name))
}

/// The units from a place to the end of an entry, or to its name: 1 to 64 and then a zero unit.
#[inline(always)]
pub fn closed_units(bytes: &[u8], at: usize) -> Option<&[u8]> {
    let len = bytes.len();
    if len < at + 2 || le16(bytes, len - 2) != 0 {
        return None;
    }
    let name = &bytes[at..len - 2];
    // One comparison for three: no bytes, too many and an odd number of them all become a large number.
    let has_length = (name.len() as u32).wrapping_sub(2).rotate_right(1) < MAX_NAME as u32 / 2;
    has_length.then_some(name)
}

/// Whether no unit of a name is zero or '#', as in that of a trigger. Eight are tested at once, the last eight and those
/// from the front on. If there are fewer, what stands before them in the entry is covered.
#[inline(always)]
fn is_plain(bytes: &[u8], name: &[u8]) -> bool {
    let len = bytes.len();
    let Some(last) = bytes[..len - 2].last_chunk().map(eight) else { return false };
    let least = if name.len() < 16 {
        let Some(cover) = COVER.as_flattened()[name.len()..].first_chunk().map(eight) else { return false };
        from_fn(|k| allowed(last[k] | cover[k]))
    } else {
        // With so few blocks the loop is unrolled.
        let mut least = last.map(allowed);
        for at in (0..MAX_NAME - 16).step_by(16) {
            if at + 16 >= name.len() {
                break;
            }
            let Some(units) = name[at..].first_chunk().map(eight) else { break };
            least = from_fn(|k| least[k].min(allowed(units[k])));
        }
        least
    };
    least.iter().all(|allowed| *allowed != 0)
}

/// What covers: for a name of N bytes the 16 from place N on, all ones before the name and zeros over it.
pub static COVER: [[u8; 16]; 2] = [[0xFF; 16], [0; 16]];

/// Zero for a zero unit and for '#', and for no other: in 16 bits the factor makes '#' one, and no two units the same.
/// It is never negative, and the least of signed numbers takes one vector instruction.
#[inline(always)]
fn allowed(unit: u16) -> i16 {
    const FACTOR: u16 = 44_939;
    const _: () = assert!(SIGN.wrapping_mul(FACTOR) == 1);
    (unit.wrapping_mul(FACTOR) >> 1) as i16
}

/// Walks a policy record: every entry must be well formed and, by what is told of it and of where it ends, new, and
/// nothing but zeros may stand behind them. Answers where the entries end.
pub fn walk<'a>(record: &'a [u8], mut is_new: impl FnMut(&'a [u8], usize) -> bool) -> Option<usize> {
    if record.len() != POLICY_BYTES {
        return None;
    }
    let mut at = 0;
    while let Some(header) = record[at..].first_chunk::<ENTRY_HEADER>() {
        let size = usize::from(le16(header, 4));
        if size == 0 {
            break;
        }
        let entry = record.get(at..at + size)?;
        at += size;
        if !is_entry(entry) || !is_new(entry, at) {
            return None;
        }
    }
    all_are(&record[at..], 0).then_some(at)
}

/// The name of an entry, with its zero unit.
pub fn name_of(entry: &[u8]) -> &[u8] {
    &entry[usize::from(le16(entry, 6))..]
}

/// The entry that was chosen: its bytes, its place among all, and its rank.
#[derive(Clone, Copy)]
pub struct Chosen<'a> {
    pub entry: &'a [u8],
    pub place: u32,
    pub rank: u32,
}

/// An entry whose name is not plain: where it begins and ends, and its place.
#[derive(Clone, Copy, Default)]
pub struct Signed {
    start: u16,
    end: u16,
    place: u16,
}

impl Signed {
    pub fn entry(self, dump: &[u8]) -> &[u8] {
        &dump[self.start.into()..self.end.into()]
    }

    pub fn place(self) -> usize {
        self.place.into()
    }
}

/// The slots of the table. Of 256, 512 and 1,024 these cost fewest instructions at the most entries.
const SLOTS: usize = 1024;

/// The checked policy record: where each entry ends, and a table of the entries, whose slots are 0 or 1 + place.
pub struct Entries<'a> {
    record: &'a [u8],
    ends: [u16; MAX_ENTRIES],
    pub count: usize,
    table: [u8; SLOTS],
}

impl<'a> Entries<'a> {
    /// No entries yet.
    #[inline(always)]
    pub fn new(record: &'a [u8]) -> Self {
        Entries { record, ends: [0; MAX_ENTRIES], count: 0, table: [0; SLOTS] }
    }

    pub fn check(record: &'a [u8]) -> Option<Self> {
        let mut entries = Entries::new(record);
        walk(record, |entry, end| entries.insert(entry, end))?;
        Some(entries)
    }

    /// Walks a dump: every entry must be well formed and new, and nothing may stand behind them. Enters them, and in
    /// `signed` those whose names have '#' or a zero unit, which is left to be found. Answers how many of these there are.
    #[inline(always)]
    pub fn enter(&mut self, signed: &mut [Signed; MAX_ENTRIES]) -> Option<usize> {
        let dump = self.record;
        if dump.len() > POLICY_BYTES {
            return None;
        }
        let mut at = 0;
        let mut found = 0;
        while at < dump.len() {
            let start = at;
            let header = dump[start..].first_chunk::<ENTRY_HEADER>()?;
            let entry = dump.get(start..start + usize::from(le16(header, 4)))?;
            at += entry.len();
            let mut has_plain_name = true;
            let has_name = |name| {
                let units = closed_units(entry, name);
                has_plain_name = units.is_none_or(|units| is_plain(entry, units));
                units.is_some()
            };
            if !is_entry_with(entry, has_name) {
                return None;
            }
            if !has_plain_name {
                *signed.get_mut(found)? = Signed { start: start as u16, end: at as u16, place: self.count as u16 };
                found += 1;
            }
            if !self.insert(entry, at) {
                return None;
            }
        }
        Some(found)
    }

    /// Enters the next entry. False if there are too many, or its namespace and name are there already.
    fn insert(&mut self, entry: &[u8], end: usize) -> bool {
        let slot = self.slot(entry);
        if self.count == MAX_ENTRIES || self.table[slot] != 0 {
            return false;
        }
        self.ends[self.count] = end as u16;
        self.count += 1;
        self.table[slot] = self.count as u8;
        true
    }

    /// The slot of an entry of the same namespace and name, or the free one where it belongs.
    fn slot(&self, entry: &[u8]) -> usize {
        self.slot_of(&entry[8..24], name_of(entry))
    }

    /// The same by namespace and name. As a call it would cost the check some 45 instructions more for each entry.
    #[inline(always)]
    fn slot_of(&self, namespace: &[u8], name: &[u8]) -> usize {
        let hash = Small::hash(namespace) ^ Small::hash(name);
        let mut slot = hash % self.table.len();
        while self.table[slot] != 0 {
            let known = self.entry(usize::from(self.table[slot]) - 1);
            if known[8..24] == *namespace && name_of(known) == name {
                break;
            }
            slot = (slot + 1) % self.table.len();
        }
        slot
    }

    pub fn end(&self) -> usize {
        match self.count {
            0 => 0,
            count => usize::from(self.ends[count - 1]),
        }
    }

    fn entry(&self, place: usize) -> &'a [u8] {
        let start = if place == 0 { 0 } else { usize::from(self.ends[place - 1]) };
        &self.record[start..usize::from(self.ends[place])]
    }

    /// Whether an entry of the same namespace and name is there.
    pub fn contains(&self, entry: &[u8]) -> bool {
        self.table[self.slot(entry)] != 0
    }

    /// The entry for this variable and no other: of the same namespace and name, without '#'. If there is one, it is
    /// chosen. The name has its zero unit.
    pub fn only_for(&self, namespace: &[u8], name: &[u8]) -> Option<&'a [u8]> {
        let place = self.table[self.slot_of(namespace, name)].checked_sub(1)?;
        (signs(name) == 0).then(|| self.entry(place.into()))
    }

    /// The chosen entry: lowest rank, first among equals. Most entries are passed by after a look at how long their names
    /// are and at the last four units of these, or also at the first four.
    pub fn choose(&self, namespace: &[u8; 16], name: &[u8]) -> Option<Chosen<'a>> {
        let record: &'a [u8; POLICY_BYTES] = self.record.try_into().ok()?;
        let [first, last] = Four::first_and_last(name);
        let mut best = None;
        let mut best_rank = NO_RANK;
        let mut next = 0;
        for noted in &self.ends[..self.count] {
            let (start, end) = (next, usize::from(*noted));
            next = end;
            // OffsetToName ends the first eight bytes of an entry, and a zero unit ends its name.
            let name_at = start + (le64(record, start)? >> 48) as usize;
            if name_at + name.len() + 2 == end {
                let units = le64(record, end.wrapping_sub(10))?;
                let begins = || le64(record, name_at).is_none_or(|units| first.may_match(units));
                if !last.may_match(units) || !begins() || !last.is_like(units) {
                    continue;
                }
            } else if name_at != end {
                continue;
            }
            let entry = &record[start..end];
            let rank = rank_for(entry, namespace, name);
            if rank < best_rank {
                best_rank = rank;
                best = Some((entry, noted));
                if rank == 0 {
                    break;
                }
            }
        }
        // To count the places in the loop would be one instruction more for each entry.
        let place = |noted: &u16| (from_ref(noted).addr() - self.ends.as_ptr().addr()) / size_of::<u16>();
        best.map(|(entry, noted)| Chosen { entry, place: place(noted) as u32, rank: best_rank })
    }
}

/// The number at a place, or nothing if the record ends before. One comparison tells.
fn le64(record: &[u8; POLICY_BYTES], at: usize) -> Option<u64> {
    if at > POLICY_BYTES - 8 {
        return None;
    }
    record[at..].first_chunk().map(|bytes| u64::from_le_bytes(*bytes))
}

/// More than any rank.
const NO_RANK: u32 = 66;

/// The rank of an entry that targets the variable, and more than any of one that does not. Few entries come here, so it
/// stays out of the loop.
#[inline(never)]
fn rank_for(entry: &[u8], namespace: &[u8; 16], name: &[u8]) -> u32 {
    if entry[8..24] != *namespace {
        return NO_RANK;
    }
    match name_of(entry) {
        [] => 65,
        [pattern @ .., _, _] if matches(pattern, name) => signs(pattern) as u32,
        _ => NO_RANK,
    }
}

#[cfg(test)]
mod tests {
    use super::*;
    use crate::inputs::with_entries;
    use varpolicy::{Entry, Lock, Name};

    /// The rank by the rule, unit by unit.
    fn slow_rank(entry: &Entry, namespace: &[u8; 16], name: &Name) -> Option<usize> {
        let (pattern, units) = (entry.name.as_chunks::<2>().0, name.as_chunks::<2>().0);
        let fits = |(own, unit): (&[u8; 2], &[u8; 2])| match own {
            [b'#', 0] => unit[1] == 0 && unit[0].is_ascii_hexdigit(),
            own => own == unit,
        };
        if entry.namespace != *namespace {
            return None;
        }
        if pattern.is_empty() {
            return Some(65);
        }
        let matches = pattern.len() == units.len() && pattern.iter().zip(units).all(fits);
        matches.then(|| pattern.iter().filter(|own| **own == [b'#', 0]).count())
    }

    /// An entry for a whole namespace whose trigger has these bytes as its name. Before them stand zero units and '#'.
    fn with_trigger(name: &[u8]) -> Vec<u8> {
        let lock = Lock::OnVarState { namespace: [0; 16], name: Name::EMPTY, value: b'#' };
        let mut bytes = Entry { lock, ..Entry::new([7; 16], Name::EMPTY) }.pack().to_vec();
        bytes.truncate(TRIGGER_NAME);
        bytes.extend(name);
        let size = (bytes.len() as u16).to_le_bytes();
        bytes[4..6].copy_from_slice(&size);
        bytes[6..8].copy_from_slice(&size);
        bytes
    }

    #[test]
    fn a_trigger_has_no_zero_unit_and_no_sign() {
        let is_good = |units: &[u16]| {
            let name: Vec<u8> = units.iter().chain(&[0]).flat_map(|unit| unit.to_le_bytes()).collect();
            is_entry(&with_trigger(&name))
        };
        for unit in 0..=u16::MAX {
            for count in [1, 9] {
                assert_eq!(is_good(&vec![unit; count]), unit != 0 && unit != SIGN, "{unit:#x}");
            }
        }
        for count in 0..=66 {
            let mut name = vec![0x2300; count];
            assert_eq!(is_good(&name), (1..=64).contains(&count), "{count}");
            for place in 0..count {
                for unit in [0, SIGN] {
                    name[place] = unit;
                    assert!(!is_good(&name), "{unit:#x} at {place} of {count}");
                }
                name[place] = 0x2300;
            }
        }
    }

    #[test]
    fn a_trigger_is_closed_and_has_whole_units() {
        for len in 0..140 {
            let mut name = vec![1; len];
            assert!(!is_entry(&with_trigger(&name)), "{len} bytes");
            name.extend([0, 0]);
            assert_eq!(is_entry(&with_trigger(&name)), len % 2 == 0 && (2..=128).contains(&len), "{len} bytes");
        }
    }

    #[test]
    fn the_choice_is_the_first_of_lowest_rank() {
        let mut seed = 1_u64;
        let mut below = |most: usize| {
            seed = seed.wrapping_mul(6_364_136_223_846_793_005).wrapping_add(1);
            (seed >> 33) as usize % most
        };
        for round in 0..2000 {
            let count = 1 + below(if round % 2 == 0 { 5 } else { 64 });
            let letters: Vec<u16> = "09aFGV#\u{130}".encode_utf16().collect();
            let known = if round % 3 == 0 { 8 } else { 6 };
            let name: Vec<u16> = (0..count).map(|_| letters[below(known)]).collect();
            let mut entries: Vec<Entry> = Vec::new();
            for _ in 0..16 {
                let mut pattern = name.clone();
                for _ in 0..below(6) {
                    let place = below(count);
                    let digits = below(4) > 0 && pattern[place] < 0x47;
                    pattern[place] = if digits { 0x23 } else { letters[below(8)] };
                }
                pattern.truncate(if below(8) == 0 { below(count + 1) } else { count });
                let namespace = [7 + (below(4) / 3) as u8; 16];
                let entry = Entry::new(namespace, Name::from_units(pattern).expect("at most 64 units"));
                if !entries.contains(&entry) {
                    entries.push(entry);
                }
            }
            let name = Name::from_units(name).expect("at most 64 units");
            let ranks = entries.iter().map(|entry| slow_rank(entry, &[7; 16], &name)).enumerate();
            let chosen = ranks.filter_map(|(place, rank)| Some((rank?, place))).min();
            let lent = with_entries(&entries);
            let checked = Entries::check(&lent.policy).expect("valid");
            let found = checked.choose(&[7; 16], &name);
            let found = found.map(|Chosen { entry, place, rank }| (entry.to_vec(), place as usize, rank as usize));
            let expected = chosen.map(|(rank, place)| (entries[place].pack().to_vec(), place, rank));
            assert_eq!(found, expected, "round {round}");
        }
    }
}
