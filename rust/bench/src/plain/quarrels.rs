//! The quarrels of a dump: which two of its entries have one rank and target one variable.
//!
//! Only names with '#', patterns, may quarrel, and of these only such as have one namespace, length and number of '#'.
//! They are put in lists by a hash of the three. Two patterns with '#' at the same places do not quarrel, or they would
//! be the same entry twice; so a list in which all are alike needs no other look. In the others each is compared with
//! those behind it, from the first on that has '#' elsewhere: by what most pairs can be told by, and many at once if
//! there are many.

use super::pattern::{SIGN, all_ones, eight, overlap, smallest_match};
use super::policy::{COVER, Entries, Signed};
use super::{MAX_NAME, le16};
use std::array::from_fn;
use std::mem::replace;
use varpolicy::MAX_ENTRIES;

/// Two entries that quarrel, by their places, and the length of the smallest name that both target.
#[derive(Clone, Copy, PartialEq, Eq, Debug)]
pub struct Quarrel {
    pub earlier: usize,
    pub later: usize,
    pub name_length: usize,
}

/// The first two entries of a dump that quarrel, with the smallest name that both target at the front of `name`.
/// Nothing if the bytes are no dump.
pub fn first_quarrel(dump: &[u8], name: &mut [u8; MAX_NAME]) -> Option<Option<Quarrel>> {
    let mut signed = [Signed::default(); MAX_ENTRIES];
    let count = Entries::new(dump).enter(&mut signed)?;
    if count == 0 {
        return Some(None);
    }
    let found = first_of_patterns(dump, &signed[..count])?;
    Some(found.map(|[earlier, later]| {
        let [own, other] = [earlier, later].map(|signed| pattern_of(signed.entry(dump)));
        smallest_match(own, other, name);
        Quarrel { earlier: earlier.place(), later: later.place(), name_length: own.len() }
    }))
}

/// The first two that quarrel of entries whose names are not plain. Nothing if one has a zero unit. It stays out of the
/// walk, since its arrays are not needed where all names are plain.
#[inline(never)]
fn first_of_patterns(dump: &[u8], signed: &[Signed]) -> Option<Option<[Signed; 2]>> {
    let columns = Columns { signs: [[0; 8]; MAX_ENTRIES], units: [[0; 8]; MAX_ENTRIES], keys: [0; MAX_ENTRIES] };
    Patterns { dump, signed, columns, next: [0; MAX_ENTRIES] }.first_quarrel()
}

/// The units of an entry's name.
fn pattern_of(entry: &[u8]) -> &[u8] {
    &entry[usize::from(le16(entry, 6))..entry.len() - 2]
}

/// The number of lists.
const LISTS: usize = 256;

/// More than any pattern.
const NOTED: u8 = 0xFF;

/// If there are fewer pairs than so many for each pattern of a list, they are compared one by one.
const FEW: usize = 4;

/// Else so many patterns are compared at once. Of 8, 16 and 32 these cost fewest instructions.
const AT_ONCE: usize = 16;

/// So many that these can be read from each pattern on.
const ROOM: usize = MAX_ENTRIES + AT_ONCE;

/// The patterns of a dump, counted from 0.
struct Patterns<'a> {
    dump: &'a [u8],
    signed: &'a [Signed],
    columns: Columns,
    /// The next one of its list, or 0.
    next: [u8; MAX_ENTRIES],
}

impl Patterns<'_> {
    /// The first two that quarrel. Nothing if a name has a zero unit.
    fn first_quarrel(&mut self) -> Option<Option<[Signed; 2]>> {
        // In two loops, so that the columns are written as eight numbers and read as two.
        for (own, signed) in self.signed.iter().enumerate().take(MAX_ENTRIES) {
            if !self.columns.note(own, signed.entry(self.dump)) {
                return None;
            }
        }
        // Of each list the first one, and 1 + the last one; the first ones of lists that are not alike.
        let mut first = [0_u8; LISTS];
        let mut last = [0_u8; LISTS];
        let mut unlike = [0_u8; LISTS];
        let mut count = 0;
        for own in 0..self.signed.len().min(MAX_ENTRIES) {
            let signs = self.columns.signs(own);
            let list = self.columns.list(own);
            let before = replace(&mut last[list], own as u8 + 1);
            if before == 0 {
                first[list] = own as u8;
                continue;
            }
            let before = usize::from(before - 1) % MAX_ENTRIES;
            self.next[before] = own as u8;
            if self.columns.signs(before) != signs && first[list] != NOTED {
                unlike[count % LISTS] = replace(&mut first[list], NOTED);
                count += 1;
            }
        }
        let mut best = None;
        let mut limit = MAX_ENTRIES;
        for first in unlike.iter().take(count) {
            if let Some([earlier, later]) = self.first_in_list(usize::from(*first) % MAX_ENTRIES, limit) {
                limit = earlier;
                best = Some([earlier, later]);
            }
        }
        Some(best.map(|pair| pair.map(|pattern| self.signed[pattern])))
    }

    /// The first two of a list that quarrel, the earlier one before `limit`.
    #[inline(never)]
    fn first_in_list(&self, first: usize, limit: usize) -> Option<[usize; 2]> {
        let mut list = [0_u8; MAX_ENTRIES];
        let mut count = 0;
        let mut at = first;
        while count < MAX_ENTRIES {
            list[count] = at as u8;
            count += 1;
            at = usize::from(self.next[at]) % MAX_ENTRIES;
            if at == 0 {
                break;
            }
        }
        // The first behind each that has '#' at other places.
        let mut others = [0_u8; MAX_ENTRIES];
        let mut other = count;
        let mut signs = 0;
        let mut pairs = 0;
        for (k, own) in list[..count].iter().enumerate().rev() {
            let own = self.columns.signs(usize::from(*own));
            if own != signs {
                other = k + 1;
                signs = own;
            }
            others[k] = other as u8;
            pairs += count - other;
        }
        let (list, others) = (&list[..count], &others[..count]);
        if pairs < FEW * count {
            self.first_of_few(list, others, limit)
        } else {
            self.first_of_many(list, others, limit)
        }
    }

    /// The same, pair by pair.
    fn first_of_few(&self, list: &[u8], others: &[u8], limit: usize) -> Option<[usize; 2]> {
        for (own, other) in list.iter().map(|own| usize::from(*own)).zip(others) {
            if own >= limit {
                break;
            }
            for later in list[usize::from(*other)..].iter().map(|later| usize::from(*later)) {
                if self.columns.are_near(own, later) && self.quarrel(own, later) {
                    return Some([own, later]);
                }
            }
        }
        None
    }

    /// The same, many at once.
    fn first_of_many(&self, list: &[u8], others: &[u8], limit: usize) -> Option<[usize; 2]> {
        let mut shorts = Shorts { units: [u32::MAX; ROOM], known: [u32::MAX; ROOM] };
        for ((own, units), known) in list.iter().zip(&mut shorts.units).zip(&mut shorts.known) {
            let own = usize::from(*own) % MAX_ENTRIES;
            *units = self.columns.digits(own);
            *known = self.columns.without_signs(own);
        }
        for (k, (own, other)) in list.iter().map(|own| usize::from(*own)).zip(others).enumerate() {
            if own >= limit {
                break;
            }
            let mut at = usize::from(*other);
            loop {
                at = shorts.next_near(k, at, list.len());
                if at >= list.len() {
                    break;
                }
                for later in list[at..].iter().take(AT_ONCE).map(|later| usize::from(*later)) {
                    if self.columns.are_near(own, later) && self.quarrel(own, later) {
                        return Some([own, later]);
                    }
                }
                at += AT_ONCE;
            }
        }
        None
    }

    /// Whether two patterns quarrel.
    #[inline(never)]
    fn quarrel(&self, earlier: usize, later: usize) -> bool {
        let [earlier, later] = [earlier, later].map(|pattern| self.signed[pattern].entry(self.dump));
        earlier[8..24] == later[8..24] && overlap(pattern_of(earlier), pattern_of(later))
    }
}

/// The columns of a list's patterns, four bits of each: 32 bits for a pattern, and which of them are of columns without
/// '#'. All are ones behind the last pattern, so that few are near to what stands there.
struct Shorts {
    units: [u32; ROOM],
    known: [u32; ROOM],
}

impl Shorts {
    /// Steps from a pattern on as long as none of those that are compared at once may quarrel with its own. It has no
    /// call in its loop, so that all stays in registers.
    #[inline(never)]
    fn next_near(&self, own: usize, at: usize, count: usize) -> usize {
        let (own_units, own_known) = (self.units[own], self.known[own]);
        let end = at + count.saturating_sub(at).next_multiple_of(AT_ONCE);
        let [units, known] = [&self.units, &self.known].map(|words| words[at..end].as_chunks::<AT_ONCE>().0);
        let mut near = at;
        for (units, known) in units.iter().zip(known) {
            let differ: [u32; AT_ONCE] = from_fn(|n| (units[n] ^ own_units) & known[n] & own_known);
            if differ.iter().fold(false, |any, differ| any | (*differ == 0)) {
                break;
            }
            near += AT_ONCE;
        }
        near
    }
}

/// Each pattern in eight columns of up to eight units: in one those that are a multiple of eight apart.
struct Columns {
    /// Where it has '#': in each column a bit for each unit.
    signs: [[u16; 8]; MAX_ENTRIES],
    /// The units by exclusive or.
    units: [[u16; 8]; MAX_ENTRIES],
    /// Of its namespace and its length.
    keys: [u64; MAX_ENTRIES],
}

impl Columns {
    /// Notes the name of an entry. False if it has a zero unit.
    #[inline(always)]
    fn note(&mut self, own: usize, entry: &[u8]) -> bool {
        let [mut zero, mut signs, mut units] = [[0; 8]; 3];
        let mut bit = [1; 8];
        let mut note = |eight: [u16; 8]| {
            zero = from_fn(|k| zero[k] | all_ones(eight[k] == 0));
            signs = from_fn(|k| signs[k] | all_ones(eight[k] == SIGN) & bit[k]);
            units = from_fn(|k| units[k] ^ eight[k]);
            bit = bit.map(|bit: u16| bit << 1);
        };
        let name_at = usize::from(le16(entry, 6));
        let (rest, blocks) = entry[name_at..entry.len() - 2].as_rchunks();
        for block in blocks {
            note(eight(block));
        }
        if !rest.is_empty() {
            let last = entry[..name_at + rest.len()].last_chunk().map(eight);
            let cover = COVER.as_flattened()[rest.len()..].first_chunk().map(eight);
            let Some((last, cover)) = last.zip(cover) else { return false };
            note(from_fn(|k| last[k] | cover[k]));
        }
        let word = |at: usize| entry[at..].first_chunk().map_or(0, |word| u64::from_le_bytes(*word));
        self.keys[own] = word(8) ^ word(16).rotate_left(32) ^ (entry.len() - name_at) as u64;
        self.signs[own] = signs;
        self.units[own] = units;
        zero == [0; 8]
    }

    /// Where a pattern has '#'.
    #[inline(always)]
    fn signs(&self, own: usize) -> u64 {
        let [low, high] = halves(&self.signs[own % MAX_ENTRIES]);
        low | high << 8
    }

    /// Its list.
    #[inline(always)]
    fn list(&self, own: usize) -> usize {
        const FACTOR: u64 = 0x9E37_79B9_7F4A_7C15;
        let key = self.keys[own] ^ (u64::from(self.signs(own).count_ones()) << 8);
        (key.wrapping_mul(FACTOR) >> 56) as usize
    }

    /// Whether the columns of two patterns are equal where neither has '#'. If not, they do not quarrel.
    #[inline(always)]
    fn are_near(&self, own: usize, other: usize) -> bool {
        let [own, other] = [own, other].map(|pattern| pattern % MAX_ENTRIES);
        let [signs, units] = [&self.signs, &self.units].map(|columns| [&columns[own], &columns[other]]);
        from_fn(|k| (units[0][k] ^ units[1][k]) & all_ones(signs[0][k] | signs[1][k] == 0)) == [0; 8]
    }

    /// Four bits of each column: of a hex digit its value.
    #[inline(always)]
    fn digits(&self, own: usize) -> u32 {
        let [low, high] = halves(&self.units[own]).map(|units| (units & LOW_BITS) + (units >> 6 & ONES) * 9);
        nibbles(low, high)
    }

    /// Four ones for each column without '#'.
    #[inline(always)]
    fn without_signs(&self, own: usize) -> u32 {
        let [low, high] = halves(&self.signs[own]).map(|signs| (ONES * 0x100 - signs) >> 8 & ONES);
        nibbles(low * 15, high * 15)
    }
}

/// One in each of four numbers, and its low four bits.
const ONES: u64 = 0x0001_0001_0001_0001;
const LOW_BITS: u64 = 0x000F_000F_000F_000F;

/// Eight numbers as two.
#[inline(always)]
fn halves(numbers: &[u16; 8]) -> [u64; 2] {
    [0, 4].map(|from| numbers[from..from + 4].iter().rev().fold(0, |word, number| word << 16 | u64::from(*number)))
}

/// The low four bits of eight numbers.
#[inline(always)]
fn nibbles(low: u64, high: u64) -> u32 {
    let pairs = (low & LOW_BITS) | (high & LOW_BITS) << 4;
    (pairs | pairs >> 24) as u32
}

#[cfg(test)]
mod tests {
    use super::*;
    use crate::inputs::with_entries;
    use crate::plain::policy::is_entry;
    use varpolicy::{Entry, Lock, Name, POLICY_BYTES};

    fn units(name: &[u8]) -> Vec<u16> {
        name.as_chunks::<2>().0.iter().map(|unit| u16::from_le_bytes(*unit)).collect()
    }

    /// The smallest name that two entries of one rank both target, by the rule, unit by unit.
    fn slow_quarrel(own: &Entry, other: &Entry) -> Option<Vec<u16>> {
        let [first, second] = [own, other].map(|entry| units(&entry.name));
        let rank = |units: &[u16]| units.iter().filter(|unit| **unit == SIGN).count();
        if own.namespace != other.namespace || first.len() != second.len() || rank(&first) != rank(&second) {
            return None;
        }
        let matched = |own: u16| -> Vec<u16> {
            if own == SIGN { "0123456789ABCDEFabcdef".encode_utf16().collect() } else { vec![own] }
        };
        let smallest =
            |(own, other): (&u16, &u16)| matched(*own).into_iter().filter(|unit| matched(*other).contains(unit)).min();
        first.iter().zip(&second).map(smallest).collect::<Option<Vec<u16>>>().filter(|name| !name.is_empty())
    }

    /// The first two that quarrel, with the name, by comparing all.
    fn slow_first(entries: &[Entry]) -> Option<([usize; 2], Vec<u16>)> {
        let pairs = (0..entries.len()).flat_map(|own| (own + 1..entries.len()).map(move |other| [own, other]));
        pairs
            .into_iter()
            .find_map(|[own, other]| slow_quarrel(&entries[own], &entries[other]).map(|name| ([own, other], name)))
    }

    fn is_repeat(own: &Entry, other: &Entry) -> bool {
        own.namespace == other.namespace && own.name == other.name
    }

    fn agrees(entries: &[Entry]) -> bool {
        let lent = with_entries(entries);
        let mut name = [0xAA; MAX_NAME];
        let found = first_quarrel(&lent.policy[..lent.policy_end], &mut name).expect("a dump");
        let places = found.map(|quarrel| [quarrel.earlier, quarrel.later]);
        let length = found.map_or(0, |quarrel| quarrel.name_length);
        let slow = slow_first(entries);
        let (slow_places, slow_name) = slow.unzip();
        assert_eq!(places, slow_places);
        assert_eq!(units(&name[..length]), slow_name.unwrap_or_default());
        assert!(name[length..].iter().all(|byte| *byte == 0xAA));
        found.is_some()
    }

    #[test]
    fn the_first_quarrel_is_found() {
        let mut seed = 1_u64;
        let mut below = |most: usize| {
            seed = seed.wrapping_mul(6_364_136_223_846_793_005).wrapping_add(1);
            (seed >> 33) as usize % most
        };
        let letters: Vec<u16> = "0fFgZ\u{130}\u{2301}\u{9923}".encode_utf16().collect();
        let mut found = 0;
        for round in 0..3000 {
            let most = 1 + below(if round % 2 == 0 { 4 } else { 64 });
            let base: Vec<u16> = (0..most).map(|_| letters[below(letters.len())]).collect();
            let digits = 1 + below(letters.len());
            let namespaces = 1 + below(3);
            let mut entries: Vec<Entry> = Vec::new();
            for _ in 0..1 + below(if round % 4 == 0 { 128 } else { 20 }) {
                let mut name = base.clone();
                for _ in 0..below(5) {
                    name[below(most)] = letters[below(digits)];
                }
                for _ in 0..below(4) {
                    name[below(most)] = SIGN;
                }
                name.truncate(if below(8) == 0 { below(most + 1) } else { most });
                let namespace = [7 + below(namespaces) as u8; 16];
                let mut entry = Entry::new(namespace, Name::from_units(name).expect("at most 64 units"));
                if below(9) == 0 {
                    entry.lock = Lock::OnVarState { namespace, name: Name::new("Trigger").expect("a name"), value: 1 };
                }
                let taken: usize = entries.iter().map(|entry| entry.pack().len()).sum();
                if taken + entry.pack().len() <= POLICY_BYTES && !entries.iter().any(|known| is_repeat(known, &entry)) {
                    entries.push(entry);
                }
            }
            found += usize::from(agrees(&entries));
        }
        assert!((500..2500).contains(&found), "{found}");
    }

    #[test]
    fn pairs_of_a_long_list_are_found() {
        // Numbers, and then '#' at two of sixteen places: none quarrel until two have the same number.
        let entry = |number: usize, places: [usize; 2]| {
            let mut name: Vec<u16> = format!("{number:016b}").encode_utf16().collect();
            name.extend("0000000000000000".encode_utf16());
            for place in places {
                name[16 + place] = SIGN;
            }
            Entry::new([7; 16], Name::from_units(name).expect("at most 64 units"))
        };
        let entries: Vec<Entry> =
            (0..MAX_ENTRIES).map(|number| entry(number, [number % 16, (number + 1) % 16])).collect();
        assert!(!agrees(&entries));
        for earlier in 0..MAX_ENTRIES {
            for later in (earlier + 1..MAX_ENTRIES).step_by(7) {
                let mut entries = entries.clone();
                entries[later] = entry(earlier, [(earlier + 2) % 16, (earlier + 3) % 16]);
                assert!(agrees_at(&entries, [earlier, later]), "{earlier} and {later}");
            }
        }
    }

    fn agrees_at(entries: &[Entry], places: [usize; 2]) -> bool {
        let lent = with_entries(entries);
        let found = first_quarrel(&lent.policy[..lent.policy_end], &mut [0; MAX_NAME]).expect("a dump");
        found.is_some_and(|quarrel| [quarrel.earlier, quarrel.later] == places)
    }

    #[test]
    fn what_is_no_dump_is_refused() {
        let name = |text: &str| Name::new(text).expect("at most 64 units");
        let refused = |bytes: &[u8]| {
            let mut name = [0xAA; MAX_NAME];
            first_quarrel(bytes, &mut name).is_none() && name == [0xAA; MAX_NAME]
        };
        let entries = [Entry::new([7; 16], name("A#")), Entry::new([7; 16], name("#BCDEFGHIJKL"))];
        let lent = with_entries(&entries);
        let dump = &lent.policy[..lent.policy_end];
        assert!(!refused(dump) && !refused(&[]));
        for end in 1..dump.len() {
            assert_eq!(refused(&dump[..end]), end != entries[0].pack().len(), "{end} bytes");
        }
        assert!(refused(&lent.policy[..lent.policy_end + 1]) && refused(&lent.policy));
        let mut bytes = dump.to_vec();
        for place in 0..dump.len() {
            for value in [0, 1, 3, 0x23, 0xFF] {
                let old = std::mem::replace(&mut bytes[place], value);
                let (first, second) = bytes.split_at(entries[0].pack().len());
                assert_eq!(refused(&bytes), !is_entry(first) || !is_entry(second), "{value} at {place}");
                bytes[place] = old;
            }
        }
        let twice = [Entry::new([7; 16], name("A#")), Entry { min_size: 1, ..Entry::new([7; 16], name("A#")) }];
        let lent = with_entries(&twice);
        assert!(refused(&lent.policy[..lent.policy_end]));
        let many: Vec<u8> =
            (0..=MAX_ENTRIES as u8).flat_map(|k| Entry::new([k; 16], name("#")).pack().to_vec()).collect();
        assert!(refused(&many) && !refused(&many[..many.len() - 48]));
        let long: Vec<u8> = (0..100).flat_map(|k| Entry::new([k; 16], name(&"#".repeat(64))).pack().to_vec()).collect();
        assert!(refused(&long) && !refused(&long[..long.len() / 100 * (POLICY_BYTES * 100 / long.len())]));
    }
}
