//! Quarrels of a dump (docs/RULES.md, 10.11): two entries of equal rank that target one variable. They are searched for
//! by trying: every two entries, and at each place of a name every unit.

use crate::entry::Entry;
use crate::{MAX_ENTRIES, POLICY_BYTES, Status, name};
use std::cell::RefCell;
use std::collections::BTreeMap;

/// What the call hands back.
#[derive(Clone, Copy, PartialEq, Eq, Debug)]
pub struct Quarrelled {
    /// The status.
    pub status: Status,
    /// Whether two entries quarrel.
    pub found: bool,
    /// The place of the earlier one, counted from 0.
    pub earlier: usize,
    /// The place of the later one.
    pub later: usize,
    /// How many bytes the smallest name has that both target.
    pub name_length: usize,
}

impl Quarrelled {
    /// No pair.
    const NONE: Quarrelled = Quarrelled { status: Status::Success, found: false, earlier: 0, later: 0, name_length: 0 };
}

/// Whether two entries of a dump quarrel, and the first such pair. The smallest name that both target is written to the
/// front of the buffer, which has room for the longest.
pub fn quarrels(dump: &[u8], buffer: &mut [u8]) -> Quarrelled {
    let Some(entries) = decode(dump) else {
        return Quarrelled { status: Status::InvalidParameter, ..Quarrelled::NONE };
    };
    let Some((earlier, later, name)) = first_pair(&entries) else {
        return Quarrelled::NONE;
    };
    let bytes: Vec<u8> = name.iter().flat_map(|unit| unit.to_le_bytes()).collect();
    buffer[..bytes.len()].copy_from_slice(&bytes);
    Quarrelled { status: Status::Success, found: true, earlier, later, name_length: bytes.len() }
}

/// The entries of a dump: distinct well-formed ones within the limits, and nothing behind the last.
fn decode(dump: &[u8]) -> Option<Vec<Entry>> {
    let mut entries: Vec<Entry> = Vec::new();
    let mut rest = dump;
    while !rest.is_empty() {
        let size = u16::from_le_bytes(rest.get(4..6)?.try_into().ok()?);
        let (bytes, behind) = rest.split_at_checked(size.into())?;
        entries.push(Entry::decode(bytes)?);
        rest = behind;
    }
    let within = entries.len() <= MAX_ENTRIES && dump.len() <= POLICY_BYTES;
    let distinct = || pairs(entries.len()).all(|(earlier, later)| !entries[earlier].repeats(&entries[later]));
    (within && distinct()).then_some(entries)
}

/// Every two of so many places, ordered by the earlier one and then by the later one.
fn pairs(count: usize) -> impl Iterator<Item = (usize, usize)> {
    (0..count).flat_map(move |earlier| (earlier + 1..count).map(move |later| (earlier, later)))
}

/// The places of the first two entries that quarrel, and the smallest name that both target.
fn first_pair(entries: &[Entry]) -> Option<(usize, usize, Vec<u16>)> {
    pairs(entries.len()).find_map(|(earlier, later)| {
        let (one, other) = (&entries[earlier], &entries[later]);
        if one.rank() != other.rank() {
            return None;
        }
        let name = smallest_name(one, other)?;
        Some((earlier, later, name))
    })
}

/// The smallest name of a variable that both entries target, if there is one.
fn smallest_name(one: &Entry, other: &Entry) -> Option<Vec<u16>> {
    if one.namespace != other.namespace || one.name.len() != other.name.len() {
        return None;
    }
    let places = one.name.iter().zip(&other.name);
    places.map(|(wanted, also_wanted)| smallest_unit(*wanted, *also_wanted)).collect()
}

/// The smallest unit that two units of patterns match both, if there is one.
fn smallest_unit(wanted: u16, also_wanted: u16) -> Option<u16> {
    matched_by(wanted).into_iter().find(|unit| name::matches(&[also_wanted], &[*unit]))
}

thread_local! {
    /// What [`matched_by`] has found.
    static MATCHED: RefCell<BTreeMap<u16, Vec<u16>>> = const { RefCell::new(BTreeMap::new()) };
}

/// The units that a unit of a pattern matches, in rising order. Each that a name can have is tried, once in a run.
fn matched_by(wanted: u16) -> Vec<u16> {
    let all = || (1..=u16::MAX).filter(|unit| name::matches(&[wanted], &[*unit])).collect();
    MATCHED.with_borrow_mut(|matched| matched.entry(wanted).or_insert_with(all).clone())
}

#[cfg(test)]
mod tests {
    use super::*;
    use crate::MAX_UNITS;
    use crate::entry::{LockRule, Trigger};

    const OLD: [u8; 2 * MAX_UNITS] = [0x5A; 2 * MAX_UNITS];

    fn entry(namespace: u8, name: &str) -> Entry {
        let name = name.encode_utf16().collect();
        let (namespace, lock, reserved) = ([namespace; 16], LockRule::NoLock, [0; 3]);
        Entry { namespace, name, min_size: 0, max_size: 9, must_have: 0, cant_have: 0, lock, reserved }
    }

    /// The answer to a dump of these bytes, and the name that was written.
    fn asked(dump: &[u8]) -> (Quarrelled, String) {
        let mut buffer = OLD;
        let answer = quarrels(dump, &mut buffer);
        assert_eq!(buffer[answer.name_length..], OLD[answer.name_length..]);
        let units: Vec<u16> =
            buffer[..answer.name_length].chunks(2).map(|unit| u16::from_le_bytes([unit[0], unit[1]])).collect();
        (answer, String::from_utf16(&units).unwrap())
    }

    fn dump(entries: &[Entry]) -> Vec<u8> {
        entries.iter().flat_map(Entry::encode).collect()
    }

    fn found(names: &[&str]) -> Option<(usize, usize, String)> {
        let entries: Vec<Entry> = names.iter().map(|name| entry(7, name)).collect();
        let (answer, name) = asked(&dump(&entries));
        assert_eq!(answer.status, Status::Success);
        answer.found.then_some((answer.earlier, answer.later, name))
    }

    #[test]
    fn the_first_pair_and_the_smallest_name() {
        let some = |earlier: usize, later: usize, name: &str| Some((earlier, later, name.to_string()));
        assert_eq!(found(&["Boot0#", "Boot#0"]), some(0, 1, "Boot00"));
        assert_eq!(found(&["", "#f#", "G", "f##", "##f"]), some(1, 3, "ff0"));
        assert_eq!(found(&["0#", "#1", "#0", "1#"]), some(0, 1, "01"));
        assert_eq!(found(&["#G", "0#", "1#", "#1"]), some(1, 3, "01"));
    }

    #[test]
    fn no_quarrel() {
        let lists: [&[&str]; 10] = [
            &[],
            &["A#"],
            &["", "#"],
            &["A", "B"],
            &["##", "#0"],
            &["#G", "0#"],
            &["#00", "0#"],
            &["A#0", "a0#"],
            &["#/", "/#"],
            &["Boot####", "Boot###0", "Boot"],
        ];
        for names in lists {
            assert_eq!(found(names), None, "{names:?}");
        }
        let apart = dump(&[entry(7, "0#"), entry(8, "#0")]);
        assert_eq!(asked(&apart), (Quarrelled::NONE, String::new()));
    }

    #[test]
    fn what_is_no_dump() {
        let refused = (Quarrelled { status: Status::InvalidParameter, ..Quarrelled::NONE }, String::new());
        let good = dump(&[entry(7, "0#"), entry(7, "#0")]);
        let repeat = dump(&[entry(7, "0#"), entry(7, "#0"), entry(7, "0#")]);
        let whole = dump(&[entry(7, ""), entry(8, ""), entry(7, "")]);
        let zeros = [&good[..], &[0; 44]].concat();
        let trigger = Trigger { namespace: [7; 16], name: vec![0x23], value: 1, reserved: 0 };
        let sign = dump(&[Entry { lock: LockRule::LockOnVarState(trigger), ..entry(7, "A") }]);
        for bytes in [&good[1..], &good[..good.len() - 1], &repeat, &whole, &zeros, &sign, &[0], &[0; POLICY_BYTES]] {
            assert_eq!(asked(bytes), refused);
        }
        let many = |count: u8| dump(&(0..count).map(|number| entry(number, "")).collect::<Vec<_>>());
        assert_eq!(asked(&many(128)).0, Quarrelled::NONE);
        assert_eq!(asked(&many(129)), refused);
        let long = |units: usize| dump(&(0..128).map(|number| entry(number, &"A".repeat(units))).collect::<Vec<_>>());
        assert_eq!((long(41).len(), asked(&long(41)).0), (POLICY_BYTES, Quarrelled::NONE));
        assert_eq!(asked(&long(42)), refused);
    }

    #[test]
    fn each_unit_is_tried() {
        let digits: Vec<u16> = "0123456789ABCDEFabcdef".encode_utf16().collect();
        assert_eq!(matched_by(0x23), digits);
        for unit in [1, 0x22, 0x30, 0x2300, 0xFF23, 0xFFFF] {
            assert_eq!(matched_by(unit), [unit]);
        }
    }
}
