//! What a reader says of the bytes of a dump (docs/RULES.md, 10.12): its good entries, up to the first that is not. They
//! are read whole here; how they were cut into pieces plays no part.

use crate::entry::{Entry, LockRule};
use crate::{MAX_ENTRIES, POLICY_BYTES, name};

/// Bytes of a header.
const HEADER: usize = 44;

/// The most bytes of an entry: a header, a trigger with a name of 64 units, and such a name of its own.
const MAX_ENTRY: usize = 322;

/// What is told of a good entry.
#[derive(Clone, Copy, PartialEq, Eq, Debug)]
pub struct Listed {
    /// Where its first byte is.
    pub first: usize,
    /// Its Size.
    pub size: usize,
    /// Its lock type.
    pub lock: u32,
    /// How many '#' its name has; nothing for a whole namespace.
    pub marks: Option<usize>,
}

/// Why an entry is not good.
#[derive(Clone, Copy, PartialEq, Eq, PartialOrd, Ord, Debug)]
pub enum Fault {
    /// Fewer bytes are left than its Size says, or too few to have one.
    CutShort,
    /// It is malformed.
    Malformed,
    /// An entry before it has the same namespace and name.
    Repeated,
    /// As many entries as the limit stand before it ([`MAX_ENTRIES`]).
    TooMany,
    /// With it the Sizes sum to more than the limit ([`POLICY_BYTES`]).
    TooLong,
}

/// What is said of the bytes.
#[derive(Clone, PartialEq, Eq, Debug)]
pub struct Reading {
    /// The good entries.
    pub entries: Vec<Listed>,
    /// How many bytes they have. There the first bad entry begins, if one does.
    pub bytes: usize,
    /// What is wrong with it; nothing, if no byte stands behind the good ones.
    pub fault: Option<Fault>,
}

/// Reads a dump from end to end.
pub fn read_dump(dump: &[u8]) -> Reading {
    let mut good: Vec<Entry> = Vec::new();
    let mut entries: Vec<Listed> = Vec::new();
    let mut bytes = 0;
    while bytes < dump.len() {
        let (entry, size) = match next_entry(&good, bytes, &dump[bytes..]) {
            Ok(next) => next,
            Err(fault) => return Reading { entries, bytes, fault: Some(fault) },
        };
        entries.push(listed(bytes, size, &entry));
        good.push(entry);
        bytes += size;
    }
    Reading { entries, bytes, fault: None }
}

impl Reading {
    /// Whether the reading of the dump, of which this is said, has ended: no bytes that may still arrive count.
    pub fn has_ended(&self, dump: &[u8]) -> bool {
        let behind = dump.get(self.bytes..).unwrap_or_default();
        dump.len() > POLICY_BYTES || is_decided(behind)
    }

    /// What is told of the entry that begins at this byte of the dump, of which this is said, and ends within the good
    /// ones; of another byte than the first of a good one, what stands there.
    pub fn entry_at(&self, dump: &[u8], at: usize) -> Option<Listed> {
        let rest = dump.get(..self.bytes)?.get(at..)?;
        let own = rest.get(..size_field(rest)?)?;
        Some(listed(at, own.len(), &Entry::decode(own)?))
    }
}

/// Whether a header stands there, and as many bytes as its Size says; or a header whose Size no entry has.
fn is_decided(rest: &[u8]) -> bool {
    rest.len() >= HEADER && size_field(rest).is_some_and(|size| size <= rest.len() || size > MAX_ENTRY)
}

/// The Size of the entry with which the rest begins, if there are enough bytes.
fn size_field(rest: &[u8]) -> Option<usize> {
    let field = rest.get(4..6)?;
    Some(usize::from(field[0]) + 256 * usize::from(field[1]))
}

/// The entry with which the rest begins, and its Size, if it is good behind these.
fn next_entry(good: &[Entry], first: usize, rest: &[u8]) -> Result<(Entry, usize), Fault> {
    let size = size_field(rest).ok_or(Fault::CutShort)?;
    let own = rest.get(..size).ok_or(Fault::CutShort)?;
    let entry = Entry::decode(own).ok_or(Fault::Malformed)?;
    if good.iter().any(|known| known.repeats(&entry)) {
        return Err(Fault::Repeated);
    }
    if good.len() == MAX_ENTRIES {
        return Err(Fault::TooMany);
    }
    if first + size > POLICY_BYTES {
        return Err(Fault::TooLong);
    }
    Ok((entry, size))
}

/// What is told of the entry of this Size at this byte.
fn listed(first: usize, size: usize, entry: &Entry) -> Listed {
    Listed { first, size, lock: lock_type(entry), marks: marks(entry) }
}

/// The number of the lock type.
fn lock_type(entry: &Entry) -> u32 {
    match entry.lock {
        LockRule::NoLock => 0,
        LockRule::LockNow => 1,
        LockRule::LockOnCreate => 2,
        LockRule::LockOnVarState(_) => 3,
    }
}

/// How many '#' the entry's own name has; nothing for a whole namespace.
fn marks(entry: &Entry) -> Option<usize> {
    let has_name = !entry.name.is_empty();
    has_name.then(|| name::wildcards(&entry.name))
}

#[cfg(test)]
mod tests {
    use super::*;
    use crate::entry::Trigger;

    fn entry(namespace: u8, name: &str) -> Entry {
        let name = name.encode_utf16().collect();
        let (namespace, lock, reserved) = ([namespace; 16], LockRule::NoLock, [0; 3]);
        Entry { namespace, name, min_size: 0, max_size: 9, must_have: 0, cant_have: 0, lock, reserved }
    }

    fn with_trigger(entry: Entry, name: &str) -> Entry {
        let name = name.encode_utf16().collect();
        let trigger = Trigger { namespace: [7; 16], name, value: 1, reserved: 0 };
        Entry { lock: LockRule::LockOnVarState(trigger), ..entry }
    }

    fn dump(entries: &[Entry]) -> Vec<u8> {
        entries.iter().flat_map(Entry::encode).collect()
    }

    /// The number of good entries, their bytes, and the fault.
    fn verdict(bytes: &[u8]) -> (usize, usize, Option<Fault>) {
        let reading = read_dump(bytes);
        (reading.entries.len(), reading.bytes, reading.fault)
    }

    #[test]
    fn the_dump_of_94_bytes() {
        let entries = [Entry { lock: LockRule::LockNow, ..entry(7, "") }, entry(7, "A#")];
        let listed = [
            Listed { first: 0, size: 44, lock: 1, marks: None },
            Listed { first: 44, size: 50, lock: 0, marks: Some(1) },
        ];
        let whole = Reading { entries: listed.to_vec(), bytes: 94, fault: None };
        let mut bytes = dump(&entries);
        assert_eq!(read_dump(&bytes), whole);
        bytes[44] = 1;
        let bad = Reading { entries: listed[..1].to_vec(), bytes: 44, fault: Some(Fault::Malformed) };
        assert_eq!(read_dump(&bytes), bad);
    }

    #[test]
    fn no_bytes_are_a_dump_and_zeros_are_not() {
        assert_eq!(verdict(&[]), (0, 0, None));
        assert_eq!(verdict(&[0; 5]), (0, 0, Some(Fault::CutShort)));
        assert_eq!(verdict(&[0; 6]), (0, 0, Some(Fault::Malformed)));
        let good = dump(&[entry(7, ""), entry(8, "")]);
        for zeros in 1..=400 {
            let fault = if zeros < 6 { Fault::CutShort } else { Fault::Malformed };
            assert_eq!(verdict(&[&good[..], &vec![0; zeros]].concat()), (2, 88, Some(fault)), "{zeros}");
        }
    }

    #[test]
    fn a_cut_entry_is_bad_at_its_first_byte() {
        let entries = [entry(7, "A"), with_trigger(entry(7, "B#"), "T")];
        let good = dump(&entries);
        let first = entries[0].encode().len();
        for length in 1..good.len() {
            let (count, bytes, fault) = verdict(&good[..length]);
            let expected = if length < first { (0, 0) } else { (1, first) };
            assert_eq!((count, bytes), expected, "{length}");
            assert_eq!(fault, (length != first).then_some(Fault::CutShort), "{length}");
        }
    }

    #[test]
    fn a_repeat_has_the_namespace_and_the_name_of_an_earlier_one() {
        let list = [entry(7, "A#"), entry(7, ""), entry(8, "A#"), entry(8, "")];
        assert_eq!(verdict(&dump(&list)).2, None);
        for known in &list {
            let again = with_trigger(known.clone(), "T");
            let entries = [&list[..], &[again, entry(9, "")]].concat();
            assert_eq!(verdict(&dump(&entries)), (4, dump(&list).len(), Some(Fault::Repeated)));
        }
        let signed = [&list[..], &[with_trigger(entry(9, "A"), "T#")]].concat();
        assert_eq!(verdict(&dump(&signed)).2, Some(Fault::Malformed));
    }

    /// The dump of entries of as many namespaces, with names of that many units.
    fn many(count: u8, units: usize) -> Vec<u8> {
        dump(&(0..count).map(|number| entry(number, &"A".repeat(units))).collect::<Vec<_>>())
    }

    #[test]
    fn limits() {
        assert_eq!(verdict(&many(128, 0)), (128, 5632, None));
        assert_eq!(verdict(&many(130, 0)), (128, 5632, Some(Fault::TooMany)));
        assert_eq!(verdict(&many(128, 41)), (128, POLICY_BYTES, None));
        assert_eq!(verdict(&many(128, 42)), (126, 126 * 130, Some(Fault::TooLong)));
    }

    #[test]
    fn a_reading_ends_where_the_bad_entry_is_decided_or_at_the_limit() {
        let good = dump(&[entry(7, ""), entry(8, "A")]);
        let ended = |bytes: &[u8]| read_dump(bytes).has_ended(bytes);
        for length in 0..=good.len() {
            assert!(!ended(&good[..length]), "{length}");
        }
        let repeated = [&good[..], &good[44..]].concat();
        let zeros = [&good[..], &[0; 60]].concat();
        let claims = |size: u16| [&good[..], &[0, 0, 1, 0], &size.to_le_bytes(), &[1; 20_000]].concat();
        let past = [&many(128, 41)[..], &[1; 9]].concat();
        for (bytes, first) in [
            (repeated, good.len() + 48),
            (zeros, good.len() + 44),
            (claims(322), good.len() + 322),
            (claims(323), good.len() + 44),
            (claims(0xFFFF), good.len() + 44),
            (past, POLICY_BYTES + 1),
        ] {
            assert_eq!((1..=bytes.len()).find(|length| ended(&bytes[..*length])), Some(first));
        }
    }

    #[test]
    fn an_entry_is_told_where_it_begins() {
        let bytes = [dump(&[entry(7, ""), entry(8, "A")]), entry(9, "").encode()[..43].to_vec()].concat();
        let reading = read_dump(&bytes);
        for at in 0..bytes.len() + 9 {
            let expected = reading.entries.iter().find(|listed| listed.first == at).copied();
            assert_eq!(reading.entry_at(&bytes, at), expected, "{at}");
        }
    }

    #[test]
    fn marks_are_those_of_the_own_name() {
        let names = [("A", Some(0)), ("#", Some(1)), ("A##B", Some(2)), ("", None), ("\u{2341}\u{4123}", Some(0))];
        for (name, expected) in names {
            let [plain, triggered] = [entry(7, name), with_trigger(entry(7, name), "T")]
                .map(|entry| read_dump(&dump(&[entry])).entries.iter().map(|listed| listed.marks).collect::<Vec<_>>());
            assert_eq!((plain, triggered), (vec![expected], vec![expected]), "{name}");
        }
        assert_eq!(read_dump(&dump(&[entry(7, &"#".repeat(64))])).entries[0].marks, Some(64));
    }
}
