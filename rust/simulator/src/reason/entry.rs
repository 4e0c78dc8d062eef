//! What makes a packed entry malformed (docs/RULES.md, 3): its first defect, by the order of its fields. Where an entry
//! of a dump ends.

use crate::describe;
use varpolicy::{Attributes, MAX_NAME_UNITS, MIN_ENTRY_SIZE};

const VERSION: u32 = 0x0001_0000;
/// Where the name of a trigger begins.
const TRIGGER_NAME: usize = 62;

/// The entry that these bytes begin with, as long as its Size says, or why there is none.
pub fn first(bytes: &[u8]) -> Result<&[u8], String> {
    let left = bytes.len();
    if left < MIN_ENTRY_SIZE {
        return Err(format!("{MIN_ENTRY_SIZE} bytes are the least, and the rest has {left}"));
    }
    if let Some(version) = version_defect(bytes) {
        return Err(version);
    }
    match half(bytes, 4) {
        size if size < MIN_ENTRY_SIZE => Err(format!("Size is {size}, and {MIN_ENTRY_SIZE} is the least")),
        size => bytes.get(..size).ok_or_else(|| format!("Size is {size}, and the rest has {left} bytes")),
    }
}

/// The first defect of a packed entry, if it has one.
pub fn defect(entry: &[u8]) -> Option<String> {
    let length = entry.len();
    if length < MIN_ENTRY_SIZE {
        return Some(format!("{MIN_ENTRY_SIZE} bytes are the least, and the entry has {length}"));
    }
    let number = |at: usize| number(entry, at);
    let (size, offset_to_name, lock_type) = (half(entry, 4), half(entry, 6), entry[40]);
    let (min_size, max_size, both) = (number(24), number(28), Attributes(number(32) & number(36)));
    if let Some(version) = version_defect(entry) {
        Some(version)
    } else if size != length {
        Some(format!("Size is {size}, and the entry has {}", describe::count(length)))
    } else if min_size > max_size {
        Some(format!("MinSize, {min_size}, is over MaxSize, {max_size}"))
    } else if both != Attributes::NONE {
        Some(format!("{both} is both required and prohibited"))
    } else {
        lock_defect(lock_type, entry, offset_to_name).or_else(|| match &entry[offset_to_name..] {
            [] => None,
            name => name_defect("name", name),
        })
    }
}

fn number(bytes: &[u8], at: usize) -> u32 {
    u32::from_le_bytes([bytes[at], bytes[at + 1], bytes[at + 2], bytes[at + 3]])
}

fn half(bytes: &[u8], at: usize) -> usize {
    usize::from(u16::from_le_bytes([bytes[at], bytes[at + 1]]))
}

fn version_defect(entry: &[u8]) -> Option<String> {
    let version = number(entry, 0);
    (version != VERSION).then(|| format!("Version is {version:#010X}, not {VERSION:#010X}"))
}

/// The first defect of the lock type, of OffsetToName, or of the trigger between the header and the name.
fn lock_defect(lock_type: u8, entry: &[u8], offset_to_name: usize) -> Option<String> {
    match lock_type {
        0..=2 if offset_to_name != MIN_ENTRY_SIZE => {
            Some(format!("OffsetToName is {offset_to_name}, and without a trigger it is {MIN_ENTRY_SIZE}"))
        }
        0..=2 => None,
        3 if offset_to_name < TRIGGER_NAME => {
            Some(format!("OffsetToName is {offset_to_name}, and a trigger's name begins at {TRIGGER_NAME}"))
        }
        3 if offset_to_name > entry.len() => {
            Some(format!("OffsetToName is {offset_to_name}, and the entry ends at {}", entry.len()))
        }
        3 => name_defect("trigger's name", &entry[TRIGGER_NAME..offset_to_name]).or_else(|| {
            let is_sign = |unit: &[u8]| unit == [b'#', 0];
            let signs = entry[TRIGGER_NAME..offset_to_name].chunks_exact(2).any(is_sign);
            signs.then(|| "the trigger's name has a '#'".to_string())
        }),
        other => Some(format!("LockPolicyType is {other}, and 3 is the most")),
    }
}

/// The first defect of a name with its closing zero unit.
fn name_defect(which: &str, closed: &[u8]) -> Option<String> {
    let units: Vec<&[u8]> = closed.chunks(2).collect();
    let is_zero = |unit: &&[u8]| **unit == [0, 0];
    let what = match units.split_last() {
        None => "has no bytes".to_string(),
        Some((last, _)) if last.len() == 1 => format!("has {}, an odd number", describe::count(closed.len())),
        Some((last, _)) if !is_zero(last) => "has no closing zero unit".to_string(),
        Some((_, [])) => "has no units".to_string(),
        Some((_, name)) if name.iter().any(is_zero) => "has a zero unit before its end".to_string(),
        Some((_, name)) if name.len() > MAX_NAME_UNITS => {
            format!("has {} units, and {MAX_NAME_UNITS} are the most", name.len())
        }
        Some(_) => return None,
    };
    Some(format!("the {which} {what}"))
}

#[cfg(test)]
mod tests {
    use super::super::OPEN;
    use super::*;
    use varpolicy::{Entry, Lock, Name, POLICY_BYTES, Status, calls};

    fn plain(name: &str) -> Vec<u8> {
        Entry::new([1; 16], Name::new(name).unwrap()).pack().to_vec()
    }

    fn triggered(name: &str, trigger: &str) -> Vec<u8> {
        let [name, trigger] = [name, trigger].map(|text| Name::new(text).unwrap());
        let lock = Lock::OnVarState { namespace: [1; 16], name: trigger, value: 1 };
        Entry { lock, ..Entry::new([1; 16], name) }.pack().to_vec()
    }

    /// An entry with these bytes at this place.
    fn with(mut entry: Vec<u8>, at: usize, bytes: &[u8]) -> Vec<u8> {
        entry[at..at + bytes.len()].copy_from_slice(bytes);
        entry
    }

    #[test]
    fn each_defect_is_told() {
        let required = with(with(plain("A"), 32, &[0x43]), 36, &[0x41]);
        let long = with([&plain("")[..], &[0x41, 0].repeat(65), &[0, 0]].concat(), 4, &[176]);
        for (entry, what) in [
            (plain("A")[..43].to_vec(), "44 bytes are the least, and the entry has 43"),
            (with(plain("A"), 1, &[1]), "Version is 0x00010100, not 0x00010000"),
            (plain("AB")[..48].to_vec(), "Size is 50, and the entry has 48 bytes"),
            (with(plain("A"), 24, &[3, 0, 0, 0, 2, 0, 0, 0]), "MinSize, 3, is over MaxSize, 2"),
            (required, "NV|APPEND is both required and prohibited"),
            (with(plain("A"), 40, &[4]), "LockPolicyType is 4, and 3 is the most"),
            (with(plain("A"), 6, &[46]), "OffsetToName is 46, and without a trigger it is 44"),
            (with(plain("A"), 40, &[3]), "OffsetToName is 44, and a trigger's name begins at 62"),
            (with(triggered("", "T"), 6, &[68]), "OffsetToName is 68, and the entry ends at 66"),
            (with(triggered("A", "T"), 6, &[62]), "the trigger's name has no bytes"),
            (with(triggered("A", "T"), 6, &[65]), "the trigger's name has 3 bytes, an odd number"),
            (with(triggered("A", "T"), 6, &[64]), "the trigger's name has no closing zero unit"),
            (triggered("A", ""), "the trigger's name has no units"),
            (triggered("A", "T\0T"), "the trigger's name has a zero unit before its end"),
            (triggered("A", "T#"), "the trigger's name has a '#'"),
            (with(plain("A"), 44, &[0, 0]), "the name has a zero unit before its end"),
            (with(plain("A"), 46, &[0x42]), "the name has no closing zero unit"),
            (with([&plain("")[..], &[0, 0]].concat(), 4, &[46]), "the name has no units"),
            (with([&plain("A")[..], &[0]].concat(), 4, &[49]), "the name has 5 bytes, an odd number"),
            (long, "the name has 65 units, and 64 are the most"),
        ] {
            assert_eq!(defect(&entry).as_deref(), Some(what));
        }
    }

    #[test]
    fn an_entry_ends_where_its_size_says() {
        let two = [plain("A"), plain("BC")].concat();
        assert_eq!(first(&two), Ok(&plain("A")[..]));
        assert_eq!(first(&two[48..]), Ok(&plain("BC")[..]));
        for (bytes, why) in [
            (two[..43].to_vec(), "44 bytes are the least, and the rest has 43"),
            (with(two.clone(), 2, &[2]), "Version is 0x00020000, not 0x00010000"),
            (with(two.clone(), 4, &[43]), "Size is 43, and 44 is the least"),
            (with(two.clone(), 4, &[99]), "Size is 99, and the rest has 98 bytes"),
        ] {
            assert_eq!(first(&bytes), Err(why.to_string()));
        }
    }

    /// Whether an engine without entries finds an entry malformed.
    fn is_malformed(entry: &[u8]) -> bool {
        calls::register(&mut [0; POLICY_BYTES], OPEN, entry) == Status::InvalidParameter
    }

    /// Entries with each byte changed to some others, cut at each place, and with a byte more.
    #[test]
    fn malformed_is_what_has_a_defect() {
        let names = ["", "A", "A#", "0123456789ABCDEF"];
        let good = names.map(plain).into_iter().chain(names.map(|name| triggered(name, "T2")));
        for entry in good.chain([triggered("A", "T#"), triggered("", "")]) {
            let cut = (0..=entry.len()).map(|length| entry[..length].to_vec());
            let sized = cut.map(|cut| if cut.len() < 6 { cut } else { with(cut.clone(), 4, &[cut.len() as u8]) });
            let bytes =
                |at: usize| (0..8).map(move |bit| 1 << bit).chain([entry[at], entry[at] ^ 0x23, entry[at] ^ 66]);
            let places = (0..entry.len()).flat_map(|at| bytes(at).map(move |change| (at, change)));
            let changed = places.map(|(at, change)| with(entry.clone(), at, &[entry[at] ^ change]));
            let longer = [&entry[..], &[0]].concat();
            for bytes in sized.chain(changed).chain([longer]) {
                assert_eq!(defect(&bytes).is_some(), is_malformed(&bytes), "{bytes:02X?}");
            }
        }
    }
}
