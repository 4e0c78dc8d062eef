//! Dumps to list.

use crate::run::root;

/// The fields of an entry in which dumps differ here; of the others each has a value that is well formed.
#[derive(Clone, Debug, Default)]
pub struct Entry {
    /// Byte 8, the first of the namespace.
    pub namespace: u8,
    /// Empty for a whole namespace.
    pub name: String,
    /// LockPolicyType.
    pub lock: u8,
    /// The trigger's name, for lock type 3.
    pub trigger: String,
}

impl Entry {
    /// An entry without a lock.
    pub fn named(name: &str) -> Entry {
        Entry { name: name.to_string(), ..Entry::default() }
    }

    /// The packed entry.
    pub fn pack(&self) -> Vec<u8> {
        let trigger = match self.lock {
            3 => [&[7; 16][..], &[1, 0], &closed(&self.trigger)].concat(),
            _ => Vec::new(),
        };
        let name = if self.name.is_empty() { Vec::new() } else { closed(&self.name) };
        let half = |n: usize| (n as u16).to_le_bytes();
        [
            &[0, 0, 1, 0][..],
            &half(44 + trigger.len() + name.len()),
            &half(44 + trigger.len()),
            &[self.namespace],
            &[0x5C; 15],
            &[0; 4],
            &[0xFF; 4],
            &[0; 8],
            &[self.lock, 0, 0, 0],
            &trigger,
            &name,
        ]
        .concat()
    }
}

/// A name's bytes, with the closing zero unit.
fn closed(name: &str) -> Vec<u8> {
    name.encode_utf16().chain([0]).flat_map(u16::to_le_bytes).collect()
}

/// The packed entries one behind the other.
pub fn dump(entries: &[Entry]) -> Vec<u8> {
    entries.iter().flat_map(Entry::pack).collect()
}

/// The dump of two entries of the bench readings (docs/RULES.md, 13).
pub fn reading() -> Vec<u8> {
    let bytes = std::fs::read(root().join("crates/list_dump/stdin")).expect("readable");
    assert_eq!(bytes.len(), 94);
    bytes
}

/// One entry of each lock type.
pub fn mixed() -> Vec<u8> {
    let locked = |name: &str, lock| Entry { lock, trigger: "T1".to_string(), ..Entry::named(name) };
    dump(&[locked("A#", 0), locked("", 1), locked("Boot##01", 2), locked("A", 3)])
}

/// As many entries as asked for, each with a name of `units` units of its own.
pub fn many(count: usize, units: usize) -> Vec<u8> {
    let entries: Vec<Entry> = (0..count).map(|i| Entry::named(&format!("{i:0units$}"))).collect();
    dump(&entries)
}
