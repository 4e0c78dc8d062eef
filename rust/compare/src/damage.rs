//! Damage to entries, stores, policy records and dumps. What results may still be sound: both
//! implementations are asked.

use crate::FORMER_POLICY_BYTES;
use crate::make::{self, EntryFields, Pool};
use crate::random::Random;
use reference::{MAX_ENTRIES, POLICY_BYTES};
use varpolicy::MAX_STORE_BYTES;

/// What can be done to an entry.
pub const ENTRY: [&str; 21] = [
    "Version",
    "Size",
    "OffsetToName",
    "Namespace",
    "MinSize over MaxSize",
    "common attribute bit",
    "LockPolicyType",
    "Reserved",
    "cut short",
    "longer than Size",
    "name without zero unit",
    "name with a zero unit",
    "name only a zero unit",
    "name of 65 units",
    "name of odd length",
    "trigger name empty",
    "trigger name of 65 units",
    "trigger cut short",
    "trigger name with '#'",
    "one bit",
    "random bytes",
];

/// An entry with one thing done to it, which is told by its place in [`ENTRY`].
pub fn entry(random: &mut Random, pool: &Pool) -> (usize, Vec<u8>) {
    let mut fields = pool.entry_fields(random);
    let kind = random.below(ENTRY.len());
    let off_by = random.pick(&[-44, -2, -1, 1, 2, 18, 0x1000]);
    match kind {
        0 => fields.version = random.pick(&[0, 1, 0x100, 0x0001_0001, 0x0101_0000, 0x0002_0000, 0x8001_0000]),
        1 => fields.size_off_by = off_by,
        2 => fields.offset_off_by = off_by,
        3 => fields.namespace = random.bytes(16).try_into().expect("16 bytes"),
        4 => {
            fields.max_size = random.below(1000) as u32;
            fields.min_size = fields.max_size + 1;
        }
        5 => {
            let bit = 1 << random.below(32);
            fields.must_have |= bit;
            fields.cant_have |= bit;
        }
        6 => fields.lock_type = random.pick(&[0, 1, 2, 3, 4, 0x80, 0xFF]),
        7 => fields.reserved = [random.byte(), random.byte(), random.byte()],
        8 => {
            let mut bytes = fields.pack();
            bytes.truncate(random.below(bytes.len()));
            let size = bytes.len() as u16;
            if bytes.len() >= 6 && random.one_in(2) {
                bytes[4..6].copy_from_slice(&size.to_le_bytes());
            }
            return (kind, bytes);
        }
        9 => {
            let mut bytes = fields.pack();
            bytes.extend(vec![0; 1 + random.below(4)]);
            return (kind, bytes);
        }
        10 => fields.name.truncate(fields.name.len().saturating_sub(2)),
        11 => {
            let place = random.below(fields.name.len() / 2 + 1) * 2;
            fields.name.splice(place..place, [0, 0]);
        }
        12 => fields.name = vec![0, 0],
        13 => fields.name = make::closed(&[0x41; 65]),
        14 => fields.name.push(0),
        15..=17 => damage_trigger(random, &mut fields, kind),
        18 => {
            if fields.lock_type != 3 {
                fields = fields.with_trigger(make::G, &make::units("T0"), 0);
            }
            fields.put_sign_in_trigger(random);
        }
        19 => {
            let mut bytes = fields.pack();
            let place = random.below(bytes.len());
            bytes[place] ^= 1 << random.below(8);
            return (kind, bytes);
        }
        _ => {
            let len = random.below(400);
            return (kind, random.bytes(len));
        }
    }
    (kind, fields.pack())
}

fn damage_trigger(random: &mut Random, fields: &mut EntryFields, kind: usize) {
    fields.lock_type = 3;
    fields.trigger = [make::G.to_vec(), vec![0, 0]].concat();
    match kind {
        15 if random.one_in(2) => {}
        15 => fields.trigger.extend([0, 0]),
        16 => fields.trigger.extend(make::closed(&[0x54; 65])),
        _ => {
            fields.trigger.extend(make::closed(&make::units("T")));
            fields.trigger.truncate(random.below(fields.trigger.len()));
        }
    }
}

/// What can be done to a pair of stores.
pub const STORES: [&str; 14] = [
    "one bit of a record",
    "one header byte",
    "attributes",
    "NameSize",
    "DataSize",
    "padding",
    "behind the records",
    "store cut short",
    "store over 32,768 bytes",
    "record repeated",
    "record in both stores",
    "record moved to the other store",
    "zero unit in a name",
    "all random",
];

/// Does one thing to a pair of stores, which is told by its place in [`STORES`].
pub fn stores(random: &mut Random, nv: &mut Vec<u8>, volatile: &mut Vec<u8>) -> usize {
    let kind = random.below(STORES.len());
    let (store, other) = if random.one_in(2) { (nv, volatile) } else { (volatile, nv) };
    let places = records(store);
    match kind {
        7 => {
            store.truncate(store.len().saturating_sub(1 + random.below(50)));
            return kind;
        }
        8 => {
            let len = MAX_STORE_BYTES + random.pick(&[0, 1, 4, 100]);
            store.resize(len, 0xFF);
            return kind;
        }
        13 => {
            let len = random.below(200);
            *store = random.bytes(len);
            return kind;
        }
        _ => {}
    }
    let Some(&(start, end)) = places.get(random.below(places.len().max(1))) else {
        if let Some(place) = random.below(store.len() + 1).checked_sub(1) {
            store[place] = random.byte();
        }
        return kind;
    };
    let used = places.last().map_or(0, |(_, end)| *end);
    match kind {
        0 => store[start + random.below(end - start)] ^= 1 << random.below(8),
        1 => store[start + random.below(32)] = random.byte(),
        2 => store[start + 4 + random.pick(&[0, 0, 0, 1, 3])] ^= random.pick(&[1, 2, 4, 8, 0x40, 0x80]),
        3 => store[start + 8] = store[start + 8].wrapping_add(random.pick(&[1, 2, 4, 0xFE])),
        4 => {
            let data_size = random.pick(&[0_u32, 1, 1024, 1025, 0xFFFF, u32::MAX, u32::MAX - 36]);
            store[start + 12..start + 16].copy_from_slice(&data_size.to_le_bytes());
        }
        5 => store[end - 1] = 0,
        6 if used < store.len() => {
            let place = used + random.below(store.len() - used);
            store[place] = random.byte();
        }
        9 => insert(store, used, store[start..end].to_vec()),
        10 | 11 => {
            let mut copy = store[start..end].to_vec();
            copy[4] ^= 1;
            let other_used = records(other).last().map_or(0, |(_, end)| *end);
            insert(other, other_used, copy);
            if kind == 11 {
                store.drain(start..end);
                store.resize(store.len() + end - start, 0xFF);
            }
        }
        12 => {
            let units = (u32::from(store[start + 8]) / 2) as usize;
            let place = start + 32 + 2 * random.below(units.max(1));
            store[place..place + 2].fill(0);
        }
        _ => {}
    }
    kind
}

/// Writes a record over the erased bytes at `at`, the store growing if it must.
fn insert(store: &mut Vec<u8>, at: usize, record: Vec<u8>) {
    let len = store.len().max(at + record.len());
    store.resize(len, 0xFF);
    store[at..at + record.len()].copy_from_slice(&record);
}

/// Where the records of a store begin and end, as far as they look like records.
fn records(store: &[u8]) -> Vec<(usize, usize)> {
    let mut places = Vec::new();
    let mut at = 0;
    while at + 32 <= store.len() && store[at..at + 2] == [0xAA, 0x55] {
        let number = |place: usize| u16::from_le_bytes([store[place], store[place + 1]]) as usize;
        let end = at + (32 + number(at + 8) + number(at + 12)).next_multiple_of(4);
        if end > store.len() {
            break;
        }
        places.push((at, end));
        at = end;
    }
    places
}

/// What can be done to a policy record.
pub const POLICY: [&str; 9] = [
    "one bit",
    "one byte of an entry's header",
    "another length",
    "byte behind the entries",
    "entry repeated",
    "one entry over the limit",
    "gap between entries",
    "damaged entry at the end",
    "'#' in a trigger's name",
];

/// Does one thing to a policy record, which is told by its place in [`POLICY`].
pub fn policy(random: &mut Random, pool: &Pool, record: &mut Vec<u8>) -> usize {
    let kind = random.below(POLICY.len());
    let sizes = entry_sizes(record);
    let used: usize = sizes.iter().sum();
    match kind {
        2 => {
            let len =
                random.pick(&[0, 43, 44, POLICY_BYTES - 1, POLICY_BYTES + 1, 2 * POLICY_BYTES, FORMER_POLICY_BYTES]);
            record.resize(len, 0);
        }
        3 if used < record.len() => {
            let place = used + random.below(record.len() - used);
            record[place] = 1 + random.below(255) as u8;
        }
        5 => {
            let entries = make::entries_of_size(44, MAX_ENTRIES + 1).concat();
            record[..entries.len()].copy_from_slice(&entries);
        }
        6 if used + 4 <= record.len() && used > 0 => {
            record.copy_within(..used, 4);
            record[..4].fill(0);
        }
        4 | 7 => {
            let entry = match kind {
                4 if used > 0 => record[..sizes[0]].to_vec(),
                _ => entry(random, pool).1,
            };
            if used + entry.len() <= record.len() {
                record[used..used + entry.len()].copy_from_slice(&entry);
            }
        }
        1 if used > 0 => record[random.below(44)] = random.byte(),
        8 => put_sign_in_a_trigger(random, record, &sizes),
        _ => {
            let place = random.below(used.max(1));
            record[place] ^= 1 << random.below(8);
        }
    }
    kind
}

/// What can be done to a dump.
pub const DUMP: [&str; 10] = [
    "nothing",
    "one bit",
    "cut short",
    "a byte behind",
    "zeros behind",
    "an entry repeated",
    "a damaged entry",
    "entries over the limit",
    "sum over the limit",
    "a policy record of it",
];

/// A dump of these entries with one thing done to it, which is told by its place in [`DUMP`].
pub fn dump(random: &mut Random, pool: &Pool, mut entries: Vec<Vec<u8>>) -> (usize, Vec<u8>) {
    let kind = if random.one_in(2) { 0 } else { random.below(DUMP.len()) };
    let place = random.below(entries.len() + 1);
    match kind {
        5 if !entries.is_empty() => {
            let repeat = entries[random.below(entries.len())].clone();
            entries.insert(place, repeat);
        }
        6 => entries.insert(place, entry(random, pool).1),
        7 => entries.extend(make::entries_of_size(44, MAX_ENTRIES + 1 - entries.len())),
        8 => entries.extend(make::entries_of_size(make::LONGEST, POLICY_BYTES / make::LONGEST + 1)),
        _ => {}
    }
    let mut bytes = entries.concat();
    match kind {
        1 if !bytes.is_empty() => {
            let place = random.below(bytes.len());
            bytes[place] ^= 1 << random.below(8);
        }
        2 => bytes.truncate(bytes.len().saturating_sub(random.pick(&[1, 2, 44]))),
        3 => bytes.push(random.byte()),
        4 => bytes.extend(vec![0; random.pick(&[1, 2, 44, 100])]),
        9 => bytes.resize(POLICY_BYTES, 0),
        _ => {}
    }
    (kind, bytes)
}

/// Puts '#' at some place of the trigger's name of an entry, or an entry with such a trigger behind the others.
fn put_sign_in_a_trigger(random: &mut Random, record: &mut [u8], sizes: &[usize]) {
    let mut start = 0;
    let mut places = Vec::new();
    for size in sizes {
        let entry = &record[start..start + size];
        let offset = usize::from(u16::from_le_bytes([entry[6], entry[7]]));
        if entry[40] == 3 && (66..=*size).contains(&offset) {
            places.push(start + 62 + 2 * random.below(offset / 2 - 32));
        }
        start += size;
    }
    let entry = EntryFields::new(make::numbered(start), &[]).with_trigger(make::G, &make::units("T#"), 0).pack();
    let (at, bytes) = match places.is_empty() {
        true => (start, entry),
        false => (random.pick(&places), vec![0x23, 0]),
    };
    if let Some(place) = record.get_mut(at..at + bytes.len()) {
        place.copy_from_slice(&bytes);
    }
}

/// The Size of the entry with which bytes begin, if it is there.
pub fn size_field(bytes: &[u8]) -> Option<usize> {
    let field = bytes.get(4..6)?;
    Some(usize::from(u16::from_le_bytes([field[0], field[1]])))
}

/// The Sizes of the entries in a record, as far as they look like entries.
pub fn entry_sizes(record: &[u8]) -> Vec<usize> {
    let mut sizes = Vec::new();
    let mut at = 0;
    while let Some(header) = record.get(at..at + 6) {
        let size = u16::from_le_bytes([header[4], header[5]]) as usize;
        if size < 44 || at + size > record.len() {
            break;
        }
        sizes.push(size);
        at += size;
    }
    sizes
}
