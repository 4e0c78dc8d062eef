//! The two stores: the check of both, and what their records say.

use super::index::{Index, Place, Seen};
use super::{BS, HEADER, MAX_NAME, NV, RT, all_are, is_closed_name, le16, le32};
use varpolicy::{MAX_PAYLOAD_BYTES, MAX_STORE_BYTES};

pub fn record_len(name_size: usize, data_size: usize) -> usize {
    (HEADER + name_size + data_size + 3) & !3
}

/// Walks one store of the pair: validates every record and enters it. Answers where the records end.
fn scan<'a, I: Seen<'a>>(bytes: [&'a [u8]; 2], non_volatile: bool, index: &mut I) -> Option<usize> {
    let store = bytes[usize::from(non_volatile)];
    if store.len() > MAX_STORE_BYTES {
        return None;
    }
    let wanted = BS | if non_volatile { NV } else { 0 };
    let mut at = 0;
    while let Some(header) = store[at..].first_chunk::<HEADER>() {
        if header[..4] != [0xAA, 0x55, 0x3F, 0] {
            break;
        }
        let attributes = le32(header, 4);
        let name_size = le32(header, 8) as usize;
        let data_size = le32(header, 12) as usize;
        if attributes & !RT != wanted || name_size > MAX_NAME + 2 || data_size == 0 || data_size > MAX_PAYLOAD_BYTES {
            return None;
        }
        let len = record_len(name_size, data_size);
        let record = store.get(at..at + len)?;
        let sound = is_closed_name(&record[HEADER..HEADER + name_size])
            && record[HEADER + name_size + data_size..].iter().all(|byte| *byte == 0xFF);
        if !sound || !index.insert(bytes, Place { non_volatile, at: at as u16 }, 16 + name_size) {
            return None;
        }
        at += len;
    }
    all_are(&store[at..], 0xFF).then_some(at)
}

/// The checked pair.
pub struct Stores<'a, I> {
    pub bytes: [&'a [u8]; 2],
    /// Where the records of each end.
    pub ends: [usize; 2],
    index: I,
}

impl<'a, I: Seen<'a>> Stores<'a, I> {
    pub fn check(nv: &'a [u8], volatile: &'a [u8]) -> Option<Self> {
        let bytes = [volatile, nv];
        let mut index = I::new();
        let nv_end = scan(bytes, true, &mut index)?;
        let volatile_end = scan(bytes, false, &mut index)?;
        Some(Stores { bytes, ends: [volatile_end, nv_end], index })
    }

    pub fn record(&self, place: Place) -> &'a [u8] {
        &self.bytes[usize::from(place.non_volatile)][usize::from(place.at)..]
    }

    pub fn payload(&self, place: Place) -> &'a [u8] {
        let record = self.record(place);
        let start = HEADER + le32(record, 8) as usize;
        &record[start..start + le32(record, 12) as usize]
    }
}

impl<'a, I: Index<'a>> Stores<'a, I> {
    pub fn find(&self, key: &[u8]) -> Option<Place> {
        self.index.get(self.bytes, key)
    }

    /// Whether a trigger is stored with the one byte that locks.
    pub fn holds(&self, trigger: &Key, value: u8) -> bool {
        self.find(trigger.bytes()).is_some_and(|place| *self.payload(place) == [value])
    }
}

/// A key as it stands in a record: namespace, name, zero unit.
pub struct Key {
    bytes: [u8; 16 + MAX_NAME + 2],
    len: usize,
}

impl Key {
    /// Of a namespace and the units of a name.
    pub fn new(namespace: &[u8], name: &[u8]) -> Key {
        let mut bytes = [0; 16 + MAX_NAME + 2];
        bytes[..16].copy_from_slice(namespace);
        bytes[16..16 + name.len()].copy_from_slice(name);
        Key { bytes, len: 16 + name.len() + 2 }
    }

    /// Of the trigger of an entry that has one.
    pub fn of_trigger(entry: &[u8]) -> Key {
        Key::new(&entry[44..60], &entry[62..usize::from(le16(entry, 6)) - 2])
    }

    pub fn bytes(&self) -> &[u8] {
        &self.bytes[..self.len]
    }

    /// The namespace, and the name with its zero unit.
    pub fn parts(&self) -> (&[u8; 16], &[u8]) {
        self.bytes().split_first_chunk().expect("a key")
    }
}
