//! Tables of the variables seen.

use std::collections::HashMap;

/// Where a record of the pair begins.
#[derive(Clone, Copy, PartialEq, Eq, Debug)]
pub struct Place {
    pub non_volatile: bool,
    pub at: u16,
}

/// The keys (namespace and then closed name) that were seen.
pub trait Seen<'a> {
    fn new() -> Self;
    /// Enters the key of `key_len` bytes that stands 16 bytes behind its place. False if it is there already.
    fn insert(&mut self, bytes: [&'a [u8]; 2], place: Place, key_len: usize) -> bool;
}

/// A table from keys to places.
pub trait Index<'a>: Seen<'a> {
    fn get(&self, bytes: [&'a [u8]; 2], key: &[u8]) -> Option<Place>;
}

/// The key of a record.
fn key(bytes: [&[u8]; 2], place: Place, key_len: usize) -> &[u8] {
    let start = usize::from(place.at) + 16;
    &bytes[usize::from(place.non_volatile)][start..start + key_len]
}

/// The standard library's hash table.
pub struct Standard<'a>(HashMap<&'a [u8], Place>);

impl<'a> Seen<'a> for Standard<'a> {
    fn new() -> Self {
        Standard(HashMap::with_capacity(256))
    }

    fn insert(&mut self, bytes: [&'a [u8]; 2], place: Place, key_len: usize) -> bool {
        self.0.insert(key(bytes, place, key_len), place).is_none()
    }
}

impl<'a> Index<'a> for Standard<'a> {
    fn get(&self, _: [&'a [u8]; 2], key: &[u8]) -> Option<Place> {
        self.0.get(key).copied()
    }
}

/// A list of the keys, each compared with all before it.
pub struct Pairwise<'a>(Vec<&'a [u8]>);

impl<'a> Seen<'a> for Pairwise<'a> {
    fn new() -> Self {
        Pairwise(Vec::with_capacity(256))
    }

    fn insert(&mut self, bytes: [&'a [u8]; 2], place: Place, key_len: usize) -> bool {
        let key = key(bytes, place, key_len);
        let is_new = self.0.iter().all(|known| *known != key);
        self.0.push(key);
        is_new
    }
}

/// A table with open addressing on the stack, at most 0.4 full. A slot is 0 or 1 + place / 4.
pub struct Small {
    slots: [u16; Small::SLOTS],
}

impl Small {
    const SLOTS: usize = 4096;

    pub fn hash(key: &[u8]) -> usize {
        const FACTOR: u64 = 0x9E37_79B9_7F4A_7C15;
        let mix = |hash: u64, word: u64| (hash.rotate_left(5) ^ word).wrapping_mul(FACTOR);
        let mut hash = 0;
        let mut rest = key;
        while let Some((word, behind)) = rest.split_first_chunk::<8>() {
            hash = mix(hash, u64::from_le_bytes(*word));
            rest = behind;
        }
        while let Some((unit, behind)) = rest.split_first_chunk::<2>() {
            hash = mix(hash, u16::from_le_bytes(*unit).into());
            rest = behind;
        }
        (hash >> 52) as usize
    }

    /// The slot of the key, or the free one where it belongs.
    fn slot(&self, bytes: [&[u8]; 2], key: &[u8]) -> usize {
        let mut slot = Small::hash(key);
        while self.slots[slot] != 0 {
            let place = Small::place(self.slots[slot]);
            let start = usize::from(place.at) + 16;
            let known = &bytes[usize::from(place.non_volatile)][start..];
            if known.starts_with(key) {
                break;
            }
            slot = (slot + 1) % Small::SLOTS;
        }
        slot
    }

    fn place(slot: u16) -> Place {
        Place { non_volatile: (slot - 1) & 0x2000 != 0, at: ((slot - 1) & 0x1FFF) * 4 }
    }
}

impl<'a> Seen<'a> for Small {
    fn new() -> Self {
        Small { slots: [0; Small::SLOTS] }
    }

    fn insert(&mut self, bytes: [&'a [u8]; 2], place: Place, key_len: usize) -> bool {
        let slot = self.slot(bytes, key(bytes, place, key_len));
        if self.slots[slot] != 0 {
            return false;
        }
        self.slots[slot] = 1 + place.at / 4 + if place.non_volatile { 0x2000 } else { 0 };
        true
    }
}

impl<'a> Index<'a> for Small {
    fn get(&self, bytes: [&'a [u8]; 2], key: &[u8]) -> Option<Place> {
        let slot = self.slots[self.slot(bytes, key)];
        (slot != 0).then(|| Small::place(slot))
    }
}
