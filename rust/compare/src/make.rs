//! Random names, entries, records and calls, from small pools, so that they meet each other often.

use crate::call::Call;
use crate::random::Random;
use reference::{MAX_ENTRIES, POLICY_BYTES};
use std::collections::BTreeSet;
use varpolicy::{MAX_STORE_BYTES, Namespace};

/// The namespace of the bench readings (docs/RULES.md, 13).
pub const G: Namespace =
    [0x5C, 0x67, 0xD1, 0x81, 0xF6, 0x86, 0xDF, 0x48, 0xBD, 0x95, 0x9A, 0x6E, 0x4F, 0x09, 0x25, 0xC3];

const NAMES: [&str; 20] = [
    "A", "B", "AB", "T", "T2", "Rail", "Lock", "Boot0000", "Boot0001", "Boot00fF", "Boot000G", "Boot####", "Boot00##",
    "#", "##", "A#", "0", "g", "\u{130}", "\u{FF03}",
];

/// A namespace: G, two that differ from it in one byte, or zeros.
fn any_namespace(random: &mut Random) -> Namespace {
    let mut namespace = G;
    match random.below(8) {
        0..=4 => {}
        5 => namespace[0] ^= 1,
        6 => namespace[15] ^= 0x80,
        _ => namespace = [0; 16],
    }
    namespace
}

/// The units of a text.
pub fn units(text: &str) -> Vec<u16> {
    text.encode_utf16().collect()
}

/// A good name: 1 to 64 units, none zero.
fn any_name(random: &mut Random) -> Vec<u16> {
    match random.below(36) {
        0 => vec![0x41; 64],
        1 => vec![0x23; 64],
        2 => [vec![0x41; 63], vec![0x42]].concat(),
        3 => vec![random.pick(&[0xD800, 0xFFFF, 0x4100, 0x0023])],
        4 => (0..1 + random.below(64)).map(|_| 1 + random.below(0xFFFF) as u16).collect(),
        _ => units(random.pick(&NAMES)),
    }
}

/// The bytes of units.
pub fn unit_bytes(units: &[u16]) -> Vec<u8> {
    units.iter().flat_map(|unit| unit.to_le_bytes()).collect()
}

/// The bytes of units and a closing zero.
pub fn closed(units: &[u16]) -> Vec<u8> {
    [unit_bytes(units), vec![0, 0]].concat()
}

/// The fields of an entry, each of which can be given any value before it is packed.
#[derive(Clone, Debug)]
#[allow(missing_docs)]
pub struct EntryFields {
    pub version: u32,
    /// Added to the true Size.
    pub size_off_by: i32,
    /// Added to the true OffsetToName.
    pub offset_off_by: i32,
    pub namespace: Namespace,
    pub min_size: u32,
    pub max_size: u32,
    pub must_have: u32,
    pub cant_have: u32,
    pub lock_type: u8,
    pub reserved: [u8; 3],
    /// Namespace, Value, reserved byte and name of the trigger, packed.
    pub trigger: Vec<u8>,
    /// The name, packed.
    pub name: Vec<u8>,
}

impl EntryFields {
    /// A well-formed entry with this name that allows everything and never locks.
    pub fn new(namespace: Namespace, name: &[u16]) -> EntryFields {
        EntryFields {
            version: 0x0001_0000,
            size_off_by: 0,
            offset_off_by: 0,
            namespace,
            min_size: 0,
            max_size: u32::MAX,
            must_have: 0,
            cant_have: 0,
            lock_type: 0,
            reserved: [0; 3],
            trigger: Vec::new(),
            name: if name.is_empty() { Vec::new() } else { closed(name) },
        }
    }

    /// Locks while the trigger holds `value`. With '#' in the trigger's name the entry is malformed.
    pub fn with_trigger(mut self, namespace: Namespace, name: &[u16], value: u8) -> EntryFields {
        self.lock_type = 3;
        self.trigger = [namespace.to_vec(), vec![value, 0], closed(name)].concat();
        self
    }

    /// Puts '#' at some place of the trigger's name.
    pub fn put_sign_in_trigger(&mut self, random: &mut Random) {
        let name = &mut self.trigger[18..];
        let place = random.below(name.len() / 2 - 1);
        name[2 * place..2 * place + 2].copy_from_slice(&[0x23, 0]);
    }

    /// The packed bytes.
    pub fn pack(&self) -> Vec<u8> {
        let offset = 44 + self.trigger.len() as i32;
        let size = offset + self.name.len() as i32;
        let mut bytes = self.version.to_le_bytes().to_vec();
        bytes.extend(((size + self.size_off_by) as u16).to_le_bytes());
        bytes.extend(((offset + self.offset_off_by) as u16).to_le_bytes());
        bytes.extend(self.namespace);
        for number in [self.min_size, self.max_size, self.must_have, self.cant_have] {
            bytes.extend(number.to_le_bytes());
        }
        bytes.push(self.lock_type);
        bytes.extend(self.reserved);
        bytes.extend(&self.trigger);
        bytes.extend(&self.name);
        bytes
    }
}

/// Bytes of the longest entry.
pub const LONGEST: usize = 322;

/// Bytes of entries that come to both limits at once.
pub const SHARE: usize = POLICY_BYTES / MAX_ENTRIES / 2 * 2;

/// Whether an entry can have this many bytes: the header alone, or a closed name or two besides, so an even number.
pub fn is_entry_size(size: usize) -> bool {
    size == 44 || ((48..=LONGEST).contains(&size) && size.is_multiple_of(2))
}

/// The namespace that has this number in it.
pub fn numbered(number: usize) -> Namespace {
    let mut namespace = [0xEE; 16];
    namespace[..8].copy_from_slice(&(number as u64).to_le_bytes());
    namespace
}

/// An entry of exactly this size in the namespace of this number.
pub fn entry_of_size(size: usize, number: usize) -> Vec<u8> {
    assert!(is_entry_size(size), "no entry has {size} bytes");
    let entry = |units: usize| EntryFields::new(numbered(number), &vec![0x58; units]);
    if size <= 174 {
        return entry(size.saturating_sub(46) / 2).pack();
    }
    let units_of_both = (size - 66) / 2;
    let name_units = 64.min(units_of_both - 1);
    entry(name_units).with_trigger(G, &vec![0x54; units_of_both - name_units], 0).pack()
}

/// So many entries of this size, each of its own namespace.
pub fn entries_of_size(size: usize, count: usize) -> Vec<Vec<u8>> {
    (0..count).map(|number| entry_of_size(size, number)).collect()
}

/// Entries whose Sizes sum to exactly this: the longest, and one of what is left.
pub fn entries_of_sum(sum: usize) -> Vec<Vec<u8>> {
    let count = sum / LONGEST;
    let last = entry_of_size(sum % LONGEST, count);
    entries_of_size(LONGEST, count).into_iter().chain([last]).collect()
}

/// A policy record of these entries.
pub fn packed(entries: &[Vec<u8>]) -> Vec<u8> {
    let mut record = entries.concat();
    record.resize(POLICY_BYTES, 0);
    record
}

/// The bytes of a record with its padding.
pub fn record(namespace: &Namespace, name: &[u16], attributes: u32, payload: &[u8]) -> Vec<u8> {
    let name = closed(name);
    let mut bytes = vec![0xAA, 0x55, 0x3F, 0];
    bytes.extend(attributes.to_le_bytes());
    bytes.extend((name.len() as u32).to_le_bytes());
    bytes.extend((payload.len() as u32).to_le_bytes());
    bytes.extend(namespace);
    bytes.extend(name);
    bytes.extend(payload);
    while bytes.len() % 4 != 0 {
        bytes.push(0xFF);
    }
    bytes
}

/// Two stores of full length with `count` records each, or as many as fit, and a pool of their names.
pub fn crowded_stores(random: &mut Random, count: usize) -> (Vec<u8>, Vec<u8>, Pool) {
    let mut number = random.below(1 << 20);
    let shape = random.below(3);
    let mut known = Vec::new();
    let mut fill = |non_volatile: u32| {
        let mut bytes = Vec::new();
        for _ in 0..count {
            number += 1;
            let (namespace, name) = match shape {
                0 => (G, vec![1 + (number % 0xFFFF) as u16]),
                1 => (G, units(&format!("Variable{number:06X}"))),
                _ => ([number as u8; 16], vec![0x41, 1 + (number >> 8) as u16]),
            };
            let runtime = if number.is_multiple_of(3) { 4 } else { 0 };
            let record = record(&namespace, &name, 2 | non_volatile | runtime, &[number as u8]);
            if bytes.len() + record.len() > MAX_STORE_BYTES {
                break;
            }
            bytes.extend(record);
            known.push((namespace, name));
        }
        bytes.resize(MAX_STORE_BYTES, 0xFF);
        bytes
    };
    let (nv, volatile) = (fill(1), fill(0));
    let picked: Vec<(Namespace, Vec<u16>)> = (0..4).map(|_| known[random.below(known.len())].clone()).collect();
    let (namespaces, names) = picked.into_iter().unzip();
    (nv, volatile, Pool { names, namespaces })
}

/// The length of a store: the ones that the bench readings turn on, and others.
pub fn store_len(random: &mut Random) -> usize {
    match random.below(16) {
        0 => 0,
        1 => 40,
        2 => 43,
        3 => 44,
        4 => random.below(100),
        5 => 2048,
        6 => 4096,
        _ => random.pick(&[80, 120, 200, 320, 640, 1200]),
    }
}

/// A payload, mostly short.
pub fn payload(random: &mut Random) -> Vec<u8> {
    let len = match random.below(40) {
        0..=3 => 0,
        4..=19 => 1,
        20..=25 => 2,
        26..=33 => 3 + random.below(6),
        34 => 1023,
        35 => 1024,
        36 => 1025,
        37 => 600,
        _ => random.below(200),
    };
    let mut bytes = random.bytes(len);
    if len <= 2 && !random.one_in(4) {
        bytes.fill(random.pick(&[0, 1, 0xFF]));
    }
    bytes
}

/// The attributes of a request, mostly good ones; after exit, half of them such as are allowed then.
fn attributes(random: &mut Random, exited: bool) -> u32 {
    if exited && random.one_in(2) {
        return random.pick(&[7, 7, 7, 0x47, 0x47, 0]);
    }
    match random.below(40) {
        0 => random.pick(&[4, 5, 0x40, 0x41, 0x44]),
        1 => random.pick(&[8, 0x10, 0x20, 0x80, 0x8000_0000, 0x4A]),
        2 => random.bits() as u32,
        3 => random.pick(&[0, 1]),
        4..=16 => 3,
        17..=26 => 2,
        27..=29 => 7,
        30..=31 => 6,
        32..=35 => 0x43,
        _ => 0x42,
    }
}

/// The attributes that an entry requires or prohibits: none, known ones, one of all, or any.
fn asked_bits(random: &mut Random) -> u32 {
    match random.below(16) {
        0..=8 => 0,
        9..=10 => random.pick(&[1, 2, 4, 0x40]),
        11..=13 => random.bits() as u32 & 0x47,
        14 => 1 << random.below(32),
        _ => random.bits() as u32,
    }
}

/// A dump into a buffer with old bytes, its length around the sum of Sizes, `needed`.
pub fn dump(random: &mut Random, needed: usize) -> Call {
    let len = match random.below(8) {
        0 => 0,
        1 => needed.saturating_sub(1),
        2 => needed + 1,
        3 => POLICY_BYTES,
        4 => random.below(POLICY_BYTES + 1000),
        _ => needed,
    };
    Call::Dump { buffer: vec![random.byte(); len] }
}

/// Distinct entries of few units, lengths and namespaces, so that many quarrel.
pub fn quarrelsome(random: &mut Random) -> Vec<Vec<u8>> {
    let (mut known, mut entries) = (BTreeSet::new(), Vec::new());
    let (length, namespaces) = (random.pick(&[1, 2, 2, 3, 3, 4, 8, 64]), 1 + random.below(3));
    let units = random.pick(&["#0", "#0A", "#09af", "#0GX", "#AaZ\u{123}", "##0123456789ABCDEFabcdefXY"]);
    let units: Vec<u16> = units.encode_utf16().collect();
    for _ in 0..random.pick(&[0, 1, 2, 2, 3, 4, 6, 10, MAX_ENTRIES]) {
        let shorter = if random.one_in(8) { random.below(length + 1) } else { length };
        let name: Vec<u16> = (0..shorter).map(|_| random.pick(&units)).collect();
        let mut fields = EntryFields::new(numbered(random.below(namespaces)), &name);
        if !known.insert((fields.namespace, name)) {
            continue;
        }
        fields.lock_type = random.below(4) as u8;
        if fields.lock_type == 3 {
            fields = fields.with_trigger(G, &vec![random.pick(&[0x30, 0x41]); length.min(4)], random.byte());
        }
        entries.push(fields.pack());
    }
    entries
}

/// A few names and namespaces that one history uses most, so that its calls meet each other.
#[derive(Clone, Debug, Default)]
pub struct Pool {
    /// The names, good ones.
    pub names: Vec<Vec<u16>>,
    /// The namespaces.
    pub namespaces: Vec<Namespace>,
}

impl Pool {
    /// Up to five names and two namespaces.
    pub fn new(random: &mut Random) -> Pool {
        let names = (0..1 + random.below(5)).map(|_| any_name(random)).collect();
        let namespaces = (0..1 + random.below(2)).map(|_| any_namespace(random)).collect();
        Pool { names, namespaces }
    }

    fn name(&self, random: &mut Random) -> Vec<u16> {
        match random.one_in(5) {
            true => any_name(random),
            false => self.names[random.below(self.names.len())].clone(),
        }
    }

    fn namespace(&self, random: &mut Random) -> Namespace {
        match random.one_in(10) {
            true => any_namespace(random),
            false => random.pick(&self.namespaces),
        }
    }

    /// The name of a request, mostly a good one.
    pub fn request_name(&self, random: &mut Random) -> Vec<u8> {
        let mut units = self.name(random);
        match random.below(60) {
            0 => units.clear(),
            1 => units = vec![0x41; 65],
            2 => {
                let place = random.below(units.len());
                units[place] = 0;
            }
            3 => units.push(0),
            4 => return unit_bytes(&units)[1..].to_vec(),
            5 => return [unit_bytes(&units), vec![0x41]].concat(),
            6 => {
                let count = random.below(300);
                return random.bytes(count);
            }
            _ => {}
        }
        unit_bytes(&units)
    }

    /// The name of an entry: a good name, often with '#' in some places, or empty.
    fn pattern(&self, random: &mut Random) -> Vec<u16> {
        if random.one_in(6) {
            return Vec::new();
        }
        let mut pattern = self.name(random);
        for unit in &mut pattern {
            if random.one_in(5) {
                *unit = 0x23;
            }
        }
        pattern
    }

    /// The name of a trigger: a good name with 0 for each '#'.
    fn trigger_name(&self, random: &mut Random) -> Vec<u16> {
        self.name(random).into_iter().map(|unit| if unit == 0x23 { 0x30 } else { unit }).collect()
    }

    /// The fields of a well-formed entry.
    pub fn entry_fields(&self, random: &mut Random) -> EntryFields {
        let mut fields = EntryFields::new(self.namespace(random), &self.pattern(random));
        fields.min_size = random.pick(&[0, 0, 0, 0, 0, 1, 2, 4, 1024, 1025]);
        fields.max_size = random.pick(&[u32::MAX, u32::MAX, u32::MAX, u32::MAX, 0, 1, 2, 16, 1024]);
        if fields.min_size > fields.max_size {
            std::mem::swap(&mut fields.min_size, &mut fields.max_size);
        }
        fields.must_have = asked_bits(random);
        fields.cant_have = asked_bits(random) & !fields.must_have;
        if random.one_in(4) {
            fields.reserved = [random.byte(), random.byte(), random.byte()];
        }
        match random.below(10) {
            0..=2 => {}
            3 => fields.lock_type = 1,
            4..=5 => fields.lock_type = 2,
            _ => {
                let (namespace, name) = (self.namespace(random), self.trigger_name(random));
                fields = fields.with_trigger(namespace, &name, random.pick(&[0, 0, 1, 0xFF]));
                if random.one_in(4) {
                    fields.trigger[17] = random.byte();
                }
            }
        }
        fields
    }

    /// Two sound stores of these lengths with variables in them.
    pub fn stores(&self, random: &mut Random, nv_len: usize, volatile_len: usize) -> (Vec<u8>, Vec<u8>) {
        let mut known = BTreeSet::new();
        let mut fill = |random: &mut Random, len: usize, non_volatile: u32| {
            let mut bytes = Vec::new();
            let most = random.pick(&[0, 1, 3, 12]);
            for _ in 0..most {
                let (namespace, name) = (self.namespace(random), self.name(random));
                let attributes = 2 | non_volatile | random.pick(&[0, 4]);
                let payload = payload(random);
                let record = record(&namespace, &name, attributes, &payload);
                let fits = bytes.len() + record.len() <= len && (1..=1024).contains(&payload.len());
                if fits && known.insert((namespace, name)) {
                    bytes.extend(record);
                }
            }
            bytes.resize(len, 0xFF);
            bytes
        };
        let nv = fill(random, nv_len, 1);
        let volatile = fill(random, volatile_len, 0);
        (nv, volatile)
    }

    /// A request to set a variable, before exit or after.
    pub fn set(&self, random: &mut Random, exited: bool) -> Call {
        let (namespace, name) = (self.namespace(random), self.request_name(random));
        let (attributes, payload) = (attributes(random, exited), payload(random));
        Call::Set { namespace, name, attributes, payload }
    }

    /// A request to read a variable.
    pub fn read(&self, random: &mut Random) -> Call {
        Call::Read { namespace: self.namespace(random), name: self.request_name(random) }
    }

    /// The question whether a variable is settled.
    pub fn settled(&self, random: &mut Random) -> Call {
        Call::Settled { namespace: self.namespace(random), name: self.request_name(random) }
    }
}
