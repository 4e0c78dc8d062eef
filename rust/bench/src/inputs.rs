//! The bytes that are lent: stores, policy records, names.

use crate::archive;
use crate::lent::{Lent, OURS, Readers};
use varpolicy::{Entry, Lock, MAX_ENTRIES, MAX_STORE_BYTES, Name, POLICY_BYTES};

/// No variables and no entries.
pub fn empty() -> Lent {
    Lent {
        nv: Vec::new(),
        volatile: Vec::new(),
        policy: vec![0; POLICY_BYTES],
        policy_end: 0,
        buffer: vec![0; POLICY_BYTES],
        readers: Readers::new(),
        calls: 0,
    }
}

/// A policy record with these entries.
pub fn with_entries(entries: &[Entry]) -> Lent {
    let mut lent = empty();
    for entry in entries {
        let packed = entry.pack();
        lent.policy[lent.policy_end..lent.policy_end + packed.len()].copy_from_slice(&packed);
        lent.policy_end += packed.len();
    }
    lent
}

/// A policy record with these entries, and short stores without a variable, so that record and choice are what counts.
pub fn with_short_stores(entries: &[Entry]) -> Lent {
    Lent { nv: vec![0xFF; 256], ..with_entries(entries) }
}

/// Two stores of full length with `count` records of 40 bytes each, named by numbers.
pub fn with_records(count: usize) -> Lent {
    let names = |first: usize| (first..first + count).map(variable);
    Lent { nv: store(names(0), 3), volatile: store(names(VOLATILE), 2), ..empty() }
}

/// The same with names of two units, by their numbers.
pub fn with_names(numbers: &[u32], count: usize) -> Lent {
    let names = |first: usize| numbers[first..first + count].iter().map(|number| two_units(*number));
    Lent { nv: store(names(0), 3), volatile: store(names(count), 2), ..empty() }
}

/// The number of the first variable of the volatile store.
pub const VOLATILE: usize = 5000;

/// Two full stores: how many records each has, and the name of each record by its place among those of both.
#[derive(Clone, Copy)]
pub struct Full {
    records: usize,
    name: fn(usize) -> Name,
}

impl Full {
    /// Names of one unit, records of 40 bytes.
    pub const ONE_UNIT: Full = Full { records: 819, name: variable };
    /// Names of 8 units of which the first four are the same, records of 52 bytes.
    pub const ALIKE: Full = Full { records: 630, name: |place| text(&format!("Boot{place:04X}")) };

    /// The names of `count` variables spread evenly over both stores.
    pub fn spread(self, count: usize) -> Vec<Name> {
        (0..count).map(|place| (self.name)((2 * place + 1) * self.records / count)).collect()
    }

    /// The names of the last `count` variables of the volatile store.
    pub fn last(self, count: usize) -> Vec<Name> {
        (2 * self.records - count..2 * self.records).map(self.name).collect()
    }

    /// The most entries: these, spread evenly among entries for variables that are not stored.
    pub fn entries(self, entries: Vec<Entry>) -> Vec<Entry> {
        let count = entries.len();
        let absent = 2 * self.records..2 * self.records + MAX_ENTRIES - count;
        let mut all: Vec<Entry> = absent.map(|place| Entry::new(OURS, (self.name)(place))).collect();
        for (place, entry) in entries.into_iter().enumerate() {
            all.insert((2 * place + 1) * MAX_ENTRIES / (2 * count), entry);
        }
        all
    }

    /// The stores, under the most entries, these among them.
    pub fn under(self, entries: Vec<Entry>) -> Lent {
        let names = |first: usize| (first..first + self.records).map(self.name);
        let (nv, volatile) = (store(names(0), 3), store(names(self.records), 2));
        Lent { nv, volatile, ..with_entries(&self.entries(entries)) }
    }
}

/// Entries for these variables: each is locked while the next holds 1, and the last as is told.
pub fn linked(names: &[Name], last: Lock) -> Vec<Entry> {
    let next = names[1..].iter().map(|name| Lock::OnVarState { namespace: OURS, name: *name, value: 1 });
    let entry = |(name, lock): (&Name, Lock)| Entry { lock, ..Entry::new(OURS, *name) };
    names.iter().zip(next.chain([last])).map(entry).collect()
}

/// A policy record with these entries, and short stores with these variables.
pub fn with_stored(entries: &[Entry], names: &[Name]) -> Lent {
    let mut nv = records(names.iter().copied(), 3);
    nv.resize(nv.len().next_multiple_of(256), 0xFF);
    Lent { nv, ..with_entries(entries) }
}

/// A store of full length with a record of one payload byte for each name.
fn store(names: impl Iterator<Item = Name>, attributes: u32) -> Vec<u8> {
    let mut bytes = records(names, attributes);
    bytes.resize(MAX_STORE_BYTES, 0xFF);
    bytes
}

/// The records of such a store.
fn records(names: impl Iterator<Item = Name>, attributes: u32) -> Vec<u8> {
    names.flat_map(|name| record(&name, attributes)).collect()
}

fn record(name: &[u8], attributes: u32) -> Vec<u8> {
    let mut bytes = vec![0xAA, 0x55, 0x3F, 0];
    bytes.extend(attributes.to_le_bytes());
    bytes.extend((name.len() as u32 + 2).to_le_bytes());
    bytes.extend(1_u32.to_le_bytes());
    bytes.extend(OURS);
    bytes.extend(name);
    bytes.extend([0, 0, 1]);
    bytes.resize(bytes.len().next_multiple_of(4), 0xFF);
    bytes
}

/// A name of two units.
fn two_units(number: u32) -> Name {
    Name::from_units(units_of(number)).expect("two units")
}

fn units_of(number: u32) -> [u16; 2] {
    [0x100 + (number >> 14) as u16, 0x100 + (number & 0x3FFF) as u16]
}

/// The numbers of `count` names of two units whose records have one slot in the filter of the library's check.
pub fn of_one_slot(count: usize) -> Vec<u32> {
    let mut bytes = record(&two_units(0), 3);
    let slot = archive::slot(&bytes);
    let has_slot = |number: &u32| {
        bytes[32..36].copy_from_slice(&two_units(*number));
        archive::slot(&bytes) == slot
    };
    (0..).filter(has_slot).take(count).collect()
}

/// `count` entries with names of two units that have one slot in the filter of the library's check of a policy record.
/// From the second on the slot stands for several, so each from the third on is compared with all before it.
pub fn entries_of_one_slot(count: usize) -> Vec<Entry> {
    let slot = entry_slot(units_of(0));
    let numbers = (0..).filter(|number| entry_slot(units_of(*number)) == slot);
    numbers.take(count).map(|number| Entry::new(OURS, two_units(number))).collect()
}

/// The slot of an entry with a name of two units, as crates/policy/specs/Filter.antt has it.
fn entry_slot(name: [u16; 2]) -> u64 {
    const FACTOR: u32 = 2_654_435_761;
    let namespace = u32::from_le_bytes([OURS[0], OURS[1], OURS[2], OURS[3]]);
    let word = u32::from(name[0]) | u32::from(name[1]) << 16;
    let hash = namespace.wrapping_mul(FACTOR).wrapping_add(word);
    let product = u64::from(hash) * u64::from(FACTOR);
    let key = (product & 0xFFFF_FFFF) + (product >> 32);
    key / 2_097_152 % 2048
}

/// A name of one unit.
pub fn variable(number: usize) -> Name {
    Name::from_units([0x100 + number as u16]).expect("one unit")
}

/// A name by its text.
pub fn text(name: &str) -> Name {
    Name::new(name).expect("at most 64 units")
}

/// `count` entries with names of `units` units that end in a number.
pub fn numbered(count: usize, units: usize) -> Vec<Entry> {
    (0..count).map(|number| Entry::new(OURS, text(&format!("{}{number:04X}", "N".repeat(units - 4))))).collect()
}

/// `count` entries with names of 8 units and one trigger, whose name has `units` units.
pub fn with_triggers(count: usize, units: usize) -> Vec<Entry> {
    let lock = Lock::OnVarState { namespace: OURS, name: trigger(units), value: 1 };
    numbered(count, 8).into_iter().map(|entry| Entry { lock, ..entry }).collect()
}

/// The name of the trigger of such entries.
pub fn trigger(units: usize) -> Name {
    text(&"EndOfDxe".repeat(8)[..units])
}

/// Dumps of `count` entries: what they are, and the entries. No two of these quarrel but where it is said.
pub fn dumps(count: usize) -> Vec<(&'static str, Vec<Entry>)> {
    let entry = |name: String| Entry::new(OURS, text(&name));
    let at_one_place: Vec<Entry> = (0..count).map(|number| entry(format!("Boot#{number:03X}"))).collect();
    let with = |place: usize, name: String| {
        let mut entries = at_one_place.clone();
        entries[place] = entry(name);
        entries
    };
    // Numbers, and behind them four '#', or four units of which one in turn is '#': no two are told by the last four.
    let before = |units: usize| {
        let name = move |number: usize| entry(format!("{number:04X}{}####", "N".repeat(units - 8)));
        (0..count).map(name).collect()
    };
    let wandering = |units: usize| {
        let ends = ["#000", "0#00", "00#0", "000#"];
        let name = move |number: usize| entry(format!("{number:03X}{}{}", "N".repeat(units - 7), ends[number % 4]));
        (0..count).map(name).collect()
    };
    vec![
        ("names of 8 units", numbered(count, 8)),
        ("names of 41 units", numbered(count, 41)),
        ("names by chance", by_chance(count)),
        ("# at one place of 8", at_one_place.clone()),
        ("# at the last four of 8", before(8)),
        ("# at the last four of 41", before(41)),
        ("# at one of the last four of 8", wandering(8)),
        ("# at one of the last four of 41", wandering(41)),
        ("the first two quarrel", with(1, "Boot0#00".into())),
        ("the last two quarrel", with(count - 1, format!("Boot0#{:02X}", count - 2))),
    ]
}

/// `count` entries by chance, of which no two target one variable: names of 4 to 20 units in three namespaces, a quarter
/// of them with one to four '#'.
pub fn by_chance(count: usize) -> Vec<Entry> {
    let mut seed = 1_u64;
    let mut below = |most: usize| {
        seed = seed.wrapping_mul(6_364_136_223_846_793_005).wrapping_add(1);
        (seed >> 33) as usize % most
    };
    let mut entries: Vec<Entry> = Vec::new();
    while entries.len() < count {
        let mut namespace = OURS;
        namespace[0] ^= below(3) as u8;
        let mut units: Vec<u16> =
            (0..4 + below(17)).map(|_| b"0123456789ABCDEFabcdefghijklmnopqrst"[below(36)].into()).collect();
        if entries.len() % 4 == 3 {
            for _ in 0..1 + below(4) {
                let place = below(units.len());
                units[place] = b'#'.into();
            }
        }
        let entry = Entry::new(namespace, Name::from_units(units).expect("at most 64 units"));
        if entries.iter().all(|known| known.namespace != entry.namespace || !is_like(&known.name, &entry.name)) {
            entries.push(entry);
        }
    }
    entries
}

/// Whether two names have as many units, and where these differ a '#'.
fn is_like(own: &[u8], other: &[u8]) -> bool {
    let sign = [b'#', 0];
    let fits = |(own, other): (&[u8; 2], &[u8; 2])| own == other || *own == sign || *other == sign;
    own.len() == other.len() && own.as_chunks().0.iter().zip(other.as_chunks().0).all(fits)
}

/// What a policy is, its entries, and the name of a variable to set.
pub type Policy = (&'static str, Vec<Entry>, Name);

/// Policies of `count` entries. Of the mixed one, and where a unit differs, no entry matches.
pub fn policies(count: usize) -> Vec<Policy> {
    let last = count - 1;
    let (short, long) = ("Variable", &"Variable".repeat(6)[..41]);
    let wild = (0..count).map(|number| Entry::new(OURS, text(&format!("Boot{number:02X}##")))).collect();
    let mixed = (0..count).map(mixed_entry).collect();
    vec![
        ("no match", numbered(count, 8), text("NNNN9999")),
        ("last match", numbered(count, 8), text(&format!("NNNN{last:04X}"))),
        ("wildcards, last match", wild, text(&format!("Boot{last:02X}77"))),
        ("mixed", mixed, text("Boot0041")),
        ("first of 8 units differs", differing(count, short, 0), text(short)),
        ("last of 8 units differs", differing(count, short, 7), text(short)),
        ("first of 41 units differs", differing(count, long, 0), text(long)),
        ("last of 41 units differs", differing(count, long, 40), text(long)),
    ]
}

/// `count` entries whose names differ from `name` in the unit at `place` and nowhere else.
fn differing(count: usize, name: &str, place: usize) -> Vec<Entry> {
    let entry = |number: usize| {
        let mut units: Vec<u16> = name.encode_utf16().collect();
        units[place] = 0x100 + number as u16;
        Entry::new(OURS, Name::from_units(units).expect("at most 64 units"))
    };
    (0..count).map(entry).collect()
}

/// Names of different lengths and namespaces, some with '#', some with triggers.
fn mixed_entry(number: usize) -> Entry {
    let mut namespace = OURS;
    namespace[0] ^= (number % 3) as u8;
    let name = match number % 4 {
        0 => format!("Boot{:03X}#", number),
        1 => format!("Setup{number}"),
        2 => format!("Var{number:05X}"),
        _ => format!("Boot#{:03X}", number + 1),
    };
    let mut entry = Entry::new(namespace, text(&name));
    if number.is_multiple_of(5) {
        entry.lock = Lock::OnVarState { namespace, name: text("Trigger"), value: 1 };
    }
    entry
}
