//! The part of every comparison that leaves nothing to chance: each bit, unit, length, limit and order of
//! the rules, and each byte of the switches, tried one by one. It is the same in every run.

mod choices;
mod dumps;
mod engine;
mod entries;
mod exit;
mod lasting;
mod limits;
mod names;
mod pieces;
mod quarrels;
mod reading;
mod reports;
mod sets;
mod settled;
mod signs;
mod stores;
mod sums;
mod switches;
mod triggers;

use crate::call::Call;
use crate::comparison::{Comparison, Sides};
use crate::make::{EntryFields, G, closed, packed, unit_bytes, units};
use crate::quarrels::{Asked, OLD_NAME};
use crate::state::State;
use varpolicy::{Namespace, SwitchBytes};

/// Makes all calls of the sweep, or tells the first difference in words.
pub fn run(comparison: &mut Comparison) -> Result<(), String> {
    let mut sweep = Sweep { comparison };
    PARTS.iter().try_for_each(|(part, run)| run(&mut sweep).map_err(|what| format!("sweep of {part}, {what}")))
}

type Outcome = Result<(), String>;

type Part = (&'static str, fn(&mut Sweep) -> Outcome);

const PARTS: [Part; 19] = [
    ("entries", entries::run),
    ("engine", engine::run),
    ("choices", choices::run),
    ("sets", sets::run),
    ("stores", stores::run),
    ("names", names::run),
    ("switches", switches::run),
    ("sums", sums::run),
    ("limits", limits::run),
    ("signs", signs::run),
    ("triggers", triggers::run),
    ("reports", reports::run),
    ("quarrels", quarrels::run),
    ("dumps", dumps::run),
    ("reading", reading::run),
    ("pieces", pieces::run),
    ("exit", exit::run),
    ("settled", settled::run),
    ("lasting", lasting::run),
];

struct Sweep<'a> {
    comparison: &'a mut Comparison,
}

impl Sweep<'_> {
    /// Makes each call over a copy of the state.
    fn each(&mut self, state: &State, calls: impl IntoIterator<Item = Call>) -> Outcome {
        for call in calls {
            self.comparison.exchange(&mut Sides::new(state.clone()), &call)?;
        }
        Ok(())
    }

    /// Asks for a quarrel in a dump of these entries.
    fn quarrels(&mut self, entries: &[Vec<u8>]) -> Result<Asked, String> {
        self.comparison.quarrels(&entries.concat(), &OLD_NAME)
    }

    /// Makes the calls one after the other, from the state on.
    fn history(&mut self, state: State, calls: impl IntoIterator<Item = Call>) -> Outcome {
        let mut sides = Sides::new(state);
        for call in calls {
            self.comparison.exchange(&mut sides, &call)?;
        }
        Ok(())
    }
}

/// An erased store.
const ERASED: &[u8] = &[0xFF; 128];

/// The switches of an engine that is enabled, unlocked, may be disabled and has not exited.
const OPEN: SwitchBytes = SwitchBytes { enabled: 1, locked: 0, disabling_allowed: 1, exited: 0 };

/// An open engine over these stores, with these entries.
fn state(nv: &[u8], volatile: &[u8], entries: &[Vec<u8>]) -> State {
    State { switches: OPEN, ..State::new(nv, volatile, &packed(entries)) }
}

/// An open engine over erased stores, with these entries.
fn engine(entries: &[Vec<u8>]) -> State {
    state(ERASED, ERASED, entries)
}

/// A store of this length with these records.
fn store(len: usize, records: &[Vec<u8>]) -> Vec<u8> {
    let mut bytes = records.concat();
    assert!(bytes.len() <= len, "the records fit");
    bytes.resize(len, 0xFF);
    bytes
}

/// A store with these records and no other byte.
fn full(records: &[Vec<u8>]) -> Vec<u8> {
    records.concat()
}

/// An entry of G that allows everything.
fn entry(name: &str) -> EntryFields {
    EntryFields::new(G, &units(name))
}

/// An entry that locks now, packed.
fn locking(namespace: Namespace, name: &[u16]) -> Vec<u8> {
    EntryFields { lock_type: 1, ..EntryFields::new(namespace, name) }.pack()
}

/// One entry of each type, packed. The fourth has a trigger, and is malformed by one bit that makes '#' of its `3`.
fn one_of_each_type() -> [Vec<u8>; 4] {
    let fields = |lock_type: u8, name: &str| EntryFields { lock_type, ..entry(name) };
    let trigger = entry("D").with_trigger(G, &units("T3"), 7);
    [fields(0, "AB"), fields(1, "B#"), fields(2, ""), trigger].map(|fields| fields.pack())
}

fn register(entry: Vec<u8>) -> Call {
    Call::Register { entry }
}

fn set(name: &[u16], attributes: u32, payload: Vec<u8>) -> Call {
    Call::Set { namespace: G, name: unit_bytes(name), attributes, payload }
}

fn delete(name: &[u16]) -> Call {
    set(name, 0, Vec::new())
}

fn read(name: &[u16]) -> Call {
    Call::Read { namespace: G, name: unit_bytes(name) }
}

fn settled(name: &[u16]) -> Call {
    Call::Settled { namespace: G, name: unit_bytes(name) }
}

/// Powers of two with their neighbours, and 0.
fn boundaries() -> Vec<u32> {
    let around = |bit: u32| [(1 << bit) - 1, 1 << bit, (1_u32 << bit) + 1];
    let mut values: Vec<u32> = (0..32).flat_map(around).chain([u32::MAX - 1, u32::MAX]).collect();
    values.sort_unstable();
    values.dedup();
    values
}

/// The bytes with each of their bits changed, one at a time.
fn with_each_bit_changed(bytes: &[u8]) -> impl Iterator<Item = Vec<u8>> {
    (0..8 * bytes.len()).map(|bit| {
        let mut changed = bytes.to_vec();
        changed[bit / 8] ^= 1 << (bit % 8);
        changed
    })
}

/// Packed names, good and bad: by length, without the closing zero unit, with one odd byte, and with a zero
/// unit at each place.
fn packed_names() -> Vec<Vec<u8>> {
    let name = |count: usize| vec![0x41; count];
    let mut names = vec![Vec::new()];
    for count in 0..=66 {
        let good = closed(&name(count));
        names.push(unit_bytes(&name(count)));
        names.push([&good[..], &[0]].concat());
        names.push(good[..good.len() - 1].to_vec());
        names.push(good);
    }
    for count in 2..=64 {
        for place in 0..count {
            let mut units = name(count);
            units[place] = 0;
            names.push(closed(&units));
        }
    }
    names
}
