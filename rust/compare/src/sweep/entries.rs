//! Entries to register, field by field, and policy records bit by bit.

use super::{
    OPEN, Outcome, Sweep, boundaries, delete, engine, entry, locking, one_of_each_type, packed_names, register,
};
use super::{set, with_each_bit_changed};
use crate::FORMER_POLICY_BYTES;
use crate::call::Call;
use crate::make::{EntryFields, G, entry_of_size, packed, units};
use crate::state::{Guarded, State};
use reference::POLICY_BYTES;
use std::slice::from_ref;
use varpolicy::SwitchBytes;

pub(super) fn run(sweep: &mut Sweep) -> Outcome {
    bits(sweep)?;
    lengths(sweep)?;
    lock_types(sweep)?;
    names(sweep)?;
    sizes_and_attributes(sweep)?;
    namespaces(sweep)?;
    record_bits(sweep)?;
    record_ends(sweep)
}

/// Each bit of an entry changed, beside nothing and beside the entry as it was.
fn bits(sweep: &mut Sweep) -> Outcome {
    for entry in one_of_each_type() {
        let calls = || with_each_bit_changed(&entry).map(register);
        sweep.each(&engine(&[]), calls())?;
        sweep.each(&engine(from_ref(&entry)), calls())?;
    }
    Ok(())
}

/// Entries cut and lengthened, and with every OffsetToName up to behind their end.
fn lengths(sweep: &mut Sweep) -> Outcome {
    for entry in one_of_each_type() {
        for len in 0..entry.len() + 4 {
            let mut bytes = entry.clone();
            bytes.resize(len, 0);
            let mut true_size = bytes.clone();
            if let Some(size) = true_size.get_mut(4..6) {
                size.copy_from_slice(&(len as u16).to_le_bytes());
            }
            let mut offset = entry.clone();
            offset[6..8].copy_from_slice(&(len as u16).to_le_bytes());
            sweep.each(&engine(&[]), [bytes, true_size, offset].map(register))?;
        }
    }
    Ok(())
}

/// Every byte as LockPolicyType, with a trigger and without.
fn lock_types(sweep: &mut Sweep) -> Outcome {
    for lock_type in 0..=u8::MAX {
        let [without, _, _, with] = one_of_each_type();
        let entries = [without, with].map(|mut entry| {
            entry[40] = lock_type;
            entry
        });
        sweep.each(&engine(&[]), entries.map(register))?;
    }
    Ok(())
}

/// Good and bad names of entries and of triggers.
fn names(sweep: &mut Sweep) -> Outcome {
    for name in packed_names() {
        let plain = EntryFields { name: name.clone(), ..entry("") };
        let mut triggered = entry("A").with_trigger(G, &units("T"), 0);
        triggered.trigger.truncate(18);
        triggered.trigger.extend(&name);
        let both = EntryFields { name, ..triggered.clone() };
        sweep.each(&engine(&[]), [plain, triggered, both].map(|fields| register(fields.pack())))?;
    }
    Ok(())
}

/// MinSize and MaxSize around each power of two, and each bit required, prohibited and both.
fn sizes_and_attributes(sweep: &mut Sweep) -> Outcome {
    let empty = engine(&[]);
    for size in boundaries() {
        let next = size.saturating_add(1);
        let sizes =
            [(size, size), (size, next), (next, size), (0, size), (size, 0), (size, u32::MAX), (u32::MAX, size)];
        let entry = |(min_size, max_size)| EntryFields { min_size, max_size, ..entry("A") };
        sweep.each(&empty, sizes.map(|sizes| register(entry(sizes).pack())))?;
    }
    for bit in (0..32).map(|bit| 1_u32 << bit) {
        let bits = [(bit, 0), (0, bit), (bit, bit), (bit, !bit), (!0, bit), (bit, !0)];
        let entry = |(must_have, cant_have)| EntryFields { must_have, cant_have, ..entry("A") };
        sweep.each(&empty, bits.map(|bits| register(entry(bits).pack())))?;
    }
    Ok(())
}

/// Entries of one name whose namespaces differ in one bit, and of one namespace whose names differ.
fn namespaces(sweep: &mut Sweep) -> Outcome {
    for namespace in with_each_bit_changed(&G) {
        let namespace = namespace.try_into().expect("16 bytes");
        for name in [units("A"), Vec::new()] {
            let state = engine(&[locking(G, &name)]);
            let other = EntryFields::new(namespace, &name).pack();
            sweep.each(&state, [register(other), register(EntryFields::new(G, &name).pack())])?;
        }
    }
    let names = ["", "A", "AA", "a", "#", "A#", "0"];
    for known in names {
        sweep.each(&engine(&[entry(known).pack()]), names.map(|name| register(entry(name).pack())))?;
    }
    Ok(())
}

/// An entry that no record of the sweep holds.
pub(super) fn fresh(size: usize) -> Vec<u8> {
    entry_of_size(size, usize::MAX)
}

/// The calls that look into a policy record, those refused on other grounds among them.
pub(super) fn lent_record() -> [Call; 7] {
    let long = vec![0; 1025];
    [
        Call::Dump { buffer: vec![0x5A; POLICY_BYTES] },
        Call::Dump { buffer: Vec::new() },
        register(fresh(44)),
        register(vec![0; 44]),
        delete(&units("AB")),
        set(&units("AB"), 3, vec![1]),
        set(&units("AB"), 8, long),
    ]
}

/// Every call that is lent a policy record: the starts and those.
pub(super) fn lent_record_or_start() -> Vec<Call> {
    let start = |disabling_allowed| [Call::PowerOn { disabling_allowed }, Call::Restart { disabling_allowed }];
    [0, 1].into_iter().flat_map(start).chain(lent_record()).collect()
}

/// The switches of an engine that is open, disabled, locked and both.
pub(super) fn open_or_not() -> [SwitchBytes; 4] {
    [(1, 0), (0, 0), (1, 1), (0, 1)].map(|(enabled, locked)| SwitchBytes { enabled, locked, ..OPEN })
}

/// The calls that look into a policy record, over this one, the engine locked and disabled too.
pub(super) fn over_record(sweep: &mut Sweep, record: &[u8]) -> Outcome {
    let state = State { policy: Guarded::new(record, 3), ..engine(&[]) };
    sweep.each(&state, lent_record())?;
    let locked = State { switches: SwitchBytes { locked: 1, ..state.switches }, ..state.clone() };
    sweep.each(&locked, [register(fresh(44))])?;
    let disabled = State { switches: SwitchBytes { enabled: 0, ..state.switches }, ..state };
    sweep.each(&disabled, [delete(&units("AB")), register(fresh(44))])
}

/// A record of one entry of each type with each bit changed.
fn record_bits(sweep: &mut Sweep) -> Outcome {
    let entries = one_of_each_type().concat();
    for bytes in with_each_bit_changed(&entries) {
        over_record(sweep, &packed(&[bytes]))?;
    }
    Ok(())
}

/// Records with one byte behind the entries, and of other lengths.
fn record_ends(sweep: &mut Sweep) -> Outcome {
    let entries = one_of_each_type();
    let record = packed(&entries);
    let used = entries.concat().len();
    let dump = || Call::Dump { buffer: vec![0x5A; used] };
    for place in used..POLICY_BYTES {
        let mut bytes = record.clone();
        bytes[place] = if place % 2 == 0 { 1 } else { 0x80 };
        let state = State { policy: Guarded::new(&bytes, 3), ..engine(&[]) };
        sweep.each(&state, [dump()])?;
    }
    let former = [FORMER_POLICY_BYTES - 1, FORMER_POLICY_BYTES, FORMER_POLICY_BYTES + 1];
    let near = [POLICY_BYTES - 1, POLICY_BYTES + 1, 2 * POLICY_BYTES, (1 << 16) + POLICY_BYTES];
    for len in [0, 1, 43, 44, used].into_iter().chain(former).chain(near) {
        let mut bytes = record.clone();
        bytes.resize(len, 0);
        over_record(sweep, &bytes)?;
        bytes.fill(0);
        over_record(sweep, &bytes)?;
    }
    Ok(())
}
