//! The steps of a set: attributes bit by bit, sizes, locks, deletions, and every two steps at once.

use super::{ERASED, Outcome, Sweep, boundaries, delete, engine, entry, full, read, set, state, store};
use crate::call::Call;
use crate::make::{EntryFields, G, record, units};
use crate::state::State;
use std::slice::from_ref;

pub(super) const NAME: &[u16] = &[0x41];
pub(super) const OTHER_NAMESPACE: [u8; 16] = [0x0E; 16];

pub(super) fn run(sweep: &mut Sweep) -> Outcome {
    attributes(sweep)?;
    sizes(sweep)?;
    long_payloads(sweep)?;
    locks(sweep)?;
    trigger_bytes(sweep)?;
    neighbours(sweep)?;
    deletions(sweep)?;
    steps_at_once(sweep)
}

/// Attributes that a request may have at step 4.
pub(super) const KNOWN: [u32; 8] = [2, 3, 6, 7, 0x42, 0x43, 0x46, 0x47];

/// Each attribute bit in a request, and required or prohibited by an entry, alone and beside others.
fn attributes(sweep: &mut Sweep) -> Outcome {
    let payload = || vec![1];
    for bit in (0..32).map(|bit| 1 << bit) {
        let requests = [0, 1, 2, 4, 0x40].into_iter().chain(KNOWN).map(|others| set(NAME, bit | others, payload()));
        sweep.each(&engine(&[]), requests)?;
        for others in [0, 1, 2] {
            let required = EntryFields { must_have: bit | others, ..entry("A") };
            let prohibited = EntryFields { cant_have: bit | others, ..entry("A") };
            for fields in [required, prohibited] {
                sweep.each(&engine(&[fields.pack()]), KNOWN.map(|attributes| set(NAME, attributes, payload())))?;
            }
        }
    }
    Ok(())
}

/// MinSize and MaxSize around each power of two, against payloads around them and around others.
fn sizes(sweep: &mut Sweep) -> Outcome {
    let lent = [0xFF; 1100];
    for size in boundaries() {
        let around = [size.saturating_sub(1), size, size.saturating_add(1)];
        let around = around.into_iter().filter(|length| *length <= 1025);
        let mut lengths: Vec<u32> = [0, 1, 2, 255, 256, 257, 1023, 1024].into_iter().chain(around).collect();
        lengths.sort_unstable();
        lengths.dedup();
        for (min_size, max_size) in [(size, u32::MAX), (0, size), (size, size)] {
            let fields = EntryFields { min_size, max_size, ..entry("A") };
            let state = state(&lent, ERASED, &[fields.pack()]);
            let payload = |length: &u32| vec![1; *length as usize];
            let sets = lengths.iter().flat_map(|length| [3, 0x43].map(|bits| set(NAME, bits, payload(length))));
            sweep.each(&state, sets)?;
        }
    }
    Ok(())
}

/// Payloads over the greatest length, those among them that fewer bits of their length would let by.
fn long_payloads(sweep: &mut Sweep) -> Outcome {
    let lengths = [1025, 1026, 1280, 2047, 2048, 2049, 4096, (1 << 16) - 1, 1 << 16, (1 << 16) + 1];
    let state = state(&[0xFF; 1100], &[0xFF; 1100], &[]);
    let calls = lengths.into_iter().flat_map(|length| [0, 3, 0x42].map(|bits| set(NAME, bits, vec![1; length])));
    sweep.each(&state, calls)
}

/// Every type of lock, the variable in either store or absent, the trigger too, by each kind of request.
fn locks(sweep: &mut Sweep) -> Outcome {
    let payloads: [&[u8]; 7] = [&[0], &[1], &[0xFF], &[0, 0], &[1, 0], &[0, 1], &[1, 1, 1]];
    let mut triggers = vec![(0, &[0_u8][..])];
    triggers.extend(payloads.into_iter().flat_map(|payload| [(2, payload), (3, payload)]));
    for lock in locking_entries() {
        for (attributes, payload) in triggers.iter().filter(|(bits, _)| lock.lock_type == 3 || *bits == 0) {
            for at in [0, 2, 3] {
                let state = with_trigger(&lock, *attributes, payload, at);
                let calls = [3, 2, 0x43, 0x42, 0]
                    .into_iter()
                    .flat_map(|bits| [Vec::new(), vec![1]].map(|payload| (bits, payload)));
                sweep.each(&state, calls.map(|(bits, payload)| set(NAME, bits, payload)))?;
            }
        }
    }
    Ok(())
}

/// Entries of "A" of each type, the fourth with several triggers.
fn locking_entries() -> Vec<EntryFields> {
    let plain = (0..3).map(|lock_type| EntryFields { lock_type, ..entry("A") });
    let trigger = |name: &str, value: u8| entry("A").with_trigger(G, &units(name), value);
    let elsewhere = |name: &str| entry("A").with_trigger(OTHER_NAMESPACE, &units(name), 1);
    let triggers = [trigger("T0", 0), trigger("T0", 1), trigger("T0", 0xFF), trigger("00", 0), trigger("00", 1)];
    plain.chain(triggers).chain([elsewhere("U0"), elsewhere("T0"), trigger("U0", 1), trigger("A", 1)]).collect()
}

/// A state with the variable "A", the variables "T0" and "##", which is no trigger, and "U0" of another namespace, each
/// in the store that its attributes say, or absent if they are 0.
fn with_trigger(lock: &EntryFields, attributes: u32, payload: &[u8], at: u32) -> State {
    let records = |kind: u32| {
        let mut records = Vec::new();
        let mut hold = |namespace, name: &str, attributes: u32, payload: &[u8]| {
            if attributes != 0 && attributes & 1 == kind {
                records.push(record(namespace, &units(name), attributes, payload));
            }
        };
        hold(&OTHER_NAMESPACE, "U0", attributes, payload);
        hold(&G, "T0", attributes, payload);
        hold(&G, "##", attributes, payload);
        hold(&G, "A", at, &[1]);
        store(240, &records)
    };
    state(&records(1), &records(0), &[lock.pack()])
}

/// Every byte in a trigger against Values, and triggers of other lengths that begin with Value.
fn trigger_bytes(sweep: &mut Sweep) -> Outcome {
    let trigger = |payload: &[u8]| store(1100, &[record(&G, &units("T"), 3, payload)]);
    for value in (0..8).map(|bit| 1 << bit).chain([0, 0x5A, 0xFF]) {
        let entries = [entry("A").with_trigger(G, &units("T"), value).pack()];
        for byte in 0..=u8::MAX {
            sweep.each(&state(&trigger(&[byte]), ERASED, &entries), [set(NAME, 2, vec![1])])?;
        }
        for length in [2, 3, 4, 5, 256, 257, 513, 1024] {
            sweep.each(&state(&trigger(&vec![value; length]), ERASED, &entries), [set(NAME, 2, vec![1])])?;
        }
    }
    Ok(())
}

/// Entries that target more than one variable, where one of them exists and another is asked.
fn neighbours(sweep: &mut Sweep) -> Outcome {
    let there = record(&G, &units("0"), 3, &[1]);
    for name in ["#", ""] {
        for lock_type in 0..3 {
            let fields = EntryFields { lock_type, ..entry(name) };
            let triggered = entry(name).with_trigger(G, &units("0"), 1);
            for fields in [fields, triggered] {
                let state = state(&store(128, from_ref(&there)), ERASED, &[fields.pack()]);
                let calls = ["0", "1", "#"].map(|name| [3, 2, 0].map(|bits| set(&units(name), bits, vec![2])));
                sweep.each(&state, calls.into_iter().flatten())?;
            }
        }
    }
    Ok(())
}

/// Every form of deletion, and the empty append, over variables of all attributes in either store.
fn deletions(sweep: &mut Sweep) -> Outcome {
    let stored = [0, 2, 3, 6, 7];
    let asking = EntryFields { min_size: 1, must_have: 4, cant_have: 1, ..entry("A") };
    for attributes in stored {
        let record = record(&G, NAME, attributes, &[1, 2, 3]);
        let records =
            |kind: u32| if attributes != 0 && attributes & 1 == kind { vec![record.clone()] } else { Vec::new() };
        for entries in [Vec::new(), vec![asking.pack()]] {
            let state = state(&store(100, &records(1)), &store(100, &records(0)), &entries);
            for bits in 0..0x50 {
                let payloads = [Vec::new(), vec![0], vec![1], vec![0xFF], vec![9; 1024], vec![9; 1025]];
                sweep.each(&state, payloads.map(|payload| set(NAME, bits, payload)))?;
            }
        }
    }
    Ok(())
}

/// Stores in which the variable is absent, or in one of them with these attributes and this length, with
/// room for more and without.
pub(super) fn places() -> Vec<(Vec<u8>, Vec<u8>)> {
    let roomy = 2200;
    let mut places =
        vec![(vec![0xFF; roomy], vec![0xFF; roomy]), (Vec::new(), Vec::new()), (vec![0xFF; 35], vec![0xFF; 35])];
    for (attributes, length) in [(3, 1), (7, 1), (2, 1), (6, 1), (3, 1020), (2, 1020), (3, 1024)] {
        let record = [record(&G, NAME, attributes, &vec![1; length])];
        let (with, without) = ([store(roomy, &record), full(&record)], [vec![0xFF; roomy], Vec::new()]);
        for (with, without) in with.into_iter().zip(without) {
            places.push(if attributes & 1 == 1 { (with, without) } else { (without, with) });
        }
    }
    places
}

/// Entries that ask for all that an entry can.
pub(super) fn asking() -> [EntryFields; 12] {
    let sizes = |min_size, max_size| EntryFields { min_size, max_size, ..entry("A") };
    let bits = |must_have, cant_have| EntryFields { must_have, cant_have, ..entry("A") };
    let locking = |fields: EntryFields, lock_type| EntryFields { lock_type, ..fields };
    let whole = EntryFields { name: Vec::new(), ..locking(sizes(2, 3), 1) };
    [
        locking(entry("A"), 0),
        locking(entry("A"), 1),
        locking(entry("A"), 2),
        entry("A").with_trigger(G, NAME, 1),
        sizes(2, 4),
        sizes(1, 1023),
        locking(sizes(2, 4), 1),
        bits(4, 0),
        bits(0, 0x41),
        locking(bits(3, 0x40), 1),
        locking(bits(0x40, 4), 2),
        whole,
    ]
}

/// Requests of all kinds over entries of all kinds, so that every two steps that can hold at once do.
fn steps_at_once(sweep: &mut Sweep) -> Outcome {
    for fields in asking() {
        for (nv, volatile) in places() {
            let mut state = state(&nv, &volatile, &[fields.pack()]);
            sweep.each(&state, requests())?;
            if fields.lock_type == 1 && fields.min_size == 2 {
                state.switches.enabled = 0;
                sweep.each(&state, requests())?;
            }
        }
    }
    Ok(())
}

/// Requests with good and bad names, attributes and payloads.
pub(super) fn requests() -> impl Iterator<Item = Call> {
    let attributes = [0, 1, 2, 3, 4, 7, 8, 0x0B, 0x0C, 0x40, 0x42, 0x43, 0x44, 0x47, 0x48];
    let lengths = [0, 1, 5, 1024, 1025];
    let good = attributes.into_iter().flat_map(move |bits| lengths.map(|length| set(NAME, bits, vec![1; length])));
    let bad = [0, 2, 3, 4, 8, 0x42, 0x43]
        .into_iter()
        .flat_map(|bits| [0, 1, 1025].map(|length| set(&[0x41, 0], bits, vec![1; length])));
    good.chain(bad).chain([delete(NAME), read(NAME)])
}
