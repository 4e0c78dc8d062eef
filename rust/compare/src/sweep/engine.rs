//! The calls on the switches, starts, and dumps.

use super::{ERASED, Outcome, Sweep, delete, engine, entry, locking, one_of_each_type, read, register, set};
use super::{full, store};
use crate::FORMER_POLICY_BYTES;
use crate::call::Call;
use crate::make::{EntryFields, G, SHARE, entries_of_size, packed, record, units};
use crate::state::State;
use reference::{MAX_ENTRIES, POLICY_BYTES};
use std::slice::from_ref;
use varpolicy::{MAX_STORE_BYTES, SwitchBytes};

pub(super) fn run(sweep: &mut Sweep) -> Outcome {
    switches(sweep)?;
    starts(sweep)?;
    dumps(sweep)
}

/// Every setting of the switches by 0 and 1, before exit.
pub(super) fn settings() -> impl Iterator<Item = SwitchBytes> {
    (0..8).map(|bits| {
        let [enabled, locked, disabling_allowed] = [2, 1, 0].map(|place| bits >> place & 1);
        SwitchBytes { enabled, locked, disabling_allowed, exited: 0 }
    })
}

/// Every call under every setting of the switches, before exit.
fn switches(sweep: &mut Sweep) -> Outcome {
    for switches in settings() {
        let nv = store(128, &[record(&G, &units("A"), 3, &[1])]);
        let entries = [locking(G, &units("A"))];
        let state = State { switches, ..super::state(&nv, ERASED, &entries) };
        let calls = [
            Call::PowerOn { disabling_allowed: 1 },
            Call::PowerOn { disabling_allowed: 0 },
            Call::Restart { disabling_allowed: 1 },
            Call::Restart { disabling_allowed: 0 },
            register(entry("B").pack()),
            register(entry("A").pack()),
            register(vec![0; 44]),
            Call::Dump { buffer: vec![0; 100] },
            Call::Lock,
            Call::Disable,
            Call::Query,
            read(&units("A")),
            delete(&units("A")),
            set(&units("A"), 3, vec![2]),
            set(&units("B"), 2, vec![2]),
        ];
        sweep.each(&state, calls.clone())?;
        for first in [Call::Lock, Call::Disable] {
            sweep.history(state.clone(), [vec![first], calls[4..].to_vec()].concat())?;
        }
    }
    Ok(())
}

/// Power-on and restart over every pair of stores, sound and not, and every policy record.
fn starts(sweep: &mut Sweep) -> Outcome {
    let variable = |attributes: u32| record(&G, &units("A"), attributes, &[1]);
    let long = |len: usize| vec![0xFF; len];
    let nv = [
        store(100, &[variable(3)]),
        full(&[variable(7)]),
        Vec::new(),
        store(100, &[variable(2)]),
        store(100, &[variable(3), variable(3)]),
        vec![0; 40],
        long(MAX_STORE_BYTES - 1),
        long(MAX_STORE_BYTES),
        long(MAX_STORE_BYTES + 1),
    ];
    let other = record(&G, &units("B"), 2, &[1]);
    let volatile = [
        store(100, from_ref(&other)),
        store(100, &[variable(2)]),
        store(100, &[variable(3)]),
        store(100, &[other.clone(), other]),
        Vec::new(),
        vec![0x55; 41],
        long(MAX_STORE_BYTES),
        long(MAX_STORE_BYTES + 1),
    ];
    let entries = packed(&one_of_each_type());
    let lengths = [POLICY_BYTES - 1, POLICY_BYTES + 1, FORMER_POLICY_BYTES, 0].map(|len| vec![0; len]);
    let policies = [vec![entries, vec![0x77; POLICY_BYTES]], lengths.to_vec()].concat();
    for nv in &nv {
        for volatile in &volatile {
            let heavy = nv.len() + volatile.len() > MAX_STORE_BYTES;
            for policy in policies.iter().take(if heavy { 2 } else { policies.len() }) {
                for disabling_allowed in [0, 1] {
                    let start = [Call::PowerOn { disabling_allowed }, Call::Restart { disabling_allowed }];
                    sweep.each(&State::new(nv, volatile, policy), start)?;
                }
            }
        }
    }
    Ok(())
}

/// Dumps into buffers around the needed length.
fn dumps(sweep: &mut Sweep) -> Outcome {
    let whole = entries_of_size(SHARE, MAX_ENTRIES);
    let reserved = EntryFields { reserved: [1, 2, 3], ..entry("A") }.pack();
    let mut triggered = entry("C").with_trigger(G, &units("T"), 0);
    triggered.trigger[17] = 0x99;
    for entries in [Vec::new(), vec![reserved, triggered.pack()], one_of_each_type().to_vec(), whole] {
        let needed = entries.concat().len();
        let lengths = [
            0,
            1,
            needed.saturating_sub(1),
            needed,
            needed + 1,
            needed + 100,
            POLICY_BYTES,
            2 * POLICY_BYTES,
            1 << 16,
            (1 << 16) + 1,
        ];
        sweep.each(&engine(&entries), lengths.map(|len| Call::Dump { buffer: vec![0x5A; len] }))?;
    }
    Ok(())
}
