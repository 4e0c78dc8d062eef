//! What MinSize and MaxSize measure: stored lengths and given ones around both, the variable absent and in either
//! store; and behind the size attributes, locks, the limit of 1,024 and room.

use super::sets::{NAME, OTHER_NAMESPACE};
use super::{ERASED, Outcome, Sweep, delete, entry, read, set, state, store};
use crate::call::Call;
use crate::make::{EntryFields, G, record, units};
use crate::state::State;
use varpolicy::Namespace;

pub(super) fn run(sweep: &mut Sweep) -> Outcome {
    short(sweep)?;
    without_room(sweep)?;
    long(sweep)?;
    beside_others(sweep)?;
    filled(sweep)
}

/// MinSize and MaxSize among short lengths.
const SHORT: [(u32, u32); 7] = [(0, 0), (0, 1), (1, 1), (0, 4), (2, 5), (3, 3), (4, u32::MAX)];

fn sized(name: &str, (min_size, max_size): (u32, u32)) -> EntryFields {
    EntryFields { min_size, max_size, ..entry(name) }
}

/// The variable absent, and with each of these lengths in either store: its attributes and its length.
fn variables(lengths: impl IntoIterator<Item = usize>) -> impl Iterator<Item = (u32, usize)> {
    let stored = lengths.into_iter().flat_map(|length| [2, 3, 6, 7].map(|attributes| (attributes, length)));
    [(0, 0)].into_iter().chain(stored)
}

/// An engine with an entry, the variable in the store that its attributes say, and so much room in both stores.
fn holding((attributes, length): (u32, usize), room: usize, fields: &EntryFields) -> State {
    let record = record(&G, NAME, attributes, &vec![1; length]);
    let [nv, volatile] = [3, 2].map(|kind| {
        let records = if attributes & 3 == kind { vec![record.clone()] } else { Vec::new() };
        store(records.concat().len() + room, &records)
    });
    state(&nv, &volatile, &[fields.pack()])
}

/// Sets, appends and deletions with payloads of these lengths.
fn requests(lengths: impl IntoIterator<Item = usize>) -> impl Iterator<Item = Call> {
    let bits = [0, 2, 3, 0x42, 0x43, 0x47];
    lengths.into_iter().flat_map(move |length| bits.map(|bits| set(NAME, bits, vec![2; length])))
}

/// The entry, and the entry with attributes that it asks for and with locks of each type.
fn with_more_asked(fields: &EntryFields) -> Vec<EntryFields> {
    let asked = [(0, 0, 0), (0, 0, 1), (0, 0, 2), (4, 0, 0), (4, 0, 1), (0, 0x40, 2), (0x40, 1, 1)];
    let asking = |(must_have, cant_have, lock_type)| EntryFields { must_have, cant_have, lock_type, ..fields.clone() };
    asked.into_iter().map(asking).chain([fields.clone().with_trigger(G, NAME, 1)]).collect()
}

/// Every short length stored with every one given, with room for the sum; on a disabled engine too.
fn short(sweep: &mut Sweep) -> Outcome {
    for fields in SHORT.iter().flat_map(|bounds| with_more_asked(&sized("A", *bounds))) {
        for variable in variables(1..=6) {
            let mut state = holding(variable, 48, &fields);
            sweep.each(&state, requests(0..=7))?;
            if fields.lock_type == 1 && fields.must_have == 4 {
                state.switches.enabled = 0;
                sweep.each(&state, requests(0..=7))?;
            }
        }
    }
    Ok(())
}

/// The same in stores without room for more, so that step 9 holds behind the size.
fn without_room(sweep: &mut Sweep) -> Outcome {
    for bounds in SHORT {
        for variable in variables(1..=6) {
            sweep.each(&holding(variable, 0, &sized("A", bounds)), requests(0..=7))?;
        }
    }
    Ok(())
}

/// Lengths around 2^8 and around 1,024, where the 2 of step 4 and the 9 of step 8 meet; and MinSize and MaxSize that
/// no payload comes to.
fn long(sweep: &mut Sweep) -> Outcome {
    for bound in [255, 256, 257, 1023, 1024, 1025, 2000, 2048, 1 << 16] {
        for fields in bounded_by(bound) {
            for variable in variables([1, 255, 256, 600, 1024]) {
                let lengths = around(bound as usize, variable.1);
                sweep.each(&holding(variable, 1100, &fields), requests(lengths))?;
            }
        }
    }
    Ok(())
}

/// Entries with this as MaxSize, as MinSize and as both, without a lock and with locks of types 1 and 2.
fn bounded_by(bound: u32) -> impl Iterator<Item = EntryFields> {
    let bounds = [(0, bound), (bound, u32::MAX), (bound, bound)];
    bounds.into_iter().flat_map(|bounds| (0..3).map(move |lock_type| EntryFields { lock_type, ..sized("A", bounds) }))
}

/// Lengths that are the bound, 1,024 or a neighbour of them, or make it with the stored one; and 0.
fn around(bound: usize, stored: usize) -> Vec<usize> {
    let wanted = [bound - 1, bound, bound + 1, 1023, 1024, 1025];
    let given = wanted.into_iter().flat_map(|length| [Some(length), length.checked_sub(stored)]).flatten();
    let mut lengths: Vec<usize> = given.filter(|length| *length <= 1024).chain([0]).collect();
    lengths.sort_unstable();
    lengths.dedup();
    lengths
}

/// Entries for several variables, each of which is appended to: the lengths of the others, and of those of its name in
/// another namespace, do not count.
fn beside_others(sweep: &mut Sweep) -> Outcome {
    let records = |attributes: u32, stored: [(Namespace, &str, usize); 4]| {
        let record = |(namespace, name, length)| record(&namespace, &units(name), attributes, &vec![1; length]);
        store(300, &stored.map(record))
    };
    let other = OTHER_NAMESPACE;
    let nv = records(3, [(other, "A0", 7), (G, "A0", 2), (G, "A1", 5), (other, "A4", 3)]);
    let volatile = records(2, [(G, "A2", 4), (G, "A3", 1), (other, "A1", 6), (other, "A3", 2)]);
    for name in ["A#", "", "A1"] {
        for bounds in [(0, 6), (3, 5), (4, u32::MAX), (0, 12)] {
            let calls = ["A0", "A1", "A2", "A3", "A4"].into_iter().flat_map(|name| {
                (0..=8).flat_map(move |length| [0x42, 0x43].map(|bits| set(&units(name), bits, vec![2; length])))
            });
            sweep.each(&state(&nv, &volatile, &[sized(name, bounds).pack()]), calls)?;
        }
    }
    Ok(())
}

/// A variable that is filled by pieces of one length, set anew and filled again, deleted and filled again.
fn filled(sweep: &mut Sweep) -> Outcome {
    for bounds in [(0, 8), (3, 8), (8, 8), (0, 64)] {
        let state = state(ERASED, ERASED, &[sized("A", bounds).pack()]);
        for length in [0, 1, 2, 3, 4, 5, 8, 9, 60] {
            sweep.history(state.clone(), pieces(2, length))?;
            sweep.history(state.clone(), pieces(3, length))?;
        }
    }
    Ok(())
}

/// Appends of one length with reads between them, three times over.
fn pieces(bits: u32, length: usize) -> Vec<Call> {
    let appends = vec![[set(NAME, bits | 0x40, vec![4; length]), read(NAME)]; 10].concat();
    let anew = vec![set(NAME, bits, vec![5; 4]), read(NAME)];
    [appends.clone(), anew, appends.clone(), vec![delete(NAME)], appends].concat()
}
