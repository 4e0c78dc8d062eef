//! Which entry speaks: rank, ties, the whole namespace, and entries that nearly target.

use super::{ERASED, Outcome, Sweep, delete, engine, entry, locking, read, set, state};
use crate::call::Call;
use crate::make::{EntryFields, G, LONGEST, entries_of_size, record, unit_bytes, units};
use reference::{MAX_ENTRIES, POLICY_BYTES};

pub(super) fn run(sweep: &mut Sweep) -> Outcome {
    orders(sweep)?;
    ranks(sweep)?;
    at_each_place(sweep)?;
    namespaces(sweep)
}

/// Every two entries, in both orders, of all that target "0a1" by '#', the one locking or the other.
fn orders(sweep: &mut Sweep) -> Outcome {
    let patterns = ["", "0a1", "#a1", "0#1", "0a#", "##1", "#a#", "0##", "###"];
    for first in patterns {
        for second in patterns.into_iter().filter(|second| *second != first) {
            let (first, second) = (units(first), units(second));
            let open = |name: &[u16]| EntryFields::new(G, name).pack();
            let calls = || ["0a1", "0#1", "###", "zzz", "0a"].map(|name| delete(&units(name)));
            sweep.each(&engine(&[locking(G, &first), open(&second)]), calls())?;
            sweep.each(&engine(&[open(&first), locking(G, &second)]), calls())?;
            sweep.each(&engine(&[open(&units("zzz")), open(&first), locking(G, &second)]), calls())?;
        }
    }
    Ok(())
}

/// A name of 64 digits under entries with 0 to 64 '#', and under the whole namespace, in both orders.
fn ranks(sweep: &mut Sweep) -> Outcome {
    let name = vec![0x37; 64];
    let pattern = |signs: usize| [vec![0x23; signs], vec![0x37; 64 - signs]].concat();
    let open = |name: &[u16]| EntryFields::new(G, name).pack();
    for signs in 0..=64 {
        for other in [Vec::new(), pattern(64 - signs), pattern((signs + 1) % 65)] {
            if other == pattern(signs) {
                continue;
            }
            let entries = [locking(G, &pattern(signs)), open(&other)];
            let [first, second] = entries.clone();
            sweep.each(&engine(&entries), [delete(&name)])?;
            sweep.each(&engine(&[second, first]), [delete(&name)])?;
        }
    }
    Ok(())
}

/// An entry at each place of a record of the most entries and of one of the longest: alone, and beside the whole
/// namespace or an entry of equal rank at the start or the end.
fn at_each_place(sweep: &mut Sweep) -> Outcome {
    let calls = || ["A", "B"].map(|name| delete(&units(name)));
    for others in [entries_of_size(44, MAX_ENTRIES - 1), entries_of_size(LONGEST, POLICY_BYTES / LONGEST)] {
        for place in 0..=others.len() {
            let mut entries = others.clone();
            entries.insert(place, locking(G, &units("A")));
            sweep.each(&engine(&entries), calls())?;
            let other_end = if place <= others.len() / 2 { others.len() } else { 0 };
            entries[other_end] = entry("").pack();
            sweep.each(&engine(&entries), calls())?;
            entries[place] = locking(G, &units("#1"));
            entries[other_end] = entry("0#").pack();
            sweep.each(&engine(&entries), [delete(&units("01"))])?;
        }
    }
    Ok(())
}

/// Entries, variables and triggers whose namespace differs in one bit.
fn namespaces(sweep: &mut Sweep) -> Outcome {
    let name = units("A");
    for bit in 0..128 {
        let mut other = G;
        other[bit / 8] ^= 1 << (bit % 8);
        let there = record(&other, &name, 3, &[7]);
        let triggered = entry("B").with_trigger(G, &name, 7).pack();
        let entries = [locking(other, &name), triggered];
        let both = [record(&G, &name, 3, &[7]), there.clone()].concat();
        let elsewhere = Call::Set { namespace: other, name: unit_bytes(&name), attributes: 3, payload: vec![1] };
        let calls = [delete(&name), read(&name), set(&name, 3, vec![1]), set(&units("B"), 3, vec![1]), elsewhere];
        sweep.each(&state(&there, ERASED, &entries), calls.clone())?;
        sweep.each(&state(&both, ERASED, &entries), calls.clone())?;
        sweep.each(&state(&[there, vec![0xFF; 80]].concat(), ERASED, &entries), calls)?;
        sweep.each(&engine(&[locking(other, &[])]), [delete(&name)])?;
    }
    Ok(())
}
