//! '#' in the names of entries and of variables (docs/RULES.md, 4.1): over each unit, at each place of names of every
//! length, and beside the whole namespace.

use super::entries::over_record;
use super::names::{NUMBER_SIGN, among, digits};
use super::{ERASED, Outcome, Sweep, delete, engine, entry, locking, read, register, set, state, store};
use crate::make::{EntryFields, G, packed, record, units};
use reference::MAX_UNITS;

pub(super) fn run(sweep: &mut Sweep) -> Outcome {
    over_themselves(sweep)?;
    look_alikes(sweep)?;
    short_names(sweep)?;
    near_digits(sweep)?;
    places(sweep)?;
    two_places(sweep)?;
    whole_namespace(sweep)?;
    spelled_alike(sweep)?;
    near_misses(sweep)?;
    guards(sweep)?;
    registrations(sweep)?;
    records(sweep)?;
    triggers_and_stores(sweep)
}

/// An entry that allows everything, packed.
fn open(name: &[u16]) -> Vec<u8> {
    EntryFields::new(G, name).pack()
}

/// The name with another unit at this place.
pub(super) fn with(name: &[u16], place: usize, unit: u16) -> Vec<u16> {
    let mut name = name.to_vec();
    name[place] = unit;
    name
}

/// Every place of names of every length.
pub(super) fn all_places() -> impl Iterator<Item = (usize, usize)> {
    (1..=MAX_UNITS).flat_map(|count| (0..count).map(move |place| (count, place)))
}

/// The first, the last and the middle place of a name of so many units.
pub(super) fn some_places(count: usize) -> Vec<usize> {
    let mut places = vec![0, count / 2, count - 1];
    places.dedup();
    places
}

/// Each unit but zero in a pattern and in the same place of the name, alone and as one of eight units.
fn over_themselves(sweep: &mut Sweep) -> Outcome {
    for unit in 1..=u16::MAX {
        for name in [vec![unit], among(8, usize::from(unit % 8), unit)] {
            sweep.each(&engine(&[locking(G, &name)]), [delete(&name)])?;
        }
    }
    Ok(())
}

/// Units in a pattern that are nearly '#', at each place of eight, over digits.
fn look_alikes(sweep: &mut Sweep) -> Outcome {
    let low_or_high =
        (0..=u8::MAX).flat_map(|byte| [u16::from_le_bytes([0x23, byte]), u16::from_le_bytes([byte, 0x23])]);
    for unit in (1..=0x80).chain(low_or_high).chain([0xFF03]) {
        for place in 0..8 {
            let calls = [0x30, 0x46, unit, NUMBER_SIGN].map(|over| delete(&among(8, place, over)));
            sweep.history(engine(&[locking(G, &among(8, place, unit))]), calls)?;
        }
    }
    Ok(())
}

/// Every pattern and every name of one to three units out of four: '#', the unit before it, a digit and a letter. And
/// of four of them behind "Boot".
fn short_names(sweep: &mut Sweep) -> Outcome {
    for (start, count) in [("", 1), ("", 2), ("", 3), ("Boot", 4)] {
        let name = |number: usize| [units(start), out_of_four(number, count)].concat();
        let names: Vec<Vec<u16>> = (0..1 << (2 * count)).map(name).collect();
        for pattern in &names {
            sweep.history(engine(&[locking(G, pattern)]), names.iter().map(|name| delete(name)))?;
        }
    }
    Ok(())
}

/// The so many units that a number says, two bits each.
fn out_of_four(number: usize, count: usize) -> Vec<u16> {
    (0..count).map(|place| [NUMBER_SIGN, 0x22, 0x30, 0x5A][number >> (2 * place) & 3]).collect()
}

/// Units that are digits, or nearly, under '#' at the first, the last and the middle place of longer patterns, the
/// others plain or '#' too.
fn near_digits(sweep: &mut Sweep) -> Outcome {
    for count in [5, 7, 8, 9, 12, 16, 17, 32, 33, 63, 64] {
        for place in some_places(count) {
            for pattern in [with(&digits(count), place, NUMBER_SIGN), vec![NUMBER_SIGN; count]] {
                let calls = (0..=0x80).chain(NEAR_DIGITS).map(|unit| delete(&with(&digits(count), place, unit)));
                sweep.history(engine(&[locking(G, &pattern)]), calls)?;
            }
        }
    }
    Ok(())
}

/// Units that have a digit or '#' in one byte, or look like one.
const NEAR_DIGITS: [u16; 34] = [
    0x0123, 0x2300, 0x2323, 0x2330, 0x3023, 0x8023, 0xFF03, 0x0130, 0x3000, 0x3030, 0x8030, 0x0139, 0x3900, 0x0141,
    0x1141, 0x4100, 0x4141, 0x0161, 0x6100, 0x0166, 0x00B0, 0x00B2, 0x00C1, 0x00E6, 0x0391, 0x0410, 0x0660, 0x06F9,
    0x2460, 0xFF10, 0xFF19, 0xFF21, 0xFF46, 0xFFFF,
];

/// '#' at each place of a pattern, the others plain, and everywhere, or everywhere but there: over a digit, over '#' and
/// over other units at that place.
fn places(sweep: &mut Sweep) -> Outcome {
    for (count, place) in all_places() {
        let (name, signs) = (digits(count), vec![NUMBER_SIGN; count]);
        let patterns = [with(&name, place, NUMBER_SIGN), signs.clone(), with(&signs, place, name[place])];
        for pattern in patterns {
            let under = [name[place], name[place] ^ 1, NUMBER_SIGN, 0x47, 0x0130];
            let names = under.map(|unit| with(&name, place, unit));
            let calls = names.iter().chain([&pattern]).map(|name| delete(name));
            sweep.history(engine(&[locking(G, &pattern)]), calls)?;
        }
    }
    Ok(())
}

/// Two places at once, near each other and far: '#' over a digit at the one, and at the other '#' over a digit, over '#'
/// and over a letter, or a unit over another.
fn two_places(sweep: &mut Sweep) -> Outcome {
    for (count, place) in all_places() {
        let name = digits(count);
        for other in others(count, place) {
            let sign = with(&name, other, NUMBER_SIGN);
            let signs = with(&sign, place, NUMBER_SIGN);
            let names = [name.clone(), with(&name, place, NUMBER_SIGN), with(&name, place, 0x47), signs.clone()];
            sweep.history(engine(&[locking(G, &signs)]), names.iter().map(|name| delete(name)))?;
            let apart = [with(&name, place, 0x5A), with(&sign, place, 0x5A)];
            sweep.history(engine(&[locking(G, &sign)]), apart.iter().map(|name| delete(name)))?;
        }
    }
    Ok(())
}

/// Places of a name of so many units that are near a place, far from it, first and last.
fn others(count: usize, place: usize) -> Vec<usize> {
    let mut others = [1, 2, 4, 8, 16].map(|far| place ^ far).to_vec();
    others.extend([0, count - 1]);
    others.retain(|other| *other < count && *other != place);
    others.sort_unstable();
    others.dedup();
    others
}

/// The entry of a name and that for the whole namespace, each alone, and both in either order; one of them locks.
fn beside_whole(name: &[u16]) -> [Vec<Vec<u8>>; 6] {
    [
        vec![locking(G, name)],
        vec![locking(G, &[])],
        vec![locking(G, name), open(&[])],
        vec![open(&[]), locking(G, name)],
        vec![open(name), locking(G, &[])],
        vec![locking(G, &[]), open(name)],
    ]
}

/// A name with '#' at each place, and of '#' alone, under the entry spelled like it and under the whole namespace.
fn whole_namespace(sweep: &mut Sweep) -> Outcome {
    let of_signs = (1..=MAX_UNITS).map(|count| vec![NUMBER_SIGN; count]);
    for name in all_places().map(|(count, place)| with(&digits(count), place, NUMBER_SIGN)).chain(of_signs) {
        for policy in beside_whole(&name) {
            sweep.each(&engine(&policy), [delete(&name)])?;
        }
    }
    Ok(())
}

/// Names that '#' makes nearly alike.
const ALIKE: &str = "Boot#### Boot00fF Boot000G Boot###0 #oot#### ######## 00000000 boot#### Boot### Boot##### \
                     ####Boot0### ####Boot0001 00a9Boot0001 0000Boot0### ####Boot#### #### # 0";

/// Each of them under each, and under the whole namespace beside each.
fn spelled_alike(sweep: &mut Sweep) -> Outcome {
    let names: Vec<Vec<u16>> = ALIKE.split(' ').map(units).collect();
    for policy in names.iter().flat_map(|name| beside_whole(name)) {
        sweep.history(engine(&policy), names.iter().map(|name| delete(name)))?;
    }
    Ok(())
}

/// Entries in every order, each of them the one that locks: two that target a name, two that do so but for one unit
/// between its ends, and the whole namespace.
fn near_misses(sweep: &mut Sweep) -> Outcome {
    for count in [3, 8, 9, 10, 16, 17, 33, 64] {
        for place in [1, count / 2] {
            let name = digits(count);
            let sign = with(&name, place, NUMBER_SIGN);
            let ends = with(&with(&name, 0, NUMBER_SIGN), count - 1, NUMBER_SIGN);
            let entries = [name.clone(), sign.clone(), with(&name, place, 0x5A), with(&ends, place, 0x5A), Vec::new()];
            let names = [name, sign, ends];
            for policy in orders(entries.len()).iter().flat_map(|order| each_locking(&entries, order)) {
                sweep.each(&engine(&policy), names.iter().map(|name| delete(name)))?;
            }
        }
    }
    Ok(())
}

/// The entries of these names in an order, each of them the one that locks.
fn each_locking(names: &[Vec<u16>], order: &[usize]) -> Vec<Vec<Vec<u8>>> {
    let pack =
        |place: usize, locks: usize| if place == locks { locking(G, &names[place]) } else { open(&names[place]) };
    order.iter().map(|locks| order.iter().map(|place| pack(*place, *locks)).collect()).collect()
}

/// Every order of the numbers below this one.
fn orders(count: usize) -> Vec<Vec<usize>> {
    let Some(last) = count.checked_sub(1) else {
        return vec![Vec::new()];
    };
    let shorter = orders(last);
    let with_last = |order: &Vec<usize>, place: usize| [&order[..place], &[last], &order[place..]].concat();
    shorter.iter().flat_map(|order| (0..count).map(|place| with_last(order, place)).collect::<Vec<_>>()).collect()
}

/// Entries that ask for something, by a name.
fn asking(name: &str) -> [EntryFields; 8] {
    [
        entry(name),
        EntryFields { lock_type: 1, ..entry(name) },
        EntryFields { lock_type: 2, ..entry(name) },
        entry(name).with_trigger(G, &units("T0"), 1),
        EntryFields { min_size: 2, ..entry(name) },
        EntryFields { max_size: 1, ..entry(name) },
        EntryFields { must_have: 4, ..entry(name) },
        EntryFields { cant_have: 1, ..entry(name) },
    ]
}

/// A variable with '#' in its name, absent and in either store, held to all that the entry for its whole namespace can
/// ask, and to nothing that the entry spelled like it asks.
fn guards(sweep: &mut Sweep) -> Outcome {
    let name = units("Boot####");
    let calls = || {
        let sets =
            [2, 3, 7, 0x42, 0x43].into_iter().flat_map(|bits| [0, 1, 2].map(|len| set(&name, bits, vec![1; len])));
        sets.chain([delete(&name)])
    };
    let whole = asking("").map(|fields| fields.pack());
    let own = asking("Boot####").map(|fields| fields.pack());
    let alone = whole.iter().chain(&own).map(|entry| vec![entry.clone()]);
    let pairs = whole.iter().flat_map(|whole| own.iter().map(move |own| [whole, own]));
    let both = pairs.flat_map(|[whole, own]| [vec![whole.clone(), own.clone()], vec![own.clone(), whole.clone()]]);
    for entries in alone.chain(both) {
        for at in [0, 2, 3] {
            let records = |kind: u32| {
                let own = (at & 3 == kind).then(|| record(&G, &name, at, &[1]));
                let trigger = (kind == 2).then(|| record(&G, &units("T0"), 2, &[1]));
                store(200, &own.into_iter().chain(trigger).collect::<Vec<_>>())
            };
            sweep.each(&state(&records(3), &records(2), &entries), calls())?;
        }
    }
    Ok(())
}

/// Names of every length with '#' at the first, the middle, the last and at every place, each with the digits that it
/// stands for.
fn signs_and_digits() -> impl Iterator<Item = (Vec<u16>, Vec<u16>)> {
    (1..=MAX_UNITS).flat_map(|count| {
        let name = digits(count);
        let signs = some_places(count).into_iter().map(|place| with(&name, place, NUMBER_SIGN));
        let signs: Vec<Vec<u16>> = signs.chain([vec![NUMBER_SIGN; count]]).collect();
        signs.into_iter().map(move |signs| (signs, name.clone()))
    })
}

/// An entry with '#' registered, and again; then one with digits, and again; then the whole namespace, and again. After
/// each the variables of both names are asked.
fn registrations(sweep: &mut Sweep) -> Outcome {
    for (signs, name) in signs_and_digits() {
        let entries = [&signs[..], &name, &[]].into_iter().flat_map(|name| [locking(G, name), open(name)]);
        let calls = entries.flat_map(|entry| [register(entry), delete(&signs), delete(&name)]);
        sweep.history(engine(&[]), calls)?;
        sweep.each(&engine(&[open(&name)]), [register(locking(G, &signs))])?;
    }
    Ok(())
}

/// Records that hold an entry with '#' twice, and beside one with digits.
fn records(sweep: &mut Sweep) -> Outcome {
    for (signs, name) in signs_and_digits() {
        over_record(sweep, &packed(&[locking(G, &signs), open(&signs)]))?;
        over_record(sweep, &packed(&[locking(G, &signs), open(&name)]))?;
    }
    Ok(())
}

/// A trigger of digits, and stored variables with '#' at each place or with the digit there: each is one variable and
/// no other.
fn triggers_and_stores(sweep: &mut Sweep) -> Outcome {
    let other = units("A");
    for (count, place) in all_places() {
        let name = digits(count);
        let sign = with(&name, place, NUMBER_SIGN);
        let entries = [entry("A").with_trigger(G, &name, 1).pack()];
        for stored in [&name, &sign] {
            let stores = store(200, &[record(&G, stored, 3, &[1])]);
            let calls = [set(&other, 2, vec![1]), read(&sign), read(&name), set(&sign, 3, vec![2]), delete(&name)];
            sweep.each(&state(&stores, ERASED, &entries), calls)?;
        }
    }
    Ok(())
}
