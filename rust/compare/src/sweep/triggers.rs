//! '#' in the names of triggers (docs/RULES.md, 3.2 and 12.8): at each place of names of every length, in entries to
//! register and in policy records; and what is nearly '#', or '#' nearly there.

use super::entries::{fresh, lent_record_or_start, open_or_not};
use super::limits::take_over;
use super::names::{NUMBER_SIGN, among, digits};
use super::signs::{all_places, some_places, with};
use super::{Outcome, Sweep, engine, entry, one_of_each_type, register, set};
use crate::call::Call;
use crate::make::{EntryFields, G, closed, entries_of_size, entries_of_sum, numbered, packed, unit_bytes, units};
use crate::state::{Guarded, State};
use reference::{MAX_ENTRIES, MAX_UNITS, POLICY_BYTES};
use varpolicy::Status;

pub(super) fn run(sweep: &mut Sweep) -> Outcome {
    each_unit(sweep)?;
    look_alikes(sweep)?;
    places(sweep)?;
    short_names(sweep)?;
    beside_the_name(sweep)?;
    own_names(sweep)?;
    malformed_by_more(sweep)?;
    other_grounds(sweep)?;
    again(sweep)?;
    records(sweep)?;
    record_places(sweep)?;
    long_records(sweep)?;
    old_dumps(sweep)
}

/// An entry of "A" with this trigger, packed.
fn triggered(trigger: &[u16]) -> Vec<u8> {
    entry("A").with_trigger(G, trigger, 1).pack()
}

/// Each unit but zero as a trigger's whole name, and as one of eight.
fn each_unit(sweep: &mut Sweep) -> Outcome {
    let names = (1..=u16::MAX).flat_map(|unit| [vec![unit], among(8, usize::from(unit % 8), unit)]);
    sweep.each(&engine(&[]), names.map(|name| register(triggered(&name))))
}

/// Units that have '#' for one byte, or are near it, at each place of eight and of nine.
fn look_alikes(sweep: &mut Sweep) -> Outcome {
    let low_or_high = (0..=u8::MAX).flat_map(|byte| [[0x23, byte], [byte, 0x23]].map(u16::from_le_bytes));
    for unit in (1..=0x80).chain(low_or_high).chain([0xFF03]) {
        let names = [8, 9].into_iter().flat_map(|count| (0..count).map(move |place| among(count, place, unit)));
        sweep.each(&engine(&[]), names.map(|name| register(triggered(&name))))?;
    }
    Ok(())
}

/// '#' at each place of names of every length, alone, everywhere and everywhere but there; in its place its neighbours
/// and units that have it for a byte; and across the place and the one before it.
fn places(sweep: &mut Sweep) -> Outcome {
    for (count, place) in all_places() {
        let (name, signs) = (digits(count), vec![NUMBER_SIGN; count]);
        let near = [NUMBER_SIGN, 0x22, 0x24, 0x0123, 0x2300, 0x2323].map(|unit| with(&name, place, unit));
        let across = place.checked_sub(1).map(|before| with(&with(&name, before, 0x2330), place, 0x3000));
        let signed = [with(&signs, place, 0x30), signs];
        let names = near.into_iter().chain(across).chain(signed);
        sweep.each(&engine(&[]), names.map(|name| register(triggered(&name))))?;
    }
    Ok(())
}

/// Every name of one to four units out of five: '#', its neighbour, its bytes swapped, a digit and a letter.
fn short_names(sweep: &mut Sweep) -> Outcome {
    for count in 1..=4 {
        let unit = |number: usize, place: u32| [NUMBER_SIGN, 0x22, 0x2300, 0x30, 0x5A][number / 5_usize.pow(place) % 5];
        let names =
            (0..5_usize.pow(count)).map(|number| (0..count).map(|place| unit(number, place)).collect::<Vec<_>>());
        sweep.each(&engine(&[]), names.map(|name| register(triggered(&name))))?;
    }
    Ok(())
}

/// '#' before the trigger's name: in each two bytes from the entry's namespace on, and by Value and Reserved, where the
/// name's first byte is 0 or not.
fn beside_the_name(sweep: &mut Sweep) -> Outcome {
    let names = [vec![0x41], vec![0x4100], vec![0x2300], vec![NUMBER_SIGN], digits(9)];
    for bytes in names.iter().map(|name| triggered(name)) {
        let changed = |at: usize, value: [u8; 2]| {
            let mut bytes = bytes.clone();
            bytes[at..at + 2].copy_from_slice(&value);
            register(bytes)
        };
        sweep.each(&engine(&[]), (8..=61).map(|at| changed(at, [0x23, 0])))?;
        let values = (0..=u8::MAX).flat_map(|byte| [[byte, 0], [byte, 0x23], [0x23, byte], [0, byte]]);
        sweep.each(&engine(&[]), values.map(|value| changed(60, value)))?;
    }
    Ok(())
}

/// '#' at each place of the entry's own name, the trigger's name plain, with '#' or not there.
fn own_names(sweep: &mut Sweep) -> Outcome {
    for (count, place) in all_places() {
        let fields = EntryFields::new(G, &with(&digits(count), place, NUMBER_SIGN));
        let trigger = |name: &[u16]| fields.clone().with_trigger(G, name, 1);
        let mut calls = vec![trigger(&units("T")), trigger(&digits(count))];
        if some_places(count).contains(&place) {
            calls.extend([trigger(&units("T#")), trigger(&with(&digits(count), place, NUMBER_SIGN))]);
        }
        if count == MAX_UNITS || place + 1 == count {
            calls.extend((0..3).map(|lock_type| EntryFields { lock_type, ..fields.clone() }));
        }
        sweep.each(&engine(&[]), calls.into_iter().map(|fields| register(fields.pack())))?;
    }
    let whole = ["T", "#", "T#", "#T"].map(|name| entry("").with_trigger(G, &units(name), 1));
    sweep.each(&engine(&[]), whole.map(|fields| register(fields.pack())))
}

/// Entries with '#' in the trigger's name, and with a digit there, that something else makes malformed.
fn malformed_by_more(sweep: &mut Sweep) -> Outcome {
    for count in [1, 2, 3, 4, 7, 8, 9, 16, 17, 63, 64] {
        for place in if count > 17 { some_places(count) } else { (0..count).collect() } {
            let sign = with(&digits(count), place, NUMBER_SIGN);
            for name in [&sign, &digits(count)] {
                let fields = entry("A").with_trigger(G, name, 1);
                let names = bad_names(name).into_iter().map(|name| with_name(&fields, name));
                let all = names.chain(bad_fields(&fields));
                sweep.each(&engine(&[]), all.map(|fields| register(fields.pack())))?;
            }
        }
    }
    Ok(())
}

/// The entry with these bytes for its trigger's name.
fn with_name(fields: &EntryFields, name: Vec<u8>) -> EntryFields {
    EntryFields { trigger: [&fields.trigger[..18], &name].concat(), ..fields.clone() }
}

/// The name with a zero unit at each place, and behind it or before it; unclosed, odd, too long, and closed twice.
fn bad_names(name: &[u16]) -> Vec<Vec<u8>> {
    let zeros = (0..name.len()).map(|place| closed(&with(name, place, 0)));
    let more = [
        closed(&[name, &[0]].concat()),
        closed(&[&[0], name].concat()),
        closed(&[name, &[0, NUMBER_SIGN]].concat()),
        closed(&[name, &[0x41; MAX_UNITS]].concat()),
        closed(&[&[0x41; MAX_UNITS], name].concat()),
        unit_bytes(name),
        [closed(name), vec![0]].concat(),
        [unit_bytes(name), vec![0]].concat(),
        [vec![0], closed(name)].concat(),
    ];
    zeros.chain(more).collect()
}

/// The entry with one other field wrong, or with another type.
fn bad_fields(fields: &EntryFields) -> Vec<EntryFields> {
    let types = [0, 1, 2, 4, 0x83].map(|lock_type| EntryFields { lock_type, ..fields.clone() });
    let sizes = [-2, -1, 1, 2].map(|size_off_by| EntryFields { size_off_by, ..fields.clone() });
    let offsets = [-4, -2, -1, 1, 2, 4].map(|offset_off_by| EntryFields { offset_off_by, ..fields.clone() });
    let others = [
        EntryFields { version: 1, ..fields.clone() },
        EntryFields { min_size: 2, max_size: 1, ..fields.clone() },
        EntryFields { must_have: 5, cant_have: 4, ..fields.clone() },
        EntryFields { name: vec![0, 0], ..fields.clone() },
        EntryFields { name: closed(&[NUMBER_SIGN; MAX_UNITS + 1]), ..fields.clone() },
    ];
    [&types[..], &sizes, &offsets, &others].concat()
}

/// Entries with '#' in the trigger's name where other grounds hold too: the engine locked or disabled, the entry
/// registered already, the record full by number or by sum, and records that are not valid, for a '#' or else.
fn other_grounds(sweep: &mut Sweep) -> Outcome {
    let repeat = |trigger: &str| EntryFields::new(numbered(0), &[]).with_trigger(G, &units(trigger), 1).pack();
    let entries = [triggered(&units("A#")), triggered(&units("A0")), repeat("#A"), repeat("A0")];
    let mut damaged = packed(&[]);
    damaged[POLICY_BYTES - 1] = 1;
    let records = [
        packed(&[]),
        packed(&entries_of_size(44, 1)),
        packed(&entries_of_size(44, MAX_ENTRIES)),
        packed(&entries_of_sum(POLICY_BYTES)),
        packed(&entries_of_sum(POLICY_BYTES - 44)),
        packed(&entries[..1]),
        damaged,
        packed(&[])[1..].to_vec(),
    ];
    for record in records {
        for switches in open_or_not() {
            let state = State { policy: Guarded::new(&record, 3), switches, ..engine(&[]) };
            sweep.each(&state, entries.clone().map(register))?;
        }
    }
    Ok(())
}

/// An entry with '#' in the trigger's name, then with another unit there, then with '#' again: what is refused leaves
/// nothing, so that the second is granted and the third is malformed and no repeat.
fn again(sweep: &mut Sweep) -> Outcome {
    for (count, place) in
        (1..=MAX_UNITS).flat_map(|count| some_places(count).into_iter().map(move |place| (count, place)))
    {
        let sign = triggered(&with(&digits(count), place, NUMBER_SIGN));
        let dump = || Call::Dump { buffer: vec![0x5A; 400] };
        let ask = || set(&units("A"), 3, vec![1]);
        let calls =
            [register(sign.clone()), dump(), ask(), register(triggered(&digits(count))), ask(), register(sign), dump()];
        sweep.history(engine(&one_of_each_type()), calls)?;
    }
    Ok(())
}

/// The calls that are lent a policy record: one of each.
fn calls_on_record() -> [Call; 5] {
    [
        Call::PowerOn { disabling_allowed: 1 },
        Call::Restart { disabling_allowed: 0 },
        register(fresh(44)),
        Call::Dump { buffer: vec![0x5A; 400] },
        set(&units("AB"), 3, vec![1]),
    ]
}

/// A record of one entry, with '#' at each place of its trigger's name, and with another unit there.
fn records(sweep: &mut Sweep) -> Outcome {
    for (count, place) in all_places() {
        for unit in [NUMBER_SIGN, 0x2300 | (place as u16 % 2)] {
            let record = [triggered(&with(&digits(count), place, unit))];
            let calls = calls_on_record().into_iter().skip(if unit == NUMBER_SIGN { 0 } else { 3 });
            sweep.each(&engine(&record), calls)?;
        }
    }
    Ok(())
}

/// Records with '#' in the trigger's name of one entry or of several, first, last, alone or between others: every call
/// that is lent one, under every setting of the switches.
fn record_places(sweep: &mut Sweep) -> Outcome {
    let calls = lent_record_or_start();
    let [a, b, c, d] = one_of_each_type();
    for trigger in ["#", "A#", "#A", "A#A", "########A", "A0000000#", "A0", "\u{2300}\u{123}"] {
        let one = triggered(&units(trigger));
        let other = EntryFields::new(G, &units("E#")).with_trigger(G, &units(trigger), 0).pack();
        let records = [
            vec![one.clone()],
            vec![one.clone(), a.clone(), d.clone()],
            vec![a.clone(), one.clone(), b.clone(), c.clone(), d.clone()],
            vec![d.clone(), c.clone(), one.clone(), b.clone()],
            vec![c.clone(), d.clone(), a.clone(), one.clone()],
            vec![one, d.clone(), other],
        ];
        for record in records {
            let repeat = record[record.len() - 1].clone();
            for switches in open_or_not() {
                let state = State { switches, ..engine(&record) };
                sweep.each(&state, calls.iter().cloned().chain([register(repeat.clone())]))?;
            }
        }
    }
    Ok(())
}

/// Records of as many entries with triggers as the limit, and of the longest, with '#' in the trigger's name of each in
/// turn, and of all.
fn long_records(sweep: &mut Sweep) -> Outcome {
    let short = |number: usize| EntryFields::new(numbered(number), &[]).with_trigger(G, &units("T"), 0).pack();
    for entries in [(0..MAX_ENTRIES).map(short).collect(), entries_of_sum(POLICY_BYTES)] {
        let signed: Vec<Vec<u8>> = entries.iter().map(|entry| with_sign(entry)).collect();
        for (place, entry) in signed.iter().enumerate() {
            let mut record = entries.clone();
            record[place] = entry.clone();
            sweep.each(&engine(&record), calls_on_record())?;
        }
        sweep.each(&engine(&signed), calls_on_record())?;
        sweep.each(&engine(&entries), calls_on_record())?;
    }
    Ok(())
}

/// The entry with '#' for the last unit of its trigger's name.
fn with_sign(entry: &[u8]) -> Vec<u8> {
    let mut bytes = entry.to_vec();
    let end = usize::from(u16::from_le_bytes([entry[6], entry[7]]));
    bytes[end - 4..end - 2].copy_from_slice(&[0x23, 0]);
    bytes
}

/// Entries that were valid together before E7, registered after a power-on and dumped: those with '#' in the trigger's
/// name are refused, and the dump has the others.
fn old_dumps(sweep: &mut Sweep) -> Outcome {
    let name = |number: usize| units(["A#", "Boot####", "", "B0"][number % 4]);
    let plain = |number: usize| EntryFields::new(numbered(number), &name(number));
    let trigger = |number: usize, name: &str| plain(number).with_trigger(G, &units(name), 1).pack();
    let entries: Vec<(Vec<u8>, Status)> = (0..20)
        .map(|number| match number % 5 {
            0 | 1 => (plain(number).pack(), Status::Success),
            2 => (trigger(number, ["#T", "T#T", "T#", "#"][number / 5]), Status::InvalidParameter),
            _ => (trigger(number, "T0"), Status::Success),
        })
        .collect();
    take_over(sweep, &entries)?;
    for place in 0..20 {
        let mut turned = entries.clone();
        turned.rotate_left(place);
        turned.truncate(6 + place % 3);
        take_over(sweep, &turned)?;
    }
    let longest = entries_of_sum(POLICY_BYTES);
    for every in [1, 2, 3, 51] {
        let entry = |(place, entry): (usize, &Vec<u8>)| match place % every {
            0 => (with_sign(entry), Status::InvalidParameter),
            _ => (entry.clone(), Status::Success),
        };
        take_over(sweep, &longest.iter().enumerate().map(entry).collect::<Vec<_>>())?;
    }
    Ok(())
}
