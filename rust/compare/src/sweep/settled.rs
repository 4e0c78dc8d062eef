//! Whether variables are settled (docs/RULES.md, 10.14): chains of every number of links with every end, loops, triggers
//! by their bytes, stores, names and namespaces, how the entries are chosen, names, and what is unsound.

use super::entries::open_or_not;
use super::exit::all_settings;
use super::names::{NUMBER_SIGN, digits};
use super::signs::{all_places, with};
use super::{ERASED, OPEN, Outcome, Sweep, engine, entry, full, locking, one_of_each_type, packed_names, settled};
use super::{delete, read, register, set, state, store, with_each_bit_changed};
use crate::FORMER_POLICY_BYTES;
use crate::call::Call;
use crate::chains::{self, ELSEWHERE, hanging, links, name};
use crate::make::{EntryFields, G, entries_of_size, packed, record, unit_bytes, units};
use crate::state::{Guarded, State};
use reference::{MAX_ENTRIES, POLICY_BYTES};
use varpolicy::{MAX_STORE_BYTES, Namespace, SwitchBytes};

pub(super) fn run(sweep: &mut Sweep) -> Outcome {
    types(sweep)?;
    all_chains(sweep)?;
    loops(sweep)?;
    loops_of_patterns(sweep)?;
    two_namespaces(sweep)?;
    trigger_bytes(sweep)?;
    stored(sweep)?;
    choices(sweep)?;
    ranks(sweep)?;
    namespaces(sweep)?;
    near_names(sweep)?;
    names(sweep)?;
    unsound_stores(sweep)?;
    unsound_records(sweep)?;
    former_records(sweep)?;
    between_calls(sweep)
}

/// The entry of a type, of type 3 with the trigger "T" and Value 1.
fn of_type(lock_type: u8, fields: EntryFields) -> EntryFields {
    match lock_type {
        3 => fields.with_trigger(G, &units("T"), 1),
        _ => EntryFields { lock_type, ..fields },
    }
}

/// Every type of entry under every setting of the switches, the variable absent or there, and its trigger; with good
/// names and bad ones, the stores sound or not.
fn types(sweep: &mut Sweep) -> Outcome {
    let calls = || ["A", "T", "B", ""].map(|name| settled(&units(name)));
    let there = |name: &str, attributes: u32| record(&G, &units(name), attributes, &[1]);
    for (own, trigger) in [(0, 0), (0, 1), (0, 2), (1, 0), (2, 0), (3, 0), (3, 1), (3, 2), (3, 3)] {
        let entries = [of_type(own, entry("A")).pack(), of_type(trigger, entry("T")).pack()];
        for nv in [Vec::new(), there("A", 3), there("T", 7), full(&[there("A", 7), there("T", 3)]), vec![0; 40]] {
            for volatile in [Vec::new(), there("B", 2)] {
                for switches in all_settings() {
                    sweep.each(&State { switches, ..state(&nv, &volatile, &entries) }, calls())?;
                }
            }
        }
    }
    Ok(())
}

/// The attributes of variables by their numbers.
type Attributes = fn(usize) -> u32;

const ATTRIBUTES: [Attributes; 3] = [|_| 3, |_| 2, |number| [3, 6, 2, 7][number % 4]];

/// Stores in which the variables of a chain from this number up to that one hold 1, and the next this.
fn holding(first: usize, last: usize, next: &[u8], attributes: Attributes) -> [Vec<u8>; 2] {
    [1, 0].map(|kind| {
        let variables = (first..=last).map(|number| (number, &[1][..])).chain([(last + 1, next)]);
        let here = variables.filter(|(number, payload)| attributes(*number) & 1 == kind && !payload.is_empty());
        full(&here.map(|(number, payload)| record(&G, &name(number), attributes(number), payload)).collect::<Vec<_>>())
    })
}

/// The last entries of a chain, and what the variable behind it holds, which is locked now: an end of each type, of none,
/// and by a trigger that does not hold its Value.
fn ends(last: usize) -> Vec<(Vec<EntryFields>, Vec<u8>)> {
    let types = [0, 1, 2].map(|lock_type| (vec![EntryFields { lock_type, ..chains::entry(last) }], Vec::new()));
    let payloads: [&[u8]; 9] = [&[], &[0], &[0xFF], &[1, 1], &[1, 0], &[0, 1], &[1, 1, 1], &[0, 1, 1], &[1; 257]];
    let waiting = |value: u8| chains::entry(last).with_trigger(G, &name(last + 1), value);
    let cases = payloads.into_iter().map(|payload| (1, payload)).chain([(0, &[][..])]);
    let behind = EntryFields { lock_type: 1, ..chains::entry(last + 1) };
    let triggers = cases.map(|(value, payload)| (vec![waiting(value), behind.clone()], payload.to_vec()));
    let none = (Vec::new(), Vec::new());
    types.into_iter().chain([none]).chain(triggers).collect()
}

/// Chains of every number of links up to 20, and of more up to the limit of entries, with every end; registered in order
/// and the other way round, in one store, the other and both. Each variable is asked for, of longer chains the first and
/// those near the end.
fn all_chains(sweep: &mut Sweep) -> Outcome {
    for count in (0..=20).chain([24, 33, 64, MAX_ENTRIES - 2]) {
        for (end, behind) in ends(count) {
            let mut entries: Vec<Vec<u8>> = links(count).iter().chain(&end).map(EntryFields::pack).collect();
            for (variant, attributes) in ATTRIBUTES.into_iter().enumerate().skip(if count > 20 { 2 } else { 0 }) {
                let [nv, volatile] = holding(variant.min(1), count, &behind, attributes);
                for _ in 0..2 {
                    entries.reverse();
                    let asked = (0..=count + 2).filter(|number| *number < 2 || number + 20 > count);
                    let calls = asked.map(|number| settled(&name(number)));
                    sweep.each(&state(&nv, &volatile, &entries), calls)?;
                }
            }
        }
    }
    Ok(())
}

/// Loops of up to 21 variables, and of more, with so many links before them. Each variable is asked for, of longer loops
/// those before it and the first ones.
fn loops(sweep: &mut Sweep) -> Outcome {
    for variables in (1..=21).chain([33, 64, 107]) {
        for before in [0, 1, 2, 15, 16, 17, 20] {
            let last = before + variables - 1;
            let [nv, volatile] = holding(0, last, &[], ATTRIBUTES[2]);
            let mut entries: Vec<Vec<u8>> =
                links(last).iter().chain(&[hanging(last, before)]).map(EntryFields::pack).collect();
            for _ in 0..2 {
                entries.reverse();
                let calls = (0..=last.min(before + 21)).map(|number| settled(&name(number)));
                sweep.each(&state(&nv, &volatile, &entries), calls)?;
            }
        }
    }
    Ok(())
}

/// Triggers that their own pattern targets, or their whole namespace: they come round, unless an entry of lower rank is
/// chosen for the trigger.
fn loops_of_patterns(sweep: &mut Sweep) -> Outcome {
    let [nv, volatile] = holding(0, 3, &[], ATTRIBUTES[2]);
    for pattern in ["V##", "V0#", ""] {
        for trigger in 0..3 {
            let pattern = entry(pattern).with_trigger(G, &name(trigger), 1).pack();
            for lock_type in 0..4 {
                let own = match lock_type {
                    3 => hanging(trigger, trigger + 1),
                    _ => EntryFields { lock_type, ..chains::entry(trigger) },
                };
                for entries in
                    [vec![pattern.clone()], vec![pattern.clone(), own.pack()], vec![own.pack(), pattern.clone()]]
                {
                    let calls = (0..5).map(|number| settled(&name(number)));
                    sweep.each(&state(&nv, &volatile, &entries), calls)?;
                }
            }
        }
    }
    Ok(())
}

/// Chains of up to 20 links whose variables stand in two namespaces: in turn, by threes, or all but the first and the last
/// in the one.
fn two_namespaces(sweep: &mut Sweep) -> Outcome {
    let arrangements: [fn(usize, usize) -> bool; 3] =
        [|number, _| number % 2 == 1, |number, _| number % 6 > 2, |number, last| (1..last).contains(&number)];
    for (last, elsewhere) in (0..=20).flat_map(|last| arrangements.map(|elsewhere| (last, elsewhere))) {
        let namespace = |number: usize| if elsewhere(number, last) { ELSEWHERE } else { G };
        let fields = |number: usize| EntryFields::new(namespace(number), &name(number));
        let hanging = (0..last).map(|number| fields(number).with_trigger(namespace(number + 1), &name(number + 1), 1));
        for lock_type in 0..3 {
            let end = EntryFields { lock_type, ..fields(last) };
            let entries: Vec<Vec<u8>> = hanging.clone().chain([end]).map(|fields| fields.pack()).collect();
            let records: Vec<Vec<u8>> =
                (1..=last).map(|number| record(&namespace(number), &name(number), 3, &[1])).collect();
            let calls = (0..=last).flat_map(|number| [G, ELSEWHERE].map(|namespace| (namespace, name(number))));
            let calls = calls.map(|(namespace, name)| Call::Settled { namespace, name: unit_bytes(&name) });
            sweep.each(&state(&full(&records), ERASED, &entries), calls)?;
        }
    }
    Ok(())
}

/// Every byte in a trigger against Values, none, and triggers of other lengths that begin with Value: at the first link of
/// three, at the second and at the third.
fn trigger_bytes(sweep: &mut Sweep) -> Outcome {
    for value in (0..8).map(|bit| 1 << bit).chain([0, 0x5A, 0xFF]) {
        for place in 1..=3 {
            let mut entries = links(3);
            entries[place - 1].trigger[16] = value;
            entries.push(EntryFields { lock_type: 1, ..chains::entry(3) });
            let entries: Vec<Vec<u8>> = entries.iter().map(EntryFields::pack).collect();
            let lengths = [0, 2, 3, 4, 5, 256, 257, 513, 1024].map(|length| vec![value; length]);
            for payload in (0..=u8::MAX).map(|byte| vec![byte]).chain(lengths) {
                let mut records = [1, 2, 3].map(|number| record(&G, &name(number), 3, &[1]));
                records[place - 1] = record(&G, &name(place), 3, &payload);
                if payload.is_empty() {
                    records[place - 1].clear();
                }
                sweep.each(&state(&full(&records), ERASED, &entries), [settled(&name(0))])?;
            }
        }
    }
    Ok(())
}

/// A variable of type 2, one whose trigger it is, and a longer one of type 2, with all attributes, under every setting of
/// the switches: what cannot be read after exit counts all the same.
fn stored(sweep: &mut Sweep) -> Outcome {
    let on_create = |number: usize| EntryFields { lock_type: 2, ..chains::entry(number) };
    let entries = [hanging(0, 1), on_create(1), on_create(2)].map(|fields| fields.pack());
    for attributes in [2, 3, 6, 7] {
        for beside in [2, 3, 6, 7] {
            let records = [(0, beside, &[9; 5][..]), (1, attributes, &[1]), (2, beside, &[1; 300])];
            let [nv, volatile] = [1, 0].map(|kind| {
                let here = records.iter().filter(|(_, attributes, _)| attributes & 1 == kind);
                full(
                    &here.map(|(number, bits, payload)| record(&G, &name(*number), *bits, payload)).collect::<Vec<_>>(),
                )
            });
            for switches in all_settings() {
                let state = State { switches, ..state(&nv, &volatile, &entries) };
                sweep.each(&state, [0, 1, 2, 3].map(|number| settled(&name(number))))?;
            }
        }
    }
    Ok(())
}

/// Every entry, and every two in both orders, of all that target "0a1" by '#', of every two types: asked for that
/// variable, for one whose trigger it is, and for others near it.
fn choices(sweep: &mut Sweep) -> Outcome {
    let patterns = ["", "0a1", "#a1", "0#1", "0a#", "##1", "#a#", "0##", "###"];
    let records = ["0a1", "T", "0b1"].map(|name| record(&G, &units(name), 3, &[1]));
    let around = [entry("Z").with_trigger(G, &units("0a1"), 1).pack(), locking(G, &units("T"))];
    for first in patterns {
        for second in patterns {
            for (one, other) in (0..4).flat_map(|one| (0..4).map(move |other| (one, other))) {
                let pair = [of_type(one, entry(first)).pack(), of_type(other, entry(second)).pack()];
                let different = if second == first { &pair[..1] } else { &pair };
                let entries = [different, &around].concat();
                let calls = ["0a1", "Z", "0b1", "1a1", "0#1", "###", "zzz", "0a"].map(|name| settled(&units(name)));
                sweep.each(&state(&full(&records), ERASED, &entries), calls)?;
            }
        }
    }
    Ok(())
}

/// A name of 64 digits, which is a trigger too, under entries with 0 to 64 '#', and under the whole namespace, in both
/// orders.
fn ranks(sweep: &mut Sweep) -> Outcome {
    let name = vec![0x37; 64];
    let pattern = |signs: usize| [vec![0x23; signs], vec![0x37; 64 - signs]].concat();
    let nv = record(&G, &name, 3, &[1]);
    let hanging = entry("Z").with_trigger(G, &name, 1).pack();
    for signs in 0..=64 {
        for other in [Vec::new(), pattern(64 - signs), pattern((signs + 1) % 65)] {
            if other == pattern(signs) {
                continue;
            }
            let [first, second] = [locking(G, &pattern(signs)), EntryFields::new(G, &other).pack()];
            for (one, two) in [(&first, &second), (&second, &first)] {
                let entries = [hanging.clone(), one.clone(), two.clone()];
                sweep.each(&state(&nv, ERASED, &entries), [settled(&name), settled(&units("Z"))])?;
            }
        }
    }
    Ok(())
}

/// A variable of this namespace and name.
fn ask(namespace: Namespace, name: &str) -> Call {
    Call::Settled { namespace, name: unit_bytes(&units(name)) }
}

/// Triggers, their variables and their entries in namespaces that differ in one bit or in all, in either of them and in
/// both.
fn namespaces(sweep: &mut Sweep) -> Outcome {
    let one_bit = with_each_bit_changed(&G).map(|namespace| namespace.try_into().expect("16 bytes"));
    for other in one_bit.chain([ELSEWHERE]) {
        let stored = [G, other].map(|namespace| record(&namespace, &units("T"), 3, &[1]));
        let locks = [G, other].map(|namespace| locking(namespace, &units("T")));
        let of_trigger = |namespace| entry("A").with_trigger(namespace, &units("T"), 1).pack();
        for which in 0..16 {
            let chosen = |pair: &[Vec<u8>; 2], bits: usize| {
                let here = pair.iter().enumerate().filter(|(place, _)| bits >> place & 1 == 1);
                here.map(|(_, bytes)| bytes.clone()).collect::<Vec<_>>()
            };
            for hanging in [of_trigger(other), of_trigger(G)] {
                let entries = [vec![hanging], chosen(&locks, which / 4)].concat();
                let calls = [ask(G, "A"), ask(other, "A"), ask(G, "T"), ask(other, "T")];
                sweep.each(&state(&full(&chosen(&stored, which % 4)), ERASED, &entries), calls)?;
            }
        }
    }
    Ok(())
}

/// Triggers of 1, 2 and 64 units, and stored variables, entries and requests whose names differ from theirs at one place.
fn near_names(sweep: &mut Sweep) -> Outcome {
    for (count, place) in all_places().filter(|(count, _)| [1, 2, 64].contains(count)) {
        let trigger = digits(count);
        let bits = if count == 64 { place % 16..place % 16 + 1 } else { 0..16 };
        for other in bits.map(|bit| with(&trigger, place, trigger[place] ^ 1 << bit)) {
            let hanging = entry("Z").with_trigger(G, &trigger, 1).pack();
            for (held, locked) in [(&trigger, &trigger), (&trigger, &other), (&other, &trigger), (&other, &other)] {
                let state = state(&record(&G, held, 3, &[1]), ERASED, &[hanging.clone(), locking(G, locked)]);
                sweep.each(&state, [settled(&units("Z")), settled(&trigger), settled(&other)])?;
            }
        }
    }
    Ok(())
}

/// Names of every length in bytes, and with a zero unit at each place, under an entry that locks all and under none.
fn names(sweep: &mut Sweep) -> Outcome {
    let long = [129, 192, 256, 257, 1 << 15, (1 << 15) + 1].map(|count| vec![0x41; 2 * count]);
    for name in packed_names().into_iter().chain(long) {
        let call = || Call::Settled { namespace: G, name: name.clone() };
        sweep.each(&engine(&[locking(G, &[])]), [call()])?;
        sweep.each(&engine(&[]), [call()])?;
    }
    let signs = ["#", "A#", "Boot####"].map(|name| settled(&units(name)));
    sweep.each(&engine(&[locking(G, &[]), entry("A#").pack()]), signs.clone())?;
    sweep.each(&engine(&[locking(G, &units("A#")), entry("").pack()]), signs)
}

/// The question for a good name that is settled, for one that is not, and for bad names.
fn questions() -> [Call; 6] {
    let bad: [&[u16]; 3] = [&[], &[0x41, 0], &[0x41; 65]];
    let [empty, zero, long] = bad.map(settled);
    let odd = Call::Settled { namespace: G, name: vec![0x41, 0, 0x42] };
    [settled(&units("AB")), settled(&units("?")), empty, zero, long, odd]
}

/// Stores with each bit of their records changed, of lengths around the greatest, cut, and with a variable twice: 10
/// before 2.
fn unsound_stores(sweep: &mut Sweep) -> Outcome {
    let entries = [locking(G, &units("AB"))];
    for attributes in [3, 2] {
        let records = [record(&G, &units("AB"), attributes, &[1]), record(&G, &units("C"), attributes, &[1, 2, 3])];
        let cut = (0..full(&records).len()).map(|len| full(&records)[..len].to_vec());
        for bytes in with_each_bit_changed(&full(&records)).chain(cut) {
            let (nv, volatile) = if attributes == 3 { (&bytes[..], ERASED) } else { (ERASED, &bytes[..]) };
            sweep.each(&state(nv, volatile, &entries), questions())?;
        }
    }
    let variable = |attributes: u32| record(&G, &units("AB"), attributes, &[1]);
    let erased = |len: usize| vec![0xFF; len];
    let stores = [
        (variable(3), variable(2)),
        (full(&[variable(3), variable(3)]), Vec::new()),
        (Vec::new(), full(&[variable(2), variable(6)])),
        (variable(2), Vec::new()),
        (Vec::new(), variable(3)),
        (erased(MAX_STORE_BYTES), Vec::new()),
        (erased(MAX_STORE_BYTES + 1), Vec::new()),
        (Vec::new(), erased(MAX_STORE_BYTES)),
        (Vec::new(), erased(MAX_STORE_BYTES + 1)),
        (erased(MAX_STORE_BYTES + 1), erased(MAX_STORE_BYTES + 1)),
    ];
    stores.iter().try_for_each(|(nv, volatile)| sweep.each(&state(nv, volatile, &entries), questions()))
}

/// Policy records with each bit of their entries changed, with a byte behind these, with a repeat, with too many, and of
/// other lengths; beside sound stores and others: 10 before 2.
fn unsound_records(sweep: &mut Sweep) -> Outcome {
    let entries = one_of_each_type();
    let (record, packed_entries) = (packed(&entries), entries.concat());
    let used = packed_entries.len();
    let changed = with_each_bit_changed(&packed_entries).map(|bytes| packed(&[bytes]));
    let behind = [used, used + 1, used + 43, POLICY_BYTES / 2, POLICY_BYTES - 1].map(|place| {
        let mut bytes = record.clone();
        bytes[place] = 1;
        bytes
    });
    let lengths = [0, 44, used, FORMER_POLICY_BYTES, POLICY_BYTES - 1, POLICY_BYTES + 1, 2 * POLICY_BYTES].map(|len| {
        let mut bytes = record.clone();
        bytes.resize(len, 0);
        bytes
    });
    let repeat = packed(&[&entries[..], &[EntryFields { max_size: 9, ..entry("AB") }.pack()]].concat());
    let many = [MAX_ENTRIES, MAX_ENTRIES + 1].map(|count| packed(&entries_of_size(44, count)));
    let records = changed.chain(behind).chain(lengths).chain([repeat]).chain(many);
    for (place, record) in records.enumerate() {
        let lent = State { policy: Guarded::new(&record, 3), ..engine(&[]) };
        sweep.each(&lent, questions())?;
        // Of some records the stores are unsound too.
        if place % 8 == 0 {
            sweep.each(&State { nv: Guarded::new(&[0; 40], 0), ..lent }, questions())?;
        }
    }
    Ok(())
}

/// Policy records of the former length, and with '#' at each place of a trigger's name and in each entry, under the
/// settings of the switches.
fn former_records(sweep: &mut Sweep) -> Outcome {
    let signed = |name: &str| entry(name).with_trigger(G, &units("T#"), 1).pack();
    let [a, b, ..] = one_of_each_type();
    let records = [
        vec![],
        vec![a.clone()],
        vec![signed("A")],
        vec![signed("A"), a.clone()],
        vec![a.clone(), signed("A"), b.clone()],
        vec![a, b, signed("A")],
        vec![signed("A"), signed("B")],
    ];
    for entries in records {
        for record in [&packed(&entries)[..], &packed(&entries)[..FORMER_POLICY_BYTES]] {
            for switches in open_or_not().into_iter().chain([SwitchBytes { exited: 1, ..OPEN }]) {
                let lent = State { policy: Guarded::new(record, 3), switches, ..engine(&[]) };
                sweep.each(&lent, questions())?;
            }
        }
    }
    for (count, place) in all_places() {
        let trigger = with(&digits(count), place, NUMBER_SIGN);
        let entries = [entry("AB").with_trigger(G, &trigger, 1).pack()];
        sweep.each(&engine(&entries), [settled(&units("AB"))])?;
    }
    Ok(())
}

/// The questions between the calls of a history, each of which may change the answers: registrations, sets and
/// deletions, the switches and starts.
fn between_calls(sweep: &mut Sweep) -> Outcome {
    let [a, t] = ["A", "T"].map(units);
    let calls = [
        register(entry("A").with_trigger(G, &t, 1).pack()),
        set(&t, 2, vec![1]),
        register(EntryFields { lock_type: 2, ..entry("") }.pack()),
        set(&t, 2, vec![0]),
        delete(&t),
        Call::Lock,
        register(entry("T").pack()),
        Call::Disable,
        Call::Exit,
        read(&t),
        delete(&t),
        set(&a, 7, vec![1]),
        set(&t, 7, vec![1]),
        Call::Restart { disabling_allowed: 1 },
        register(locking(G, &[])),
        register(entry("#").pack()),
        register(entry("T").with_trigger(G, &a, 1).pack()),
        Call::Disable,
        set(&a, 7, vec![2]),
        set(&t, 2, vec![1]),
        delete(&a),
        Call::Dump { buffer: vec![0; 300] },
        Call::PowerOn { disabling_allowed: 0 },
    ];
    let questions = || [settled(&a), settled(&t), settled(&units("B")), settled(&[])];
    for first in 0..calls.len() {
        let turned = calls[first..].iter().chain(&calls[..first]);
        let history = turned.flat_map(|call| [call.clone()].into_iter().chain(questions()));
        let volatile = store(200, &[record(&G, &units("B"), 6, &[1])]);
        sweep.history(state(&[0xFF; 200], &volatile, &[]), history)?;
    }
    Ok(())
}
