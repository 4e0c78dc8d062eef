//! After exit (docs/RULES.md, 8.1 and 10.13): every call before it and behind it, every value of the switches' bytes,
//! starts, every kind of set over every kind of variable, and what the policy sees that can no longer be read.

use super::engine::settings;
use super::entries::{lent_record_or_start, open_or_not};
use super::sets::{NAME, OTHER_NAMESPACE, places, requests};
use super::{OPEN, Outcome, Sweep, delete, engine, entry, full, locking, read, register, set, state, store};
use crate::FORMER_POLICY_BYTES;
use crate::call::{Call, Values};
use crate::comparison::{Sides, check};
use crate::make::{EntryFields, G, entries_of_size, entries_of_sum, entry_of_size, packed, record, unit_bytes, units};
use crate::state::{Guarded, State};
use reference::{MAX_ENTRIES, POLICY_BYTES};
use varpolicy::{Status, SwitchBytes};

pub(super) fn run(sweep: &mut Sweep) -> Outcome {
    calls(sweep)?;
    one_after_another(sweep)?;
    starts(sweep)?;
    bytes(sweep)?;
    unsound(sweep)?;
    registrations(sweep)?;
    dumps(sweep)?;
    reads(sweep)?;
    combinations(sweep)?;
    steps_at_once(sweep)?;
    unknown_bits(sweep)?;
    locks(sweep)?;
    appends(sweep)?;
    room(sweep)?;
    places_behind(sweep)?;
    rebuilds(sweep)
}

/// The switches of an open engine that has exited.
const EXITED: SwitchBytes = SwitchBytes { exited: 1, ..OPEN };

/// Every setting of the switches, before exit and after.
pub(super) fn all_settings() -> impl Iterator<Item = SwitchBytes> {
    settings().flat_map(|setting| [0, 1].map(|exited| SwitchBytes { exited, ..setting }))
}

/// The attributes of stored variables, and 0 for none.
const STORED: [u32; 5] = [0, 2, 6, 3, 7];

/// The name of the variable with these attributes in [`furnished`].
fn named(attributes: u32) -> Vec<u16> {
    units(["", "", "B", "N", "", "", "R", "A"][attributes as usize])
}

/// Stores with a variable of each of the attributes, and room for more.
fn furnished() -> [Vec<u8>; 2] {
    let variable = |attributes: u32| record(&G, &named(attributes), attributes, &[attributes as u8]);
    [[3, 7], [2, 6]].map(|kinds| store(320, &kinds.map(variable)))
}

/// An engine over these stores, with these entries and switches.
fn furnished_engine(entries: &[Vec<u8>], switches: SwitchBytes) -> State {
    let [nv, volatile] = furnished();
    State { switches, ..state(&nv, &volatile, entries) }
}

/// Every call, with arguments that are good and with others.
fn every_call() -> Vec<Call> {
    let starts = [Call::PowerOn { disabling_allowed: 1 }, Call::Restart { disabling_allowed: 0 }];
    let policy = [
        register(entry("C").pack()),
        register(entry("L").pack()),
        register(vec![0; 44]),
        Call::Dump { buffer: vec![0x5A; 200] },
        Call::Dump { buffer: Vec::new() },
    ];
    let switches = [Call::Lock, Call::Disable, Call::Exit, Call::Query];
    let reads = ["B", "N", "R", "A", "C", ""].map(|name| read(&units(name)));
    let sets = ["B", "N", "R", "A", "C", "L"].into_iter().flat_map(|name| {
        let name = units(name);
        [
            delete(&name),
            set(&name, 7, vec![9]),
            set(&name, 0x47, vec![9]),
            set(&name, 3, vec![9]),
            set(&name, 2, vec![9]),
        ]
    });
    starts.into_iter().chain(policy).chain(switches).chain(reads).chain(sets).collect()
}

/// Every call under every setting of the switches, and behind an exit under each.
fn calls(sweep: &mut Sweep) -> Outcome {
    for entries in [Vec::new(), vec![locking(G, &units("L"))]] {
        for switches in all_settings() {
            let state = furnished_engine(&entries, switches);
            sweep.each(&state, every_call())?;
            for call in every_call() {
                sweep.history(state.clone(), [Call::Exit, call])?;
            }
        }
    }
    Ok(())
}

/// Every call, an exit, and every call behind it; then the first again, and all of them behind one exit.
fn one_after_another(sweep: &mut Sweep) -> Outcome {
    let entries = [locking(G, &units("L"))];
    for first in every_call() {
        for second in every_call() {
            let calls = [first.clone(), Call::Exit, second, first.clone()];
            sweep.history(furnished_engine(&entries, OPEN), calls)?;
        }
    }
    for switches in settings() {
        let behind = every_call().into_iter().skip(2);
        let calls = [Call::Exit].into_iter().chain(behind.clone()).chain(behind);
        sweep.history(furnished_engine(&entries, switches), calls)?;
    }
    Ok(())
}

/// Starts before exit and after, granted and refused, and what the engine answers then: one that was refused a start
/// goes on with the switches that it had.
fn starts(sweep: &mut Sweep) -> Outcome {
    let [nv, volatile] = furnished();
    let twice = full(&[record(&G, &named(7), 6, &[1])]);
    let record = packed(&[locking(G, &units("L"))]);
    let lent = [
        (&nv[..], &volatile[..], &record[..]),
        (&nv, &twice, &record),
        (&nv, &[0; 40], &record),
        (&[0; 40], &volatile, &record),
        (&volatile, &nv, &record),
        (&nv, &volatile, &record[1..]),
        (&nv, &volatile, &[0x77; POLICY_BYTES]),
    ];
    for switches in all_settings() {
        for (nv, volatile, policy) in lent {
            let state = State { switches, ..State::new(nv, volatile, policy) };
            for disabling_allowed in [0, 1, 2] {
                for start in [Call::PowerOn { disabling_allowed }, Call::Restart { disabling_allowed }] {
                    let behind = [Call::Query, read(&named(3)), read(&named(6)), Call::Lock, Call::Disable, Call::Exit];
                    let calls = [start].into_iter().chain(behind).chain([set(&named(3), 3, vec![1]), Call::Exit]);
                    sweep.history(state.clone(), calls)?;
                }
            }
        }
    }
    Ok(())
}

/// Every value of each byte of the switches, beside every setting of the others, for every call that is given them.
fn bytes(sweep: &mut Sweep) -> Outcome {
    let state = furnished_engine(&[locking(G, &units("L"))], OPEN);
    let calls = [
        register(entry("C").pack()),
        Call::Dump { buffer: vec![0x5A; 60] },
        Call::Lock,
        Call::Disable,
        Call::Exit,
        Call::Query,
        read(&named(3)),
        read(&named(6)),
        set(&named(3), 3, vec![1]),
        set(&named(7), 7, vec![1]),
        delete(&named(6)),
        delete(&units("L")),
    ];
    for value in 0..=255 {
        for setting in settings() {
            let [enabled, locked, leave] = [setting.enabled, setting.locked, setting.disabling_allowed];
            let others = |exited| SwitchBytes { exited, ..setting };
            for switches in [
                SwitchBytes { enabled: value, ..others(enabled) },
                SwitchBytes { locked: value, ..others(locked) },
                SwitchBytes { disabling_allowed: value, ..others(leave) },
                others(value),
            ] {
                sweep.each(&State { switches, ..state.clone() }, calls.clone())?;
            }
        }
        let state = State { switches: SwitchBytes { exited: value, ..OPEN }, ..state.clone() };
        for start in [Call::PowerOn { disabling_allowed: value }, Call::Restart { disabling_allowed: value }] {
            sweep.history(state.clone(), [start, Call::Exit, Call::Exit])?;
        }
    }
    Ok(())
}

/// Stores and policy records that are not as they should be, beside every value of the fourth byte: 10 comes first.
fn unsound(sweep: &mut Sweep) -> Outcome {
    let [nv, volatile] = furnished();
    let good = packed(&[locking(G, &units("L"))]);
    let with_byte = |bytes: &[u8], at: usize, byte: u8| {
        let mut bytes = bytes.to_vec();
        bytes[at] = byte;
        bytes
    };
    let lent = [
        State::new(&with_byte(&nv, 2, 0x3E), &volatile, &good),
        State::new(&nv, &with_byte(&volatile, 4, 7), &good),
        State::new(&nv, &with_byte(&volatile, 319, 0), &good),
        State::new(&nv, &full(&[record(&G, &named(7), 6, &[1])]), &good),
        State::new(&nv, &volatile, &with_byte(&good, POLICY_BYTES - 1, 1)),
        State::new(&nv, &volatile, &with_byte(&good, 40, 9)),
        State::new(&nv, &volatile, &good[..FORMER_POLICY_BYTES]),
        State::new(&[0; 40], &[0; 40], &[]),
    ];
    let calls = lent_to_both();
    for state in lent {
        for exited in 0..=255 {
            for locked in [0, 1] {
                let switches = SwitchBytes { exited, locked, ..OPEN };
                sweep.each(&State { switches, ..state.clone() }, calls.clone())?;
            }
        }
    }
    over_former_records(sweep)
}

/// The calls that are lent stores or a policy record and are given the switches, and the starts.
fn lent_to_both() -> Vec<Call> {
    let more = [read(&named(3)), read(&named(7)), read(&[]), set(&named(7), 7, vec![1]), set(&named(7), 2, vec![1])];
    lent_record_or_start().into_iter().chain(more).collect()
}

/// Policy records of the former length, and with '#' in a trigger's name, after exit.
fn over_former_records(sweep: &mut Sweep) -> Outcome {
    let signed = |name: &str| entry(name).with_trigger(G, &units("T#"), 1).pack();
    let others = [entry("L").pack(), signed("A"), entry("M").pack()];
    for entries in [Vec::new(), vec![entry("L").pack()], vec![signed("A")], others.to_vec()] {
        for record in [&packed(&entries)[..], &packed(&entries)[..FORMER_POLICY_BYTES]] {
            for switches in open_or_not().map(|switches| SwitchBytes { exited: 1, ..switches }) {
                let state = State { policy: Guarded::new(record, 3), switches, ..furnished_engine(&[], OPEN) };
                sweep.each(&state, lent_to_both())?;
            }
        }
    }
    Ok(())
}

/// Registrations after exit, with every other ground besides.
fn registrations(sweep: &mut Sweep) -> Outcome {
    let records = [
        Vec::new(),
        entries_of_size(44, 1),
        entries_of_size(44, MAX_ENTRIES - 1),
        entries_of_size(44, MAX_ENTRIES),
        entries_of_sum(POLICY_BYTES - 44),
        entries_of_sum(POLICY_BYTES),
    ];
    let signed = entry("A").with_trigger(G, &units("#"), 1).pack();
    let new = [entry("A").pack(), locking(G, &[]), vec![0; 44], Vec::new(), signed, entry_of_size(322, 1 << 20)];
    for entries in records {
        let calls: Vec<Call> = new.iter().cloned().chain(entries.first().cloned()).map(register).collect();
        for switches in all_settings() {
            sweep.each(&State { switches, ..engine(&entries) }, calls.clone())?;
        }
    }
    Ok(())
}

/// Dumps after exit, into buffers of all lengths up to more than is needed.
fn dumps(sweep: &mut Sweep) -> Outcome {
    for entries in [Vec::new(), vec![entry("A").pack()], entries_of_sum(POLICY_BYTES)] {
        let needed = entries.concat().len();
        let lengths = (0..200).chain([needed.saturating_sub(1), needed, needed + 1, POLICY_BYTES, 1 << 16]);
        for switches in open_or_not().map(|switches| SwitchBytes { exited: 1, ..switches }) {
            let dumps = lengths.clone().map(|len| Call::Dump { buffer: vec![0x5A; len] });
            sweep.each(&State { switches, ..engine(&entries) }, dumps)?;
        }
    }
    Ok(())
}

/// Stores with four variables each, of which those have RT whose bits are set in a pattern, and this much room in both.
fn mixed(pattern: u32, room: usize) -> [Vec<u8>; 2] {
    [3, 2].map(|kind| {
        let records = [0, 1, 2, 3].map(|place| {
            let runtime = if pattern >> place & 1 == 1 { 4 } else { 0 };
            record(&G, &in_place(kind, place), kind | runtime, &vec![place as u8; place + 1])
        });
        store(records.concat().len() + room, &records)
    })
}

/// The name of the variable at this place of the store of these attributes.
fn in_place(kind: u32, place: usize) -> Vec<u16> {
    units(&format!("{kind}{place}"))
}

/// The names of the variables in those stores.
fn mixed_names() -> impl Iterator<Item = Vec<u16>> + Clone {
    [3, 2].into_iter().flat_map(|kind| [0, 1, 2, 3].map(|place| in_place(kind, place)))
}

/// Reads of variables with RT and without at every place of a store, and of names and namespaces near them.
fn reads(sweep: &mut Sweep) -> Outcome {
    for pattern in 0..16 {
        let [nv, volatile] = mixed(pattern, 0);
        for exited in [0, 1] {
            let state = State { switches: SwitchBytes { exited, ..OPEN }, ..state(&nv, &volatile, &[]) };
            let there = mixed_names().map(|name| read(&name));
            let near = [&[][..], &[0x33, 0], &[0x33; 65], &units("300"), &units("3"), &units("4")].map(read);
            let elsewhere = Call::Read { namespace: OTHER_NAMESPACE, name: unit_bytes(&in_place(3, 0)) };
            sweep.each(&state, there.chain(near).chain([elsewhere]))?;
        }
    }
    Ok(())
}

/// Entries of "A": none, one that has nothing against a set, and those that have the size, the attributes, the lock or
/// all of these against every set.
fn entries_against() -> [Vec<Vec<u8>>; 6] {
    let size = EntryFields { min_size: 5000, max_size: 5000, ..entry("A") };
    let attributes = EntryFields { must_have: 0x8000_0000, ..entry("A") };
    let lock = EntryFields { lock_type: 1, ..entry("A") };
    let all = EntryFields { must_have: 0x8000_0000, lock_type: 1, ..size.clone() };
    let one = |fields: EntryFields| vec![entry("B").pack(), fields.pack()];
    [Vec::new(), one(entry("A")), one(size), one(attributes), one(lock), one(all)]
}

/// Stores with "A" of one byte in the one that its attributes say, or in none, and this much room in both.
fn holding(attributes: u32, room: usize) -> [Vec<u8>; 2] {
    [3, 2].map(|kind| {
        let there = attributes & 3 == kind;
        let records = &[record(&G, NAME, attributes, &[1])][..usize::from(there)];
        store(records.concat().len() + room, records)
    })
}

/// Every request by its attributes, its payload and append, over every kind of variable, under every kind of entry; the
/// engine enabled and disabled, locked and not, before exit and after.
fn combinations(sweep: &mut Sweep) -> Outcome {
    let attributes = (0..8).flat_map(|bits| [bits, 0x40 | bits]);
    let lengths = [0, 1, 2, 1024, 1025];
    let calls: Vec<Call> = attributes
        .flat_map(|bits| lengths.map(|length| set(NAME, bits, vec![1; length])))
        .chain([read(NAME)])
        .collect();
    for entries in entries_against() {
        for stored in STORED {
            for room in [0, 48, 1100] {
                let [nv, volatile] = holding(stored, room);
                for switches in all_settings().filter(|switches| switches.disabling_allowed == 1) {
                    sweep.each(&State { switches, ..state(&nv, &volatile, &entries) }, calls.iter().cloned())?;
                }
            }
        }
    }
    Ok(())
}

/// Requests of all kinds over entries of all kinds after exit, so that every two steps that can hold at once do.
fn steps_at_once(sweep: &mut Sweep) -> Outcome {
    for fields in super::sets::asking() {
        for (nv, volatile) in places() {
            for enabled in [1, 0] {
                let switches = SwitchBytes { enabled, ..EXITED };
                sweep.each(&State { switches, ..state(&nv, &volatile, &[fields.pack()]) }, requests())?;
            }
        }
    }
    Ok(())
}

/// Each attribute bit in a request beside those that are needed after exit, and each of these left out.
fn unknown_bits(sweep: &mut Sweep) -> Outcome {
    for stored in STORED {
        let [nv, volatile] = holding(stored, 100);
        let state = State { switches: EXITED, ..state(&nv, &volatile, &[]) };
        for bit in (0..32).map(|bit| 1 << bit) {
            let others =
                [0, 2, 3, 5, 6, 7, 0x43, 0x46, 0x47].into_iter().flat_map(|others| [bit | others, others & !bit]);
            let calls = others.flat_map(|bits| [0, 1].map(|length| set(NAME, bits, vec![1; length])));
            sweep.each(&state, calls)?;
        }
    }
    Ok(())
}

/// Locks of types 2 and 3 after exit, over variables and triggers of all attributes; the trigger holds Value, another
/// byte, or more bytes. What can no longer be read locks as before.
fn locks(sweep: &mut Sweep) -> Outcome {
    let on_create = EntryFields { lock_type: 2, ..entry("A") };
    let on_state = |name: &str, value: u8| entry("A").with_trigger(G, &units(name), value);
    let payloads: [&[u8]; 4] = [&[1], &[0], &[1, 1], &[1, 0]];
    for fields in [on_create, on_state("T", 1), on_state("T", 0), on_state("A", 1)] {
        for (trigger, payload) in STORED.iter().flat_map(|trigger| payloads.map(|payload| (*trigger, payload))) {
            for stored in STORED {
                let [nv, volatile] = with_trigger((trigger, payload), stored);
                for exited in [0, 1] {
                    let switches = SwitchBytes { exited, ..OPEN };
                    let calls = [7, 0x47, 3, 2, 0].map(|bits| set(NAME, bits, vec![2]));
                    let more = [delete(NAME), set(NAME, 0x47, Vec::new()), read(NAME), read(&units("T"))];
                    let state = State { switches, ..state(&nv, &volatile, &[fields.pack()]) };
                    sweep.each(&state, calls.into_iter().chain(more))?;
                }
            }
        }
    }
    triggers_left(sweep)
}

/// Stores with "T" of these attributes and this payload, and "A" of these, each in the one that they say, or in none.
fn with_trigger((trigger, payload): (u32, &[u8]), stored: u32) -> [Vec<u8>; 2] {
    let variables = [("T", trigger, payload), ("A", stored, &[1])];
    [3, 2].map(|kind| {
        let here = variables.iter().filter(|(_, attributes, _)| attributes & 3 == kind);
        let records = here.map(|(name, attributes, payload)| record(&G, &units(name), *attributes, payload));
        store(160, &records.collect::<Vec<_>>())
    })
}

/// A lock that hangs on a trigger, before exit and after: then the trigger can be changed only if it has NV and RT.
fn triggers_left(sweep: &mut Sweep) -> Outcome {
    for attributes in [2, 6, 3, 7] {
        let calls = [
            set(&units("T"), attributes, vec![1]),
            set(NAME, 7, vec![1]),
            Call::Exit,
            read(&units("T")),
            set(NAME, 7, vec![2]),
            delete(NAME),
            set(&units("T"), attributes, vec![0]),
            set(&units("T"), 7, vec![0]),
            set(NAME, 7, vec![3]),
            delete(&units("T")),
            set(NAME, 7, vec![4]),
            Call::Restart { disabling_allowed: 0 },
            delete(&units("T")),
        ];
        for value in [0, 1] {
            let entries = [entry("A").with_trigger(G, &units("T"), value).pack()];
            sweep.history(engine(&entries), calls.clone())?;
        }
    }
    Ok(())
}

/// Appends after exit to variables of all attributes, around MinSize and MaxSize: the stored bytes count, read or not.
fn appends(sweep: &mut Sweep) -> Outcome {
    let bounds = [(0, 0), (0, 1), (1, 1), (0, 4), (2, 5), (3, 3), (4, u32::MAX), (0, 1023), (0, 1024), (1024, 1024)];
    for (min_size, max_size) in bounds {
        for lock_type in [0, 1, 2] {
            let fields = EntryFields { min_size, max_size, lock_type, ..entry("A") };
            for (stored, length) in STORED.iter().flat_map(|stored| [1, 3, 1020].map(|length| (*stored, length))) {
                let variable = record(&G, NAME, stored, &vec![1; length]);
                let [nv, volatile] =
                    [3, 2].map(|kind| store(2200, &[variable.clone()][..usize::from(stored & 3 == kind)]));
                let state = State { switches: EXITED, ..state(&nv, &volatile, &[fields.pack()]) };
                let calls = [0, 1, 2, 3, 4, 5, 1024]
                    .into_iter()
                    .flat_map(|length| [7, 0x47, 0x43, 0].map(|bits| set(NAME, bits, vec![2; length])));
                sweep.each(&state, calls)?;
            }
        }
    }
    Ok(())
}

/// Writing after exit with room to the byte, beside records with RT and without, before them and behind.
fn room(sweep: &mut Sweep) -> Outcome {
    for attributes in [3, 7] {
        let beside = record(&G, &units("other"), attributes, &[9; 6]);
        let own = record(&G, NAME, 7, &[1; 3]);
        for records in [vec![beside.clone()], vec![own.clone(), beside.clone()], vec![beside, own]] {
            let used = records.concat().len();
            for len in used..used + 50 {
                let volatile = store(100, &[record(&G, &units("v"), 2, &[1])]);
                let state = State { switches: EXITED, ..state(&store(len, &records), &volatile, &[]) };
                let calls = (1..=12).flat_map(|length| [7, 0x47].map(|bits| set(NAME, bits, vec![5; length])));
                sweep.each(&state, calls)?;
            }
        }
    }
    Ok(())
}

/// Variables with RT and without in turn, written, appended to and deleted after exit, one call behind the other: those
/// without keep their order.
fn places_behind(sweep: &mut Sweep) -> Outcome {
    for pattern in 0..16 {
        let calls = mixed_names().flat_map(|name| {
            let sets = [set(&name, 7, vec![8; 9]), set(&name, 0x47, vec![7; 3]), set(&name, 3, vec![6])];
            sets.into_iter().chain([read(&name), delete(&name), read(&name), set(&name, 7, vec![5; 2])])
        });
        let [nv, volatile] = mixed(pattern, 100);
        let state = State { switches: EXITED, ..state(&nv, &volatile, &[]) };
        sweep.history(state.clone(), calls.clone())?;
        sweep.each(&state, calls)?;
    }
    Ok(())
}

/// Engines that exit and are rebuilt from one dump again and again, in order and the other way round: each call of it is
/// granted, and the state is what it was, but for the order.
fn rebuilds(sweep: &mut Sweep) -> Outcome {
    let entries = [entry("A").pack(), locking(G, &units("L")), EntryFields { lock_type: 2, ..entry("N#") }.pack()];
    for switches in settings().filter(|switches| switches.enabled == 1 || switches.disabling_allowed == 1) {
        let mut sides = Sides::new(furnished_engine(&entries, SwitchBytes { enabled: 1, locked: 0, ..switches }));
        let dump = sweep.comparison.exchange(&mut sides, &Call::Dump { buffer: vec![0; 400] })?;
        let Values::Dumped { length, .. } = dump.values else {
            return Err("a dump answered no length".to_string());
        };
        check(length == entries.concat().len(), "a dump before exit does not hold the entries")?;
        let closing = closing(switches);
        granted(sweep, &mut sides, closing.clone())?;
        let before = sides.library.clone();
        for order in [[0, 1, 2], [0, 1, 2], [2, 1, 0], [1, 0, 2], [0, 1, 2]] {
            let restart = Call::Restart { disabling_allowed: switches.disabling_allowed };
            let registrations = order.map(|number| register(entries[number].clone()));
            granted(sweep, &mut sides, [restart].into_iter().chain(registrations).chain(closing.clone()))?;
            let ordered = State {
                policy: Guarded::new(&packed(&order.map(|number| entries[number].clone())), 3),
                ..before.clone()
            };
            check(sides.library == ordered, "a rebuild after exit has changed more than the order")?;
            let after = [Call::Dump { buffer: vec![0; 400] }, Call::Exit, Call::Lock, Call::Disable, read(&named(3))];
            for call in after {
                let status = sweep.comparison.exchange(&mut sides, &call)?.status;
                check(status != Status::Success, "an engine that was rebuilt after exit has not exited")?;
            }
        }
    }
    Ok(())
}

/// The last calls of a rebuild of an engine that has exited with these switches.
fn closing(switches: SwitchBytes) -> Vec<Call> {
    let disable = Some(Call::Disable).filter(|_| switches.enabled == 0);
    let lock = Some(Call::Lock).filter(|_| switches.locked == 1);
    disable.into_iter().chain(lock).chain([Call::Exit]).collect()
}

/// Makes calls, each of which is granted.
fn granted(sweep: &mut Sweep, sides: &mut Sides, calls: impl IntoIterator<Item = Call>) -> Outcome {
    for call in calls {
        let status = sweep.comparison.exchange(sides, &call)?.status;
        check(status == Status::Success, format_args!("{} of a rebuild after exit got {status}", call.name()))?;
    }
    Ok(())
}
