//! The reports of sets (docs/RULES.md, 10.10): every bit and every two bits that an entry can ask for, every number of
//! missing and prohibited ones, every place and every rank, grounds at once, sets that have none, and entries that are
//! nearly the one that speaks.

use super::sets::{KNOWN, NAME, requests};
use super::{ERASED, OPEN, Outcome, Sweep, delete, engine, entry, full, register, set, state, store};
use crate::call::{Call, Values};
use crate::comparison::{Sides, check};
use crate::make::{EntryFields, G, LONGEST, entries_of_size, entry_of_size, packed, record, unit_bytes, units};
use crate::state::{Guarded, State};
use reference::{MAX_ENTRIES, MAX_UNITS, POLICY_BYTES};
use varpolicy::{Namespace, Report, SwitchBytes};

pub(super) fn run(sweep: &mut Sweep) -> Outcome {
    two_bits(sweep)?;
    known_bits(sweep)?;
    counts(sweep)?;
    unknown_bits(sweep)?;
    at_once(sweep)?;
    places(sweep)?;
    many_targeting(sweep)?;
    ranks(sweep)?;
    without_report(sweep)?;
    damaged_record(sweep)?;
    one_after_another(sweep)?;
    orders(sweep)?;
    nearly_the_same(sweep)?;
    plain_bytes(sweep)?;
    two_long_names(sweep)
}

/// An entry of "A" that requires and prohibits these bits.
fn asking(must_have: u32, cant_have: u32) -> EntryFields {
    EntryFields { must_have, cant_have, ..entry("A") }
}

/// Sets of "A" to one byte with all attributes that can come to step 4.
fn with_known_bits() -> [Call; 8] {
    KNOWN.map(|attributes| set(NAME, attributes, vec![1]))
}

/// Each bit and every two: both required, both prohibited, and one of each.
fn two_bits(sweep: &mut Sweep) -> Outcome {
    let pairs = (0..32).flat_map(|first| (0..32).map(move |second| (1 << first, 1 << second)));
    for (first, second) in pairs {
        let alike = [asking(first | second, 0), asking(0, first | second)].into_iter().filter(|_| first <= second);
        let mixed = Some(asking(first, second)).filter(|_| first != second);
        for fields in alike.chain(mixed) {
            sweep.each(&engine(&[fields.pack()]), with_known_bits())?;
        }
    }
    Ok(())
}

/// All words whose bits are among these.
fn words_of(bits: u32) -> Vec<u32> {
    (0..=bits).filter(|word| word & !bits == 0).collect()
}

/// Each of the four known bits required, prohibited or neither, and given or not; by itself and beside other bits, a
/// size that is not allowed, and a lock; deletions too.
fn known_bits(sweep: &mut Sweep) -> Outcome {
    let calls = words_of(0x47).into_iter().flat_map(|bits| [0, 1].map(|length| set(NAME, bits, vec![1; length])));
    let calls: Vec<Call> = calls.collect();
    for must_have in words_of(0x47) {
        for cant_have in words_of(0x47 & !must_have) {
            let plain = asking(must_have, cant_have);
            let beside = asking(must_have | 0x10_0080, cant_have | 0x8000_0008);
            let sized = EntryFields { max_size: 0, ..plain.clone() };
            let locked = EntryFields { lock_type: 1, ..plain.clone() };
            for fields in [plain, beside, sized, locked] {
                sweep.each(&engine(&[fields.pack()]), calls.iter().cloned())?;
            }
        }
    }
    Ok(())
}

/// Every number of missing bits, from the lowest up and from the highest down, with each of the given bits prohibited
/// or not.
fn counts(sweep: &mut Sweep) -> Outcome {
    for attributes in KNOWN {
        let lacking: Vec<u32> = (0..32).map(|bit| 1 << bit).filter(|bit| attributes & bit == 0).collect();
        for cant_have in words_of(attributes) {
            for count in 0..=lacking.len() {
                let (lowest, highest) = (&lacking[..count], &lacking[lacking.len() - count..]);
                for missing in [lowest, highest] {
                    let fields = asking(missing.iter().sum::<u32>() | attributes & !cant_have, cant_have);
                    sweep.each(&engine(&[fields.pack()]), [set(NAME, attributes, vec![1])])?;
                }
            }
        }
    }
    Ok(())
}

/// Each bit in a request, under entries that require it, prohibit it or ask for the others: those outside 0x47 do not
/// come to step 4.
fn unknown_bits(sweep: &mut Sweep) -> Outcome {
    for bit in (0..32).map(|bit| 1 << bit) {
        for fields in [asking(bit, 0), asking(0, bit), asking(!bit, bit), asking(bit, !bit)] {
            let calls = [0, 2, 3, 0x42].into_iter().flat_map(|others| [0, 1].map(|length| (bit | others, length)));
            sweep.each(&engine(&[fields.pack()]), calls.map(|(bits, length)| set(NAME, bits, vec![1; length])))?;
        }
    }
    Ok(())
}

/// Entries of each type that lock "A" or not: the fourth by "A" itself, and by a variable that is not there.
fn locks(fields: &EntryFields) -> Vec<EntryFields> {
    let plain = (0..3).map(|lock_type| EntryFields { lock_type, ..fields.clone() });
    let triggers = ["A", "T"].map(|name| fields.clone().with_trigger(G, &units(name), 1));
    plain.chain(triggers).collect()
}

/// Stores with "A" of one byte in the one that its attributes say, or in none.
fn with_variable(attributes: u32) -> [Vec<u8>; 2] {
    [3, 2].map(|kind| {
        let there = attributes & 3 == kind;
        store(128, &[record(&G, NAME, attributes, &[1])][..usize::from(there)])
    })
}

/// Sizes, attributes and locks that are allowed or not, in all combinations, over sets, appends and deletions.
fn at_once(sweep: &mut Sweep) -> Outcome {
    let bits = [0, 1, 2, 3, 7, 0x42, 0x43, 0x47];
    let calls = || bits.into_iter().flat_map(|bits| [0, 1, 2, 4].map(|length| set(NAME, bits, vec![1; length])));
    for (min_size, max_size) in [(0, u32::MAX), (3, u32::MAX), (0, 1), (2, 3)] {
        for (must_have, cant_have) in [(0, 0), (4, 0), (0, 1), (0x45, 2), (1, 0x44)] {
            for fields in locks(&EntryFields { min_size, max_size, ..asking(must_have, cant_have) }) {
                for attributes in [0, 2, 3, 7] {
                    let [nv, volatile] = with_variable(attributes);
                    sweep.each(&state(&nv, &volatile, &[fields.pack()]), calls())?;
                }
            }
        }
    }
    Ok(())
}

/// Entries that refuse a set of NV and BS to one byte for its size, for its attributes, and by a lock.
fn refusing(name: &[u16]) -> [EntryFields; 3] {
    let open = EntryFields::new(G, name);
    [
        EntryFields { min_size: 5000, max_size: 5000, ..open.clone() },
        EntryFields { must_have: 0x8000_0004, cant_have: 2, ..open.clone() },
        EntryFields { lock_type: 1, ..open },
    ]
}

/// A set and a deletion.
fn set_and_delete(name: &[u16]) -> [Call; 2] {
    [set(name, 3, vec![1]), delete(name)]
}

/// An entry at each place of a record of the most entries, of one with entries of several lengths, and of one of the
/// longest.
fn places(sweep: &mut Sweep) -> Outcome {
    let mixed = (0..MAX_ENTRIES - 1).map(|number| entry_of_size([44, 48, 130, 174, 200][number % 5], number));
    let longest = entries_of_size(LONGEST, POLICY_BYTES / LONGEST);
    for others in [entries_of_size(44, MAX_ENTRIES - 1), mixed.collect(), longest] {
        for place in 0..=others.len() {
            for fields in refusing(NAME) {
                let mut entries = others.clone();
                entries.insert(place, fields.pack());
                sweep.each(&engine(&entries), set_and_delete(NAME))?;
            }
        }
    }
    Ok(())
}

/// The name with '#' at the places of the bits that are set in a number.
fn pattern(name: &[u16], signs: usize) -> Vec<u16> {
    let unit = |(place, unit): (usize, &u16)| if signs >> place & 1 == 1 { 0x23 } else { *unit };
    name.iter().enumerate().map(unit).collect()
}

/// Records of 128 entries that all target one variable, turned so that the one of lowest rank stands at each place; and
/// records of those of some rank and over, by themselves and with the whole namespace before, among or behind them.
fn many_targeting(sweep: &mut Sweep) -> Outcome {
    let name = units("0123456");
    let numbers = || (0..128_usize).rev();
    let of = |numbers: &[usize], ground: usize| -> Vec<Vec<u8>> {
        numbers.iter().map(|signs| refusing(&pattern(&name, *signs))[ground].pack()).collect()
    };
    for ground in 0..3 {
        for place in 0..128 {
            let mut all: Vec<usize> = numbers().collect();
            all.rotate_left(127 - place);
            sweep.each(&engine(&of(&all, ground)), set_and_delete(&name))?;
        }
        for rank in 0..=7 {
            let mut entries = of(&numbers().filter(|signs| signs.count_ones() >= rank).collect::<Vec<_>>(), ground);
            sweep.each(&engine(&entries), set_and_delete(&name))?;
            let whole = refusing(&[])[ground].pack();
            entries.truncate(127);
            for place in [0, entries.len() / 2, entries.len()] {
                let mut with_whole = entries.clone();
                with_whole.insert(place, whole.clone());
                sweep.each(&engine(&with_whole), set_and_delete(&name))?;
            }
        }
    }
    Ok(())
}

/// A namespace that would be '#' throughout, if it were a name.
const SIGNS: Namespace = [0x23, 0, 0x23, 0, 0x23, 0, 0x23, 0, 0x23, 0, 0x23, 0, 0x23, 0, 0x23, 0];

/// Entries of every rank, with '#' at the beginning, at the end, and everywhere in shorter names; and of the whole
/// namespace, for names of every length. Those with a trigger have the bytes of '#' before their own names too.
fn ranks(sweep: &mut Sweep) -> Outcome {
    let nv = store(128, &[record(&SIGNS, &units("T"), 3, &[0x23])]);
    for signs in 0..=MAX_UNITS {
        let digits = |count: usize| vec![0x37; count];
        let (few, many) = (vec![0x23; signs], digits(MAX_UNITS - signs));
        let of_64 = [[&few[..], &many].concat(), [&many[..], &few].concat()].map(|pattern| (pattern, MAX_UNITS));
        let shorter = [few, Vec::new()].map(|pattern| (pattern, signs)).into_iter().filter(|_| signs > 0);
        for (pattern, count) in of_64.into_iter().chain(shorter) {
            let triggered = refusing(&pattern).map(|fields| fields.with_trigger(SIGNS, &units("T"), 0x23));
            for fields in refusing(&pattern).into_iter().chain(triggered) {
                let calls = set_and_delete(&digits(count));
                sweep.each(&state(&nv, ERASED, &[fields.pack()]), calls.clone())?;
                sweep.each(&state(&nv, ERASED, &[entry("B").pack(), fields.pack()]), calls)?;
            }
        }
    }
    Ok(())
}

/// No entry, one that allows everything, one for each ground, and one for all; by name and for the whole namespace.
fn speaking_or_not() -> Vec<Vec<Vec<u8>>> {
    let mut lists = vec![Vec::new()];
    for name in [NAME, &[]] {
        let [size, attributes, lock] = refusing(name);
        let all = EntryFields { lock_type: 1, must_have: attributes.must_have, ..size.clone() };
        let open = EntryFields::new(G, name);
        lists.extend([open, size, attributes, lock, all].map(|fields| vec![entry("B").pack(), fields.pack()]));
    }
    lists
}

/// Stores that are not sound, and sound ones in which "A" is absent or not, with room for more or not.
fn stores() -> Vec<[Vec<u8>; 2]> {
    let erased = |length: usize| vec![0xFF; length];
    let holding = |length: usize| record(&G, NAME, 3, &vec![1; length]);
    vec![
        [vec![0; 40], erased(100)],
        [erased(1200), erased(1200)],
        [Vec::new(), Vec::new()],
        [store(2200, &[holding(1)]), erased(1200)],
        [store(2200, &[holding(1020)]), erased(100)],
        [full(&[holding(1)]), Vec::new()],
    ]
}

/// Sets that end at each of the other steps, or are lent something unsound: on an enabled engine and on a disabled one,
/// whatever the chosen entry says or would say.
fn without_report(sweep: &mut Sweep) -> Outcome {
    for entries in speaking_or_not() {
        for [nv, volatile] in stores() {
            for enabled in [1, 0] {
                let switches = SwitchBytes { enabled, ..OPEN };
                let state = State { switches, ..state(&nv, &volatile, &entries) };
                sweep.each(&state, requests())?;
            }
        }
    }
    Ok(())
}

/// A policy record that is not valid, with entries that would refuse the set.
fn damaged_record(sweep: &mut Sweep) -> Outcome {
    for entries in speaking_or_not() {
        let mut damaged = packed(&entries);
        damaged[POLICY_BYTES - 1] = 1;
        for enabled in [1, 0] {
            let state = State {
                policy: Guarded::new(&damaged, 3),
                switches: SwitchBytes { enabled, ..OPEN },
                ..state(ERASED, ERASED, &[])
            };
            sweep.each(&state, requests())?;
        }
    }
    Ok(())
}

/// Every call with every other behind it and itself again: a report says nothing about the set before it.
fn one_after_another(sweep: &mut Sweep) -> Outcome {
    let names = ["S", "M", "L"];
    let refused = names.iter().zip(0..).map(|(name, ground)| refusing(&units(name))[ground].pack());
    let entries: Vec<Vec<u8>> = [entry("O").pack()].into_iter().chain(refused).collect();
    let sets = names.map(|name| set(&units(name), 3, vec![1]));
    let others = [
        set(&units("O"), 3, vec![1]),
        set(&units("N"), 2, vec![1]),
        delete(&units("O")),
        delete(&units("L")),
        set(&units("S"), 8, vec![1]),
        set(&units("M"), 4, vec![1]),
        set(&[], 3, vec![1]),
        set(&units("M"), 0x43, vec![1]),
        register(entry("L").pack()),
        Call::Query,
        Call::Disable,
    ];
    let calls: Vec<Call> = sets.into_iter().chain(others).collect();
    for first in &calls {
        for second in &calls {
            sweep.history(engine(&entries), [first, second, first].map(Call::clone))?;
        }
    }
    Ok(())
}

/// All orders of so many things.
fn permutations(count: usize) -> Vec<Vec<usize>> {
    let Some(last) = count.checked_sub(1) else {
        return vec![Vec::new()];
    };
    let with_last =
        |order: Vec<usize>| (0..=last).map(move |place| [&order[..place], &[last], &order[place..]].concat());
    permutations(last).into_iter().flat_map(with_last).collect()
}

/// An engine that is restarted and given its entries in every order. No two of equal rank target one variable, so that
/// a report differs in its place alone.
fn orders(sweep: &mut Sweep) -> Outcome {
    let names = ["A0", "A#", "", "B", "C##"];
    let entries = names.iter().zip(0..).map(|(name, number)| refusing(&units(name))[number % 3].pack());
    let entries: Vec<Vec<u8>> = entries.collect();
    let mut sides = Sides::new(engine(&entries));
    let before = reports_in(sweep, &mut sides, &[0, 1, 2, 3, 4])?;
    for order in permutations(entries.len()) {
        sweep.comparison.exchange(&mut sides, &Call::Restart { disabling_allowed: 1 })?;
        for number in &order {
            sweep.comparison.exchange(&mut sides, &register(entries[*number].clone()))?;
        }
        let reports = reports_in(sweep, &mut sides, &order)?;
        check(reports == before, "another order has changed more of a report than its place")?;
    }
    Ok(())
}

/// The reports of sets under entries in this order, with 0 for the place, which is that of the entry expected.
fn reports_in(sweep: &mut Sweep, sides: &mut Sides, order: &[usize]) -> Result<Vec<Report>, String> {
    let asked = [("A0", 0), ("A1", 1), ("D", 2), ("A#", 2), ("B", 3), ("C00", 4)];
    let report = |(name, number)| {
        let answer = sweep.comparison.exchange(sides, &set(&units(name), 3, vec![1]))?;
        let Values::Written(report) = answer.values else {
            return Err("a set has no report".to_string());
        };
        check(order.get(report.place as usize) == Some(&number), "a report points to another entry")?;
        Ok(Report { place: 0, ..report })
    };
    asked.into_iter().map(report).collect()
}

/// A letter, half of a pair of units, and two units that have the bytes of '#' between them.
const NEARLY: [u16; 4] = [0x41, 0xD800, 0x2341, 0x4100];

/// Each entry that differs from another in one bit of its namespace or of its name, before the other and behind it, with
/// another ground.
fn nearly_the_same(sweep: &mut Sweep) -> Outcome {
    let namespaces = (0..128).map(|bit| (u128::from_le_bytes(G) ^ 1 << bit).to_le_bytes());
    let names = (0..16 * NEARLY.len()).map(|bit| {
        let mut name = NEARLY;
        name[bit / 16] ^= 1 << (bit % 16);
        name
    });
    let near = namespaces.map(|namespace| (namespace, NEARLY)).chain(names.map(|name| (G, name)));
    for (namespace, name) in near {
        for (ground, fields) in refusing(&NEARLY).into_iter().enumerate() {
            let other = EntryFields { namespace, ..refusing(&name)[(ground + 1) % 3].clone() };
            for entries in [[&other, &fields], [&fields, &other]] {
                sweep.each(&engine(&entries.map(|fields| fields.pack())), set_and_delete(&NEARLY))?;
            }
        }
    }
    Ok(())
}

/// Entries with reserved bytes that are not zero, and of namespaces of one byte throughout.
fn plain_bytes(sweep: &mut Sweep) -> Outcome {
    for namespace in [[0; 16], [0x23; 16], [0xFF; 16]] {
        let call = |attributes, payload| Call::Set { namespace, name: unit_bytes(NAME), attributes, payload };
        let calls = [call(3, vec![1]), call(0, Vec::new())];
        for fields in refusing(NAME) {
            for reserved in [[0; 3], [1, 0, 0], [0, 2, 0], [0, 0, 3], [0xFF; 3]] {
                let fields = EntryFields { namespace, reserved, ..fields.clone() };
                sweep.each(&engine(&[entry("A").pack(), fields.pack()]), calls.clone())?;
            }
        }
    }
    Ok(())
}

/// Entries of the greatest length, with a trigger of 64 units, and every number of '#' at the end of their own name.
fn two_long_names(sweep: &mut Sweep) -> Outcome {
    let trigger = [0x54; MAX_UNITS];
    let nv = store(256, &[record(&G, &trigger, 3, &[1])]);
    for signs in 0..=MAX_UNITS {
        let name = [vec![0x37; MAX_UNITS - signs], vec![0x23; signs]].concat();
        for fields in refusing(&name).map(|fields| fields.with_trigger(G, &trigger, 1)) {
            sweep.each(&state(&nv, ERASED, &[fields.pack()]), set_and_delete(&[0x37; MAX_UNITS]))?;
        }
    }
    Ok(())
}
