//! Quarrels of dumps (docs/RULES.md, 10.11): all pairs of short patterns and all short lists, held against names that
//! are tried one by one; every unit and every place; namespaces, locks, and every place of a long dump.

use super::{Outcome, Sweep, with_each_bit_changed};
use crate::comparison::check;
use crate::make::{EntryFields, G, SHARE, entries_of_size, numbered, unit_bytes, units};
use crate::quarrels::{Asked, OLD_NAME};
use reference::{MAX_ENTRIES, MAX_UNITS};
use varpolicy::{Namespace, Status};

pub(super) fn run(sweep: &mut Sweep) -> Outcome {
    short_patterns(sweep)?;
    short_lists(sweep)?;
    units_under_sign(sweep)?;
    units_at_borders(sweep)?;
    lengths_and_signs(sweep)?;
    places_in_names(sweep)?;
    bits_of_units(sweep)?;
    namespaces(sweep)?;
    lengths_apart(sweep)?;
    locks(sweep)?;
    places_in_dumps(sweep)?;
    long_lists(sweep)
}

const SIGN: u16 = 0x23;

/// All names of so many of these units, the smallest first if the units rise.
fn words(units: &[u16], count: usize) -> Vec<Vec<u16>> {
    (0..count).fold(vec![Vec::new()], |shorter, _| {
        let longer = |name: Vec<u16>| units.iter().map(move |unit| [&name[..], &[*unit]].concat()).collect::<Vec<_>>();
        shorter.into_iter().flat_map(longer).collect()
    })
}

/// All names of one to three units of '#', 0, 1, 9, A, F, G, a and f, those of equally many units by size.
fn names() -> Vec<Vec<u16>> {
    let units = units("#019AFGaf");
    (1..=3).flat_map(|count| words(&units, count)).collect()
}

/// A pattern in a namespace, and the places of the names that it matches.
struct Tried {
    namespace: Namespace,
    pattern: Vec<u16>,
    matched: Vec<usize>,
}

impl Tried {
    /// Tries each name.
    fn new(namespace: Namespace, pattern: Vec<u16>, names: &[Vec<u16>]) -> Tried {
        let digits = units("0123456789ABCDEFabcdef");
        let fits = |(wanted, unit): (&u16, &u16)| if *wanted == SIGN { digits.contains(unit) } else { wanted == unit };
        let matches = |name: &Vec<u16>| pattern.len() == name.len() && pattern.iter().zip(name).all(fits);
        let matched = (0..names.len()).filter(|place| matches(&names[*place])).collect();
        Tried { namespace, pattern, matched }
    }

    fn signs(&self) -> usize {
        self.pattern.iter().filter(|unit| **unit == SIGN).count()
    }

    fn repeats(&self, other: &Tried) -> bool {
        self.namespace == other.namespace && self.pattern == other.pattern
    }

    /// The place of the smallest name that both match, if they quarrel.
    fn quarrel(&self, other: &Tried) -> Option<usize> {
        let may = self.namespace == other.namespace && self.signs() == other.signs();
        self.matched.iter().copied().find(|place| may && other.matched.contains(place))
    }

    fn entry(&self) -> Vec<u8> {
        EntryFields::new(self.namespace, &self.pattern).pack()
    }
}

/// Asks for a quarrel in a dump of these, and holds the answer against what the names say.
fn ask(sweep: &mut Sweep, list: &[&Tried], names: &[Vec<u16>]) -> Outcome {
    let pairs = || (0..list.len()).flat_map(|earlier| (earlier + 1..list.len()).map(move |later| (earlier, later)));
    let repeat = pairs().any(|(earlier, later)| list[earlier].repeats(list[later]));
    let quarrels = pairs().filter_map(|(earlier, later)| Some(((earlier, later), list[earlier].quarrel(list[later])?)));
    let expected = match (repeat, quarrels.min()) {
        (true, _) => Asked::without_pair(Status::InvalidParameter, &OLD_NAME),
        (false, None) => Asked::without_pair(Status::Success, &OLD_NAME),
        (false, Some((pair, name))) => Asked::with_pair(pair, &unit_bytes(&names[name]), &OLD_NAME),
    };
    let entries: Vec<Vec<u8>> = list.iter().map(|tried| tried.entry()).collect();
    let asked = sweep.quarrels(&entries)?;
    check(asked == expected, format_args!("of names tried one by one, {asked:?} is not {expected:?}"))
}

/// A namespace that is not G.
fn other_namespace() -> Namespace {
    numbered(1)
}

/// All pairs of no units, or one to three of '#', 0, A and G, in one namespace and in two.
fn short_patterns(sweep: &mut Sweep) -> Outcome {
    let names = names();
    let patterns = || (0..=3).flat_map(|count| words(&units("#0AG"), count));
    let tried = |namespace: Namespace| -> Vec<Tried> {
        patterns().map(|pattern| Tried::new(namespace, pattern, &names)).collect()
    };
    let (here, there) = (tried(G), tried(other_namespace()));
    for one in &here {
        for other in here.iter().chain(&there) {
            ask(sweep, &[one, other], &names)?;
        }
    }
    Ok(())
}

/// All lists of up to so many of these, repeats among them.
fn lists_of<T>(pool: &[T], most: usize) -> Vec<Vec<&T>> {
    let mut lists = vec![Vec::new()];
    let mut shorter = 0;
    for _ in 0..most {
        let last = lists.len();
        for list in shorter..last {
            let longer: Vec<Vec<&T>> = pool.iter().map(|item| [&lists[list][..], &[item]].concat()).collect();
            lists.extend(longer);
        }
        shorter = last;
    }
    lists
}

/// All lists of up to four entries: of one length, of which many quarrel; and of several lengths, ranks and namespaces.
fn short_lists(sweep: &mut Sweep) -> Outcome {
    let names = names();
    let tried = |namespace: Namespace, pattern: &str| Tried::new(namespace, units(pattern), &names);
    let one_length = ["#0", "0#", "#A", "A#", "##", "G#", ""].map(|pattern| tried(G, pattern));
    let several = ["#0", "0#", "#00", "0#0", "##0", "#0#", "0"].map(|pattern| tried(G, pattern));
    let elsewhere = ["#0", "0#"].map(|pattern| tried(other_namespace(), pattern));
    let several: Vec<Tried> = several.into_iter().chain(elsewhere).collect();
    for pool in [&one_length[..], &several] {
        lists_of(pool, 4).iter().try_for_each(|list| ask(sweep, list, &names))?;
    }
    Ok(())
}

/// An entry of G with this name, packed.
fn named(name: &[u16]) -> Vec<u8> {
    EntryFields::new(G, name).pack()
}

/// Asks for quarrels of two names, either of them first.
fn both_orders(sweep: &mut Sweep, one: &[u16], other: &[u16]) -> Outcome {
    sweep.quarrels(&[named(one), named(other)])?;
    sweep.quarrels(&[named(other), named(one)]).map(|_| ())
}

/// Every unit under the '#' of the earlier entry.
fn units_under_sign(sweep: &mut Sweep) -> Outcome {
    (1..=u16::MAX).try_for_each(|unit| {
        let entries = [named(&[SIGN, 0x30]), named(&[unit, SIGN])];
        sweep.quarrels(&entries).map(|_| ())
    })
}

/// The units below 0x80, and others of which a byte is '#', a hex digit or next to one.
fn border_units() -> Vec<u16> {
    let bytes = [0x22, 0x23, 0x24, 0x2F, 0x30, 0x39, 0x3A, 0x40, 0x41, 0x46, 0x47, 0x60, 0x61, 0x66, 0x67];
    let wide = |byte: u16| [byte << 8, 0x0100 | byte, 0xFF00 | byte, 0x2300 | byte, byte << 8 | 0x23, byte << 8 | 0x30];
    let mut units: Vec<u16> = (1..0x80).chain(bytes.into_iter().flat_map(wide)).chain([0xA3, 0xB0, 0xFFFF]).collect();
    units.sort_unstable();
    units.dedup();
    units
}

/// These units under '#', over '#', over themselves and over a unit with another high byte, first and last in the name;
/// and as the only unit of a name.
fn units_at_borders(sweep: &mut Sweep) -> Outcome {
    for unit in border_units() {
        both_orders(sweep, &[SIGN], &[unit])?;
        both_orders(sweep, &[SIGN, 0x30], &[unit, SIGN])?;
        both_orders(sweep, &[0x66, SIGN], &[SIGN, unit])?;
        both_orders(sweep, &[unit, SIGN, 0x30], &[unit, 0x41, SIGN])?;
        both_orders(sweep, &[SIGN, 0x30, unit], &[0x66, SIGN, unit])?;
        for high in [0x0100, 0x2300, 0x3000, 0xFF00] {
            both_orders(sweep, &[unit, SIGN, 0x30], &[unit ^ high, 0x41, SIGN])?;
            both_orders(sweep, &[SIGN, 0x30, unit], &[0x66, SIGN, unit ^ high])?;
        }
    }
    Ok(())
}

/// Names of every length with every number of '#': at the beginning and at the end, and but for one place everywhere.
fn lengths_and_signs(sweep: &mut Sweep) -> Outcome {
    for length in 1..=MAX_UNITS {
        for signs in 0..=length {
            let (some, others) = (vec![SIGN; signs], vec![0x37; length - signs]);
            both_orders(sweep, &[&some[..], &others].concat(), &[&others[..], &some].concat())?;
            let letters = vec![0x58; length - signs];
            both_orders(sweep, &[&some[..], &letters].concat(), &[&letters[..], &some].concat())?;
        }
    }
    Ok(())
}

/// At each place of names of every length: '#' and '#', '#' and a digit, '#' and no digit, one unit, and two; where the
/// names have so many units, they quarrel in all others.
fn places_in_names(sweep: &mut Sweep) -> Outcome {
    let here = [(SIGN, SIGN), (SIGN, 0x61), (SIGN, 0x47), (0x58, 0x58), (0x58, 0x59), (0x30, 0x31)];
    for length in 1..=MAX_UNITS {
        for place in 0..length {
            for (unit, other) in here {
                let (mut one, mut two) = (vec![0x58; length], vec![0x58; length]);
                let next = [1, 2].map(|away| (place + away) % length);
                (one[next[1]], two[next[1]]) = (SIGN, 0x39);
                (one[next[0]], two[next[0]]) = (0x41, SIGN);
                (one[place], two[place]) = (unit, other);
                if length > 2 && (unit == SIGN) != (other == SIGN) {
                    one[next[1]] = 0x39;
                }
                both_orders(sweep, &one, &two)?;
            }
        }
    }
    Ok(())
}

/// Units that differ in each one bit, at the first place, at the last and as the only ones.
fn bits_of_units(sweep: &mut Sweep) -> Outcome {
    for unit in units("X0#") {
        for bit in 0..16 {
            let other = unit ^ (1 << bit);
            both_orders(sweep, &[unit], &[other])?;
            both_orders(sweep, &[unit, SIGN, 0x30], &[other, 0x30, SIGN])?;
            both_orders(sweep, &[SIGN, 0x30, unit], &[0x30, SIGN, other])?;
        }
    }
    Ok(())
}

/// Names that quarrel, and none, in namespaces that differ in each one bit; and with '#' and digits in the namespaces.
fn namespaces(sweep: &mut Sweep) -> Outcome {
    for namespace in with_each_bit_changed(&G) {
        let namespace: Namespace = namespace.try_into().expect("16 bytes");
        for [one, other] in [["#0", "0#"], ["A#", "A#"], ["", ""], ["", "#"], ["A", "A"]] {
            let there = EntryFields::new(namespace, &units(other)).pack();
            sweep.quarrels(&[named(&units(one)), there.clone()])?;
            sweep.quarrels(&[there, named(&units(one))])?;
        }
    }
    let signs = unit_bytes(&[SIGN; 8]).try_into().expect("16 bytes");
    let digits = unit_bytes(&[0x30; 8]).try_into().expect("16 bytes");
    for [one, other] in [[signs, signs], [signs, digits], [digits, signs], [digits, digits]] {
        let entries = [EntryFields::new(one, &units("#0")), EntryFields::new(other, &units("0#"))];
        sweep.quarrels(&entries.map(|fields| fields.pack()))?;
    }
    Ok(())
}

/// Names that quarrel in all units but those that one has more, at its beginning or at its end.
fn lengths_apart(sweep: &mut Sweep) -> Outcome {
    for length in 1..MAX_UNITS {
        let [one, other] = [[0x30, SIGN], [SIGN, 0x30]].map(|two| two.repeat(length.div_ceil(2))[..length].to_vec());
        for more in [[0x58], [0x30], [SIGN]] {
            both_orders(sweep, &one, &[&other[..], &more].concat())?;
            both_orders(sweep, &one, &[&more[..], &other].concat())?;
            both_orders(sweep, &one, &[&one[..], &more].concat())?;
        }
    }
    Ok(())
}

/// The fields with each lock. Of those with triggers the third and the fourth have names that would quarrel, if they
/// were patterns or other entries' names.
fn with_locks(fields: &EntryFields) -> Vec<EntryFields> {
    let plain = (0..3).map(|lock_type| EntryFields { lock_type, reserved: [0x23, 0, 0x23], ..fields.clone() });
    let triggers = [(G, "T"), (other_namespace(), "T"), (G, "A0"), (G, "0A"), (G, "Long name of a trigger")];
    let triggered = triggers.map(|(namespace, name)| fields.clone().with_trigger(namespace, &units(name), 0x23));
    plain.chain(triggered).collect()
}

/// Two entries that quarrel, and two that do not, with all locks; MinSize, MaxSize and attributes play no part.
fn locks(sweep: &mut Sweep) -> Outcome {
    let asking = EntryFields { min_size: 5, max_size: 9, must_have: 1, cant_have: 4, ..EntryFields::new(G, &[]) };
    for [one, other] in [["A#", "#0"], ["A#", "B#"], ["#", "A0"], ["A#", ""], ["A#", "A#"]] {
        for one in with_locks(&EntryFields::new(G, &units(one))) {
            let name = EntryFields::new(G, &units(other)).name;
            for other in with_locks(&EntryFields { name, ..asking.clone() }) {
                sweep.quarrels(&[one.pack(), other.pack()])?;
                sweep.quarrels(&[other.pack(), named(&units("#0#")), one.pack(), named(&units("0##"))])?;
            }
        }
    }
    Ok(())
}

/// Two entries that quarrel at places of a dump of 128 others: next to each other, with the first, and with the last.
fn places_in_dumps(sweep: &mut Sweep) -> Outcome {
    let last = MAX_ENTRIES - 1;
    let next = (0..last).map(|place| (place, place + 1));
    let with_ends = (1..last).flat_map(|place| [(0, place), (place, last)]);
    for (earlier, later) in next.chain(with_ends).chain([(0, last)]) {
        let mut entries = entries_of_size(44, MAX_ENTRIES);
        entries[earlier] = named(&units("Boot#0"));
        entries[later] = named(&units("Boot0#"));
        sweep.quarrels(&entries)?;
        entries[earlier] = named(&units("Boot#G"));
        sweep.quarrels(&entries)?;
    }
    Ok(())
}

/// Dumps of 128 entries of one namespace, one length and one rank, their sum at the limit or not: none quarrels, or two
/// at these places do.
fn long_lists(sweep: &mut Sweep) -> Outcome {
    let last = MAX_ENTRIES - 1;
    for length in [3, (SHARE - 46) / 2] {
        let between = vec![0x58; length - 3];
        let entry = |number: usize, ends: [u16; 2]| named(&[&[0x0100 + number as u16], &between[..], &ends].concat());
        let entries: Vec<Vec<u8>> = (0..MAX_ENTRIES).map(|number| entry(number, [SIGN, 0x30])).collect();
        sweep.quarrels(&entries)?;
        for (earlier, later) in [(last - 1, last), (0, last), (0, 1), (63, 64)] {
            let mut entries = entries.clone();
            entries[later] = entry(earlier, [0x30, SIGN]);
            sweep.quarrels(&entries)?;
            entries.swap(earlier, later);
            sweep.quarrels(&entries)?;
        }
    }
    Ok(())
}
