//! What is a dump and what is not (docs/RULES.md, 10.11), with entries that quarrel and without: bytes cut, changed and
//! added, malformed entries and repeats at each place, the limits, and policy records as they stand.

use super::{Outcome, Sweep, entry, one_of_each_type, packed_names, with_each_bit_changed};
use crate::FORMER_POLICY_BYTES;
use crate::make::{EntryFields, G, LONGEST, SHARE, entries_of_size, entries_of_sum, numbered, packed, units};
use crate::quarrels::OLD_NAME;
use reference::{MAX_ENTRIES, POLICY_BYTES};

pub(super) fn run(sweep: &mut Sweep) -> Outcome {
    ends(sweep)?;
    bits(sweep)?;
    malformed(sweep)?;
    bad_names(sweep)?;
    repeats(sweep)?;
    counts(sweep)?;
    sums(sweep)?;
    records(sweep)
}

/// Two entries that quarrel.
fn pair() -> [Vec<u8>; 2] {
    [entry("A#").pack(), entry("#0").with_trigger(G, &units("T"), 1).pack()]
}

/// Nothing, one entry, one of each type, a pair, and a pair with others before, between and behind.
pub(super) fn lists() -> Vec<Vec<Vec<u8>>> {
    let [one, other] = pair();
    let [a, b, c, d] = one_of_each_type();
    vec![
        Vec::new(),
        vec![c.clone()],
        vec![d.clone()],
        vec![a.clone(), b.clone(), c.clone(), d.clone()],
        pair().to_vec(),
        vec![a, one, b, other, c, d],
    ]
}

fn ask(sweep: &mut Sweep, dump: &[u8]) -> Outcome {
    sweep.comparison.quarrels(dump, &OLD_NAME).map(|_| ())
}

/// Dumps cut at each byte, at the front too, and with zeros and other bytes behind.
fn ends(sweep: &mut Sweep) -> Outcome {
    for dump in lists().iter().map(|list| list.concat()) {
        for len in 0..dump.len() {
            ask(sweep, &dump[..len])?;
            ask(sweep, &dump[len..])?;
        }
        for count in 0..=2 * LONGEST {
            ask(sweep, &[&dump[..], &vec![0; count]].concat())?;
        }
        for byte in 1..=u8::MAX {
            ask(sweep, &[&dump[..], &[byte]].concat())?;
            ask(sweep, &[&dump[..], &[byte; 44]].concat())?;
        }
    }
    Ok(())
}

/// Each bit of a dump changed.
fn bits(sweep: &mut Sweep) -> Outcome {
    for list in lists() {
        with_each_bit_changed(&list.concat()).try_for_each(|dump| ask(sweep, &dump))?;
    }
    Ok(())
}

/// An entry at each place of a pair and of others.
fn at_each_place(sweep: &mut Sweep, entry: &[u8]) -> Outcome {
    let [a, ..] = one_of_each_type();
    for list in [Vec::new(), vec![a], pair().to_vec()] {
        for place in 0..=list.len() {
            let mut entries = list.clone();
            entries.insert(place, entry.to_vec());
            sweep.quarrels(&entries)?;
        }
    }
    Ok(())
}

/// Entries with each field wrong, and with '#' at each place of a trigger's name; among them some that are good.
pub(super) fn bad_entries() -> Vec<Vec<u8>> {
    let good = [entry("Q"), entry("B#"), entry(""), entry("D").with_trigger(G, &units("T3"), 7)];
    let mut wrong: Vec<EntryFields> = Vec::new();
    for fields in good {
        wrong.extend([
            EntryFields { version: 0x0001_0001, ..fields.clone() },
            EntryFields { version: 0, ..fields.clone() },
            EntryFields { min_size: 1, max_size: 0, ..fields.clone() },
            EntryFields { must_have: 5, cant_have: 4, ..fields.clone() },
        ]);
        for off_by in [-44, -4, -2, -1, 1, 2, 4, 18, 44] {
            wrong.push(EntryFields { size_off_by: off_by, ..fields.clone() });
            wrong.push(EntryFields { offset_off_by: off_by, ..fields.clone() });
        }
        wrong.extend((0..=u8::MAX).map(|lock_type| EntryFields { lock_type, ..fields.clone() }));
    }
    for count in [1, 2, 3, 64] {
        for place in 0..count {
            let mut trigger = vec![0x54; count];
            trigger[place] = 0x23;
            wrong.push(entry("D").with_trigger(G, &trigger, 7));
        }
    }
    wrong.iter().map(EntryFields::pack).collect()
}

/// Those entries at each place.
fn malformed(sweep: &mut Sweep) -> Outcome {
    bad_entries().iter().try_for_each(|entry| at_each_place(sweep, entry))
}

/// Good and bad names of an entry and of its trigger.
fn bad_names(sweep: &mut Sweep) -> Outcome {
    for name in packed_names() {
        let plain = EntryFields { name: name.clone(), ..entry("") };
        let mut triggered = entry("Q").with_trigger(G, &units("T"), 0);
        triggered.trigger.truncate(18);
        triggered.trigger.extend(&name);
        for fields in [plain, triggered] {
            let [one, other] = pair();
            sweep.quarrels(&[fields.pack()])?;
            sweep.quarrels(&[one.clone(), fields.pack(), other.clone()])?;
            sweep.quarrels(&[one, other, fields.pack()])?;
        }
    }
    Ok(())
}

/// Each entry of a list repeated at each place, as it is and with other fields.
pub(super) fn repeated_lists() -> Vec<Vec<Vec<u8>>> {
    let mut lists = Vec::new();
    let names = ["Q", "A#", "", "#0", "0", "#"];
    let entries = names.map(|name| entry(name).pack()).to_vec();
    for list in [&entries[..], &entries[2..], &entries[4..]] {
        for name in names {
            let again = EntryFields { max_size: 9, must_have: 1, reserved: [1, 2, 3], ..entry(name) };
            let locked = EntryFields { lock_type: 2, ..again.clone() };
            let triggered = again.clone().with_trigger(numbered(3), &units("T"), 1);
            for repeat in [entry(name), again, locked, triggered] {
                for place in 0..=list.len() {
                    let mut entries = list.to_vec();
                    entries.insert(place, repeat.pack());
                    lists.push(entries);
                }
            }
        }
    }
    for place in 1..MAX_ENTRIES {
        for repeated in [0, place - 1] {
            let mut entries = entries_of_size(44, MAX_ENTRIES);
            entries[place] = entries[repeated].clone();
            lists.push(entries);
        }
    }
    lists
}

/// Those lists.
fn repeats(sweep: &mut Sweep) -> Outcome {
    repeated_lists().iter().try_for_each(|entries| sweep.quarrels(entries).map(|_| ()))
}

/// The list as it is, and with two entries that quarrel for the first two and for the last two.
fn with_pair(sweep: &mut Sweep, entries: &[Vec<u8>]) -> Outcome {
    sweep.quarrels(entries)?;
    for place in [0, entries.len().saturating_sub(2)] {
        let mut entries = entries.to_vec();
        if let Some(two) = entries.get_mut(place..place + 2) {
            two.clone_from_slice(&[entry("A#").pack(), entry("#0").pack()]);
        }
        sweep.quarrels(&entries)?;
    }
    Ok(())
}

/// Every number of entries around the limit, and some that are far over it.
fn counts(sweep: &mut Sweep) -> Outcome {
    for count in (0..=MAX_ENTRIES + 3).chain([192, 255, 256, 257, 258, 300, 384, 512, 640]) {
        with_pair(sweep, &entries_of_size(44, count))?;
    }
    for size in [SHARE - 2, SHARE, SHARE + 2] {
        for count in MAX_ENTRIES - 3..=MAX_ENTRIES + 1 {
            with_pair(sweep, &entries_of_size(size, count))?;
        }
    }
    Ok(())
}

/// Sums around the limit, by themselves and with two entries that quarrel, which are before the others or behind.
fn sums(sweep: &mut Sweep) -> Outcome {
    let two = [entry("A#").pack(), entry("#0").pack()];
    let taken = two.concat().len();
    for sum in (POLICY_BYTES - 6..=POLICY_BYTES + 6).step_by(2).chain([2 * POLICY_BYTES]) {
        sweep.quarrels(&entries_of_sum(sum))?;
        let others = entries_of_sum(sum - taken);
        sweep.quarrels(&[&two[..], &others].concat())?;
        sweep.quarrels(&[&others[..], &two].concat())?;
    }
    for sum in [3 << 14, (1 << 16) - 2, 1 << 16, (1 << 16) + 50, (1 << 16) + POLICY_BYTES] {
        sweep.quarrels(&entries_of_sum(sum))?;
    }
    for count in POLICY_BYTES / LONGEST..=MAX_ENTRIES {
        sweep.quarrels(&entries_of_size(LONGEST, count))?;
    }
    Ok(())
}

/// Policy records as they stand, with free room and without, whole and in part.
fn records(sweep: &mut Sweep) -> Outcome {
    let mut all = lists();
    all.extend([entries_of_size(44, MAX_ENTRIES), entries_of_size(SHARE - 2, MAX_ENTRIES)]);
    all.extend([entries_of_size(SHARE, MAX_ENTRIES), entries_of_sum(POLICY_BYTES), entries_of_sum(POLICY_BYTES - 44)]);
    for entries in all {
        let record = packed(&entries);
        let used = entries.concat().len();
        for len in [used, FORMER_POLICY_BYTES, POLICY_BYTES - 44, POLICY_BYTES - 1, POLICY_BYTES] {
            ask(sweep, &record[..len])?;
        }
        ask(sweep, &[&record[..], &[0]].concat())?;
        ask(sweep, &[&record[..], &record].concat())?;
        ask(sweep, &[&[0; 4][..], &record[..used]].concat())?;
    }
    Ok(())
}
