//! The limits of the policy record: registrations up to them and beyond, records at them and beyond, and the former
//! limits, which are none any more.

use super::entries::{fresh, lent_record_or_start, open_or_not, over_record};
use super::{ERASED, OPEN, Outcome, Sweep, engine, entry, one_of_each_type, register, state, store};
use crate::call::{Call, Values};
use crate::comparison::{Sides, check};
use crate::make::{EntryFields, G, LONGEST, SHARE, entries_of_size, entries_of_sum, entry_of_size, is_entry_size};
use crate::make::{numbered, packed, record, unit_bytes};
use crate::state::{Guarded, State};
use crate::{FORMER_ENTRIES, FORMER_POLICY_BYTES};
use reference::{MAX_ENTRIES, POLICY_BYTES};
use varpolicy::{Status, SwitchBytes};

pub(super) fn run(sweep: &mut Sweep) -> Outcome {
    filled(sweep)?;
    nearly_full(sweep)?;
    former_limits(sweep)?;
    former_length(sweep)?;
    former_dumps(sweep)?;
    counts(sweep)?;
    records(sweep)?;
    repeats(sweep)
}

/// Engines that are filled entry by entry, to either limit and beyond; before and after each registration a variable
/// that the entry locks is asked, and all entries are dumped.
fn filled(sweep: &mut Sweep) -> Outcome {
    let trigger = store(200, &[record(&G, &[0x54; 64], 3, &[0])]);
    for size in [44, 48, SHARE - 2, SHARE, SHARE + 2, LONGEST] {
        let name = unit_bytes(&vec![0x58; (size.saturating_sub(46) / 2).clamp(1, 64)]);
        let calls = (0..=MAX_ENTRIES + 1).flat_map(|number| {
            let mut entry = entry_of_size(size, number);
            entry[40] = entry[40].max(1);
            let namespace = numbered(number);
            let ask = Call::Set { namespace, name: name.clone(), attributes: 0, payload: Vec::new() };
            let dump = Call::Dump { buffer: vec![0x5A; POLICY_BYTES] };
            [ask.clone(), register(entry), ask, dump]
        });
        sweep.history(state(&trigger, ERASED, &[]), calls)?;
    }
    Ok(())
}

/// Records that are full, or nearly, by number, by sum or by both.
fn full_records() -> [Vec<Vec<u8>>; 14] {
    let one_fewer = |last: usize| {
        let last = entry_of_size(last, MAX_ENTRIES - 2);
        entries_of_size(SHARE, MAX_ENTRIES - 2).into_iter().chain([last]).collect()
    };
    [
        entries_of_size(44, MAX_ENTRIES - 2),
        entries_of_size(44, MAX_ENTRIES - 1),
        entries_of_size(44, MAX_ENTRIES),
        entries_of_size(SHARE - 2, MAX_ENTRIES),
        entries_of_size(SHARE, MAX_ENTRIES - 1),
        entries_of_size(SHARE, MAX_ENTRIES),
        one_fewer(2 * SHARE - 44),
        one_fewer(2 * SHARE - 2),
        one_fewer(2 * SHARE),
        entries_of_size(SHARE + 2, POLICY_BYTES / (SHARE + 2)),
        entries_of_size(LONGEST, POLICY_BYTES / LONGEST),
        entries_of_sum(POLICY_BYTES - 44),
        entries_of_sum(POLICY_BYTES - 2),
        entries_of_sum(POLICY_BYTES),
    ]
}

/// Registrations over those records: new entries, a repeat of each that is registered, and malformed ones, the engine
/// locked or not.
fn nearly_full(sweep: &mut Sweep) -> Outcome {
    for entries in full_records() {
        let left = POLICY_BYTES - entries.concat().len();
        let sizes = [44, 48, SHARE - 2, SHARE, SHARE + 2, left.saturating_sub(2), left, left + 2, LONGEST];
        let new = sizes.into_iter().filter(|size| is_entry_size(*size)).map(fresh);
        let good: Vec<Vec<u8>> = entries.iter().cloned().chain(new).collect();
        let malformed = good.iter().map(|entry| malformed(entry));
        let calls: Vec<Call> = good.iter().cloned().chain(malformed).map(register).collect();
        for locked in [0, 1] {
            let state = State { switches: SwitchBytes { locked, ..OPEN }, ..engine(&entries) };
            sweep.each(&state, calls.clone())?;
        }
    }
    Ok(())
}

/// The entry with MinSize over MaxSize.
fn malformed(entry: &[u8]) -> Vec<u8> {
    let mut bytes = entry.to_vec();
    bytes[24..32].copy_from_slice(&[1, 0, 0, 0, 0, 0, 0, 0]);
    bytes
}

/// Registrations and dumps around the former limits.
fn former_limits(sweep: &mut Sweep) -> Outcome {
    let share = FORMER_POLICY_BYTES / FORMER_ENTRIES;
    let records = [
        entries_of_size(44, FORMER_ENTRIES - 1),
        entries_of_size(44, FORMER_ENTRIES),
        entries_of_size(44, FORMER_ENTRIES + 1),
        entries_of_size(share, FORMER_ENTRIES - 1),
        entries_of_size(share, FORMER_ENTRIES),
        entries_of_size(share, FORMER_ENTRIES + 1),
        entries_of_sum(FORMER_POLICY_BYTES - 2),
        entries_of_sum(FORMER_POLICY_BYTES),
        entries_of_sum(FORMER_POLICY_BYTES + 2),
    ];
    for entries in records {
        let registrations = [44, 48, share - 2, share, share + 2, LONGEST].map(|size| register(fresh(size)));
        let repeats = entries.iter().cloned().map(register);
        let buffers = [FORMER_POLICY_BYTES - 2, FORMER_POLICY_BYTES, FORMER_POLICY_BYTES + 2, POLICY_BYTES];
        let dumps = buffers.map(|len| Call::Dump { buffer: vec![0x5A; len] });
        sweep.each(&engine(&entries), registrations.into_iter().chain(repeats).chain(dumps))?;
    }
    Ok(())
}

/// What a policy record of the former length could hold: nothing, one entry of each type, as many as fitted.
fn former_contents() -> [Vec<Vec<u8>>; 5] {
    [
        Vec::new(),
        one_of_each_type().to_vec(),
        entries_of_size(44, FORMER_ENTRIES),
        entries_of_size(FORMER_POLICY_BYTES / FORMER_ENTRIES, FORMER_ENTRIES),
        entries_of_sum(FORMER_POLICY_BYTES),
    ]
}

/// Every call that is lent a policy record, over one that is good but for its length, which is the former; the engine
/// open, disabled, locked and both.
fn former_length(sweep: &mut Sweep) -> Outcome {
    let calls = lent_record_or_start();
    for entries in former_contents() {
        let record = &packed(&entries)[..FORMER_POLICY_BYTES];
        let repeats = entries.iter().cloned().map(register);
        for switches in open_or_not() {
            let state = State { policy: Guarded::new(record, 3), switches, ..engine(&[]) };
            sweep.each(&state, calls.iter().cloned().chain(repeats.clone()))?;
        }
    }
    Ok(())
}

/// The entries of such a record registered after a power-on, and dumped: each is granted, and the dump has them all.
fn former_dumps(sweep: &mut Sweep) -> Outcome {
    former_contents().into_iter().try_for_each(|entries| {
        let granted = entries.into_iter().map(|entry| (entry, Status::Success));
        take_over(sweep, &granted.collect::<Vec<_>>())
    })
}

/// Registers entries of an earlier edition after a power-on, each of which gets its status, and dumps those granted.
pub(super) fn take_over(sweep: &mut Sweep, entries: &[(Vec<u8>, Status)]) -> Outcome {
    let mut sides = Sides::new(State::new(ERASED, ERASED, &[0x77; POLICY_BYTES]));
    let power_on = (Call::PowerOn { disabling_allowed: 0 }, Status::Success);
    let registrations = entries.iter().map(|(entry, expected)| (register(entry.clone()), *expected));
    for (call, expected) in [power_on].into_iter().chain(registrations) {
        let status = sweep.comparison.exchange(&mut sides, &call)?.status;
        check(status == expected, format_args!("taken over, {} got {status} and not {expected}", call.name()))?;
    }
    let granted = entries.iter().filter(|(_, status)| *status == Status::Success);
    let bytes: Vec<u8> = granted.flat_map(|(entry, _)| entry.iter().copied()).collect();
    let dumped = sweep.comparison.exchange(&mut sides, &Call::Dump { buffer: vec![0x5A; bytes.len()] })?;
    let expected = Values::Dumped { length: bytes.len(), buffer: bytes };
    check(dumped.values == expected, "a dump differs from the entries that were taken over")
}

/// Records of every number of entries, up to the limit and beyond.
fn counts(sweep: &mut Sweep) -> Outcome {
    for size in [44, SHARE - 2] {
        for count in 0..=MAX_ENTRIES + 2 {
            over_record(sweep, &packed(&entries_of_size(size, count)))?;
        }
    }
    Ok(())
}

/// Records that are full, or nearly, with an entry that the end cuts, and with a gap.
fn records(sweep: &mut Sweep) -> Outcome {
    let [a, b, ..] = one_of_each_type();
    let cut = |size: usize| {
        let longest = entries_of_size(LONGEST, POLICY_BYTES / LONGEST);
        packed(&longest.into_iter().chain([fresh(size)]).collect::<Vec<_>>())
    };
    let left = POLICY_BYTES % LONGEST;
    let gaps = [vec![vec![0; 4], a.clone()], vec![a.clone(), vec![0; 44], b.clone()], vec![a, vec![0; 4], b]];
    let records = full_records().iter().chain(&gaps).map(|entries| packed(entries)).collect::<Vec<_>>();
    records.iter().chain(&[cut(left + 2), cut(LONGEST)]).try_for_each(|record| over_record(sweep, record))
}

/// Records with a repeat: of each kind of entry beside others, and at every place of a record of the most entries, of
/// the first one and by the last one.
fn repeats(sweep: &mut Sweep) -> Outcome {
    let repeat = EntryFields { max_size: 9, reserved: [1, 2, 3], ..entry("AB") }.pack();
    for place in 1..=3 {
        let mut entries = one_of_each_type().to_vec();
        entries.insert(place, repeat.clone());
        over_record(sweep, &packed(&entries))?;
        entries[place] = entries[4].clone();
        over_record(sweep, &packed(&entries))?;
    }
    let entries = entries_of_size(44, MAX_ENTRIES);
    let again = |number: usize| EntryFields { max_size: 9, ..EntryFields::new(numbered(number), &[]) }.pack();
    for place in 1..MAX_ENTRIES {
        let mut of_first = entries.clone();
        of_first[place] = again(0);
        over_record(sweep, &packed(&of_first))?;
        let mut by_last = entries.clone();
        by_last[MAX_ENTRIES - 1] = again(place - 1);
        over_record(sweep, &packed(&by_last))?;
    }
    Ok(())
}
