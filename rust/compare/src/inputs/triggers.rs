//! Counts '#' in the names of triggers, in entries to register and in lent policy records, which E7 made malformed; and
//! what is nearly '#', or '#' nearly there, and is granted.

use super::labels::CALLS_ON_RECORD;
use super::signs::NUMBER_SIGN;
use super::{count_if, packed_name, setting};
use crate::call::Call;
use crate::coverage::{Coverage, Input};
use crate::damage::entry_sizes;
use crate::state::State;
use crate::steps;
use crate::tallies::{Each, place_number};
use reference::{Entry, LockRule, MAX_ENTRIES, POLICY_BYTES, Pair, Policy, Trigger};
use std::ops::Range;
use varpolicy::Status;

/// Counts a call that got this status.
pub(super) fn count(coverage: &mut Coverage, lent: &State, call: &Call, status: Status) {
    let start = matches!(call, Call::PowerOn { .. } | Call::Restart { .. });
    match call {
        Call::Register { entry } if status == Status::Success => count_granted(coverage, entry),
        Call::Register { entry } => count_refused(coverage, lent, entry, status),
        _ => {}
    }
    if status == if start { Status::Success } else { Status::VolumeCorrupted } {
        count_record(coverage, lent, call);
    }
}

/// Where the trigger's name stands in a packed entry, with its closing zero unit.
fn name_of_trigger(entry: &[u8]) -> Option<Range<usize>> {
    let offset = u16::from_le_bytes(entry.get(6..8)?.try_into().ok()?);
    let name = 62..usize::from(offset);
    entry.get(name.clone()).filter(|_| entry.get(40) == Some(&3))?;
    Some(name)
}

/// The units of these bytes that are '#', by their places.
fn signs(bytes: &[u8]) -> Vec<usize> {
    let units = steps::units(bytes).into_iter().enumerate();
    units.filter(|(_, unit)| *unit == NUMBER_SIGN).map(|(place, _)| place).collect()
}

/// The places of '#' in the trigger's name, and the entry with 0 at each of them.
pub(super) fn without_signs(entry: &[u8]) -> (Vec<usize>, Vec<u8>) {
    let mut plain = entry.to_vec();
    let name = name_of_trigger(entry).unwrap_or(0..0);
    let places = signs(&entry[name.clone()]);
    for place in &places {
        plain[name.start + 2 * place] = b'0';
    }
    (places, plain)
}

/// Counts a refused entry with '#' in its trigger's name: by where it stands if there is no other ground, else by what
/// holds too.
fn count_refused(coverage: &mut Coverage, lent: &State, entry: &[u8], status: Status) {
    let (places, plain) = without_signs(entry);
    if places.is_empty() {
        return;
    }
    let Some(decoded) = Entry::decode(&plain) else {
        count_defect(coverage, lent, entry);
        return;
    };
    let Some(policy) = Policy::decode(&lent.policy) else {
        coverage.input(Input::SignRefused, 6);
        return;
    };
    let switches = lent.read_switches();
    let sum: usize = entry_sizes(&lent.policy).iter().sum();
    let (repeat, many) = (policy.holds(&decoded), policy.entries.len() == MAX_ENTRIES);
    let long = sum + entry.len() > POLICY_BYTES;
    let beside = [switches.locked, repeat, many, long, !switches.enabled, switches.exited];
    count_if(coverage, Input::SignRefused, &beside, 0);
    if beside == [false; 6] && status == Status::InvalidParameter {
        count_alone(coverage, &decoded, &places);
    }
}

/// Counts an entry that is refused for '#' in its trigger's name and for nothing else.
fn count_alone(coverage: &mut Coverage, entry: &Entry, places: &[usize]) {
    let LockRule::LockOnVarState(Trigger { name, .. }) = &entry.lock else {
        return;
    };
    let last = name.len() - 1;
    let place = match places {
        [0] if last == 0 => 0,
        [0] => 1,
        [place] if *place == last => 3,
        [_] => 2,
        places if places.len() > last => 5,
        _ => 4,
    };
    coverage.input(Input::TriggerSign, place);
    let own = if entry.name.is_empty() { 0 } else { 1 + usize::from(entry.name.contains(&NUMBER_SIGN)) };
    coverage.input(Input::TriggerSign, 6 + own);
    if let [place] = places {
        coverage.each(Each::SignInTrigger, place_number(name.len(), *place));
    }
    count_units(coverage, name.len(), &[NUMBER_SIGN]);
}

/// Counts units of a trigger's name, which has so many.
fn count_units(coverage: &mut Coverage, length: usize, units: &[u16]) {
    let each = match length {
        1 => Each::TriggerUnit,
        8 => Each::TriggerUnitOfEight,
        _ => return,
    };
    units.iter().for_each(|unit| coverage.each(each, usize::from(*unit) - 1));
}

/// Counts an entry that has '#' in its trigger's name and would be malformed without it, on an engine that looks at it.
fn count_defect(coverage: &mut Coverage, lent: &State, entry: &[u8]) {
    let name = name_of_trigger(entry).and_then(|name| packed_name(&entry[name]));
    let label = match name {
        Some(2) => 0,
        Some(3) => 1,
        Some(4) => 2,
        Some(7) => 3,
        _ => 4,
    };
    let switches = lent.read_switches();
    if !switches.locked && !switches.exited && Policy::decode(&lent.policy).is_some() {
        coverage.input(Input::SignDefect, label);
    }
}

/// Counts an entry that was registered, if it is nearly one with '#' in its trigger's name.
fn count_granted(coverage: &mut Coverage, bytes: &[u8]) {
    let Some(entry) = Entry::decode(bytes) else {
        return;
    };
    let LockRule::LockOnVarState(trigger) = &entry.lock else {
        let behind = bytes.get(62..).is_some_and(|rest| !signs(rest).is_empty());
        count_if(coverage, Input::NearSign, &[behind], usize::from(bytes[40]));
        return;
    };
    let own = signs(&bytes[62 + 2 * trigger.name.len() + 2..]);
    let begins_with_zero = trigger.name[0] & 0xFF == 0;
    let holds = [
        !own.is_empty(),
        trigger.reserved == 0x23 && begins_with_zero,
        trigger.value == 0x23 && trigger.reserved == 0,
        !signs(&trigger.namespace).is_empty(),
        trigger.name.contains(&0x2323),
    ];
    count_if(coverage, Input::NearSign, &holds, 3);
    if let [place] = own[..] {
        coverage.each(Each::SignBesideTrigger, place_number(entry.name.len(), place));
    }
    count_near(coverage, &trigger.name);
}

/// Counts the units of a trigger's name that are nearly '#', by their places.
fn count_near(coverage: &mut Coverage, name: &[u16]) {
    count_units(coverage, name.len(), name);
    for (place, unit) in name.iter().enumerate() {
        let number = place_number(name.len(), place);
        match unit {
            0x22 => coverage.each(Each::TriggerBelow, number),
            0x24 => coverage.each(Each::TriggerAbove, number),
            _ if unit & 0xFF == NUMBER_SIGN => coverage.each(Each::TriggerLowByte, number),
            _ if unit >> 8 == NUMBER_SIGN => coverage.each(Each::TriggerHighByte, number),
            _ => {}
        }
        let across = place > 0 && name[place - 1] >> 8 == NUMBER_SIGN && unit & 0xFF == 0;
        if across {
            coverage.each(Each::TriggerAcross, place_number(name.len() - 1, place - 1));
        }
    }
}

/// Counts a lent policy record with '#' in a trigger's name, if nothing else is wrong with what is lent.
fn count_record(coverage: &mut Coverage, lent: &State, call: &Call) {
    let (signed, plain) = record_without_signs(&lent.policy);
    let Some(call) = CALLS_ON_RECORD.iter().position(|known| *known == call.name() && !signed.is_empty()) else {
        return;
    };
    let (Some(policy), Some(_)) = (Policy::decode(&plain), Pair::decode(&lent.nv, &lent.volatile)) else {
        return;
    };
    coverage.input(Input::SignSetting, 4 * call + setting(lent));
    let last = policy.entries.len() - 1;
    let place = match signed[..] {
        [(0, _)] if last == 0 => 0,
        [(0, _)] => 1,
        [(number, _)] if number == last => 3,
        [_] => 2,
        _ => 4,
    };
    coverage.input(Input::SignRecord, 5 * call + place);
    if let [(number, places)] = &signed[..]
        && let [place] = places[..]
        && let LockRule::LockOnVarState(trigger) = &policy.entries[*number].lock
    {
        let each = [
            Each::LentToPowerOn,
            Each::LentToRestart,
            Each::LentToRegister,
            Each::LentToDump,
            Each::LentToSet,
            Each::LentToSettled,
        ];
        coverage.each(each[call], place_number(trigger.name.len(), place));
    }
}

/// The entries of a record that have '#' in their triggers' names, each with its number and the places of '#'; and the
/// record with 0 at each of them.
fn record_without_signs(record: &[u8]) -> (Vec<(usize, Vec<usize>)>, Vec<u8>) {
    let (mut start, mut signed, mut plain) = (0, Vec::new(), record.to_vec());
    for (number, size) in entry_sizes(record).into_iter().enumerate() {
        let (places, entry) = without_signs(&record[start..start + size]);
        plain[start..start + size].copy_from_slice(&entry);
        if !places.is_empty() {
            signed.push((number, places));
        }
        start += size;
    }
    (signed, plain)
}
