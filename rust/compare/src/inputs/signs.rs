//! Counts what '#' meets: in an entry's name each unit of a variable's, and in a variable's name no entry but that for
//! the whole namespace.

use super::count_if;
use crate::coverage::{Coverage, Input};
use crate::steps::Met;
use crate::tallies::{Each, place_number};
use reference::{Entry, LockRule, Policy};
use varpolicy::Namespace;

pub(super) const NUMBER_SIGN: u16 = 0x23;

/// What may hold of an entry's name beside a variable's, or beside a new entry's.
type Near = fn(&[u16], &[u16]) -> bool;

/// Whether a unit of an entry's name matches a unit of a variable's (docs/RULES.md, 4.1).
fn meets(wanted: u16, unit: u16) -> bool {
    match wanted {
        NUMBER_SIGN => matches!(unit, 0x30..=0x39 | 0x41..=0x46 | 0x61..=0x66),
        _ => unit == wanted,
    }
}

/// Whether two names have as many units, and this holds of the units at each place.
fn at_each_place(one: &[u16], other: &[u16], holds: fn(u16, u16) -> bool) -> bool {
    one.len() == other.len() && one.iter().zip(other).all(|(one, other)| holds(*one, *other))
}

/// Whether a name, taken as a pattern, would match another.
pub(super) fn would_match(pattern: &[u16], name: &[u16]) -> bool {
    at_each_place(pattern, name, meets)
}

/// Whether it would have before E6, when '#' matched '#' too.
fn would_have_matched(pattern: &[u16], name: &[u16]) -> bool {
    at_each_place(pattern, name, |wanted, unit| wanted == unit || meets(wanted, unit))
}

/// The place in [`super::labels::UNDER_SIGN`] of a unit.
fn under_sign(unit: u16) -> usize {
    match unit {
        0x30..=0x39 => 0,
        0x41..=0x46 => 1,
        0x61..=0x66 => 2,
        NUMBER_SIGN => 3,
        0x2F | 0x3A | 0x40 | 0x47 | 0x60 | 0x67 => 4,
        0 => 5,
        1..=0x7F => 6,
        0x80..=0xFF => 7,
        _ => 8,
    }
}

/// Counts the units of a set's name that entries of as many units meet: all of them where all match, and the one that
/// does not where all others do.
pub(super) fn count_units(coverage: &mut Coverage, policy: &Policy, namespace: &Namespace, name: &[u16]) {
    let as_long = |entry: &&Entry| entry.namespace == *namespace && entry.name.len() == name.len();
    for entry in policy.entries.iter().filter(as_long) {
        let units = || entry.name.iter().copied().zip(name.iter().copied()).enumerate();
        let mut apart = units().filter(|(_, (wanted, unit))| !meets(*wanted, *unit));
        match (apart.next(), apart.next()) {
            (None, _) => units().for_each(|unit| count_unit(coverage, name.len(), unit)),
            (Some(unit), None) => count_unit(coverage, name.len(), unit),
            _ => {}
        }
    }
}

/// Counts a unit of a name under one of a pattern, by its number and by its place.
fn count_unit(coverage: &mut Coverage, length: usize, (place, (wanted, unit)): (usize, (u16, u16))) {
    let over_itself = match length {
        1 => Some(Each::OverItself),
        8 => Some(Each::OverItselfOfEight),
        _ => None,
    };
    if let Some(each) = over_itself.filter(|_| wanted == unit) {
        coverage.each(each, usize::from(unit.saturating_sub(1)));
    }
    let by_place = match wanted {
        NUMBER_SIGN if unit == NUMBER_SIGN => Each::SignOverSign,
        NUMBER_SIGN if meets(wanted, unit) => Each::SignOverDigit,
        NUMBER_SIGN => Each::SignOverOther,
        _ if wanted == unit => return,
        _ => Each::OtherUnit,
    };
    coverage.each(by_place, place_number(length, place));
    if wanted == NUMBER_SIGN {
        count_under_sign(coverage, length, unit);
    }
}

/// Counts a unit under '#', in a name of so many units.
fn count_under_sign(coverage: &mut Coverage, length: usize, unit: u16) {
    coverage.input(Input::UnderSign, under_sign(unit));
    let each = match length {
        1 => Each::UnderSign,
        4 => Each::UnderSignOfFour,
        8 => Each::UnderSignOfEight,
        _ => return,
    };
    coverage.each(each, unit.into());
}

/// Counts a set of a variable with '#' in its name: by what speaks for it, and by the entries that are spelled nearly
/// like it and have no say.
pub(super) fn count_named(coverage: &mut Coverage, policy: &Policy, namespace: &Namespace, met: &Met) {
    let speaks = match met.chosen.map(|entry| entry.name.as_slice()) {
        None => false,
        Some([]) => true,
        Some(_) => return,
    };
    if !met.name.contains(&NUMBER_SIGN) {
        return;
    }
    let near: [Near; 3] = [
        |spelled, name| spelled == name,
        |spelled, name| spelled != name && would_have_matched(spelled, name),
        |spelled, name| would_match(name, spelled),
    ];
    let place = |near: Near| {
        policy.entries.iter().position(|entry| entry.namespace == *namespace && near(&entry.name, &met.name))
    };
    let (near, whole) = (near.map(place), place(|spelled, _| spelled.is_empty()));
    if near == [None; 3] {
        coverage.input(Input::SignInName, usize::from(speaks));
    }
    for (kind, place) in near.into_iter().enumerate().filter(|(_, place)| place.is_some()) {
        let order = if !speaks { 0 } else { 1 + usize::from(place < whole) };
        coverage.input(Input::SignInName, 2 + 3 * kind + order);
    }
    if let Some(entry) = met.chosen {
        coverage.input(Input::SignLock, 3 * lock_number(&entry.lock) + met.place());
    }
}

/// The place in [`super::labels::LOCK_TYPES`] of a lock.
pub(super) fn lock_number(lock: &LockRule) -> usize {
    match lock {
        LockRule::NoLock => 0,
        LockRule::LockNow => 1,
        LockRule::LockOnCreate => 2,
        LockRule::LockOnVarState(_) => 3,
    }
}

/// Counts a registration, on an engine that is not locked, of an entry beside one that '#' makes nearly the same.
pub(super) fn count_registration(coverage: &mut Coverage, policy: &Policy, entry: &Entry) {
    let known: Vec<&Entry> = policy.entries.iter().filter(|known| known.namespace == entry.namespace).collect();
    let beside = |near: Near| known.iter().any(|known| near(&known.name, &entry.name));
    let holds = [
        beside(|known, new| known == new && new.contains(&NUMBER_SIGN)),
        beside(|known, new| known != new && would_match(known, new)),
        beside(|known, new| known != new && would_match(new, known)),
    ];
    count_if(coverage, Input::SignRegistered, &holds, 0);
}
