//! Counts what a set is given and what it meets in the stores and the policy.

use super::labels::SIZE_VALUES;
use super::signs::{self, NUMBER_SIGN, lock_number, would_match};
use super::{count_if, exit, former, reports};
use crate::call::Call;
use crate::coverage::{Coverage, Input};
use crate::state::State;
use crate::steps::{Met, is_within};
use reference::{APPEND, Entry, LockRule, MAX_ENTRIES, NV, Pair, Policy, RT, SetGround, Trigger};
use varpolicy::{MAX_STORE_BYTES, Namespace, Report};

const NO_VARIABLES: Pair = Pair { non_volatile: Vec::new(), volatile: Vec::new() };

/// Counts what a set is given, what it meets, and its report.
pub(super) fn count(coverage: &mut Coverage, state: &State, call: &Call, decided: SetGround, report: &Report) {
    let Call::Set { namespace, name, attributes, payload } = call else {
        return;
    };
    count_attributes(coverage, *attributes);
    count_payload(coverage, payload.len());
    let (pair, policy) = (Pair::decode(&state.nv, &state.volatile), Policy::decode(&state.policy));
    let sound = pair.is_some() && policy.is_some();
    let pair = pair.filter(|_| sound).unwrap_or(NO_VARIABLES);
    let policy = policy.unwrap_or_default();
    for (store, variables) in [(&state.nv, &pair.non_volatile), (&state.volatile, &pair.volatile)] {
        count_store(coverage, store.len(), variables.iter().map(|variable| variable.record_len()).sum());
    }
    let met = Met::new(state, (&pair, &policy), (namespace, name), (*attributes, payload.len()));
    reports::count(coverage, (&policy, namespace), &met, decided, report);
    if sound {
        count_met(coverage, state, (&policy, namespace), &met);
        exit::count_set(coverage, &met, decided);
    }
}

/// Counts what a set meets in sound stores and a valid policy record.
fn count_met(coverage: &mut Coverage, state: &State, (policy, namespace): (&Policy, &Namespace), met: &Met) {
    if met.enabled && (met.comes_to_policy() || met.name.contains(&0)) {
        signs::count_units(coverage, policy, namespace, &met.name);
    }
    for label in met.steps_at_once() {
        coverage.input(Input::StepsAtOnce, label);
    }
    if !met.comes_to_policy() {
        return;
    }
    count_choice(coverage, policy, namespace, met);
    if met.enabled {
        signs::count_named(coverage, policy, namespace, met);
    }
    former::count_choice(coverage, &state.policy, policy, met.chosen);
    count_deletion(coverage, met);
    if let Some(entry) = met.chosen {
        count_chosen(coverage, met, entry);
    }
    if let Some(LockRule::LockOnVarState(trigger)) = met.chosen.map(|entry| &entry.lock) {
        count_trigger(coverage, met, namespace, trigger);
    }
    count_room(coverage, met);
}

fn count_attributes(coverage: &mut Coverage, attributes: u32) {
    let alone = if attributes == 2 { 2 } else { attributes & !2 };
    if alone.is_power_of_two() {
        coverage.input(Input::RequestBit, alone.trailing_zeros() as usize);
    }
}

fn count_payload(coverage: &mut Coverage, length: usize) {
    let lengths = [0, 1, 255, 256, 257, 1023, 1024, 1025];
    let known = lengths.iter().position(|known| *known == length);
    coverage.input(Input::Payload, known.unwrap_or(if length > 1025 { 8 } else { 9 }));
}

fn count_store(coverage: &mut Coverage, len: usize, used: usize) {
    let lengths = [0, 40, 43, 44, MAX_STORE_BYTES - 1, MAX_STORE_BYTES, MAX_STORE_BYTES + 1];
    let known = lengths.iter().position(|known| *known == len);
    let other = match len {
        len if len > MAX_STORE_BYTES => 7,
        len if len == used => 9,
        _ => 8,
    };
    coverage.input(Input::StoreLength, known.unwrap_or(other));
}

fn count_choice(coverage: &mut Coverage, policy: &Policy, namespace: &Namespace, met: &Met) {
    let Some(chosen) = met.chosen else {
        let elsewhere = |entry: &Entry| entry.namespace != *namespace && entry.name == met.name;
        let begins = |entry: &Entry| entry.name.starts_with(&met.name) || met.name.starts_with(&entry.name);
        let other_length = |entry: &Entry| !entry.name.is_empty() && entry.name.len() != met.name.len();
        let longer = |entry: &Entry| entry.namespace == *namespace && other_length(entry) && begins(entry);
        let label = match &policy.entries {
            entries if entries.iter().any(elsewhere) => 1,
            entries if entries.iter().any(longer) => 2,
            _ => 0,
        };
        coverage.input(Input::Choice, label);
        return;
    };
    let is_last = policy.entries.get(MAX_ENTRIES - 1) == Some(chosen);
    count_if(coverage, Input::Choice, &[is_last], 11);
    let targeting: Vec<&Entry> = policy.entries.iter().filter(|entry| entry.targets(namespace, &met.name)).collect();
    let others = targeting.iter().filter(|entry| entry.name != chosen.name);
    let place = |entry: &Entry| targeting.iter().position(|other| other.name == entry.name);
    if others.clone().next().is_none() {
        let sign = chosen.name.contains(&NUMBER_SIGN);
        coverage.input(Input::Choice, if chosen.name.is_empty() { 5 } else { 3 + usize::from(sign) });
    }
    for other in others {
        let later = place(other) > place(chosen);
        let label = match other {
            other if other.name.is_empty() => 6 + usize::from(later),
            other if other.rank() == chosen.rank() => 8,
            _ => 10 - usize::from(later),
        };
        coverage.input(Input::Choice, label);
    }
}

fn count_chosen(coverage: &mut Coverage, met: &Met, entry: &Entry) {
    let deletion = if met.is_deletion() { 12 } else { 0 };
    coverage.input(Input::Lock, deletion + 3 * lock_number(&entry.lock) + met.place());
    if met.is_deletion() {
        return;
    }
    for (input, size) in [(Input::MinSize, entry.min_size), (Input::MaxSize, entry.max_size)] {
        if let Some(label) = SIZE_VALUES.iter().position(|(value, _)| *value == size) {
            coverage.input(input, label);
        }
    }
    count_against_sizes(coverage, met, entry);
    count_sum(coverage, met, entry);
    reports::count_known_bits(coverage, met, entry);
    for (lacking, given, bits) in [(Input::Required, 0, entry.must_have), (Input::Prohibited, 4, entry.cant_have)] {
        if !bits.is_power_of_two() {
            continue;
        }
        match [1, 2, 4, 0x40].iter().position(|bit| *bit == bits).filter(|_| met.has(bits)) {
            None => coverage.input(lacking, bit_but_bs(bits)),
            Some(label) => coverage.input(Input::KnownBit, given + label),
        }
    }
}

/// Counts the length that the entry measures, by the kind of set and by where the variable is.
fn count_against_sizes(coverage: &mut Coverage, met: &Met, entry: &Entry) {
    let length = met.length_afterwards() as u64;
    let (min, max) = (u64::from(entry.min_size), u64::from(entry.max_size));
    let against = [length + 1 == min, length == min, length == max, length == max + 1];
    let kind = usize::from(met.has(APPEND)) + usize::from(met.length == 0);
    count_if(coverage, Input::AgainstSizes, &against, 4 * (3 * kind + 2 - met.place()));
}

/// Counts an append that is within the sizes by its own length and not by the sum, or the other way round.
fn count_sum(coverage: &mut Coverage, met: &Met, entry: &Entry) {
    let first_label = match (is_within(entry, met.length), is_within(entry, met.length_afterwards())) {
        (true, false) => 0,
        (false, true) => 9,
        _ => return,
    };
    let later = met.behind_size();
    let [attributes, lock, _, _, _, others, empty, long, no_room] = later;
    let differ = met.found.map_or(0, |(_, _, variable)| variable.attributes ^ met.attributes);
    let (other_nv, other_rt) = (lock && differ & NV != 0, lock && differ & RT != 0);
    let none = !later.contains(&true);
    let holds = [none, attributes, lock, other_nv, other_rt, others, empty, long, no_room];
    count_if(coverage, Input::Sum, &holds, first_label);
}

/// The place of a bit among all but BS, which every request that step 4 asks for attributes has.
fn bit_but_bs(bit: u32) -> usize {
    let place = bit.trailing_zeros() as usize;
    place - usize::from(place > 1)
}

fn count_trigger(coverage: &mut Coverage, met: &Met, namespace: &Namespace, trigger: &Trigger) {
    let found = met.pair.find(&trigger.namespace, &trigger.name);
    let payload = found.map(|(_, _, variable)| variable.payload.as_slice());
    let in_first_store = found.is_some_and(|(kind, ..)| kind == reference::Kind::NonVolatile);
    let label = match payload {
        None => 0,
        Some([byte]) if *byte != trigger.value => 5,
        Some([_]) => 3 - usize::from(in_first_store),
        Some([first, _]) => 7 - usize::from(*first == trigger.value),
        Some([first, rest @ ..]) if *first == trigger.value && rest.len() == 256 => 9,
        Some(_) => 8,
    };
    coverage.input(Input::Trigger, label);
    let other_namespace = trigger.namespace != *namespace;
    let holds = [
        (1, payload.is_none() && trigger.value == 0),
        (4, payload == Some(&[0]) && trigger.value == 0),
        (10, payload.is_none() && is_matched_by_some(met.pair, trigger)),
        (11, !other_namespace && trigger.name == met.name),
        (12, other_namespace && payload == Some(&[trigger.value])),
    ];
    for (label, _) in holds.iter().filter(|(_, holds)| *holds) {
        coverage.input(Input::Trigger, *label);
    }
}

/// Whether a variable that holds Value has a name which, if it were a pattern, would match the trigger's.
fn is_matched_by_some(pair: &Pair, trigger: &Trigger) -> bool {
    let mut variables = pair.non_volatile.iter().chain(&pair.volatile);
    variables.any(|variable| {
        let near = variable.namespace == trigger.namespace && would_match(&variable.name, &trigger.name);
        near && variable.payload == [trigger.value]
    })
}

fn count_deletion(coverage: &mut Coverage, met: &Met) {
    if let Some(form) = deletion_form(met) {
        coverage.input(Input::Deletion, 3 * form + met.place());
    }
}

/// The place in [`super::labels::DELETION_FORMS`] of a request.
pub(super) fn deletion_form(met: &Met) -> Option<usize> {
    let empty = met.length == 0;
    match met.attributes {
        0 => Some(usize::from(empty)),
        1 => Some(2 + usize::from(empty)),
        attributes if attributes & 0x40 != 0 && empty => Some(5),
        _ if empty => Some(4),
        _ => None,
    }
}

fn count_room(coverage: &mut Coverage, met: &Met) {
    let joined = met.joined();
    if let Some(label) = [1023, 1024, 1025, 2048].iter().position(|length| joined == Some(*length)) {
        coverage.input(Input::AppendLength, label);
    }
    if !met.comes_to_room() {
        return;
    }
    let kind = 2 * usize::from(met.has(0x40)) + usize::from(met.found.is_some());
    let (needed, padding, store_len) = met.room();
    let exact = needed == store_len;
    if exact || needed == store_len + 1 {
        coverage.input(Input::Room, 8 * kind + 2 * padding + usize::from(!exact));
    }
}
