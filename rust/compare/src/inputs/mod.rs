//! Counts what the calls are given: the classes of inputs in which a slip of the one or the other
//! implementation would hide.

pub mod exit;
mod former;
pub mod labels;
pub mod pieces;
pub mod quarrels;
pub mod reports;
mod set;
pub mod settled;
mod signs;
mod triggers;

use crate::FORMER_POLICY_BYTES;
use crate::call::{Answer, Call, Ground, Values};
use crate::coverage::{Coverage, Input};
use crate::damage::entry_sizes;
use crate::state::State;
use crate::steps;
use crate::tallies::Each;
use labels::{CALLS, CALLS_ON_BYTES, DATA_SIZES, NAME_SIZES, START};
use reference::{Entry, MAX_ENTRIES, POLICY_BYTES, Pair, Policy, Switches};
use varpolicy::{MAX_STORE_BYTES, Status, SwitchBytes};

/// Counts what a call was given that got this answer, for this reason.
pub fn count(coverage: &mut Coverage, state: &State, call: &Call, answer: &Answer, decided: Ground) {
    count_switches(coverage, state.read_switches(), call.name());
    count_switch_bytes(coverage, state, call);
    match call {
        Call::PowerOn { .. } => count_start(coverage, state, 0),
        Call::Restart { .. } => count_start(coverage, state, START.len() / 2),
        Call::Register { entry } => count_registration(coverage, state, entry),
        Call::Dump { buffer } => count_dump(coverage, state, buffer.len()),
        Call::Read { name, .. } | Call::Set { name, .. } => count_name(coverage, Input::RequestName, name),
        Call::Settled { namespace, name } => settled::count(coverage, state, (namespace, name), answer),
        Call::Lock | Call::Disable | Call::Exit | Call::Query => {}
    }
    let start = matches!(call, Call::PowerOn { .. } | Call::Restart { .. });
    if start || matches!(call, Call::Read { .. } | Call::Set { .. } | Call::Settled { .. }) {
        count_first_record(coverage, &state.nv);
        count_first_record(coverage, &state.volatile);
    }
    if answer.status == Status::VolumeCorrupted {
        count_unsound(coverage, state.read_switches(), call);
    }
    exit::count(coverage, state, call, answer.status);
    former::count(coverage, state, call, answer.status);
    triggers::count(coverage, state, call, answer.status);
    if let (Ground::Set(decided), Values::Written(report)) = (decided, &answer.values) {
        set::count(coverage, state, call, decided, report);
    }
}

/// Counts what else is wrong with a call that was lent something unsound.
fn count_unsound(coverage: &mut Coverage, switches: Switches, call: &Call) {
    match call {
        Call::Register { entry } => {
            let malformed = Entry::decode(entry).is_none();
            count_if(coverage, Input::Unsound, &[switches.locked, malformed, switches.exited], 0);
        }
        Call::Dump { buffer } => count_if(coverage, Input::Unsound, &[buffer.is_empty(), switches.exited], 3),
        Call::Read { name, .. } => {
            count_if(coverage, Input::Unsound, &[name.len() % 2 == 1 || name.is_empty(), switches.exited], 5);
        }
        Call::Set { name, attributes, payload, .. } => {
            let bad = name.is_empty() || payload.len() > 1024;
            let without_bs = attributes & 0x44 != 0 && attributes & 2 == 0;
            let not_for_runtime = switches.exited && attributes & 2 != 0 && attributes & 7 != 7 && !payload.is_empty();
            let wrong = [bad, attributes & !0x47 != 0, without_bs, !switches.enabled, not_for_runtime];
            count_if(coverage, Input::Unsound, &wrong, 7);
        }
        Call::Settled { name, .. } => {
            let wrong = [!steps::is_name(name), !switches.enabled, switches.exited];
            count_if(coverage, Input::Unsound, &wrong, 12);
        }
        _ => {}
    }
}

fn count_switches(coverage: &mut Coverage, switches: Switches, call: &str) {
    if let Some(call) = CALLS.iter().position(|known| *known == call) {
        coverage.input(Input::Switches, 16 * call + switch_bits(switches));
    }
}

/// The number of a setting of the switches, 0 to 15.
fn switch_bits(switches: Switches) -> usize {
    let bits = [switches.enabled, switches.locked, switches.disabling_allowed, switches.exited];
    bits.into_iter().fold(0, |number, bit| 2 * number + usize::from(bit))
}

/// Counts the bytes of the calls that are given them: those that are neither 0 nor 1, and each by its value.
fn count_switch_bytes(coverage: &mut Coverage, state: &State, call: &Call) {
    let mut count = |label: usize, byte: u8| {
        count_if(coverage, Input::SwitchBytes, &[byte > 1], label);
        coverage.each(Each::SwitchByte, 256 * label + usize::from(byte));
    };
    match call {
        Call::PowerOn { disabling_allowed } => count(0, *disabling_allowed),
        Call::Restart { disabling_allowed } => count(1, *disabling_allowed),
        Call::Settled { .. } => {}
        _ => {
            let SwitchBytes { enabled, locked, disabling_allowed, exited } = state.switches;
            let place = CALLS_ON_BYTES.iter().position(|known| *known == call.name());
            let first_label = 2 + 4 * place.expect("every other call is given the switches");
            (first_label..)
                .zip([enabled, locked, disabling_allowed, exited])
                .for_each(|(label, byte)| count(label, byte));
        }
    }
}

/// What is wrong with the lent parts: the non-volatile store, the volatile one, both together, the length of either; the
/// length of the policy record, by a byte, the former one or another; its content.
fn wrong_parts(state: &State) -> [bool; 10] {
    let alone = |nv: &[u8], volatile: &[u8]| Pair::decode(nv, volatile).is_some();
    let (nv, volatile) = (&state.nv[..], &state.volatile[..]);
    let long = |store: &[u8]| store.len() > MAX_STORE_BYTES;
    let (nv_sound, volatile_sound) = (alone(nv, &[]), alone(&[], volatile));
    let length = state.policy.len();
    let known_lengths = [POLICY_BYTES, POLICY_BYTES - 1, POLICY_BYTES + 1, FORMER_POLICY_BYTES];
    [
        !nv_sound && !long(nv),
        !volatile_sound && !long(volatile),
        nv_sound && volatile_sound && !alone(nv, volatile),
        long(nv),
        long(volatile),
        length == POLICY_BYTES - 1,
        length == POLICY_BYTES + 1,
        length == FORMER_POLICY_BYTES,
        !known_lengths.contains(&length),
        length == POLICY_BYTES && Policy::decode(&state.policy).is_none(),
    ]
}

fn count_start(coverage: &mut Coverage, state: &State, first_label: usize) {
    let wrong = wrong_parts(state);
    let mut places = wrong.iter().enumerate().filter(|(_, wrong)| **wrong).map(|(place, _)| place + 1);
    match (places.next(), places.next()) {
        (None, _) => coverage.input(Input::Start, first_label),
        (Some(place), None) => coverage.input(Input::Start, first_label + place),
        _ => {}
    }
}

fn count_registration(coverage: &mut Coverage, state: &State, entry: &[u8]) {
    count_packed_names(coverage, entry);
    let decoded = Entry::decode(entry);
    let Switches { locked, exited, .. } = state.read_switches();
    let Some(policy) = Policy::decode(&state.policy) else {
        return;
    };
    let entries = policy.entries.len();
    let sum: usize = entry_sizes(&state.policy).iter().sum();
    let (many, long) = (entries == MAX_ENTRIES, sum + entry.len() > POLICY_BYTES);
    let malformed = decoded.is_none();
    let repeat = decoded.as_ref().is_some_and(|entry| policy.holds(entry));
    let (good, takes) = (!malformed && !repeat, !locked && !exited);
    let fresh = good && takes;
    let holds = [
        fresh && entries == MAX_ENTRIES - 1,
        fresh && sum + entry.len() == POLICY_BYTES - 2,
        fresh && sum + entry.len() == POLICY_BYTES,
        fresh && sum + entry.len() == POLICY_BYTES + 2,
        fresh && entries == MAX_ENTRIES - 1 && sum + entry.len() == POLICY_BYTES,
        fresh && many && !long,
        fresh && long && !many,
        fresh && many && long,
        repeat && takes && many,
        repeat && takes && sum == POLICY_BYTES,
        malformed && takes && many,
        malformed && takes && sum == POLICY_BYTES,
        malformed && takes && with_sizes_in_order(entry).is_some_and(|entry| policy.holds(&entry)),
        malformed && locked && !exited,
        repeat && locked && !exited,
        exited && good && !locked && !many && !long,
        exited && locked,
        exited && malformed,
        exited && repeat,
        exited && good && many && !long,
        exited && good && long && !many,
    ];
    count_if(coverage, Input::Registration, &holds, 0);
    if let Some(entry) = decoded.filter(|_| takes) {
        signs::count_registration(coverage, &policy, &entry);
    }
}

/// The place in [`labels::SETTINGS`] of the switches.
fn setting(lent: &State) -> usize {
    match lent.read_switches() {
        Switches { exited: true, .. } => 3,
        Switches { locked: true, .. } => 2,
        Switches { enabled: false, .. } => 1,
        _ => 0,
    }
}

/// Counts the labels, from `first_label` on, of what holds.
fn count_if(coverage: &mut Coverage, input: Input, holds: &[bool], first_label: usize) {
    for (place, _) in holds.iter().enumerate().filter(|(_, holds)| **holds) {
        coverage.input(input, first_label + place);
    }
}

/// The entry that the bytes would be with MinSize 0.
fn with_sizes_in_order(entry: &[u8]) -> Option<Entry> {
    let mut bytes = entry.to_vec();
    bytes.get_mut(24..28)?.fill(0);
    Entry::decode(&bytes)
}

fn count_packed_names(coverage: &mut Coverage, entry: &[u8]) {
    let [.., low, high] = entry.get(..8).unwrap_or_default() else {
        return;
    };
    let offset = usize::from(u16::from_le_bytes([*low, *high]));
    let has_trigger = entry.get(40) == Some(&3);
    if let Some(label) = entry.get(offset..).and_then(packed_name) {
        coverage.input(Input::EntryName, label);
    }
    if let Some(label) = entry.get(62..offset).filter(|_| has_trigger).and_then(packed_name) {
        coverage.input(Input::TriggerName, label);
    }
}

/// The place in [`labels::PACKED_NAME`] of a packed name.
fn packed_name(bytes: &[u8]) -> Option<usize> {
    if bytes.len() % 2 == 1 {
        return Some(2);
    }
    match steps::units(bytes).as_slice() {
        [] => Some(0),
        [0] => Some(1),
        [.., last] if *last != 0 => Some(3),
        [units @ .., _] if units.contains(&0) => Some(4),
        [_, _] => Some(5),
        units if units.len() == 65 => Some(6),
        units if units.len() > 65 => Some(7),
        _ => None,
    }
}

fn count_dump(coverage: &mut Coverage, state: &State, len: usize) {
    if Policy::decode(&state.policy).is_none() {
        return;
    }
    let needed = entry_sizes(&state.policy).iter().sum();
    let exited = state.read_switches().exited;
    let label = match len {
        0 if exited => 7 + usize::from(needed > 0),
        len if exited => 9 + usize::from(len >= needed),
        0 if needed == 0 => 0,
        0 => 1,
        len if len + 1 == needed => 2,
        len if len == needed => 3,
        len if len == needed + 1 => 4,
        len if len >= 1 << 16 => 6,
        len if len > needed => 5,
        _ => return,
    };
    coverage.input(Input::DumpBuffer, label);
}

/// Counts a name by its place in [`labels::REQUEST_NAME`].
fn count_name(coverage: &mut Coverage, input: Input, name: &[u8]) {
    let label = match name.len() {
        len if len % 2 == 1 => 6,
        0 => 0,
        2 => 1,
        128 => 3,
        130 => 4,
        len if len > 128 => 5,
        _ => 2,
    };
    coverage.input(input, label);
    let mut units = name.chunks_exact(2);
    let zero = units.clone().any(|unit| unit == [0, 0]);
    let sign = units.any(|unit| unit == [0x23, 0]);
    count_if(coverage, input, &[zero, sign], 7);
}

fn count_first_record(coverage: &mut Coverage, store: &[u8]) {
    let (Some([0xAA, 0x55]), Some(sizes)) = (store.get(..2), store.get(8..16)) else {
        return;
    };
    let number = |at: usize| u32::from_le_bytes([sizes[at], sizes[at + 1], sizes[at + 2], sizes[at + 3]]);
    for (input, known, size) in
        [(Input::NameSize, &NAME_SIZES[..], number(0)), (Input::DataSize, &DATA_SIZES, number(4))]
    {
        if let Some(label) = known.iter().position(|(value, _)| *value == size) {
            coverage.input(input, label);
        }
    }
}
