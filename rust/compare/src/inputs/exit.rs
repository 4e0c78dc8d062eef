//! Counts what calls meet after exit (docs/RULES.md, 8.1): what they read, measure, delete and write, by the attributes
//! of the variables that they look at, with RT and without.

use super::labels::crossed;
use super::set::deletion_form;
use super::{count_if, labels};
use crate::call::Call;
use crate::coverage::{Coverage, Input};
use crate::state::State;
use crate::steps::{self, Met, is_within};
use crate::tallies::Each;
use reference::{APPEND, Entry, LockRule, Pair, SetGround, Variable};
use varpolicy::{Namespace, Status};

/// How a variable is stored: not at all, or with these attributes.
const STORED: [(u32, &str); 5] = [(0, "absent"), (2, "BS"), (6, "BS, RT"), (3, "NV, BS"), (7, "NV, BS, RT")];

/// How many sets are told apart by [`Each::AfterExit`].
pub const SETS: usize = 2 * 16 * STORED.len() * 2 * ENTRIES;

/// The calls that can answer 10 and are given the switches.
pub const CALLS_ON_BOTH: [&str; 4] = ["register", "dump", "read", "set"];

/// Rebuilds of an engine that has exited.
pub const REBUILD: [&str; 10] = [
    "in order, a dump made for a rebuild",
    "in order, the history's dump",
    "another order, a dump made for a rebuild",
    "another order, the history's dump",
    "no entries",
    "a dump that served after exit before",
    "engine open",
    "engine locked",
    "engine disabled",
    "engine disabled and locked",
];

/// What histories have that exit.
pub const HISTORY: [&str; 8] = [
    "exit",
    "exit again, refused",
    "power-on after exit",
    "restart after exit",
    "exit after such a start",
    "set that is granted after exit",
    "deletion that is granted after exit",
    "call after a rebuild after exit",
];

fn stored_labels() -> [&'static str; 5] {
    STORED.map(|(_, label)| label)
}

/// Reads, by the variable.
pub fn read_labels() -> Vec<String> {
    let bad_name = vec!["after exit, bad name".to_string()];
    [crossed(&["before exit", "after exit"], &stored_labels()), bad_name].concat()
}

/// Starts on an engine that has exited.
pub fn start_labels() -> Vec<String> {
    crossed(&["power-on", "restart"], &["granted", "refused"])
}

/// Every form of deletion, with the variable.
pub fn deletion_labels() -> Vec<String> {
    crossed(&labels::DELETION_FORMS[..FORMS], &stored_labels())
}

/// How many forms of deletion there are. Behind them stands the empty append.
const FORMS: usize = 5;

/// What a lock looks at, by the kind of set.
pub fn lock_labels() -> Vec<String> {
    let variable = crossed(&["on create"], &stored_labels());
    let trigger = crossed(&["on state"], &["trigger absent"]);
    let triggers = crossed(&crossed(&["on state"], &stored_labels()[1..]), &["Value", "another byte"]);
    crossed(&["set", "append", "delete"], &[variable, trigger, triggers].concat())
}

/// Appends that the sizes judge otherwise than they would their own length, by the variable.
pub fn append_labels() -> Vec<String> {
    crossed(&["own within, sum not", "own not, sum within"], &stored_labels()[1..])
}

/// Sets that step 6 refuses, by the variable.
pub fn other_labels() -> Vec<String> {
    crossed(&["set", "append", "empty append"], &stored_labels()[1..4])
}

/// What is stored beside a record without RT, in a store that is long enough or a byte short.
pub fn room_labels() -> Vec<String> {
    crossed(&["create", "rewrite", "append creates", "append joins"], &["exact", "one short"])
}

/// The place in [`STORED`] of a variable, or of none.
fn stored_place(attributes: Option<u32>) -> usize {
    let place = STORED.iter().position(|(known, _)| *known == attributes.unwrap_or(0));
    place.expect("a sound store holds no other attributes")
}

/// Counts a call that got this status.
pub(super) fn count(coverage: &mut Coverage, lent: &State, call: &Call, status: Status) {
    let exited = lent.read_switches().exited;
    match call {
        Call::PowerOn { .. } if exited => count_start(coverage, 0, status),
        Call::Restart { .. } if exited => count_start(coverage, 2, status),
        Call::Read { namespace, name } => count_read(coverage, lent, (namespace, name), status),
        _ => {}
    }
    let place = CALLS_ON_BOTH.iter().position(|known| *known == call.name());
    if let Some(place) = place.filter(|_| status == Status::VolumeCorrupted) {
        coverage.each(Each::UnsoundAndExited, 256 * place + usize::from(lent.switches.exited));
    }
}

fn count_start(coverage: &mut Coverage, first_label: usize, status: Status) {
    coverage.input(Input::ExitStart, first_label + usize::from(status != Status::Success));
}

/// Counts a read over sound stores, by how the variable is stored.
fn count_read(coverage: &mut Coverage, lent: &State, (namespace, name): (&Namespace, &[u8]), status: Status) {
    let exited = lent.read_switches().exited;
    let Some(pair) = Pair::decode(&lent.nv, &lent.volatile) else {
        return;
    };
    if status == Status::InvalidParameter {
        count_if(coverage, Input::ExitRead, &[exited], 2 * STORED.len());
        return;
    }
    let found = pair.find(namespace, &steps::units(name));
    let stored = stored_place(found.map(|(_, _, variable)| variable.attributes));
    coverage.input(Input::ExitRead, STORED.len() * usize::from(exited) + stored);
}

/// Counts a set over sound stores and a valid policy record, which was decided so.
pub(super) fn count_set(coverage: &mut Coverage, met: &Met, decided: SetGround) {
    if met.is_well_formed() {
        count_combination(coverage, met);
    }
    if !met.exited || !met.comes_to_policy() {
        return;
    }
    if let Some(form) = deletion_form(met).filter(|form| *form < FORMS) {
        coverage.input(Input::ExitDelete, STORED.len() * form + stored_place(met.stored()));
    }
    if let Some(entry) = met.chosen {
        count_lock(coverage, met, entry);
        count_append(coverage, met, entry);
    }
    if decided == SetGround::OtherAttributes {
        let kind = usize::from(met.has(APPEND)) + usize::from(met.length == 0);
        coverage.input(Input::ExitOther, 3 * kind + stored_place(met.stored()) - 1);
    }
    count_room(coverage, met);
}

/// What the chosen entry has against a set: there is none, it has nothing, the size alone, the attributes alone, the
/// lock alone, all three; and all three on a disabled engine.
const ENTRIES: usize = 7;

fn entry_place(met: &Met) -> Option<usize> {
    let Some(entry) = met.choice else {
        return met.enabled.then_some(0);
    };
    match (met.enabled, met.forbidden_by(entry)) {
        (true, [false, false, false]) => Some(1),
        (true, [true, false, false]) => Some(2),
        (true, [false, true, false]) => Some(3),
        (true, [false, false, true]) => Some(4),
        (true, [true, true, true]) => Some(5),
        (false, [true, true, true]) => Some(6),
        _ => None,
    }
}

/// Counts a set by all that the rules after exit ask, and by what the chosen entry has against it.
fn count_combination(coverage: &mut Coverage, met: &Met) {
    let Some(entry) = entry_place(met) else {
        return;
    };
    let bits = (met.attributes & 7 | (met.attributes & APPEND) >> 3) as usize;
    let request = 2 * (16 * usize::from(met.exited) + bits) + usize::from(met.length == 0);
    coverage.each(Each::AfterExit, ENTRIES * (STORED.len() * request + stored_place(met.stored())) + entry);
}

/// Counts what a lock of type 2 or 3 looks at, where it is asked.
fn count_lock(coverage: &mut Coverage, met: &Met, entry: &Entry) {
    let looked_at = match &entry.lock {
        LockRule::NoLock | LockRule::LockNow => return,
        LockRule::LockOnCreate => stored_place(met.stored()),
        LockRule::LockOnVarState(trigger) => match met.pair.find(&trigger.namespace, &trigger.name) {
            None => 5,
            Some((_, _, Variable { attributes, payload, .. })) => {
                4 + 2 * stored_place(Some(*attributes)) + usize::from(*payload != [trigger.value])
            }
        },
    };
    let [size, attributes, _] = met.forbidden_by(entry);
    if met.is_deletion() || !size && !attributes {
        let kind = if met.is_deletion() { 2 } else { usize::from(met.has(APPEND)) };
        coverage.input(Input::ExitLock, 14 * kind + looked_at);
    }
}

/// Counts an append that is within the sizes by its own length and not by the sum, or the other way round.
fn count_append(coverage: &mut Coverage, met: &Met, entry: &Entry) {
    if met.joined().is_none() {
        return;
    }
    let (own, sum) = (is_within(entry, met.length), is_within(entry, met.length_afterwards()));
    let first_label = 4 * usize::from(sum);
    count_if(coverage, Input::ExitAppend, &[own != sum], first_label + stored_place(met.stored()) - 1);
}

/// Counts room to the byte, some of it taken by a record without RT.
fn count_room(coverage: &mut Coverage, met: &Met) {
    let hidden = met.pair.non_volatile.iter().any(|variable| !variable.is_runtime());
    if !hidden || !met.comes_to_room() {
        return;
    }
    let kind = 2 * usize::from(met.has(APPEND)) + usize::from(met.found.is_some());
    let (needed, _, store_len) = met.room();
    count_if(coverage, Input::ExitRoom, &[needed == store_len, needed == store_len + 1], 2 * kind);
}
