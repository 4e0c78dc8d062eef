//! What a set meets, and which of its steps hold at once, whichever decides.

use crate::state::State;
use reference::{APPEND, BS, Entry, Kind, LockRule, MAX_PAYLOAD, MAX_UNITS, NV, Pair, Policy, RT, Variable};
use varpolicy::Namespace;

/// The steps of a set that end it, in their order.
const STEPS: [&str; 14] = [
    "1",
    "2",
    "3",
    "3 after exit",
    "4 size",
    "4 attributes",
    "4 lock",
    "5 absent",
    "5 without RT",
    "5 volatile",
    "6",
    "7",
    "8",
    "9",
];
const AFTER_EXIT: usize = 3;
const SIZE: usize = 4;
const ATTRIBUTES: usize = 5;
const LOCK: usize = 6;
const ABSENT: usize = 7;
const HIDDEN: usize = 8;
const VOLATILE: usize = 9;
const OTHERS: usize = 10;
const EMPTY_APPEND: usize = 11;
const LONG_APPEND: usize = 12;

/// Whether two steps can hold for one set: a deletion is not asked for its attributes after exit, nor for size and
/// attributes, and never comes to step 6; what is absent has no attributes; and an empty append makes nothing longer.
fn can_meet(first: usize, second: usize) -> bool {
    let asked_of_deletions = |step: usize| step < AFTER_EXIT || step == LOCK;
    match (first, second) {
        (HIDDEN, VOLATILE) => true,
        (ABSENT..=VOLATILE, _) => false,
        (first, ABSENT..=VOLATILE) => asked_of_deletions(first),
        (EMPTY_APPEND, LONG_APPEND) => false,
        _ => true,
    }
}

/// Every two steps that can hold at once.
fn meeting() -> impl Iterator<Item = (usize, usize)> {
    let pairs = (0..STEPS.len()).flat_map(|first| (first + 1..STEPS.len()).map(move |second| (first, second)));
    pairs.filter(|(first, second)| can_meet(*first, *second))
}

/// The names of every two steps that can hold at once.
pub fn pairs() -> impl Iterator<Item = String> {
    meeting().map(|(first, second)| format!("{}, {}", STEPS[first], STEPS[second]))
}

/// A set over sound stores and a sound policy record.
pub struct Met<'a> {
    /// The stored variables.
    pub pair: &'a Pair,
    /// The units of the name given.
    pub name: Vec<u16>,
    /// The attributes given.
    pub attributes: u32,
    /// The length of the payload given.
    pub length: usize,
    /// Whether the engine is enabled.
    pub enabled: bool,
    /// Whether it has exited.
    pub exited: bool,
    /// The entry that is chosen, whether or not it speaks.
    pub choice: Option<&'a Entry>,
    /// The entry that speaks, if the engine is enabled.
    pub chosen: Option<&'a Entry>,
    /// The variable, if it exists.
    pub found: Option<(Kind, usize, &'a Variable)>,
    bad_name: bool,
    store_lens: [usize; 2],
}

impl<'a> Met<'a> {
    /// What a request meets in a state that was decoded.
    pub fn new(
        state: &State,
        (pair, policy): (&'a Pair, &'a Policy),
        (namespace, name): (&Namespace, &[u8]),
        (attributes, length): (u32, usize),
    ) -> Met<'a> {
        let (units, bad_name) = (units(name), !is_name(name));
        let reference::Switches { enabled, exited, .. } = state.read_switches();
        let choice = policy.choose(namespace, &units);
        Met {
            pair,
            attributes,
            length,
            enabled,
            exited,
            choice,
            chosen: choice.filter(|_| enabled),
            found: pair.find(namespace, &units),
            name: units,
            bad_name,
            store_lens: [state.nv.len(), state.volatile.len()],
        }
    }

    /// Whether one of these attributes is given.
    pub fn has(&self, attributes: u32) -> bool {
        self.attributes & attributes != 0
    }

    /// Whether the request is a deletion.
    pub fn is_deletion(&self) -> bool {
        !self.has(APPEND) && (self.length == 0 || !self.has(BS | RT))
    }

    /// Whether its name, its payload's length and its attributes are known ones.
    pub fn is_well_formed(&self) -> bool {
        !self.holds(0) && !self.holds(1)
    }

    /// Whether the entry's size and attribute rules are asked.
    pub fn comes_to_policy(&self) -> bool {
        (0..SIZE).all(|step| !self.holds(step))
    }

    /// Where the variable is: 0 nowhere, 1 in the non-volatile store, 2 in the volatile one.
    pub fn place(&self) -> usize {
        match self.found {
            None => 0,
            Some((Kind::NonVolatile, ..)) => 1,
            Some((Kind::Volatile, ..)) => 2,
        }
    }

    /// The attributes of the variable, if it exists.
    pub fn stored(&self) -> Option<u32> {
        self.found.map(|(_, _, variable)| variable.attributes)
    }

    /// The length of the payload that an append to what exists would make.
    pub fn joined(&self) -> Option<usize> {
        let (_, _, variable) = self.found.filter(|_| self.has(APPEND))?;
        Some(variable.payload.len() + self.length)
    }

    /// The length of the payload as it would be afterwards (docs/RULES.md, 10.9).
    pub fn length_afterwards(&self) -> usize {
        self.joined().unwrap_or(self.length)
    }

    /// Length of the records of the store that would hold the variable, as they would be afterwards; the
    /// padding of the variable's own; the length of the store.
    pub fn room(&self) -> (usize, usize, usize) {
        let kind = match self.found {
            Some((kind, ..)) => kind,
            None if self.has(NV) => Kind::NonVolatile,
            None => Kind::Volatile,
        };
        let records: usize = self.pair.of(kind).iter().map(Variable::record_len).sum();
        let old = self.found.map_or(0, |(_, _, variable)| variable.record_len());
        let unpadded = 32 + 2 * self.name.len() + 2 + self.length_afterwards();
        let padded = unpadded.next_multiple_of(4);
        (records - old + padded, padded - unpadded, self.store_lens[usize::from(kind == Kind::Volatile)])
    }

    /// Whether the step at this place of the list would end the set, if it came to it.
    fn holds(&self, step: usize) -> bool {
        match step {
            0 => self.bad_name || self.length > MAX_PAYLOAD,
            1 => self.has(!0x47),
            2 => self.has(RT | APPEND) && !self.has(BS),
            AFTER_EXIT => self.exited && !self.is_deletion() && self.attributes & 7 != 7,
            SIZE => !self.is_deletion() && self.chosen.is_some_and(|entry| self.refused_for_size(entry)),
            ATTRIBUTES => !self.is_deletion() && self.chosen.is_some_and(|entry| self.refused_for_attributes(entry)),
            LOCK => self.chosen.is_some_and(|entry| self.is_locked(entry)),
            ABSENT => self.is_deletion() && self.found.is_none(),
            HIDDEN => self.exited && self.is_deletion() && self.stored().is_some_and(|stored| stored & RT == 0),
            VOLATILE => self.exited && self.is_deletion() && self.stored().is_some_and(|stored| stored & NV == 0),
            OTHERS => !self.is_deletion() && self.stored().is_some_and(|stored| stored != self.attributes & !APPEND),
            EMPTY_APPEND => self.has(APPEND) && self.length == 0,
            LONG_APPEND => self.joined().is_some_and(|length| length > MAX_PAYLOAD),
            _ => {
                let (needed, _, store_len) = self.room();
                !self.is_deletion() && needed > store_len
            }
        }
    }

    fn refused_for_size(&self, entry: &Entry) -> bool {
        !is_within(entry, self.length_afterwards())
    }

    fn refused_for_attributes(&self, entry: &Entry) -> bool {
        entry.must_have & !self.attributes != 0 || self.has(entry.cant_have)
    }

    fn is_locked(&self, entry: &Entry) -> bool {
        match &entry.lock {
            LockRule::NoLock => false,
            LockRule::LockNow => true,
            LockRule::LockOnCreate => self.found.is_some(),
            LockRule::LockOnVarState(trigger) => {
                let found = self.pair.find(&trigger.namespace, &trigger.name);
                found.is_some_and(|(_, _, variable)| variable.payload == [trigger.value])
            }
        }
    }

    /// Whether an entry has something against the size, against the attributes, and against every set; a deletion is
    /// measured by its payload here.
    pub fn forbidden_by(&self, entry: &Entry) -> [bool; 3] {
        [self.refused_for_size(entry), self.refused_for_attributes(entry), self.is_locked(entry)]
    }

    /// Whether the set comes to the question of room, and nothing else ends it.
    pub fn comes_to_room(&self) -> bool {
        !self.is_deletion() && (0..STEPS.len() - 1).all(|step| !self.holds(step))
    }

    /// Whether each step behind the size of step 4 would end the set, if it came to it.
    pub fn behind_size(&self) -> [bool; 9] {
        std::array::from_fn(|place| self.holds(SIZE + 1 + place))
    }

    /// The places in [`pairs`] of the step that decides with each later one that holds too.
    pub fn steps_at_once(&self) -> Vec<usize> {
        let holding: Vec<usize> = (0..STEPS.len()).filter(|step| self.holds(*step)).collect();
        let Some((first, others)) = holding.split_first() else {
            return Vec::new();
        };
        let place = |other: &usize| meeting().position(|pair| pair == (*first, *other));
        others.iter().filter_map(place).collect()
    }
}

/// Whether an entry's sizes allow this length.
pub fn is_within(entry: &Entry, length: usize) -> bool {
    (entry.min_size as usize..=entry.max_size as usize).contains(&length)
}

/// Whether these bytes are a name, as a request gives one.
pub fn is_name(bytes: &[u8]) -> bool {
    let units = units(bytes);
    bytes.len() == 2 * units.len() && (1..=MAX_UNITS).contains(&units.len()) && !units.contains(&0)
}

/// The units of these bytes; a last odd byte is left out.
pub fn units(bytes: &[u8]) -> Vec<u16> {
    bytes.chunks_exact(2).map(|unit| u16::from_le_bytes([unit[0], unit[1]])).collect()
}
