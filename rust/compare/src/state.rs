//! What a history lends from call to call.

use crate::call::to_reference;
use std::ops::{Deref, DerefMut};
use varpolicy::SwitchBytes;

/// Bytes that stand between two guards, so that a write outside of them is seen.
#[derive(Clone, Debug)]
pub struct Guarded {
    arena: Vec<u8>,
    start: usize,
    len: usize,
}

impl Guarded {
    const GUARD: u8 = 0xA5;
    const GUARD_LEN: usize = 32;

    /// A guarded copy of `bytes` that begins `shift` bytes behind an aligned address.
    pub fn new(bytes: &[u8], shift: usize) -> Guarded {
        let start = Guarded::GUARD_LEN + shift;
        let mut arena = vec![Guarded::GUARD; start + bytes.len() + Guarded::GUARD_LEN];
        arena[start..start + bytes.len()].copy_from_slice(bytes);
        Guarded { arena, start, len: bytes.len() }
    }

    /// Whether the guards are as they were.
    pub fn is_intact(&self) -> bool {
        let (before, after) = (&self.arena[..self.start], &self.arena[self.start + self.len..]);
        before.iter().chain(after).all(|byte| *byte == Guarded::GUARD)
    }
}

impl Deref for Guarded {
    type Target = [u8];

    fn deref(&self) -> &[u8] {
        &self.arena[self.start..self.start + self.len]
    }
}

impl DerefMut for Guarded {
    fn deref_mut(&mut self) -> &mut [u8] {
        &mut self.arena[self.start..self.start + self.len]
    }
}

impl PartialEq for Guarded {
    fn eq(&self, other: &Guarded) -> bool {
        **self == **other
    }
}

/// The state of an engine (docs/RULES.md, 1.2).
#[derive(Clone, PartialEq, Debug)]
pub struct State {
    /// The non-volatile store.
    pub nv: Guarded,
    /// The volatile store.
    pub volatile: Guarded,
    /// The policy record.
    pub policy: Guarded,
    /// The switches.
    pub switches: SwitchBytes,
}

impl State {
    /// A state of these bytes, its parts at different alignments, with the switches of a refused start.
    pub fn new(nv: &[u8], volatile: &[u8], policy: &[u8]) -> State {
        State {
            nv: Guarded::new(nv, 0),
            volatile: Guarded::new(volatile, 1),
            policy: Guarded::new(policy, 3),
            switches: SwitchBytes { enabled: 1, locked: 1, disabling_allowed: 0, exited: 0 },
        }
    }

    /// The switches, as the reference reads their bytes.
    pub fn read_switches(&self) -> reference::Switches {
        to_reference(self.switches).read()
    }

    /// Whether all guards are as they were.
    pub fn is_intact(&self) -> bool {
        self.nv.is_intact() && self.volatile.is_intact() && self.policy.is_intact()
    }

    /// The first difference from another state, in words.
    pub fn difference(&self, other: &State) -> Option<String> {
        let parts = [
            ("the non-volatile store", &self.nv, &other.nv),
            ("the volatile store", &self.volatile, &other.volatile),
            ("the policy record", &self.policy, &other.policy),
        ];
        for (part, here, there) in parts {
            if here != there {
                let at = here.iter().zip(there.iter()).position(|(a, b)| a != b);
                return Some(format!("{part} differs, first at byte {at:?}"));
            }
        }
        (self.switches != other.switches).then(|| format!("switches {:?} and {:?}", self.switches, other.switches))
    }
}
