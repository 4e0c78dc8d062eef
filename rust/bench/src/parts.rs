//! Parts of the calls, by the library and by ordinary Rust.
//!
//! The checks and the search are measured in the library itself, by calls that stop behind them (by the rules every
//! call checks what it is lent before all else): a dump into no buffer, and a read with an empty name. They are also in
//! libbench_parts.a, compiled by themselves, with the parts that no call of the library shows alone.

use crate::archive::{self, Numbers};
use crate::lent::{Answer, Lent, OURS, SWITCHES, answer};
use crate::plain::index::{Pairwise, Small};
use crate::plain::parts::{self as plain, Compare};
use varpolicy::{MAX_STORE_BYTES, Name, Status, calls};

/// A part.
pub enum Part {
    /// The check of the policy record.
    CheckPolicy,
    /// The check of the policy record and the choice for a name; with an empty name the check alone.
    Choose(Name),
    /// The check of the two stores.
    CheckStores,
    /// The check of the two stores and the search for a name; with an empty name the check alone.
    Find(Name),
    /// The comparison of an entry's name with a variable's.
    Match {
        /// The entry's name.
        pattern: Name,
        /// The variable's.
        name: Name,
    },
    /// Sets all of the buffer.
    Fill,
    /// Copies the non-volatile store over the buffer.
    Copy,
    /// Moves the bytes of a store within the buffer.
    Move {
        /// Where they stand.
        from: usize,
        /// Where they go.
        to: usize,
    },
}

impl Part {
    /// Runs the part by the version of a column.
    pub fn run(&self, column: usize, lent: &mut Lent) -> Answer {
        let Lent { nv, volatile, policy, buffer, .. } = lent;
        match (self, column) {
            (Part::CheckPolicy, 0) => dumped_into_nothing(policy),
            (Part::CheckPolicy, 1) => {
                let Numbers { kind, second, .. } = archive::check_policy(policy);
                answer([kind as usize, second])
            }
            (Part::CheckPolicy, 2) => place(1, plain::check_policy(policy)),
            (Part::CheckPolicy, _) => place(1, plain::check_policy_pairwise(policy)),
            (Part::Choose(name), 0) => part(archive::choose(policy, &OURS, name)),
            (Part::Choose(name), _) => place(1, plain::choose(policy, &OURS, name)),
            (Part::CheckStores, 0) => read_nameless(nv, volatile),
            (Part::CheckStores, 1) => answer([archive::check_stores(nv, volatile).kind as usize]),
            (Part::CheckStores, 2) => sound(plain::check_stores::<Pairwise>(nv, volatile)),
            (Part::CheckStores, _) => sound(plain::check_stores::<Small>(nv, volatile)),
            (Part::Find(name), 0) => read_place(nv, volatile, name),
            (Part::Find(name), 1) => part(archive::find(nv, volatile, &OURS, name)),
            (Part::Find(name), 2) => found(plain::find(nv, volatile, &OURS, name, Compare::Whole)),
            (Part::Find(name), _) => found(plain::find(nv, volatile, &OURS, name, Compare::FirstUnit)),
            (Part::Match { pattern, name }, 0) => answer([archive::matches(pattern, name).into()]),
            (Part::Match { pattern, name }, _) => answer([plain::matches(pattern, name).into()]),
            (Part::Fill, column) => {
                let (count, value) = (buffer.len(), lent.calls as u8);
                match column {
                    0 => archive::fill(buffer, 0, count, value),
                    _ => buffer.fill(value),
                }
                answer([])
            }
            (Part::Copy, column) => {
                match column {
                    0 => archive::copy(buffer, 0, nv),
                    _ => buffer[..nv.len()].copy_from_slice(nv),
                }
                answer([])
            }
            (Part::Move { from, to }, column) => {
                match column {
                    0 => archive::move_within(buffer, *from, *to, MAX_STORE_BYTES),
                    _ => buffer.copy_within(*from..*from + MAX_STORE_BYTES, *to),
                }
                answer([])
            }
        }
    }

    /// Whether an answer tells that what is lent is not sound or not valid.
    pub fn is_refused(&self, answer: &Answer) -> bool {
        matches!(self, Part::CheckPolicy | Part::CheckStores) && answer[0] == 0
    }
}

/// The check of the policy record in the library: the length that a dump into no buffer needs.
fn dumped_into_nothing(policy: &[u8]) -> Answer {
    let dumped = calls::dump(policy, SWITCHES, &mut []);
    answer([usize::from(dumped.status == Status::BufferTooSmall), dumped.length])
}

/// The check of the stores in the library: a read with an empty name refuses the name only if they are sound.
fn read_nameless(nv: &[u8], volatile: &[u8]) -> Answer {
    let status = calls::read(nv, volatile, SWITCHES, &OURS, &[]).status;
    answer([usize::from(status == Status::InvalidParameter)])
}

/// The search in the library: the payload stands behind 32 bytes, the name and its zero unit.
fn read_place(nv: &[u8], volatile: &[u8], name: &[u8]) -> Answer {
    let read = calls::read(nv, volatile, SWITCHES, &OURS, name);
    if read.status != Status::Success {
        return answer([]);
    }
    answer([if read.non_volatile { 1 } else { 2 }, read.offset - 34 - name.len()])
}

fn part(found: Numbers) -> Answer {
    answer([found.kind as usize, found.first])
}

fn place(kind: usize, at: Option<usize>) -> Answer {
    at.map_or(answer([]), |at| answer([kind, at]))
}

fn sound(ends: Option<[usize; 2]>) -> Answer {
    answer([usize::from(ends.is_some())])
}

fn found(found: Option<[usize; 2]>) -> Answer {
    found.map_or(answer([]), answer)
}
