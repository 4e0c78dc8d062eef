//! The policy record, and the choice.

use super::{Edit, edit};

const LENGTH: &str = "record.len() != POLICY_BYTES";
pub(super) const LONGER: &str = "if record.len() != POLICY_BYTES {";
pub(super) const ZEROS: &str = "while *rest != ZEROS[..rest.len()] {";
pub(super) const LIMITS: &str = "policy.entries.len() == MAX_ENTRIES || policy.holds(&entry)";
pub(super) const HOLDS: &str = "self.entries.iter().any(|known| known.repeats(entry))";
pub(super) const TARGETING: &str = "self.entries.iter().filter(|entry| entry.targets(namespace, name))";
pub(super) const CHOICE: &str = "targeting.min_by_key(|entry| entry.rank())";

pub(super) const EDITS: &[Edit] = &[
    edit(
        "record-longer",
        LONGER,
        "let record = &record[..record.len().min(POLICY_BYTES)]; if record.len() != POLICY_BYTES {",
        "a policy record may be longer",
    ),
    edit(
        "record-length-16-bits",
        LONGER,
        "let record = &record[..record.len() & 0xFFFF]; if record.len() != POLICY_BYTES {",
        "16 bits of the policy record's length count",
    ),
    edit("record-shorter", LENGTH, "record.len() > POLICY_BYTES", "a policy record may be shorter"),
    edit(
        "record-zeros-four",
        ZEROS,
        "while rest.iter().take(4).any(|byte| *byte != 0) {",
        "four zeros end the entries, and nothing behind them is looked at",
    ),
    edit(
        "record-zeros-44",
        ZEROS,
        "while rest.iter().take(44).any(|byte| *byte != 0) {",
        "44 zeros end the entries, and nothing behind them is looked at",
    ),
    edit(
        "record-zeros-not-last",
        ZEROS,
        "while rest[..rest.len().saturating_sub(1)] != ZEROS[..rest.len().saturating_sub(1)] {",
        "the last byte of the record is not looked at",
    ),
    edit("record-any-count", LIMITS, "policy.holds(&entry)", "a record may hold any number of entries"),
    edit(
        "record-count-more",
        LIMITS,
        "policy.entries.len() > MAX_ENTRIES || policy.holds(&entry)",
        "a record may hold one entry over the limit",
    ),
    edit(
        "record-count-less",
        LIMITS,
        "policy.entries.len() == MAX_ENTRIES - 1 || policy.holds(&entry)",
        "a record holds one entry under the limit at most",
    ),
    edit(
        "record-not-full",
        LIMITS,
        "behind.is_empty() || policy.entries.len() == MAX_ENTRIES || policy.holds(&entry)",
        "a record that is full by the sum is not valid",
    ),
    edit("record-repeats", LIMITS, "policy.entries.len() == MAX_ENTRIES", "a record may hold an entry twice"),
    edit(
        "record-next-repeats",
        LIMITS,
        "policy.entries.len() == MAX_ENTRIES || policy.entries.last().is_some_and(|last| last.repeats(&entry))",
        "in a record only neighbours are compared",
    ),
    edit(
        "holds-last",
        HOLDS,
        "self.entries.last().is_some_and(|known| known.repeats(entry))",
        "only the last entry is compared",
    ),
    edit(
        "holds-first",
        HOLDS,
        "self.entries.first().is_some_and(|known| known.repeats(entry))",
        "only the first entry is compared",
    ),
    edit(
        "holds-not-the-last",
        HOLDS,
        "self.entries.iter().take(MAX_ENTRIES - 1).any(|known| known.repeats(entry))",
        "the last entry within the limit is not compared",
    ),
    edit(
        "choice-last-of-equals",
        CHOICE,
        "targeting.rev().min_by_key(|entry| entry.rank())",
        "among equals the last registered speaks",
    ),
    edit("choice-highest", CHOICE, "targeting.rev().max_by_key(|entry| entry.rank())", "the highest rank speaks"),
    edit(
        "choice-first",
        CHOICE,
        "{ let mut targeting = targeting; targeting.next() }",
        "the first registered speaks, whatever its rank",
    ),
    edit("choice-last", CHOICE, "targeting.last()", "the last registered speaks, whatever its rank"),
    edit(
        "choice-not-the-last",
        TARGETING,
        "self.entries.iter().take(MAX_ENTRIES - 1).filter(|entry| entry.targets(namespace, name))",
        "the last entry within the limit never speaks",
    ),
    edit(
        "record-reversed",
        "self.entries.iter().flat_map(Entry::encode).collect()",
        "self.entries.iter().rev().flat_map(Entry::encode).collect()",
        "the entries stand in the opposite order",
    ),
];
