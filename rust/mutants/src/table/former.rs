//! The limits before E5, which are none any more: in place of the limits, beside them, or of one call alone.

use super::calls::{DUMP, DUMP_SHORT, POWER_ON, REGISTER_RECORD, RESTART, TOO_LONG, TOO_MANY};
use super::policy::{CHOICE, HOLDS, LIMITS, LONGER, TARGETING, ZEROS};
use super::set::LOOKS_AT_RECORD;
use super::{Edit, edit};

pub(super) const DUMPED: &str =
    "    let Some(policy) = Policy::decode(record) else {\n        return (Status::VolumeCorrupted, 0);";

pub(super) const LIMIT_EDITS: &[Edit] = &[
    edit("former-entries", "MAX_ENTRIES: usize = 128", "MAX_ENTRIES: usize = 64", "the former limit of entries"),
    edit(
        "former-record",
        "POLICY_BYTES: usize = 16384",
        "POLICY_BYTES: usize = 8192",
        "the former limit of the record",
    ),
    edit(
        "former-both",
        "128;\n/// Length of the lent policy record, and the most that the Sizes of its entries sum to.\npub const \
         POLICY_BYTES: usize = 16384;",
        "64; pub const POLICY_BYTES: usize = 8192;",
        "the former limits, both",
    ),
];

pub(super) const POLICY_EDITS: &[Edit] = &[
    edit(
        "former-length-in-every-record",
        LONGER,
        "let padded = [record, &ZEROS[..8192]].concat(); let record = if record.len() == 8192 { &padded[..] } else { \
         record }; if record.len() != POLICY_BYTES {",
        "register, dump and set take a record of the former length too",
    ),
    edit(
        "former-count-in-a-record",
        LIMITS,
        "policy.entries.len() == 64 || policy.holds(&entry)",
        "a record holds the former limit of entries at most",
    ),
    edit(
        "former-sum-in-a-record",
        LIMITS,
        "record.len() - behind.len() > 8192 || policy.entries.len() == MAX_ENTRIES || policy.holds(&entry)",
        "the entries of a record sum to the former limit at most",
    ),
    edit(
        "former-length-looked-at",
        "let mut rest = record;",
        "let mut rest = &record[..8192];",
        "nothing behind the former length is looked at",
    ),
    edit(
        "former-length-ends-entries",
        ZEROS,
        "while *rest != ZEROS[..rest.len()] && record.len() - rest.len() < 8192 {",
        "no entry begins behind the former length, and what stands there is let by",
    ),
    edit(
        "former-length-ends-zeros",
        ZEROS,
        "while rest.iter().take(if rest.len() > 8192 { rest.len() - 8192 } else { 8192 }).any(|byte| *byte != 0) {",
        "behind the entries only the zeros up to the former length are looked at",
    ),
    edit(
        "former-count-compared",
        HOLDS,
        "self.entries.iter().take(64).any(|known| known.repeats(entry))",
        "only as many entries as the former limit are compared",
    ),
    edit(
        "former-length-compared",
        HOLDS,
        "{ let mut at = 0; self.entries.iter().any(|known| { let begins = at; at += known.encode().len(); begins < \
         8192 && known.repeats(entry) }) }",
        "only the entries that begin within the former length are compared",
    ),
    edit(
        "former-count-chosen-from",
        TARGETING,
        "self.entries.iter().take(64).filter(|entry| entry.targets(namespace, name))",
        "only as many entries as the former limit speak",
    ),
    edit(
        "former-length-chosen-from",
        TARGETING,
        "{ let mut at = 0; self.entries.iter().filter(move |entry| { let begins = at; at += entry.encode().len(); \
         begins < 8192 && entry.targets(namespace, name) }) }",
        "only the entries that begin within the former length speak",
    ),
    edit(
        "former-count-of-places",
        CHOICE,
        "{ let chosen = targeting.min_by_key(|entry| entry.rank()); let place = self.entries.iter().position(|entry| \
         Some(entry) == chosen); place.map(|place| &self.entries[place % 64]) }",
        "6 bits of the chosen entry's place count",
    ),
];

pub(super) const EDITS: &[Edit] = &[
    edit(
        "former-length-at-power-on",
        POWER_ON,
        "if !sound || volatile.len() > MAX_STORE || ![8192, POLICY_BYTES].contains(&policy.len()) {",
        "power-on takes a record of the former length too",
    ),
    edit(
        "former-length-at-restart",
        RESTART,
        "if Pair::decode(non_volatile, volatile).is_none() || ![8192, POLICY_BYTES].contains(&policy.len()) {",
        "restart takes a record of the former length too",
    ),
    edit(
        "former-length-wiped",
        "policy.fill(0);",
        "policy[..8192].fill(0);",
        "a start wipes the former length of the policy record",
    ),
    edit(
        "former-length-in-register",
        REGISTER_RECORD,
        "if record.len() == 8192 { let mut longer = [&record[..], &[0; 8192]].concat(); let ground = register(&mut \
         longer, switches, entry); record.copy_from_slice(&longer[..8192]); return ground; } let Some(mut policy) = \
         Policy::decode(record) else {",
        "register takes a record of the former length too",
    ),
    edit(
        "former-length-if-locked",
        REGISTER_RECORD,
        "if record.len() == 8192 && switches.locked { return RegisterGround::Locked; } let Some(mut policy) = \
         Policy::decode(record) else {",
        "register: 8 before 10 over a record of the former length",
    ),
    edit(
        "former-length-in-dump",
        DUMPED,
        "if record.len() == 8192 { return dump(&[record, &[0; 8192]].concat(), switches, buffer); } let Some(policy) = \
         Policy::decode(record) else { return (Status::VolumeCorrupted, 0);",
        "dump takes a record of the former length too",
    ),
    edit(
        "former-length-in-set",
        LOOKS_AT_RECORD,
        "if record.len() == 8192 { return carry_out(non_volatile, volatile, &[record, &[0; 8192]].concat(), switches, \
         request); } let Some(policy) = Policy::decode(record) else { return SetGround::BadRecord; };",
        "set takes a record of the former length too",
    ),
    edit(
        "former-length-if-disabled",
        LOOKS_AT_RECORD,
        "if record.len() == 8192 && !switches.enabled { return carry_out(non_volatile, volatile, &[record, &[0; \
         8192]].concat(), switches, request); } let Some(policy) = Policy::decode(record) else { return \
         SetGround::BadRecord; };",
        "a disabled engine's set takes a record of the former length too",
    ),
    edit(
        "former-count-registered",
        TOO_MANY,
        "if policy.entries.len() >= 64 { return RegisterGround::TooMany; }",
        "the former limit of entries is the most that is registered",
    ),
    edit(
        "former-sum-registered",
        TOO_LONG,
        "if bytes.len() > 8192 { return RegisterGround::TooLong;",
        "the former limit of the sum is the most that is registered",
    ),
    edit(
        "former-both-registered",
        TOO_LONG,
        "if bytes.len() > POLICY_BYTES || bytes.len() > 8192 && policy.entries.len() > 64 { return \
         RegisterGround::TooLong;",
        "what is over both former limits is not registered",
    ),
    edit(
        "former-sum-dumped",
        "(Status::Success, bytes.len())",
        "(Status::Success, bytes.len().min(8192))",
        "a dump tells the former limit of the sum at most",
    ),
    edit(
        "former-sum-needed",
        DUMP_SHORT,
        "None => (Status::BufferTooSmall, bytes.len().min(8192)),",
        "beside 5 the former limit of the sum at most",
    ),
    edit(
        "former-sum-13-bits",
        "(Status::Success, bytes.len())",
        "(Status::Success, if bytes.len() > 8192 { bytes.len() & 0x1FFF } else { bytes.len() })",
        "of a sum over the former limit a dump tells 13 bits",
    ),
    edit(
        "former-length-of-a-buffer",
        DUMP,
        "match if buffer.len() == 8192 && bytes.len() > 8192 { Some(buffer) } else { buffer.get_mut(..bytes.len()) } \
         { Some(start) if start.len() < bytes.len() => { start.copy_from_slice(&bytes[..8192]); (Status::Success, \
         8192) }",
        "a buffer of the former length is long enough for every dump",
    ),
];
