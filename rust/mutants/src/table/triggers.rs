//! '#' in the name of a trigger (docs/RULES.md, 3.2): let by as before E7, in whole, in part or by one call; what is
//! nearly '#' taken for it; looked for where it may stand; and answered otherwise.

use super::calls::{POWER_ON, REGISTER_LOCKED, REGISTER_RECORD, RESTART};
use super::entry::FIELDS;
use super::former::DUMPED;
use super::set::{LOOKS_AT_RECORD, TRIGGER};
use super::{Edit, edit};

const SIGN: &str = "if name::has_number_sign(&name) {";
const OWN_NAME: &str = "closed => name::decode_closed(closed)?";
const WITH_TRIGGER: &str = "3 => LockRule::LockOnVarState(Trigger::decode(before_name)?),";
const IN_RECORD: &str = "let entry = Entry::decode(bytes)?;";
const MALFORMED: &str =
    "let Some(decoded) = Entry::decode(entry) else {\n        return RegisterGround::Malformed;\n    };";

/// This text behind a function `plain`, which decodes an entry with 0 for each '#' in its trigger's name.
macro_rules! with_plain {
    ($text:literal) => {
        concat!(
            "fn plain(bytes: &[u8]) -> Option<Entry> { let mut bytes = bytes.to_vec(); let end = \
             usize::from(u16::from_le_bytes([*bytes.get(6)?, *bytes.get(7)?])); if bytes.get(40) == Some(&3) { for unit \
             in bytes.get_mut(62..end)?.chunks_mut(2) { if *unit == [0x23, 0] { unit[0] = 0x30; } } } \
             Entry::decode(&bytes) } ",
            $text
        )
    };
}

/// This text behind a function `plain`, which decodes a policy record with 0 for each '#' in a trigger's name.
macro_rules! with_plain_record {
    ($text:literal) => {
        concat!(
            "fn plain(record: &[u8]) -> Option<Policy> { let mut bytes = record.to_vec(); let mut at = 0; while let \
             Some(&[low, high, name, more]) = bytes.get(at + 4..at + 8).and_then(|field| field.first_chunk()) { let \
             size = usize::from(u16::from_le_bytes([low, high])); let end = at + usize::from(u16::from_le_bytes([name, \
             more])); if size == 0 { break; } if bytes.get(at + 40) == Some(&3) && let Some(units) = bytes.get_mut(at + \
             62..end) { for unit in units.chunks_mut(2) { if *unit == [0x23, 0] { unit[0] = 0x30; } } } at += size; } \
             Policy::decode(&bytes) } ",
            $text
        )
    };
}

pub(super) const ENTRY_EDITS: &[Edit] = &[
    edit("trigger-sign-let-by", SIGN, "if false {", "'#' in a trigger's name is let by, as before E7"),
    // Looked for in a part of the name.
    edit("trigger-sign-first", SIGN, "if name[0] == 0x23 {", "only the first unit of a trigger's name is looked at"),
    edit(
        "trigger-sign-last",
        SIGN,
        "if name.last() == Some(&0x23) {",
        "only the last unit of a trigger's name is looked at",
    ),
    edit(
        "trigger-sign-ends",
        SIGN,
        "if name[0] == 0x23 || name.last() == Some(&0x23) {",
        "only the first and the last unit of a trigger's name are looked at",
    ),
    edit(
        "trigger-sign-not-first",
        SIGN,
        "if name::has_number_sign(&name[1..]) {",
        "the first unit of a trigger's name is not looked at",
    ),
    edit(
        "trigger-sign-not-last",
        SIGN,
        "if name::has_number_sign(&name[..name.len() - 1]) {",
        "the last unit of a trigger's name is not looked at",
    ),
    edit(
        "trigger-sign-not-alone",
        SIGN,
        "if name.len() > 1 && name::has_number_sign(&name) {",
        "'#' may be a trigger's whole name",
    ),
    edit(
        "trigger-sign-not-64",
        SIGN,
        "if name.iter().take(63).any(|unit| *unit == 0x23) {",
        "the 64th unit of a trigger's name is not looked at",
    ),
    edit(
        "trigger-sign-first-four",
        SIGN,
        "if name.iter().take(4).any(|unit| *unit == 0x23) {",
        "only the first four units of a trigger's name are looked at",
    ),
    edit(
        "trigger-sign-first-eight",
        SIGN,
        "if name.iter().take(8).any(|unit| *unit == 0x23) {",
        "only the first eight units of a trigger's name are looked at",
    ),
    edit(
        "trigger-sign-behind-eight",
        SIGN,
        "if name.iter().skip(8).any(|unit| *unit == 0x23) {",
        "only the units behind the first eight of a trigger's name are looked at",
    ),
    edit(
        "trigger-sign-last-eight",
        SIGN,
        "if name.iter().rev().take(8).any(|unit| *unit == 0x23) {",
        "only the last eight units of a trigger's name are looked at",
    ),
    edit(
        "trigger-sign-both-eights",
        SIGN,
        "if name.iter().take(8).chain(name.iter().rev().take(8)).any(|unit| *unit == 0x23) {",
        "only the first and the last eight units of a trigger's name are looked at",
    ),
    edit(
        "trigger-sign-whole-eights",
        SIGN,
        "if name.chunks_exact(8).flatten().any(|unit| *unit == 0x23) {",
        "the units behind the last whole eight of a trigger's name are not looked at",
    ),
    edit(
        "trigger-sign-whole-fours",
        SIGN,
        "if name.chunks_exact(4).flatten().any(|unit| *unit == 0x23) {",
        "the units behind the last whole four of a trigger's name are not looked at",
    ),
    edit(
        "trigger-sign-no-eights",
        SIGN,
        "if name::has_number_sign(name.chunks_exact(8).remainder()) {",
        "only the units behind the last whole eight of a trigger's name are looked at",
    ),
    edit(
        "trigger-sign-short",
        SIGN,
        "if name.len() < 8 && name::has_number_sign(&name) {",
        "only triggers' names of fewer than eight units are looked at",
    ),
    edit(
        "trigger-sign-long",
        SIGN,
        "if name.len() >= 8 && name::has_number_sign(&name) {",
        "only triggers' names of eight units and more are looked at",
    ),
    edit(
        "trigger-sign-every-second",
        SIGN,
        "if name.iter().step_by(2).any(|unit| *unit == 0x23) {",
        "only every second unit of a trigger's name is looked at",
    ),
    edit(
        "trigger-sign-two",
        SIGN,
        "if name::wildcards(&name) > 1 {",
        "one '#' in a trigger's name is let by, two are not",
    ),
    edit(
        "trigger-sign-all",
        SIGN,
        "if name::wildcards(&name) == name.len() {",
        "only a trigger's name of '#' alone is malformed",
    ),
    edit(
        "trigger-sign-not-all",
        SIGN,
        "if (1..name.len()).contains(&name::wildcards(&name)) {",
        "a trigger's name of '#' alone is let by",
    ),
    edit(
        "trigger-sign-behind-a-letter",
        SIGN,
        "if name.windows(2).any(|pair| pair[1] == 0x23 && pair[0] != 0x23) {",
        "'#' in a trigger's name is looked for behind another unit alone",
    ),
    edit(
        "trigger-sign-by-value",
        SIGN,
        "if value != 0 && name::has_number_sign(&name) {",
        "with Value 0, '#' in the trigger's name is let by",
    ),
    edit(
        "trigger-sign-beside-own",
        WITH_TRIGGER,
        "3 => LockRule::LockOnVarState(match Trigger::decode(before_name) { Some(trigger) => trigger, None if \
         cursor.rest().chunks(2).any(|unit| *unit == [0x23, 0]) => Trigger { namespace: \
         before_name.get(..16)?.try_into().ok()?, value: *before_name.get(16)?, reserved: *before_name.get(17)?, name: \
         name::decode_closed(before_name.get(18..)?)? }, None => return None }),",
        "'#' in the trigger's name is let by if the entry's own name has one",
    ),
    // Taken for '#'.
    edit(
        "trigger-sign-low-byte",
        SIGN,
        "if name.iter().any(|unit| unit & 0xFF == 0x23) {",
        "a unit with the low byte of '#' is '#' in a trigger's name",
    ),
    edit(
        "trigger-sign-high-byte",
        SIGN,
        "if name.iter().any(|unit| *unit == 0x23 || unit >> 8 == 0x23) {",
        "a unit with '#' for its high byte is '#' in a trigger's name",
    ),
    edit(
        "trigger-sign-any-byte",
        SIGN,
        "if cursor.rest().contains(&0x23) {",
        "no byte of a trigger's name may be that of '#'",
    ),
    edit(
        "trigger-sign-across",
        SIGN,
        "if cursor.rest().windows(2).any(|pair| pair == [0x23, 0]) {",
        "'#' is found across two units of a trigger's name too",
    ),
    edit(
        "trigger-sign-swapped",
        SIGN,
        "if name.contains(&0x2300) {",
        "0x2300 is looked for in a trigger's name, and not '#'",
    ),
    edit(
        "trigger-sign-or-swapped",
        SIGN,
        "if name.contains(&0x2300) || name::has_number_sign(&name) {",
        "0x2300 in a trigger's name is malformed too",
    ),
    edit(
        "trigger-sign-0x22",
        SIGN,
        "if name.iter().any(|unit| (0x22..=0x23).contains(unit)) {",
        "0x22 in a trigger's name is malformed too",
    ),
    edit(
        "trigger-sign-0x24",
        SIGN,
        "if name.iter().any(|unit| (0x23..=0x24).contains(unit)) {",
        "0x24 in a trigger's name is malformed too",
    ),
    edit(
        "trigger-sign-0x22-alone",
        SIGN,
        "if name.contains(&0x22) {",
        "0x22 is looked for in a trigger's name, and not '#'",
    ),
    edit(
        "trigger-sign-bit-7",
        SIGN,
        "if name.iter().any(|unit| unit & !0x80 == 0x23) {",
        "bit 7 of '#' does not count in a trigger's name",
    ),
    edit(
        "trigger-sign-high-bit",
        SIGN,
        "if name.iter().any(|unit| (unit ^ 0x23).wrapping_sub(1) & 0x8000 != 0) {",
        "units of 0x8000 and over are '#' in a trigger's name, but for one",
    ),
    edit(
        "trigger-sign-full-width",
        SIGN,
        "if name.contains(&0xFF03) || name::has_number_sign(&name) {",
        "the full-width number sign is '#' in a trigger's name",
    ),
    edit(
        "trigger-sign-star",
        SIGN,
        "if name.contains(&0x2A) || name::has_number_sign(&name) {",
        "'*' in a trigger's name is malformed too",
    ),
    // Looked for beside the name.
    edit("trigger-sign-of-value", SIGN, "if value == 0x23 || name::has_number_sign(&name) {", "Value may not be 0x23"),
    edit(
        "trigger-sign-from-60",
        SIGN,
        "if bytes[16..].chunks(2).any(|unit| *unit == [0x23, 0]) {",
        "Value and Reserved are looked at as a unit of the trigger's name",
    ),
    edit(
        "trigger-sign-from-61",
        SIGN,
        "if bytes[17..].windows(2).step_by(2).any(|pair| pair == [0x23, 0]) || name::has_number_sign(&name) {",
        "'#' in a trigger's name is looked for from byte 61 on too",
    ),
    edit(
        "trigger-sign-from-44",
        SIGN,
        "if bytes.chunks(2).any(|unit| *unit == [0x23, 0]) {",
        "the trigger's namespace is looked at for '#' too",
    ),
    edit(
        "trigger-sign-in-own",
        OWN_NAME,
        "closed => name::decode_closed(closed).filter(|name| lock_type != 3 || !name::has_number_sign(name))?",
        "'#' in the own name of an entry with a trigger is malformed too",
    ),
    edit(
        "trigger-sign-in-own-first",
        OWN_NAME,
        "closed => name::decode_closed(closed).filter(|name| lock_type != 3 || name[0] != 0x23)?",
        "'#' is looked for one unit behind the trigger's name, where the own name begins",
    ),
    edit(
        "trigger-sign-in-own-at-62",
        FIELDS,
        "version != VERSION || size != bytes.len() || min_size > max_size || must_have & cant_have != 0 || lock_type < \
         3 && bytes.get(62..).is_some_and(|rest| rest.chunks(2).any(|unit| *unit == [0x23, 0]))",
        "entries without a trigger are looked at for '#' from byte 62 on too",
    ),
    edit(
        "trigger-sign-type-1-at-62",
        FIELDS,
        "version != VERSION || size != bytes.len() || min_size > max_size || must_have & cant_have != 0 || lock_type == \
         1 && bytes.get(62..64) == Some(&[0x23, 0])",
        "byte 62 of an entry of type 1 is looked at for '#' too",
    ),
];

pub(super) const POLICY_EDITS: &[Edit] = &[
    edit(
        "record-trigger-sign",
        IN_RECORD,
        with_plain!("let entry = Entry::decode(bytes).or_else(|| plain(bytes))?;"),
        "a record may hold an entry with '#' in its trigger's name",
    ),
    edit(
        "record-trigger-sign-first",
        IN_RECORD,
        with_plain!(
            "let entry = Entry::decode(bytes).or_else(|| plain(bytes).filter(|_| !policy.entries.is_empty()))?;"
        ),
        "of a record only the first entry is looked at for '#' in its trigger's name",
    ),
    edit(
        "record-trigger-sign-not-first",
        IN_RECORD,
        with_plain!(
            "let entry = Entry::decode(bytes).or_else(|| plain(bytes).filter(|_| policy.entries.is_empty()))?;"
        ),
        "of a record the first entry is not looked at for '#' in its trigger's name",
    ),
    edit(
        "record-trigger-sign-last",
        IN_RECORD,
        with_plain!(
            "let entry = Entry::decode(bytes).or_else(|| plain(bytes).filter(|_| *behind != ZEROS[..behind.len()]))?;"
        ),
        "of a record only the last entry is looked at for '#' in its trigger's name",
    ),
    edit(
        "record-trigger-sign-not-last",
        IN_RECORD,
        with_plain!(
            "let entry = Entry::decode(bytes).or_else(|| plain(bytes).filter(|_| *behind == ZEROS[..behind.len()]))?;"
        ),
        "of a record the last entry is not looked at for '#' in its trigger's name",
    ),
    edit(
        "record-trigger-sign-not-128th",
        IN_RECORD,
        with_plain!(
            "let entry = Entry::decode(bytes).or_else(|| plain(bytes).filter(|_| policy.entries.len() == MAX_ENTRIES - \
             1))?;"
        ),
        "of a record the last entry within the limit is not looked at for '#' in its trigger's name",
    ),
    edit(
        "record-trigger-sign-first-64",
        IN_RECORD,
        with_plain!(
            "let entry = Entry::decode(bytes).or_else(|| plain(bytes).filter(|_| policy.entries.len() >= 64))?;"
        ),
        "of a record the first 64 entries are looked at for '#' in their triggers' names",
    ),
    edit(
        "record-trigger-sign-at-8192",
        IN_RECORD,
        with_plain!(
            "let entry = Entry::decode(bytes).or_else(|| plain(bytes).filter(|_| record.len() - rest.len() >= 8192))?;"
        ),
        "of a record only the first 8,192 bytes are looked at for '#' in a trigger's name",
    ),
    edit(
        "record-trigger-sign-eight-units",
        IN_RECORD,
        with_plain!(
            "let entry = Entry::decode(bytes).or_else(|| plain(bytes).filter(|entry| if let \
             crate::entry::LockRule::LockOnVarState(trigger) = &entry.lock { trigger.name.len() > 8 } else { false }))?;"
        ),
        "in a record '#' is looked for in triggers' names of eight units at most",
    ),
    edit(
        "record-trigger-sign-ends",
        IN_RECORD,
        with_plain!(
            "let Some(entry) = Entry::decode(bytes) else { if plain(bytes).is_some() { break; } return None; };"
        ),
        "an entry with '#' in its trigger's name ends the entries, and nothing behind it is looked at",
    ),
    edit(
        "record-trigger-sign-skipped",
        IN_RECORD,
        with_plain!(
            "let Some(entry) = Entry::decode(bytes) else { if plain(bytes).is_some() { rest = behind; continue; } return \
             None; };"
        ),
        "an entry of a record with '#' in its trigger's name is passed over",
    ),
];

pub(super) const EDITS: &[Edit] = &[
    // Registration.
    edit(
        "register-trigger-sign",
        MALFORMED,
        with_plain!(
            "let Some(decoded) = Entry::decode(entry).or_else(|| plain(entry)) else { return RegisterGround::Malformed; };"
        ),
        "an entry with '#' in its trigger's name is registered, with 0 in its place",
    ),
    edit(
        "register-trigger-sign-0",
        MALFORMED,
        with_plain!(
            "let Some(decoded) = Entry::decode(entry) else { return if plain(entry).is_some() { \
             RegisterGround::Registered } else { RegisterGround::Malformed }; };"
        ),
        "'#' in the trigger's name: registration answers 0 and leaves nothing",
    ),
    edit(
        "register-trigger-sign-3",
        MALFORMED,
        with_plain!(
            "let Some(decoded) = Entry::decode(entry) else { return if plain(entry).is_some() { RegisterGround::Exited } \
             else { RegisterGround::Malformed }; };"
        ),
        "'#' in the trigger's name: registration answers 3",
    ),
    edit(
        "register-trigger-sign-8",
        MALFORMED,
        with_plain!(
            "let Some(decoded) = Entry::decode(entry) else { return if plain(entry).is_some() { RegisterGround::Locked } \
             else { RegisterGround::Malformed }; };"
        ),
        "'#' in the trigger's name: registration answers 8",
    ),
    edit(
        "register-trigger-sign-9",
        MALFORMED,
        with_plain!(
            "let Some(decoded) = Entry::decode(entry) else { return if plain(entry).is_some() { RegisterGround::TooLong } \
             else { RegisterGround::Malformed }; };"
        ),
        "'#' in the trigger's name: registration answers 9",
    ),
    edit(
        "register-trigger-sign-10",
        MALFORMED,
        with_plain!(
            "let Some(decoded) = Entry::decode(entry) else { return if plain(entry).is_some() { \
             RegisterGround::BadRecord } else { RegisterGround::Malformed }; };"
        ),
        "'#' in the trigger's name: registration answers 10",
    ),
    edit(
        "register-trigger-sign-if-locked",
        REGISTER_LOCKED,
        with_plain!(
            "if switches.locked { return if Entry::decode(entry).is_none() && plain(entry).is_some() { \
             RegisterGround::Malformed } else { RegisterGround::Locked }; } let Some(decoded)"
        ),
        "'#' in the trigger's name: 2 before 8",
    ),
    edit(
        "register-trigger-sign-and-record",
        REGISTER_RECORD,
        with_plain!(
            "if Entry::decode(entry).is_none() && plain(entry).is_some() && !switches.locked { return \
             RegisterGround::Malformed; } let Some(mut policy) = Policy::decode(record) else {"
        ),
        "'#' in the trigger's name: 2 before 10",
    ),
    edit(
        "register-trigger-sign-repeat",
        MALFORMED,
        with_plain!(
            "let Some(decoded) = Entry::decode(entry) else { return if plain(entry).is_some_and(|entry| \
             policy.holds(&entry)) { RegisterGround::Repeated } else { RegisterGround::Malformed }; };"
        ),
        "'#' in the trigger's name: 20 before 2",
    ),
    edit(
        "register-trigger-sign-too-many",
        MALFORMED,
        with_plain!(
            "let Some(decoded) = Entry::decode(entry) else { return if plain(entry).is_some() && policy.entries.len() == \
             MAX_ENTRIES { RegisterGround::TooMany } else { RegisterGround::Malformed }; };"
        ),
        "'#' in the trigger's name: the 9 of one entry too many before 2",
    ),
    edit(
        "register-trigger-sign-too-long",
        MALFORMED,
        with_plain!(
            "let Some(decoded) = Entry::decode(entry) else { return if plain(entry).is_some() && policy.encode().len() + \
             entry.len() > POLICY_BYTES { RegisterGround::TooLong } else { RegisterGround::Malformed }; };"
        ),
        "'#' in the trigger's name: the 9 of too long a sum before 2",
    ),
    edit(
        "register-trigger-sign-if-disabled",
        MALFORMED,
        with_plain!(
            "let Some(decoded) = Entry::decode(entry).or_else(|| plain(entry).filter(|_| !switches.enabled)) else { \
             return RegisterGround::Malformed; };"
        ),
        "a disabled engine registers an entry with '#' in its trigger's name, with 0 in its place",
    ),
    // A record with such an entry, lent to one call.
    edit(
        "register-over-trigger-sign",
        REGISTER_RECORD,
        with_plain_record!("let Some(mut policy) = plain(record) else {"),
        "register takes a record with '#' in a trigger's name",
    ),
    edit(
        "register-over-trigger-sign-locked",
        REGISTER_RECORD,
        with_plain_record!(
            "if switches.locked && plain(record).is_some() { return RegisterGround::Locked; } let Some(mut policy) = \
             Policy::decode(record) else {"
        ),
        "register: 8 before 10 over a record with '#' in a trigger's name",
    ),
    edit(
        "register-over-trigger-sign-2",
        REGISTER_RECORD,
        with_plain_record!(
            "if Policy::decode(record).is_none() && plain(record).is_some() { return RegisterGround::Malformed; } let \
             Some(mut policy) = Policy::decode(record) else {"
        ),
        "register answers 2 over a record with '#' in a trigger's name",
    ),
    edit(
        "dump-over-trigger-sign",
        DUMPED,
        with_plain_record!("let Some(policy) = plain(record) else { return (Status::VolumeCorrupted, 0);"),
        "dump takes a record with '#' in a trigger's name",
    ),
    edit(
        "dump-over-trigger-sign-short",
        DUMPED,
        with_plain_record!(
            "if plain(record).is_some_and(|policy| buffer.len() < policy.encode().len()) { return \
             (Status::BufferTooSmall, plain(record).unwrap_or_default().encode().len()); } let Some(policy) = \
             Policy::decode(record) else { return (Status::VolumeCorrupted, 0);"
        ),
        "dump: 5 before 10 over a record with '#' in a trigger's name",
    ),
    edit(
        "set-over-trigger-sign",
        LOOKS_AT_RECORD,
        with_plain_record!("let Some(policy) = plain(record) else { return SetGround::BadRecord; };"),
        "set takes a record with '#' in a trigger's name",
    ),
    edit(
        "set-over-trigger-sign-if-disabled",
        LOOKS_AT_RECORD,
        with_plain_record!(
            "let Some(policy) = Policy::decode(record).or_else(|| plain(record).filter(|_| !switches.enabled)) else { \
             return SetGround::BadRecord; };"
        ),
        "a disabled engine's set takes a record with '#' in a trigger's name",
    ),
    edit(
        "set-over-trigger-sign-2",
        LOOKS_AT_RECORD,
        with_plain_record!(
            "let Some(policy) = Policy::decode(record) else { return if plain(record).is_some() { SetGround::BadName } \
             else { SetGround::BadRecord }; };"
        ),
        "set answers 2 over a record with '#' in a trigger's name",
    ),
    edit(
        "power-on-over-trigger-sign",
        POWER_ON,
        with_plain_record!(
            "if !sound || volatile.len() > MAX_STORE || policy.len() != POLICY_BYTES || Policy::decode(policy).is_none() \
             && plain(policy).is_some() {"
        ),
        "power-on refuses a record with '#' in a trigger's name",
    ),
    edit(
        "restart-over-trigger-sign",
        RESTART,
        with_plain_record!(
            "if Pair::decode(non_volatile, volatile).is_none() || policy.len() != POLICY_BYTES || \
             Policy::decode(policy).is_none() && plain(policy).is_some() {"
        ),
        "restart refuses a record with '#' in a trigger's name",
    ),
    edit(
        "start-keeps-trigger-sign",
        "policy.fill(0);",
        with_plain_record!("if Policy::decode(policy).is_some() || plain(policy).is_none() { policy.fill(0); }"),
        "a start leaves a record with '#' in a trigger's name as it was",
    ),
    // A set.
    edit(
        "step4-trigger-by-match",
        TRIGGER,
        "{ let mut kinds = [Kind::NonVolatile, Kind::Volatile].into_iter(); \
         pair.find(&trigger.namespace, &trigger.name).or_else(|| kinds.find_map(|kind| \
         pair.of(kind).iter().position(|variable| variable.namespace == trigger.namespace && \
         name::matches(&variable.name, &trigger.name)).map(|place| (kind, place, &pair.of(kind)[place]))))? };",
        "a variable with '#' for digits of the trigger's name stands for an absent trigger",
    ),
];
