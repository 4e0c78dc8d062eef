//! The packed entry.

use super::{Edit, edit};

pub(super) const FIELDS: &str =
    "version != VERSION || size != bytes.len() || min_size > max_size || must_have & cant_have != 0";
const OFFSET: &str = "cursor.take(offset_to_name.checked_sub(HEADER)?)?";
const NAME: &str = "[] => Vec::new(),\n            closed";
pub(super) const REPEATS: &str = "self.namespace == other.namespace && self.name == other.name";
pub(super) const TARGETS: &str =
    "self.namespace == *namespace && (self.name.is_empty() || name::matches(&self.name, variable))";
const TRIGGER_NAME: &str = "let name = name::decode_closed(cursor.rest())?;";
const WHOLE: &str = "[] => crate::MAX_UNITS + 1";

pub(super) const EDITS: &[Edit] = &[
    edit(
        "entry-version-any",
        FIELDS,
        "size != bytes.len() || min_size > max_size || must_have & cant_have != 0",
        "any Version",
    ),
    edit(
        "entry-version-major",
        FIELDS,
        "version >> 16 != 1 || size != bytes.len() || min_size > max_size || must_have & cant_have != 0",
        "only the high half of Version counts",
    ),
    edit(
        "entry-version-low",
        FIELDS,
        "version & 0xFF_FFFF != VERSION || size != bytes.len() || min_size > max_size || must_have & cant_have != 0",
        "the high byte of Version does not count",
    ),
    edit("entry-version-1", "VERSION: u32 = 0x0001_0000", "VERSION: u32 = 1", "Version is 1"),
    edit(
        "entry-longer-than-size",
        FIELDS,
        "version != VERSION || size > bytes.len() || min_size > max_size || must_have & cant_have != 0",
        "the bytes may be longer than Size",
    ),
    edit(
        "entry-shorter-than-size",
        FIELDS,
        "version != VERSION || size < bytes.len() || min_size > max_size || must_have & cant_have != 0",
        "the bytes may be shorter than Size",
    ),
    edit(
        "entry-size-low-byte",
        FIELDS,
        "version != VERSION || size as u8 != bytes.len() as u8 || min_size > max_size || must_have & cant_have != 0",
        "only the low byte of Size counts",
    ),
    edit(
        "entry-min-below-max",
        FIELDS,
        "version != VERSION || size != bytes.len() || min_size >= max_size || must_have & cant_have != 0",
        "MinSize is less than MaxSize",
    ),
    edit(
        "entry-min-over-max",
        FIELDS,
        "version != VERSION || size != bytes.len() || must_have & cant_have != 0",
        "MinSize may be over MaxSize",
    ),
    edit(
        "entry-min-max-signed",
        FIELDS,
        "version != VERSION || size != bytes.len() || min_size as i32 > max_size as i32 || must_have & cant_have \
         != 0",
        "MinSize and MaxSize are signed",
    ),
    edit(
        "entry-min-max-16-bits",
        FIELDS,
        "version != VERSION || size != bytes.len() || min_size as u16 > max_size as u16 || must_have & cant_have \
         != 0",
        "MinSize and MaxSize have 16 bits",
    ),
    edit(
        "entry-max-not-0",
        FIELDS,
        "version != VERSION || size != bytes.len() || max_size == 0 || min_size > max_size || must_have & \
         cant_have != 0",
        "MaxSize 0 is malformed",
    ),
    edit(
        "entry-common-bit",
        FIELDS,
        "version != VERSION || size != bytes.len() || min_size > max_size",
        "a bit may be required and prohibited",
    ),
    edit(
        "entry-common-known-bit",
        FIELDS,
        "version != VERSION || size != bytes.len() || min_size > max_size || must_have & cant_have & 0x47 != 0",
        "a bit outside 0x47 may be required and prohibited",
    ),
    edit(
        "entry-unknown-bit",
        FIELDS,
        "version != VERSION || size != bytes.len() || min_size > max_size || must_have & cant_have != 0 || \
         must_have & !0x47 != 0",
        "a required bit outside 0x47 is malformed",
    ),
    edit(
        "entry-unknown-prohibited",
        FIELDS,
        "version != VERSION || size != bytes.len() || min_size > max_size || must_have & cant_have != 0 || \
         cant_have & !0x47 != 0",
        "a prohibited bit outside 0x47 is malformed",
    ),
    edit(
        "entry-reserved-zero",
        FIELDS,
        "version != VERSION || size != bytes.len() || min_size > max_size || must_have & cant_have != 0 || \
         reserved != [0; 3]",
        "the reserved bytes must be zero",
    ),
    edit(
        "entry-reserved-lost",
        "bytes.extend(self.reserved);",
        "bytes.extend([0; 3]);",
        "the reserved bytes are not kept",
    ),
    edit(
        "entry-offset-small",
        OFFSET,
        "cursor.take(offset_to_name.saturating_sub(HEADER))?",
        "an OffsetToName under 44 is taken as 44",
    ),
    edit(
        "entry-offset-far",
        OFFSET,
        "cursor.take(offset_to_name.checked_sub(HEADER)?.min(cursor.rest().len()))?",
        "an OffsetToName behind the end is taken as the end",
    ),
    edit("entry-offset-type-0", "0 if before_name.is_empty()", "0", "any OffsetToName for type 0"),
    edit("entry-offset-type-1", "1 if before_name.is_empty()", "1", "any OffsetToName for type 1"),
    edit("entry-offset-type-2", "2 if before_name.is_empty()", "2", "any OffsetToName for type 2"),
    edit(
        "entry-type-4",
        "_ => return None,",
        "4 if before_name.is_empty() => LockRule::NoLock, _ => return None,",
        "type 4 is no lock",
    ),
    edit(
        "entry-type-255",
        "_ => return None,",
        "255 if before_name.is_empty() => LockRule::NoLock, _ => return None,",
        "type 255 is no lock",
    ),
    edit("entry-type-two-bits", "match lock_type {", "match lock_type & 3 {", "only two bits of the type count"),
    edit("entry-type-1-refused", "1 if before_name.is_empty()", "1 if false", "type 1 is malformed"),
    edit(
        "entry-name-zero-unit",
        NAME,
        "[] | [0, 0] => Vec::new(), closed",
        "a name of only a zero unit is the whole namespace",
    ),
    edit("entry-name-not-empty", NAME, "[] => return None, closed", "an entry must have a name"),
    edit(
        "trigger-name-empty",
        TRIGGER_NAME,
        "let name = if cursor.rest() == [0, 0] { Vec::new() } else { name::decode_closed(cursor.rest())? };",
        "a trigger's name may be empty",
    ),
    edit(
        "trigger-name-missing",
        TRIGGER_NAME,
        "let name = if cursor.rest().is_empty() { Vec::new() } else { name::decode_closed(cursor.rest())? };",
        "a trigger may have no name",
    ),
    edit(
        "trigger-reserved-zero",
        "let reserved = cursor.u8()?;",
        "let reserved = cursor.u8().filter(|byte| *byte == 0)?;",
        "the trigger's reserved byte must be zero",
    ),
    edit(
        "trigger-reserved-lost",
        "bytes.push(self.reserved);",
        "bytes.push(0);",
        "the trigger's reserved byte is not kept",
    ),
    edit(
        "trigger-value-at-61",
        "let value = cursor.u8()?;\n        let reserved = cursor.u8()?;",
        "let reserved = cursor.u8()?; let value = cursor.u8()?;",
        "Value stands at 61",
    ),
    edit("repeat-by-name", REPEATS, "self.name == other.name", "entries of one name repeat each other"),
    edit(
        "repeat-by-namespace",
        REPEATS,
        "self.namespace == other.namespace",
        "entries of one namespace repeat each other",
    ),
    edit(
        "repeat-not-whole",
        REPEATS,
        "!self.name.is_empty() && self.namespace == other.namespace && self.name == other.name",
        "whole-namespace entries do not repeat each other",
    ),
    edit(
        "repeat-not-signs",
        REPEATS,
        "self.namespace == other.namespace && self.name == other.name && !self.name.contains(&0x23)",
        "entries with '#' do not repeat each other",
    ),
    edit(
        "repeat-by-match",
        REPEATS,
        "self.namespace == other.namespace && (self.name == other.name || name::matches(&self.name, &other.name))",
        "an entry repeats a pattern that matches its name",
    ),
    edit("repeat-whole-entry", REPEATS, "self == other", "only entries equal in all fields repeat each other"),
    edit(
        "repeat-and-lock",
        REPEATS,
        "self.namespace == other.namespace && self.name == other.name && self.lock == other.lock",
        "entries with other locks do not repeat each other",
    ),
    edit(
        "target-any-namespace",
        TARGETS,
        "self.name.is_empty() || name::matches(&self.name, variable)",
        "the namespace is not compared",
    ),
    edit(
        "target-namespace-15",
        TARGETS,
        "self.namespace[..15] == namespace[..15] && (self.name.is_empty() || name::matches(&self.name, variable))",
        "15 bytes of the namespace are compared",
    ),
    edit(
        "target-not-whole",
        TARGETS,
        "self.namespace == *namespace && name::matches(&self.name, variable)",
        "an empty name targets nothing",
    ),
    edit(
        "target-exactly",
        TARGETS,
        "self.namespace == *namespace && (self.name.is_empty() || self.name == variable)",
        "'#' is not looked at",
    ),
    edit("rank-whole-0", WHOLE, "[] => 0", "the whole namespace has rank 0"),
    edit("rank-whole-64", WHOLE, "[] => crate::MAX_UNITS", "the whole namespace has rank 64"),
    edit("rank-whole-66", WHOLE, "[] => crate::MAX_UNITS + 2", "the whole namespace has rank 66"),
    edit("rank-whole-1", WHOLE, "[] => 1", "the whole namespace has rank 1"),
];
