//! The stores and their records.

use super::{Edit, edit};

const ATTRIBUTES: &str = "&& attributes & !(NV | BS | RT) == 0";
const BY_STORE: &str = "&& non_volatile == (kind == Kind::NonVolatile)";
const DATA: &str = "(1..=MAX_PAYLOAD).contains(&payload.len());";
const PADDED: &str = "(self.payload_at() + self.payload.len()).next_multiple_of(4)";
const PADDING: &str = "cursor.take(variable.record_len() - used)?";
const REST: &str = "while !is_erased(cursor.rest()) {";
pub(super) const IS: &str = "self.namespace == *namespace && self.name == name";
const SEEN: &str = "seen.insert((&variable.namespace, &variable.name))";

pub(super) const EDITS: &[Edit] = &[
    edit(
        "store-start-any",
        "let sound = start == START\n            && state",
        "let sound = state",
        "any two bytes start a record",
    ),
    edit(
        "store-start-low",
        "let sound = start == START",
        "let sound = start as u8 == START as u8",
        "only the first byte of 0x55AA counts",
    ),
    edit(
        "store-start-high",
        "let sound = start == START",
        "let sound = start >> 8 == START >> 8",
        "only the second byte of 0x55AA counts",
    ),
    edit("store-state-any", "&& state == ADDED", "", "any state"),
    edit(
        "store-state-3d",
        "&& state == ADDED",
        "&& (state == ADDED || state == 0x3D)",
        "a record marked deleted is a record",
    ),
    edit(
        "store-state-7f",
        "&& state == ADDED",
        "&& (state == ADDED || state == 0x7F)",
        "a record of which only the header is valid is a record",
    ),
    edit("store-zero-any", "&& zero == 0", "", "any byte behind the state"),
    edit("store-attributes-any", ATTRIBUTES, "", "any stored attributes"),
    edit("store-attributes-append", ATTRIBUTES, "&& attributes & !(NV | BS | RT | 0x40) == 0", "append may be stored"),
    edit("store-attributes-byte", ATTRIBUTES, "&& attributes as u8 & !7 == 0", "one byte of stored attributes counts"),
    edit(
        "store-attributes-31",
        ATTRIBUTES,
        "&& attributes & 0x7FFF_FFFF & !(NV | BS | RT) == 0",
        "bit 31 may be stored",
    ),
    edit("store-without-bs", "&& attributes & BS != 0", "", "a stored variable may be without BS"),
    edit("store-rt-for-bs", "&& attributes & BS != 0", "&& attributes & (BS | RT) != 0", "RT does instead of BS"),
    edit("store-any-nv", BY_STORE, "", "either store holds variables with NV and without"),
    edit(
        "store-nv-anywhere",
        BY_STORE,
        "&& (non_volatile || kind == Kind::Volatile)",
        "the volatile store may hold variables with NV",
    ),
    edit(
        "store-no-nv-anywhere",
        BY_STORE,
        "&& (!non_volatile || kind == Kind::NonVolatile)",
        "the non-volatile store may hold variables without NV",
    ),
    edit("store-data-0", DATA, "(0..=MAX_PAYLOAD).contains(&payload.len());", "DataSize may be 0"),
    edit("store-data-2", DATA, "(2..=MAX_PAYLOAD).contains(&payload.len());", "DataSize is at least 2"),
    edit("store-data-1023", DATA, "(1..MAX_PAYLOAD).contains(&payload.len());", "DataSize is at most 1,023"),
    edit("store-data-1025", DATA, "(1..=MAX_PAYLOAD + 1).contains(&payload.len());", "DataSize is at most 1,025"),
    edit("store-data-any", DATA, "!payload.is_empty();", "DataSize is unbounded"),
    edit(
        "store-name-16-bits",
        "cursor.take(name_size as usize)?",
        "cursor.take(name_size as u16 as usize)?",
        "16 bits of NameSize count",
    ),
    edit(
        "store-data-16-bits",
        "cursor.take(data_size as usize)?",
        "cursor.take(data_size as u16 as usize)?",
        "16 bits of DataSize count",
    ),
    edit(
        "store-name-31-bits",
        "cursor.take(name_size as usize)?",
        "cursor.take((name_size & 0x7FFF_FFFF) as usize)?",
        "31 bits of NameSize count",
    ),
    edit(
        "store-data-31-bits",
        "cursor.take(data_size as usize)?",
        "cursor.take((data_size & 0x7FFF_FFFF) as usize)?",
        "31 bits of DataSize count",
    ),
    edit(
        "store-padding-2",
        PADDED,
        "(self.payload_at() + self.payload.len()).next_multiple_of(2)",
        "records are padded to a multiple of 2",
    ),
    edit(
        "store-padding-8",
        PADDED,
        "(self.payload_at() + self.payload.len()).next_multiple_of(8)",
        "records are padded to a multiple of 8",
    ),
    edit("store-padding-none", PADDED, "self.payload_at() + self.payload.len()", "records are not padded"),
    edit(
        "store-padding-more",
        PADDED,
        "(self.payload_at() + self.payload.len()) / 4 * 4 + 4",
        "1 to 4 bytes of padding",
    ),
    edit(
        "store-padding-any",
        "(sound && is_erased(padding)).then_some(variable)",
        "sound.then_some(variable)",
        "any padding",
    ),
    edit(
        "store-padding-zero",
        "(sound && is_erased(padding))",
        "(sound && (is_erased(padding) || padding.iter().all(|byte| *byte == 0)))",
        "padding may be zeros",
    ),
    edit(
        "store-padding-first",
        "is_erased(padding)",
        "is_erased(&padding[..padding.len().min(1)])",
        "one byte of padding is looked at",
    ),
    edit(
        "store-padding-cut",
        PADDING,
        "cursor.take((variable.record_len() - used).min(cursor.rest().len()))?",
        "the end of the store may cut the last padding",
    ),
    edit("store-writes-zeros", "bytes.resize(end, 0xFF);", "bytes.resize(end, 0);", "padding is written as zeros"),
    edit("store-writes-state", "bytes.extend([ADDED, 0]);", "bytes.extend([0x7F, 0]);", "another state is written"),
    edit(
        "store-writes-name-size",
        "(name.len() as u32).to_le_bytes()",
        "(name.len() as u32 - 2).to_le_bytes()",
        "NameSize is written without the zero unit",
    ),
    edit("store-length-any", "if bytes.len() > MAX_STORE {\n        return None;\n    }", "", "stores of any length"),
    edit(
        "store-length-below",
        "if bytes.len() > MAX_STORE {",
        "if bytes.len() >= MAX_STORE {",
        "stores of fewer than 32,768 bytes",
    ),
    edit(
        "store-rest-any",
        REST,
        "while cursor.rest().starts_with(&[0xAA, 0x55]) {",
        "what follows the records is not looked at",
    ),
    edit(
        "store-rest-first",
        REST,
        "while cursor.rest().first().is_some_and(|byte| *byte != 0xFF) {",
        "one byte behind the records is looked at",
    ),
    edit(
        "store-rest-header",
        REST,
        "while !is_erased(&cursor.rest()[..cursor.rest().len().min(32)]) {",
        "32 bytes behind the records are looked at",
    ),
    edit(
        "store-rest-short",
        REST,
        "while cursor.rest().len() >= 36 && !is_erased(cursor.rest()) {",
        "a rest too short for a record is not looked at",
    ),
    edit(
        "store-rest-zeros",
        "bytes.iter().all(|byte| *byte == 0xFF)",
        "bytes.iter().all(|byte| *byte == 0xFF || *byte == 0)",
        "zeros are erased bytes",
    ),
    edit(
        "store-rest-high-bit",
        "bytes.iter().all(|byte| *byte == 0xFF)",
        "bytes.iter().all(|byte| *byte >= 0xFE)",
        "0xFE is an erased byte",
    ),
    edit(
        "store-twice-in-one",
        "are_distinct(variables.iter()).then_some(variables)",
        "Some(variables)",
        "at power-on a variable may stand twice in the non-volatile store",
    ),
    edit(
        "store-twice-in-pair",
        "are_distinct(pair.non_volatile.iter().chain(&pair.volatile)).then_some(pair)",
        "Some(pair)",
        "a variable may stand in both stores",
    ),
    edit("store-twice-by-name", SEEN, "seen.insert(&variable.name)", "no two variables have one name"),
    edit("store-twice-by-namespace", SEEN, "seen.insert(&variable.namespace)", "no two variables have one namespace"),
    edit(
        "store-twice-with-bits",
        SEEN,
        "seen.insert((&variable.namespace, &variable.name, variable.attributes))",
        "a variable may stand twice with other attributes",
    ),
    edit("find-any-namespace", IS, "self.name == name", "a variable is found by its name alone"),
    edit(
        "find-beginning",
        IS,
        "self.namespace == *namespace && self.name.starts_with(name)",
        "a variable is found by the beginning of its name",
    ),
    edit(
        "find-by-pattern",
        IS,
        "self.namespace == *namespace && (self.name == name || crate::name::matches(name, &self.name))",
        "'#' in a request finds digits too",
    ),
    edit(
        "find-first-store",
        "[Kind::NonVolatile, Kind::Volatile].into_iter()",
        "[Kind::NonVolatile].into_iter()",
        "only the non-volatile store is searched",
    ),
    edit(
        "find-not-the-last",
        "let place = variables.iter().position(",
        "let place = variables.iter().take(variables.len().max(3) - 1).position(",
        "the last of three or more records is not searched",
    ),
    edit(
        "store-length-16-bits",
        "if bytes.len() > MAX_STORE {",
        "if bytes.len() & 0xFFFF > MAX_STORE {",
        "16 bits of a store's length count",
    ),
    edit(
        "find-8-units",
        IS,
        "self.namespace == *namespace && self.name.len() == name.len() && \
         self.name.iter().take(8).eq(name.iter().take(8))",
        "8 units of a stored name are compared",
    ),
    edit(
        "find-not-the-first",
        IS,
        "self.namespace == *namespace && self.name.len() == name.len() && self.name[1..] == name[1..]",
        "the first unit of a stored name is not compared",
    ),
    edit(
        "store-twice-by-8-units",
        SEEN,
        "seen.insert((&variable.namespace, &variable.name[..variable.name.len().min(8)]))",
        "no two variables have names that begin alike",
    ),
    edit(
        "store-twice-by-length",
        SEEN,
        "seen.insert((&variable.namespace, variable.name.len(), variable.name.last()))",
        "no two variables have names of one length and end",
    ),
];
