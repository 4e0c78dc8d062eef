//! What a reader says of a dump: which entry is the first bad one, where it begins, and what is told of the good ones.

use super::{Edit, edit};

const WHILE: &str = "while bytes < dump.len() {";
const NEXT: &str = "match next_entry(&good, bytes, &dump[bytes..]) {";
const BAD: &str = "Err(fault) => return Reading { entries, bytes, fault: Some(fault) },";
const LISTED: &str = "entries.push(listed(bytes, size, &entry));";
const WHOLE: &str = "Reading { entries, bytes, fault: None }";
const ENDED: &str = "dump.len() > POLICY_BYTES || is_decided(behind)";
const WITHIN: &str = "let rest = dump.get(..self.bytes)?.get(at..)?;";
const DECIDED: &str = "size_field(rest).is_some_and(|size| size <= rest.len() || size > MAX_ENTRY)";
const HEADED: &str = "rest.len() >= HEADER &&";
const SIZE: &str = "Some(usize::from(field[0]) + 256 * usize::from(field[1]))";
const SIZED: &str = "let size = size_field(rest).ok_or(Fault::CutShort)?;";
const OWN: &str = "let own = rest.get(..size).ok_or(Fault::CutShort)?;";
const DECODED: &str = "let entry = Entry::decode(own).ok_or(Fault::Malformed)?;";
const REPEATS: &str = "if good.iter().any(|known| known.repeats(&entry)) {";
const MANY: &str = "if good.len() == MAX_ENTRIES {";
const LONG: &str = "if first + size > POLICY_BYTES {";
const LOCKS: &str = "match entry.lock {";
const HAS_NAME: &str = "let has_name = !entry.name.is_empty();";
const MARKS: &str = "has_name.then(|| name::wildcards(&entry.name))";

/// The good entry is told with this in place of one of its numbers.
macro_rules! listed {
    ($($field:tt)*) => {
        concat!(
            "let told = listed(bytes, size, &entry); entries.push(Listed { ",
            stringify!($($field)*),
            ", ..told });"
        )
    };
}

/// The bad entry is told to begin here.
macro_rules! bad_at {
    ($bytes:expr) => {
        concat!("Err(fault) => { let bytes = ", $bytes, "; return Reading { entries, bytes, fault: Some(fault) } }")
    };
}

/// Bytes behind the good entries of which this holds are let by.
macro_rules! let_by {
    ($holds:expr) => {
        concat!("while bytes < dump.len() && !{ let rest = &dump[bytes..]; ", $holds, " } {")
    };
}

pub(super) const EDITS: &[Edit] = &[
    // What may stand behind the entries.
    edit("reader-zeros", WHILE, let_by!("rest.iter().all(|byte| *byte == 0)"), "zeros may stand behind a dump"),
    edit("reader-zero-byte", WHILE, let_by!("rest == [0]"), "one zero may stand behind a dump"),
    edit(
        "reader-zeros-44",
        WHILE,
        let_by!("rest.len() >= 44 && rest.iter().all(|byte| *byte == 0)"),
        "44 zeros or more may stand behind a dump",
    ),
    edit(
        "reader-record",
        WHILE,
        let_by!("dump.len() == POLICY_BYTES && rest.iter().all(|byte| *byte == 0)"),
        "a policy record with room is a dump",
    ),
    edit("reader-erased", WHILE, let_by!("rest.iter().all(|byte| *byte == 0xFF)"), "0xFF may stand behind a dump"),
    edit("reader-5-bytes", WHILE, let_by!("rest.len() < 6"), "up to 5 bytes may stand behind a dump"),
    edit("reader-43-bytes", WHILE, let_by!("rest.len() < 44"), "up to 43 bytes may stand behind a dump"),
    edit("reader-byte", WHILE, let_by!("rest.len() == 1"), "one byte may stand behind a dump"),
    edit(
        "reader-limit-ends",
        WHILE,
        "while bytes < dump.len() && good.len() < MAX_ENTRIES {",
        "what stands behind as many entries as the limit is not looked at",
    ),
    edit(
        "reader-sum-ends",
        WHILE,
        "while bytes < dump.len() && bytes < POLICY_BYTES {",
        "what stands behind a sum at the limit is not looked at",
    ),
    edit(
        "reader-empty",
        WHOLE,
        "Reading { fault: entries.is_empty().then_some(Fault::CutShort), entries, bytes }",
        "no bytes are no dump",
    ),
    // Entries that are cut short.
    edit(
        "reader-cut-good",
        BAD,
        "Err(Fault::CutShort) => return Reading { entries, bytes, fault: None }, Err(fault) => return Reading { \
         entries, bytes, fault: Some(fault) },",
        "behind a dump an entry may be cut short",
    ),
    edit(
        "reader-cut-counted",
        BAD,
        "Err(Fault::CutShort) => return Reading { entries, bytes: dump.len(), fault: None }, Err(fault) => return \
         Reading { entries, bytes, fault: Some(fault) },",
        "an entry that is cut short counts with its bytes",
    ),
    edit(
        "reader-cut-name",
        OWN,
        "let filled; let own = match rest.get(..size) { Some(own) => own, None if rest.len() + 2 >= size => { filled = \
         [rest, &[0, 0]].concat(); &filled[..size] } None => return Err(Fault::CutShort) };",
        "the closing zero unit of the last name may be cut off",
    ),
    edit(
        "reader-cut-header",
        OWN,
        "let own = if rest.len() < size && rest.len() >= 44 { &rest[..44] } else { rest.get(..size).ok_or(Fault::CutShort)? }; \
         let mut whole = own.to_vec(); if own.len() < size { whole[4] = 44; whole[5] = 0; } let own = &whole[..];",
        "of an entry that is cut short only the header counts",
    ),
    edit(
        "reader-cut-at-44",
        SIZED,
        "if rest.len() < 44 { let bytes = [&[0, 0, 1, 0, 44, 0, 44, 0][..], &[0xEF; 16], &[0; 20]].concat(); return \
         Ok((Entry::decode(&bytes).unwrap(), rest.len())); } let size = size_field(rest).ok_or(Fault::CutShort)?;",
        "fewer bytes than a header are an entry",
    ),
    // Entries that are malformed.
    edit(
        "reader-malformed-ends",
        BAD,
        "Err(Fault::Malformed) => return Reading { entries, bytes, fault: None }, Err(fault) => return Reading { \
         entries, bytes, fault: Some(fault) },",
        "a malformed entry ends a dump",
    ),
    edit(
        "reader-malformed-skipped",
        NEXT,
        "match next_entry(&good, bytes, &dump[bytes..]) { Err(Fault::Malformed) if dump[bytes + 4] >= 44 => { bytes += \
         usize::from(dump[bytes + 4]); continue; }",
        "a malformed entry is skipped",
    ),
    edit(
        "reader-malformed-last",
        BAD,
        "Err(Fault::Malformed) if bytes > 0 && bytes + usize::from(dump[bytes + 4]) == dump.len() => return Reading { \
         entries, bytes: dump.len(), fault: None }, Err(fault) => return Reading { entries, bytes, fault: Some(fault) },",
        "the last entry may be malformed",
    ),
    edit("reader-size-0-ends", WHILE, let_by!("rest.get(4..6) == Some(&[0, 0][..])"), "an entry of Size 0 ends a dump"),
    edit("reader-size-8-bits", SIZE, "Some(usize::from(field[0]))", "8 bits of Size count"),
    edit(
        "reader-size-big-endian",
        SIZE,
        "Some(usize::from(field[1]) + 256 * usize::from(field[0]))",
        "Size is big-endian",
    ),
    edit(
        "reader-any-version",
        DECODED,
        "let mut own = own.to_vec(); if let Some(version) = own.get_mut(..4) { version.copy_from_slice(&[0, 0, 1, 0]); } \
         let entry = Entry::decode(&own).ok_or(Fault::Malformed)?;",
        "the Version is not looked at",
    ),
    edit(
        "reader-any-sizes",
        DECODED,
        "let mut own = own.to_vec(); if let Some(least) = own.get_mut(24..28) { least.fill(0); } let entry = \
         Entry::decode(&own).ok_or(Fault::Malformed)?;",
        "MinSize may be over MaxSize",
    ),
    edit(
        "reader-any-attributes",
        DECODED,
        "let mut own = own.to_vec(); if let Some(required) = own.get_mut(32..36) { required.fill(0); } let entry = \
         Entry::decode(&own).ok_or(Fault::Malformed)?;",
        "an attribute may be required and prohibited",
    ),
    edit(
        "reader-any-lock",
        DECODED,
        "let mut own = own.to_vec(); if let Some(lock) = own.get_mut(40).filter(|lock| **lock > 3) { *lock = 0; } let \
         entry = Entry::decode(&own).ok_or(Fault::Malformed)?;",
        "a lock type over 3 is none",
    ),
    edit(
        "reader-lock-bits",
        DECODED,
        "let mut own = own.to_vec(); if let Some(lock) = own.get_mut(40) { *lock &= 3; } let entry = \
         Entry::decode(&own).ok_or(Fault::Malformed)?;",
        "two bits of the lock type count",
    ),
    edit(
        "reader-reserved",
        DECODED,
        "let entry = Entry::decode(own).ok_or(Fault::Malformed)?; if entry.reserved != [0; 3] { return \
         Err(Fault::Malformed); }",
        "reserved bytes must be zero",
    ),
    edit(
        "reader-trigger-sign",
        DECODED,
        "let mut plain = own.to_vec(); if plain.get(40) == Some(&3) && let Some(offset) = plain.get(6).copied() && let \
         Some(trigger) = plain.get_mut(62..usize::from(offset)) { for unit in trigger.chunks_exact_mut(2) { if unit == \
         [0x23, 0] { unit[0] = 0x30; } } } let entry = Entry::decode(&plain).ok_or(Fault::Malformed)?;",
        "'#' may stand in a trigger's name, as before E7",
    ),
    edit(
        "reader-name-sign",
        DECODED,
        "let entry = Entry::decode(own).ok_or(Fault::Malformed)?; if matches!(entry.lock, LockRule::LockOnVarState(_)) \
         && name::has_number_sign(&entry.name) { return Err(Fault::Malformed); }",
        "beside a trigger the own name may have no '#'",
    ),
    edit(
        "reader-name-63",
        DECODED,
        "let entry = Entry::decode(own).ok_or(Fault::Malformed)?; if entry.name.len() > 63 { return \
         Err(Fault::Malformed); }",
        "names of 63 units at most",
    ),
    edit(
        "reader-size-320",
        DECODED,
        "let entry = Entry::decode(own).ok_or(Fault::Malformed)?; if size > 320 { return Err(Fault::Malformed); }",
        "entries of 320 bytes at most",
    ),
    edit(
        "reader-whole-not",
        DECODED,
        "let entry = Entry::decode(own).ok_or(Fault::Malformed)?; if entry.name.is_empty() && !good.is_empty() { \
         return Err(Fault::Malformed); }",
        "an entry for a whole namespace stands first alone",
    ),
    // Entries that repeat others.
    edit("reader-repeats", REPEATS, "if false {", "an entry may stand there twice"),
    edit(
        "reader-repeats-of-last",
        REPEATS,
        "if good.last().is_some_and(|known| known.repeats(&entry)) {",
        "an entry is compared with the one before it alone",
    ),
    edit(
        "reader-repeats-of-first",
        REPEATS,
        "if good.first().is_some_and(|known| known.repeats(&entry)) {",
        "an entry is compared with the first alone",
    ),
    edit(
        "reader-repeats-not-of-last",
        REPEATS,
        "if good.iter().rev().skip(1).any(|known| known.repeats(&entry)) {",
        "an entry is not compared with the one before it",
    ),
    edit(
        "reader-repeats-not-of-first",
        REPEATS,
        "if good.iter().skip(1).any(|known| known.repeats(&entry)) {",
        "an entry is not compared with the first",
    ),
    edit(
        "reader-repeats-of-64",
        REPEATS,
        "if good.iter().take(64).any(|known| known.repeats(&entry)) {",
        "an entry is compared with the first 64 alone",
    ),
    edit(
        "reader-repeats-not-the-128th",
        REPEATS,
        "if good.len() + 1 != MAX_ENTRIES && good.iter().any(|known| known.repeats(&entry)) {",
        "the last entry within the limit is not compared",
    ),
    edit(
        "reader-repeats-by-name",
        REPEATS,
        "if good.iter().any(|known| known.name == entry.name) {",
        "entries of one name are repeats, whatever their namespaces",
    ),
    edit(
        "reader-repeats-by-namespace",
        REPEATS,
        "if good.iter().any(|known| known.namespace == entry.namespace) {",
        "entries of one namespace are repeats, whatever their names",
    ),
    edit(
        "reader-repeats-by-own-name",
        REPEATS,
        "if good.iter().any(|known| known.name == entry.name && !entry.name.is_empty()) {",
        "entries of one name are repeats, but not whole namespaces",
    ),
    edit(
        "reader-repeats-whole",
        REPEATS,
        "if !entry.name.is_empty() && good.iter().any(|known| known.repeats(&entry)) {",
        "entries for the whole of one namespace may stand there twice",
    ),
    edit(
        "reader-repeats-pattern",
        REPEATS,
        "if !name::has_number_sign(&entry.name) && good.iter().any(|known| known.repeats(&entry)) {",
        "patterns may stand there twice",
    ),
    edit(
        "reader-repeats-by-bytes",
        REPEATS,
        "if good.contains(&entry) {",
        "only entries that are equal in all fields are repeats",
    ),
    edit(
        "reader-repeats-by-lock",
        REPEATS,
        "if good.iter().any(|known| known.repeats(&entry) && lock_type(known) == lock_type(&entry)) {",
        "only entries of one lock type are repeats",
    ),
    edit(
        "reader-repeats-by-match",
        REPEATS,
        "if good.iter().any(|known| known.repeats(&entry) || !known.name.is_empty() && \
         known.targets(&entry.namespace, &entry.name)) {",
        "a name that an earlier pattern matches is a repeat",
    ),
    edit(
        "reader-repeats-by-target",
        REPEATS,
        "if good.iter().any(|known| known.repeats(&entry) || known.targets(&entry.namespace, &entry.name)) {",
        "a name behind its whole namespace is a repeat",
    ),
    edit(
        "reader-repeats-by-rank",
        REPEATS,
        "if good.iter().any(|known| known.repeats(&entry) || known.namespace == entry.namespace && known.rank() == \
         entry.rank()) {",
        "entries of one namespace and one rank are repeats",
    ),
    edit(
        "reader-repeats-beginning",
        REPEATS,
        "if good.iter().any(|known| known.namespace == entry.namespace && !known.name.is_empty() && \
         entry.name.starts_with(&known.name)) {",
        "a name that begins like an earlier one is a repeat",
    ),
    edit(
        "reader-repeats-case",
        REPEATS,
        "let upper = |name: &[u16]| name.iter().map(|unit| if (0x61..0x7B).contains(unit) { unit - 32 } else { *unit \
         }).collect::<Vec<u16>>(); if good.iter().any(|known| known.namespace == entry.namespace && \
         upper(&known.name) == upper(&entry.name)) {",
        "letters of different case do not tell names apart",
    ),
    edit(
        "reader-repeats-15-bytes",
        REPEATS,
        "if good.iter().any(|known| known.namespace[..15] == entry.namespace[..15] && known.name == entry.name) {",
        "the last byte of a namespace does not tell entries apart",
    ),
    edit(
        "reader-repeats-low-bytes",
        REPEATS,
        "let low = |name: &[u16]| name.iter().map(|unit| *unit as u8).collect::<Vec<u8>>(); if \
         good.iter().any(|known| known.namespace == entry.namespace && low(&known.name) == low(&entry.name)) {",
        "the high bytes of units do not tell names apart",
    ),
    edit(
        "reader-repeats-not-64th",
        REPEATS,
        "let most = |name: &[u16]| name[..name.len().min(63)].to_vec(); if good.iter().any(|known| known.namespace == \
         entry.namespace && most(&known.name) == most(&entry.name)) {",
        "the 64th unit does not tell names apart",
    ),
    edit(
        "reader-repeats-skipped",
        NEXT,
        "match next_entry(&good, bytes, &dump[bytes..]) { Err(Fault::Repeated) => { bytes += \
         usize::from(dump[bytes + 4]) + 256 * usize::from(dump[bytes + 5]); continue; }",
        "a repeated entry is skipped",
    ),
    edit(
        "reader-repeats-end",
        BAD,
        "Err(Fault::Repeated) => return Reading { entries, bytes, fault: None }, Err(fault) => return Reading { \
         entries, bytes, fault: Some(fault) },",
        "a repeated entry ends a dump",
    ),
    // The limits.
    edit("reader-entries-more", MANY, "if good.len() == MAX_ENTRIES + 1 {", "one entry over the limit"),
    edit("reader-entries-less", MANY, "if good.len() == MAX_ENTRIES - 1 {", "one entry under the limit at most"),
    edit("reader-entries-any", MANY, "if false {", "any number of entries"),
    edit("reader-entries-8-bits", MANY, "if good.len() & 0xFF == 0xFF {", "as many entries as 8 bits count"),
    edit("reader-entries-former", MANY, "if good.len() == 64 {", "the former limit of entries"),
    edit("reader-sum-more", LONG, "if first + size > POLICY_BYTES + 2 {", "a sum two bytes over the limit"),
    edit("reader-sum-less", LONG, "if first + size >= POLICY_BYTES {", "a sum two bytes under the limit at most"),
    edit("reader-sum-any", LONG, "if false {", "any sum"),
    edit("reader-sum-former", LONG, "if first + size > 8192 {", "the former limit of the sum"),
    edit("reader-former", LONG, "if first + size > 8192 || good.len() == 64 {", "the former limits, both"),
    edit("reader-sum-before", LONG, "if first > POLICY_BYTES {", "the limit is asked of the sum before the entry"),
    edit(
        "reader-sum-before-2",
        LONG,
        "if first >= POLICY_BYTES {",
        "an entry that begins under the limit is within it",
    ),
    edit(
        "reader-sum-of-all",
        LONG,
        "if first + rest.len() > POLICY_BYTES {",
        "all bytes of the dump count for the sum",
    ),
    edit(
        "reader-limits-end",
        BAD,
        "Err(Fault::TooMany | Fault::TooLong) => return Reading { entries, bytes, fault: None }, Err(fault) => return \
         Reading { entries, bytes, fault: Some(fault) },",
        "entries past the limits are left out",
    ),
    edit(
        "reader-many-end",
        BAD,
        "Err(Fault::TooMany) => return Reading { entries, bytes, fault: None }, Err(fault) => return Reading { \
         entries, bytes, fault: Some(fault) },",
        "entries over the limit of their number are left out",
    ),
    // Where the bad entry begins.
    edit("reader-place-number", BAD, bad_at!("entries.len()"), "the place of a bad entry is its number"),
    edit(
        "reader-place-late",
        BAD,
        bad_at!("bytes + dump.get(bytes + 4).map_or(0, |size| usize::from(*size))"),
        "the place behind the bad entry",
    ),
    edit(
        "reader-place-early",
        BAD,
        bad_at!("entries.last().map_or(0, |listed| listed.first)"),
        "the place of the last good entry",
    ),
    edit("reader-place-from-1", BAD, bad_at!("bytes + 1"), "bytes are counted from 1"),
    edit("reader-place-end", BAD, bad_at!("dump.len()"), "the place where the bytes end"),
    edit("reader-place-0", BAD, bad_at!("0"), "the place is told as 0"),
    edit("reader-place-13-bits", BAD, bad_at!("bytes & 0x1FFF"), "13 bits of the place"),
    edit(
        "reader-place-cut",
        BAD,
        bad_at!("if fault == Fault::CutShort { dump.len() } else { bytes }"),
        "an entry that is cut short is bad where it is cut",
    ),
    edit(
        "reader-place-repeat",
        BAD,
        bad_at!(
            "if fault == Fault::Repeated { let again = Entry::decode(&dump[bytes..bytes + usize::from(dump[bytes + 4]) \
             + 256 * usize::from(dump[bytes + 5])]).unwrap(); entries[good.iter().position(|known| \
             known.repeats(&again)).unwrap()].first } else { bytes }"
        ),
        "of two entries that are alike the first is bad",
    ),
    // What stands beside the place.
    edit(
        "reader-bad-counted",
        BAD,
        "Err(fault) => { entries.push(Listed { first: bytes, size: 44, lock: 0, marks: Some(0) }); return Reading { \
         entries, bytes, fault: Some(fault) } }",
        "the bad entry is listed too",
    ),
    edit(
        "reader-bad-nothing",
        BAD,
        "Err(fault) => return Reading { entries: Vec::new(), bytes, fault: Some(fault) },",
        "before a bad entry none is listed",
    ),
    edit(
        "reader-bad-not-last",
        BAD,
        "Err(fault) => { entries.pop(); return Reading { entries, bytes, fault: Some(fault) } }",
        "the entry before a bad one is not listed",
    ),
    edit(
        "reader-bad-whole",
        BAD,
        "Err(_) => return Reading { entries, bytes, fault: None },",
        "a bad entry is not told",
    ),
    edit("reader-bytes-0", WHOLE, "Reading { entries, bytes: 0, fault: None }", "the bytes of a dump are told as 0"),
    edit(
        "reader-bytes-number",
        WHOLE,
        "Reading { bytes: entries.len(), entries, fault: None }",
        "the number of entries in place of the bytes",
    ),
    edit(
        "reader-number-less",
        WHOLE,
        "Reading { entries: { entries.pop(); entries }, bytes, fault: None }",
        "the last entry of a dump is not listed",
    ),
    // When no further piece changes anything.
    edit("reader-ended-never", ENDED, "dump.is_empty() && is_decided(behind)", "a reader never ends"),
    edit("reader-ended-bad", ENDED, "self.fault.is_some()", "an entry that is cut short ends a reader"),
    edit(
        "reader-ended-whole",
        ENDED,
        "!behind.is_empty() || is_decided(behind)",
        "a byte behind the good entries does",
    ),
    edit(
        "reader-ended-full",
        ENDED,
        "dump.len() >= POLICY_BYTES || is_decided(behind)",
        "as many bytes as the limit end a reader",
    ),
    edit("reader-ended-complete", ENDED, "is_decided(behind)", "more bytes than the limit do not end a reader"),
    edit("reader-ended-long", ENDED, "dump.len() > POLICY_BYTES", "a reader ends with more bytes than the limit alone"),
    edit(
        "reader-ended-many",
        ENDED,
        "dump.len() > POLICY_BYTES || is_decided(behind) || self.entries.len() == MAX_ENTRIES",
        "as many entries as the limit end a reader",
    ),
    edit(
        "reader-ended-many-behind",
        ENDED,
        "dump.len() > POLICY_BYTES || is_decided(behind) || self.entries.len() == MAX_ENTRIES && !behind.is_empty()",
        "a byte behind as many entries as the limit ends a reader",
    ),
    edit(
        "reader-ended-sum",
        ENDED,
        "dump.len() > POLICY_BYTES || is_decided(behind) || size_field(behind).is_some_and(|size| self.bytes + size > \
         POLICY_BYTES)",
        "a Size past the limit ends a reader before its entry is there",
    ),
    edit(
        "reader-ended-version",
        ENDED,
        "dump.len() > POLICY_BYTES || is_decided(behind) || behind.len() >= 4 && behind[..4] != [0, 0, 1, 0]",
        "another Version ends a reader before its entry is there",
    ),
    edit(
        "reader-ended-321",
        ENDED,
        "dump.len() > POLICY_BYTES || is_decided(behind) || behind.len() >= 321",
        "321 bytes behind the good entries end a reader",
    ),
    edit(
        "reader-decided-6",
        HEADED,
        "rest.len() >= 6 &&",
        "a Size that is under a header ends a reader before a header is there",
    ),
    edit("reader-decided-45", HEADED, "rest.len() > HEADER &&", "a header alone does not end a reader"),
    edit("reader-decided-header", DECIDED, "!rest.is_empty()", "a header ends a reader"),
    edit(
        "reader-decided-more",
        DECIDED,
        "size_field(rest).is_some_and(|size| size < rest.len() || size > MAX_ENTRY)",
        "a reader ends with a byte behind the bad entry",
    ),
    edit(
        "reader-decided-in-range",
        DECIDED,
        "size_field(rest).is_some_and(|size| (44..=322).contains(&size) && size <= rest.len())",
        "only an entry of 44 to 322 bytes ends a reader",
    ),
    edit(
        "reader-decided-there",
        DECIDED,
        "size_field(rest).is_some_and(|size| size <= rest.len())",
        "a Size that no entry has does not end a reader before its bytes are there",
    ),
    edit(
        "reader-decided-321",
        DECIDED,
        "size_field(rest).is_some_and(|size| size <= rest.len() || size >= MAX_ENTRY)",
        "an entry of 322 bytes ends a reader before it is there",
    ),
    edit(
        "reader-decided-323",
        DECIDED,
        "size_field(rest).is_some_and(|size| size <= rest.len() || size > MAX_ENTRY + 1)",
        "a Size of 323 does not end a reader before its bytes are there",
    ),
    // Where an entry is asked for.
    edit("reader-at-behind", WITHIN, "let rest = dump.get(at..)?;", "entries behind the good ones are told"),
    edit(
        "reader-at-begins-within",
        WITHIN,
        "let rest = dump.get(at..).filter(|_| at <= self.bytes)?;",
        "an entry that begins where the good ones end is told",
    ),
    edit(
        "reader-at-good-alone",
        WITHIN,
        "self.entries.iter().find(|listed| listed.first == at)?; let rest = dump.get(..self.bytes)?.get(at..)?;",
        "nothing is told of a byte at which no good entry begins",
    ),
    edit(
        "reader-at-all-good",
        WITHIN,
        "if self.fault.is_some() { return None; } let rest = dump.get(at..)?;",
        "before a bad entry none is told",
    ),
    // What is told of a good entry.
    edit("reader-first-0", LISTED, listed!(first: 0), "each entry begins at byte 0"),
    edit(
        "reader-first-number",
        LISTED,
        listed!(first: good.len()),
        "the number of an entry in place of its first byte",
    ),
    edit("reader-first-end", LISTED, listed!(first: bytes + size), "the place behind an entry"),
    edit("reader-first-from-1", LISTED, listed!(first: bytes + 1), "first bytes are counted from 1"),
    edit("reader-size-end", LISTED, listed!(size: bytes + size), "the sum in place of Size"),
    edit("reader-size-offset", LISTED, listed!(size: usize::from(dump[bytes + 6])), "OffsetToName in place of Size"),
    edit("reader-size-units", LISTED, listed!(size: size / 2), "Size in units"),
    edit("reader-size-name", LISTED, listed!(size: size - 44), "Size without the header"),
    edit("reader-size-low", LISTED, listed!(size: size & 0xFF), "8 bits of Size are told"),
    edit(
        "reader-size-first",
        LISTED,
        listed!(size: entries.first().map_or(size, |listed| listed.size)),
        "the first Size",
    ),
    edit("reader-lock-0", LISTED, listed!(lock: 0), "no lock type is told"),
    edit("reader-lock-next", LISTED, listed!(lock: lock_type(&entry) + 1), "lock types are counted from 1"),
    edit("reader-lock-bit", LISTED, listed!(lock: lock_type(&entry) & 1), "one bit of the lock type"),
    edit("reader-lock-any", LISTED, listed!(lock: lock_type(&entry).min(1)), "only whether an entry locks is told"),
    edit("reader-lock-2", LISTED, listed!(lock: lock_type(&entry).min(2)), "type 3 is told as 2"),
    edit(
        "reader-lock-reserved",
        LISTED,
        listed!(lock: lock_type(&entry) + 256 * u32::from(dump[bytes + 41])),
        "a reserved byte is told with the lock type",
    ),
    edit(
        "reader-lock-value",
        LOCKS,
        "match entry.lock { LockRule::LockOnVarState(ref trigger) if trigger.value == 2 => 2,",
        "type 3 with Value 2 is told as 2",
    ),
    edit(
        "reader-lock-crossed",
        LOCKS,
        "match entry.lock { LockRule::LockNow => 2, LockRule::LockOnCreate => 1,",
        "types 1 and 2 are crossed",
    ),
    edit(
        "reader-whole-0",
        MARKS,
        "has_name.then_some(0).map(|_| name::wildcards(&entry.name)).or(Some(0))",
        "a whole namespace has no '#'",
    ),
    edit(
        "reader-whole-64",
        MARKS,
        "Some(if has_name { name::wildcards(&entry.name) } else { 64 })",
        "a whole namespace is told as 64",
    ),
    edit(
        "reader-plain-all",
        MARKS,
        "has_name.then(|| name::wildcards(&entry.name)).filter(|marks| *marks > 0)",
        "a name without '#' is told as a whole namespace",
    ),
    edit(
        "reader-signs-all",
        MARKS,
        "has_name.then(|| name::wildcards(&entry.name)).filter(|marks| *marks < entry.name.len())",
        "a name of '#' alone is told as a whole namespace",
    ),
    edit(
        "reader-locked-all",
        HAS_NAME,
        "let has_name = !entry.name.is_empty() || entry.lock == LockRule::LockOnCreate;",
        "a whole namespace with type 2 is told as a name",
    ),
    edit(
        "reader-signs-bytes",
        MARKS,
        "has_name.then(|| entry.name.iter().flat_map(|unit| unit.to_le_bytes()).filter(|byte| *byte == 0x23).count())",
        "'#' are counted by bytes",
    ),
    edit(
        "reader-signs-low-byte",
        MARKS,
        "has_name.then(|| entry.name.iter().filter(|unit| **unit as u8 == 0x23).count())",
        "units with the low byte of '#' are counted",
    ),
    edit(
        "reader-signs-high-byte",
        MARKS,
        "has_name.then(|| entry.name.iter().filter(|unit| [0x23, 0x2300].contains(*unit)).count())",
        "'#' with its bytes exchanged is counted",
    ),
    edit(
        "reader-signs-other",
        MARKS,
        "has_name.then(|| entry.name.len() - name::wildcards(&entry.name))",
        "the other units are counted",
    ),
    edit("reader-signs-units", MARKS, "has_name.then(|| entry.name.len())", "all units are counted"),
    edit(
        "reader-signs-any",
        MARKS,
        "has_name.then(|| name::wildcards(&entry.name).min(1))",
        "only whether there is a '#' is told",
    ),
    edit(
        "reader-signs-runs",
        MARKS,
        "has_name.then(|| entry.name.split(|unit| *unit != 0x23).filter(|run| !run.is_empty()).count())",
        "'#' that stand together are counted as one",
    ),
    edit(
        "reader-signs-not-first",
        MARKS,
        "has_name.then(|| name::wildcards(&entry.name[1..]))",
        "a '#' at the first place is not counted",
    ),
    edit(
        "reader-signs-not-last",
        MARKS,
        "has_name.then(|| name::wildcards(&entry.name[..entry.name.len() - 1]))",
        "a '#' at the last place is not counted",
    ),
    edit(
        "reader-signs-6-bits",
        MARKS,
        "has_name.then(|| name::wildcards(&entry.name) & 63)",
        "6 bits of the number of '#'",
    ),
    edit(
        "reader-signs-double",
        MARKS,
        "has_name.then(|| 2 * name::wildcards(&entry.name))",
        "the bytes of '#' are told",
    ),
    edit(
        "reader-signs-trigger",
        MARKS,
        "has_name.then(|| match &entry.lock { LockRule::LockOnVarState(trigger) => name::wildcards(&trigger.name), _ \
         => name::wildcards(&entry.name) })",
        "of an entry with a trigger the trigger's '#' are counted",
    ),
    edit(
        "reader-signs-8-units",
        MARKS,
        "has_name.then(|| name::wildcards(&entry.name[..entry.name.len().min(8)]))",
        "'#' are counted in the first 8 units alone",
    ),
    edit(
        "reader-signs-63-units",
        MARKS,
        "has_name.then(|| name::wildcards(&entry.name[..entry.name.len().min(63)]))",
        "'#' are counted in the first 63 units alone",
    ),
    edit(
        "reader-signs-zero",
        MARKS,
        "has_name.then(|| name::wildcards(&entry.name) + 1)",
        "the closing zero unit is counted",
    ),
];
