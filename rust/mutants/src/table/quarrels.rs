//! Quarrels of a dump: what is a dump, which entries quarrel, which pair is the first, which name is the smallest, and
//! what is handed back.

use super::{Edit, edit};

const REFUSED: &str = "return Quarrelled { status: Status::InvalidParameter, ..Quarrelled::NONE };";
const NONE: &str = "return Quarrelled::NONE;";
const BYTES: &str = "let bytes: Vec<u8> = name.iter().flat_map(|unit| unit.to_le_bytes()).collect();";
const WRITTEN: &str = "buffer[..bytes.len()].copy_from_slice(&bytes);";
const FOUND: &str = "Quarrelled { status: Status::Success, found: true, earlier, later, name_length: bytes.len() }";
const END: &str = "while !rest.is_empty() {";
const DECODED: &str = "entries.push(Entry::decode(bytes)?);";
const WITHIN: &str = "let within = entries.len() <= MAX_ENTRIES && dump.len() <= POLICY_BYTES;";
const REPEATS: &str = "pairs(entries.len()).all(|(earlier, later)| !entries[earlier].repeats(&entries[later]));";
const DUMP: &str = "(within && distinct()).then_some(entries)";
const PAIRS: &str = "(0..count).flat_map(move |earlier| (earlier + 1..count).map(move |later| (earlier, later)))";
const FIRST: &str = "pairs(entries.len()).find_map(|(earlier, later)| {";
const RANKS: &str = "if one.rank() != other.rank() {";
const SAME: &str = "if one.namespace != other.namespace || one.name.len() != other.name.len() {";
const UNITS: &str = "places.map(|(wanted, also_wanted)| smallest_unit(*wanted, *also_wanted)).collect()";
const UNIT: &str = "matched_by(wanted).into_iter().find(|unit| name::matches(&[also_wanted], &[*unit]))";

/// The pairs of places in this order.
macro_rules! pairs_by {
    ($order:expr) => {
        concat!(
            "{ let mut all: Vec<(usize, usize)> = pairs(entries.len()).collect(); ",
            $order,
            " all.into_iter() }.find_map(|(earlier, later)| {"
        )
    };
}

/// The smallest unit, and then these words.
macro_rules! unit_then {
    ($words:expr) => {
        concat!("matched_by(wanted).into_iter().find(|unit| name::matches(&[also_wanted], &[*unit]))", $words)
    };
}

/// Units are looked at where this holds of their place, and elsewhere taken from the earlier entry.
macro_rules! units_where {
    ($looked_at:expr) => {
        concat!(
            "places.enumerate().map(|(place, (wanted, also_wanted))| if ",
            $looked_at,
            " { smallest_unit(*wanted, *also_wanted) } else { Some(*wanted) }).collect()"
        )
    };
}

pub(super) const EDITS: &[Edit] = &[
    // What is a dump.
    edit("quarrel-zeros-behind", END, "while rest.iter().any(|byte| *byte != 0) {", "zeros may stand behind a dump"),
    edit(
        "quarrel-in-record",
        END,
        "while !(rest.is_empty() || dump.len() == POLICY_BYTES && rest.iter().all(|byte| *byte == 0)) {",
        "a policy record with free room is a dump",
    ),
    edit("quarrel-bytes-behind", END, "while rest.len() >= 44 {", "up to 43 bytes may stand behind a dump"),
    edit("quarrel-byte-behind", END, "while rest.len() > 1 {", "one byte may stand behind a dump"),
    edit(
        "quarrel-malformed-skipped",
        DECODED,
        "entries.extend(Entry::decode(bytes)); if bytes.is_empty() { return None; }",
        "a malformed entry of a dump is skipped",
    ),
    edit(
        "quarrel-malformed-ends",
        DECODED,
        "let Some(entry) = Entry::decode(bytes) else { break; }; entries.push(entry);",
        "a malformed entry ends a dump",
    ),
    edit(
        "quarrel-before-malformed",
        DECODED,
        "let Some(entry) = Entry::decode(bytes) else { return first_pair(&entries).map(|_| entries); }; \
         entries.push(entry);",
        "what stands behind two entries that quarrel is not looked at, if it is malformed",
    ),
    edit(
        "quarrel-before-repeat",
        DUMP,
        "(within && (distinct() || first_pair(&entries).is_some())).then_some(entries)",
        "beside two entries that quarrel a dump may hold an entry twice",
    ),
    edit("quarrel-repeats", DUMP, "within.then_some(entries)", "a dump may hold an entry twice"),
    edit(
        "quarrel-next-repeats",
        REPEATS,
        "entries.windows(2).all(|two| !two[0].repeats(&two[1]));",
        "in a dump only neighbours are compared",
    ),
    edit(
        "quarrel-whole-repeats",
        REPEATS,
        "pairs(entries.len()).all(|(earlier, later)| entries[later].name.is_empty() || \
         !entries[earlier].repeats(&entries[later]));",
        "a dump may hold entries for the whole of one namespace",
    ),
    edit(
        "quarrel-entries-more",
        WITHIN,
        "let within = entries.len() <= MAX_ENTRIES + 1 && dump.len() <= POLICY_BYTES;",
        "a dump may have one entry over the limit",
    ),
    edit(
        "quarrel-entries-less",
        WITHIN,
        "let within = entries.len() < MAX_ENTRIES && dump.len() <= POLICY_BYTES;",
        "a dump has one entry under the limit at most",
    ),
    edit(
        "quarrel-entries-any",
        WITHIN,
        "let within = dump.len() <= POLICY_BYTES;",
        "a dump may have any number of entries",
    ),
    edit(
        "quarrel-entries-8-bits",
        WITHIN,
        "let within = entries.len() & 0xFF <= MAX_ENTRIES && dump.len() <= POLICY_BYTES;",
        "8 bits of the number of a dump's entries count",
    ),
    edit(
        "quarrel-sum-more",
        WITHIN,
        "let within = entries.len() <= MAX_ENTRIES && dump.len() <= POLICY_BYTES + 2;",
        "a dump may have two bytes over the limit",
    ),
    edit(
        "quarrel-sum-less",
        WITHIN,
        "let within = entries.len() <= MAX_ENTRIES && dump.len() < POLICY_BYTES;",
        "a dump has two bytes under the limit at most",
    ),
    edit(
        "quarrel-sum-any",
        WITHIN,
        "let within = entries.len() <= MAX_ENTRIES;",
        "a dump may have any number of bytes",
    ),
    edit(
        "quarrel-empty",
        DUMP,
        "(within && distinct() && !entries.is_empty()).then_some(entries)",
        "no bytes are no dump",
    ),
    // Which entries quarrel.
    edit("quarrel-any-rank", RANKS, "if false {", "entries of any ranks quarrel"),
    edit("quarrel-higher-rank", RANKS, "if one.rank() > other.rank() {", "an entry quarrels with later higher ranks"),
    edit("quarrel-lower-rank", RANKS, "if one.rank() < other.rank() {", "an entry quarrels with later lower ranks"),
    edit(
        "quarrel-rank-1",
        RANKS,
        "if one.rank() != other.rank() || one.rank() > 1 {",
        "only entries with one '#' quarrel",
    ),
    edit(
        "quarrel-any-namespace",
        SAME,
        "if one.name.len() != other.name.len() {",
        "entries of different namespaces quarrel",
    ),
    edit(
        "quarrel-namespace-not-last",
        SAME,
        "if one.namespace[..15] != other.namespace[..15] || one.name.len() != other.name.len() {",
        "the last byte of a namespace does not count for a quarrel",
    ),
    edit(
        "quarrel-namespace-not-first",
        SAME,
        "if one.namespace[1..] != other.namespace[1..] || one.name.len() != other.name.len() {",
        "the first byte of a namespace does not count for a quarrel",
    ),
    edit(
        "quarrel-any-length",
        SAME,
        "if one.namespace != other.namespace {",
        "names quarrel as far as the shorter goes",
    ),
    edit(
        "quarrel-whole-namespaces",
        SAME,
        "if !one.name.is_empty() && one.namespace != other.namespace || one.name.len() != other.name.len() {",
        "entries for whole namespaces quarrel",
    ),
    edit(
        "quarrel-whole-with-names",
        RANKS,
        "if one.name.is_empty() && !other.name.is_empty() && one.namespace == other.namespace { return Some((earlier, \
         later, other.name.clone())); } if one.rank() != other.rank() {",
        "an entry for a whole namespace quarrels with later names in it",
    ),
    edit(
        "quarrel-plain",
        RANKS,
        "if one.rank() == 0 && other.rank() == 0 && one.namespace == other.namespace && !one.repeats(other) && \
         one.name.len() == other.name.len() { return Some((earlier, later, one.name.clone())); } if one.rank() != \
         other.rank() {",
        "names of one length without '#' quarrel",
    ),
    edit(
        "quarrel-by-lock",
        RANKS,
        "if one.rank() != other.rank() || std::mem::discriminant(&one.lock) != std::mem::discriminant(&other.lock) {",
        "only entries of one lock type quarrel",
    ),
    edit(
        "quarrel-of-locks",
        RANKS,
        "if one.rank() != other.rank() || one.lock == crate::LockRule::NoLock {",
        "an entry that never locks quarrels with no later one",
    ),
    edit(
        "quarrel-by-content",
        RANKS,
        "if one.rank() != other.rank() || (one.min_size, one.max_size, &one.lock) == (other.min_size, other.max_size, \
         &other.lock) {",
        "entries that say the same of their variables do not quarrel",
    ),
    edit(
        "quarrel-trigger",
        SAME,
        "let own = |entry: &Entry| match &entry.lock { crate::LockRule::LockOnVarState(trigger) => Entry { name: \
         trigger.name.clone(), ..entry.clone() }, _ => entry.clone() }; let (one, other) = (&own(one), &own(other)); \
         if one.namespace != other.namespace || one.name.len() != other.name.len() {",
        "the trigger's name is taken for the entry's own",
    ),
    // What two units share, and which of it is the smallest.
    edit(
        "quarrel-signs-apart",
        UNIT,
        unit_then!(".filter(|_| wanted != 0x23 || also_wanted != 0x23)"),
        "'#' and '#' share no unit",
    ),
    edit(
        "quarrel-signs-1",
        UNIT,
        unit_then!(".map(|unit| if wanted == 0x23 && also_wanted == 0x23 { 0x31 } else { unit })"),
        "1 for '#' and '#'",
    ),
    edit(
        "quarrel-signs-A",
        UNIT,
        unit_then!(".map(|unit| if wanted == 0x23 && also_wanted == 0x23 { 0x41 } else { unit })"),
        "A for '#' and '#'",
    ),
    edit(
        "quarrel-signs-sign",
        UNIT,
        unit_then!(".map(|unit| if wanted == 0x23 && also_wanted == 0x23 { 0x23 } else { unit })"),
        "'#' for '#' and '#'",
    ),
    edit(
        "quarrel-largest",
        UNIT,
        "matched_by(wanted).into_iter().rev().find(|unit| name::matches(&[also_wanted], &[*unit]))",
        "the largest name",
    ),
    edit(
        "quarrel-sign-any-unit",
        UNIT,
        unit_then!(".or((wanted == 0x23).then_some(also_wanted)).or((also_wanted == 0x23).then_some(wanted))"),
        "'#' shares every unit",
    ),
    edit(
        "quarrel-sign-letters",
        UNIT,
        unit_then!(
            ".or((wanted == 0x23 && (0x41..0x5B).contains(&also_wanted)).then_some(also_wanted))\
             .or((also_wanted == 0x23 && (0x41..0x5B).contains(&wanted)).then_some(wanted))"
        ),
        "'#' shares A to Z",
    ),
    edit(
        "quarrel-sign-of-earlier",
        UNIT,
        unit_then!(".filter(|_| also_wanted != 0x23 || wanted == 0x23)"),
        "the later entry's '#' shares no digit",
    ),
    edit(
        "quarrel-sign-of-later",
        UNIT,
        unit_then!(".filter(|_| wanted != 0x23 || also_wanted == 0x23)"),
        "the earlier entry's '#' shares no digit",
    ),
    edit(
        "quarrel-not-lower",
        UNIT,
        unit_then!(".filter(|unit| wanted == also_wanted || *unit < 0x61)"),
        "'#' shares none of a to f",
    ),
    edit(
        "quarrel-decimal",
        UNIT,
        unit_then!(".filter(|unit| wanted == also_wanted || *unit < 0x41)"),
        "'#' shares 0 to 9 alone",
    ),
    edit(
        "quarrel-cases",
        UNIT,
        unit_then!(".or((wanted > 0x40 && wanted | 0x20 == also_wanted | 0x20).then_some(wanted & !0x20))"),
        "letters of different case share one unit",
    ),
    edit(
        "quarrel-low-byte",
        UNIT,
        unit_then!(
            ".or((wanted != 0x23 && also_wanted != 0x23 && wanted as u8 == also_wanted as u8)\
             .then_some(wanted.min(also_wanted)))"
        ),
        "units with the same low byte share one",
    ),
    edit("quarrel-8-units", UNITS, units_where!("place < 8"), "only the first 8 units are looked at"),
    edit("quarrel-63-units", UNITS, units_where!("place < 63"), "only the first 63 units are looked at"),
    edit("quarrel-not-first-unit", UNITS, units_where!("place > 0"), "the first unit is not looked at"),
    edit("quarrel-not-last-unit", UNITS, units_where!("place + 1 < one.name.len()"), "the last unit is not looked at"),
    edit(
        "quarrel-name-of-earlier",
        UNITS,
        "places.map(|(wanted, also_wanted)| smallest_unit(*wanted, *also_wanted).map(|_| *wanted)).collect()",
        "the earlier entry's own name",
    ),
    edit(
        "quarrel-name-of-later",
        UNITS,
        "places.map(|(wanted, also_wanted)| smallest_unit(*wanted, *also_wanted).map(|_| *also_wanted)).collect()",
        "the later entry's own name",
    ),
    // Which pair is the first.
    edit(
        "quarrel-by-later",
        PAIRS,
        "(0..count).flat_map(move |later| (0..later).map(move |earlier| (earlier, later)))",
        "of all pairs the one with the lowest later place",
    ),
    edit("quarrel-last-pair", FIRST, pairs_by!("all.reverse();"), "the last pair"),
    edit(
        "quarrel-last-later",
        FIRST,
        pairs_by!("all.sort_by_key(|(earlier, later)| (*earlier, MAX_ENTRIES - later));"),
        "of the pairs with the lowest earlier place the one with the highest later place",
    ),
    edit(
        "quarrel-nearest",
        FIRST,
        pairs_by!("all.sort_by_key(|(earlier, later)| later - earlier);"),
        "the pair with the fewest entries between",
    ),
    edit(
        "quarrel-lowest-rank",
        FIRST,
        pairs_by!("all.sort_by_key(|(earlier, _)| entries[*earlier].rank());"),
        "the pair of lowest rank",
    ),
    edit(
        "quarrel-next",
        FIRST,
        pairs_by!("all.retain(|(earlier, later)| earlier + 1 == *later);"),
        "only neighbours quarrel",
    ),
    edit(
        "quarrel-with-first",
        FIRST,
        pairs_by!("all.retain(|(earlier, _)| *earlier == 0);"),
        "only the first entry quarrels",
    ),
    edit(
        "quarrel-not-the-last",
        FIRST,
        pairs_by!("all.retain(|(_, later)| later + 1 < MAX_ENTRIES);"),
        "the last entry within the limit does not quarrel",
    ),
    // What is handed back.
    edit(
        "quarrel-from-1",
        FOUND,
        "Quarrelled { status: Status::Success, found: true, earlier: earlier + 1, later: later + 1, name_length: \
         bytes.len() }",
        "places are counted from 1",
    ),
    edit(
        "quarrel-swapped",
        FOUND,
        "Quarrelled { status: Status::Success, found: true, earlier: later, later: earlier, name_length: bytes.len() }",
        "the places are crossed",
    ),
    edit(
        "quarrel-later-distance",
        FOUND,
        "Quarrelled { status: Status::Success, found: true, earlier, later: later - earlier, name_length: \
         bytes.len() }",
        "the later place is counted from the earlier",
    ),
    edit(
        "quarrel-later-6-bits",
        FOUND,
        "Quarrelled { status: Status::Success, found: true, earlier, later: later & 63, name_length: bytes.len() }",
        "6 bits of the later place",
    ),
    edit(
        "quarrel-length-units",
        FOUND,
        "Quarrelled { status: Status::Success, found: true, earlier, later, name_length: name.len() }",
        "the length in units",
    ),
    edit(
        "quarrel-length-0",
        FOUND,
        "Quarrelled { status: Status::Success, found: true, earlier, later, name_length: 0 }",
        "no length",
    ),
    edit(
        "quarrel-length-closed",
        FOUND,
        "Quarrelled { status: Status::Success, found: true, earlier, later, name_length: bytes.len() + 2 }",
        "the length counts a closing zero unit",
    ),
    edit(
        "quarrel-found-20",
        FOUND,
        "Quarrelled { status: Status::AlreadyStarted, found: true, earlier, later, name_length: bytes.len() }",
        "two entries that quarrel: 20",
    ),
    edit(
        "quarrel-closed",
        BYTES,
        "let bytes: Vec<u8> = name.iter().chain(&[0]).flat_map(|unit| unit.to_le_bytes()).collect();",
        "the name has a closing zero unit",
    ),
    edit(
        "quarrel-big-endian",
        BYTES,
        "let bytes: Vec<u8> = name.iter().flat_map(|unit| unit.to_be_bytes()).collect();",
        "the name's units are big-endian",
    ),
    edit(
        "quarrel-zero-written",
        WRITTEN,
        "buffer[..bytes.len()].copy_from_slice(&bytes); if let Some(zero) = buffer.get_mut(bytes.len()..bytes.len() + \
         2) { zero.fill(0); }",
        "a zero unit is written behind the name, where there is room",
    ),
    edit(
        "quarrel-zeros-written",
        WRITTEN,
        "buffer.fill(0); buffer[..bytes.len()].copy_from_slice(&bytes);",
        "zeros are written behind the name",
    ),
    edit("quarrel-not-written", WRITTEN, "", "the name is not written"),
    edit(
        "quarrel-written-to-end",
        WRITTEN,
        "let start = buffer.len() - bytes.len(); buffer[start..].copy_from_slice(&bytes);",
        "the name is written to the end of the buffer",
    ),
    edit(
        "quarrel-none-14",
        NONE,
        "return Quarrelled { status: Status::NotFound, ..Quarrelled::NONE };",
        "no quarrel: 14",
    ),
    edit(
        "quarrel-none-written",
        NONE,
        "buffer.fill(0); return Quarrelled::NONE;",
        "without a quarrel zeros are written",
    ),
    edit(
        "quarrel-none-unit-written",
        NONE,
        "if let [one, other, ..] = &entries[..] && one.namespace == other.namespace && let Some(unit) = \
         one.name.first().zip(other.name.first()).and_then(|(one, other)| smallest_unit(*one, *other)) { \
         buffer[..2].copy_from_slice(&unit.to_le_bytes()); } return Quarrelled::NONE;",
        "what the first two names share is written, though they do not quarrel",
    ),
    edit(
        "quarrel-refused-10",
        REFUSED,
        "return Quarrelled { status: Status::VolumeCorrupted, ..Quarrelled::NONE };",
        "no dump: 10",
    ),
    edit(
        "quarrel-refused-written",
        REFUSED,
        "buffer.fill(0); return Quarrelled { status: Status::InvalidParameter, ..Quarrelled::NONE };",
        "refused, zeros are written",
    ),
    edit("quarrel-refused-none", REFUSED, "return Quarrelled::NONE;", "what is no dump has no quarrel: 0"),
];
