//! '#': the rule before E6, by which it matched '#' too, in whole and in part; shortcuts that would keep a part of it;
//! and variables with '#' in their names, of which the choice alone takes note.

use super::calls::REPEATED;
use super::entry::{REPEATS, TARGETS};
use super::policy::{CHOICE, LIMITS, TARGETING};
use super::set::{ASKED, CHOSEN, NAME, NOW};
use super::store::IS;
use super::{Edit, edit};

const SIGN: &str = "NUMBER_SIGN => is_hex_digit(unit),";
const PLAIN: &str = "_ => wanted == unit,";
const UNITS: &str = "pattern.iter().zip(name).all(|(wanted, unit)| unit_matches(*wanted, *unit))";
pub(super) const COUNT: &str = "name.iter().filter(|unit| **unit == NUMBER_SIGN).count()";

pub(super) const NAME_EDITS: &[Edit] = &[
    edit(
        "sign-over-sign",
        SIGN,
        "NUMBER_SIGN => unit == NUMBER_SIGN || is_hex_digit(unit),",
        "'#' matches '#' too, as before E6",
    ),
    edit(
        "sign-over-sign-at-first",
        UNITS,
        "pattern.iter().zip(name).enumerate().all(|(place, (wanted, unit))| place == 0 && wanted == unit || \
         unit_matches(*wanted, *unit))",
        "'#' matches '#' at the first place",
    ),
    edit(
        "sign-over-sign-at-last",
        UNITS,
        "pattern.iter().zip(name).enumerate().all(|(place, (wanted, unit))| place + 1 == name.len() && wanted == unit \
         || unit_matches(*wanted, *unit))",
        "'#' matches '#' at the last place",
    ),
    edit(
        "sign-over-sign-at-64",
        UNITS,
        "pattern.iter().zip(name).enumerate().all(|(place, (wanted, unit))| place == 63 && wanted == unit || \
         unit_matches(*wanted, *unit))",
        "'#' matches '#' at the 64th place",
    ),
    edit(
        "sign-over-sign-beside-digits",
        UNITS,
        "{ let digits = pattern.iter().zip(name).any(|(wanted, unit)| *wanted == NUMBER_SIGN && is_hex_digit(*unit)); \
         pattern.iter().zip(name).all(|(wanted, unit)| digits && wanted == unit || unit_matches(*wanted, *unit)) }",
        "'#' matches '#' where another '#' is over a digit",
    ),
    edit(
        "sign-over-sign-alone",
        UNITS,
        "(pattern.iter().chain(name).all(|unit| *unit == NUMBER_SIGN) || pattern.iter().zip(name).all(|(wanted, unit)| \
         unit_matches(*wanted, *unit)))",
        "a pattern of '#' alone matches a name of '#' alone",
    ),
    // Equal units taken for a match before one looks for '#'.
    edit(
        "equal-fours",
        UNITS,
        "pattern.chunks(4).zip(name.chunks(4)).all(|(wanted, units)| wanted.len() == 4 && wanted == units || \
         wanted.iter().zip(units).all(|(wanted, unit)| unit_matches(*wanted, *unit)))",
        "four units that are equal match, '#' or not",
    ),
    edit(
        "equal-first-four",
        UNITS,
        "pattern.chunks(4).zip(name.chunks(4)).enumerate().all(|(block, (wanted, units))| block == 0 && wanted.len() == \
         4 && wanted == units || wanted.iter().zip(units).all(|(wanted, unit)| unit_matches(*wanted, *unit)))",
        "the first four units match if they are equal, '#' or not",
    ),
    edit(
        "equal-last-four",
        UNITS,
        "{ let last = name.len().saturating_sub(4); (name.len() >= 4 && pattern[last..] == name[last..] || \
         pattern[last..].iter().zip(&name[last..]).all(|(wanted, unit)| unit_matches(*wanted, *unit))) && \
         pattern[..last].iter().zip(name).all(|(wanted, unit)| unit_matches(*wanted, *unit)) }",
        "the last four units match if they are equal, '#' or not",
    ),
    edit(
        "equal-overlapping-four",
        UNITS,
        "{ let last = name.len().saturating_sub(4); (name.len() > 4 && name.len() % 4 != 0 && pattern[last..] == \
         name[last..] || pattern[last..].iter().zip(&name[last..]).all(|(wanted, unit)| unit_matches(*wanted, \
         *unit))) && pattern[..last].iter().zip(name).all(|(wanted, unit)| unit_matches(*wanted, *unit)) }",
        "the last four units, where they overlap four others, match if they are equal",
    ),
    edit(
        "equal-later-fours",
        UNITS,
        "pattern.chunks(4).zip(name.chunks(4)).enumerate().all(|(block, (wanted, units))| block > 0 && wanted.len() == \
         4 && wanted == units || wanted.iter().zip(units).all(|(wanted, unit)| unit_matches(*wanted, *unit)))",
        "four units behind the first four match if they are equal, '#' or not",
    ),
    edit(
        "equal-sixteenth-four",
        UNITS,
        "pattern.chunks(4).zip(name.chunks(4)).enumerate().all(|(block, (wanted, units))| block == 15 && wanted == \
         units || wanted.iter().zip(units).all(|(wanted, unit)| unit_matches(*wanted, *unit)))",
        "units 61 to 64 match if they are equal, '#' or not",
    ),
    edit(
        "equal-eights",
        UNITS,
        "pattern.chunks(8).zip(name.chunks(8)).all(|(wanted, units)| wanted.len() == 8 && wanted == units || \
         wanted.iter().zip(units).all(|(wanted, unit)| unit_matches(*wanted, *unit)))",
        "eight units that are equal match, '#' or not",
    ),
    edit(
        "equal-first-eight",
        UNITS,
        "pattern.chunks(8).zip(name.chunks(8)).enumerate().all(|(block, (wanted, units))| block == 0 && wanted.len() == \
         8 && wanted == units || wanted.iter().zip(units).all(|(wanted, unit)| unit_matches(*wanted, *unit)))",
        "the first eight units match if they are equal, '#' or not",
    ),
    edit(
        "equal-last-eight",
        UNITS,
        "{ let last = name.len().saturating_sub(8); (name.len() > 8 && pattern[last..] == name[last..] || \
         pattern[last..].iter().zip(&name[last..]).all(|(wanted, unit)| unit_matches(*wanted, *unit))) && \
         pattern[..last].iter().zip(name).all(|(wanted, unit)| unit_matches(*wanted, *unit)) }",
        "the last eight of more units match if they are equal, '#' or not",
    ),
    edit(
        "equal-rest",
        UNITS,
        "pattern.chunks(4).zip(name.chunks(4)).all(|(wanted, units)| wanted.len() < 4 && wanted == units || \
         wanted.iter().zip(units).all(|(wanted, unit)| unit_matches(*wanted, *unit)))",
        "the units behind the last four match if they are equal, '#' or not",
    ),
    edit(
        "equal-fours-but-first-sign",
        UNITS,
        "pattern.chunks(4).zip(name.chunks(4)).all(|(wanted, units)| wanted.len() == 4 && wanted == units && wanted[0] \
         != NUMBER_SIGN || wanted.iter().zip(units).all(|(wanted, unit)| unit_matches(*wanted, *unit)))",
        "of four equal units only the first is looked at for '#'",
    ),
    edit(
        "equal-fours-but-last-sign",
        UNITS,
        "pattern.chunks(4).zip(name.chunks(4)).all(|(wanted, units)| wanted.len() == 4 && wanted == units && wanted[3] \
         != NUMBER_SIGN || wanted.iter().zip(units).all(|(wanted, unit)| unit_matches(*wanted, *unit)))",
        "of four equal units only the last is looked at for '#'",
    ),
    edit(
        "equal-fours-but-middle-signs",
        UNITS,
        "pattern.chunks(4).zip(name.chunks(4)).all(|(wanted, units)| wanted.len() == 4 && wanted == units && \
         !wanted[1..3].contains(&NUMBER_SIGN) || wanted.iter().zip(units).all(|(wanted, unit)| unit_matches(*wanted, \
         *unit)))",
        "of four equal units only the second and the third are looked at for '#'",
    ),
    edit(
        "equal-fours-behind-a-sign",
        UNITS,
        "{ let mut digits = false; pattern.chunks(4).zip(name.chunks(4)).all(|(wanted, units)| { let equal = digits && \
         wanted.len() == 4 && wanted == units; digits |= wanted != units; equal || \
         wanted.iter().zip(units).all(|(wanted, unit)| unit_matches(*wanted, *unit)) }) }",
        "four equal units behind four with '#' over a digit match, '#' or not",
    ),
    edit(
        "equal-fours-before-a-sign",
        UNITS,
        "{ let mut digits = false; pattern.rchunks(4).zip(name.rchunks(4)).all(|(wanted, units)| { let equal = digits && \
         wanted.len() == 4 && wanted == units; digits |= wanted != units; equal || \
         wanted.iter().zip(units).all(|(wanted, unit)| unit_matches(*wanted, *unit)) }) }",
        "four equal units before four with '#' over a digit match, '#' or not",
    ),
    // Ends that are looked at first, as far as to tell most names apart.
    edit(
        "near-ends",
        UNITS,
        "{ let last = name.len().saturating_sub(8).max(1).min(name.len()); \
         pattern[..1].iter().zip(name).chain(pattern[last..].iter().zip(&name[last..])).all(|(wanted, unit)| \
         unit_matches(*wanted, *unit)) }",
        "of more than nine units only the first and the last eight are compared",
    ),
    edit(
        "near-last-eight",
        UNITS,
        "{ let last = name.len().saturating_sub(8).max(8); pattern.iter().zip(name).enumerate().all(|(place, (wanted, \
         unit))| place >= last && *wanted == NUMBER_SIGN || unit_matches(*wanted, *unit)) }",
        "'#' among the last eight units, behind the first eight, matches every unit",
    ),
    edit(
        "near-first",
        UNITS,
        "pattern.iter().zip(name).enumerate().all(|(place, (wanted, unit))| place == 0 && *wanted == NUMBER_SIGN || \
         unit_matches(*wanted, *unit))",
        "'#' at the first place matches every unit",
    ),
    edit(
        "near-signed-units",
        PLAIN,
        "_ => wanted == unit && wanted < 0x8000,",
        "no unit of 0x8000 and over matches itself",
    ),
    // Units beside a '#', and units that are nearly '#'.
    edit(
        "sign-over-anything-at-9",
        UNITS,
        "pattern.iter().zip(name).enumerate().all(|(place, (wanted, unit))| place == 8 && *wanted == NUMBER_SIGN || \
         unit_matches(*wanted, *unit))",
        "'#' at the 9th place matches every unit",
    ),
    edit(
        "sign-over-low-byte-behind-4",
        UNITS,
        "pattern.iter().zip(name).enumerate().all(|(place, (wanted, unit))| place >= 4 && *wanted == NUMBER_SIGN && \
         is_hex_digit(unit & 0xFF) || unit_matches(*wanted, *unit))",
        "of a unit under '#' behind the 4th place only the low byte is looked at",
    ),
    edit(
        "sign-compared-behind-4",
        UNITS,
        "pattern.iter().zip(name).enumerate().all(|(place, (wanted, unit))| if place < 4 { unit_matches(*wanted, *unit) } \
         else { wanted == unit && *wanted != NUMBER_SIGN })",
        "'#' behind the 4th place matches nothing",
    ),
    edit(
        "sign-for-its-four",
        UNITS,
        "pattern.chunks(4).zip(name.chunks(4)).all(|(wanted, units)| if wanted.contains(&NUMBER_SIGN) { \
         units.iter().all(|unit| is_hex_digit(*unit)) } else { wanted == units })",
        "where four units have a '#', each of them stands for a digit",
    ),
    edit(
        "sign-hides-its-four",
        UNITS,
        "pattern.chunks(4).zip(name.chunks(4)).all(|(wanted, units)| if wanted.contains(&NUMBER_SIGN) { \
         wanted.iter().zip(units).all(|(wanted, unit)| *wanted != NUMBER_SIGN || is_hex_digit(*unit)) } else { wanted \
         == units })",
        "where four units have a '#', the others are not compared",
    ),
    edit(
        "sign-borrows",
        UNITS,
        "pattern.iter().zip(name).enumerate().all(|(place, (wanted, unit))| { let behind = place % 4 > 0 && \
         pattern[place - 1] == NUMBER_SIGN; unit_matches(if behind && *wanted == 0x22 { NUMBER_SIGN } else { *wanted \
         }, *unit) })",
        "the unit 0x22 behind '#' is '#' too",
    ),
    edit(
        "sign-low-byte",
        PLAIN,
        "_ if wanted & 0xFF == NUMBER_SIGN => is_hex_digit(unit), _ => wanted == unit,",
        "a unit with the low byte of '#' is '#'",
    ),
    edit(
        "sign-high-byte",
        PLAIN,
        "_ if wanted >> 8 == NUMBER_SIGN => is_hex_digit(unit), _ => wanted == unit,",
        "a unit with '#' for its high byte is '#'",
    ),
    edit(
        "sign-full-width",
        PLAIN,
        "0xFF03 => is_hex_digit(unit), _ => wanted == unit,",
        "the full-width number sign is '#'",
    ),
    edit(
        "sign-low-byte-over-itself",
        PLAIN,
        "_ => wanted == unit && wanted & 0xFF != NUMBER_SIGN,",
        "no unit with the low byte of '#' matches itself",
    ),
    edit(
        "sign-high-byte-over-itself",
        PLAIN,
        "_ => wanted == unit && wanted >> 8 != NUMBER_SIGN,",
        "no unit with '#' for its high byte matches itself",
    ),
    edit(
        "sign-in-the-variable",
        PLAIN,
        "_ => wanted == unit || (unit == NUMBER_SIGN && is_hex_digit(wanted)),",
        "'#' in the variable's name matches a digit",
    ),
    edit(
        "sign-in-the-variable-any",
        PLAIN,
        "_ => wanted == unit || unit == NUMBER_SIGN,",
        "'#' in the variable's name matches every unit but '#'",
    ),
    edit(
        "rank-runs",
        COUNT,
        "name.split(|unit| *unit != NUMBER_SIGN).filter(|run| !run.is_empty()).count()",
        "the rank counts '#' that stand together as one",
    ),
    edit(
        "rank-not-the-first",
        COUNT,
        "name.iter().skip(1).filter(|unit| **unit == NUMBER_SIGN).count()",
        "the rank does not count a '#' at the first place",
    ),
    edit(
        "rank-not-the-last",
        COUNT,
        "name.iter().rev().skip(1).filter(|unit| **unit == NUMBER_SIGN).count()",
        "the rank does not count a '#' at the last place",
    ),
];

pub(super) const ENTRY_EDITS: &[Edit] = &[
    edit(
        "target-spelled-alike",
        TARGETS,
        "self.namespace == *namespace && (self.name.is_empty() || self.name == variable || name::matches(&self.name, \
         variable))",
        "an entry targets the variable that is spelled like it",
    ),
    edit(
        "target-no-sign",
        TARGETS,
        "self.namespace == *namespace && !variable.contains(&0x23) && (self.name.is_empty() || \
         name::matches(&self.name, variable))",
        "nothing targets a variable with '#' in its name, not even the whole namespace",
    ),
    edit(
        "target-whole-not-sign-first",
        TARGETS,
        "self.namespace == *namespace && (self.name.is_empty() && !variable.starts_with(&[0x23]) || !self.name.is_empty() \
         && name::matches(&self.name, variable))",
        "the whole namespace has no variable whose name begins with '#'",
    ),
    edit(
        "entry-name-no-sign",
        "closed => name::decode_closed(closed)?",
        "closed => name::decode_closed(closed).filter(|name| !name.contains(&0x23))?",
        "'#' in the name of an entry is malformed",
    ),
    edit(
        "repeat-by-match-alone",
        REPEATS,
        "self.namespace == other.namespace && name::matches(&self.name, &other.name)",
        "registration compares by match, '#' with digits alone",
    ),
    edit(
        "repeat-by-match-of-the-new",
        REPEATS,
        "self.namespace == other.namespace && (self.name == other.name || name::matches(&other.name, &self.name))",
        "an entry repeats one whose name it matches",
    ),
];

pub(super) const POLICY_EDITS: &[Edit] = &[
    edit(
        "record-repeats-signs",
        LIMITS,
        "policy.entries.len() == MAX_ENTRIES || policy.holds(&entry) && !entry.name.contains(&0x23)",
        "a record may hold an entry with '#' twice",
    ),
    edit(
        "record-repeats-by-match",
        LIMITS,
        "policy.entries.len() == MAX_ENTRIES || policy.holds(&entry) || policy.entries.iter().any(|known| \
         !known.name.is_empty() && known.targets(&entry.namespace, &entry.name))",
        "a record may not hold an entry with '#' before one with digits in its place",
    ),
    edit(
        "choice-spelled-alike-silences",
        CHOICE,
        "{ let silent = self.entries.iter().any(|entry| entry.namespace == *namespace && entry.name == name && \
         name.contains(&0x23)); targeting.filter(|_| !silent).min_by_key(|entry| entry.rank()) }",
        "the entry spelled like a variable with '#' silences the whole namespace",
    ),
    edit(
        "choice-whole-after-spelled-alike",
        TARGETING,
        "self.entries.iter().enumerate().filter(|(place, entry)| entry.targets(namespace, name) && \
         !self.entries[*place..].iter().any(|later| later.namespace == *namespace && later.name == name && \
         name.contains(&0x23))).map(|(_, entry)| entry)",
        "the whole namespace speaks for a variable with '#' only behind the entry spelled like it",
    ),
    edit(
        "choice-ends-at-a-near-miss",
        TARGETING,
        "self.entries.iter().take_while(|entry| entry.targets(namespace, name) || entry.namespace != *namespace || \
         entry.name.len() != name.len() || entry.name.iter().zip(name).filter(|(wanted, unit)| wanted != \
         unit).count() != 1).filter(|entry| entry.targets(namespace, name))",
        "an entry that differs from the name in one unit ends the search",
    ),
    edit(
        "choice-misses-behind-a-near-miss",
        TARGETING,
        "self.entries.iter().enumerate().filter(|(place, entry)| entry.targets(namespace, name) && (*place == 0 || { let \
         before = &self.entries[place - 1]; before.targets(namespace, name) || before.namespace != *namespace || \
         before.name.len() != name.len() || before.name.first() != name.first() })).map(|(_, entry)| entry)",
        "the entry behind one of the name's length and first unit is passed over",
    ),
    edit(
        "rank-over-decimals",
        CHOICE,
        "targeting.min_by_key(|entry| if entry.name.is_empty() { 65 } else { entry.name.iter().zip(name).filter(|(wanted, \
         unit)| **wanted == 0x23 && **unit < 0x40).count() })",
        "the rank counts '#' over 0-9 alone",
    ),
];

pub(super) const STORE_EDITS: &[Edit] = &[
    edit(
        "find-by-match-alone",
        IS,
        "self.namespace == *namespace && crate::name::matches(&self.name, name)",
        "a variable is found by match: with '#' in its name, by digits",
    ),
    edit(
        "store-name-no-sign",
        "name::decode_closed(cursor.take(name_size as usize)?)?",
        "name::decode_closed(cursor.take(name_size as usize)?).filter(|name| !name.contains(&0x23))?",
        "a stored name may have no '#'",
    ),
];

pub(super) const EDITS: &[Edit] = &[
    edit(
        "register-repeats-signs",
        REPEATED,
        "if policy.holds(&decoded) && !decoded.name.contains(&0x23) { return RegisterGround::Repeated;",
        "an entry with '#' is registered twice",
    ),
    edit(
        "register-repeats-by-match",
        REPEATED,
        "if policy.holds(&decoded) || policy.entries.iter().any(|known| !known.name.is_empty() && \
         known.targets(&decoded.namespace, &decoded.name)) { return RegisterGround::Repeated;",
        "an entry with digits is not registered behind one with '#' in their place",
    ),
    edit(
        "read-no-sign",
        "name::decode_request(name).ok_or(Status::InvalidParameter)?;\n    let (kind",
        "name::decode_request(name).filter(|name| !name.contains(&0x23)).ok_or(Status::InvalidParameter)?; let (kind",
        "a variable with '#' in its name cannot be read",
    ),
    edit(
        "step1-no-sign",
        NAME,
        "let name = name::decode_request(request.name).filter(|name| \
         !name.contains(&0x23)).ok_or(SetGround::BadName)?;",
        "a variable with '#' in its name cannot be set",
    ),
    edit(
        "step4-no-sign-unless-spoken-for",
        CHOSEN,
        "let Some(entry) = policy.choose(request.namespace, name) else { return \
         name.contains(&0x23).then_some(SetGround::LockedNow); };",
        "a variable with '#' in its name is locked unless an entry speaks for it",
    ),
    edit(
        "step4-sign-not-asked",
        ASKED,
        "if !request.is_deletion() && !name.contains(&0x23) {\n        let length",
        "a variable with '#' in its name is held to locks alone",
    ),
    edit(
        "step4-sign-not-locked",
        NOW,
        "_ if name.contains(&0x23) => None, LockRule::LockNow => Some(SetGround::LockedNow),",
        "a variable with '#' in its name is held to no lock",
    ),
];
