//! Names, and '#' over hex digits.

use super::{Edit, edit};

const DIGIT: &str = "byte.is_ascii_hexdigit()";
const SIGN: &str = "NUMBER_SIGN => is_hex_digit(unit),";
const LENGTH: &str = "pattern.len() == name.len() && pattern.iter()";
const REQUEST: &str = "(1..=MAX_UNITS).contains(&name.len()) && !name.contains(&0)";

pub(super) const EDITS: &[Edit] = &[
    edit("digit-slash", DIGIT, "(byte.is_ascii_hexdigit() || byte == b'/')", "'/' is a hex digit"),
    edit("digit-colon", DIGIT, "(byte.is_ascii_hexdigit() || byte == b':')", "':' is a hex digit"),
    edit("digit-at", DIGIT, "(byte.is_ascii_hexdigit() || byte == b'@')", "'@' is a hex digit"),
    edit("digit-backquote", DIGIT, "(byte.is_ascii_hexdigit() || byte == b'`')", "the backquote is a hex digit"),
    edit("digit-G", DIGIT, "(byte.is_ascii_hexdigit() || byte == b'G')", "'G' is a hex digit"),
    edit("digit-g", DIGIT, "(byte.is_ascii_hexdigit() || byte == b'g')", "'g' is a hex digit"),
    edit("digit-not-0", DIGIT, "(byte.is_ascii_hexdigit() && byte != b'0')", "'0' is no hex digit"),
    edit("digit-not-9", DIGIT, "(byte.is_ascii_hexdigit() && byte != b'9')", "'9' is no hex digit"),
    edit("digit-not-A", DIGIT, "(byte.is_ascii_hexdigit() && byte != b'A')", "'A' is no hex digit"),
    edit("digit-not-F", DIGIT, "(byte.is_ascii_hexdigit() && byte != b'F')", "'F' is no hex digit"),
    edit("digit-not-a", DIGIT, "(byte.is_ascii_hexdigit() && byte != b'a')", "'a' is no hex digit"),
    edit("digit-not-e", DIGIT, "(byte.is_ascii_hexdigit() && byte != b'e')", "'e' is no hex digit"),
    edit("digit-not-f", DIGIT, "(byte.is_ascii_hexdigit() && byte != b'f')", "'f' is no hex digit"),
    edit("digit-not-5", DIGIT, "(byte.is_ascii_hexdigit() && byte != b'5')", "'5' is no hex digit"),
    edit("digit-not-C", DIGIT, "(byte.is_ascii_hexdigit() && byte != b'C')", "'C' is no hex digit"),
    edit("digit-not-lower", DIGIT, "(byte.is_ascii_hexdigit() && !byte.is_ascii_lowercase())", "a-f are no hex digits"),
    edit("digit-not-upper", DIGIT, "(byte.is_ascii_hexdigit() && !byte.is_ascii_uppercase())", "A-F are no hex digits"),
    edit("digit-decimal", DIGIT, "byte.is_ascii_digit()", "only 0-9 are hex digits"),
    edit("digit-any-letter", DIGIT, "byte.is_ascii_alphanumeric()", "every letter is a hex digit"),
    edit(
        "digit-low-byte",
        "u8::try_from(unit).is_ok_and(|byte| byte.is_ascii_hexdigit())",
        "(unit as u8).is_ascii_hexdigit()",
        "only the low byte of a unit decides whether it is a hex digit",
    ),
    edit(
        "digit-full-width",
        "u8::try_from(unit).is_ok_and",
        "(0xFF10..=0xFF19).contains(&unit) || u8::try_from(unit).is_ok_and",
        "full-width digits are hex digits",
    ),
    edit(
        "digit-swapped",
        "u8::try_from(unit).is_ok_and",
        "(unit as u8 == 0 && ((unit >> 8) as u8).is_ascii_hexdigit()) || u8::try_from(unit).is_ok_and",
        "a hex digit's bytes may be swapped",
    ),
    edit("digit-bit-7", "u8::try_from(unit)", "u8::try_from(unit & !0x80)", "bit 7 of a hex digit does not count"),
    edit(
        "digit-0x10",
        DIGIT,
        "(byte.is_ascii_hexdigit() || (0x10..0x1A).contains(&byte))",
        "the bit that tells letters' cases does not count in 0-9 either",
    ),
    edit(
        "digit-unicode",
        "u8::try_from(unit).is_ok_and",
        "char::from_u32(unit.into()).is_some_and(char::is_numeric) || u8::try_from(unit).is_ok_and",
        "the digits of all scripts are hex digits",
    ),
    edit("sign-over-anything", SIGN, "NUMBER_SIGN => true,", "'#' matches every unit"),
    edit("sign-ordinary", SIGN, "NUMBER_SIGN => unit == NUMBER_SIGN,", "'#' is an ordinary character"),
    edit("sign-is-star", "NUMBER_SIGN: u16 = 0x23", "NUMBER_SIGN: u16 = 0x2A", "'*' instead of '#'"),
    edit(
        "match-case",
        "_ => wanted == unit,",
        "_ => wanted == unit || u8::try_from(wanted).is_ok_and(|wanted| u8::try_from(unit).is_ok_and(|unit| \
         unit.eq_ignore_ascii_case(&wanted))),",
        "upper and lower case match",
    ),
    edit("match-shorter", LENGTH, "pattern.len() <= name.len() && pattern.iter()", "a beginning matches"),
    edit("match-longer", LENGTH, "pattern.len() >= name.len() && pattern.iter()", "a longer pattern matches"),
    edit("match-some-unit", ".zip(name).all(|", ".zip(name).any(|", "one matching unit is enough"),
    edit("match-not-the-last", ".zip(name).all(|", ".zip(name).take(63).all(|", "the 64th unit is not compared"),
    edit("rank-any-sign", ".count()", ".take(1).count()", "all names with '#' have one rank"),
    edit(
        "rank-of-digits",
        "filter(|unit| **unit == NUMBER_SIGN)",
        "filter(|unit| **unit != NUMBER_SIGN)",
        "the more '#' the lower the rank",
    ),
    edit(
        "name-odd-length",
        "if !bytes.len().is_multiple_of(2) {\n        return None;\n    }",
        "let bytes = &bytes[..bytes.len() / 2 * 2];",
        "a last odd byte is left out",
    ),
    edit(
        "name-big-endian",
        "u16::from_le_bytes([unit[0], unit[1]])",
        "u16::from_be_bytes([unit[0], unit[1]])",
        "units are big-endian",
    ),
    edit(
        "name-no-units",
        REQUEST,
        "(0..=MAX_UNITS).contains(&name.len()) && !name.contains(&0)",
        "a name may have no units",
    ),
    edit(
        "name-below-64",
        REQUEST,
        "(1..MAX_UNITS).contains(&name.len()) && !name.contains(&0)",
        "a name has fewer than 64 units",
    ),
    edit(
        "name-two-units",
        REQUEST,
        "(2..=MAX_UNITS).contains(&name.len()) && !name.contains(&0)",
        "a name has at least two units",
    ),
    edit("name-any-length", REQUEST, "!name.is_empty() && !name.contains(&0)", "a name may be of any length"),
    edit("name-zero-units", REQUEST, "(1..=MAX_UNITS).contains(&name.len())", "a name may have zero units"),
    edit(
        "name-zero-not-first",
        REQUEST,
        "(1..=MAX_UNITS).contains(&name.len()) && name[0] != 0",
        "only the first unit may not be zero",
    ),
    edit(
        "name-length-8-bits",
        REQUEST,
        "(1..=MAX_UNITS).contains(&(name.len() & 0xFF)) && !name.contains(&0)",
        "8 bits of the number of units count",
    ),
    edit(
        "name-length-15-bits",
        REQUEST,
        "(1..=MAX_UNITS).contains(&(name.len() & 0x7FFF)) && !name.contains(&0)",
        "16 bits of the name's length count",
    ),
    edit(
        "name-zero-not-last",
        REQUEST,
        "(1..=MAX_UNITS).contains(&name.len()) && name.last() != Some(&0)",
        "only the last unit may not be zero",
    ),
    edit(
        "name-zero-low-byte",
        REQUEST,
        "(1..=MAX_UNITS).contains(&name.len()) && !name.iter().any(|unit| *unit as u8 == 0)",
        "no unit may have a zero low byte",
    ),
    edit(
        "name-not-closed",
        "bytes.strip_suffix(&[0, 0])?",
        "bytes.strip_suffix(&[0, 0]).unwrap_or(bytes)",
        "the closing zero unit may be missing",
    ),
    edit(
        "name-closed-by-a-byte",
        "bytes.strip_suffix(&[0, 0])?",
        "bytes.strip_suffix(&[0])?; let open = &open[..open.len().saturating_sub(1)]",
        "only the last byte of a packed name must be zero",
    ),
];
