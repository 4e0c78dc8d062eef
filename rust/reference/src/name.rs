//! Names as lists of 16-bit units, without the closing zero.

use crate::MAX_UNITS;

const NUMBER_SIGN: u16 = 0x23;

/// The units of `bytes`, if their length is even.
fn units(bytes: &[u8]) -> Option<Vec<u16>> {
    if !bytes.len().is_multiple_of(2) {
        return None;
    }
    Some(bytes.chunks(2).map(|unit| u16::from_le_bytes([unit[0], unit[1]])).collect())
}

/// The name that a request gives: the bytes of 1 to 64 units, none of them zero, with no closing zero.
pub(crate) fn decode_request(bytes: &[u8]) -> Option<Vec<u16>> {
    let name = units(bytes)?;
    let sound = (1..=MAX_UNITS).contains(&name.len()) && !name.contains(&0);
    sound.then_some(name)
}

/// The name that stands in a record or an entry: 1 to 64 units, none of them zero, and then one zero unit.
pub(crate) fn decode_closed(bytes: &[u8]) -> Option<Vec<u16>> {
    let open = bytes.strip_suffix(&[0, 0])?;
    decode_request(open)
}

/// The bytes of a name with its closing zero.
pub(crate) fn encode_closed(name: &[u16]) -> Vec<u8> {
    let closed = name.iter().chain(&[0]);
    closed.flat_map(|unit| unit.to_le_bytes()).collect()
}

/// Whether a name has a '#'.
pub(crate) fn has_number_sign(name: &[u16]) -> bool {
    name.contains(&NUMBER_SIGN)
}

/// How many '#' a name has.
pub(crate) fn wildcards(name: &[u16]) -> usize {
    name.iter().filter(|unit| **unit == NUMBER_SIGN).count()
}

/// Whether a pattern matches a name (docs/RULES.md, 4.1): it has as many units, and each matches the one at its place.
pub(crate) fn matches(pattern: &[u16], name: &[u16]) -> bool {
    pattern.len() == name.len() && pattern.iter().zip(name).all(|(wanted, unit)| unit_matches(*wanted, *unit))
}

/// '#' matches the hex digits and nothing else, any other unit itself alone.
fn unit_matches(wanted: u16, unit: u16) -> bool {
    match wanted {
        NUMBER_SIGN => is_hex_digit(unit),
        _ => wanted == unit,
    }
}

fn is_hex_digit(unit: u16) -> bool {
    u8::try_from(unit).is_ok_and(|byte| byte.is_ascii_hexdigit())
}

#[cfg(test)]
mod tests {
    use super::*;

    fn text(name: &str) -> Vec<u16> {
        name.encode_utf16().collect()
    }

    #[test]
    fn number_sign_is_a_hex_digit_and_nothing_else() {
        assert!(matches(&text("Boot####"), &text("Boot00fF")));
        for name in ["Boot####", "Boot000#", "Boot000G", "Boot000", "Boot00000", "boot0000"] {
            assert!(!matches(&text("Boot####"), &text(name)), "{name}");
        }
        let digits = text("0123456789ABCDEFabcdef");
        for unit in 0..=u16::MAX {
            assert_eq!(matches(&[NUMBER_SIGN], &[unit]), digits.contains(&unit), "{unit:#x}");
        }
    }

    #[test]
    fn another_unit_is_itself_and_nothing_else() {
        for unit in 0..=u16::MAX {
            assert_eq!(matches(&[unit], &[unit]), unit != NUMBER_SIGN, "{unit:#x}");
            assert!(!matches(&[unit], &[unit ^ 0x20]), "{unit:#x}");
        }
        for pattern in ["#", "0", "g", "*"] {
            assert!(!matches(&text(pattern), &text("#")), "{pattern}");
        }
    }

    #[test]
    fn every_number_sign_counts_for_the_rank() {
        for (name, expected) in [("Boot", 0), ("#oot000#", 2), ("Boot####", 4)] {
            assert_eq!(wildcards(&text(name)), expected, "{name}");
        }
        assert_eq!(wildcards(&[0x0123, 0x2300, 0xFF03]), 0);
    }

    #[test]
    fn names_have_1_to_64_units() {
        for (units, expected) in [(0, false), (1, true), (64, true), (65, false)] {
            assert_eq!(decode_request(&[0x41; 130][..2 * units]).is_some(), expected, "{units} units");
        }
        assert_eq!(decode_request(&[0x41, 0, 0x42]), None);
        assert_eq!(decode_request(&[0x41, 0, 0, 0]), None);
        assert_eq!(decode_closed(&[0x41, 0, 0, 0]), Some(vec![0x41]));
        assert_eq!(decode_closed(&[0, 0]), None);
    }
}
