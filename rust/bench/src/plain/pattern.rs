//! Patterns: whether an entry's name matches a variable's, by eight units at once, and a quick test of four.

use std::array::from_fn;

pub const SIGN: u16 = b'#' as u16;
const FOUR_SIGNS: u64 = 0x0023_0023_0023_0023;
/// All bits of four units but the top ones.
const LOW: u64 = 0x7FFF_7FFF_7FFF_7FFF;

/// Whether an entry's name matches a variable's: as many units, '#' over a hex digit and another unit over its like.
/// The first and the last unit are tried before the others, since names that differ mostly differ there.
pub fn matches(pattern: &[u8], name: &[u8]) -> bool {
    if pattern.len() != name.len() {
        return false;
    }
    let (Some(last), Some(last_of_name)) = (pattern.last_chunk::<16>(), name.last_chunk::<16>()) else {
        return few_match(pattern, name);
    };
    let may_match = |own: [u8; 2], unit: [u8; 2]| own == unit || own == [b'#', 0];
    if !may_match([pattern[0], pattern[1]], [name[0], name[1]])
        || !may_match([last[14], last[15]], [last_of_name[14], last_of_name[15]])
    {
        return false;
    }
    // What is left behind the blocks of eight units is among the last eight.
    let (blocks, rest) = pattern.as_chunks();
    blocks.iter().zip(name.as_chunks().0).all(|(own, units)| eight_match(own, units))
        && (rest.is_empty() || eight_match(last, last_of_name))
}

/// The same, unit by unit.
fn few_match(pattern: &[u8], name: &[u8]) -> bool {
    let units = |bytes| <[u8]>::as_chunks(bytes).0.iter().map(|unit| u16::from_le_bytes(*unit));
    units(pattern).zip(units(name)).all(|(own, unit)| wrong(own, unit) == 0)
}

/// The number of '#' in a pattern.
pub fn signs(pattern: &[u8]) -> usize {
    pattern.as_chunks().0.iter().map(|unit| u16::from(*unit == [b'#', 0])).sum::<u16>().into()
}

/// Whether two patterns have equally many '#' and both match some name.
pub fn overlap(own: &[u8], other: &[u8]) -> bool {
    if own.len() != other.len() {
        return false;
    }
    let units = |bytes| <[u8]>::as_chunks(bytes).0.iter().map(|unit| u16::from_le_bytes(*unit));
    let mut more = 0_i32;
    for (own, other) in units(own).zip(units(other)) {
        if own != other {
            if own == SIGN && wrong(SIGN, other) == 0 {
                more += 1;
            } else if other == SIGN && wrong(SIGN, own) == 0 {
                more -= 1;
            } else {
                return false;
            }
        }
    }
    more == 0
}

/// Writes the smallest name that both of two such patterns match.
pub fn smallest_match(own: &[u8], other: &[u8], name: &mut [u8]) {
    const SIGN: [u8; 2] = [b'#', 0];
    for ((own, other), unit) in own.as_chunks().0.iter().zip(other.as_chunks().0).zip(name.as_chunks_mut().0) {
        *unit = match (*own, *other) {
            (SIGN, SIGN) => [b'0', 0],
            (SIGN, other) => other,
            (own, _) => own,
        };
    }
}

/// Whether eight units match. Mostly they are equal and none is '#', which is the shorter test. Neither test has a branch
/// for a unit, so both become vector instructions.
#[inline(always)]
fn eight_match(pattern: &[u8; 16], name: &[u8; 16]) -> bool {
    let (pattern, name) = (eight(pattern), eight(name));
    let is_equal = || from_fn(|k| pattern[k] ^ name[k] | all_ones(pattern[k] == SIGN)) == [0; 8];
    is_equal() || from_fn(|k| wrong(pattern[k], name[k])) == [0; 8]
}

/// Eight units by their numbers.
#[inline(always)]
pub fn eight(bytes: &[u8; 16]) -> [u16; 8] {
    from_fn(|k| u16::from_le_bytes([bytes[2 * k], bytes[2 * k + 1]]))
}

/// Zero if the units match.
#[inline(always)]
fn wrong(own: u16, unit: u16) -> u16 {
    let sign = all_ones(own == SIGN);
    let digit = all_ones(unit.wrapping_sub(b'0'.into()) < 10);
    let letter = all_ones((unit | 0x20).wrapping_sub(b'a'.into()) < 6);
    (own ^ unit) & !sign | sign & !(digit | letter)
}

#[inline(always)]
pub fn all_ones(condition: bool) -> u16 {
    0_u16.wrapping_sub(condition.into())
}

/// Four units of a variable's name, to see quickly that those of a pattern do not match.
#[derive(Clone, Copy)]
pub struct Four {
    units: u64,
    /// The bits that count: of a shorter name there are fewer.
    known: u64,
}

impl Four {
    /// The first and the last four units of a name. Of a name of fewer the first are anything.
    pub fn first_and_last(name: &[u8]) -> [Four; 2] {
        if let (Some(first), Some(last)) = (name.first_chunk(), name.last_chunk()) {
            return [first, last].map(|units| Four { units: u64::from_le_bytes(*units), known: u64::MAX });
        }
        let mut units = [0; 8];
        units[8 - name.len()..].copy_from_slice(name);
        let known = u64::MAX << (64 - 8 * name.len());
        [Four { units: 0, known: 0 }, Four { units: u64::from_le_bytes(units), known }]
    }

    /// Whether each bit of the pattern is the name's or that of '#'. If not, it does not match.
    pub fn may_match(self, pattern: u64) -> bool {
        let like_signs = !(self.units ^ FOUR_SIGNS);
        (pattern ^ self.units) & like_signs & self.known == 0
    }

    /// Whether each unit of the pattern is the name's or '#'.
    pub fn is_like(self, pattern: u64) -> bool {
        // The top bit of each unit that is not zero.
        let some = |units: u64| ((units & LOW) + LOW) | units;
        some(pattern ^ self.units) & some(pattern ^ FOUR_SIGNS) & !LOW & self.known == 0
    }
}

#[cfg(test)]
mod tests {
    use super::*;

    fn bytes(units: &[u16]) -> Vec<u8> {
        units.iter().flat_map(|unit| unit.to_le_bytes()).collect()
    }

    fn is_hex_digit(unit: u16) -> bool {
        char::from_u32(unit.into()).is_some_and(|unit| unit.is_ascii_hexdigit())
    }

    #[test]
    fn each_unit_matches_its_like_and_a_sign_hex_digits() {
        for unit in 1..=u16::MAX {
            for count in [1, 9] {
                let name = vec![unit; count];
                assert_eq!(matches(&bytes(&name), &bytes(&name)), unit != SIGN, "{unit:#x}");
                assert_eq!(matches(&bytes(&vec![SIGN; count]), &bytes(&name)), is_hex_digit(unit), "{unit:#x}");
            }
        }
    }

    #[test]
    fn each_place_counts() {
        for count in 1..=64 {
            let name: Vec<u16> = (0..count).map(|place| u16::from(b"0Variable9"[place % 10])).collect();
            for place in 0..count {
                let with = |unit: u16| {
                    let mut pattern = name.clone();
                    pattern[place] = unit;
                    bytes(&pattern)
                };
                assert_eq!(matches(&with(SIGN), &bytes(&name)), is_hex_digit(name[place]), "{place} of {count}");
                assert!(
                    [name[place] ^ 1, name[place] ^ 0x8000].iter().all(|unit| !matches(&with(*unit), &bytes(&name)))
                );
            }
            assert!(!matches(&bytes(&name[1..]), &bytes(&name)));
            assert_eq!(signs(&bytes(&vec![SIGN; count])), count);
        }
    }
}
