//! What the program `list_dump` has to write of a dump, from docs/RULES.md (3, 4.2, 7, 10.12, 11) and not from the program.

use std::fmt::Write;

/// The most entries of a dump.
pub const MAX_ENTRIES: usize = 128;

/// The most bytes of a dump.
pub const MAX_BYTES: usize = 16_384;

const HEADER: usize = 44;

/// All that the program writes for these bytes.
pub fn listing(bytes: &[u8]) -> String {
    let mut text = String::new();
    let mut targets = Vec::new();
    let mut at = 0;
    while at < bytes.len() {
        let good = Packed::first_of(&bytes[at..]).filter(|entry| {
            let within = targets.len() < MAX_ENTRIES && at + entry.size <= MAX_BYTES;
            within && !targets.contains(&(entry.namespace, entry.name))
        });
        let Some(entry) = good else {
            return text + &format!("bad at {at}\n");
        };
        let marks = match entry.name.len() {
            0 => "all".to_string(),
            _ => units(entry.name).filter(|&unit| unit == u16::from(b'#')).count().to_string(),
        };
        writeln!(text, "{} size {} lock {} marks {marks}", targets.len(), entry.size, entry.lock).expect("a string");
        targets.push((entry.namespace, entry.name));
        at += entry.size;
    }
    text + &format!("entries {} bytes {at}\n", targets.len())
}

/// A well-formed entry, in its bytes.
struct Packed<'a> {
    size: usize,
    namespace: &'a [u8],
    lock: u8,
    /// With the closing zero unit; empty for a whole namespace.
    name: &'a [u8],
}

impl<'a> Packed<'a> {
    /// The entry that the bytes begin with, if it is well formed.
    fn first_of(bytes: &'a [u8]) -> Option<Packed<'a>> {
        let header = bytes.get(..HEADER)?;
        let half = |at: usize| usize::from(u16::from_le_bytes([header[at], header[at + 1]]));
        let word = |at: usize| half(at) + 65_536 * half(at + 2);
        let (size, offset_to_name, lock) = (half(4), half(6), header[40]);
        let entry = bytes.get(..size)?;
        let lock_part = entry.get(HEADER..offset_to_name)?;
        let name = entry.get(offset_to_name..)?;
        let header_ok = word(0) == 0x1_0000 && word(24) <= word(28) && word(32) & word(36) == 0;
        let lock_ok = match lock {
            0..=2 => lock_part.is_empty(),
            3 => {
                lock_part.get(18..).is_some_and(|name| is_name(name) && units(name).all(|unit| unit != u16::from(b'#')))
            }
            _ => false,
        };
        let name_ok = name.is_empty() || is_name(name);
        (header_ok && lock_ok && name_ok).then_some(Packed { size, namespace: &header[8..24], lock, name })
    }
}

/// Whether it is 1 to 64 units, none of them zero, and a zero unit.
fn is_name(bytes: &[u8]) -> bool {
    let units: Vec<u16> = units(bytes).collect();
    let zero = units.iter().position(|&unit| unit == 0);
    bytes.len().is_multiple_of(2) && (2..=65).contains(&units.len()) && zero == Some(units.len() - 1)
}

fn units(bytes: &[u8]) -> impl Iterator<Item = u16> {
    bytes.chunks_exact(2).map(|unit| u16::from_le_bytes([unit[0], unit[1]]))
}
