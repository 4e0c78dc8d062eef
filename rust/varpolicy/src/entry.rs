use crate::{Attributes, MAX_ENTRY_SIZE, MAX_NAME_UNITS, Namespace};
use core::fmt::{self, Write};
use core::ops::Deref;

/// A name of at most 64 units, as the bytes of its units without a closing zero. `#` is an ordinary
/// character here; in the name of an entry it stands for a hex digit, and a trigger's name may not have it.
#[derive(Clone, Copy, PartialEq, Eq, Debug)]
pub struct Name {
    bytes: [u8; 2 * MAX_NAME_UNITS],
    len: usize,
}

impl Name {
    /// The name of no units, which in an entry stands for the whole namespace.
    pub const EMPTY: Name = Name { bytes: [0; 2 * MAX_NAME_UNITS], len: 0 };

    /// The UTF-16 units of `text`, or nothing if there are more than 64.
    pub fn new(text: &str) -> Option<Name> {
        Name::from_units(text.encode_utf16())
    }

    /// The name of these units, or nothing if there are more than 64.
    pub fn from_units(units: impl IntoIterator<Item = u16>) -> Option<Name> {
        let mut name = Name::EMPTY;
        for unit in units {
            name.bytes.get_mut(name.len..name.len + 2)?.copy_from_slice(&unit.to_le_bytes());
            name.len += 2;
        }
        Some(name)
    }
}

impl Deref for Name {
    type Target = [u8];

    fn deref(&self) -> &[u8] {
        &self.bytes[..self.len]
    }
}

/// Writes the units as text that can stand in quotes: a backslash before `"` and `\`, and as `\uXXXX` a control
/// character and a surrogate that has no other half.
impl fmt::Display for Name {
    fn fmt(&self, out: &mut fmt::Formatter) -> fmt::Result {
        let units = self.chunks_exact(2).map(|unit| u16::from_le_bytes([unit[0], unit[1]]));
        for character in char::decode_utf16(units) {
            match character {
                Ok(plain @ ('"' | '\\')) => write!(out, "\\{plain}")?,
                Ok(plain) if !plain.is_control() => out.write_char(plain)?,
                Ok(other) => write!(out, "\\u{:04X}", other as u32)?,
                Err(lone) => write!(out, "\\u{:04X}", lone.unpaired_surrogate())?,
            }
        }
        Ok(())
    }
}

/// When the chosen entry locks its variable.
#[derive(Clone, Copy, PartialEq, Eq, Debug)]
pub enum Lock {
    /// Never.
    No,
    /// Always.
    Now,
    /// Once the variable exists.
    OnCreate,
    /// While the payload of another variable is the one byte `value`. If that variable is absent, or its
    /// payload of another length, nothing is locked.
    OnVarState {
        /// The namespace of the other variable.
        namespace: Namespace,
        /// Its name, which is no pattern: registration answers INVALID_PARAMETER to an entry with `#` in it, as
        /// to one where it is empty.
        name: Name,
        /// The byte that locks.
        value: u8,
    },
}

/// The fields of a policy entry.
///
/// [`Entry::pack`] writes them in the published layout. It checks nothing: registration does.
#[derive(Clone, Copy, PartialEq, Eq, Debug)]
pub struct Entry {
    /// The namespace of the variables that the entry targets.
    pub namespace: Namespace,
    /// The name or pattern; empty for the whole namespace.
    pub name: Name,
    /// Least length of the payload as it would be afterwards: of an append, with what is stored.
    pub min_size: u32,
    /// Greatest length of that payload.
    pub max_size: u32,
    /// Attributes that a request must have.
    pub must_have: Attributes,
    /// Attributes that a request may not have.
    pub cant_have: Attributes,
    /// When the variable is locked.
    pub lock: Lock,
}

impl Entry {
    /// An entry for `name` of `namespace` that allows any size and attributes and never locks.
    pub const fn new(namespace: Namespace, name: Name) -> Entry {
        Entry {
            namespace,
            name,
            min_size: 0,
            max_size: u32::MAX,
            must_have: Attributes::NONE,
            cant_have: Attributes::NONE,
            lock: Lock::No,
        }
    }

    /// The packed bytes.
    pub fn pack(&self) -> PackedEntry {
        let mut packed = PackedEntry { bytes: [0; MAX_ENTRY_SIZE], len: 0 };
        packed.push(&0x0001_0000_u32.to_le_bytes());
        packed.push(&[0; 4]); // Size and OffsetToName, written when they are known
        packed.push(&self.namespace);
        for number in [self.min_size, self.max_size, self.must_have.0, self.cant_have.0] {
            packed.push(&number.to_le_bytes());
        }
        match &self.lock {
            Lock::No => packed.push(&[0; 4]),
            Lock::Now => packed.push(&[1, 0, 0, 0]),
            Lock::OnCreate => packed.push(&[2, 0, 0, 0]),
            Lock::OnVarState { namespace, name, value } => {
                packed.push(&[3, 0, 0, 0]);
                packed.push(namespace);
                packed.push(&[*value, 0]);
                packed.push(name);
                packed.push(&[0, 0]);
            }
        }
        let offset_to_name = packed.len as u16;
        if !self.name.is_empty() {
            packed.push(&self.name);
            packed.push(&[0, 0]);
        }
        let size = packed.len as u16;
        packed.bytes[4..6].copy_from_slice(&size.to_le_bytes());
        packed.bytes[6..8].copy_from_slice(&offset_to_name.to_le_bytes());
        packed
    }
}

/// The bytes of a packed entry.
#[derive(Clone, Copy, Debug)]
pub struct PackedEntry {
    bytes: [u8; MAX_ENTRY_SIZE],
    len: usize,
}

impl PackedEntry {
    fn push(&mut self, part: &[u8]) {
        self.bytes[self.len..self.len + part.len()].copy_from_slice(part);
        self.len += part.len();
    }
}

impl Deref for PackedEntry {
    type Target = [u8];

    fn deref(&self) -> &[u8] {
        &self.bytes[..self.len]
    }
}
