//! The packed entry, decoded.

use crate::Namespace;
use crate::cursor::Cursor;
use crate::name;

const VERSION: u32 = 0x0001_0000;
/// Where the name begins when there is no trigger.
const HEADER: usize = 44;

/// A policy entry.
#[derive(Clone, PartialEq, Eq, Debug)]
pub struct Entry {
    /// The namespace of the variables that the entry targets.
    pub namespace: Namespace,
    /// The name or pattern; empty for the whole namespace.
    pub name: Vec<u16>,
    /// Least length of the payload as it would be afterwards (docs/RULES.md, 10.9).
    pub min_size: u32,
    /// Greatest length of that payload.
    pub max_size: u32,
    /// Attributes that a request must have.
    pub must_have: u32,
    /// Attributes that a request may not have.
    pub cant_have: u32,
    /// When the variable is locked.
    pub lock: LockRule,
    /// The three reserved bytes, ignored and kept.
    pub reserved: [u8; 3],
}

/// The lock rule of an entry.
#[derive(Clone, PartialEq, Eq, Debug)]
pub enum LockRule {
    /// Type 0.
    NoLock,
    /// Type 1.
    LockNow,
    /// Type 2.
    LockOnCreate,
    /// Type 3.
    LockOnVarState(Trigger),
}

/// The variable whose state decides a lock of type 3.
#[derive(Clone, PartialEq, Eq, Debug)]
pub struct Trigger {
    /// Its namespace.
    pub namespace: Namespace,
    /// Its name, which has no '#'.
    pub name: Vec<u16>,
    /// The value of its one byte that locks.
    pub value: u8,
    /// The reserved byte, ignored and kept.
    pub reserved: u8,
}

impl Entry {
    /// The entry that `bytes` are, if they are well formed.
    pub fn decode(bytes: &[u8]) -> Option<Entry> {
        let mut cursor = Cursor::new(bytes);
        let version = cursor.u32()?;
        let size = usize::from(cursor.u16()?);
        let offset_to_name = usize::from(cursor.u16()?);
        let namespace = cursor.array()?;
        let min_size = cursor.u32()?;
        let max_size = cursor.u32()?;
        let must_have = cursor.u32()?;
        let cant_have = cursor.u32()?;
        let lock_type = cursor.u8()?;
        let reserved = cursor.array()?;
        if version != VERSION || size != bytes.len() || min_size > max_size || must_have & cant_have != 0 {
            return None;
        }
        // Between the fixed part and the name stands the trigger, or nothing.
        let before_name = cursor.take(offset_to_name.checked_sub(HEADER)?)?;
        let lock = match lock_type {
            0 if before_name.is_empty() => LockRule::NoLock,
            1 if before_name.is_empty() => LockRule::LockNow,
            2 if before_name.is_empty() => LockRule::LockOnCreate,
            3 => LockRule::LockOnVarState(Trigger::decode(before_name)?),
            _ => return None,
        };
        let name = match cursor.rest() {
            [] => Vec::new(),
            closed => name::decode_closed(closed)?,
        };
        Some(Entry { namespace, name, min_size, max_size, must_have, cant_have, lock, reserved })
    }

    /// The bytes of the entry.
    pub fn encode(&self) -> Vec<u8> {
        let (lock_type, trigger) = match &self.lock {
            LockRule::NoLock => (0, Vec::new()),
            LockRule::LockNow => (1, Vec::new()),
            LockRule::LockOnCreate => (2, Vec::new()),
            LockRule::LockOnVarState(trigger) => (3, trigger.encode()),
        };
        let name = if self.name.is_empty() { Vec::new() } else { name::encode_closed(&self.name) };
        let offset_to_name = HEADER + trigger.len();
        let size = offset_to_name + name.len();
        let mut bytes = Vec::with_capacity(size);
        bytes.extend(VERSION.to_le_bytes());
        bytes.extend((size as u16).to_le_bytes());
        bytes.extend((offset_to_name as u16).to_le_bytes());
        bytes.extend(self.namespace);
        for number in [self.min_size, self.max_size, self.must_have, self.cant_have] {
            bytes.extend(number.to_le_bytes());
        }
        bytes.push(lock_type);
        bytes.extend(self.reserved);
        bytes.extend(trigger);
        bytes.extend(name);
        bytes
    }

    /// Whether the entry targets the variable of this namespace and name.
    pub fn targets(&self, namespace: &Namespace, variable: &[u16]) -> bool {
        self.namespace == *namespace && (self.name.is_empty() || name::matches(&self.name, variable))
    }

    /// The rank: the number of '#', or behind all of those for the whole namespace.
    pub fn rank(&self) -> usize {
        match self.name.as_slice() {
            [] => crate::MAX_UNITS + 1,
            name => name::wildcards(name),
        }
    }

    /// Whether two entries have the same namespace and the same name, unit for unit.
    pub fn repeats(&self, other: &Entry) -> bool {
        self.namespace == other.namespace && self.name == other.name
    }
}

impl Trigger {
    fn decode(bytes: &[u8]) -> Option<Trigger> {
        let mut cursor = Cursor::new(bytes);
        let namespace = cursor.array()?;
        let value = cursor.u8()?;
        let reserved = cursor.u8()?;
        let name = name::decode_closed(cursor.rest())?;
        // It is one variable's name, and no pattern.
        if name::has_number_sign(&name) {
            return None;
        }
        Some(Trigger { namespace, name, value, reserved })
    }

    fn encode(&self) -> Vec<u8> {
        let mut bytes = self.namespace.to_vec();
        bytes.push(self.value);
        bytes.push(self.reserved);
        bytes.extend(name::encode_closed(&self.name));
        bytes
    }
}

#[cfg(test)]
mod tests {
    use super::*;

    fn entry(name: &str) -> Entry {
        let name = name.encode_utf16().collect();
        let (namespace, reserved) = ([7; 16], [0; 3]);
        let lock = LockRule::LockNow;
        Entry { namespace, name, min_size: 0, max_size: 9, must_have: 0, cant_have: 0, lock, reserved }
    }

    #[test]
    fn a_name_with_number_signs_is_targeted_by_the_whole_namespace_alone() {
        let name = entry("Boot####").name;
        for pattern in ["Boot####", "Boot0000", "########", "#oot####"] {
            assert!(!entry(pattern).targets(&[7; 16], &name), "{pattern}");
        }
        assert!(entry("").targets(&[7; 16], &name));
        assert!(!entry("").targets(&[8; 16], &name));
    }

    fn with_trigger(name: &str, trigger: &[u16]) -> Entry {
        let trigger = Trigger { namespace: [0x23; 16], name: trigger.to_vec(), value: 0x23, reserved: 0 };
        Entry { lock: LockRule::LockOnVarState(trigger), ..entry(name) }
    }

    #[test]
    fn a_trigger_has_no_number_sign_at_any_place() {
        for count in 1..=crate::MAX_UNITS {
            for place in 0..count {
                let mut trigger = vec![0x41; count];
                trigger[place] = 0x23;
                assert_eq!(Entry::decode(&with_trigger("A", &trigger).encode()), None, "{place} of {count}");
            }
        }
        assert_eq!(Entry::decode(&with_trigger("", &[0x23; 64]).encode()), None);
    }

    #[test]
    fn what_is_nearly_a_number_sign_may_stand_in_a_trigger() {
        let near: [&[u16]; 7] =
            [&[0x22], &[0x24], &[0x2300], &[0x0123], &[0x2323], &[0xFF03], &[0x2341, 0x4100, 0x2300, 0x0041]];
        for trigger in near {
            for name in ["", "A", "#", "Boot####"] {
                let entry = with_trigger(name, trigger);
                assert_eq!(Entry::decode(&entry.encode()), Some(entry), "{trigger:x?}");
            }
        }
    }

    #[test]
    fn registration_compares_unit_for_unit() {
        assert!(entry("Boot####").repeats(&entry("Boot####")));
        for other in ["Boot0000", "Boot###0", "Boot###", ""] {
            assert!(!entry("Boot####").repeats(&entry(other)) && !entry(other).repeats(&entry("Boot####")), "{other}");
        }
    }
}
