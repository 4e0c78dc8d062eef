//! Values as text: payloads, variables, and the entries of a dump as `register` would take them, with their places.

use crate::text;
use std::collections::BTreeMap;
use varpolicy::{Attributes, Entry, Lock, Name, Namespace, SwitchBytes, Switches};

/// A number of bytes.
pub fn count(bytes: usize) -> String {
    match bytes {
        1 => "1 byte".to_string(),
        _ => format!("{bytes} bytes"),
    }
}

/// A payload: its length, its first bytes, and as text if it is printable.
pub fn payload(bytes: &[u8]) -> String {
    const SHOWN: usize = 32;
    let count = count(bytes.len());
    let more = if bytes.len() > SHOWN { " .." } else { "" };
    let shown = text::spaced_hex(&bytes[..bytes.len().min(SHOWN)]);
    match std::str::from_utf8(bytes) {
        Ok(words) if more.is_empty() && words.chars().all(|character| (' '..='~').contains(&character)) => {
            format!("{count}: {shown} \"{words}\"")
        }
        _ => format!("{count}: {shown}{more}"),
    }
}

/// The switches; of exited only where it is set, which no start hands back.
pub fn switches(bytes: SwitchBytes) -> String {
    let switches = Switches::from(bytes);
    let enabled = if switches.enabled { "enabled" } else { "disabled" };
    let locked = if switches.locked { "locked" } else { "unlocked" };
    let allowed = if switches.disabling_allowed { "allowed" } else { "not allowed" };
    let exited = if switches.exited { ", exited" } else { "" };
    format!("{enabled}, {locked}, disabling {allowed}{exited}")
}

/// The entries of a dump, one line each.
pub fn entries(dump: &[u8], namespaces: &BTreeMap<String, Namespace>) -> String {
    split(dump).into_iter().enumerate().map(|(place, bytes)| entry_line(place, bytes, namespaces)).collect()
}

/// A line for a well-formed packed entry, with its place in a dump.
pub fn entry_line(place: usize, bytes: &[u8], namespaces: &BTreeMap<String, Namespace>) -> String {
    format!("\n    {place}: {}", entry(&fields(bytes), namespaces))
}

/// The bytes of each entry of a dump.
pub fn split(dump: &[u8]) -> Vec<&[u8]> {
    let mut entries = Vec::new();
    let mut rest = dump;
    while let [_, _, _, _, low, high, ..] = rest {
        let size = usize::from(u16::from_le_bytes([*low, *high]));
        let Some((entry, behind)) = rest.split_at_checked(size).filter(|(entry, _)| entry.len() >= 44) else {
            break;
        };
        entries.push(entry);
        rest = behind;
    }
    entries
}

/// The fields of a well-formed packed entry.
pub fn fields(bytes: &[u8]) -> Entry {
    let number = |at: usize| u32::from_le_bytes([bytes[at], bytes[at + 1], bytes[at + 2], bytes[at + 3]]);
    let namespace = |at: usize| bytes[at..at + 16].try_into().expect("16 bytes");
    let offset_to_name = usize::from(u16::from_le_bytes([bytes[6], bytes[7]]));
    let lock = match bytes[40] {
        1 => Lock::Now,
        2 => Lock::OnCreate,
        3 => Lock::OnVarState { namespace: namespace(44), name: opened(&bytes[62..offset_to_name]), value: bytes[60] },
        _ => Lock::No,
    };
    Entry {
        namespace: namespace(8),
        name: opened(&bytes[offset_to_name..]),
        min_size: number(24),
        max_size: number(28),
        must_have: Attributes(number(32)),
        cant_have: Attributes(number(36)),
        lock,
    }
}

/// A name without its closing zero unit.
fn opened(closed: &[u8]) -> Name {
    let units = closed.chunks_exact(2).map(|unit| u16::from_le_bytes([unit[0], unit[1]]));
    Name::from_units(units.take_while(|unit| *unit != 0)).expect("at most 64 units")
}

fn entry(entry: &Entry, namespaces: &BTreeMap<String, Namespace>) -> String {
    let mut line = variable(&entry.namespace, &entry.name, namespaces);
    if entry.min_size != 0 {
        line += &format!(" min={}", entry.min_size);
    }
    if entry.max_size != u32::MAX {
        line += &format!(" max={}", entry.max_size);
    }
    for (key, attributes) in [("must", entry.must_have), ("cant", entry.cant_have)] {
        if attributes != Attributes::NONE {
            line += &format!(" {key}={attributes}");
        }
    }
    if entry.lock != Lock::No {
        line += &format!(" {}", lock(&entry.lock, namespaces));
    }
    line
}

/// A lock, with its trigger and its value if it has them.
pub fn lock(lock: &Lock, namespaces: &BTreeMap<String, Namespace>) -> String {
    match lock {
        Lock::No => "lock=no".to_string(),
        Lock::Now => "lock=now".to_string(),
        Lock::OnCreate => "lock=on-create".to_string(),
        Lock::OnVarState { namespace: space, name: trigger, value } => {
            let (space, trigger) = (namespace(space, namespaces), name(trigger));
            format!("lock=on-state trigger={space}:{trigger} value={value:02X}")
        }
    }
}

/// A variable, or what an entry targets: the namespace, and the name in quotes or `*` for none.
pub fn variable(namespace: &Namespace, name: &Name, namespaces: &BTreeMap<String, Namespace>) -> String {
    format!("{} {}", self::namespace(namespace, namespaces), self::name(name))
}

/// The alias of a namespace, or its 32 hex digits.
fn namespace(bytes: &Namespace, namespaces: &BTreeMap<String, Namespace>) -> String {
    match namespaces.iter().find(|(_, known)| *known == bytes) {
        Some((alias, _)) => alias.clone(),
        None => text::spaced_hex(bytes).replace(' ', ""),
    }
}

/// A name in quotes, or `*` for none.
fn name(name: &Name) -> String {
    if name.is_empty() { "*".to_string() } else { format!("\"{name}\"") }
}
