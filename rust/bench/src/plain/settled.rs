//! Whether a variable is settled: stores and record are checked once, and then the links are followed in a loop.

use super::calls::{INVALID_PARAMETER, SUCCESS, VOLUME_CORRUPTED};
use super::index::Small;
use super::is_name;
use super::policy::Entries;
use super::stores::{Key, Stores};
use varpolicy::MAX_LINKS;

/// What the call answers.
#[derive(Clone, Copy, PartialEq, Eq, Debug)]
pub struct Settled {
    pub status: u32,
    pub settled: bool,
}

/// With `BY_TABLE` an entry for just the variable is looked for in the table of the entries first.
pub fn settled<const BY_TABLE: bool>(
    nv: &[u8],
    volatile: &[u8],
    policy: &[u8],
    namespace: &[u8; 16],
    name: &[u8],
) -> Settled {
    let refused = |status| Settled { status, settled: false };
    let Some(stores) = Stores::<Small>::check(nv, volatile) else { return refused(VOLUME_CORRUPTED) };
    let Some(entries) = Entries::check(policy) else { return refused(VOLUME_CORRUPTED) };
    if !is_name(name) {
        return refused(INVALID_PARAMETER);
    }
    Settled { status: SUCCESS, settled: lasts::<BY_TABLE>(&entries, &stores, Key::new(namespace, name)) }
}

/// Goes from the variable to its trigger, and so on, until an entry locks without one or no link is left.
fn lasts<const BY_TABLE: bool>(entries: &Entries, stores: &Stores<Small>, mut key: Key) -> bool {
    for link in 0..=MAX_LINKS {
        let Some(entry) = chosen::<BY_TABLE>(entries, &key) else { return false };
        match entry[40] {
            0 => return false,
            1 => return true,
            // A trigger that holds its value exists.
            2 => return link > 0 || stores.find(key.bytes()).is_some(),
            _ if link == MAX_LINKS => return false,
            _ => key = Key::of_trigger(entry),
        }
        if !stores.holds(&key, entry[60]) {
            return false;
        }
    }
    false
}

/// The entry that is chosen for a variable.
fn chosen<'a, const BY_TABLE: bool>(entries: &Entries<'a>, key: &Key) -> Option<&'a [u8]> {
    let (namespace, name) = key.parts();
    if BY_TABLE && let Some(entry) = entries.only_for(namespace, name) {
        return Some(entry);
    }
    entries.choose(namespace, &name[..name.len() - 2]).map(|chosen| chosen.entry)
}
