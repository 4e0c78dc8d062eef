//! The parts of the calls that are measured by themselves. As in the library, a choice or a search comes behind the
//! check, and an empty name asks for the check alone.

pub use super::pattern::matches;

use super::index::{Seen, Small};
use super::policy::{Entries, name_of, walk};
use super::stores::{Stores, record_len};
use super::{HEADER, le32};
use varpolicy::MAX_ENTRIES;

/// The bytes that the entries take.
pub fn check_policy(policy: &[u8]) -> Option<usize> {
    Entries::check(policy).map(|entries| entries.end())
}

/// The same, by comparing each entry with all before it.
pub fn check_policy_pairwise(policy: &[u8]) -> Option<usize> {
    let mut known = Vec::with_capacity(MAX_ENTRIES);
    walk(policy, |entry, _| {
        let key = (name_of(entry), entry[8..].first_chunk::<16>());
        let is_new = known.len() < MAX_ENTRIES && known.iter().all(|known| *known != key);
        known.push(key);
        is_new
    })
}

/// The first byte of the chosen entry.
pub fn choose(policy: &[u8], namespace: &[u8; 16], name: &[u8]) -> Option<usize> {
    let entries = Entries::check(policy)?;
    if name.is_empty() {
        return None;
    }
    entries.choose(namespace, name).map(|chosen| chosen.entry.as_ptr().addr() - policy.as_ptr().addr())
}

/// Where the records of the non-volatile and of the volatile store end.
pub fn check_stores<'a, I: Seen<'a>>(nv: &'a [u8], volatile: &'a [u8]) -> Option<[usize; 2]> {
    Stores::<I>::check(nv, volatile).map(|stores| [stores.ends[1], stores.ends[0]])
}

/// How a search compares a name.
#[derive(Clone, Copy)]
pub enum Compare {
    /// Whole, as slices.
    Whole,
    /// Its first unit before the rest.
    FirstUnit,
}

/// The store of the variable's record, 1 the non-volatile and 2 the volatile one, and its first byte.
pub fn find(nv: &[u8], volatile: &[u8], namespace: &[u8; 16], name: &[u8], compare: Compare) -> Option<[usize; 2]> {
    let [nv_end, volatile_end] = check_stores::<Small>(nv, volatile)?;
    if name.is_empty() {
        return None;
    }
    let walk = match compare {
        Compare::Whole => find_whole,
        Compare::FirstUnit => find_by_first_unit,
    };
    if let Some(at) = walk(&nv[..nv_end], namespace, name) {
        return Some([1, at]);
    }
    walk(&volatile[..volatile_end], namespace, name).map(|at| [2, at])
}

/// The first byte of the variable's record among records that were checked.
fn find_whole(records: &[u8], namespace: &[u8; 16], name: &[u8]) -> Option<usize> {
    let mut at = 0;
    while let Some((header, behind)) = records[at..].split_first_chunk::<HEADER>() {
        let name_size = le32(header, 8) as usize;
        if name_size == name.len() + 2 && behind[..name.len()] == *name && header[16..] == *namespace {
            return Some(at);
        }
        at += record_len(name_size, le32(header, 12) as usize);
    }
    None
}

/// The same, with one compare more for a name whose first unit is equal and one call less for the others.
fn find_by_first_unit(records: &[u8], namespace: &[u8; 16], name: &[u8]) -> Option<usize> {
    let (first, rest) = name.split_first_chunk::<2>()?;
    let mut at = 0;
    while let Some((header, behind)) = records[at..].split_first_chunk::<HEADER>() {
        let name_size = le32(header, 8) as usize;
        if name_size == name.len() + 2
            && behind.first_chunk() == Some(first)
            && behind[2..name.len()] == *rest
            && header[16..] == *namespace
        {
            return Some(at);
        }
        at += record_len(name_size, le32(header, 12) as usize);
    }
    None
}
