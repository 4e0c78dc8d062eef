//! The calls and their parts in ordinary Rust, for the benchmarks: fast code over the same packed bytes, in place.
//!
//! As in the library, every call checks all of what it is lent. Each store is walked once; every
//! record is validated and entered in a table, which tells repeated variables during the walk
//! and finds the variable and the trigger after it. The table is a parameter ([`index::Index`]): the
//! standard library's hash table, a small one on the stack, or a list of all keys. Names are compared eight units at
//! once; the choice passes most entries by at four ([`pattern::Four`]).

pub mod calls;
pub mod index;
pub mod parts;
mod pattern;
mod policy;
mod quarrels;
pub mod reader;
pub mod settled;
mod stores;

use varpolicy::MAX_NAME_UNITS;

const NV: u32 = 1;
const BS: u32 = 2;
const RT: u32 = 4;
const APPEND: u32 = 0x40;

/// Most bytes of a name.
const MAX_NAME: usize = 2 * MAX_NAME_UNITS;
const HEADER: usize = 32;
const ENTRY_HEADER: usize = 44;

fn le16(bytes: &[u8], at: usize) -> u16 {
    u16::from_le_bytes([bytes[at], bytes[at + 1]])
}

fn le32(bytes: &[u8], at: usize) -> u32 {
    u32::from_le_bytes([bytes[at], bytes[at + 1], bytes[at + 2], bytes[at + 3]])
}

/// Whether all bytes are `value`: a block at a time, without a branch inside, so that it is vectorised.
fn all_are(bytes: &[u8], value: u8) -> bool {
    bytes.chunks(2048).all(|block| block.iter().fold(0, |bits, byte| bits | (byte ^ value)) == 0)
}

/// Whether bytes are the units of a name: 1 to 64, none zero. Eight are tested at once, by one vector compare.
fn is_name(bytes: &[u8]) -> bool {
    let mut rest = bytes;
    while let Some((block, behind)) = rest.split_first_chunk::<16>() {
        if block.as_chunks::<2>().0.iter().fold(false, |zero, unit| zero | (*unit == [0, 0])) {
            return false;
        }
        rest = behind;
    }
    let (units, odd) = rest.as_chunks::<2>();
    !bytes.is_empty() && bytes.len() <= MAX_NAME && odd.is_empty() && units.iter().all(|unit| *unit != [0, 0])
}

/// Whether bytes are a name and then a zero unit.
fn is_closed_name(bytes: &[u8]) -> bool {
    matches!(bytes, [name @ .., 0, 0] if is_name(name))
}
