//! Limits, attribute bits, and the byte order of numbers.

use super::{Edit, edit};

pub(super) const EDITS: &[Edit] = &[
    edit(
        "limit-entries-less",
        "MAX_ENTRIES: usize = 128",
        "MAX_ENTRIES: usize = 127",
        "one entry under the limit at most",
    ),
    edit("limit-entries-more", "MAX_ENTRIES: usize = 128", "MAX_ENTRIES: usize = 129", "one entry over the limit"),
    edit(
        "limit-record-less",
        "POLICY_BYTES: usize = 16384",
        "POLICY_BYTES: usize = 16382",
        "a policy record two bytes under the limit",
    ),
    edit(
        "limit-record-more",
        "POLICY_BYTES: usize = 16384",
        "POLICY_BYTES: usize = 16386",
        "a policy record two bytes over the limit",
    ),
    edit("limit-store-32767", "MAX_STORE: usize = 32768", "MAX_STORE: usize = 32767", "stores of 32,767 at most"),
    edit("limit-store-32769", "MAX_STORE: usize = 32768", "MAX_STORE: usize = 32769", "stores of 32,769 at most"),
    edit("limit-payload-1023", "MAX_PAYLOAD: usize = 1024", "MAX_PAYLOAD: usize = 1023", "payloads of 1,023 at most"),
    edit("limit-payload-1025", "MAX_PAYLOAD: usize = 1024", "MAX_PAYLOAD: usize = 1025", "payloads of 1,025 at most"),
    edit("limit-units-63", "MAX_UNITS: usize = 64", "MAX_UNITS: usize = 63", "names of 63 units at most"),
    edit("limit-units-65", "MAX_UNITS: usize = 64", "MAX_UNITS: usize = 65", "names of 65 units at most"),
    edit("bit-append-0x20", "APPEND: u32 = 0x40", "APPEND: u32 = 0x20", "append is 0x20"),
    edit("bit-rt-0x08", "RT: u32 = 0x04", "RT: u32 = 0x08", "RT is 8"),
];

pub(super) const CURSOR_EDITS: &[Edit] = &[
    edit(
        "numbers-16-big-endian",
        "self.array().map(u16::from_le_bytes)",
        "self.array().map(u16::from_be_bytes)",
        "16-bit numbers are big-endian",
    ),
    edit(
        "numbers-32-big-endian",
        "self.array().map(u32::from_le_bytes)",
        "self.array().map(u32::from_be_bytes)",
        "32-bit numbers are big-endian",
    ),
    edit(
        "numbers-32-of-16",
        "self.array().map(u32::from_le_bytes)",
        "self.array().map(|bytes| u32::from_le_bytes(bytes) & 0xFFFF)",
        "of 32-bit numbers only the low half counts",
    ),
];
