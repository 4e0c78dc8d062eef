//! The limits. Their source is include/varpolicy.h: each number is read from it when the crate is built.

const HEADER: &[u8] = include_bytes!("../../../include/varpolicy.h");

/// Most entries that an engine holds.
pub const MAX_ENTRIES: usize = defined(b"#define VARPOLICY_MAX_ENTRIES ");
/// Length of the lent policy record, and the most that the Sizes of its entries sum to.
pub const POLICY_BYTES: usize = defined(b"#define VARPOLICY_POLICY_BYTES ");
/// Least bytes of an entry.
pub const MIN_ENTRY_SIZE: usize = defined(b"#define VARPOLICY_MIN_ENTRY_SIZE ");
/// Most bytes of an entry.
pub const MAX_ENTRY_SIZE: usize = defined(b"#define VARPOLICY_MAX_ENTRY_SIZE ");
/// Most bytes of a lent store.
pub const MAX_STORE_BYTES: usize = defined(b"#define VARPOLICY_MAX_STORE_BYTES ");
/// Most bytes of a payload.
pub const MAX_PAYLOAD_BYTES: usize = defined(b"#define VARPOLICY_MAX_PAYLOAD ");
/// Most units of a name.
pub const MAX_NAME_UNITS: usize = defined(b"#define VARPOLICY_MAX_NAME_UNITS ");
/// Most links from a settled variable to the last trigger: each is the step from a variable to its trigger.
pub const MAX_LINKS: usize = defined(b"#define VARPOLICY_MAX_LINKS ");
/// Most bytes of a piece that a reader is fed.
pub const MAX_PIECE: usize = defined(b"#define VARPOLICY_MAX_PIECE ");
/// Bytes of a reader.
pub const READER_BYTES: usize = defined(b"#define VARPOLICY_READER_BYTES ");

/// The decimal number behind this text in the header, with a comment behind it; the build fails where there is none.
const fn defined(text: &[u8]) -> usize {
    let mut at = 0;
    while !stands_at(text, at) {
        at += 1;
    }
    at += text.len();
    while HEADER[at] == b' ' {
        at += 1;
    }
    assert!(HEADER[at].is_ascii_digit() && HEADER[at] != b'0', "include/varpolicy.h: not a decimal number");
    let mut number = 0;
    while HEADER[at].is_ascii_digit() {
        number = 10 * number + (HEADER[at] - b'0') as usize;
        at += 1;
    }
    let ends = HEADER[at] == b'U' && HEADER[at + 1] == b' ';
    assert!(ends, "include/varpolicy.h: more than a decimal number");
    at += 1;
    while HEADER[at] == b' ' {
        at += 1;
    }
    assert!(HEADER[at] == b'/' && HEADER[at + 1] == b'*', "include/varpolicy.h: no comment behind a limit");
    number
}

/// Whether the header has the text there.
const fn stands_at(text: &[u8], at: usize) -> bool {
    assert!(at + text.len() <= HEADER.len(), "include/varpolicy.h does not define a limit");
    let mut place = 0;
    while place < text.len() {
        if HEADER[at + place] != text[place] {
            return false;
        }
        place += 1;
    }
    true
}
