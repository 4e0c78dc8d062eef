//! An independent implementation of the variable policy engine, written from its rules and the white
//! paper alone, for comparison with the proved library.
//!
//! It shares no code and no structure with the library. Every call decodes what it is lent into
//! structs ([`Variable`], [`Entry`]), acts on those, and encodes them again; the library works on
//! the packed bytes in place. It is written to be read beside docs/RULES.md, not to be fast.
#![forbid(unsafe_code)]

mod cursor;
mod engine;
mod entry;
mod name;
mod policy;
mod quarrel;
mod reading;
mod report;
mod settled;
mod store;
mod switches;

pub use engine::{
    Found, RegisterGround, Request, SetGround, disable, dump, exit, lock, power_on, query, read, register, restart, set,
};
pub use entry::{Entry, LockRule, Trigger};
pub use policy::Policy;
pub use quarrel::{Quarrelled, quarrels};
pub use reading::{Fault, Listed, Reading, read_dump};
pub use report::{Ground, Report};
pub use settled::settled;
pub use store::{Kind, Pair, Variable};
pub use switches::{SwitchBytes, Switches, gives_leave};

/// The 16 bytes of a namespace, as they stand in an entry and in a record.
pub type Namespace = [u8; 16];

/// Most entries that an engine holds.
pub const MAX_ENTRIES: usize = 128;
/// Length of the lent policy record, and the most that the Sizes of its entries sum to.
pub const POLICY_BYTES: usize = 16384;
/// Most bytes of a lent store.
pub const MAX_STORE: usize = 32768;
/// Most bytes of a payload.
pub const MAX_PAYLOAD: usize = 1024;
/// Most units of a name.
pub const MAX_UNITS: usize = 64;
/// Most links from a settled variable to the last trigger.
pub const MAX_LINKS: usize = 16;

/// Attribute: non-volatile.
pub const NV: u32 = 0x01;
/// Attribute: visible to boot services.
pub const BS: u32 = 0x02;
/// Attribute: visible at run time.
pub const RT: u32 = 0x04;
/// Attribute of a request, never stored: the payload is joined to what is stored.
pub const APPEND: u32 = 0x40;

/// What a call answers, with UEFI's numbers (without the high bit).
#[derive(Clone, Copy, PartialEq, Eq, PartialOrd, Ord, Debug)]
#[allow(missing_docs)]
#[repr(u32)]
pub enum Status {
    Success = 0,
    InvalidParameter = 2,
    Unsupported = 3,
    BufferTooSmall = 5,
    WriteProtected = 8,
    OutOfResources = 9,
    VolumeCorrupted = 10,
    NotFound = 14,
    AlreadyStarted = 20,
}
