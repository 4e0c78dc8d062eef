//! Safe calls of `libvarpolicy.a`, the proved engine for UEFI variable policy.
//!
//! The engine keeps no memory of its own. The caller lends it two stores of variables (non-volatile
//! and volatile, 0 to [`MAX_STORE_BYTES`] each), a policy record of [`POLICY_BYTES`], and four switches. A call
//! checks all of each store and policy record that it is lent; but of the volatile store at power-on,
//! and of the policy record at power-on and restart, it checks the length alone. Of the switches every
//! byte has a meaning. A call that is refused leaves everything as it was.
//!
//! [`calls`] has one function for each call of the library. [`Engine`] keeps the lent slices and the
//! switches together and answers with `Result`. [`Entry`] packs a policy entry. [`Report`] tells why an entry
//! refused a set, and [`Engine::settled`] whether a lock lasts. [`quarrels`] tells of a dump whether the order of its
//! entries matters, and of which two. [`Reader`] reads a dump that arrives in pieces.
//!
//! ```
//! use varpolicy::{Attributes, Engine, Entry, Ground, Lock, Name, Status, POLICY_BYTES};
//!
//! let board = *b"sixteen bytes..!";
//! let (mut nv, mut volatile, mut policy) = ([0xFF; 256], [0xFF; 256], [0; POLICY_BYTES]);
//! let mut engine = Engine::power_on(&mut nv, &mut volatile, &mut policy, false)?;
//!
//! // The serial number can be written once.
//! let serial = Name::new("Serial").unwrap();
//! let entry = Entry { lock: Lock::OnCreate, ..Entry::new(board, serial) };
//! engine.register(&entry.pack())?;
//!
//! let attributes = Attributes::NV | Attributes::BS;
//! engine.set(&board, &serial, attributes, b"0042")?;
//! let refused = engine.set(&board, &serial, attributes, b"0043").unwrap_err();
//! assert_eq!((refused.status, refused.report.ground), (Status::WriteProtected, Ground::Lock));
//! assert_eq!(refused.to_string(), "WRITE_PROTECTED: entry 0 (rank 0) locks the variable");
//! assert_eq!(engine.read(&board, &serial)?.payload, b"0042");
//!
//! // With the engine locked, nothing but a start changes what is settled.
//! engine.lock()?;
//! assert!(engine.settled(&board, &serial)?);
//!
//! // The operating system starts: what has no RT is not for it.
//! engine.exit()?;
//! assert_eq!(engine.read(&board, &serial), Err(Status::NotFound));
//! assert_eq!(engine.lock(), Err(Status::Unsupported));
//! # Ok::<(), Status>(())
//! ```
#![no_std]

mod abi;
mod attributes;
pub mod calls;
mod engine;
mod entry;
mod limits;
mod quarrel;
mod reader;
mod report;
mod status;
mod switches;

pub use attributes::Attributes;
pub use engine::{Engine, NotDumped, Variable};
pub use entry::{Entry, Lock, Name, PackedEntry};
pub use limits::{
    MAX_ENTRIES, MAX_ENTRY_SIZE, MAX_LINKS, MAX_NAME_UNITS, MAX_PAYLOAD_BYTES, MAX_PIECE, MAX_STORE_BYTES,
    MIN_ENTRY_SIZE, POLICY_BYTES, READER_BYTES,
};
pub use quarrel::{Quarrel, quarrels};
pub use reader::{Entries, ListedEntry, Marks, Reader, Verdict};
pub use report::{Ground, Refused, Report, WHOLE_NAMESPACE_RANK};
pub use status::Status;
pub use switches::{SwitchBytes, Switches};

/// The 16 bytes of a namespace, in the order in which they stand in an entry and in a record.
pub type Namespace = [u8; 16];
