//! Entries of a dump that quarrel.

use crate::calls::{self, Quarrelled};
use crate::{MAX_NAME_UNITS, Name, Status};
use core::fmt;

/// Two entries of a dump that quarrel: they have the same rank, and some variable is targeted by both. Unless an entry
/// of lower rank targets it too, the one registered first speaks for it. A rebuild has to keep their order. As text it
/// is a sentence.
#[derive(Clone, Copy, PartialEq, Eq, Debug)]
pub struct Quarrel {
    /// The place of the entry that was registered first, counted from 0 as the dump has them.
    pub earlier: usize,
    /// The place of the other one.
    pub later: usize,
    /// The smallest name that both target, in the namespace that both have: by the first unit that differs.
    pub name: Name,
}

impl fmt::Display for Quarrel {
    fn fmt(&self, out: &mut fmt::Formatter) -> fmt::Result {
        let Quarrel { earlier, later, name } = self;
        write!(out, "entries {earlier} and {later} quarrel: ")?;
        write!(out, "they have the same rank, and \"{name}\" is the smallest name that both target")
    }
}

/// The first two entries of a dump that quarrel, if any do. If none do, the entries may be registered again in every
/// order. The bytes may come from anywhere: no engine is asked.
///
/// * INVALID_PARAMETER: the bytes are not a dump; see [`calls::quarrels`].
///
/// ```
/// use varpolicy::{Entry, Name, Status, quarrels};
///
/// let entry = |name: &str| Entry::new(*b"sixteen bytes..!", Name::new(name).unwrap()).pack();
/// let dump = [&entry("Boot00##")[..], &entry("BootOrder"), &entry("Boot##01")].concat();
/// let quarrel = quarrels(&dump)?.expect("two entries for Boot0001");
/// assert_eq!((quarrel.earlier, quarrel.later, quarrel.name), (0, 2, Name::new("Boot0001").unwrap()));
/// assert_eq!(
///     quarrel.to_string(),
///     "entries 0 and 2 quarrel: they have the same rank, and \"Boot0001\" is the smallest name that both target"
/// );
///
/// // A digit in the place of a '#' settles it.
/// let dump = [&entry("Boot00##")[..], &entry("BootOrder"), &entry("Boot#001")].concat();
/// assert_eq!(quarrels(&dump)?, None);
/// assert_eq!(quarrels(&dump[1..]), Err(Status::InvalidParameter));
/// # Ok::<(), Status>(())
/// ```
pub fn quarrels(dump: &[u8]) -> Result<Option<Quarrel>, Status> {
    let mut buffer = [0; 2 * MAX_NAME_UNITS];
    let Quarrelled { status, found, earlier, later, name_length } = calls::quarrels(dump, &mut buffer);
    status.ok()?;
    let units = buffer[..name_length].chunks_exact(2).map(|unit| u16::from_le_bytes([unit[0], unit[1]]));
    let name = Name::from_units(units).expect("no more units than the buffer has");
    Ok(found.then_some(Quarrel { earlier, later, name }))
}
