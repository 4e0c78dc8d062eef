//! The report of a set: why the chosen entry refused it.

use crate::{Attributes, Status, abi};
use core::fmt;

/// The rank of an entry for a whole namespace: more than the `#` that a name can have.
pub const WHOLE_NAMESPACE_RANK: u32 = 65;

/// What the chosen entry had against a set: the first of its grounds that holds.
#[derive(Clone, Copy, PartialEq, Eq, Hash, Debug)]
#[repr(u32)]
pub enum Ground {
    /// Nothing: the set succeeded, or something else than an entry refused it.
    None = 0,
    /// The payload as it would be afterwards is shorter than MinSize or longer than MaxSize.
    Size = 1,
    /// The attributes lack a required bit or have a prohibited one.
    Attributes = 2,
    /// The entry locks the variable.
    Lock = 3,
}

impl Ground {
    /// Every ground, by number.
    pub const ALL: [Ground; 4] = [Ground::None, Ground::Size, Ground::Attributes, Ground::Lock];

    /// The ground of this number, if there is one.
    pub fn from_number(number: u32) -> Option<Ground> {
        Ground::ALL.into_iter().find(|ground| ground.number() == number)
    }

    /// The number.
    pub const fn number(self) -> u32 {
        self as u32
    }

    /// The name that the C header gives it, without "VARPOLICY_GROUND_".
    pub const fn name(self) -> &'static str {
        match self {
            Ground::None => "NONE",
            Ground::Size => "SIZE",
            Ground::Attributes => "ATTRIBUTES",
            Ground::Lock => "LOCK",
        }
    }
}

impl fmt::Display for Ground {
    fn fmt(&self, out: &mut fmt::Formatter) -> fmt::Result {
        out.pad(self.name())
    }
}

/// What stands beside the status of a set. Without a ground every number is 0.
#[derive(Clone, Copy, PartialEq, Eq, Hash, Debug)]
pub struct Report {
    /// Why the chosen entry refused the set.
    pub ground: Ground,
    /// The place of that entry, counted from 0 as a dump has them. A refused set changes nothing, so the entry is
    /// still there, and before exit a dump has it.
    pub place: u32,
    /// How many `#` the name of that entry has, or [`WHOLE_NAMESPACE_RANK`].
    pub rank: u32,
    /// How many required bits the request lacks. 0 but for [`Ground::Attributes`].
    pub missing: u32,
    /// How many prohibited bits the request has. 0 but for [`Ground::Attributes`].
    pub prohibited: u32,
    /// The lowest bit of all these, missing or prohibited; 0 is the bit of value 1. 0 but for
    /// [`Ground::Attributes`].
    pub lowest_bit: u32,
}

impl Report {
    /// No ground.
    pub const NONE: Report =
        Report { ground: Ground::None, place: 0, rank: 0, missing: 0, prohibited: 0, lowest_bit: 0 };

    /// The report that the library answered.
    pub(crate) fn answered(report: &abi::Report) -> Report {
        let abi::Report { ground, place, rank, missing, prohibited, lowest_bit } = *report;
        let ground = Ground::from_number(ground).expect("libvarpolicy.a answers no other ground");
        Report { ground, place, rank, missing, prohibited, lowest_bit }
    }
}

/// A refused set: its status and its report. As text it is a sentence; [`Status::from`] keeps the status alone, so
/// that `?` serves in a function that answers with it.
///
/// ```
/// use varpolicy::{Ground, Refused, Report, Status};
///
/// let report = Report { ground: Ground::Lock, place: 3, ..Report::NONE };
/// let refused = Refused { status: Status::WriteProtected, report };
/// assert_eq!(refused.to_string(), "WRITE_PROTECTED: entry 3 (rank 0) locks the variable");
/// assert_eq!(Status::from(refused), Status::WriteProtected);
///
/// let refused = Refused { status: Status::NotFound, report: Report::NONE };
/// assert_eq!(refused.to_string(), "NOT_FOUND");
/// ```
#[derive(Clone, Copy, PartialEq, Eq, Hash, Debug)]
pub struct Refused {
    /// Any status but SUCCESS.
    pub status: Status,
    /// What the chosen entry had against the set; [`Report::NONE`] if something else refused it.
    pub report: Report,
}

impl From<Refused> for Status {
    fn from(refused: Refused) -> Status {
        refused.status
    }
}

impl fmt::Display for Refused {
    fn fmt(&self, out: &mut fmt::Formatter) -> fmt::Result {
        let Refused { status, report } = self;
        let entry = EntryOf(report);
        match report.ground {
            Ground::None => write!(out, "{status}"),
            Ground::Size => write!(out, "{status}: the size is not one that {entry} allows"),
            Ground::Attributes => write!(out, "{status}: {entry} {}", BitsOf(report)),
            Ground::Lock => write!(out, "{status}: {entry} locks the variable"),
        }
    }
}

impl core::error::Error for Refused {}

/// The entry of a report, as text.
struct EntryOf<'a>(&'a Report);

impl fmt::Display for EntryOf<'_> {
    fn fmt(&self, out: &mut fmt::Formatter) -> fmt::Result {
        let Report { place, rank, .. } = self.0;
        let whole = if *rank == WHOLE_NAMESPACE_RANK { ", whole namespace" } else { "" };
        write!(out, "entry {place} (rank {rank}{whole})")
    }
}

/// The attribute bits of a report, as text.
struct BitsOf<'a>(&'a Report);

impl fmt::Display for BitsOf<'_> {
    fn fmt(&self, out: &mut fmt::Formatter) -> fmt::Result {
        let Report { missing, prohibited, lowest_bit, .. } = *self.0;
        let bits = |count: u32| if count == 1 { "attribute bit" } else { "attribute bits" };
        let are = |count: u32| if count == 1 { "is" } else { "are" };
        if missing > 0 {
            write!(out, "requires {missing} {} that {} missing", bits(missing), are(missing))?;
        }
        match (missing, prohibited) {
            (_, 0) => {}
            (0, _) => write!(out, "prohibits {prohibited} {} that {} set", bits(prohibited), are(prohibited))?,
            _ => write!(out, " and prohibits {prohibited} that {} set", are(prohibited))?,
        }
        let lowest = if matches!((missing, prohibited), (1, 0) | (0, 1)) { "" } else { "the lowest is " };
        write!(out, ", {lowest}bit {lowest_bit}")?;
        match Attributes::NAMED.iter().find(|(attribute, _)| attribute.0.trailing_zeros() == lowest_bit) {
            Some((_, name)) => write!(out, " ({name})"),
            None => Ok(()),
        }
    }
}
