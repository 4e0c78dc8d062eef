//! What is measured: cases, in groups of the same versions, and the bars that the library is held to.

use crate::calls::Call;
use crate::lent::{Answer, Lent};
use crate::parts::Part;
use crate::reading::Reading;

/// What is measured: a whole call, a part of one, or the calls that read a dump.
pub enum Work {
    /// A whole call.
    Call(Call),
    /// A part.
    Part(Part),
    /// The calls that read a dump.
    Reading(Reading),
}

impl Work {
    /// Whether an answer tells that what is lent is not sound or not valid.
    pub fn is_refused(&self, answer: &Answer) -> bool {
        match self {
            Work::Call(call) => call.is_refused(answer),
            Work::Part(part) => part.is_refused(answer),
            Work::Reading(reading) => reading.is_refused(answer),
        }
    }
}

/// A case: its name, what is measured and what is lent.
pub struct Case {
    /// The name in the table.
    pub name: String,
    /// What is measured.
    pub work: Work,
    /// What is subtracted: the same without the part that is measured.
    pub without: Option<Work>,
    /// What is lent.
    pub lent: Lent,
    /// The function of the library whose instructions are counted, if it is not all that is measured.
    pub counted: Option<&'static str>,
    /// By what the figures are divided: how many bytes a dump has, where they are of each byte.
    pub each: usize,
    /// What the library is held to.
    pub bar: Option<Bar>,
}

impl Case {
    /// A case whose work is measured whole.
    pub fn new(name: String, work: Work, lent: Lent) -> Case {
        Case { name, work, without: None, lent, counted: None, each: 1, bar: None }
    }

    /// The work and, if there is one, what is subtracted.
    pub fn works(&self) -> impl Iterator<Item = &Work> {
        std::iter::once(&self.work).chain(&self.without)
    }
}

/// What the library is held to.
#[derive(Clone, Copy)]
pub enum Bar {
    /// At most so many times the best of the ordinary versions.
    AtMost(f64),
    /// At most so many times the first and so many times the second of the ordinary versions.
    AtMostEach([f64; 2]),
    /// Less than the first of the ordinary versions.
    UnderFirst,
    /// At most so many instructions.
    Number(f64),
}

/// Cases with the same versions.
pub struct Group {
    /// What they have in common.
    pub title: &'static str,
    /// The versions: the library, perhaps once more compiled by itself, and then the ordinary ones.
    pub columns: &'static [&'static str],
    /// The titles of the library's ratio to each ordinary version.
    pub ratios: &'static [&'static str],
    /// The cases.
    pub cases: Vec<Case>,
    /// How much the library's figures may grow.
    pub growth: Vec<Growth>,
}

/// The library's figure of one case is at most so many times that of another.
pub struct Growth {
    /// The name in the table.
    pub name: String,
    /// The places of the two cases, the smaller first.
    pub cases: [usize; 2],
    /// At most so many times.
    pub most: f64,
}
