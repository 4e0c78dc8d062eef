//! Inputs that are too many to be listed, and of which each must be hit: units of names, and places in names of every
//! length; what the numbers of reports can be; what quarrels can be; dumps in pieces; bytes of switches, and sets before
//! exit and after; and chains of triggers.

use crate::inputs::labels::SWITCH_BYTES;
use crate::inputs::{exit, settled};
use crate::make::LONGEST;
use crate::reader::MAX_PIECE;
use reference::{MAX_ENTRIES, MAX_UNITS};
use std::fmt;

/// What is hit unit by unit, place by place, or number by number.
#[derive(Clone, Copy, PartialEq, Eq, Debug)]
#[allow(missing_docs)]
pub enum Each {
    UnderSign,
    UnderSignOfFour,
    UnderSignOfEight,
    OverItself,
    OverItselfOfEight,
    SignOverDigit,
    SignOverSign,
    SignOverOther,
    OtherUnit,
    TriggerUnit,
    TriggerUnitOfEight,
    SignInTrigger,
    SignBesideTrigger,
    TriggerBelow,
    TriggerAbove,
    TriggerLowByte,
    TriggerHighByte,
    TriggerAcross,
    LentToPowerOn,
    LentToRestart,
    LentToRegister,
    LentToDump,
    LentToSet,
    LentToSettled,
    ReportPlace,
    ReportRank,
    ReportCounts,
    ReportTwo,
    ReportBoth,
    ReportKnown,
    ReportNearNamespace,
    ReportNearUnit,
    QuarrelEarlier,
    QuarrelLater,
    QuarrelSigns,
    QuarrelUnder,
    QuarrelBothSigns,
    QuarrelSignAndDigit,
    QuarrelDigitAndSign,
    QuarrelSame,
    ApartNoDigit,
    ApartOther,
    ApartBit,
    ApartNamespace,
    ReadEntries,
    ReadBefore,
    ReadSigns,
    ReadSize,
    ReadPieceLength,
    ReadRefused,
    ReadPieceEnd,
    ReadCut,
    SwitchByte,
    UnsoundAndExited,
    AfterExit,
    SettledSetting,
    SettledLinks,
    SettledRound,
}

const UNITS: usize = 1 << 16;
/// The places of all names of 1 to 64 units.
const PLACES: usize = MAX_UNITS * (MAX_UNITS + 1) / 2;
/// The bits that a set can lack where it is asked for attributes: all but BS.
const LACKING: usize = 31;
/// How many numbers of missing bits there are beside 0 to 4 prohibited ones. Each of these but BS, which every set has,
/// is one less that can be missing.
const COUNTS: usize = 31 + 32 + 31 + 30 + 29;
/// The bits that can be prohibited in such a set, by their numbers.
const PROHIBITED: [u32; 4] = [0, 1, 2, 6];
/// How many bits can be missing beside each of these: all but it and BS.
const PAIRS: usize = 30 + 31 + 30 + 30;

const FIRST_OF_REPORTS: usize = Each::ReportPlace as usize;
const FIRST_OF_QUARRELS: usize = Each::QuarrelEarlier as usize;
const FIRST_OF_READINGS: usize = Each::ReadEntries as usize;
const FIRST_OF_SWITCHES: usize = Each::SwitchByte as usize;
const FIRST_OF_SETTLED: usize = Each::SettledSetting as usize;

/// What is hit, in words, and how many there are of it; in the order of [`Each`]. No pattern and no trigger has the
/// unit zero, and a name of one unit has no place between two. Names that quarrel have two units at least, at one place
/// '#' and a digit and at another a digit and '#'.
const TALLIES: [(Each, &str, usize); 58] = [
    (Each::UnderSign, "units under '#', which is the whole pattern", UNITS),
    (Each::UnderSignOfFour, "units under '#', one of four units", UNITS),
    (Each::UnderSignOfEight, "units under '#', one of eight units", UNITS),
    (Each::OverItself, "units over themselves, the whole pattern", UNITS - 1),
    (Each::OverItselfOfEight, "units over themselves, one of eight units", UNITS - 1),
    (Each::SignOverDigit, "places of '#' over a hex digit", PLACES),
    (Each::SignOverSign, "places of '#' over '#'", PLACES),
    (Each::SignOverOther, "places of '#' over another unit", PLACES),
    (Each::OtherUnit, "places of a unit over another", PLACES),
    (Each::TriggerUnit, "units that are a trigger's whole name", UNITS - 1),
    (Each::TriggerUnitOfEight, "units of a trigger's name of eight", UNITS - 1),
    (Each::SignInTrigger, "places of '#' in a trigger's name: 2", PLACES),
    (Each::SignBesideTrigger, "places of '#' in a name beside a trigger: 0", PLACES),
    (Each::TriggerBelow, "places of 0x22 in a trigger's name: 0", PLACES),
    (Each::TriggerAbove, "places of 0x24 in it: 0", PLACES),
    (Each::TriggerLowByte, "places of the low byte of '#' alone in it: 0", PLACES),
    (Each::TriggerHighByte, "places of 0x23 as a high byte in it: 0", PLACES),
    (Each::TriggerAcross, "places of '#' across two units of it: 0", PLACES - MAX_UNITS),
    (Each::LentToPowerOn, "places of '#' in it, lent to power-on: 0", PLACES),
    (Each::LentToRestart, "places of '#' in it, lent to restart: 0", PLACES),
    (Each::LentToRegister, "places of '#' in it, lent to register: 10", PLACES),
    (Each::LentToDump, "places of '#' in it, lent to dump: 10", PLACES),
    (Each::LentToSet, "places of '#' in it, lent to set: 10", PLACES),
    (Each::LentToSettled, "places of '#' in it, lent to settled: 10", PLACES),
    (Each::ReportPlace, "places, by the ground", 3 * MAX_ENTRIES),
    (Each::ReportRank, "ranks, by the ground", 3 * (MAX_UNITS + 2)),
    (Each::ReportCounts, "numbers of missing and of prohibited bits", COUNTS),
    (Each::ReportTwo, "two missing bits, none prohibited", LACKING * (LACKING - 1) / 2),
    (Each::ReportBoth, "lowest missing bit and lowest prohibited one", PAIRS),
    (Each::ReportKnown, "known bits required, prohibited and given", 81 * 8),
    (Each::ReportNearNamespace, "bits of another entry's namespace, by ground", 3 * 128),
    (Each::ReportNearUnit, "bits of a unit of its name, by ground", 3 * 16),
    (Each::QuarrelEarlier, "places of the earlier entry", MAX_ENTRIES - 1),
    (Each::QuarrelLater, "places of the later entry", MAX_ENTRIES - 1),
    (Each::QuarrelSigns, "numbers of units with numbers of '#'", PLACES - MAX_UNITS),
    (Each::QuarrelUnder, "units of the later entry under '#'", UNITS - 1),
    (Each::QuarrelBothSigns, "places of '#' and '#'", PLACES - 3),
    (Each::QuarrelSignAndDigit, "places of '#' and a hex digit", PLACES - 1),
    (Each::QuarrelDigitAndSign, "places of a hex digit and '#'", PLACES - 1),
    (Each::QuarrelSame, "places of the same unit", PLACES - 3),
    (Each::ApartNoDigit, "places of '#' and no hex digit: no quarrel", PLACES - 1),
    (Each::ApartOther, "places of two units: no quarrel", PLACES),
    (Each::ApartBit, "bits in which they differ: no quarrel", 16),
    (Each::ApartNamespace, "bits in which namespaces differ: no quarrel", 128),
    (Each::ReadEntries, "numbers of entries in a dump", MAX_ENTRIES + 1),
    (Each::ReadBefore, "numbers of good entries before a bad one", MAX_ENTRIES + 1),
    (Each::ReadSigns, "numbers of units with numbers of '#'", PLACES + MAX_UNITS),
    (Each::ReadSize, "Sizes of entries", (LONGEST - 44) / 2),
    (Each::ReadPieceLength, "lengths of pieces: 0", MAX_PIECE),
    (Each::ReadRefused, "lengths of pieces up to twice the most: 2", MAX_PIECE),
    (Each::ReadPieceEnd, "places in the longest entry where a piece ends", LONGEST - 1),
    (Each::ReadCut, "places in it where the dump ends", LONGEST - 1),
    (Each::SwitchByte, "values of a byte, by the byte and the call", 256 * SWITCH_BYTES),
    (Each::UnsoundAndExited, "values of exited beside 10, by the call", 256 * exit::CALLS_ON_BOTH.len()),
    (Each::AfterExit, "sets before exit and after, by what they meet", exit::SETS),
    (Each::SettledSetting, "settings of the switches, by the answer", settled::SETTINGS),
    (Each::SettledLinks, "numbers of links, by the end of the chain", settled::CHAINS),
    (Each::SettledRound, "variables of a loop, by the links before it", settled::ROUNDS),
];

/// The number of a place in a name of so many units.
pub fn place_number(length: usize, place: usize) -> usize {
    length * (length - 1) / 2 + place
}

/// The number of so many missing and prohibited bits, which are not both 0.
pub fn counts_number(missing: u32, prohibited: u32) -> usize {
    let most = |prohibited: u32| LACKING as u32 - prohibited.saturating_sub(1);
    let before: u32 = (0..prohibited).map(|fewer| most(fewer) + 1).sum();
    (before + missing) as usize - 1
}

/// The number of these two bits, a missing one and a prohibited one.
pub fn pair_number(missing: u32, prohibited: u32) -> usize {
    let pairs = PROHIBITED.iter().flat_map(|known| (0..32).map(move |bit| (bit, *known)));
    let mut pairs = pairs.filter(|(bit, known)| *bit != 1 && bit != known);
    pairs.position(|pair| pair == (missing, prohibited)).expect("a set has the one and lacks the other")
}

/// What was hit.
#[derive(Clone, Debug)]
pub struct Tallies {
    hit: Vec<Vec<bool>>,
}

impl Default for Tallies {
    fn default() -> Tallies {
        assert!(TALLIES.iter().enumerate().all(|(place, (each, ..))| *each as usize == place));
        Tallies { hit: TALLIES.map(|(_, _, count)| vec![false; count]).to_vec() }
    }
}

impl Tallies {
    /// Notes that the one of this number was hit, if there is one.
    pub fn hit(&mut self, each: Each, number: usize) {
        if let Some(hit) = self.hit[each as usize].get_mut(number) {
            *hit = true;
        }
    }

    /// Each title with how many were hit, and out of how many.
    fn rows(&self) -> impl Iterator<Item = (&'static str, usize, usize)> {
        let hits = self.hit.iter().map(|hit| hit.iter().filter(|hit| **hit).count());
        TALLIES.iter().zip(hits).map(|((_, title, count), hit)| (*title, hit, *count))
    }

    /// What was not hit.
    pub fn missed(&self) -> impl Iterator<Item = String> {
        let missed = self.rows().filter(|(_, hit, count)| hit < count);
        missed.map(|(title, hit, count)| format!("{title}: {} of {count}", count - hit))
    }
}

impl fmt::Display for Tallies {
    fn fmt(&self, out: &mut fmt::Formatter) -> fmt::Result {
        for (place, (title, hit, count)) in self.rows().enumerate() {
            match place {
                0 => {
                    writeln!(out, "\nunits, and places in names of 1 to {MAX_UNITS} units, where nothing else decides")?
                }
                FIRST_OF_REPORTS => writeln!(out, "\nreports")?,
                FIRST_OF_QUARRELS => writeln!(out, "\nquarrels, and what is one but for this alone")?,
                FIRST_OF_READINGS => writeln!(out, "\ndumps read in pieces")?,
                FIRST_OF_SWITCHES => writeln!(out, "\nswitches")?,
                FIRST_OF_SETTLED => writeln!(out, "\nsettled variables")?,
                _ => {}
            }
            writeln!(out, "  {title:<45}{hit:>8} of {count:>5}")?;
        }
        Ok(())
    }
}
