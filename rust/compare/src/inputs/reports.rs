//! Counts the reports of sets (docs/RULES.md, 10.10): their numbers, the entries that they point to and, where there is
//! no ground, what decided and what the chosen entry would have said.

use super::count_if;
use super::signs::lock_number;
use crate::coverage::{Coverage, Input};
use crate::steps::Met;
use crate::tallies::{Each, counts_number, pair_number};
use reference::{APPEND, Entry, MAX_ENTRIES, MAX_UNITS, Policy, SetGround};
use varpolicy::{Ground, Namespace, Report};

/// Counts the report of a set that was decided so.
pub(super) fn count(
    coverage: &mut Coverage,
    choosing: (&Policy, &Namespace),
    met: &Met,
    decided: SetGround,
    report: &Report,
) {
    match met.chosen.filter(|_| report.ground != Ground::None) {
        Some(entry) => count_report(coverage, choosing, met, entry, report),
        None => count_none(coverage, (decided, met.enabled, says(met))),
    }
}

/// What the chosen entry says to a set or, where it is not asked, would say.
#[derive(Clone, Copy, PartialEq, Eq, Debug)]
enum Saying {
    NoEntry,
    Nothing,
    Size,
    Attributes,
    Lock,
}

/// What decides a set, whether the engine is enabled, and what the chosen entry would say.
type Unreported = (SetGround, bool, Saying);

fn says(met: &Met) -> Saying {
    let Some(entry) = met.choice else {
        return Saying::NoEntry;
    };
    match met.forbidden_by(entry) {
        [true, _, _] if !met.is_deletion() => Saying::Size,
        [_, true, _] if !met.is_deletion() => Saying::Attributes,
        [_, _, true] => Saying::Lock,
        _ => Saying::Nothing,
    }
}

/// What decides a set that has no report, in words.
const ENDINGS: [(SetGround, &str); 19] = [
    (SetGround::BadStores, "stores"),
    (SetGround::BadRecord, "policy record"),
    (SetGround::BadName, "1 name"),
    (SetGround::LongPayload, "1 payload"),
    (SetGround::UnknownAttribute, "2"),
    (SetGround::WithoutBootService, "3"),
    (SetGround::NotForRuntime, "3 after exit"),
    (SetGround::DeleteAbsent, "5 absent"),
    (SetGround::DeleteHidden, "5 without RT"),
    (SetGround::DeleteVolatile, "5 volatile"),
    (SetGround::Deleted, "5 deleted"),
    (SetGround::OtherAttributes, "6"),
    (SetGround::EmptyAppend, "7"),
    (SetGround::AppendTooLong, "8"),
    (SetGround::NoRoom, "9"),
    (SetGround::Created, "10 created"),
    (SetGround::Rewritten, "10 rewritten"),
    (SetGround::AppendCreated, "10 append creates"),
    (SetGround::AppendJoined, "10 append joins"),
];

const SAYINGS: [(Saying, &str); 5] = [
    (Saying::NoEntry, "no entry"),
    (Saying::Nothing, "allowed"),
    (Saying::Size, "size"),
    (Saying::Attributes, "attributes"),
    (Saying::Lock, "lock"),
];

/// Whether a set can be so: one that comes behind step 4 on an enabled engine was allowed, and a deletion is asked for
/// locks alone. A record that is not valid has no entries.
fn can_be((ending, enabled, saying): Unreported) -> bool {
    let allowed = matches!(saying, Saying::NoEntry | Saying::Nothing);
    match ending {
        SetGround::BadRecord => saying == Saying::NoEntry,
        SetGround::BadStores | SetGround::BadName | SetGround::LongPayload => true,
        SetGround::UnknownAttribute | SetGround::WithoutBootService | SetGround::NotForRuntime => true,
        SetGround::DeleteAbsent | SetGround::DeleteHidden | SetGround::DeleteVolatile | SetGround::Deleted => {
            allowed || !enabled && saying == Saying::Lock
        }
        _ => allowed || !enabled,
    }
}

/// Every way in which a set can have no report, with its words.
fn unreported() -> impl Iterator<Item = (Unreported, [&'static str; 3])> {
    let settings = [(true, "enabled"), (false, "disabled")];
    let all = ENDINGS.into_iter().flat_map(move |(ending, words)| {
        settings.into_iter().flat_map(move |(enabled, setting)| {
            SAYINGS.into_iter().map(move |(saying, said)| ((ending, enabled, saying), [words, setting, said]))
        })
    });
    all.filter(|(unreported, _)| can_be(*unreported))
}

/// The labels of sets without a report.
pub fn unreported_labels() -> Vec<String> {
    unreported().map(|(_, words)| words.join(", ")).collect()
}

fn count_none(coverage: &mut Coverage, met: Unreported) {
    if let Some(label) = unreported().position(|(known, _)| known == met) {
        coverage.input(Input::NoReport, label);
    }
}

/// Counts a report by its ground and by its entry.
fn count_report(coverage: &mut Coverage, choosing: (&Policy, &Namespace), met: &Met, entry: &Entry, report: &Report) {
    let ground = ground_place(report);
    coverage.each(Each::ReportPlace, MAX_ENTRIES * ground + report.place as usize);
    coverage.each(Each::ReportRank, (MAX_UNITS + 2) * ground + report.rank as usize);
    count_besides(coverage, met, entry, report.ground);
    count_zeros(coverage, report);
    count_choice(coverage, choosing, met, report);
    count_near(coverage, choosing.0, entry, ground);
    match report.ground {
        Ground::Size => count_size(coverage, met, entry),
        Ground::Attributes => count_bits(coverage, met, entry, report),
        Ground::Lock => {
            let kind = if met.is_deletion() { 2 } else { usize::from(met.has(APPEND)) };
            coverage.input(Input::ReportLock, 3 * (lock_number(&entry.lock) - 1) + kind);
        }
        Ground::None => {}
    }
}

/// The place of a report's ground among the three.
pub fn ground_place(report: &Report) -> usize {
    report.ground.number() as usize - 1
}

/// Counts what the entry has against the set beside the ground.
fn count_besides(coverage: &mut Coverage, met: &Met, entry: &Entry, ground: Ground) {
    let [size, attributes, lock] = met.forbidden_by(entry).map(usize::from);
    let label = match ground {
        Ground::Size => attributes + 2 * lock,
        Ground::Attributes => 4 + lock,
        _ if met.is_deletion() => 7 + size + 2 * attributes,
        _ => 6,
    };
    coverage.input(Input::Report, label);
}

/// Counts a report that differs from none in its ground, or in one number more that has to differ.
fn count_zeros(coverage: &mut Coverage, report: &Report) {
    let Report { ground, place, rank, missing, prohibited, lowest_bit } = *report;
    if [place, rank, lowest_bit] == [0; 3] {
        let holds = [
            ground == Ground::Size,
            ground == Ground::Lock,
            missing == 1 && prohibited == 0,
            missing == 0 && prohibited == 1,
        ];
        count_if(coverage, Input::ReportZeros, &holds, 0);
    }
}

/// Counts the entry that spoke by the others that target the variable, and by where they stand.
fn count_choice(coverage: &mut Coverage, (policy, namespace): (&Policy, &Namespace), met: &Met, report: &Report) {
    let first_label = 7 * ground_place(report);
    let spoke = report.place as usize;
    let targeting = policy.entries.iter().enumerate().filter(|(_, entry)| entry.targets(namespace, &met.name));
    let others: Vec<(usize, &Entry)> = targeting.filter(|(place, _)| *place != spoke).collect();
    for (place, other) in &others {
        let behind = usize::from(*place > spoke);
        let label = match other.name.is_empty() {
            true => 2 + behind,
            false if other.rank() == report.rank as usize => 6,
            false => 4 + behind,
        };
        coverage.input(Input::ReportChoice, first_label + label);
    }
    let alone = others.is_empty();
    count_if(coverage, Input::ReportChoice, &[alone && spoke == 0, alone && spoke > 0], first_label);
}

/// Counts the entries that differ from the one that spoke in one bit of the namespace, or of a unit of the name.
fn count_near(coverage: &mut Coverage, policy: &Policy, entry: &Entry, ground: usize) {
    for other in &policy.entries {
        let namespaces = u128::from_le_bytes(other.namespace) ^ u128::from_le_bytes(entry.namespace);
        if namespaces.is_power_of_two() && other.name == entry.name {
            coverage.each(Each::ReportNearNamespace, 128 * ground + namespaces.trailing_zeros() as usize);
        }
        if namespaces == 0 && other.name.len() == entry.name.len() {
            let units = other.name.iter().zip(&entry.name).map(|(one, other)| one ^ other);
            let differing: Vec<u16> = units.filter(|unit| *unit != 0).collect();
            if let [unit] = differing[..]
                && unit.is_power_of_two()
            {
                coverage.each(Each::ReportNearUnit, 16 * ground + unit.trailing_zeros() as usize);
            }
        }
    }
}

/// Counts a length that was refused: the kind of set, where the variable is, and which bound it was.
fn count_size(coverage: &mut Coverage, met: &Met, entry: &Entry) {
    let kind = usize::from(met.has(APPEND)) + usize::from(met.length == 0);
    let absent = usize::from(met.found.is_none());
    let long = usize::from(met.length_afterwards() >= entry.min_size as usize);
    coverage.input(Input::ReportSize, 4 * kind + 2 * absent + long);
}

/// Counts the bits of a report of attributes.
fn count_bits(coverage: &mut Coverage, met: &Met, entry: &Entry, report: &Report) {
    let (missing, prohibited) = (entry.must_have & !met.attributes, entry.cant_have & met.attributes);
    coverage.each(Each::ReportCounts, counts_number(report.missing, report.prohibited));
    let missing_is_lowest = missing.trailing_zeros() < prohibited.trailing_zeros();
    match known_place(prohibited) {
        Some(known) if !missing_is_lowest => coverage.input(Input::ReportLowest, 31 + known),
        _ => coverage.input(Input::ReportLowest, but_bs(missing)),
    }
    if missing != 0 && prohibited != 0 {
        coverage.each(Each::ReportBoth, pair_number(missing.trailing_zeros(), prohibited.trailing_zeros()));
        let more = 1 + report.missing.cmp(&report.prohibited) as i8;
        coverage.input(Input::ReportBoth, 3 * usize::from(missing_is_lowest) + more as usize);
    } else if missing.count_ones() == 2 {
        let higher = but_bs(missing & (missing - 1));
        coverage.each(Each::ReportTwo, higher * (higher - 1) / 2 + but_bs(missing));
    }
}

const KNOWN: [u32; 4] = [1, 2, 4, 0x40];

/// The place of the lowest bit among those that a request can have at step 4.
fn known_place(bits: u32) -> Option<usize> {
    KNOWN.iter().position(|bit| bits & *bit != 0)
}

/// The place of the lowest bit among all but BS, which no request lacks at step 4.
fn but_bs(bits: u32) -> usize {
    let place = bits.trailing_zeros() as usize;
    place - usize::from(place > 1)
}

/// Counts which of the four known bits an entry requires and prohibits, if it asks for no others, and which of them a
/// set has that comes to this question.
pub(super) fn count_known_bits(coverage: &mut Coverage, met: &Met, entry: &Entry) {
    let [size, ..] = met.forbidden_by(entry);
    if size || (entry.must_have | entry.cant_have) & !0x47 != 0 {
        return;
    }
    let number = KNOWN.into_iter().fold(0, |number, bit| {
        let asked = usize::from(entry.must_have & bit != 0) + 2 * usize::from(entry.cant_have & bit != 0);
        let given = usize::from(met.has(bit));
        if bit == 2 { 3 * number + asked } else { 6 * number + 2 * asked + given }
    });
    coverage.each(Each::ReportKnown, number);
}
