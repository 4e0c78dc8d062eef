//! Counts the dumps that are asked for quarrels: what the two entries have at each place, where they stand and what
//! else quarrels; what keeps entries from a quarrel; and what is no dump.

use super::count_if;
use super::labels::QUARREL_PAIR;
use super::signs::{NUMBER_SIGN, lock_number};
use super::triggers::without_signs;
use crate::coverage::{Coverage, Input};
use crate::damage::entry_sizes;
use crate::quarrels::{Meeting, meetings, share_a_target};
use crate::tallies::{Each, place_number};
use reference::{Entry, LockRule, MAX_ENTRIES, POLICY_BYTES, Policy, Trigger};
use varpolicy::Status;
use varpolicy::calls::Quarrelled;

/// Dumps of more entries are not asked which other pairs there are.
const FEW: usize = 16;

/// Counts bytes that got this answer.
pub fn count(coverage: &mut Coverage, dump: &[u8], answer: &Quarrelled) {
    let (entries, rest) = cut(dump);
    if answer.status != Status::Success {
        count_refused(coverage, dump, &entries, rest);
        return;
    }
    let (many, long) = (entries.len() == MAX_ENTRIES, dump.len() == POLICY_BYTES);
    count_if(coverage, Input::QuarrelLimit, &[many, long, many && long], 3 * usize::from(answer.found));
    if answer.found {
        count_pair(coverage, &entries, (answer.earlier, answer.later));
    } else {
        count_none(coverage, &entries);
    }
    if let [one, other] = &entries[..] {
        count_two(coverage, one, other, answer.found);
    }
}

/// The well-formed entries at the front, and the bytes behind them.
fn cut(dump: &[u8]) -> (Vec<Entry>, &[u8]) {
    let (mut entries, mut rest) = (Vec::new(), dump);
    for size in entry_sizes(dump) {
        let (bytes, behind) = rest.split_at(size);
        let Some(entry) = Entry::decode(bytes) else {
            break;
        };
        entries.push(entry);
        rest = behind;
    }
    (entries, rest)
}

/// Whether two entries have the same rank and target one variable.
fn quarrel(one: &Entry, other: &Entry) -> bool {
    let may = one.namespace == other.namespace && one.rank() == other.rank();
    may && !one.repeats(other) && share_a_target(&one.name, &other.name)
}

/// Every two of the entries that quarrel.
fn quarrelling(entries: &[Entry]) -> Vec<(usize, usize)> {
    let later = |place: usize| (place + 1..entries.len()).map(move |later| (place, later));
    let pairs = (0..entries.len()).flat_map(later);
    pairs.filter(|(earlier, later)| quarrel(&entries[*earlier], &entries[*later])).collect()
}

/// Counts the pair that was found.
fn count_pair(coverage: &mut Coverage, entries: &[Entry], (earlier, later): (usize, usize)) {
    let (one, other) = (&entries[earlier], &entries[later]);
    coverage.each(Each::QuarrelEarlier, earlier);
    coverage.each(Each::QuarrelLater, later - 1);
    coverage.input(Input::QuarrelLock, 4 * lock_number(&one.lock) + lock_number(&other.lock));
    count_names(coverage, &one.name, &other.name);
    let (count, last) = (entries.len(), entries.len() - 1);
    let next = earlier + 1 == later;
    let places = [
        count == 2,
        next && earlier > 0,
        next && later < last,
        !next,
        count == MAX_ENTRIES && (earlier, later) == (0, last),
        count == MAX_ENTRIES && (earlier, later) == (last - 1, last),
    ];
    count_if(coverage, Input::QuarrelPair, &places, 0);
    if count <= FEW {
        for pair in quarrelling(entries) {
            count_other_pair(coverage, entries, (earlier, later), pair);
        }
    }
}

/// Counts a pair that quarrels too, but was not the first.
fn count_other_pair(
    coverage: &mut Coverage,
    entries: &[Entry],
    (earlier, later): (usize, usize),
    (one, other): (usize, usize),
) {
    let (found, pair) = (&entries[earlier], &entries[one]);
    let holds = [
        one == earlier && other > later,
        one > earlier && other == later,
        one == later,
        one > later,
        one > earlier && other < later,
        one > earlier && one < later && other > later,
        pair.namespace != found.namespace,
        pair.name.len() != found.name.len(),
        pair.rank() < found.rank(),
        pair.rank() > found.rank(),
    ];
    count_if(coverage, Input::QuarrelPair, &holds, QUARREL_PAIR.len() - holds.len());
}

/// Counts the names of two entries that quarrel: how many units and '#' they have, and what is at each place. A quarrel
/// takes two units at least, and three where both names have the same at one place.
fn count_names(coverage: &mut Coverage, name: &[u16], other: &[u16]) {
    let length = name.len();
    let signs = name.iter().filter(|unit| **unit == NUMBER_SIGN).count();
    coverage.each(Each::QuarrelSigns, place_number(length - 1, signs - 1));
    for (place, (unit, other)) in name.iter().zip(other).enumerate() {
        let meeting = Meeting::of(*unit, *other);
        let number = place_number(length, place);
        match meeting {
            Meeting::BothSigns => coverage.each(Each::QuarrelBothSigns, number - 3),
            Meeting::SignAndDigit => coverage.each(Each::QuarrelSignAndDigit, number - 1),
            Meeting::DigitAndSign => coverage.each(Each::QuarrelDigitAndSign, number - 1),
            _ => coverage.each(Each::QuarrelSame, number - 3),
        }
        let label = match meeting {
            Meeting::BothSigns => 0,
            Meeting::SignAndDigit => 1 + digit_class(*other),
            Meeting::DigitAndSign => 4 + digit_class(*unit),
            _ => 7 + unit_class(*unit),
        };
        coverage.input(Input::QuarrelUnits, label);
    }
}

/// 0 for 0-9, 1 for A-F, 2 for a-f.
fn digit_class(unit: u16) -> usize {
    match unit {
        0x30..=0x39 => 0,
        0x41..=0x46 => 1,
        _ => 2,
    }
}

/// The place of a unit that both entries have.
fn unit_class(unit: u16) -> usize {
    match unit {
        0x30..=0x39 | 0x41..=0x46 | 0x61..=0x66 => 0,
        0x2F | 0x3A | 0x40 | 0x47 | 0x60 | 0x67 => 1,
        _ if unit > 0xFF && unit & 0xFF == NUMBER_SIGN => 2,
        _ if unit >> 8 == NUMBER_SIGN => 3,
        _ if unit > 0xFF => 4,
        _ => 5,
    }
}

/// Counts the only two entries of a dump.
fn count_two(coverage: &mut Coverage, one: &Entry, other: &Entry, found: bool) {
    if let (LockRule::LockOnVarState(trigger), LockRule::LockOnVarState(other)) = (&one.lock, &other.lock) {
        let differ = |one: &Trigger, other: &Trigger| one.name != other.name;
        coverage.input(Input::QuarrelTrigger, 2 * usize::from(!found) + usize::from(differ(trigger, other)));
    }
    if one.namespace == other.namespace
        && let ([NUMBER_SIGN, digit], [unit, NUMBER_SIGN]) = (&one.name[..], &other.name[..])
        && Meeting::of(*digit, NUMBER_SIGN).is_shared()
    {
        coverage.each(Each::QuarrelUnder, usize::from(*unit) - 1);
    }
}

/// Counts a dump of which no two entries quarrel.
fn count_none(coverage: &mut Coverage, entries: &[Entry]) {
    let whole = |entry: &Entry| entry.name.is_empty();
    let more = entries.len() > 1;
    let holds = [
        entries.is_empty(),
        entries.len() == 1,
        more && entries.iter().all(whole),
        more && entries.iter().all(|entry| entry.rank() == 0),
    ];
    count_if(coverage, Input::NoQuarrel, &holds, 0);
    if entries.len() <= FEW {
        for (place, one) in entries.iter().enumerate() {
            entries[place + 1..].iter().for_each(|other| count_apart(coverage, one, other));
        }
    }
}

/// Counts what keeps two entries from a quarrel, if it is one thing alone.
fn count_apart(coverage: &mut Coverage, one: &Entry, other: &Entry) {
    let namespaces = u128::from_le_bytes(one.namespace) ^ u128::from_le_bytes(other.namespace);
    let (same, ranks) = (namespaces == 0, one.rank() == other.rank());
    let Some(meetings) = meetings(&one.name, &other.name) else {
        let whole = [one, other].map(|entry| entry.name.is_empty());
        let begins = one.name.starts_with(&other.name) || other.name.starts_with(&one.name);
        let holds = [same && whole[0], same && whole[1], same && ranks && begins];
        count_if(coverage, Input::NoQuarrel, &holds, 4);
        return;
    };
    let apart: Vec<usize> = (0..meetings.len()).filter(|place| !meetings[*place].is_shared()).collect();
    let signs = meetings.contains(&Meeting::SignAndDigit);
    let shared = apart.is_empty() && !meetings.is_empty();
    let holds = [!same && ranks && shared && signs, same && !ranks && shared, same && ranks && apart.len() > 1];
    count_if(coverage, Input::NoQuarrel, &holds, 7);
    if holds[0] && namespaces.is_power_of_two() {
        coverage.each(Each::ApartNamespace, namespaces.trailing_zeros() as usize);
    }
    if let [place] = apart[..]
        && same
        && ranks
    {
        count_place(coverage, (meetings.len(), place), (one.name[place], other.name[place]));
    }
}

/// Counts the one place that keeps two entries from a quarrel, in names of so many units.
fn count_place(coverage: &mut Coverage, (length, place): (usize, usize), (unit, other): (u16, u16)) {
    let number = place_number(length, place);
    if Meeting::of(unit, other) == Meeting::NoDigit {
        let class = unit_class(if unit == NUMBER_SIGN { other } else { unit });
        coverage.each(Each::ApartNoDigit, number - 1);
        coverage.input(Input::ApartUnits, 5 * usize::from(other == NUMBER_SIGN) + class - 1);
        return;
    }
    let bits = unit ^ other;
    coverage.each(Each::ApartOther, number);
    if bits.is_power_of_two() {
        coverage.each(Each::ApartBit, bits.trailing_zeros() as usize);
    }
    let digits = [unit, other].map(|unit| Meeting::of(NUMBER_SIGN, unit).is_shared());
    let holds = [digits == [true; 2], bits == 0x20, bits & 0xFF == 0, bits >> 8 == 0];
    count_if(coverage, Input::ApartUnits, &holds, 10);
}

/// Counts bytes that are no dump: the well-formed entries at the front, and what stands behind them.
fn count_refused(coverage: &mut Coverage, dump: &[u8], entries: &[Entry], rest: &[u8]) {
    let (many, long) = (entries.len() > MAX_ENTRIES, dump.len() > POLICY_BYTES);
    let repeats = entries.iter().enumerate().filter_map(|(later, entry)| {
        let earlier = entries[..later].iter().position(|known| known.repeats(entry))?;
        Some((earlier, later))
    });
    let repeats: Vec<(usize, usize)> = repeats.collect();
    let ground = match (rest, &repeats[..], many || long) {
        ([], [(earlier, later)], false) => {
            let kind = match &entries[*later].name[..] {
                [] => 2,
                name => usize::from(name.contains(&NUMBER_SIGN)),
            };
            coverage.input(Input::NoDump, 2 * kind + usize::from(earlier + 1 < *later));
            2
        }
        ([], [], true) => {
            let label = match (many, long) {
                (true, false) => 6 + usize::from(entries.len() > MAX_ENTRIES + 1),
                (false, _) => 8 + usize::from(dump.len() > POLICY_BYTES + 2),
                _ => 10,
            };
            coverage.input(Input::NoDump, label);
            if many { 5 } else { 6 }
        }
        ([_, ..], [], false) => count_rest(coverage, dump, entries, rest),
        _ => return,
    };
    count_quarrelling(coverage, dump, entries, ground);
}

/// Counts what stands behind the well-formed entries. Tells the ground, as a place in the labels of those that refuse
/// entries that quarrel.
fn count_rest(coverage: &mut Coverage, dump: &[u8], entries: &[Entry], rest: &[u8]) -> usize {
    let behind = |label: usize| (4, label);
    let (ground, label) = match rest {
        _ if Policy::decode(dump).is_some() => behind(11 + usize::from(entries.is_empty())),
        [0] => behind(13),
        [_] => behind(14),
        rest if rest.iter().all(|byte| *byte == 0) => behind(15 + usize::from(rest.len() >= 44)),
        rest if Entry::decode(&[rest, &[0]].concat()).is_some() => (3, 17),
        rest if missing(rest) > Some(1) => (3, 18),
        rest => {
            let after = entry_sizes(rest).first().is_some_and(|size| !cut(&rest[*size..]).0.is_empty());
            let place = 2 * usize::from(!entries.is_empty()) + usize::from(after);
            (0, 19 + place)
        }
    };
    coverage.input(Input::NoDump, label);
    if has_sign_in_trigger(rest) {
        coverage.input(Input::NoDump, 23);
    }
    ground
}

/// How many bytes an entry lacks of its Size, if its header is there.
fn missing(rest: &[u8]) -> Option<usize> {
    let size = usize::from(u16::from_le_bytes(rest.get(4..6)?.try_into().ok()?));
    let longer = rest.len() >= 44 && size > rest.len() && size <= 322;
    longer.then_some(size - rest.len())
}

/// Whether the first entry is well formed but for '#' in its trigger's name.
fn has_sign_in_trigger(rest: &[u8]) -> bool {
    let Some(entry) = entry_sizes(rest).first().map(|size| &rest[..*size]) else {
        return false;
    };
    let (places, plain) = without_signs(entry);
    !places.is_empty() && Entry::decode(&plain).is_some()
}

/// Counts bytes that are no dump, on this ground, though two of their entries quarrel.
fn count_quarrelling(coverage: &mut Coverage, dump: &[u8], entries: &[Entry], ground: usize) {
    if entries.len() > FEW {
        let ends = [&entries[..2], &entries[entries.len() - 2..]];
        if ends.iter().any(|two| quarrel(&two[0], &two[1])) {
            coverage.input(Input::QuarrelRefused, ground);
        }
        return;
    }
    if !quarrelling(entries).is_empty() {
        coverage.input(Input::QuarrelRefused, ground);
    } else if ground == 0 {
        let all = entry_sizes(dump).into_iter().scan(0, |start, size| {
            *start += size;
            Some(Entry::decode(&dump[*start - size..*start]))
        });
        let around: Vec<Entry> = all.flatten().collect();
        count_if(coverage, Input::QuarrelRefused, &[around.len() <= FEW && !quarrelling(&around).is_empty()], 1);
    }
}
