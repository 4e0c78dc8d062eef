//! The report of a set: which ground it names, which entry it points to, which bits it counts, and when there is none.

use super::set::{CHOSEN, MAX, MIN};
use super::signs::COUNT;
use super::{Edit, edit};

const SIZE: &str = "TooShort | TooLong => Ground::Size,";
const ATTRIBUTES: &str = "AttributeMissing | AttributeProhibited => Ground::Attributes,";
const LOCK: &str = "LockedNow | LockedOnCreate | LockedOnVarState => Ground::Lock,";
pub(super) const NO_GROUND: &str = "_ => Ground::None,";
pub(super) const NONE: &str = "Ground::None => Report::NONE,";
const ENTRY: &str = "let entry = policy.choose(request.namespace, &name::decode_request(request.name)?)?;";
const BITS: &str = "Ground::Attributes => offending_bits(entry, request.attributes),";
const LOWEST: &str = "let lowest_bit = missing.iter().chain(&prohibited).min();";
const NUMBER: &str = "lowest_bit: lowest_bit.copied().unwrap_or(0),";
const PLACE: &str = "place: policy.entries.iter().position(|known| known.repeats(entry))? as u32,";
const RANK: &str = "rank: entry.rank() as u32,";
const MISSING: &str = "missing: missing.len() as u32,";
const PROHIBITED: &str = "prohibited: prohibited.len() as u32,";
const EACH_BIT: &str = "for number in 0..32 {";
const LACKS: &str = "if among(entry.must_have) && !among(attributes) {";
const HAS: &str = "if among(entry.cant_have) && among(attributes) {";
const SET: &str = "(decided, Report::of(decided, record, &request))";
const CARRIED_OUT: &str = "let decided = carry_out(non_volatile, volatile, record, switches, request);";

/// Whether the request is a deletion, for edits outside of the file that says it.
macro_rules! deletion {
    () => {
        "request.attributes & 0x40 == 0 && (request.payload.is_empty() || request.attributes & 6 == 0)"
    };
}

/// What the chosen entry is, and then these words.
macro_rules! chosen_then {
    ($words:expr) => {
        concat!(
            "let entry = policy.choose(request.namespace, &name::decode_request(request.name)?)?; let bits = \
             offending_bits(entry, request.attributes); let offends = !(bits.0.is_empty() && bits.1.is_empty()); ",
            $words
        )
    };
}

/// The place as this, from the entries that target the variable, each with its place.
macro_rules! place_by_targets {
    ($place:expr) => {
        concat!(
            "place: { let name = name::decode_request(request.name)?; let mut targeting = \
             policy.entries.iter().enumerate().filter(|(_, known)| known.targets(request.namespace, &name)); ",
            $place,
            " as u32 },"
        )
    };
}

/// The place of the first entry of which this holds.
macro_rules! place_of {
    ($is:expr) => {
        concat!("place: policy.entries.iter().position(|known| ", $is, ")? as u32,")
    };
}

pub(super) const EDITS: &[Edit] = &[
    // Which ground it is.
    edit(
        "report-numbers",
        "Size = 1,\n    /// AttributesMustHave or AttributesCantHave.\n    Attributes = 2,",
        "Size = 2, Attributes = 1,",
        "size has number 2, attributes number 1",
    ),
    edit("report-no-size", SIZE, "TooShort | TooLong => Ground::None,", "a size is not reported"),
    edit("report-no-short", SIZE, "TooLong => Ground::Size,", "a size under MinSize is not reported"),
    edit("report-no-long", SIZE, "TooShort => Ground::Size,", "a size over MaxSize is not reported"),
    edit("report-size-as-attributes", SIZE, "TooShort | TooLong => Ground::Attributes,", "a size is called attributes"),
    edit("report-size-as-lock", SIZE, "TooShort | TooLong => Ground::Lock,", "a size is called a lock"),
    edit("report-no-attributes", ATTRIBUTES, "", "attributes are not reported"),
    edit(
        "report-no-missing",
        ATTRIBUTES,
        "AttributeProhibited => Ground::Attributes,",
        "where a required bit is missing nothing is reported",
    ),
    edit(
        "report-no-prohibited",
        ATTRIBUTES,
        "AttributeMissing => Ground::Attributes,",
        "where only prohibited bits are set nothing is reported",
    ),
    edit(
        "report-attributes-as-size",
        ATTRIBUTES,
        "AttributeMissing | AttributeProhibited => Ground::Size,",
        "attributes are called a size",
    ),
    edit("report-no-lock", LOCK, "", "a lock is not reported"),
    edit("report-no-lock-now", LOCK, "LockedOnCreate | LockedOnVarState => Ground::Lock,", "type 1 is not reported"),
    edit("report-no-lock-on-create", LOCK, "LockedNow | LockedOnVarState => Ground::Lock,", "type 2 is not reported"),
    edit("report-no-lock-on-state", LOCK, "LockedNow | LockedOnCreate => Ground::Lock,", "type 3 is not reported"),
    edit(
        "report-lock-as-attributes",
        LOCK,
        "LockedNow | LockedOnCreate | LockedOnVarState => Ground::Attributes,",
        "a lock is called attributes",
    ),
    edit(
        "report-lock-first",
        ENTRY,
        chosen_then!("let ground = if entry.lock == crate::LockRule::LockNow { Ground::Lock } else { ground };"),
        "a lock of type 1 is named before size and attributes, beside 2",
    ),
    edit(
        "report-attributes-first",
        ENTRY,
        chosen_then!("let ground = if offends && ground == Ground::Size { Ground::Attributes } else { ground };"),
        "attributes are named before the size",
    ),
    edit(
        "report-last",
        ENTRY,
        chosen_then!(
            "let ground = match ground { _ if entry.lock == crate::LockRule::LockNow => Ground::Lock, Ground::Size if \
             offends => Ground::Attributes, ground => ground };"
        ),
        "the last ground that holds is named",
    ),
    edit(
        "report-lock-unless-attributes",
        ENTRY,
        chosen_then!("let ground = if offends && ground == Ground::Lock { Ground::Attributes } else { ground };"),
        "a deletion that is locked is reported for its attributes",
    ),
    edit(
        "report-lock-unless-size",
        ENTRY,
        chosen_then!(
            "let ground = if (request.payload.len() as u32) < entry.min_size && ground == Ground::Lock { \
             Ground::Size } else { ground };"
        ),
        "a deletion that is locked is reported for its size",
    ),
    edit(
        "report-not-deletions",
        NONE,
        concat!("_ if ", deletion!(), " => Report::NONE, Ground::None => Report::NONE,"),
        "nothing is reported of a deletion",
    ),
    edit(
        "report-not-appends",
        NONE,
        "_ if request.attributes & 0x40 != 0 => Report::NONE, Ground::None => Report::NONE,",
        "nothing is reported of an append",
    ),
    edit(
        "report-not-empty-appends",
        NONE,
        "_ if request.payload.is_empty() && request.attributes & 0x40 != 0 => Report::NONE, Ground::None => \
         Report::NONE,",
        "nothing is reported of an empty append",
    ),
    edit(
        "report-size-by-own",
        ENTRY,
        chosen_then!(
            "if ground == Ground::Size && (entry.min_size..=entry.max_size).contains(&(request.payload.len() as \
             u32)) { return None; }"
        ),
        "a size is not reported where the sum alone breaks it",
    ),
    edit(
        "report-not-at-0",
        ENTRY,
        chosen_then!("if policy.entries[0].repeats(entry) { return None; }"),
        "nothing is reported of the first entry",
    ),
    edit(
        "report-not-rank-0",
        ENTRY,
        chosen_then!("if entry.rank() == 0 { return None; }"),
        "nothing is reported of an entry of rank 0",
    ),
    edit(
        "report-not-whole",
        ENTRY,
        chosen_then!("if entry.name.is_empty() { return None; }"),
        "nothing is reported of a whole namespace",
    ),
    // What step 4 has not said.
    edit(
        "report-of-step-1",
        NO_GROUND,
        "LongPayload => Ground::Size, _ => Ground::None,",
        "a payload over 1,024 is reported as a size",
    ),
    edit(
        "report-of-step-2",
        NO_GROUND,
        "UnknownAttribute => Ground::Attributes, _ => Ground::None,",
        "an unknown bit is reported as attributes",
    ),
    edit(
        "report-of-step-3",
        NO_GROUND,
        "WithoutBootService => Ground::Attributes, _ => Ground::None,",
        "RT or append without BS is reported as attributes",
    ),
    edit(
        "report-of-step-5",
        NO_GROUND,
        "DeleteAbsent => Ground::Lock, _ => Ground::None,",
        "the 14 of step 5 is reported as a lock",
    ),
    edit(
        "report-of-step-6",
        NO_GROUND,
        "OtherAttributes => Ground::Attributes, _ => Ground::None,",
        "the 2 of step 6 is reported as attributes",
    ),
    edit(
        "report-of-step-8",
        NO_GROUND,
        "AppendTooLong => Ground::Size, _ => Ground::None,",
        "the 9 of step 8 is reported as a size",
    ),
    edit("report-of-step-9", NO_GROUND, "NoRoom => Ground::Size, _ => Ground::None,", "no room is reported as a size"),
    edit(
        "report-of-stores",
        NO_GROUND,
        "BadStores => Ground::Lock, _ => Ground::None,",
        "10 for the stores is reported as a lock",
    ),
    edit(
        "report-of-record",
        NONE,
        "Ground::None if decided == SetGround::BadRecord => Report { ground: Ground::Lock, ..Report::NONE }, \
         Ground::None => Report::NONE,",
        "10 for the policy record is reported as a lock",
    ),
    edit(
        "report-entry-always",
        NONE,
        "Ground::None => Report::by_chosen(Ground::None, record, request).unwrap_or(Report::NONE),",
        "the chosen entry is told whatever decided",
    ),
    edit(
        "report-entry-if-granted",
        NONE,
        "Ground::None if decided.status() == crate::Status::Success => Report::by_chosen(Ground::None, record, \
         request).unwrap_or(Report::NONE), Ground::None => Report::NONE,",
        "the chosen entry is told beside 0",
    ),
    edit(
        "report-entry-of-steps-1-to-3",
        NONE,
        "Ground::None if decided < SetGround::TooShort => Report::by_chosen(Ground::None, record, \
         request).unwrap_or(Report::NONE), Ground::None => Report::NONE,",
        "the chosen entry is told beside 10 and the statuses of steps 1 to 3",
    ),
    edit(
        "report-entry-of-steps-5-to-9",
        NONE,
        "Ground::None if decided > SetGround::LockedOnVarState && decided.status() != crate::Status::Success => \
         Report::by_chosen(Ground::None, record, request).unwrap_or(Report::NONE), Ground::None => Report::NONE,",
        "the chosen entry is told beside the statuses of steps 5 to 9",
    ),
    edit(
        "report-bits-if-granted",
        NONE,
        "Ground::None if decided.status() == crate::Status::Success => Report { ground: Ground::None, place: 0, rank: \
         0, ..Report::by_chosen(Ground::Attributes, record, request).unwrap_or(Report::NONE) }, Ground::None => \
         Report::NONE,",
        "bits are counted beside 0 too",
    ),
    // The place.
    edit(
        "report-place-from-1",
        PLACE,
        "place: policy.entries.iter().position(|known| known.repeats(entry))? as u32 + 1,",
        "places are counted from 1",
    ),
    edit(
        "report-place-from-the-end",
        PLACE,
        "place: policy.entries.iter().rev().position(|known| known.repeats(entry))? as u32,",
        "places are counted from the end",
    ),
    edit(
        "report-place-of-last-equal",
        PLACE,
        place_by_targets!("targeting.filter(|(_, known)| known.rank() == entry.rank()).last()?.0"),
        "of equal ranks the place of the last",
    ),
    edit(
        "report-place-of-first-target",
        PLACE,
        place_by_targets!("targeting.next()?.0"),
        "the place of the first that targets the variable",
    ),
    edit(
        "report-place-of-last-target",
        PLACE,
        place_by_targets!("targeting.last()?.0"),
        "the place of the last that targets the variable",
    ),
    edit(
        "report-place-among-targets",
        PLACE,
        place_by_targets!("targeting.position(|(_, known)| known.repeats(entry))?"),
        "the place among those that target the variable",
    ),
    edit(
        "report-place-in-namespace",
        PLACE,
        "place: policy.entries.iter().filter(|known| known.namespace == entry.namespace).position(|known| \
         known.repeats(entry))? as u32,",
        "the place among those of the namespace",
    ),
    edit(
        "report-place-among-named",
        PLACE,
        "place: policy.entries.iter().filter(|known| entry.name.is_empty() || \
         !known.name.is_empty()).position(|known| known.repeats(entry))? as u32,",
        "a whole namespace before the entry is not counted",
    ),
    edit(
        "report-place-by-rank",
        PLACE,
        "place: { let place = policy.entries.iter().position(|known| known.repeats(entry))?; let before = |(other, \
         known): &(usize, &Entry)| (known.rank(), *other) < (entry.rank(), place); \
         policy.entries.iter().enumerate().filter(before).count() as u32 },",
        "the place in the order of ranks",
    ),
    edit(
        "report-place-of-last",
        PLACE,
        "place: policy.entries.len() as u32 - 1,",
        "the place of the last entry of the record",
    ),
    edit(
        "report-place-bytes",
        PLACE,
        "place: policy.entries.iter().take_while(|known| !known.repeats(entry)).map(|known| \
         known.encode().len()).sum::<usize>() as u32,",
        "the bytes before the entry",
    ),
    edit(
        "report-place-by-44",
        PLACE,
        "place: policy.entries.iter().take_while(|known| !known.repeats(entry)).map(|known| \
         known.encode().len()).sum::<usize>() as u32 / 44,",
        "the bytes before the entry, as if each had 44",
    ),
    edit(
        "report-place-6-bits",
        PLACE,
        "place: policy.entries.iter().position(|known| known.repeats(entry))? as u32 & 63,",
        "6 bits of the place",
    ),
    edit(
        "report-place-at-most-63",
        PLACE,
        "place: policy.entries.iter().position(|known| known.repeats(entry))?.min(63) as u32,",
        "a place at most under the former limit",
    ),
    edit(
        "report-place-at-most-126",
        PLACE,
        "place: policy.entries.iter().position(|known| known.repeats(entry))?.min(126) as u32,",
        "the last place is told as the one before it",
    ),
    edit(
        "report-place-not-of-size",
        PLACE,
        "place: if ground == Ground::Size { 0 } else { policy.entries.iter().position(|known| known.repeats(entry))? \
         as u32 },",
        "place 0 beside a size",
    ),
    edit(
        "report-place-not-of-attributes",
        PLACE,
        "place: if ground == Ground::Attributes { 0 } else { policy.entries.iter().position(|known| \
         known.repeats(entry))? as u32 },",
        "place 0 beside attributes",
    ),
    edit(
        "report-place-not-of-lock",
        PLACE,
        "place: if ground == Ground::Lock { 0 } else { policy.entries.iter().position(|known| known.repeats(entry))? \
         as u32 },",
        "place 0 beside a lock",
    ),
    edit(
        "report-place-not-of-whole",
        PLACE,
        "place: if entry.name.is_empty() { 0 } else { policy.entries.iter().position(|known| known.repeats(entry))? as \
         u32 },",
        "place 0 for a whole namespace",
    ),
    edit("report-place-for-rank", PLACE, "place: entry.rank() as u32,", "the rank in place of the place"),
    edit("report-near-name", PLACE, place_of!("known.name == entry.name"), "the place of the first of that name"),
    edit(
        "report-near-case",
        PLACE,
        place_of!(
            "known.namespace == entry.namespace && String::from_utf16_lossy(&known.name).to_lowercase() == \
             String::from_utf16_lossy(&entry.name).to_lowercase()"
        ),
        "the place of the first of that name in either case",
    ),
    edit(
        "report-near-text",
        PLACE,
        place_of!(
            "known.namespace == entry.namespace && String::from_utf16_lossy(&known.name) == \
             String::from_utf16_lossy(&entry.name)"
        ),
        "the place by the name as text: halves of pairs are all alike",
    ),
    edit(
        "report-near-low-bytes",
        PLACE,
        place_of!(
            "known.namespace == entry.namespace && known.name.iter().map(|unit| *unit as \
             u8).eq(entry.name.iter().map(|unit| *unit as u8))"
        ),
        "the place by the low bytes of the name's units",
    ),
    edit(
        "report-near-namespace-8",
        PLACE,
        place_of!("known.namespace[..8] == entry.namespace[..8] && known.name == entry.name"),
        "the place by the first 8 bytes of the namespace",
    ),
    edit(
        "report-near-namespace-15",
        PLACE,
        place_of!("known.namespace[1..] == entry.namespace[1..] && known.name == entry.name"),
        "the place by the last 15 bytes of the namespace",
    ),
    edit(
        "report-near-namespace-parts",
        PLACE,
        place_of!(
            "known.namespace[..4] == entry.namespace[..4] && known.namespace[8..] == entry.namespace[8..] && \
             known.name == entry.name"
        ),
        "the place by the first and the last part of the namespace",
    ),
    edit(
        "report-near-zero-namespace",
        ENTRY,
        chosen_then!("if entry.namespace == [0; 16] { return None; }"),
        "nothing is reported of the namespace of zeros",
    ),
    edit(
        "report-near-reserved",
        ENTRY,
        chosen_then!("if entry.reserved != [0; 3] { return None; }"),
        "nothing is reported of an entry whose reserved bytes are not zero",
    ),
    // The rank.
    edit(
        "report-rank-for-place",
        RANK,
        "rank: policy.entries.iter().position(|known| known.repeats(entry))? as u32,",
        "the place in place of the rank",
    ),
    edit("report-rank-0", RANK, "rank: 0,", "no rank"),
    edit("report-rank-from-1", RANK, "rank: entry.rank() as u32 + 1,", "ranks are counted from 1"),
    edit("report-rank-whole-64", RANK, "rank: entry.rank().min(64) as u32,", "a whole namespace has rank 64"),
    edit("report-rank-whole-0", RANK, "rank: entry.rank() as u32 % 65,", "a whole namespace has rank 0"),
    edit(
        "report-rank-whole-255",
        RANK,
        "rank: if entry.name.is_empty() { 255 } else { entry.rank() as u32 },",
        "a whole namespace has rank 255",
    ),
    edit("report-rank-6-bits", RANK, "rank: entry.rank() as u32 & 63,", "6 bits of the rank"),
    edit("report-rank-any", RANK, "rank: entry.rank().min(1) as u32,", "whether the name has a '#'"),
    edit(
        "report-rank-of-digits",
        RANK,
        "rank: if entry.name.is_empty() { 65 } else { entry.name.iter().filter(|unit| **unit < 0x67 && (**unit as \
         u8).is_ascii_hexdigit()).count() as u32 },",
        "the rank counts digits",
    ),
    edit(
        "report-rank-of-others",
        RANK,
        "rank: if entry.name.is_empty() { 65 } else { (entry.name.len() - entry.rank()) as u32 },",
        "the rank counts the units that are no '#'",
    ),
    edit(
        "report-rank-of-units",
        RANK,
        "rank: if entry.name.is_empty() { 65 } else { entry.name.len() as u32 },",
        "the rank counts units",
    ),
    edit(
        "report-rank-of-variable",
        RANK,
        "rank: if entry.name.is_empty() { 65 } else { name::wildcards(&name::decode_request(request.name)?) as u32 },",
        "the '#' of the variable's name",
    ),
    edit(
        "report-rank-from-44",
        RANK,
        "rank: if entry.name.is_empty() { 65 } else { entry.encode()[44..].chunks(2).filter(|unit| *unit == [0x23, \
         0]).count() as u32 },",
        "the rank counts '#' in the trigger too",
    ),
    edit(
        "report-near-rank-odd",
        RANK,
        "rank: if entry.name.is_empty() { 65 } else { entry.name.iter().flat_map(|unit| \
         unit.to_le_bytes()).collect::<Vec<u8>>().windows(2).filter(|unit| **unit == [0x23, 0]).count() as u32 },",
        "the rank counts the bytes of '#' between two units too",
    ),
    edit(
        "report-near-rank-255",
        RANK,
        "rank: if entry.name.is_empty() { 65 } else { let packed = entry.encode(); let end = packed.len().min(255); \
         packed[usize::from(packed[6])..end].chunks(2).filter(|unit| *unit == [0x23, 0]).count() as u32 },",
        "the rank counts '#' in the first 255 bytes of the entry",
    ),
    edit(
        "report-rank-not-of-size",
        RANK,
        "rank: if ground == Ground::Size { 0 } else { entry.rank() as u32 },",
        "rank 0 beside a size",
    ),
    edit(
        "report-rank-not-of-attributes",
        RANK,
        "rank: if ground == Ground::Attributes { 0 } else { entry.rank() as u32 },",
        "rank 0 beside attributes",
    ),
    edit(
        "report-rank-not-of-lock",
        RANK,
        "rank: if ground == Ground::Lock { 0 } else { entry.rank() as u32 },",
        "rank 0 beside a lock",
    ),
    // How many bits.
    edit(
        "report-bits-of-size",
        BITS,
        "Ground::Attributes | Ground::Size => offending_bits(entry, request.attributes),",
        "bits are counted beside a size too",
    ),
    edit(
        "report-bits-of-lock",
        BITS,
        "Ground::Attributes | Ground::Lock => offending_bits(entry, request.attributes),",
        "bits are counted beside a lock too",
    ),
    edit("report-no-bits", BITS, "Ground::Attributes => (Vec::new(), Vec::new()),", "no bits are counted"),
    edit(
        "report-bits-without-append",
        BITS,
        "Ground::Attributes => offending_bits(entry, request.attributes & !0x40),",
        "bits are counted as if append were not given",
    ),
    edit("report-bits-8", EACH_BIT, "for number in 0..8 {", "the low 8 bits are counted"),
    edit("report-bits-16", EACH_BIT, "for number in 0..16 {", "the low 16 bits are counted"),
    edit("report-bits-31", EACH_BIT, "for number in 0..31 {", "bit 31 is not counted"),
    edit("report-bits-not-0", EACH_BIT, "for number in 1..32 {", "bit 0 is not counted"),
    edit("report-bits-known", EACH_BIT, "for number in [0, 1, 2, 6] {", "known bits are counted"),
    edit(
        "report-bits-unknown",
        LACKS,
        "if among(entry.must_have) && !among(attributes | 0x47) {",
        "a known bit is never missing",
    ),
    edit(
        "report-missing-given",
        LACKS,
        "if among(entry.must_have) && among(attributes) {",
        "required bits that are given are counted as missing",
    ),
    edit("report-missing-all", LACKS, "if among(entry.must_have) {", "all required bits are counted as missing"),
    edit(
        "report-missing-not-asked",
        LACKS,
        "if !among(entry.must_have | attributes) {",
        "bits that are not required are counted",
    ),
    edit(
        "report-missing-one",
        LACKS,
        "if missing.is_empty() && among(entry.must_have) && !among(attributes) {",
        "one missing bit is counted",
    ),
    edit("report-prohibited-all", HAS, "if among(entry.cant_have) {", "all prohibited bits are counted"),
    edit(
        "report-prohibited-not-given",
        HAS,
        "if among(entry.cant_have) && !among(attributes) {",
        "prohibited bits that are not given are counted",
    ),
    edit(
        "report-prohibited-given",
        HAS,
        "if !among(entry.must_have) && among(attributes) {",
        "given bits that are not required are counted as prohibited",
    ),
    edit(
        "report-prohibited-one",
        HAS,
        "if prohibited.is_empty() && among(entry.cant_have) && among(attributes) {",
        "one prohibited bit is counted",
    ),
    edit(
        "report-prohibited-not-bs",
        HAS,
        "if number != 1 && among(entry.cant_have) && among(attributes) {",
        "a prohibited BS is not counted",
    ),
    edit(
        "report-prohibited-not-append",
        HAS,
        "if number != 6 && among(entry.cant_have) && among(attributes) {",
        "a prohibited append is not counted",
    ),
    edit(
        "report-exchanged",
        "    (missing, prohibited)\n}",
        "    (prohibited, missing)\n}",
        "missing and prohibited bits are exchanged",
    ),
    edit(
        "report-missing-alone",
        "    (missing, prohibited)\n}",
        "    if missing.is_empty() { (missing, prohibited) } else { (missing, Vec::new()) }\n}",
        "prohibited bits are not counted beside missing ones",
    ),
    edit(
        "report-prohibited-alone",
        "    (missing, prohibited)\n}",
        "    if prohibited.is_empty() { (missing, prohibited) } else { (Vec::new(), prohibited) }\n}",
        "missing bits are not counted beside prohibited ones",
    ),
    edit(
        "report-missing-sum",
        MISSING,
        "missing: (missing.len() + prohibited.len()) as u32,",
        "the sum in place of the missing bits",
    ),
    edit(
        "report-prohibited-sum",
        PROHIBITED,
        "prohibited: (missing.len() + prohibited.len()) as u32,",
        "the sum in place of the prohibited bits",
    ),
    edit("report-missing-0", MISSING, "missing: 0,", "no number of missing bits"),
    edit("report-prohibited-0", PROHIBITED, "prohibited: 0,", "no number of prohibited bits"),
    edit("report-missing-at-most-30", MISSING, "missing: missing.len().min(30) as u32,", "30 missing bits at most"),
    edit(
        "report-missing-4-bits",
        MISSING,
        "missing: missing.len() as u32 & 15,",
        "4 bits of the number of missing bits",
    ),
    edit(
        "report-prohibited-2-bits",
        PROHIBITED,
        "prohibited: prohibited.len() as u32 & 3,",
        "2 bits of the number of prohibited bits",
    ),
    edit(
        "report-missing-word",
        MISSING,
        "missing: missing.iter().map(|number| 1 << number).sum(),",
        "the missing bits in place of their number",
    ),
    // The lowest bit.
    edit(
        "report-lowest-missing",
        LOWEST,
        "let lowest_bit = missing.iter().min();",
        "the lowest of the missing bits alone",
    ),
    edit(
        "report-lowest-prohibited",
        LOWEST,
        "let lowest_bit = prohibited.iter().min();",
        "the lowest of the prohibited bits alone",
    ),
    edit(
        "report-lowest-missing-first",
        LOWEST,
        "let lowest_bit = missing.first().or(prohibited.first());",
        "the lowest of the missing bits, if there are any",
    ),
    edit(
        "report-lowest-prohibited-first",
        LOWEST,
        "let lowest_bit = prohibited.first().or(missing.first());",
        "the lowest of the prohibited bits, if there are any",
    ),
    edit("report-highest", LOWEST, "let lowest_bit = missing.iter().chain(&prohibited).max();", "the highest bit"),
    edit(
        "report-lowest-higher",
        LOWEST,
        "let lowest_bit = missing.first().max(prohibited.first());",
        "the higher of the lowest missing bit and the lowest prohibited one",
    ),
    edit(
        "report-lowest-from-1",
        NUMBER,
        "lowest_bit: lowest_bit.map_or(0, |number| number + 1),",
        "bits are numbered from 1",
    ),
    edit(
        "report-lowest-from-31",
        NUMBER,
        "lowest_bit: lowest_bit.map_or(0, |number| 31 - number),",
        "bits are numbered from the highest",
    ),
    edit(
        "report-lowest-value",
        NUMBER,
        "lowest_bit: lowest_bit.map_or(0, |number| 1 << number),",
        "the value of the bit in place of its number",
    ),
    edit("report-lowest-0", NUMBER, "lowest_bit: 0,", "no lowest bit"),
    edit(
        "report-lowest-4-bits",
        NUMBER,
        "lowest_bit: lowest_bit.copied().unwrap_or(0) & 15,",
        "4 bits of the lowest bit",
    ),
    edit(
        "report-lowest-32-if-none",
        NUMBER,
        "lowest_bit: lowest_bit.copied().unwrap_or(32),",
        "the lowest bit is 32 where there is none",
    ),
    edit(
        "report-lowest-of-asked",
        NUMBER,
        "lowest_bit: if ground == Ground::Attributes { (entry.must_have | entry.cant_have).trailing_zeros() } else { \
         0 },",
        "the lowest bit that the entry asks for",
    ),
    edit(
        "report-lowest-known",
        NUMBER,
        "lowest_bit: lowest_bit.copied().filter(|number| 0x47 >> number & 1 == 1).unwrap_or(0),",
        "a bit outside 0x47 is not told as the lowest",
    ),
];

/// Ranks that the choice alone would not tell from the right ones: all entries that target a variable have these units
/// alike.
pub(super) const NAME_EDITS: &[Edit] = &[
    edit(
        "rank-low-byte",
        COUNT,
        "name.iter().filter(|unit| **unit & 0xFF == NUMBER_SIGN).count()",
        "the rank counts units that have the low byte of '#'",
    ),
    edit(
        "rank-high-byte",
        COUNT,
        "name.iter().filter(|unit| **unit == NUMBER_SIGN || **unit == 0x2300).count()",
        "the rank counts '#' with its bytes exchanged",
    ),
    edit(
        "rank-full-width",
        COUNT,
        "name.iter().filter(|unit| **unit == NUMBER_SIGN || **unit == 0xFF03).count()",
        "the rank counts the full-width number sign",
    ),
    edit(
        "rank-neighbour",
        COUNT,
        "name.iter().filter(|unit| **unit == NUMBER_SIGN || **unit == 0x22).count()",
        "the rank counts the unit before '#'",
    ),
    edit(
        "rank-and-one",
        COUNT,
        "1 + name.iter().filter(|unit| **unit == NUMBER_SIGN).count()",
        "every name has one rank more",
    ),
    edit("rank-twice", COUNT, "2 * name.iter().filter(|unit| **unit == NUMBER_SIGN).count()", "every '#' counts twice"),
];

pub(super) const SET_EDITS: &[Edit] = &[
    edit(
        "report-if-disabled",
        CARRIED_OUT,
        "let (mut nv, mut others) = (non_volatile.to_vec(), volatile.to_vec()); let enabled = carry_out(&mut nv, &mut \
         others, record, Switches { enabled: true, ..switches }, request); let decided = carry_out(non_volatile, \
         volatile, record, switches, request); if !switches.enabled { return (decided, Report::of(enabled, record, \
         &request)); }",
        "a disabled engine reports what it would say if it were enabled",
    ),
    edit(
        "report-before-steps",
        CARRIED_OUT,
        "let said = Pair::decode(non_volatile, volatile).zip(Policy::decode(record)).zip(name::decode_request( \
         request.name)).filter(|_| switches.enabled).and_then(|((pair, policy), name)| refused_by_policy(&policy, \
         &pair, &request, &name)); let decided = carry_out(non_volatile, volatile, record, switches, request); if \
         let Some(said) = said { return (decided, Report::of(said, record, &request)); }",
        "what the entry says is reported beside the statuses of steps 1 to 3 too",
    ),
    edit(
        "report-over-unsound-stores",
        CARRIED_OUT,
        "let none = Pair { non_volatile: Vec::new(), volatile: Vec::new() }; let said = Policy::decode(record).zip( \
         name::decode_request(request.name)).filter(|_| switches.enabled).and_then(|(policy, name)| \
         refused_by_policy(&policy, &none, &request, &name)); let decided = carry_out(non_volatile, volatile, record, \
         switches, request); if let (SetGround::BadStores, Some(said)) = (decided, said) { return (decided, \
         Report::of(said, record, &request)); }",
        "what the entry says is reported beside 10 for the stores too",
    ),
    edit(
        "report-of-set-before",
        SET,
        "{ static LAST: std::sync::Mutex<Report> = std::sync::Mutex::new(Report::NONE); let report = \
         Report::of(decided, record, &request); let mut last = LAST.lock().expect(\"one thread\"); (decided, \
         std::mem::replace(&mut *last, report)) }",
        "the report of the set before",
    ),
    edit(
        "report-kept",
        SET,
        "{ static LAST: std::sync::Mutex<Report> = std::sync::Mutex::new(Report::NONE); let report = \
         Report::of(decided, record, &request); let mut last = LAST.lock().expect(\"one thread\"); if report != \
         Report::NONE { *last = report; } (decided, *last) }",
        "a report stands until the next ground",
    ),
    edit(
        "report-kept-if-refused",
        SET,
        "{ static LAST: std::sync::Mutex<Report> = std::sync::Mutex::new(Report::NONE); let report = \
         Report::of(decided, record, &request); let mut last = LAST.lock().expect(\"one thread\"); if report != \
         Report::NONE || decided.status() == Status::Success { *last = report; } (decided, *last) }",
        "a report stands until the next ground or granted set",
    ),
    // The order of the grounds that have one status.
    edit(
        "step4-attributes-before-size",
        MIN,
        "if entry.must_have & !request.attributes != 0 { return Some(SetGround::AttributeMissing); } if \
         request.has(entry.cant_have) { return Some(SetGround::AttributeProhibited); } if length < entry.min_size {",
        "step 4: the attributes before the size",
    ),
    edit(
        "step4-attributes-before-max",
        MAX,
        "if entry.must_have & !request.attributes != 0 { return Some(SetGround::AttributeMissing); } if \
         request.has(entry.cant_have) { return Some(SetGround::AttributeProhibited); } if length > entry.max_size {",
        "step 4: the attributes between MinSize and MaxSize",
    ),
    edit(
        "step4-prohibited-before-size",
        MIN,
        "if request.has(entry.cant_have) { return Some(SetGround::AttributeProhibited); } if length < entry.min_size {",
        "step 4: AttributesCantHave before the size",
    ),
    edit(
        "step4-required-before-size",
        CHOSEN,
        "let entry = policy.choose(request.namespace, name)?; if !request.is_deletion() && entry.must_have & \
         !request.attributes != 0 { return Some(SetGround::AttributeMissing); }",
        "step 4: AttributesMustHave before the size",
    ),
];
