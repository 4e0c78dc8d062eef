//! What is counted of the inputs, in words. A class is told by its place in its table.

use std::fmt::Display;

/// Starts, with the one thing that is wrong.
pub const START: [&str; 22] = [
    "power-on, nothing wrong",
    "power-on, non-volatile store unsound",
    "power-on, volatile store unsound",
    "power-on, a variable in both stores",
    "power-on, non-volatile store over 32,768 bytes",
    "power-on, volatile store over 32,768 bytes",
    "power-on, policy record a byte short of the limit",
    "power-on, policy record a byte over the limit",
    "power-on, policy record of the former length",
    "power-on, policy record of another length",
    "power-on, policy record unsound",
    "restart, nothing wrong",
    "restart, non-volatile store unsound",
    "restart, volatile store unsound",
    "restart, a variable in both stores",
    "restart, non-volatile store over 32,768 bytes",
    "restart, volatile store over 32,768 bytes",
    "restart, policy record a byte short of the limit",
    "restart, policy record a byte over the limit",
    "restart, policy record of the former length",
    "restart, policy record of another length",
    "restart, policy record unsound",
];

/// Registrations at the limits, and with two grounds at once. Every Size is even, so that no sum is one byte off.
pub const REGISTRATION: [&str; 21] = [
    "to the limit of entries",
    "to a sum two under the limit",
    "to a sum at the limit",
    "to a sum two over the limit",
    "to both limits at once",
    "one entry over the limit, the sum within",
    "sum over the limit, the entries within",
    "over both limits at once",
    "repeat at the limit of entries",
    "repeat at the limit of the sum",
    "malformed at the limit of entries",
    "malformed at the limit of the sum",
    "malformed repeat",
    "malformed, engine locked",
    "repeat, engine locked",
    "after exit, nothing else wrong",
    "after exit, engine locked",
    "after exit, malformed",
    "after exit, repeat",
    "after exit, one entry over the limit",
    "after exit, sum over the limit",
];

/// Registrations whose names '#' would tell apart otherwise, if it did there what it does in a choice.
pub const SIGN_REGISTERED: [&str; 3] =
    ["a repeat, '#' for '#'", "no repeat: digits for a registered '#'", "no repeat: '#' for registered digits"];

/// What the limits before E5 would have refused or not come to.
pub const BEYOND: [&str; 7] = [
    "registered: one entry more",
    "registered: to a longer sum",
    "registered: both at once",
    "dumped: a longer sum",
    "not dumped: a longer sum into the former length",
    "chosen: an entry at a later place",
    "chosen: an entry at later bytes",
];

pub(super) const CALLS_ON_RECORD: [&str; 6] = ["power-on", "restart", "register", "dump", "set", "settled"];
const SETTINGS: [&str; 4] = ["open", "disabled", "locked", "exited"];

/// Every call that is lent the policy record, with what stands in it and the switches.
pub fn former_length_labels() -> Vec<String> {
    crossed(&CALLS_ON_RECORD, &crossed(&["no entries", "entries"], &SETTINGS))
}

/// '#' in the trigger's name of an entry: which units are '#', and what the entry's own name is.
pub const TRIGGER_SIGN: [&str; 9] = [
    "the only unit",
    "the first of more",
    "between others",
    "the last of more",
    "several, not all",
    "each of more",
    "no own name",
    "own name without '#'",
    "own name with '#'",
];

/// What holds beside '#' in the trigger's name.
pub const SIGN_REFUSED: [&str; 7] = [
    "engine locked",
    "a repeat",
    "as many entries as the limit",
    "sum over the limit",
    "engine disabled",
    "after exit",
    "policy record not valid",
];

/// What else makes an entry with '#' in its trigger's name malformed.
pub const SIGN_DEFECT: [&str; 5] = [
    "the name's odd length",
    "no closing zero unit in it",
    "a zero unit inside it",
    "65 units or more in it",
    "another field",
];

/// What may stand in an entry, and is no '#' in a trigger's name.
pub const NEAR_SIGN: [&str; 8] = [
    "type 0, '#' at byte 62 or behind",
    "type 1, '#' at byte 62 or behind",
    "type 2, '#' at byte 62 or behind",
    "'#' in the own name, beside a trigger",
    "'#' across Reserved and the name",
    "'#' of Value and Reserved",
    "'#' in the trigger's namespace",
    "the unit 0x2323",
];

/// Every call that is lent the policy record, with the entry of it that has '#' in its trigger's name.
pub fn sign_record_labels() -> Vec<String> {
    crossed(&CALLS_ON_RECORD, &["the only entry", "the first", "between others", "the last", "several"])
}

/// Every call that is lent the policy record, with the switches.
pub fn sign_setting_labels() -> Vec<String> {
    crossed(&CALLS_ON_RECORD, &SETTINGS)
}

/// Names in packed entries.
pub const PACKED_NAME: [&str; 8] = [
    "no bytes",
    "only a zero unit",
    "odd length",
    "no closing zero unit",
    "zero unit inside",
    "1 unit",
    "64 units",
    "65 units or more",
];

/// Buffers of a dump, against the sum of Sizes.
pub const DUMP_BUFFER: [&str; 11] = [
    "no entries, no bytes",
    "entries, no bytes",
    "one byte less",
    "exact",
    "one byte more",
    "longer",
    "2^16 bytes or more",
    "after exit, no entries, no bytes",
    "after exit, no bytes",
    "after exit, too short",
    "after exit, long enough",
];

/// Names of requests.
pub const REQUEST_NAME: [&str; 9] =
    ["0 units", "1 unit", "2 to 63 units", "64 units", "65 units", "more units", "odd length", "zero unit", "with '#'"];

/// Payload lengths.
pub const PAYLOAD: [&str; 10] = ["0", "1", "2^8 - 1", "2^8", "2^8 + 1", "1,023", "1,024", "1,025", "longer", "another"];

/// Which entries target a variable.
pub const CHOICE: [&str; 12] = [
    "none",
    "none, but one of the name in another namespace",
    "none, but one with fewer or more units, the others equal",
    "one, equal units",
    "one, with '#'",
    "the whole namespace alone",
    "the whole namespace, then the chosen one",
    "the chosen one, then the whole namespace",
    "equal ranks",
    "the lower rank first",
    "the lower rank later",
    "the chosen one is the last within the limit",
];

/// Units under a '#', where all others match.
pub const UNDER_SIGN: [&str; 9] =
    ["0-9", "A-F", "a-f", "'#'", "/ : @ G ` g", "zero", "another below 0x80", "0x80 to 0xff", "0x100 and over"];

/// A variable with '#' in its name, for which nothing speaks or the whole namespace does: entries that are spelled
/// nearly like it, and where they stand.
pub fn sign_in_name_labels() -> Vec<String> {
    let entries = ["spelled like it", "'#' for its '#' and for a digit", "digits for its '#'"];
    let places = ["alone", "behind the whole namespace", "before it"];
    let none = crossed(&["no such entry"], &["nothing speaks", "the whole namespace speaks"]);
    [none, crossed(&entries, &places)].concat()
}

/// MinSize and MaxSize, with their labels.
pub(super) const SIZE_VALUES: [(u32, &str); 13] = [
    (0, "0"),
    (1, "1"),
    ((1 << 8) - 1, "2^8 - 1"),
    (1 << 8, "2^8"),
    ((1 << 8) + 1, "2^8 + 1"),
    ((1 << 16) - 1, "2^16 - 1"),
    (1 << 16, "2^16"),
    ((1 << 16) + 1, "2^16 + 1"),
    ((1 << 31) - 1, "2^31 - 1"),
    (1 << 31, "2^31"),
    ((1 << 31) + 1, "2^31 + 1"),
    (u32::MAX - 1, "2^32 - 2"),
    (u32::MAX, "2^32 - 1"),
];

/// The labels of MinSize and MaxSize.
pub fn size_labels() -> [&'static str; 13] {
    SIZE_VALUES.map(|(_, label)| label)
}

/// What the trigger of the chosen entry is.
pub const TRIGGER: [&str; 13] = [
    "absent",
    "absent, Value 0",
    "one byte, Value, non-volatile",
    "one byte, Value, volatile",
    "one byte, Value, which is 0",
    "one byte, another",
    "two bytes, the first Value",
    "two bytes, the first another",
    "more bytes",
    "257 bytes, the first Value",
    "absent, and Value in a variable with '#' for its digits",
    "the variable itself",
    "in another namespace than the variable",
];

/// Lengths that an append makes.
pub const APPEND_LENGTH: [&str; 4] = ["1,023", "1,024", "1,025", "2,048"];

/// Lengths of stores.
pub const STORE_LENGTH: [&str; 10] =
    ["0", "40", "43", "44", "32,767", "32,768", "32,769", "longer", "another", "another, full of records"];

/// NameSize of the first record of a store, with its label.
pub(super) const NAME_SIZES: [(u32, &str); 11] = [
    (0, "0"),
    (2, "2"),
    (3, "3"),
    (4, "4"),
    (5, "5"),
    (130, "130"),
    (131, "131"),
    (132, "132"),
    (0x1_0004, "2^16 + 4"),
    (0x8000_0004, "2^31 + 4"),
    (u32::MAX - 3, "2^32 - 4"),
];

/// The labels of NameSize.
pub fn name_size_labels() -> [&'static str; 11] {
    NAME_SIZES.map(|(_, label)| label)
}

/// DataSize of the first record of a store, with its label.
pub(super) const DATA_SIZES: [(u32, &str); 8] = [
    (0, "0"),
    (1, "1"),
    (1024, "1,024"),
    (1025, "1,025"),
    (0x1_0001, "2^16 + 1"),
    (0x8000_0001, "2^31 + 1"),
    (u32::MAX - 36, "2^32 - 37"),
    (u32::MAX, "2^32 - 1"),
];

/// The labels of DataSize.
pub fn data_size_labels() -> [&'static str; 8] {
    DATA_SIZES.map(|(_, label)| label)
}

/// Calls that are lent something unsound, with what is wrong besides.
pub const UNSOUND: [&str; 15] = [
    "register, locked",
    "register, malformed",
    "register, after exit",
    "dump, buffer too short",
    "dump, after exit",
    "read, bad name",
    "read, after exit",
    "set, step 1",
    "set, step 2",
    "set, step 3",
    "set, engine disabled",
    "set, step 3 after exit",
    "settled, bad name",
    "settled, engine disabled",
    "settled, after exit",
];

pub(super) const CALLS: [&str; 11] =
    ["power-on", "restart", "register", "dump", "lock", "disable", "exit", "query", "read", "set", "settled"];
const PLACES: [&str; 3] = ["absent", "non-volatile", "volatile"];

/// The labels of `rows` with each of `columns`.
pub(crate) fn crossed(rows: &[impl Display], columns: &[impl Display]) -> Vec<String> {
    rows.iter().flat_map(|row| columns.iter().map(move |column| format!("{row}, {column}"))).collect()
}

/// Every call under every setting of the switches.
pub fn switch_labels() -> Vec<String> {
    CALLS.iter().flat_map(|call| (0..16).map(move |bits| format!("{call} {bits:04b}"))).collect()
}

pub(super) const CALLS_ON_BYTES: [&str; 8] = ["register", "dump", "lock", "disable", "exit", "query", "read", "set"];

/// How many bytes the calls are given that say a switch.
pub const SWITCH_BYTES: usize = 2 + 4 * CALLS_ON_BYTES.len();

/// Every byte that says a switch, for every call that is given it.
pub fn switch_byte_labels() -> Vec<String> {
    let starts = ["power-on, disabling allowed", "restart, disabling allowed"].map(str::to_string);
    [starts.to_vec(), crossed(&CALLS_ON_BYTES, &["enabled", "locked", "disabling allowed", "exited"])].concat()
}

pub(super) const LOCK_TYPES: [&str; 4] = ["no lock", "lock now", "lock on create", "lock on state"];

/// Every type of lock, with where the variable is.
pub fn locks_by_place() -> Vec<String> {
    crossed(&LOCK_TYPES, &PLACES)
}

/// Every type of lock, with where the variable is, for deletions and others.
pub fn lock_labels() -> Vec<String> {
    crossed(&["set", "delete"], &locks_by_place())
}

pub(super) const DELETION_FORMS: [&str; 6] =
    ["no bits, payload", "no bits, empty", "NV alone, payload", "NV alone, empty", "BS, empty", "empty append"];

/// Every form of deletion, and the empty append, with where the variable is.
pub fn deletion_labels() -> Vec<String> {
    crossed(&DELETION_FORMS, &PLACES)
}

/// What is stored, with the padding of its record, in a store that is long enough or one byte short.
pub fn room_labels() -> Vec<String> {
    let kinds = ["create", "rewrite", "append creates", "append joins"];
    let paddings = ["0, exact", "0, one short", "1, exact", "1, one short"];
    let more = ["2, exact", "2, one short", "3, exact", "3, one short"];
    crossed(&kinds, &[paddings, more].concat())
}

/// The attribute bits that a request can have where the chosen entry asks for them.
pub fn known_bit_labels() -> Vec<String> {
    crossed(&["required", "prohibited"], &["0x1", "0x2", "0x4", "0x40"])
}

/// Every kind of set that the chosen entry measures, with where the variable is and the length measured. The last is
/// left out: an empty append to an absent variable is measured by 0, which is over no MaxSize.
pub fn against_sizes_labels() -> Vec<String> {
    let kinds = crossed(&["set", "append", "empty append"], &["volatile", "non-volatile", "absent"]);
    let mut labels = crossed(&kinds, &["MinSize - 1", "MinSize", "MaxSize", "MaxSize + 1"]);
    labels.pop();
    labels
}

/// Appends that the sizes of the chosen entry judge otherwise than they would their own length, with a later step that
/// holds too.
pub fn sum_labels() -> Vec<String> {
    let sums = ["own within, sum over MaxSize", "own under MinSize, sum within"];
    let steps =
        ["none", "4 attributes", "4 lock", "4 lock and another NV", "4 lock and another RT", "6", "7", "8", "9"];
    crossed(&sums, &steps)
}

/// The ground of a report, and what else the entry has against the set. A deletion is asked for the lock alone.
pub const REPORT: [&str; 11] = [
    "size alone",
    "size, and attributes",
    "size, and lock",
    "size, attributes and lock",
    "attributes alone",
    "attributes, and lock",
    "lock alone",
    "lock: a deletion",
    "lock: a deletion of another size",
    "lock: a deletion with other attributes",
    "lock: a deletion with both",
];

/// Reports that differ from none in little: place, rank and lowest bit are 0.
pub const REPORT_ZEROS: [&str; 4] = [
    "size, all numbers 0",
    "lock, all numbers 0",
    "attributes, 1 missing, all others 0",
    "attributes, 1 prohibited, all others 0",
];

/// Every ground, with an entry beside the chosen one that targets the variable too.
pub fn report_choice_labels() -> Vec<String> {
    let others = [
        "none, and none before",
        "none, but others before",
        "the whole namespace before",
        "the whole namespace behind",
        "a higher rank before",
        "a higher rank behind",
        "the same rank behind",
    ];
    crossed(&GROUNDS, &others)
}

const GROUNDS: [&str; 3] = ["size", "attributes", "lock"];

/// Every kind of set that is measured, with where the variable is and which bound it broke. The last is left out, as in
/// [`against_sizes_labels`].
pub fn report_size_labels() -> Vec<String> {
    let kinds = crossed(&["set", "append", "empty append"], &["there", "absent"]);
    let mut labels = crossed(&kinds, &["short", "long"]);
    labels.pop();
    labels
}

/// Every type of lock that locks, with the kind of set.
pub fn report_lock_labels() -> Vec<String> {
    crossed(&LOCK_TYPES[1..], &["set", "append", "delete"])
}

/// Which bits are the lowest: those that a set can lack, and those that it can have.
pub fn report_lowest_labels() -> Vec<String> {
    let lacking = (0..32).filter(|bit| *bit != 1).map(|bit| format!("{bit} missing"));
    lacking.chain([0, 1, 2, 6].map(|bit| format!("{bit} prohibited"))).collect()
}

/// Bits of both kinds: of which the lowest is, and of which there are more.
pub fn report_both_labels() -> Vec<String> {
    let lowest = ["lowest prohibited", "lowest missing"];
    crossed(&lowest, &["fewer missing", "as many missing", "more missing"])
}

/// Every ground, and whether the entry stands elsewhere than without the rebuilds.
pub fn report_reordered_labels() -> Vec<String> {
    crossed(&GROUNDS, &["the same place", "another place"])
}

/// Where two entries stand that quarrel, and which other pairs do.
pub const QUARREL_PAIR: [&str; 16] = [
    "only two entries",
    "next to each other, others before",
    "next to each other, others behind",
    "others between them",
    "the first and the last of 128",
    "the last two of 128",
    "another pair with the same earlier one",
    "another pair with the same later one",
    "another pair from the later one on",
    "another pair behind both",
    "another pair between them",
    "another pair from between them on",
    "another pair of another namespace",
    "another pair with more or fewer units",
    "another pair of lower rank",
    "another pair of higher rank",
];

const DIGITS: [&str; 3] = ["0-9", "A-F", "a-f"];
const NO_DIGITS: [&str; 5] = ["/ : @ G ` g", "0x..23", "0x23..", "0x100 and over", "another below 0x100"];

/// What two entries that quarrel have at one place.
pub fn quarrel_unit_labels() -> Vec<String> {
    let both = vec!["'#' and '#'".to_string()];
    let digits = [DIGITS.map(|digit| format!("'#' and {digit}")), DIGITS.map(|digit| format!("{digit} and '#'"))];
    let same = ["digit"].iter().chain(&NO_DIGITS).map(|unit| format!("both {unit}"));
    [both, digits.concat(), same.collect()].concat()
}

/// What two entries have at the one place where no unit is matched by both.
pub fn apart_unit_labels() -> Vec<String> {
    let signs = [NO_DIGITS.map(|unit| format!("'#' and {unit}")), NO_DIGITS.map(|unit| format!("{unit} and '#'"))];
    let others = ["two digits", "a letter in two cases", "other high bytes", "other low bytes"].map(str::to_string);
    [signs.concat(), others.to_vec()].concat()
}

/// The locks of two entries that quarrel.
pub fn quarrel_lock_labels() -> Vec<String> {
    crossed(&LOCK_TYPES, &LOCK_TYPES)
}

/// Two entries with triggers.
pub fn quarrel_trigger_labels() -> Vec<String> {
    crossed(&["a quarrel", "none"], &["one trigger's name", "two names"])
}

/// Dumps that are as long as they can be.
pub fn quarrel_limit_labels() -> Vec<String> {
    crossed(&["none", "a quarrel"], &["as many entries as the limit", "a sum at the limit", "both"])
}

/// Dumps of which no two entries quarrel, and two entries that nearly do.
pub const NO_QUARREL: [&str; 10] = [
    "no entries",
    "one entry",
    "whole namespaces alone",
    "names without '#' alone",
    "a whole namespace, then a name in it",
    "a name, then its whole namespace",
    "one name is the beginning of the other, ranks equal",
    "but for their namespaces",
    "but for their ranks",
    "more than one place where no unit is shared",
];

/// What is no dump, and why.
pub const NO_DUMP: [&str; 24] = [
    "a name repeated by the next",
    "a name repeated by a later one",
    "a pattern repeated by the next",
    "a pattern repeated by a later one",
    "a whole namespace repeated by the next",
    "a whole namespace repeated by a later one",
    "one entry over the limit, the sum within",
    "more entries over the limit, the sum within",
    "sum two over the limit, the entries within",
    "sum more over the limit, the entries within",
    "over both limits",
    "a policy record with entries and room",
    "a policy record without entries",
    "one zero behind",
    "one other byte behind",
    "2 to 43 zeros behind",
    "44 zeros or more behind",
    "the last entry cut by a byte",
    "the last entry cut by more",
    "the only entry malformed",
    "the first malformed",
    "the last malformed",
    "one between others malformed",
    "'#' in a trigger's name",
];

/// Why bytes with entries that quarrel are no dump.
pub const QUARREL_REFUSED: [&str; 7] = [
    "malformed behind them",
    "malformed before or between them",
    "a repeat",
    "the last entry cut",
    "bytes behind",
    "entries over the limit",
    "sum over the limit",
];
