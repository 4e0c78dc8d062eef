//! Counts of what was hit: every status of every call, every ground of a registration and a set,
//! and the inputs that the comparison promises to try.

use crate::call::Ground;
use crate::inputs::{exit, labels, pieces, reports, settled};
use crate::tallies::{Each, Tallies};
use crate::{damage, lasting, steps};
use reference::Fault as F;
use reference::RegisterGround as R;
use reference::SetGround as S;
use std::fmt;
use varpolicy::Status;

/// Every answer that can be hit: the call, the status, what decided it, and that in words.
const ANSWERS: [(&str, Status, Ground, &str); 80] = [
    ("power-on", Status::VolumeCorrupted, Ground::Status, ""),
    ("power-on", Status::Success, Ground::Status, ""),
    ("restart", Status::VolumeCorrupted, Ground::Status, ""),
    ("restart", Status::Success, Ground::Status, ""),
    ("register", Status::VolumeCorrupted, Ground::Register(R::BadRecord), "policy record"),
    ("register", Status::Unsupported, Ground::Register(R::Exited), "after exit"),
    ("register", Status::WriteProtected, Ground::Register(R::Locked), "locked engine"),
    ("register", Status::InvalidParameter, Ground::Register(R::Malformed), "malformed"),
    ("register", Status::AlreadyStarted, Ground::Register(R::Repeated), "same namespace and name"),
    ("register", Status::OutOfResources, Ground::Register(R::TooMany), "one entry over the limit"),
    ("register", Status::OutOfResources, Ground::Register(R::TooLong), "sum over the limit"),
    ("register", Status::Success, Ground::Register(R::Registered), ""),
    ("dump", Status::VolumeCorrupted, Ground::Status, ""),
    ("dump", Status::Unsupported, Ground::Status, "after exit"),
    ("dump", Status::BufferTooSmall, Ground::Status, ""),
    ("dump", Status::Success, Ground::Status, ""),
    ("lock", Status::Unsupported, Ground::Status, "after exit"),
    ("lock", Status::WriteProtected, Ground::Status, ""),
    ("lock", Status::Success, Ground::Status, ""),
    ("disable", Status::Unsupported, Ground::Status, "after exit"),
    ("disable", Status::AlreadyStarted, Ground::Status, ""),
    ("disable", Status::WriteProtected, Ground::DisableLocked, "locked"),
    ("disable", Status::WriteProtected, Ground::DisableNotAllowed, "not allowed"),
    ("disable", Status::Success, Ground::Status, ""),
    ("exit", Status::Unsupported, Ground::Status, "after exit"),
    ("exit", Status::Success, Ground::Status, ""),
    ("query", Status::Success, Ground::QueryEnabled, "enabled"),
    ("query", Status::Success, Ground::QueryDisabled, "disabled"),
    ("read", Status::VolumeCorrupted, Ground::Status, ""),
    ("read", Status::InvalidParameter, Ground::Status, ""),
    ("read", Status::NotFound, Ground::ReadAbsent, "absent"),
    ("read", Status::NotFound, Ground::ReadHidden, "after exit: without RT"),
    ("read", Status::Success, Ground::Status, ""),
    ("set", Status::VolumeCorrupted, Ground::Set(S::BadStores), "stores"),
    ("set", Status::VolumeCorrupted, Ground::Set(S::BadRecord), "policy record"),
    ("set", Status::InvalidParameter, Ground::Set(S::BadName), "step 1: name"),
    ("set", Status::InvalidParameter, Ground::Set(S::LongPayload), "step 1: payload over 1,024"),
    ("set", Status::Unsupported, Ground::Set(S::UnknownAttribute), "step 2: bit outside 0x47"),
    ("set", Status::InvalidParameter, Ground::Set(S::WithoutBootService), "step 3: RT or append without BS"),
    ("set", Status::InvalidParameter, Ground::Set(S::NotForRuntime), "step 3 after exit"),
    ("set", Status::InvalidParameter, Ground::Set(S::TooShort), "step 4: under MinSize"),
    ("set", Status::InvalidParameter, Ground::Set(S::TooLong), "step 4: over MaxSize"),
    ("set", Status::InvalidParameter, Ground::Set(S::AttributeMissing), "step 4: required bit missing"),
    ("set", Status::InvalidParameter, Ground::Set(S::AttributeProhibited), "step 4: prohibited bit set"),
    ("set", Status::WriteProtected, Ground::Set(S::LockedNow), "step 4: lock of type 1"),
    ("set", Status::WriteProtected, Ground::Set(S::LockedOnCreate), "step 4: lock of type 2"),
    ("set", Status::WriteProtected, Ground::Set(S::LockedOnVarState), "step 4: lock of type 3"),
    ("set", Status::NotFound, Ground::Set(S::DeleteAbsent), "step 5: absent"),
    ("set", Status::NotFound, Ground::Set(S::DeleteHidden), "step 5 after exit: without RT"),
    ("set", Status::WriteProtected, Ground::Set(S::DeleteVolatile), "step 5 after exit: volatile"),
    ("set", Status::Success, Ground::Set(S::Deleted), "step 5: deleted"),
    ("set", Status::InvalidParameter, Ground::Set(S::OtherAttributes), "step 6: other attributes"),
    ("set", Status::Success, Ground::Set(S::EmptyAppend), "step 7: empty append"),
    ("set", Status::OutOfResources, Ground::Set(S::AppendTooLong), "step 8: append over 1,024"),
    ("set", Status::OutOfResources, Ground::Set(S::NoRoom), "step 9: no room"),
    ("set", Status::Success, Ground::Set(S::Created), "step 10: created"),
    ("set", Status::Success, Ground::Set(S::Rewritten), "step 10: rewritten"),
    ("set", Status::Success, Ground::Set(S::AppendCreated), "step 10: append creates"),
    ("set", Status::Success, Ground::Set(S::AppendJoined), "step 10: append joins"),
    ("settled", Status::VolumeCorrupted, Ground::Status, ""),
    ("settled", Status::InvalidParameter, Ground::Status, ""),
    ("settled", Status::Success, Ground::Settled, "yes"),
    ("settled", Status::Success, Ground::NotSettled, "no"),
    ("rebuild", Status::Success, Ground::Status, "every call of it"),
    ("quarrels", Status::InvalidParameter, Ground::Status, "no dump"),
    ("quarrels", Status::Success, Ground::Quarrel, "two entries quarrel"),
    ("quarrels", Status::Success, Ground::NoQuarrel, "no two quarrel"),
    ("reader", Status::Success, Ground::Status, "started"),
    ("feed", Status::InvalidParameter, Ground::NoBytes, "no bytes"),
    ("feed", Status::InvalidParameter, Ground::ManyBytes, "over 4,096 bytes"),
    ("feed", Status::Success, Ground::Taken, ""),
    ("feed", Status::Success, Ground::BehindEnd, "behind a bad entry"),
    ("verdict", Status::Success, Ground::WholeDump, "a dump and nothing else"),
    ("verdict", Status::Success, Ground::BadEntry(F::CutShort), "entry cut short"),
    ("verdict", Status::Success, Ground::BadEntry(F::Malformed), "entry malformed"),
    ("verdict", Status::Success, Ground::BadEntry(F::Repeated), "entry repeated"),
    ("verdict", Status::Success, Ground::BadEntry(F::TooMany), "one entry over the limit"),
    ("verdict", Status::Success, Ground::BadEntry(F::TooLong), "sum over the limit"),
    ("entry", Status::NotFound, Ground::Status, "none is good"),
    ("entry", Status::Success, Ground::Status, "the first good one"),
];

/// A group of inputs.
#[derive(Clone, Copy, PartialEq, Eq, Debug)]
#[allow(missing_docs)]
pub enum Input {
    Switches,
    SwitchBytes,
    Start,
    Registration,
    Beyond,
    FormerLength,
    EntryName,
    TriggerName,
    DumpBuffer,
    RequestName,
    RequestBit,
    Payload,
    Choice,
    UnderSign,
    SignInName,
    SignLock,
    SignRegistered,
    TriggerSign,
    SignRefused,
    SignDefect,
    NearSign,
    SignRecord,
    SignSetting,
    MinSize,
    MaxSize,
    AgainstSizes,
    Sum,
    Required,
    Prohibited,
    KnownBit,
    Lock,
    Trigger,
    Deletion,
    StepsAtOnce,
    AppendLength,
    Room,
    StoreLength,
    NameSize,
    DataSize,
    Unsound,
    Report,
    ReportZeros,
    ReportChoice,
    ReportSize,
    ReportLock,
    ReportLowest,
    ReportBoth,
    NoReport,
    Entry,
    Stores,
    Policy,
    Rebuild,
    AfterReorder,
    ReportReordered,
    QuarrelPair,
    QuarrelUnits,
    QuarrelLock,
    QuarrelTrigger,
    QuarrelLimit,
    NoQuarrel,
    ApartUnits,
    NoDump,
    QuarrelRefused,
    Dump,
    QuarrelRebuilt,
    PieceLength,
    PieceEnd,
    Refused,
    Pieces,
    ReadWhole,
    ReadBad,
    ReadBehind,
    ReadEnd,
    ReadLock,
    ReadPlace,
    AnyReader,
    ReadDamage,
    ExitStart,
    ExitRead,
    ExitDelete,
    ExitLock,
    ExitAppend,
    ExitOther,
    ExitRoom,
    ExitRebuild,
    ExitHistory,
    SettledName,
    SettledUnsound,
    SettledEnd,
    SettledRound,
    SettledRest,
    SettledChoice,
    SettledNamespace,
    Outlasted,
    Lost,
}

/// Every group of inputs with its title and what is counted in it, in the order of [`Input`].
fn groups() -> Vec<Group> {
    use Input::*;
    vec![
        Group::new(Switches, "switches (enabled, locked, disabling allowed, exited)", labels::switch_labels()),
        Group::new(SwitchBytes, "byte of a switch that is neither 0 nor 1", labels::switch_byte_labels()),
        Group::new(Start, "start", labels::START),
        Group::new(Registration, "registration", labels::REGISTRATION),
        Group::new(Beyond, "beyond the former limits", labels::BEYOND),
        Group::new(
            FormerLength,
            "10 for a policy record of the former length, with nothing else wrong in what is lent",
            labels::former_length_labels(),
        ),
        Group::new(EntryName, "name of an entry to register", labels::PACKED_NAME),
        Group::new(TriggerName, "trigger's name in an entry to register", labels::PACKED_NAME),
        Group::new(DumpBuffer, "buffer of a dump", labels::DUMP_BUFFER),
        Group::new(RequestName, "name of a request", labels::REQUEST_NAME),
        Group::new(RequestBit, "attributes of a set: this bit alone, or with BS", bits()),
        Group::new(Payload, "length of a set's payload", labels::PAYLOAD),
        Group::new(Choice, "entries that target the variable", labels::CHOICE),
        Group::new(UnderSign, "unit of a set's name under an entry's '#'", labels::UNDER_SIGN),
        Group::new(
            SignInName,
            "variable with '#' in its name, and an entry near it that has no say",
            labels::sign_in_name_labels(),
        ),
        Group::new(
            SignLock,
            "lock of the whole namespace, over a variable with '#' in its name",
            labels::locks_by_place(),
        ),
        Group::new(SignRegistered, "registration beside an entry with '#', or of one", labels::SIGN_REGISTERED),
        Group::new(
            TriggerSign,
            "2 for '#' in the trigger's name of an entry to register, and nothing else wrong",
            labels::TRIGGER_SIGN,
        ),
        Group::new(
            SignRefused,
            "'#' in the trigger's name of an entry to register, and this besides",
            labels::SIGN_REFUSED,
        ),
        Group::new(SignDefect, "'#' in the trigger's name of an entry that is malformed by more", labels::SIGN_DEFECT),
        Group::new(NearSign, "registered, with what is no '#' in a trigger's name", labels::NEAR_SIGN),
        Group::new(
            SignRecord,
            "10, and 0 for a start: a policy record with '#' in a trigger's name, and nothing else wrong",
            labels::sign_record_labels(),
        ),
        Group::new(
            SignSetting,
            "10, and 0 for a start: a policy record with '#' in a trigger's name, by the switches",
            labels::sign_setting_labels(),
        ),
        Group::new(MinSize, "MinSize of the chosen entry", labels::size_labels()),
        Group::new(MaxSize, "MaxSize of the chosen entry", labels::size_labels()),
        Group::new(
            AgainstSizes,
            "payload as it would be afterwards, against the chosen entry",
            labels::against_sizes_labels(),
        ),
        Group::new(
            Sum,
            "append's own length and the sum against the sizes, and a later step that holds too",
            labels::sum_labels(),
        ),
        Group::new(Required, "AttributesMustHave of the chosen entry is this bit, which the set lacks", bits_but_bs()),
        Group::new(
            Prohibited,
            "AttributesCantHave of the chosen entry is this bit, and the set is without it",
            bits_but_bs(),
        ),
        Group::new(KnownBit, "the chosen entry names this bit alone, and the set has it", labels::known_bit_labels()),
        Group::new(Lock, "lock of the chosen entry, and where the variable is", labels::lock_labels()),
        Group::new(Trigger, "trigger of the chosen entry", labels::TRIGGER),
        Group::new(Deletion, "deletion or empty append, and where the variable is", labels::deletion_labels()),
        Group::new(StepsAtOnce, "steps of set: the one that decided, and a later one that holds too", steps::pairs()),
        Group::new(AppendLength, "length that an append would make", labels::APPEND_LENGTH),
        Group::new(Room, "room in the store, by padding", labels::room_labels()),
        Group::new(StoreLength, "length of a store", labels::STORE_LENGTH),
        Group::new(NameSize, "NameSize of a stored record", labels::name_size_labels()),
        Group::new(DataSize, "DataSize of a stored record", labels::data_size_labels()),
        Group::new(Unsound, "lent something unsound, with another fault besides", labels::UNSOUND),
        Group::new(Report, "ground of a report, and what else the entry has against the set", labels::REPORT),
        Group::new(ReportZeros, "report that is none but for this", labels::REPORT_ZEROS),
        Group::new(
            ReportChoice,
            "report, and the other entries that target the variable",
            labels::report_choice_labels(),
        ),
        Group::new(ReportSize, "report of a size", labels::report_size_labels()),
        Group::new(ReportLock, "report of a lock", labels::report_lock_labels()),
        Group::new(ReportLowest, "lowest bit of a report", labels::report_lowest_labels()),
        Group::new(ReportBoth, "report of missing and prohibited bits", labels::report_both_labels()),
        Group::new(
            NoReport,
            "no report: the step, and what the chosen entry says or would say",
            reports::unreported_labels(),
        ),
        Group::new(Entry, "damage to an entry", damage::ENTRY),
        Group::new(Stores, "damage to the stores", damage::STORES),
        Group::new(Policy, "damage to the policy record", damage::POLICY),
        Group::new(
            Rebuild,
            "rebuild",
            [
                "in order, its own dump",
                "in order, older dump",
                "another order, its own dump",
                "another order, older dump",
                "at the limit of entries",
                "at the limit of the sum",
            ],
        ),
        Group::new(
            AfterReorder,
            "calls while the order differs",
            ["set", "read", "dump", "register", "lock or disable", "exit", "start", "settled"],
        ),
        Group::new(
            ReportReordered,
            "reports while the order differs, and the place of the entry",
            labels::report_reordered_labels(),
        ),
        Group::new(QuarrelPair, "two entries that quarrel, and other pairs that do", labels::QUARREL_PAIR),
        Group::new(QuarrelUnits, "quarrel: units of the earlier entry and the later", labels::quarrel_unit_labels()),
        Group::new(QuarrelLock, "quarrel: locks of the earlier entry and the later", labels::quarrel_lock_labels()),
        Group::new(QuarrelTrigger, "two entries with triggers, asked for a quarrel", labels::quarrel_trigger_labels()),
        Group::new(QuarrelLimit, "dump at a limit, asked for a quarrel", labels::quarrel_limit_labels()),
        Group::new(NoQuarrel, "no two entries quarrel", labels::NO_QUARREL),
        Group::new(
            ApartUnits,
            "no quarrel for the units at one place alone, the earlier entry's and the later's",
            labels::apart_unit_labels(),
        ),
        Group::new(NoDump, "no dump, for this alone", labels::NO_DUMP),
        Group::new(QuarrelRefused, "no dump, for this alone, though two entries quarrel", labels::QUARREL_REFUSED),
        Group::new(Dump, "damage to a dump", damage::DUMP),
        Group::new(QuarrelRebuilt, "rebuild's dump, asked for a quarrel", ["none", "two entries quarrel"]),
        Group::new(PieceLength, "length of a piece of a dump", pieces::PIECE_LENGTH),
        Group::new(PieceEnd, "a piece ends, and another follows", pieces::PIECE_END),
        Group::new(Refused, "piece that is refused, by its length and where it comes", pieces::refused_labels()),
        Group::new(Pieces, "dump in pieces", pieces::PIECES),
        Group::new(ReadWhole, "read in pieces: a dump and nothing else", pieces::READ_WHOLE),
        Group::new(ReadBad, "read in pieces: the first bad entry", pieces::READ_BAD),
        Group::new(ReadBehind, "read in pieces: what stands behind the bad entry", pieces::READ_BEHIND),
        Group::new(ReadEnd, "read in pieces: when the reader ended", pieces::READ_END),
        Group::new(ReadLock, "entry handed out by a reader", pieces::read_lock_labels()),
        Group::new(ReadPlace, "byte at which an entry of a reader is asked for", pieces::READ_PLACE),
        Group::new(AnyReader, "piece for a reader of any bytes", pieces::ANY_READER),
        Group::new(ReadDamage, "damage to a dump in pieces", damage::DUMP),
        Group::new(ExitStart, "start on an engine that has exited", exit::start_labels()),
        Group::new(ExitRead, "read, by the variable", exit::read_labels()),
        Group::new(ExitDelete, "after exit: deletion, and the variable", exit::deletion_labels()),
        Group::new(ExitLock, "after exit: what the lock of the chosen entry looks at", exit::lock_labels()),
        Group::new(
            ExitAppend,
            "after exit: append's own length and the sum against the sizes, and the variable",
            exit::append_labels(),
        ),
        Group::new(ExitOther, "after exit: refused at step 6, and the variable", exit::other_labels()),
        Group::new(
            ExitRoom,
            "after exit: room in the store, some of it taken by what is not read",
            exit::room_labels(),
        ),
        Group::new(ExitRebuild, "rebuild after exit", exit::REBUILD),
        Group::new(ExitHistory, "history with exits", exit::HISTORY),
        Group::new(SettledName, "name of a variable that is asked whether it is settled", labels::REQUEST_NAME),
        Group::new(SettledUnsound, "settled: 10 for this alone", settled::unsound_labels()),
        Group::new(SettledEnd, "settled: how the chain of triggers ends, by its links", settled::end_labels()),
        Group::new(SettledRound, "settled: triggers that come round", settled::round_labels()),
        Group::new(SettledRest, "settled: what a yes rests on, by its attributes", settled::rest_labels()),
        Group::new(
            SettledChoice,
            "settled: the chosen entry, and another that targets the variable",
            settled::choice_labels(),
        ),
        Group::new(SettledNamespace, "settled: namespace of a trigger", settled::NAMESPACE),
        Group::new(
            Outlasted,
            "outlasted by a settled variable, the engine enabled and locked",
            lasting::outlasted_labels(),
        ),
        Group::new(Lost, "a condition that was missing, and what became of the variable", lasting::lost_labels()),
    ]
}

/// The 32 attribute bits.
fn bits() -> impl Iterator<Item = String> {
    (0..32).map(|bit| format!("{:#x}", 1_u32 << bit))
}

/// The attribute bits but BS, which every set that is asked for attributes has.
fn bits_but_bs() -> impl Iterator<Item = String> {
    bits().enumerate().filter(|(bit, _)| *bit != 1).map(|(_, label)| label)
}

/// A group of inputs and its counts.
#[derive(Clone, Debug)]
struct Group {
    input: Input,
    title: &'static str,
    labels: Vec<String>,
    counts: Vec<u64>,
}

impl Group {
    fn new<T: ToString>(input: Input, title: &'static str, labels: impl IntoIterator<Item = T>) -> Group {
        let labels: Vec<String> = labels.into_iter().map(|label| label.to_string()).collect();
        let counts = vec![0; labels.len()];
        Group { input, title, labels, counts }
    }

    fn rows(&self) -> impl Iterator<Item = (&str, u64)> {
        self.labels.iter().map(String::as_str).zip(self.counts.iter().copied())
    }
}

impl fmt::Display for Group {
    /// The title, and then as many labels with their counts to a line as there is room for.
    fn fmt(&self, out: &mut fmt::Formatter) -> fmt::Result {
        const LINE: usize = 69;
        const COUNT: usize = 8;
        let widest = self.labels.iter().map(|label| label.chars().count()).max().unwrap_or(0);
        let columns = (LINE / (widest + COUNT + 2)).max(1);
        let width = LINE / columns - COUNT - 2;
        write!(out, "\n{}", self.title)?;
        for (place, (label, count)) in self.rows().enumerate() {
            let line_end = if place % columns == 0 { "\n" } else { "" };
            write!(out, "{line_end}  {label:<width$}{count:>COUNT$}")?;
        }
        writeln!(out)
    }
}

/// The counts of a run.
#[derive(Clone, Debug)]
pub struct Coverage {
    answers: [u64; ANSWERS.len()],
    groups: Vec<Group>,
    tallies: Tallies,
}

impl Default for Coverage {
    fn default() -> Coverage {
        let groups = groups();
        assert!(groups.iter().enumerate().all(|(place, group)| group.input as usize == place));
        Coverage { answers: [0; ANSWERS.len()], groups, tallies: Tallies::default() }
    }
}

impl Coverage {
    /// Counts an answer. False if the table has no such answer.
    pub fn answer(&mut self, call: &str, status: Status, ground: Ground) -> bool {
        let known = ANSWERS.iter().position(|row| row.0 == call && row.1 == status && row.2 == ground);
        known.inspect(|row| self.answers[*row] += 1).is_some()
    }

    /// Counts an input.
    pub fn input(&mut self, input: Input, label: usize) {
        self.groups[input as usize].counts[label] += 1;
    }

    /// Notes an input of which each must be hit, by its number.
    pub fn each(&mut self, each: Each, number: usize) {
        self.tallies.hit(each, number);
    }

    /// What can be hit and was not.
    pub fn missed(&self) -> Vec<String> {
        let answers = ANSWERS.iter().zip(self.answers);
        let answers = answers.filter(|(_, count)| *count == 0).map(|(row, _)| format!("{} {} {}", row.0, row.1, row.3));
        let inputs = self.groups.iter().flat_map(|group| {
            let missed = group.rows().filter(|(_, count)| *count == 0);
            missed.map(|(label, _)| format!("{}: {label}", group.title))
        });
        answers.chain(inputs).chain(self.tallies.missed()).collect()
    }
}

impl fmt::Display for Coverage {
    fn fmt(&self, out: &mut fmt::Formatter) -> fmt::Result {
        writeln!(out, "{:<9} {:<18} {:<32} {:>9}", "call", "status", "ground", "count")?;
        for ((call, status, _, words), count) in ANSWERS.iter().zip(self.answers) {
            writeln!(out, "{call:<9} {status:<18} {words:<32} {count:>9}")?;
        }
        for group in &self.groups {
            write!(out, "{group}")?;
        }
        write!(out, "{}", self.tallies)
    }
}
