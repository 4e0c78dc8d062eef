//! The bench readings (docs/RULES.md, 13), each run by the library and by the reference. Of those on an engine the last
//! twelve, from the store of 40 bytes on, are not proved, and of those of dumps the last six, from the names of 64 units
//! on; this program is what checks them. Those of dumps in pieces are read in as few pieces as there can be, and byte by
//! byte.

use compare::call::{Answer, Call, Values, by_library, by_reference};
use compare::chains;
use compare::lines;
use compare::make::{EntryFields, G, entries_of_size, entries_of_sum, entry_of_size, packed, unit_bytes, units};
use compare::pieces;
use compare::quarrels::{self, Asked, OLD_NAME};
use compare::state::{Guarded, State};
use reference::POLICY_BYTES;
use std::process::ExitCode;
use varpolicy::calls::Quarrelled;
use varpolicy::{Namespace, Report, Status};

/// An implementation: makes a call on a state.
type Implementation = fn(&mut State, &Call) -> Answer;

/// A reading: its text, what answers it, and the numbers expected, most of them statuses.
type Reading = (&'static str, fn(Implementation) -> Vec<u32>, &'static [u32]);

/// What stands for the answers to whether a variable is settled; no status has these numbers.
const NO: u32 = 100;
const YES: u32 = 101;

const READINGS: [Reading; 58] = [
    ("an entry of 43 bytes, one of 44", least_entry, &[2, 0]),
    ("a name of no units, closed", zero_unit_name, &[2]),
    ("a trigger's name of no units, of one", trigger_name, &[2, 0]),
    ("a trigger called `A#`, `#A`, `A0`", sign_in_trigger, &[2, 2, 0]),
    ("'#' over hex digits, over itself, over another letter", wildcards, &[8, 0, 0]),
    ("`Boot####`, again, the whole namespace; then the variable of that name", sign_in_name, &[0, 20, 0, 8]),
    (
        "one rank: the first registered, locking or not; a whole namespace speaks last, locking or not",
        ranks,
        &[8, 0, 0, 8],
    ),
    ("a trigger with Value 0: absent, one byte 0, two bytes 0", triggers, &[0, 8, 0]),
    ("lock on create: create, rewrite, delete", lock_on_create, &[0, 8, 8]),
    ("MinSize 2: one byte, two, a deletion", min_size, &[2, 0, 0]),
    ("MaxSize 64: appends of 60 bytes, 5, 4, none", append_to_max_size, &[0, 2, 0, 0]),
    ("MinSize 4: appends of no byte, 3, 4, 1, none", append_to_min_size, &[2, 2, 0, 0, 0]),
    ("MaxSize 64, locked, 60 bytes in the other store: appends of 5 bytes, 4", append_if_locked, &[2, 8]),
    ("RT without BS; an unknown bit", attributes, &[2, 3]),
    ("disable and lock, lock and disable, disable twice", switches, &[0, 0, 0, 8, 0, 20]),
    (
        "exit; exit, register, dump, lock, disable; query; power-on, which undoes it; lock",
        exit,
        &[0, 3, 3, 3, 3, 3, 0, 0, 0],
    ),
    (
        "`A` with NV, BS, `B` with BS, RT, `C` with all three; exit; reads of these and of `D`",
        reads_after_exit,
        &[0, 0, 0, 0, 14, 0, 0, 14],
    ),
    (
        "after the same: `D` with NV, BS, with BS, RT, with all three; appends to it with all three, with NV, BS",
        sets_after_exit,
        &[2, 2, 0, 0, 2],
    ),
    ("after the same: deletions of `E`, `A`, `B`, `C`; `A` with all three", deletions_after_exit, &[14, 14, 8, 0, 2]),
    (
        "after the same: `D` with 0x0e; a read of no name; `C` with no attributes; an empty append to `D` with NV, BS",
        steps_after_exit,
        &[3, 2, 0, 2],
    ),
    ("disable, lock, exit", closed_exit, &[0, 0, 0]),
    ("a volatile variable without RT; exit; its read, its deletion", volatile_after_exit, &[0, 0, 14, 14]),
    ("a trigger without RT that holds Value 0; exit; a set that it locks", lock_by_hidden, &[0, 0, 0, 8]),
    ("lock on create, created without RT; exit; a set with RT, a deletion", created_before_exit, &[0, 0, 0, 8, 8]),
    ("the whole namespace, locked now; exit; a deletion, a set with NV, BS", locked_after_exit, &[0, 0, 8, 2]),
    (
        "reports of sets of `A0` under `A#`, behind `B`: size, attributes, lock, none; disabled",
        reports,
        GROUNDS.as_flattened(),
    ),
    ("the report where bit 31 is required of a whole namespace", required_bit, &[2, 2, 0, 65, 1, 0, 31]),
    ("the same, and BS prohibited", required_and_prohibited_bit, &[2, 2, 0, 65, 1, 1, 1]),
    (
        "reports after exit: a volatile variable and a locked one deleted, the latter set",
        reports_after_exit,
        EIGHTS.as_flattened(),
    ),
    (
        "60 bytes without RT under MaxSize 64, after exit: appends of 5 bytes, 4",
        lengths_after_exit,
        LENGTHS.as_flattened(),
    ),
    ("settled: without an entry, with one that never locks", settled_free, &[NO, 0, NO]),
    ("settled: the whole namespace, locked now; no name; another namespace", settled_whole, &[0, YES, 2, NO]),
    ("settled: lock on create, before the set and behind it", settled_on_create, &[0, NO, 0, YES]),
    ("settled: a trigger that is locked on create, absent, with Value", settled_on_state, &[0, 0, NO, 0, YES, YES]),
    ("settled: that trigger with another byte, with two bytes", settled_by_payload, &[0, NO, 0, NO]),
    ("settled: a trigger that nothing locks, and its change", settled_by_free_trigger, &[0, 0, 8, NO, 0, 0]),
    ("settled: a variable that is its own trigger", settled_by_itself, &[0, 0, 8, NO]),
    ("settled: two variables that are each other's triggers", settled_round, &[0, 0, 0, 0, 8, 8, NO, NO]),
    ("settled: two links, the last variable absent, there", settled_two_links, &[0, 0, 0, 0, NO, 0, YES]),
    ("settled, not locked: an entry of lower rank is registered", settled_not_locked, &[0, YES, 0, NO, 0]),
    ("settled, not enabled: a set", settled_not_enabled, &[0, 0, 0, YES, 0]),
    ("settled, a restart: a set", settled_restarted, &[0, 0, YES, 0, NO, 0]),
    ("settled: a trigger that is there and locked now", settled_by_locked_trigger, &[0, 0, 0, YES, YES]),
    ("settled: a volatile trigger that is locked on create", settled_by_volatile_trigger, &[0, 0, 0, YES, YES]),
    ("settled: a trigger that is locked now and absent", settled_absent_trigger, &[0, 0, 8, NO, YES]),
    ("settled after exit: a trigger that is no longer read", settled_after_exit, &[0, 0, 0, 0, 0, YES, 14]),
    ("an empty store of 40 bytes: a record of 40, one of 44", forty_bytes, &[0, 9]),
    ("51 entries that sum to 16,384, and one more", full_record, &[0, 16384, 9]),
    ("128 entries of 44 bytes, and one more", most_entries, &[0, 5632, 9]),
    ("a policy record of 8,192 bytes: power-on, restart, register, dump, set", former_length, &[10, 10, 10, 10, 10]),
    (
        "a policy record with a trigger called `A#`: register, dump, set; with `A0`",
        record_with_trigger,
        &[10, 10, 10, 0, 0, 0],
    ),
    ("the record with `A#`: power-on, restart, and whether each cleared it", start_over_sign, &[0, 1, 0, 1]),
    ("the dump of two entries, 94 bytes", whole_dump, &[0, 94, 1]),
    (
        "rebuilt twice after exit from a dump of before, locked: granted, the state as it was; then dump, exit",
        rebuilt_after_exit,
        &[0, 1, 0, 1, 3, 3],
    ),
    (
        "after exit a trigger without RT: its read, a set that it locks and the ground, its deletion",
        trigger_after_exit,
        &[14, 8, 3, 14],
    ),
    (
        "after exit over a damaged volatile store: restart, exited as handed back, lock; power-on, lock",
        starts_after_exit,
        &[10, 0, 3, 0, 0],
    ),
    ("exited is 2, 0x80, 0xff: exit, dump, lock, disable, a read without RT", stray_exited, STRAY.as_flattened()),
    (
        "settled: chains of 0 to 20 links that end with type 2, with type 1, without an entry",
        settled_chains,
        CHAINS.as_flattened(),
    ),
];

const STRAY: &[[u32; 5]] = &[[3, 3, 3, 3, 14]; 3];

const CHAINS: &[[u32; 3]] = &{
    let mut answers = [[NO, NO, NO]; 21];
    let (settled, _) = answers.split_at_mut(17);
    settled.copy_from_slice(&[[YES, YES, NO]; 17]);
    answers
};

const EIGHTS: &[Reported] = &[[8, 0, 0, 0, 0, 0, 0], [8, 3, 0, 0, 0, 0, 0], [2, 0, 0, 0, 0, 0, 0]];

const LENGTHS: &[Reported] = &[[2, 1, 0, 0, 0, 0, 0], [2, 0, 0, 0, 0, 0, 0]];

/// A status and its report: ground, place, rank, missing, prohibited, lowest bit.
type Reported = [u32; 7];

const GROUNDS: &[Reported] = &[
    [2, 1, 1, 1, 0, 0, 0],
    [2, 2, 1, 1, 2, 0, 0],
    [2, 2, 1, 1, 0, 1, 6],
    [2, 2, 1, 1, 2, 1, 0],
    [8, 3, 1, 1, 0, 0, 0],
    [8, 3, 1, 1, 0, 0, 0],
    [3, 0, 0, 0, 0, 0, 0],
    [0, 0, 0, 0, 0, 0, 0],
    [0, 0, 0, 0, 0, 0, 0],
];

/// A reading of the checker of dumps: its text, the bytes, and what is expected.
type DumpReading = (&'static str, fn() -> Vec<u8>, Expected);

/// What the checker is expected to answer.
enum Expected {
    NoDump,
    NoQuarrel,
    Pair(usize, usize, &'static str),
}

use Expected::{NoDump, NoQuarrel, Pair};

const DUMP_READINGS: [DumpReading; 21] = [
    ("no bytes", || free(&[]), NoQuarrel),
    ("`Boot00##`, `Boot##01`", || free(&["Boot00##", "Boot##01"]), Pair(0, 1, "Boot0001")),
    ("`A##`, `#0#`", || free(&["A##", "#0#"]), Pair(0, 1, "A00")),
    ("`Boot####`, the whole namespace", || dump(&[entry("Boot####"), locked_now("")]), NoQuarrel),
    ("`Boot##`, `Boot#0`", || free(&["Boot##", "Boot#0"]), NoQuarrel),
    ("`#G`, `0#`", || free(&["#G", "0#"]), NoQuarrel),
    ("`A#`, `B#`", || free(&["A#", "B#"]), NoQuarrel),
    ("`X`, `A#`, `#B`, `#C`", || free(&["X", "A#", "#B", "#C"]), Pair(1, 2, "AB")),
    ("`A#`, `GA#`, `G#A`, `#A`", || free(&["A#", "GA#", "G#A", "#A"]), Pair(0, 3, "AA")),
    ("`A#`, `#A` of another namespace", two_namespaces, NoQuarrel),
    ("`A#` twice", || dump(&[entry("A#"), locked_now("A#")]), NoDump),
    ("the whole namespace twice", || dump(&[entry(""), locked_now("")]), NoDump),
    ("`A#`, `#A`, a zero byte", || [free(&["A#", "#A"]), vec![0]].concat(), NoDump),
    ("`A#` with the trigger `T#`, `#A`", || triggered("T#"), NoDump),
    ("`A#` with the trigger `T0`, `#A`", || triggered("T0"), Pair(0, 1, "AA")),
    ("names of 64 units", longest_names, Pair(0, 1, LONGEST_NAME)),
    ("128 entries, the last two `A#`, `#A`", last_places, Pair(126, 127, "AA")),
    ("128 entries of 44 bytes", || entries_of_size(44, 128).concat(), NoQuarrel),
    ("one more", || entries_of_size(44, 129).concat(), NoDump),
    ("51 entries that sum to 16,384", || entries_of_sum(POLICY_BYTES).concat(), NoQuarrel),
    ("to 16,386", || entries_of_sum(POLICY_BYTES + 2).concat(), NoDump),
];

/// A reading of the reader of dumps: its text, the bytes, and the last lines that are expected.
type PieceReading = (&'static str, fn() -> Vec<u8>, &'static [&'static str]);

const FIRST_LINE: &str = "0 size 44 lock 1 marks all";
const SECOND_LINE: &str = "1 size 50 lock 0 marks 1";

const PIECE_READINGS: [PieceReading; 16] = [
    ("two entries, 94 bytes", two_entries, &[FIRST_LINE, SECOND_LINE, "entries 2 bytes 94"]),
    ("no bytes", Vec::new, &["entries 0 bytes 0"]),
    ("the second malformed", || with_byte(44, 1), &[FIRST_LINE, "bad at 44"]),
    ("the second cut by a byte", || two_entries()[..93].to_vec(), &[FIRST_LINE, "bad at 44"]),
    ("one byte of the second", || two_entries()[..45].to_vec(), &[FIRST_LINE, "bad at 44"]),
    ("the first malformed", || with_byte(0, 1), &["bad at 0"]),
    ("a zero behind both", || [two_entries(), vec![0]].concat(), &[FIRST_LINE, SECOND_LINE, "bad at 94"]),
    ("both twice", || two_entries().repeat(2), &[FIRST_LINE, SECOND_LINE, "bad at 94"]),
    ("the first twice, then the second", first_twice, &[FIRST_LINE, "bad at 44"]),
    ("`A#` with the trigger `T#`", || triggered("T#"), &["bad at 0"]),
    (
        "`A#` with the trigger `T0`, `#A`",
        || triggered("T0"),
        &["0 size 74 lock 3 marks 1", "1 size 50 lock 0 marks 1", "entries 2 bytes 124"],
    ),
    ("64 '#'", || free(&[&"#".repeat(64)]), &["0 size 174 lock 0 marks 64", "entries 1 bytes 174"]),
    (
        "128 entries of 44 bytes",
        || entries_of_size(44, 128).concat(),
        &["127 size 44 lock 0 marks all", "entries 128 bytes 5632"],
    ),
    ("one more", || entries_of_size(44, 129).concat(), &["127 size 44 lock 0 marks all", "bad at 5632"]),
    (
        "51 entries that sum to 16,384",
        || entries_of_sum(POLICY_BYTES).concat(),
        &["50 size 284 lock 3 marks 0", "entries 51 bytes 16384"],
    ),
    ("to 16,386", || entries_of_sum(POLICY_BYTES + 2).concat(), &["49 size 322 lock 3 marks 0", "bad at 16100"]),
];

fn main() -> ExitCode {
    let mut all_agree = true;
    let mut tell = |text: &str, agrees: bool, library: String, reference: String| {
        all_agree &= agrees;
        let verdict = if agrees { "ok    " } else { "FAILED" };
        println!("{verdict} {text} library {library} reference {reference}");
    };
    for (text, run, expected) in READINGS {
        let library = run(by_library);
        let reference = run(|state, call| by_reference(state, call).0);
        let agrees = library == expected && reference == expected;
        tell(text, agrees, format!("{library:?}"), format!("{reference:?}"));
    }
    for (text, bytes, expected) in DUMP_READINGS {
        let (dump, expected) = (bytes(), expected.over_old_name());
        let library = quarrels::by_library(&dump, &OLD_NAME);
        let reference = quarrels::by_reference(&dump, &OLD_NAME);
        let agrees = library == expected && reference == expected;
        tell(&format!("a dump: {text}"), agrees, told(&library), told(&reference));
    }
    for (text, bytes, expected) in PIECE_READINGS {
        let dump = bytes();
        let reference = lines::by_reference(&dump);
        let [library, single] =
            [pieces::few(dump.len()), pieces::single(dump.len())].map(|pieces| lines::by_library(&dump, &pieces));
        let agrees = library == reference && single == reference && ends_with(&reference, expected);
        let last = |lines: &[String]| format!("{:?}", &lines[lines.len().saturating_sub(expected.len())..]);
        tell(&format!("in pieces: {text}"), agrees, last(&library), last(&reference));
    }
    if all_agree { ExitCode::SUCCESS } else { ExitCode::FAILURE }
}

impl Expected {
    /// The answer, and the buffer from end to end.
    fn over_old_name(&self) -> Asked {
        match self {
            NoDump => Asked::without_pair(Status::InvalidParameter, &OLD_NAME),
            NoQuarrel => Asked::without_pair(Status::Success, &OLD_NAME),
            Pair(earlier, later, name) => Asked::with_pair((*earlier, *later), &unit_bytes(&units(name)), &OLD_NAME),
        }
    }
}

/// An engine on the bench: a state, and who runs it.
struct Bench {
    state: State,
    implementation: Implementation,
}

impl Bench {
    /// An engine powered on over two empty stores of this length, disabling allowed.
    fn new(implementation: Implementation, store_len: usize) -> Bench {
        let store = vec![0xFF; store_len];
        let state = State::new(&store, &store, &[0; POLICY_BYTES]);
        let mut bench = Bench { state, implementation };
        assert_eq!(bench.call(&Call::PowerOn { disabling_allowed: 1 }), 0);
        bench
    }

    fn call(&mut self, call: &Call) -> u32 {
        (self.implementation)(&mut self.state, call).status.number()
    }

    fn register(&mut self, fields: &EntryFields) -> u32 {
        self.call(&Call::Register { entry: fields.pack() })
    }

    fn set_with(&mut self, name: &str, attributes: u32, payload: &[u8]) -> u32 {
        let name = unit_bytes(&units(name));
        self.call(&Call::Set { namespace: G, name, attributes, payload: payload.to_vec() })
    }

    /// A set with its report.
    fn report(&mut self, name: &str, attributes: u32, payload: &[u8]) -> Reported {
        let (name, payload) = (unit_bytes(&units(name)), payload.to_vec());
        let answer = (self.implementation)(&mut self.state, &Call::Set { namespace: G, name, attributes, payload });
        let Values::Written(report) = answer.values else {
            panic!("a set has a report");
        };
        let Report { ground, place, rank, missing, prohibited, lowest_bit } = report;
        [answer.status.number(), ground.number(), place, rank, missing, prohibited, lowest_bit]
    }

    /// A set with NV and BS.
    fn set(&mut self, name: &str, payload: &[u8]) -> u32 {
        self.set_with(name, 3, payload)
    }

    /// An append with NV and BS.
    fn append(&mut self, name: &str, len: usize) -> u32 {
        self.set_with(name, 0x43, &vec![1; len])
    }

    fn delete(&mut self, name: &str) -> u32 {
        self.set_with(name, 0, &[])
    }

    fn read(&mut self, name: &str) -> u32 {
        self.call(&Call::Read { namespace: G, name: unit_bytes(&units(name)) })
    }

    fn settled(&mut self, name: &str) -> u32 {
        self.settled_in(G, name)
    }

    /// Whether a variable is settled, or the status of a refusal.
    fn settled_in(&mut self, namespace: Namespace, name: &str) -> u32 {
        let name = unit_bytes(&units(name));
        let answer = (self.implementation)(&mut self.state, &Call::Settled { namespace, name });
        let Values::Settled { settled } = answer.values else {
            panic!("the answer is yes or no");
        };
        assert!(answer.status == Status::Success || !settled, "a refusal has a yes beside it");
        match answer.status {
            Status::Success if settled => YES,
            Status::Success => NO,
            status => status.number(),
        }
    }
}

fn entry(name: &str) -> EntryFields {
    EntryFields::new(G, &units(name))
}

fn locked_now(name: &str) -> EntryFields {
    EntryFields { lock_type: 1, ..entry(name) }
}

fn least_entry(implementation: Implementation) -> Vec<u32> {
    let mut bench = Bench::new(implementation, 256);
    let mut short = EntryFields { size_off_by: -1, ..entry("") }.pack();
    short.truncate(43);
    vec![bench.call(&Call::Register { entry: short }), bench.register(&entry(""))]
}

fn zero_unit_name(implementation: Implementation) -> Vec<u32> {
    let fields = EntryFields { name: vec![0, 0], ..entry("") };
    assert_eq!(fields.pack().len(), 46);
    vec![Bench::new(implementation, 256).register(&fields)]
}

fn trigger_name(implementation: Implementation) -> Vec<u32> {
    let mut bench = Bench::new(implementation, 256);
    ["", "T"].map(|trigger| bench.register(&entry("A").with_trigger(G, &units(trigger), 0))).to_vec()
}

fn sign_in_trigger(implementation: Implementation) -> Vec<u32> {
    let mut bench = Bench::new(implementation, 256);
    ["A#", "#A", "A0"].map(|trigger| bench.register(&entry("A").with_trigger(G, &units(trigger), 0))).to_vec()
}

fn wildcards(implementation: Implementation) -> Vec<u32> {
    let mut bench = Bench::new(implementation, 256);
    assert_eq!(bench.register(&locked_now("Boot####")), 0);
    ["Boot00fF", "Boot####", "Boot000G"].map(|name| bench.set(name, &[1])).to_vec()
}

fn sign_in_name(implementation: Implementation) -> Vec<u32> {
    let mut bench = Bench::new(implementation, 256);
    let entries = [entry("Boot####"), entry("Boot####"), locked_now("")];
    let registered = entries.map(|entry| bench.register(&entry));
    [&registered[..], &[bench.set("Boot####", &[1])]].concat()
}

fn ranks(implementation: Implementation) -> Vec<u32> {
    let policies = [
        [locked_now("Boot00##"), entry("Boot##01")],
        [entry("Boot00##"), locked_now("Boot##01")],
        [locked_now(""), entry("Boot####")],
        [entry(""), locked_now("Boot####")],
    ];
    let answer = |policy: [EntryFields; 2]| {
        let mut bench = Bench::new(implementation, 256);
        assert!(policy.iter().all(|fields| bench.register(fields) == 0));
        bench.set("Boot0001", &[1])
    };
    policies.map(answer).to_vec()
}

fn triggers(implementation: Implementation) -> Vec<u32> {
    let mut bench = Bench::new(implementation, 256);
    assert_eq!(bench.register(&entry("A").with_trigger(G, &units("T"), 0)), 0);
    let absent = bench.set("A", &[1]);
    assert_eq!(bench.set("T", &[0]), 0);
    let holds_value = bench.set("A", &[2]);
    assert_eq!(bench.set("T", &[0, 0]), 0);
    vec![absent, holds_value, bench.set("A", &[3])]
}

fn lock_on_create(implementation: Implementation) -> Vec<u32> {
    let mut bench = Bench::new(implementation, 256);
    assert_eq!(bench.register(&EntryFields { lock_type: 2, ..entry("A") }), 0);
    vec![bench.set("A", &[1]), bench.set("A", &[2]), bench.delete("A")]
}

fn min_size(implementation: Implementation) -> Vec<u32> {
    let mut bench = Bench::new(implementation, 256);
    assert_eq!(bench.register(&EntryFields { min_size: 2, ..entry("A") }), 0);
    vec![bench.set("A", &[1]), bench.set("A", &[1, 2]), bench.delete("A")]
}

fn append_to_max_size(implementation: Implementation) -> Vec<u32> {
    let mut bench = Bench::new(implementation, 256);
    assert_eq!(bench.register(&EntryFields { max_size: 64, ..entry("A") }), 0);
    [60, 5, 4, 0].map(|len| bench.append("A", len)).to_vec()
}

fn append_to_min_size(implementation: Implementation) -> Vec<u32> {
    let mut bench = Bench::new(implementation, 256);
    assert_eq!(bench.register(&EntryFields { min_size: 4, ..entry("A") }), 0);
    [0, 3, 4, 1, 0].map(|len| bench.append("A", len)).to_vec()
}

fn append_if_locked(implementation: Implementation) -> Vec<u32> {
    let mut bench = Bench::new(implementation, 256);
    assert_eq!(bench.set_with("A", 2, &[1; 60]), 0);
    assert_eq!(bench.register(&EntryFields { max_size: 64, ..locked_now("A") }), 0);
    [5, 4].map(|len| bench.append("A", len)).to_vec()
}

fn attributes(implementation: Implementation) -> Vec<u32> {
    let mut bench = Bench::new(implementation, 256);
    [4, 8].map(|attributes| bench.set_with("A", attributes, &[1])).to_vec()
}

fn switches(implementation: Implementation) -> Vec<u32> {
    let orders = [[Call::Disable, Call::Lock], [Call::Lock, Call::Disable], [Call::Disable, Call::Disable]];
    let answers = orders.iter().flat_map(|calls| {
        let mut bench = Bench::new(implementation, 256);
        calls.each_ref().map(|call| bench.call(call))
    });
    answers.collect()
}

fn exit(implementation: Implementation) -> Vec<u32> {
    let mut bench = Bench::new(implementation, 256);
    let refused = [
        Call::Exit,
        Call::Register { entry: entry("").pack() },
        Call::Dump { buffer: Vec::new() },
        Call::Lock,
        Call::Disable,
    ];
    let calls = [Call::Exit].into_iter().chain(refused).chain([Call::Query]);
    let again = [Call::PowerOn { disabling_allowed: 1 }, Call::Lock];
    calls.chain(again).map(|call| bench.call(&call)).collect()
}

/// An engine that has exited, with `A`, `B` and `C`, and the statuses so far.
fn exited(implementation: Implementation) -> (Bench, [u32; 4]) {
    let mut bench = Bench::new(implementation, 256);
    let [a, b, c] = [("A", 3), ("B", 6), ("C", 7)].map(|(name, attributes)| bench.set_with(name, attributes, &[1]));
    let exit = bench.call(&Call::Exit);
    (bench, [a, b, c, exit])
}

fn reads_after_exit(implementation: Implementation) -> Vec<u32> {
    let (mut bench, statuses) = exited(implementation);
    [statuses, ["A", "B", "C", "D"].map(|name| bench.read(name))].concat()
}

fn sets_after_exit(implementation: Implementation) -> Vec<u32> {
    let (mut bench, _) = exited(implementation);
    [3, 6, 7, 0x47, 0x43].map(|attributes| bench.set_with("D", attributes, &[1])).to_vec()
}

fn deletions_after_exit(implementation: Implementation) -> Vec<u32> {
    let (mut bench, _) = exited(implementation);
    let deleted = ["E", "A", "B", "C"].map(|name| bench.delete(name));
    [&deleted[..], &[bench.set_with("A", 7, &[1])]].concat()
}

fn steps_after_exit(implementation: Implementation) -> Vec<u32> {
    let (mut bench, _) = exited(implementation);
    vec![bench.set_with("D", 0x0E, &[1]), bench.read(""), bench.set_with("C", 0, &[1]), bench.set_with("D", 0x43, &[])]
}

fn closed_exit(implementation: Implementation) -> Vec<u32> {
    let mut bench = Bench::new(implementation, 256);
    [Call::Disable, Call::Lock, Call::Exit].map(|call| bench.call(&call)).to_vec()
}

fn volatile_after_exit(implementation: Implementation) -> Vec<u32> {
    let mut bench = Bench::new(implementation, 256);
    vec![bench.set_with("A", 2, &[1]), bench.call(&Call::Exit), bench.read("A"), bench.delete("A")]
}

fn lock_by_hidden(implementation: Implementation) -> Vec<u32> {
    let mut bench = Bench::new(implementation, 256);
    let registered = bench.register(&entry("A").with_trigger(G, &units("T"), 0));
    vec![registered, bench.set("T", &[0]), bench.call(&Call::Exit), bench.set_with("A", 7, &[1])]
}

fn created_before_exit(implementation: Implementation) -> Vec<u32> {
    let mut bench = Bench::new(implementation, 256);
    let before =
        [bench.register(&EntryFields { lock_type: 2, ..entry("A") }), bench.set("A", &[1]), bench.call(&Call::Exit)];
    [&before[..], &[bench.set_with("A", 7, &[1]), bench.delete("A")]].concat()
}

fn reports_after_exit(implementation: Implementation) -> Vec<u32> {
    let mut bench = Bench::new(implementation, 256);
    let before = [bench.set_with("A", 6, &[1]), bench.register(&locked_now("B")), bench.call(&Call::Exit)];
    assert_eq!(before, [0, 0, 0]);
    [bench.report("A", 3, &[]), bench.report("B", 3, &[]), bench.report("B", 3, &[1])].concat()
}

fn lengths_after_exit(implementation: Implementation) -> Vec<u32> {
    let mut bench = Bench::new(implementation, 256);
    let capped = EntryFields { max_size: 64, ..entry("A") };
    assert_eq!([bench.set("A", &[1; 60]), bench.register(&capped), bench.call(&Call::Exit)], [0, 0, 0]);
    [bench.report("A", 0x47, &[1; 5]), bench.report("A", 0x47, &[1; 4])].concat()
}

fn locked_after_exit(implementation: Implementation) -> Vec<u32> {
    let mut bench = Bench::new(implementation, 256);
    let statuses = [bench.register(&locked_now("")), bench.call(&Call::Exit)];
    [&statuses[..], &[bench.delete("A"), bench.set("A", &[1])]].concat()
}

/// Of each of two rebuilds the highest status, and 1 if the state is as it was; then a dump and an exit.
fn rebuilt_after_exit(implementation: Implementation) -> Vec<u32> {
    let (mut bench, entries) = (Bench::new(implementation, 256), [locked_now("A#"), entry("B")]);
    assert_eq!(entries.each_ref().map(|fields| bench.register(fields)), [0, 0]);
    assert_eq!([bench.set("B", &[1]), bench.set_with("C", 6, &[2])], [0, 0]);
    let dump = Call::Dump { buffer: vec![0; 200] };
    assert_eq!([&dump, &Call::Lock, &Call::Exit].map(|call| bench.call(call)), [0, 0, 0]);
    let before = bench.state.clone();
    let registrations = entries.map(|fields| Call::Register { entry: fields.pack() });
    let mut rebuild = || {
        let restart = [Call::Restart { disabling_allowed: 1 }];
        let calls = restart.iter().chain(&registrations).chain(&[Call::Lock, Call::Exit]);
        let highest = calls.map(|call| bench.call(call)).max();
        [highest.unwrap_or(0), u32::from(bench.state == before)]
    };
    let rebuilt = [rebuild(), rebuild()].concat();
    [&rebuilt[..], &[bench.call(&dump), bench.call(&Call::Exit)]].concat()
}

fn trigger_after_exit(implementation: Implementation) -> Vec<u32> {
    let mut bench = Bench::new(implementation, 256);
    assert_eq!(bench.register(&entry("A").with_trigger(G, &units("T"), 1)), 0);
    assert_eq!([bench.set_with("T", 2, &[1]), bench.call(&Call::Exit)], [0, 0]);
    let [status, ground, ..] = bench.report("A", 7, &[1]);
    vec![bench.read("T"), status, ground, bench.delete("T")]
}

fn starts_after_exit(implementation: Implementation) -> Vec<u32> {
    let mut bench = Bench::new(implementation, 256);
    assert_eq!(bench.call(&Call::Exit), 0);
    bench.state.volatile[0] = 0;
    let restart = implementation(&mut bench.state, &Call::Restart { disabling_allowed: 1 });
    let Values::Started(handed) = restart.values else {
        panic!("a start hands back switches");
    };
    let later = [Call::Lock, Call::PowerOn { disabling_allowed: 1 }, Call::Lock].map(|call| bench.call(&call));
    [&[restart.status.number(), handed.exited.into()], &later[..]].concat()
}

fn stray_exited(implementation: Implementation) -> Vec<u32> {
    let answers = [2, 0x80, 0xFF].map(|exited| {
        let mut bench = Bench::new(implementation, 256);
        assert_eq!(bench.set("A", &[1]), 0);
        bench.state.switches.exited = exited;
        let calls = [Call::Exit, Call::Dump { buffer: vec![0; 100] }, Call::Lock, Call::Disable];
        [&calls.map(|call| bench.call(&call))[..], &[bench.read("A")]].concat()
    });
    answers.concat()
}

fn reports(implementation: Implementation) -> Vec<u32> {
    let mut bench = Bench::new(implementation, 256);
    let asking = EntryFields { max_size: 2, must_have: 5, cant_have: 0x40, ..locked_now("A#") };
    assert_eq!([entry("B"), asking].map(|fields| bench.register(&fields)), [0, 0]);
    let refused = [
        bench.report("A0", 2, &[1; 3]),
        bench.report("A0", 2, &[1]),
        bench.report("A0", 0x47, &[1]),
        bench.report("A0", 0x42, &[1]),
        bench.report("A0", 7, &[1]),
        bench.report("A0", 3, &[]),
        bench.report("A0", 8, &[1]),
    ];
    let granted = bench.report("B", 3, &[1]);
    assert_eq!(bench.call(&Call::Disable), 0);
    [refused.as_flattened(), &granted, &bench.report("A0", 2, &[1])].concat()
}

fn required_bit(implementation: Implementation) -> Vec<u32> {
    report_of_whole(implementation, 0)
}

fn required_and_prohibited_bit(implementation: Implementation) -> Vec<u32> {
    report_of_whole(implementation, 2)
}

/// A set under a whole namespace that requires bit 31 and prohibits these.
fn report_of_whole(implementation: Implementation, cant_have: u32) -> Vec<u32> {
    let mut bench = Bench::new(implementation, 256);
    assert_eq!(bench.register(&EntryFields { must_have: 0x8000_0000, cant_have, ..entry("") }), 0);
    bench.report("A", 3, &[1]).to_vec()
}

fn on_create(name: &str) -> EntryFields {
    EntryFields { lock_type: 2, ..entry(name) }
}

/// An entry that is locked while the trigger holds 0.
fn on_state(name: &str, trigger: &str) -> EntryFields {
    entry(name).with_trigger(G, &units(trigger), 0)
}

fn settled_free(implementation: Implementation) -> Vec<u32> {
    let mut bench = Bench::new(implementation, 256);
    vec![bench.settled("A"), bench.register(&entry("A")), bench.settled("A")]
}

fn settled_whole(implementation: Implementation) -> Vec<u32> {
    let mut bench = Bench::new(implementation, 256);
    let registered = bench.register(&locked_now(""));
    vec![registered, bench.settled("A"), bench.settled(""), bench.settled_in(chains::ELSEWHERE, "A")]
}

fn settled_on_create(implementation: Implementation) -> Vec<u32> {
    let mut bench = Bench::new(implementation, 256);
    vec![bench.register(&on_create("A")), bench.settled("A"), bench.set("A", &[1]), bench.settled("A")]
}

fn settled_on_state(implementation: Implementation) -> Vec<u32> {
    let mut bench = Bench::new(implementation, 256);
    let registered = [on_state("A", "T"), on_create("T")].map(|fields| bench.register(&fields));
    let answers = [bench.settled("A"), bench.set("T", &[0]), bench.settled("A"), bench.settled("T")];
    [&registered[..], &answers].concat()
}

fn settled_by_payload(implementation: Implementation) -> Vec<u32> {
    let payloads: [&[u8]; 2] = [&[1], &[0, 0]];
    let answers = payloads.map(|payload| {
        let mut bench = Bench::new(implementation, 256);
        assert_eq!([on_state("A", "T"), on_create("T")].map(|fields| bench.register(&fields)), [0, 0]);
        [bench.set("T", payload), bench.settled("A")]
    });
    answers.concat()
}

fn settled_by_free_trigger(implementation: Implementation) -> Vec<u32> {
    let mut bench = Bench::new(implementation, 256);
    let held = [bench.register(&on_state("A", "T")), bench.set("T", &[0]), bench.set("A", &[1]), bench.settled("A")];
    [&held[..], &[bench.set("T", &[1]), bench.set("A", &[1])]].concat()
}

fn settled_by_itself(implementation: Implementation) -> Vec<u32> {
    let mut bench = Bench::new(implementation, 256);
    vec![bench.register(&on_state("A", "A")), bench.set("A", &[0]), bench.set("A", &[0]), bench.settled("A")]
}

/// The second is registered behind the sets: before it the one would lock the other.
fn settled_round(implementation: Implementation) -> Vec<u32> {
    let mut bench = Bench::new(implementation, 256);
    let first = [bench.register(&on_state("A", "T")), bench.set("A", &[0]), bench.set("T", &[0])];
    let second = [bench.register(&on_state("T", "A")), bench.set("A", &[1]), bench.set("T", &[1])];
    [&first[..], &second, &["A", "T"].map(|name| bench.settled(name))].concat()
}

fn settled_two_links(implementation: Implementation) -> Vec<u32> {
    let mut bench = Bench::new(implementation, 256);
    let entries = [on_state("A", "T"), on_state("T", "U"), on_create("U")];
    let registered = entries.map(|fields| bench.register(&fields));
    let answers = ["T", "U"].map(|name| [bench.set(name, &[0]), bench.settled("A")]);
    [&registered[..], answers.as_flattened()].concat()
}

fn settled_not_locked(implementation: Implementation) -> Vec<u32> {
    let mut bench = Bench::new(implementation, 256);
    let before = [bench.register(&locked_now("")), bench.settled("A")];
    [&before[..], &[bench.register(&entry("A")), bench.settled("A"), bench.set("A", &[1])]].concat()
}

fn settled_not_enabled(implementation: Implementation) -> Vec<u32> {
    let mut bench = Bench::new(implementation, 256);
    let closed = [bench.register(&locked_now("A")), bench.call(&Call::Disable), bench.call(&Call::Lock)];
    [&closed[..], &[bench.settled("A"), bench.set("A", &[1])]].concat()
}

fn settled_restarted(implementation: Implementation) -> Vec<u32> {
    let mut bench = Bench::new(implementation, 256);
    let before = [bench.register(&locked_now("A")), bench.call(&Call::Lock), bench.settled("A")];
    let restart = bench.call(&Call::Restart { disabling_allowed: 1 });
    [&before[..], &[restart, bench.settled("A"), bench.set("A", &[1])]].concat()
}

fn settled_by_locked_trigger(implementation: Implementation) -> Vec<u32> {
    settled_behind(implementation, 3, &locked_now("T"))
}

fn settled_by_volatile_trigger(implementation: Implementation) -> Vec<u32> {
    settled_behind(implementation, 2, &on_create("T"))
}

/// Of A and its trigger T, which is set with these attributes and then gets this entry.
fn settled_behind(implementation: Implementation, attributes: u32, of_trigger: &EntryFields) -> Vec<u32> {
    let mut bench = Bench::new(implementation, 256);
    let set = bench.set_with("T", attributes, &[0]);
    let registered = [of_trigger, &on_state("A", "T")].map(|fields| bench.register(fields));
    [&[set], &registered[..], &["A", "T"].map(|name| bench.settled(name))].concat()
}

fn settled_absent_trigger(implementation: Implementation) -> Vec<u32> {
    let mut bench = Bench::new(implementation, 256);
    let registered = [on_state("A", "T"), locked_now("T")].map(|fields| bench.register(&fields));
    [&registered[..], &[bench.set("T", &[0]), bench.settled("A"), bench.settled("T")]].concat()
}

fn settled_after_exit(implementation: Implementation) -> Vec<u32> {
    let mut bench = Bench::new(implementation, 256);
    let before = [bench.register(&on_state("A", "T")), bench.set("T", &[0]), bench.register(&on_create("T"))];
    let closed = [Call::Lock, Call::Exit].map(|call| bench.call(&call));
    [&before[..], &closed, &[bench.settled("A"), bench.read("T")]].concat()
}

/// Of each number of links the answers for an end of type 2, of type 1 and without an entry.
fn settled_chains(implementation: Implementation) -> Vec<u32> {
    let named = |number: usize| format!("V{number:02}");
    let answers = (0..=20).flat_map(|links| {
        [Some(2), Some(1), None].map(|lock_type| {
            let mut bench = Bench::new(implementation, 1024);
            let set: Vec<u32> = (0..=links).map(|number| bench.set(&named(number), &[1])).collect();
            let last = lock_type.map(|lock_type| EntryFields { lock_type, ..chains::entry(links) });
            let entries: Vec<EntryFields> = chains::links(links).into_iter().chain(last).collect();
            let registered: Vec<u32> = entries.iter().map(|fields| bench.register(fields)).collect();
            assert!(set.iter().chain(&registered).all(|status| *status == 0));
            bench.settled("V00")
        })
    });
    answers.collect()
}

fn forty_bytes(implementation: Implementation) -> Vec<u32> {
    [4, 5].map(|len| Bench::new(implementation, 40).set("A", &vec![1; len])).to_vec()
}

fn full_record(implementation: Implementation) -> Vec<u32> {
    filled(implementation, &[vec![322; 50], vec![284]].concat())
}

fn most_entries(implementation: Implementation) -> Vec<u32> {
    filled(implementation, &[44; 128])
}

/// The highest status of entries of these sizes, the sum of the sizes, and the status of one more entry.
fn filled(implementation: Implementation, sizes: &[usize]) -> Vec<u32> {
    let mut bench = Bench::new(implementation, 256);
    let mut register = |size: usize, number: usize| bench.call(&Call::Register { entry: entry_of_size(size, number) });
    let highest = sizes.iter().enumerate().map(|(number, size)| register(*size, number)).max();
    let sum: usize = sizes.iter().sum();
    vec![highest.unwrap_or(0), sum as u32, register(44, sizes.len())]
}

fn former_length(implementation: Implementation) -> Vec<u32> {
    let mut bench = Bench::new(implementation, 256);
    bench.state.policy = Guarded::new(&[0; 8192], 3);
    let power_on = bench.call(&Call::PowerOn { disabling_allowed: 1 });
    let restart = bench.call(&Call::Restart { disabling_allowed: 1 });
    let register = bench.register(&entry("A"));
    let dump = bench.call(&Call::Dump { buffer: vec![0; 8192] });
    vec![power_on, restart, register, dump, bench.set("A", &[1])]
}

/// An engine that is lent a policy record with one entry, "A" of type 3 with this trigger.
fn lent(implementation: Implementation, trigger: &str) -> Bench {
    let mut bench = Bench::new(implementation, 256);
    let record = packed(&[entry("A").with_trigger(G, &units(trigger), 0).pack()]);
    bench.state.policy = Guarded::new(&record, 3);
    bench
}

fn record_with_trigger(implementation: Implementation) -> Vec<u32> {
    let answers = ["A#", "A0"].map(|trigger| {
        let register = lent(implementation, trigger).register(&entry("B"));
        let dump = lent(implementation, trigger).call(&Call::Dump { buffer: vec![0; 100] });
        [register, dump, lent(implementation, trigger).set("A", &[1])]
    });
    answers.concat()
}

fn start_over_sign(implementation: Implementation) -> Vec<u32> {
    let starts = [Call::PowerOn { disabling_allowed: 1 }, Call::Restart { disabling_allowed: 1 }];
    let answers = starts.map(|start| {
        let mut bench = lent(implementation, "A#");
        let status = bench.call(&start);
        [status, u32::from(*bench.state.policy == [0; POLICY_BYTES])]
    });
    answers.concat()
}

/// The status, the length, and 1 if the bytes are the expected ones, later bytes untouched.
fn whole_dump(implementation: Implementation) -> Vec<u32> {
    const DUMP: &str = "00 00 01 00 2C 00 2C 00 G 00 00 00 00 FF FF FF FF 00 00 00 00 00 00 00 00 01 00 00 00 \
                        00 00 01 00 32 00 2C 00 G 00 00 00 00 FF FF FF FF 00 00 00 00 00 00 00 00 00 00 00 00 \
                        41 00 23 00 00 00";
    let mut expected: Vec<u8> = Vec::new();
    for word in DUMP.split(' ') {
        match word {
            "G" => expected.extend(G),
            digits => expected.push(u8::from_str_radix(digits, 16).expect("two hex digits")),
        }
    }
    expected.resize(100, 0x77);
    let mut bench = Bench::new(implementation, 256);
    assert_eq!(bench.register(&locked_now("")), 0);
    assert_eq!(bench.register(&entry("A#")), 0);
    let answer = implementation(&mut bench.state, &Call::Dump { buffer: vec![0x77; 100] });
    let Values::Dumped { length, buffer } = answer.values else {
        return vec![answer.status.number()];
    };
    vec![answer.status.number(), length as u32, u32::from(buffer == expected)]
}

/// The status, and of a pair the places and the name.
fn told(asked: &Asked) -> String {
    let Quarrelled { status, found, earlier, later, name_length } = asked.answer;
    if !found {
        return format!("[{}]", status.number());
    }
    let units = asked.buffer[..name_length].chunks_exact(2).map(|unit| u16::from_le_bytes([unit[0], unit[1]]));
    format!("[{}, {earlier}, {later}] `{}`", status.number(), String::from_utf16_lossy(&units.collect::<Vec<u16>>()))
}

/// Whether these are the last lines, and all of them where they are numbered from 0.
fn ends_with(lines: &[String], expected: &[&str]) -> bool {
    let all = expected.len() == 1 || expected[0].starts_with("0 ");
    let end = lines.get(lines.len().wrapping_sub(expected.len())..);
    end.is_some_and(|end| end == expected) && (!all || lines.len() == expected.len())
}

/// The dump of two entries.
fn two_entries() -> Vec<u8> {
    [locked_now(""), entry("A#")].iter().flat_map(EntryFields::pack).collect()
}

/// That dump with another byte at this place.
fn with_byte(place: usize, byte: u8) -> Vec<u8> {
    let mut dump = two_entries();
    dump[place] = byte;
    dump
}

fn first_twice() -> Vec<u8> {
    let dump = two_entries();
    [&dump[..44], &dump].concat()
}

fn dump(entries: &[EntryFields]) -> Vec<u8> {
    entries.iter().flat_map(EntryFields::pack).collect()
}

/// The dump of entries of these names that never lock.
fn free(names: &[&str]) -> Vec<u8> {
    names.iter().flat_map(|name| entry(name).pack()).collect()
}

fn two_namespaces() -> Vec<u8> {
    let mut other = G;
    other[15] += 1;
    dump(&[entry("A#"), EntryFields { namespace: other, ..entry("#A") }])
}

/// `A#` with this trigger, and `#A`.
fn triggered(trigger: &str) -> Vec<u8> {
    dump(&[entry("A#").with_trigger(G, &units(trigger), 0), entry("#A")])
}

/// `A` and 62 times `0` and `A`.
const LONGEST_NAME: &str = "A00000000000000000000000000000000000000000000000000000000000000A";

fn longest_names() -> Vec<u8> {
    let signs = "#".repeat(63);
    free(&[&format!("A{signs}"), &format!("{signs}A")])
}

fn last_places() -> Vec<u8> {
    [entries_of_size(44, 126).concat(), free(&["A#", "#A"])].concat()
}
