//! Why a call was refused, as a sentence: what stands behind its status (docs/RULES.md, 9 and 10), found in what the call
//! was lent and given, which it left as it was. Why a variable is settled or not, as the lines of a chain.

mod chain;
mod choice;
mod dump;
mod entry;
mod set;

use crate::describe;
use varpolicy::calls;
use varpolicy::{MAX_ENTRIES, MAX_NAME_UNITS, MAX_STORE_BYTES, Namespace, POLICY_BYTES, Status, SwitchBytes, Switches};

pub use chain::{Chains, lasts, yes_or_no};
pub use set::{Refusal, is_deletion};

/// Of every call that is lent a policy record and is no start.
const BAD_RECORD: &str = "the policy record is not valid";

/// Of a second exit.
pub const EXITED_ALREADY: &str = "the engine has exited already";

/// Of every other call that is not to be had after exit.
const EXITED: &str = "the operating system has started";

const ABSENT: &str = "the variable does not exist";
const HIDDEN: &str = "the variable has no RT, and the operating system has started";

/// The switches of an engine from which entries and variables can be had: a reason is looked for in them after exit too.
const OPEN: Switches = Switches { enabled: true, locked: false, disabling_allowed: false, exited: false };

/// Of a power-on, which takes any content of the volatile store.
pub fn power_on(nv: &[u8], volatile: &[u8]) -> String {
    let too_long = || too_long("volatile", volatile);
    bad_nv(nv).or_else(too_long).unwrap_or_default()
}

/// Of a restart.
pub fn restart(nv: &[u8], volatile: &[u8]) -> String {
    bad_stores(nv, volatile).unwrap_or_default()
}

/// Of a registration that was answered so.
pub fn register(status: Status, policy: &[u8], entry: &[u8]) -> String {
    let mut buffer = vec![0; POLICY_BYTES];
    let length = calls::dump(policy, OPEN, &mut buffer).length;
    let entries = describe::split(&buffer[..length]);
    match status {
        Status::Unsupported => EXITED.to_string(),
        Status::WriteProtected => "the engine is locked".to_string(),
        Status::InvalidParameter => entry::defect(entry).unwrap_or_default(),
        Status::AlreadyStarted => {
            let target = |bytes: &[u8]| (describe::fields(bytes).namespace, describe::fields(bytes).name);
            let place = entries.iter().position(|known| target(known) == target(entry)).unwrap_or_default();
            format!("entry {place} has that namespace and name")
        }
        Status::OutOfResources if entries.len() == MAX_ENTRIES => format!("{MAX_ENTRIES} entries are the most"),
        Status::OutOfResources => {
            format!("{POLICY_BYTES} bytes are the most, and the entries would have {}", length + entry.len())
        }
        _ => BAD_RECORD.to_string(),
    }
}

/// Of a dump that was answered so and told no length.
pub fn dump(status: Status) -> &'static str {
    match status {
        Status::Unsupported => EXITED,
        _ => BAD_RECORD,
    }
}

/// Of a lock that was answered so.
pub fn lock(status: Status) -> &'static str {
    match status {
        Status::Unsupported => EXITED,
        _ => "the engine is locked already",
    }
}

/// Of bytes in which quarrels are looked for.
pub fn no_dump(bytes: &[u8]) -> String {
    format!("not a dump: {}", dump::fault(bytes).unwrap_or_default())
}

/// Of a disable that was answered so.
pub fn disable(status: Status, switches: SwitchBytes) -> &'static str {
    match status {
        Status::Unsupported => EXITED,
        Status::AlreadyStarted => "the engine is disabled already",
        _ if Switches::from(switches).locked => "the engine is locked",
        _ => "disabling is not allowed",
    }
}

/// Of a read that was answered so.
pub fn read(status: Status, nv: &[u8], volatile: &[u8], namespace: &Namespace, name: &[u8]) -> String {
    match status {
        Status::InvalidParameter => bad_name(name),
        Status::NotFound => not_found(nv, volatile, namespace, name).to_string(),
        _ => bad_stores(nv, volatile).unwrap_or_default(),
    }
}

/// Of a variable that was asked of, and was answered so.
pub fn settled(status: Status, nv: &[u8], volatile: &[u8], name: &[u8]) -> String {
    match status {
        Status::InvalidParameter => bad_name(name),
        _ => bad_stores(nv, volatile).unwrap_or(BAD_RECORD.to_string()),
    }
}

/// Of a variable that is not found: there is none, or one that is hidden after exit.
fn not_found(nv: &[u8], volatile: &[u8], namespace: &Namespace, name: &[u8]) -> &'static str {
    match calls::read(nv, volatile, OPEN, namespace, name).status {
        Status::Success => HIDDEN,
        _ => ABSENT,
    }
}

/// What is wrong with the stores, if anything is.
fn bad_stores(nv: &[u8], volatile: &[u8]) -> Option<String> {
    let bad_volatile =
        || too_long("volatile", volatile).or_else(|| unsound(&[], volatile, "the volatile store is not sound"));
    bad_nv(nv).or_else(bad_volatile).or_else(|| unsound(nv, volatile, "one variable stands in both stores"))
}

/// What is wrong with the non-volatile store by itself, if anything is.
fn bad_nv(nv: &[u8]) -> Option<String> {
    too_long("non-volatile", nv).or_else(|| unsound(nv, &[], "the non-volatile store is not sound"))
}

fn too_long(kind: &str, store: &[u8]) -> Option<String> {
    let words = || format!("{MAX_STORE_BYTES} bytes are the most, and the {kind} store has {}", store.len());
    (store.len() > MAX_STORE_BYTES).then(words)
}

/// These words, if the pair is not sound.
fn unsound(nv: &[u8], volatile: &[u8], words: &str) -> Option<String> {
    let status = calls::read(nv, volatile, OPEN, &[0; 16], b"A\0").status;
    (status == Status::VolumeCorrupted).then(|| words.to_string())
}

/// What is wrong with the bytes of a name in a request.
fn bad_name(name: &[u8]) -> String {
    match name.len() {
        0 => "the name is empty".to_string(),
        odd if odd % 2 == 1 => format!("the name has {}, an odd number", describe::count(odd)),
        bytes if bytes / 2 > MAX_NAME_UNITS => {
            format!("{MAX_NAME_UNITS} units are the most, and the name has {}", bytes / 2)
        }
        _ => "the name has a zero unit".to_string(),
    }
}

#[cfg(test)]
mod tests {
    use crate::command::Parser;
    use crate::simulation::Simulation;

    /// What a line answers, on stores of 1,280 and 64 bytes, behind a power-on and lines that are granted.
    pub(super) fn told(before: &[&str], line: &str) -> String {
        let (mut parser, mut simulation) = (Parser::default(), Simulation::default());
        let mut run = |line: &str| {
            let command = parser.parse(line).expect(line);
            simulation.run(command, parser.namespaces()).expect(line)
        };
        let start = ["namespace G 5C67D181F686DF48BD959A6E4F0925C3", "stores 1280 64", "power-on allow-disable"];
        for line in start.iter().chain(before) {
            let granted = |answer: &str| answer.starts_with("SUCCESS") || answer == "written";
            assert!(run(line).is_none_or(|answer| granted(&answer)), "{line}");
        }
        run(line).expect("a call")
    }

    const POWER_ON: &str = "power-on allow-disable";
    const REFUSED_START: &str = "; handed back: enabled, locked, disabling not allowed";

    #[test]
    fn a_start_tells_which_store() {
        let refused = |what: &str| format!("VOLUME_CORRUPTED {what}{REFUSED_START}");
        let bad_nv = refused("the non-volatile store is not sound");
        assert_eq!(told(&["poke nv 0 00"], POWER_ON), bad_nv);
        assert_eq!(told(&["poke nv 0 00"], "restart"), bad_nv);
        assert!(told(&["poke volatile 0 00"], POWER_ON).starts_with("SUCCESS"));
        assert_eq!(told(&["poke volatile 0 00"], "restart"), refused("the volatile store is not sound"));
        assert_eq!(
            told(&["poke volatile 0 00"], "rebuild"),
            "restart VOLUME_CORRUPTED the volatile store is not sound"
        );
        let long = |kind: &str| refused(&format!("32768 bytes are the most, and the {kind} store has 32769"));
        for start in [POWER_ON, "restart"] {
            assert_eq!(told(&["stores 32769 0"], start), long("non-volatile"));
            assert_eq!(told(&["stores 0 32769"], start), long("volatile"));
        }
    }

    #[test]
    fn a_registration_tells_its_ground() {
        let entry = "register G \"A\"";
        assert_eq!(told(&["poke policy 16383 01", "lock"], entry), "VOLUME_CORRUPTED the policy record is not valid");
        assert_eq!(told(&[entry, "lock"], entry), "WRITE_PROTECTED the engine is locked");
        let malformed = "INVALID_PARAMETER the trigger's name has a '#'";
        assert_eq!(told(&[], "register G \"A\" lock=on-state trigger=G:\"T#\" value=01"), malformed);
        let same = "ALREADY_STARTED entry 1 has that namespace and name";
        assert_eq!(told(&["register G *", entry], "register G \"A\" max=3"), same);
        let whole = "ALREADY_STARTED entry 0 has that namespace and name";
        assert_eq!(told(&["register G *", entry], "register G * lock=now"), whole);
    }

    /// Registers so many entries with names of this many units, and one more.
    fn one_more(count: usize, units: usize) -> String {
        let lines: Vec<String> = (0..=count).map(|number| format!("register G \"{number:0units$}\"")).collect();
        let lines: Vec<&str> = lines.iter().map(String::as_str).collect();
        told(&lines[..count], lines[count])
    }

    #[test]
    fn a_registration_tells_the_limit() {
        assert_eq!(one_more(128, 3), "OUT_OF_RESOURCES 128 entries are the most");
        let sum = "OUT_OF_RESOURCES 16384 bytes are the most, and the entries would have 16530";
        assert_eq!(one_more(94, 64), sum);
    }

    #[test]
    fn a_dump_and_the_switches_tell_their_grounds() {
        let bad = "VOLUME_CORRUPTED the policy record is not valid";
        assert_eq!(told(&["poke policy 0 01"], "dump"), bad);
        assert_eq!(told(&["poke policy 0 01"], "rebuild"), format!("dump {bad}"));
        assert_eq!(told(&["poke policy 0 01"], "quarrels"), format!("dump {bad}"));
        assert_eq!(told(&["lock"], "lock"), "WRITE_PROTECTED the engine is locked already");
        assert_eq!(told(&["disable", "lock"], "disable"), "ALREADY_STARTED the engine is disabled already");
        assert_eq!(told(&["lock"], "disable"), "WRITE_PROTECTED the engine is locked");
        assert_eq!(told(&["power-on"], "disable"), "WRITE_PROTECTED disabling is not allowed");
    }

    #[test]
    fn after_exit_a_call_tells_that_the_system_has_started() {
        let exited = "UNSUPPORTED the operating system has started";
        for line in ["register G \"A\"", "register raw", "dump", "dump 0", "lock", "disable"] {
            assert_eq!(told(&["exit"], line), exited, "{line}");
            assert_eq!(told(&["register G \"A\"", "disable", "lock", "exit"], line), exited, "{line}");
        }
        for line in ["quarrels", "feed-dump"] {
            assert_eq!(told(&["exit"], line), format!("dump {exited}"));
        }
        for line in ["register G \"A\"", "dump"] {
            let bad = "VOLUME_CORRUPTED the policy record is not valid";
            assert_eq!(told(&["exit", "poke policy 16383 01"], line), bad, "{line}");
        }
        assert_eq!(told(&["exit"], "exit"), "UNSUPPORTED the engine has exited already");
    }

    #[test]
    fn an_exit_is_shown_until_a_start() {
        assert_eq!(told(&["exit"], "state"), "SUCCESS enabled, exited");
        assert_eq!(told(&["disable", "lock", "exit"], "state"), "SUCCESS disabled, exited");
        for start in [POWER_ON, "restart"] {
            assert_eq!(told(&["exit", start], "state"), "SUCCESS enabled");
            let goes_on = "; the engine goes on with its own, exited among them";
            let refused = format!("VOLUME_CORRUPTED the non-volatile store is not sound{REFUSED_START}{goes_on}");
            assert_eq!(told(&["exit", "poke nv 0 00"], start), refused);
        }
    }

    #[test]
    fn a_rebuild_after_exit_tells_its_dump() {
        let entries = ["register G \"A#\"", "register G \"#B\""];
        let rebuilt = |before: &[&str], line: &str| told(&[&entries[..], before].concat(), line);
        let made = "SUCCESS restart, 2 registered, lock, exit; from";
        let (last, made_for_it) = ("the last dump, which is complete", "a dump that was made just before exit");
        assert_eq!(rebuilt(&["lock", "exit"], "rebuild"), format!("{made} {made_for_it}"));
        assert_eq!(rebuilt(&["dump", "lock", "exit", "rebuild"], "rebuild"), format!("{made} {last}"));
        assert_eq!(rebuilt(&["dump", "rebuild reverse", "lock", "exit"], "rebuild"), format!("{made} {last}"));
        let changed =
            "; entries 0 and 1 of equal rank both target G \"AB\" and changed places: later answers may differ";
        assert_eq!(rebuilt(&["dump", "lock", "exit"], "rebuild reverse"), format!("{made} {last}{changed}"));
        let outdated = ["dump", "restart", "register G \"C\"", "exit"];
        let one = "SUCCESS restart, 1 registered, exit; from a dump that was made just before exit";
        assert_eq!(rebuilt(&outdated, "rebuild"), one);
        let none = "dump UNSUPPORTED the operating system has started";
        assert_eq!(rebuilt(&["dump", "exit", "poke policy 16383 00"], "rebuild"), none);
        let old = ["disable", "dump", "lock", "exit", "rebuild"];
        assert_eq!(rebuilt(&old, "state"), "SUCCESS disabled, exited");
        assert_eq!(
            rebuilt(&old, "rebuild"),
            format!("SUCCESS restart, 2 registered, disable, lock, exit; from {last}")
        );
    }

    #[test]
    fn a_read_tells_its_ground() {
        assert_eq!(told(&[], "read G \"A\""), "NOT_FOUND the variable does not exist");
        assert_eq!(told(&[], "read G hex:410000"), "INVALID_PARAMETER the name has 3 bytes, an odd number");
        let unsound = "VOLUME_CORRUPTED the non-volatile store is not sound";
        assert_eq!(told(&["poke nv 0 00"], "read G \"\""), unsound);
        let hidden = "NOT_FOUND the variable has no RT, and the operating system has started";
        for set in ["set G \"A\" NV|BS 00", "set G \"A\" BS 00"] {
            assert_eq!(told(&[set, "exit"], "read G \"A\""), hidden);
            assert_eq!(told(&[set, "exit"], "read G \"B\""), "NOT_FOUND the variable does not exist");
        }
        assert_eq!(told(&["set G \"A\" BS|RT 00", "exit"], "read G \"A\""), "SUCCESS BS|RT, 1 byte: 00");
        assert_eq!(told(&["exit", "poke nv 0 00"], "read G \"A\""), unsound);
    }
}
