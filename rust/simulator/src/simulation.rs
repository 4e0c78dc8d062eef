//! The state that a history keeps, and what each command does to it.

use crate::command::{Command, DumpOf, Expected, Order, Part};
use crate::reading::Reading;
use crate::reason::{self, Chains, Refusal};
use crate::{describe, quarrel};
use std::collections::BTreeMap;
use std::fmt::Display;
use varpolicy::calls::{self, Request, Settled, Started};
use varpolicy::{Attributes, Namespace, POLICY_BYTES, Quarrel, Status, SwitchBytes, Switches};

/// The four parts of `docs/RULES.md`, 1.2; and what is none of the engine's: a dump that is complete, if there is one,
/// and a reader.
pub struct Simulation {
    nv: Vec<u8>,
    volatile: Vec<u8>,
    policy: Vec<u8>,
    switches: SwitchBytes,
    complete: Option<Dump>,
    reading: Reading,
}

/// A dump that is complete (docs/RULES.md, 12.2), and what a rebuild tells of it if it was not made at once: after exit no
/// dump is granted, and a rebuild goes by one of before.
#[derive(Clone)]
struct Dump {
    bytes: Vec<u8>,
    told: Option<&'static str>,
}

/// Of a dump that the history made, and of one that was made for a rebuild only.
const LAST_DUMP: &str = "from the last dump, which is complete";
const MADE_FOR_IT: &str = "from a dump that was made just before exit";

/// The switches before the first power-on, which are those of a refused one.
const NOT_STARTED: SwitchBytes = SwitchBytes { enabled: 1, locked: 1, disabling_allowed: 0, exited: 0 };

impl Default for Simulation {
    fn default() -> Simulation {
        Simulation {
            nv: vec![0xFF; 4096],
            volatile: vec![0xFF; 4096],
            policy: vec![0; POLICY_BYTES],
            switches: NOT_STARTED,
            complete: None,
            reading: Reading::default(),
        }
    }
}

impl Simulation {
    /// Runs a command and tells the status with the values beside it; nothing for a definition.
    pub fn run(
        &mut self,
        command: Command,
        namespaces: &BTreeMap<String, Namespace>,
    ) -> Result<Option<String>, Expected> {
        let answer = match command {
            Command::Alias => return Ok(None),
            Command::Note(text) => text,
            Command::Stores { nv, volatile } => {
                let reading = std::mem::take(&mut self.reading);
                let (nv, volatile) = (vec![0xFF; nv], vec![0xFF; volatile]);
                *self = Simulation { nv, volatile, reading, ..Simulation::default() };
                return Ok(None);
            }
            Command::PowerOn { disabling_allowed } => {
                let started = calls::power_on(&self.nv, &mut self.volatile, &mut self.policy, disabling_allowed);
                self.started(started, reason::power_on)
            }
            Command::Restart { disabling_allowed } => {
                let started = calls::restart(&self.nv, &self.volatile, &mut self.policy, disabling_allowed);
                self.started(started, reason::restart)
            }
            Command::Register { entry } => self.register(&entry),
            Command::Set { namespace, name, attributes, payload } => {
                let request = Request { namespace: &namespace, name: &name, attributes, payload: &payload };
                let granted = if reason::is_deletion(&request) { "SUCCESS it was a deletion" } else { "SUCCESS" };
                self.set(request, granted, namespaces)
            }
            Command::Delete { namespace, name } => {
                let (attributes, payload) = (Attributes::NONE, &[]);
                self.set(Request { namespace: &namespace, name: &name, attributes, payload }, "SUCCESS", namespaces)
            }
            Command::Read { namespace, name } => self.read(&namespace, &name),
            Command::Settled { namespace, name } => self.settled(&namespace, &name, namespaces),
            Command::Dump { buffer } => self.dump(buffer, namespaces),
            Command::Quarrels(DumpOf::Given(bytes)) => quarrels(&bytes, namespaces),
            Command::Quarrels(DumpOf::Engine) => match self.complete_dump() {
                Ok(dump) => quarrels(&dump, namespaces),
                Err(refused) => refused,
            },
            Command::StartReader => {
                self.reading = Reading::default();
                Status::Success.to_string()
            }
            Command::Feed { piece } => self.reading.feed(&piece),
            Command::FeedDump { piece } => match self.complete_dump() {
                Ok(dump) => self.feed_dump(&dump, piece),
                Err(refused) => refused,
            },
            Command::List => self.list(),
            Command::Lock => answered(calls::lock(&mut self.switches), reason::lock),
            Command::Disable => {
                answered(calls::disable(&mut self.switches), |status| reason::disable(status, self.switches))
            }
            Command::Exit => self.exit(),
            Command::State => self.state(),
            Command::Rebuild(order) => match self.dump_to_rebuild() {
                Ok(dump) => self.rebuild(&dump, order, namespaces)?,
                Err(refused) => refused,
            },
            Command::Poke { part, at, bytes } => self.poke(part, at, &bytes)?,
        };
        Ok(Some(answer))
    }

    /// After a start that succeeded the engine goes on with the switches handed back, else with its own.
    fn started(&mut self, started: Started, reason: fn(&[u8], &[u8]) -> String) -> String {
        let Started { status, switches } = started;
        let handed_back = describe::switches(switches);
        if status != Status::Success {
            let goes_on = if self.has_exited() { "; the engine goes on with its own, exited among them" } else { "" };
            return format!("{status} {}; handed back: {handed_back}{goes_on}", reason(&self.nv, &self.volatile));
        }
        self.switches = switches;
        self.complete = None;
        format!("{status} {handed_back}")
    }

    fn register(&mut self, entry: &[u8]) -> String {
        let status = calls::register(&mut self.policy, self.switches, entry);
        if status == Status::Success {
            self.complete = None;
        }
        answered(status, |status| reason::register(status, &self.policy, entry))
    }

    /// Makes a set. Tells `granted` if it is, else the status and why.
    fn set(&mut self, request: Request, granted: &str, namespaces: &BTreeMap<String, Namespace>) -> String {
        let written = calls::set(&mut self.nv, &mut self.volatile, &self.policy, self.switches, request);
        match written.status {
            Status::Success => granted.to_string(),
            status => {
                let exited = self.has_exited();
                let Simulation { nv, volatile, policy, .. } = self;
                let refusal = Refusal { nv, volatile, policy, exited, request, written, namespaces };
                format!("{status} {}", refusal.reason())
            }
        }
    }

    fn read(&self, namespace: &Namespace, name: &[u8]) -> String {
        let found = calls::read(&self.nv, &self.volatile, self.switches, namespace, name);
        match found.status {
            Status::Success => format!("SUCCESS {}, {}", found.attributes, describe::payload(found.payload)),
            refused => answered(refused, |status| reason::read(status, &self.nv, &self.volatile, namespace, name)),
        }
    }

    /// Whether a variable is settled, and a line for each variable of its chain.
    fn settled(&self, namespace: &Namespace, name: &[u8], namespaces: &BTreeMap<String, Namespace>) -> String {
        let Simulation { nv, volatile, policy, .. } = self;
        let Settled { status, settled } = calls::settled(nv, volatile, policy, namespace, name);
        if status != Status::Success {
            return format!("{status} {}", reason::settled(status, nv, volatile, name));
        }
        let chain = Chains { nv, volatile, policy, namespaces }.lines(namespace, name, settled);
        let lasts = reason::lasts(self.switches.into()).filter(|_| settled);
        let told = format!("{status} {}", reason::yes_or_no(settled));
        chain.into_iter().chain(lasts).fold(told, |told, line| format!("{told}\n    {line}"))
    }

    fn dump(&mut self, buffer: usize, namespaces: &BTreeMap<String, Namespace>) -> String {
        let mut buffer = vec![0; buffer];
        let dumped = calls::dump(&self.policy, self.switches, &mut buffer);
        match dumped.status {
            Status::Success => {
                buffer.truncate(dumped.length);
                let entries = describe::entries(&buffer, namespaces);
                self.complete = Some(Dump { bytes: buffer, told: Some(LAST_DUMP) });
                format!("SUCCESS {} bytes{entries}", dumped.length)
            }
            Status::BufferTooSmall => format!("BUFFER_TOO_SMALL {} bytes needed", dumped.length),
            refused => answered(refused, reason::dump),
        }
    }

    /// Makes an exit. If the history has no complete dump, one is made before it, for a rebuild behind it.
    fn exit(&mut self) -> String {
        if self.complete.is_none() {
            self.complete = self.complete_dump().ok().map(|bytes| Dump { bytes, told: Some(MADE_FOR_IT) });
        }
        answered(calls::exit(&mut self.switches), |_| reason::EXITED_ALREADY)
    }

    fn has_exited(&self) -> bool {
        Switches::from(self.switches).exited
    }

    fn state(&self) -> String {
        let (status, enabled) = calls::query(self.switches);
        let exited = if self.has_exited() { ", exited" } else { "" };
        format!("{status} {}{exited}", if enabled { "enabled" } else { "disabled" })
    }

    /// The bytes of a dump that is made now, or the refusal, told.
    fn complete_dump(&self) -> Result<Vec<u8>, String> {
        let mut buffer = vec![0; POLICY_BYTES];
        let dumped = calls::dump(&self.policy, self.switches, &mut buffer);
        if dumped.status != Status::Success {
            return Err(format!("dump {}", answered(dumped.status, reason::dump)));
        }
        buffer.truncate(dumped.length);
        Ok(buffer)
    }

    /// A complete dump: one that is made now or, after exit, the one that is kept.
    fn dump_to_rebuild(&self) -> Result<Dump, String> {
        match &self.complete {
            Some(dump) if self.has_exited() => Ok(dump.clone()),
            _ => Ok(Dump { bytes: self.complete_dump()?, told: None }),
        }
    }

    /// Feeds the reader a dump in pieces of so many bytes.
    fn feed_dump(&mut self, dump: &[u8], piece: usize) -> String {
        let mut pieces = 0;
        for piece in dump.chunks(piece) {
            self.reading.feed(piece);
            pieces += 1;
        }
        let word = if pieces == 1 { "piece" } else { "pieces" };
        format!("SUCCESS {} in {pieces} {word}", describe::count(dump.len()))
    }

    /// A line for each good entry of what the reader was fed, and the closing line; of a bad entry also why.
    fn list(&self) -> String {
        let lines = self.reading.lines().into_iter().chain(self.reading.fault());
        lines.fold(Status::Success.to_string(), |told, line| format!("{told}\n    {line}"))
    }

    /// Makes the engine again over the same stores, with the entries of the dump as told.
    fn rebuild(
        &mut self,
        dump: &Dump,
        order: Order,
        namespaces: &BTreeMap<String, Namespace>,
    ) -> Result<String, Expected> {
        let entries = describe::split(&dump.bytes);
        let places = match order {
            Order::Kept => (0..entries.len()).collect(),
            Order::Reversed => (0..entries.len()).rev().collect(),
            Order::Places(places) => each_once(places, entries.len())?,
        };
        let mut made = match self.make_again(&entries, &places) {
            Ok(made) => format!("SUCCESS {made}"),
            Err(refused) => return Ok(refused),
        };
        if let Some(told) = dump.told {
            made += &format!("; {told}");
        }
        if let Some(Quarrel { earlier, later, name }) = quarrel::changed(&dump.bytes, &places) {
            let variable = describe::variable(&describe::fields(entries[later]).namespace, &name, namespaces);
            made += &format!(
                "; entries {earlier} and {later} of equal rank both target {variable} and changed places: \
                 later answers may differ"
            );
        }
        Ok(made)
    }

    /// The calls of a rebuild (docs/RULES.md, 12.3): a restart with the old disable setting, the entries at these places
    /// one after the other, then disable, lock and exit, each only if the old engine was. Tells what was made, or the
    /// first refusal, at which it stops.
    fn make_again(&mut self, entries: &[&[u8]], places: &[usize]) -> Result<String, String> {
        let old = Switches::from(self.switches);
        let started = calls::restart(&self.nv, &self.volatile, &mut self.policy, old.disabling_allowed);
        if started.status != Status::Success {
            return Err(format!("restart {}", answered(started.status, |_| reason::restart(&self.nv, &self.volatile))));
        }
        self.switches = started.switches;
        for &place in places {
            let status = calls::register(&mut self.policy, self.switches, entries[place]);
            status.ok().map_err(|refused| format!("register of entry {place} {refused}"))?;
        }
        let mut made = format!("restart, {} registered", entries.len());
        for (wanted, name, call) in [
            (!old.enabled, "disable", calls::disable as fn(&mut SwitchBytes) -> Status),
            (old.locked, "lock", calls::lock),
            (old.exited, "exit", calls::exit),
        ] {
            if wanted {
                call(&mut self.switches).ok().map_err(|refused| format!("{name} {refused}"))?;
                made += &format!(", {name}");
            }
        }
        Ok(made)
    }

    fn poke(&mut self, part: Part, at: usize, bytes: &[u8]) -> Result<String, Expected> {
        let lent = match part {
            Part::Nv => &mut self.nv,
            Part::Volatile => &mut self.volatile,
            Part::Policy => &mut self.policy,
        };
        let len = lent.len();
        match lent.get_mut(at..at + bytes.len()) {
            Some(place) => {
                place.copy_from_slice(bytes);
                if matches!(part, Part::Policy) {
                    // A dump of before may have other entries.
                    self.complete = None;
                }
                Ok("written".to_string())
            }
            None => Err(format!("expected bytes within the {len} that are lent")),
        }
    }
}

/// Whether two entries of a dump quarrel.
fn quarrels(dump: &[u8], namespaces: &BTreeMap<String, Namespace>) -> String {
    match varpolicy::quarrels(dump) {
        Ok(None) => format!("SUCCESS {}", quarrel::none(dump)),
        Ok(Some(pair)) => format!("SUCCESS {}", quarrel::pair(dump, &pair, namespaces)),
        Err(status) => format!("{status} {}", reason::no_dump(dump)),
    }
}

/// A status and, if it is a refusal, its reason.
fn answered<T: Display>(status: Status, reason: impl FnOnce(Status) -> T) -> String {
    match status {
        Status::Success => status.to_string(),
        refused => format!("{refused} {}", reason(refused)),
    }
}

/// These places, if each of the `count` entries is there once.
fn each_once(places: Vec<usize>, count: usize) -> Result<Vec<usize>, Expected> {
    let mut sorted = places.clone();
    sorted.sort_unstable();
    if sorted.into_iter().ne(0..count) {
        return Err(format!("expected each place of the {count} entries once, counted from 0"));
    }
    Ok(places)
}
