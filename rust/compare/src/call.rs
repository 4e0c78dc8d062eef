//! One call of a history, as a value, and what it answers; run by the library or by the reference.

use crate::state::{Guarded, State};
use reference::{Fault, RegisterGround, SetGround};
use varpolicy::{Attributes, Namespace, Report, Status, SwitchBytes, calls};

/// A call with its own arguments. The state is lent beside it.
#[derive(Clone, Debug)]
#[allow(missing_docs)]
pub enum Call {
    PowerOn { disabling_allowed: u8 },
    Restart { disabling_allowed: u8 },
    Register { entry: Vec<u8> },
    Dump { buffer: Vec<u8> },
    Lock,
    Disable,
    Exit,
    Query,
    Read { namespace: Namespace, name: Vec<u8> },
    Set { namespace: Namespace, name: Vec<u8>, attributes: u32, payload: Vec<u8> },
    Settled { namespace: Namespace, name: Vec<u8> },
}

impl Call {
    /// The name of the call.
    pub fn name(&self) -> &'static str {
        match self {
            Call::PowerOn { .. } => "power-on",
            Call::Restart { .. } => "restart",
            Call::Register { .. } => "register",
            Call::Dump { .. } => "dump",
            Call::Lock => "lock",
            Call::Disable => "disable",
            Call::Exit => "exit",
            Call::Query => "query",
            Call::Read { .. } => "read",
            Call::Set { .. } => "set",
            Call::Settled { .. } => "settled",
        }
    }
}

/// What a call hands back.
#[derive(Clone, PartialEq, Eq, Debug)]
pub struct Answer {
    /// The status.
    pub status: Status,
    /// The values.
    pub values: Values,
}

/// The values beside a status.
#[derive(Clone, PartialEq, Eq, Debug)]
#[allow(missing_docs)]
pub enum Values {
    None,
    Started(SwitchBytes),
    Dumped { length: usize, buffer: Vec<u8> },
    State { enabled: bool },
    Found { attributes: u32, non_volatile: bool, offset: usize, payload: Vec<u8> },
    Written(Report),
    Settled { settled: bool },
}

/// Makes the call through the library.
pub fn by_library(state: &mut State, call: &Call) -> Answer {
    let State { nv, volatile, policy, switches } = state;
    match call {
        Call::PowerOn { disabling_allowed } => {
            let started = calls::power_on(nv, volatile, policy, *disabling_allowed);
            start(switches, started.status, started.switches)
        }
        Call::Restart { disabling_allowed } => {
            let started = calls::restart(nv, volatile, policy, *disabling_allowed);
            start(switches, started.status, started.switches)
        }
        Call::Register { entry } => plain(calls::register(policy, *switches, entry)),
        Call::Dump { buffer } => {
            let mut guarded = Guarded::new(buffer, 5);
            let dumped = calls::dump(policy, *switches, &mut guarded);
            assert!(guarded.is_intact(), "a dump has written outside of its buffer");
            let values = Values::Dumped { length: dumped.length, buffer: guarded.to_vec() };
            Answer { status: dumped.status, values }
        }
        Call::Lock => plain(calls::lock(switches)),
        Call::Disable => plain(calls::disable(switches)),
        Call::Exit => plain(calls::exit(switches)),
        Call::Query => {
            let (status, enabled) = calls::query(*switches);
            Answer { status, values: Values::State { enabled } }
        }
        Call::Read { namespace, name } => {
            let found = calls::read(nv, volatile, *switches, namespace, name);
            let values = Values::Found {
                attributes: found.attributes.0,
                non_volatile: found.non_volatile,
                offset: found.offset,
                payload: found.payload.to_vec(),
            };
            Answer { status: found.status, values }
        }
        Call::Set { namespace, name, attributes, payload } => {
            let request = calls::Request { namespace, name, attributes: Attributes(*attributes), payload };
            let written = calls::set(nv, volatile, policy, *switches, request);
            Answer { status: written.status, values: Values::Written(written.report) }
        }
        Call::Settled { namespace, name } => {
            let calls::Settled { status, settled } = calls::settled(nv, volatile, policy, namespace, name);
            Answer { status, values: Values::Settled { settled } }
        }
    }
}

/// What decided a call: the reference's ground for a registration or a set, what was found, or the status alone.
#[derive(Clone, Copy, PartialEq, Eq, PartialOrd, Ord, Debug)]
#[allow(missing_docs)]
pub enum Ground {
    Status,
    Register(RegisterGround),
    DisableLocked,
    DisableNotAllowed,
    QueryEnabled,
    QueryDisabled,
    ReadAbsent,
    ReadHidden,
    Set(SetGround),
    Settled,
    NotSettled,
    Quarrel,
    NoQuarrel,
    NoBytes,
    ManyBytes,
    Taken,
    BehindEnd,
    WholeDump,
    BadEntry(Fault),
}

/// Makes the call through the reference.
pub fn by_reference(state: &mut State, call: &Call) -> (Answer, Ground) {
    let State { nv, volatile, policy, switches } = state;
    let meant = to_reference(*switches).read();
    let mut ground = Ground::Status;
    let answer = match call {
        Call::PowerOn { disabling_allowed } => {
            let leave = reference::gives_leave(*disabling_allowed);
            let (status, handed) = reference::power_on(nv, volatile, policy, leave);
            start(switches, translate(status), from_reference(reference::SwitchBytes::of(handed)))
        }
        Call::Restart { disabling_allowed } => {
            let leave = reference::gives_leave(*disabling_allowed);
            let (status, handed) = reference::restart(nv, volatile, policy, leave);
            start(switches, translate(status), from_reference(reference::SwitchBytes::of(handed)))
        }
        Call::Register { entry } => {
            let decided = reference::register(policy, meant, entry);
            ground = Ground::Register(decided);
            plain(translate(decided.status()))
        }
        Call::Dump { buffer } => {
            let mut buffer = buffer.clone();
            let (status, length) = reference::dump(policy, meant, &mut buffer);
            Answer { status: translate(status), values: Values::Dumped { length, buffer } }
        }
        Call::Lock => plain(with_switches(switches, reference::lock)),
        Call::Disable => {
            let status = with_switches(switches, reference::disable);
            if status == Status::WriteProtected {
                ground = if meant.locked { Ground::DisableLocked } else { Ground::DisableNotAllowed };
            }
            plain(status)
        }
        Call::Exit => plain(with_switches(switches, reference::exit)),
        Call::Query => {
            let (status, enabled) = reference::query(meant);
            ground = if enabled { Ground::QueryEnabled } else { Ground::QueryDisabled };
            Answer { status: translate(status), values: Values::State { enabled } }
        }
        Call::Read { namespace, name } => {
            let (answer, decided) = read_by_reference(nv, volatile, meant, (namespace, name));
            ground = decided;
            answer
        }
        Call::Set { namespace, name, attributes, payload } => {
            let request = reference::Request { namespace, name, attributes: *attributes, payload };
            let (decided, report) = reference::set(nv, volatile, policy, meant, request);
            ground = Ground::Set(decided);
            Answer { status: translate(decided.status()), values: Values::Written(reported(report)) }
        }
        Call::Settled { namespace, name } => {
            let asked = reference::settled(nv, volatile, policy, namespace, name);
            ground = asked.map_or(Ground::Status, |settled| if settled { Ground::Settled } else { Ground::NotSettled });
            settled_by_reference(asked)
        }
    };
    (answer, ground)
}

/// A read by the reference. What is not found is absent, or there and hidden since exit.
fn read_by_reference(
    nv: &[u8],
    volatile: &[u8],
    switches: reference::Switches,
    (namespace, name): (&Namespace, &[u8]),
) -> (Answer, Ground) {
    let read = |switches| reference::read(nv, volatile, switches, namespace, name);
    match read(switches) {
        Ok(found) => {
            let non_volatile = found.kind == reference::Kind::NonVolatile;
            let reference::Found { attributes, offset, payload, .. } = found;
            let values = Values::Found { attributes, non_volatile, offset, payload };
            (Answer { status: Status::Success, values }, Ground::Status)
        }
        Err(status) => {
            let there = || read(reference::Switches { exited: false, ..switches }).is_ok();
            let ground = match status {
                reference::Status::NotFound if there() => Ground::ReadHidden,
                reference::Status::NotFound => Ground::ReadAbsent,
                _ => Ground::Status,
            };
            let values = Values::Found { attributes: 0, non_volatile: false, offset: 0, payload: Vec::new() };
            (Answer { status: translate(status), values }, ground)
        }
    }
}

/// The answer to whether a variable is settled. Beside a refusal it is no.
fn settled_by_reference(asked: Result<bool, reference::Status>) -> Answer {
    let (status, settled) = match asked {
        Ok(settled) => (Status::Success, settled),
        Err(status) => (translate(status), false),
    };
    Answer { status, values: Values::Settled { settled } }
}

/// An answer without values.
fn plain(status: Status) -> Answer {
    Answer { status, values: Values::None }
}

/// After a start that succeeded the history goes on with the switches handed back, else with its own.
fn start(switches: &mut SwitchBytes, status: Status, handed: SwitchBytes) -> Answer {
    if status == Status::Success {
        *switches = handed;
    }
    Answer { status, values: Values::Started(handed) }
}

/// The reference's status, as the library gives it.
pub fn translate(status: reference::Status) -> Status {
    Status::from_number(status as u32).expect("both have UEFI's numbers")
}

/// The reference's report, as the library gives it.
fn reported(report: reference::Report) -> Report {
    let reference::Report { ground, place, rank, missing, prohibited, lowest_bit } = report;
    let ground = varpolicy::Ground::from_number(ground as u32).expect("both have the numbers of the rules");
    Report { ground, place, rank, missing, prohibited, lowest_bit }
}

/// The bytes as the reference takes them.
pub fn to_reference(switches: SwitchBytes) -> reference::SwitchBytes {
    let SwitchBytes { enabled, locked, disabling_allowed, exited } = switches;
    reference::SwitchBytes { enabled, locked, disabling_allowed, exited }
}

fn from_reference(switches: reference::SwitchBytes) -> SwitchBytes {
    let reference::SwitchBytes { enabled, locked, disabling_allowed, exited } = switches;
    SwitchBytes { enabled, locked, disabling_allowed, exited }
}

fn with_switches(switches: &mut SwitchBytes, call: fn(&mut reference::Switches) -> reference::Status) -> Status {
    let lent = to_reference(*switches);
    let mut read = lent.read();
    let status = call(&mut read);
    *switches = from_reference(lent.moved_to(read));
    translate(status)
}
