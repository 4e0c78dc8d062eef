//! The calls (docs/RULES.md, 10). What a call is lent stays as it was unless the call answers SUCCESS.

use crate::entry::{Entry, LockRule};
use crate::name;
use crate::policy::Policy;
use crate::report::Report;
use crate::store::{self, Kind, Pair, Variable};
use crate::switches::Switches;
use crate::{APPEND, BS, MAX_ENTRIES, MAX_PAYLOAD, MAX_STORE, NV, Namespace, POLICY_BYTES, RT, Status};

/// What a refused power-on or restart hands back.
const REFUSED: (Status, Switches) =
    (Status::VolumeCorrupted, Switches { enabled: true, locked: true, disabling_allowed: false, exited: false });

/// Power-on: wipes the volatile store and the policy record.
pub fn power_on(
    non_volatile: &[u8],
    volatile: &mut [u8],
    policy: &mut [u8],
    disabling_allowed: bool,
) -> (Status, Switches) {
    let sound = store::decode(non_volatile, Kind::NonVolatile).is_some();
    if !sound || volatile.len() > MAX_STORE || policy.len() != POLICY_BYTES {
        return REFUSED;
    }
    volatile.fill(0xFF);
    started(policy, disabling_allowed)
}

/// Restart: wipes the policy record and keeps both stores.
pub fn restart(non_volatile: &[u8], volatile: &[u8], policy: &mut [u8], disabling_allowed: bool) -> (Status, Switches) {
    if Pair::decode(non_volatile, volatile).is_none() || policy.len() != POLICY_BYTES {
        return REFUSED;
    }
    started(policy, disabling_allowed)
}

fn started(policy: &mut [u8], disabling_allowed: bool) -> (Status, Switches) {
    policy.fill(0);
    (Status::Success, Switches { enabled: true, locked: false, disabling_allowed, exited: false })
}

/// What decided a registration, in the order tested.
#[derive(Clone, Copy, PartialEq, Eq, PartialOrd, Ord, Debug)]
pub enum RegisterGround {
    /// The policy record is not valid (docs/RULES.md, 7).
    BadRecord,
    /// The operating system has started.
    Exited,
    /// The engine is locked.
    Locked,
    /// The entry is malformed.
    Malformed,
    /// An entry of the same namespace and name is registered.
    Repeated,
    /// As many entries as the limit are registered ([`MAX_ENTRIES`]).
    TooMany,
    /// The Sizes would sum to more than the limit ([`POLICY_BYTES`]).
    TooLong,
    /// Registered.
    Registered,
}

impl RegisterGround {
    /// The status that the ground gives.
    pub fn status(self) -> Status {
        match self {
            RegisterGround::BadRecord => Status::VolumeCorrupted,
            RegisterGround::Exited => Status::Unsupported,
            RegisterGround::Locked => Status::WriteProtected,
            RegisterGround::Malformed => Status::InvalidParameter,
            RegisterGround::Repeated => Status::AlreadyStarted,
            RegisterGround::TooMany | RegisterGround::TooLong => Status::OutOfResources,
            RegisterGround::Registered => Status::Success,
        }
    }
}

/// Registers an entry.
pub fn register(record: &mut [u8], switches: Switches, entry: &[u8]) -> RegisterGround {
    let Some(mut policy) = Policy::decode(record) else {
        return RegisterGround::BadRecord;
    };
    if switches.exited {
        return RegisterGround::Exited;
    }
    if switches.locked {
        return RegisterGround::Locked;
    }
    let Some(decoded) = Entry::decode(entry) else {
        return RegisterGround::Malformed;
    };
    if policy.holds(&decoded) {
        return RegisterGround::Repeated;
    }
    if policy.entries.len() == MAX_ENTRIES {
        return RegisterGround::TooMany;
    }
    policy.entries.push(decoded);
    let mut bytes = policy.encode();
    if bytes.len() > POLICY_BYTES {
        return RegisterGround::TooLong;
    }
    bytes.resize(POLICY_BYTES, 0);
    record.copy_from_slice(&bytes);
    RegisterGround::Registered
}

/// Dumps the entries: the status, and the length written or needed.
pub fn dump(record: &[u8], switches: Switches, buffer: &mut [u8]) -> (Status, usize) {
    let Some(policy) = Policy::decode(record) else {
        return (Status::VolumeCorrupted, 0);
    };
    if switches.exited {
        return (Status::Unsupported, 0);
    }
    let bytes = policy.encode();
    match buffer.get_mut(..bytes.len()) {
        None => (Status::BufferTooSmall, bytes.len()),
        Some(start) => {
            start.copy_from_slice(&bytes);
            (Status::Success, bytes.len())
        }
    }
}

/// Closes registration.
pub fn lock(switches: &mut Switches) -> Status {
    if switches.exited {
        return Status::Unsupported;
    }
    if switches.locked {
        return Status::WriteProtected;
    }
    switches.locked = true;
    Status::Success
}

/// Turns enforcement off.
pub fn disable(switches: &mut Switches) -> Status {
    if switches.exited {
        return Status::Unsupported;
    }
    if !switches.enabled {
        return Status::AlreadyStarted;
    }
    if switches.locked || !switches.disabling_allowed {
        return Status::WriteProtected;
    }
    switches.enabled = false;
    Status::Success
}

/// Says that the operating system has started.
pub fn exit(switches: &mut Switches) -> Status {
    if switches.exited {
        return Status::Unsupported;
    }
    switches.exited = true;
    Status::Success
}

/// Tells whether entries are enforced.
pub fn query(switches: Switches) -> (Status, bool) {
    (Status::Success, switches.enabled)
}

/// A variable that was read.
#[derive(Clone, PartialEq, Eq, Debug)]
pub struct Found {
    /// Its attributes.
    pub attributes: u32,
    /// The store that holds it.
    pub kind: Kind,
    /// Where its payload begins in that store.
    pub offset: usize,
    /// Its payload.
    pub payload: Vec<u8>,
}

/// Reads a variable. The name is the bytes of its units.
pub fn read(
    non_volatile: &[u8],
    volatile: &[u8],
    switches: Switches,
    namespace: &Namespace,
    name: &[u8],
) -> Result<Found, Status> {
    let pair = Pair::decode(non_volatile, volatile).ok_or(Status::VolumeCorrupted)?;
    let name = name::decode_request(name).ok_or(Status::InvalidParameter)?;
    let (kind, place, variable) = pair.find(namespace, &name).ok_or(Status::NotFound)?;
    if switches.exited && !variable.is_runtime() {
        return Err(Status::NotFound);
    }
    let before: usize = pair.of(kind)[..place].iter().map(Variable::record_len).sum();
    Ok(Found {
        attributes: variable.attributes,
        kind,
        offset: before + variable.payload_at(),
        payload: variable.payload.clone(),
    })
}

/// A request to set a variable.
#[derive(Clone, Copy, Debug)]
pub struct Request<'a> {
    /// Its namespace.
    pub namespace: &'a Namespace,
    /// The bytes of the units of its name.
    pub name: &'a [u8],
    /// The attributes, APPEND among them.
    pub attributes: u32,
    /// The payload.
    pub payload: &'a [u8],
}

impl Request<'_> {
    fn has(&self, attribute: u32) -> bool {
        self.attributes & attribute != 0
    }

    fn is_deletion(&self) -> bool {
        !self.has(APPEND) && (self.payload.is_empty() || !self.has(BS | RT))
    }

    /// Whether it may be made once the operating system has started, by its attributes.
    fn is_for_runtime(&self) -> bool {
        self.is_deletion() || [NV, BS, RT].into_iter().all(|attribute| self.has(attribute))
    }
}

/// What decided a set: the ground, named after the step (docs/RULES.md, 10.9) that it belongs to.
#[derive(Clone, Copy, PartialEq, Eq, PartialOrd, Ord, Debug)]
pub enum SetGround {
    /// Before all steps: a store is unsound.
    BadStores,
    /// Before all steps: the policy record is not valid (docs/RULES.md, 7).
    BadRecord,
    /// Step 1, the name.
    BadName,
    /// Step 1, the payload.
    LongPayload,
    /// Step 2.
    UnknownAttribute,
    /// Step 3.
    WithoutBootService,
    /// Step 3, after exit: no deletion, and without NV, BS or RT.
    NotForRuntime,
    /// Step 4, the payload as it would be afterwards shorter than MinSize.
    TooShort,
    /// Step 4, the payload as it would be afterwards longer than MaxSize.
    TooLong,
    /// Step 4, AttributesMustHave.
    AttributeMissing,
    /// Step 4, AttributesCantHave.
    AttributeProhibited,
    /// Step 4, lock of type 1.
    LockedNow,
    /// Step 4, lock of type 2.
    LockedOnCreate,
    /// Step 4, lock of type 3.
    LockedOnVarState,
    /// Step 5, nothing to delete.
    DeleteAbsent,
    /// Step 5, after exit: a variable without RT.
    DeleteHidden,
    /// Step 5, after exit: a variable with RT in the volatile store.
    DeleteVolatile,
    /// Step 5.
    Deleted,
    /// Step 6.
    OtherAttributes,
    /// Step 7.
    EmptyAppend,
    /// Step 8.
    AppendTooLong,
    /// Step 9.
    NoRoom,
    /// Step 10, a new variable.
    Created,
    /// Step 10, an existing one.
    Rewritten,
    /// Step 10, an append that creates.
    AppendCreated,
    /// Step 10, an append that joins.
    AppendJoined,
}

impl SetGround {
    /// The status that the ground gives.
    pub fn status(self) -> Status {
        use SetGround::*;
        match self {
            BadStores | BadRecord => Status::VolumeCorrupted,
            BadName | LongPayload | WithoutBootService => Status::InvalidParameter,
            UnknownAttribute => Status::Unsupported,
            NotForRuntime => Status::InvalidParameter,
            TooShort | TooLong | AttributeMissing | AttributeProhibited => Status::InvalidParameter,
            LockedNow | LockedOnCreate | LockedOnVarState => Status::WriteProtected,
            DeleteAbsent => Status::NotFound,
            DeleteHidden => Status::NotFound,
            DeleteVolatile => Status::WriteProtected,
            OtherAttributes => Status::InvalidParameter,
            AppendTooLong | NoRoom => Status::OutOfResources,
            Deleted | EmptyAppend | Created | Rewritten | AppendCreated | AppendJoined => Status::Success,
        }
    }
}

/// Sets, appends to or deletes a variable. Tells what decided it, and what step 4 said against it.
pub fn set(
    non_volatile: &mut [u8],
    volatile: &mut [u8],
    record: &[u8],
    switches: Switches,
    request: Request,
) -> (SetGround, Report) {
    let decided = carry_out(non_volatile, volatile, record, switches, request);
    (decided, Report::of(decided, record, &request))
}

/// The steps of a set, with what stands before them.
fn carry_out(
    non_volatile: &mut [u8],
    volatile: &mut [u8],
    record: &[u8],
    switches: Switches,
    request: Request,
) -> SetGround {
    let Some(mut pair) = Pair::decode(non_volatile, volatile) else {
        return SetGround::BadStores;
    };
    let Some(policy) = Policy::decode(record) else {
        return SetGround::BadRecord;
    };
    let name = match well_formed(&request, switches.exited) {
        Ok(name) => name,
        Err(ground) => return ground,
    };
    if switches.enabled
        && let Some(ground) = refused_by_policy(&policy, &pair, &request, &name)
    {
        return ground;
    }
    if request.is_deletion() {
        let (kind, place) = match to_delete(&pair, &request, &name, switches.exited) {
            Ok(found) => found,
            Err(ground) => return ground,
        };
        pair.of_mut(kind).remove(place);
        write_back(non_volatile, &pair.non_volatile);
        write_back(volatile, &pair.volatile);
        return SetGround::Deleted;
    }
    let ground = store_payload(&mut pair, &request, &name);
    if ground.status() != Status::Success {
        return ground;
    }
    if encoded_len(&pair.non_volatile) > non_volatile.len() || encoded_len(&pair.volatile) > volatile.len() {
        return SetGround::NoRoom;
    }
    write_back(non_volatile, &pair.non_volatile);
    write_back(volatile, &pair.volatile);
    ground
}

/// Steps 1 to 3: the name, if the request is well formed.
fn well_formed(request: &Request, exited: bool) -> Result<Vec<u16>, SetGround> {
    let name = name::decode_request(request.name).ok_or(SetGround::BadName)?;
    if request.payload.len() > MAX_PAYLOAD {
        return Err(SetGround::LongPayload);
    }
    if request.has(!(NV | BS | RT | APPEND)) {
        return Err(SetGround::UnknownAttribute);
    }
    if request.has(RT | APPEND) && !request.has(BS) {
        return Err(SetGround::WithoutBootService);
    }
    if exited && !request.is_for_runtime() {
        return Err(SetGround::NotForRuntime);
    }
    Ok(name)
}

/// Step 4: the ground on which the chosen entry refuses the request, if it does.
fn refused_by_policy(policy: &Policy, pair: &Pair, request: &Request, name: &[u16]) -> Option<SetGround> {
    let entry = policy.choose(request.namespace, name)?;
    if !request.is_deletion() {
        let length = payload_afterwards(pair, request, name).len() as u32;
        if length < entry.min_size {
            return Some(SetGround::TooShort);
        }
        if length > entry.max_size {
            return Some(SetGround::TooLong);
        }
        if entry.must_have & !request.attributes != 0 {
            return Some(SetGround::AttributeMissing);
        }
        if request.has(entry.cant_have) {
            return Some(SetGround::AttributeProhibited);
        }
    }
    match &entry.lock {
        LockRule::NoLock => None,
        LockRule::LockNow => Some(SetGround::LockedNow),
        LockRule::LockOnCreate => pair.find(request.namespace, name).map(|_| SetGround::LockedOnCreate),
        LockRule::LockOnVarState(trigger) => {
            let (_, _, variable) = pair.find(&trigger.namespace, &trigger.name)?;
            (variable.payload == [trigger.value]).then_some(SetGround::LockedOnVarState)
        }
    }
}

/// The payload as it would be afterwards (docs/RULES.md, 10.9): the request's own or, of an append to a variable that
/// exists, in whichever store and with whatever attributes, the stored one with the request's behind it.
fn payload_afterwards(pair: &Pair, request: &Request, name: &[u16]) -> Vec<u8> {
    match pair.find(request.namespace, name) {
        Some((_, _, variable)) if request.has(APPEND) => [&variable.payload, request.payload].concat(),
        _ => request.payload.to_vec(),
    }
}

/// Step 5: where the variable stands that is to be deleted, if it may be.
fn to_delete(pair: &Pair, request: &Request, name: &[u16], exited: bool) -> Result<(Kind, usize), SetGround> {
    let (kind, place, variable) = pair.find(request.namespace, name).ok_or(SetGround::DeleteAbsent)?;
    if exited && !variable.is_runtime() {
        return Err(SetGround::DeleteHidden);
    }
    if exited && kind == Kind::Volatile {
        return Err(SetGround::DeleteVolatile);
    }
    Ok((kind, place))
}

/// Steps 6 to 8, and step 10 on the decoded variables.
fn store_payload(pair: &mut Pair, request: &Request, name: &[u16]) -> SetGround {
    let attributes = request.attributes & !APPEND;
    let append = request.has(APPEND);
    let found = pair.find(request.namespace, name).map(|(kind, place, variable)| (kind, place, variable.attributes));
    if found.is_some_and(|(_, _, stored)| stored != attributes) {
        return SetGround::OtherAttributes;
    }
    if append && request.payload.is_empty() {
        return SetGround::EmptyAppend;
    }
    let payload = payload_afterwards(pair, request, name);
    if append && payload.len() > MAX_PAYLOAD {
        return SetGround::AppendTooLong;
    }
    let Some((kind, place, _)) = found else {
        let kind = if attributes & NV != 0 { Kind::NonVolatile } else { Kind::Volatile };
        let namespace = *request.namespace;
        pair.of_mut(kind).push(Variable { namespace, name: name.to_vec(), attributes, payload });
        return if append { SetGround::AppendCreated } else { SetGround::Created };
    };
    pair.of_mut(kind)[place].payload = payload;
    if append { SetGround::AppendJoined } else { SetGround::Rewritten }
}

fn encoded_len(variables: &[Variable]) -> usize {
    variables.iter().map(Variable::record_len).sum()
}

/// Writes the records and then 0xFF.
fn write_back(store: &mut [u8], variables: &[Variable]) {
    let mut bytes = store::encode(variables);
    bytes.resize(store.len(), 0xFF);
    store.copy_from_slice(&bytes);
}

#[cfg(test)]
mod tests {
    use super::*;

    /// The switches of this number, one for each setting.
    fn setting(number: u8) -> Switches {
        let [enabled, locked, disabling_allowed, exited] = [8, 4, 2, 1].map(|bit| number & bit != 0);
        Switches { enabled, locked, disabling_allowed, exited }
    }

    const EXITED: Switches = Switches { enabled: true, locked: false, disabling_allowed: true, exited: true };
    const RECORD: [u8; POLICY_BYTES] = [0; POLICY_BYTES];

    /// Stores with "A" of these attributes and one byte, in the one that they say; with 0 in none.
    fn stores(attributes: u32) -> [Vec<u8>; 2] {
        [NV, 0].map(|kind| {
            let variable = Variable { namespace: [7; 16], name: vec![0x41], attributes, payload: vec![1] };
            let mut bytes = store::encode(&[variable]);
            if attributes == 0 || attributes & NV != kind {
                bytes.clear();
            }
            bytes.resize(80, 0xFF);
            bytes
        })
    }

    /// What decides a set of "A" after exit, where it has these attributes.
    fn decided(stored: u32, attributes: u32, payload: &[u8]) -> SetGround {
        let [mut nv, mut volatile] = stores(stored);
        let request = Request { namespace: &[7; 16], name: &[0x41, 0], attributes, payload };
        set(&mut nv, &mut volatile, &RECORD, EXITED, request).0
    }

    #[test]
    fn exit_moves_its_own_switch_and_is_refused_after_exit_alone() {
        for number in 0..16 {
            let (before, mut switches) = (setting(number), setting(number));
            let expected = if before.exited { Status::Unsupported } else { Status::Success };
            assert_eq!(exit(&mut switches), expected);
            assert_eq!(switches, Switches { exited: true, ..before });
        }
    }

    #[test]
    fn after_exit_the_policy_is_closed_whatever_the_switches_are() {
        for before in (0..16).map(setting).filter(|switches| switches.exited) {
            let (mut locking, mut disabling, mut record) = (before, before, RECORD);
            assert_eq!([lock(&mut locking), disable(&mut disabling)], [Status::Unsupported; 2]);
            assert_eq!([locking, disabling], [before; 2]);
            assert_eq!(register(&mut record, before, &[]), RegisterGround::Exited);
            assert_eq!(dump(&RECORD, before, &mut []), (Status::Unsupported, 0));
            assert_eq!(dump(&RECORD[1..], before, &mut []), (Status::VolumeCorrupted, 0));
            assert_eq!(query(before), (Status::Success, before.enabled));
        }
    }

    #[test]
    fn after_exit_variables_with_rt_are_read() {
        for (attributes, shown) in [(0, false), (2, false), (3, false), (6, true), (7, true)] {
            let [nv, volatile] = stores(attributes);
            let found = read(&nv, &volatile, EXITED, &[7; 16], &[0x41, 0]);
            let expected = if shown { Ok(attributes) } else { Err(Status::NotFound) };
            assert_eq!(found.map(|found| found.attributes), expected);
        }
    }

    #[test]
    fn after_exit_a_set_needs_nv_bs_and_rt_and_a_deletion_does_not() {
        use SetGround::*;
        let refused = [(2, NotForRuntime), (3, NotForRuntime), (6, NotForRuntime), (0x43, NotForRuntime)];
        let granted = [(7, Created), (0x47, AppendCreated), (0, DeleteAbsent), (1, DeleteAbsent)];
        for (attributes, expected) in refused.into_iter().chain(granted) {
            assert_eq!(decided(0, attributes, &[1]), expected, "{attributes:#x}");
        }
    }

    #[test]
    fn after_exit_deletions_and_rewrites_go_by_the_stored_attributes() {
        use SetGround::*;
        let stored = [(2, DeleteHidden), (3, DeleteHidden), (6, DeleteVolatile), (7, Deleted)];
        for (stored, expected) in stored {
            assert_eq!(decided(stored, 0, &[]), expected, "{stored}");
            let rewritten = if stored == 7 { Rewritten } else { OtherAttributes };
            assert_eq!(decided(stored, 7, &[2]), rewritten, "{stored}");
        }
    }
}
