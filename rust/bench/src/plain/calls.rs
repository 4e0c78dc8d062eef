//! The calls.

use super::index::{Index, Place, Small, Standard};
use super::policy::{Chosen, Entries, is_entry};
use super::quarrels::{Quarrel, first_quarrel};
use super::stores::{Key, Stores, record_len};
use super::{APPEND, BS, ENTRY_HEADER, HEADER, MAX_NAME, NV, RT, is_name, le32};
use varpolicy::{Ground, MAX_ENTRIES, MAX_PAYLOAD_BYTES, POLICY_BYTES, Report};

pub const SUCCESS: u32 = 0;
pub const INVALID_PARAMETER: u32 = 2;
pub const UNSUPPORTED: u32 = 3;
pub const BUFFER_TOO_SMALL: u32 = 5;
pub const WRITE_PROTECTED: u32 = 8;
pub const OUT_OF_RESOURCES: u32 = 9;
pub const VOLUME_CORRUPTED: u32 = 10;
pub const NOT_FOUND: u32 = 14;
pub const ALREADY_STARTED: u32 = 20;

#[derive(Clone, Copy, PartialEq, Eq, Debug)]
pub struct Switches {
    pub enabled: bool,
    pub locked: bool,
    pub disabling_allowed: bool,
    pub exited: bool,
}

pub fn register(policy: &mut [u8], switches: Switches, entry: &[u8]) -> u32 {
    let Some(entries) = Entries::check(policy) else {
        return VOLUME_CORRUPTED;
    };
    if switches.exited {
        return UNSUPPORTED;
    }
    if switches.locked {
        return WRITE_PROTECTED;
    }
    if !is_entry(entry) {
        return INVALID_PARAMETER;
    }
    if entries.contains(entry) {
        return ALREADY_STARTED;
    }
    let end = entries.end();
    if entries.count == MAX_ENTRIES || end + entry.len() > POLICY_BYTES {
        return OUT_OF_RESOURCES;
    }
    policy[end..end + entry.len()].copy_from_slice(entry);
    SUCCESS
}

pub fn dump(policy: &[u8], switches: Switches, buffer: &mut [u8]) -> (u32, usize) {
    let Some(entries) = Entries::check(policy) else {
        return (VOLUME_CORRUPTED, 0);
    };
    if switches.exited {
        return (UNSUPPORTED, 0);
    }
    let end = entries.end();
    if buffer.len() < end {
        return (BUFFER_TOO_SMALL, end);
    }
    buffer[..end].copy_from_slice(&policy[..end]);
    (SUCCESS, end)
}

/// What a look for quarrels answers: whether two entries quarrel, their places, and the length of the smallest name that
/// both target.
#[derive(Clone, Copy, PartialEq, Eq, Debug, Default)]
pub struct Quarrelled {
    pub status: u32,
    pub found: bool,
    pub earlier: usize,
    pub later: usize,
    pub name_length: usize,
}

pub fn quarrels(dump: &[u8], name: &mut [u8; MAX_NAME]) -> Quarrelled {
    match first_quarrel(dump, name) {
        None => Quarrelled { status: INVALID_PARAMETER, ..Quarrelled::default() },
        Some(None) => Quarrelled::default(),
        Some(Some(Quarrel { earlier, later, name_length })) => {
            Quarrelled { status: SUCCESS, found: true, earlier, later, name_length }
        }
    }
}

/// What a read answers: where the payload stands, in the store that `non_volatile` tells.
#[derive(Clone, Copy, PartialEq, Eq, Debug, Default)]
pub struct Found {
    pub status: u32,
    pub attributes: u32,
    pub non_volatile: bool,
    pub offset: usize,
    pub length: usize,
}

pub fn read<'a, I: Index<'a>>(
    nv: &'a [u8],
    volatile: &'a [u8],
    switches: Switches,
    namespace: &[u8; 16],
    name: &[u8],
) -> Found {
    let Some(stores) = Stores::<I>::check(nv, volatile) else {
        return Found { status: VOLUME_CORRUPTED, ..Found::default() };
    };
    if !is_name(name) {
        return Found { status: INVALID_PARAMETER, ..Found::default() };
    }
    let Some(place) = stores.find(Key::new(namespace, name).bytes()) else {
        return Found { status: NOT_FOUND, ..Found::default() };
    };
    let record = stores.record(place);
    let attributes = le32(record, 4);
    if switches.exited && attributes & RT == 0 {
        return Found { status: NOT_FOUND, ..Found::default() };
    }
    Found {
        status: SUCCESS,
        attributes,
        non_volatile: place.non_volatile,
        offset: usize::from(place.at) + HEADER + le32(record, 8) as usize,
        length: le32(record, 12) as usize,
    }
}

/// A request to set a variable.
#[derive(Clone, Copy)]
pub struct Request<'a> {
    pub namespace: &'a [u8; 16],
    pub name: &'a [u8],
    pub attributes: u32,
    pub payload: &'a [u8],
}

/// What a set answers.
#[derive(Clone, Copy, PartialEq, Eq, Debug)]
pub struct Written {
    pub status: u32,
    pub report: Report,
}

/// A status that no entry gave.
impl From<u32> for Written {
    fn from(status: u32) -> Written {
        Written { status, report: Report::NONE }
    }
}

/// What a set is to do with a store.
enum Edit {
    Nothing,
    Delete(Place),
    Create { end: usize },
    Rewrite { place: Place, end: usize, kept: usize },
}

pub fn set<I>(nv: &mut [u8], volatile: &mut [u8], policy: &[u8], switches: Switches, request: Request) -> Written
where
    I: for<'a> IndexOf<'a>,
{
    match decide::<<I as IndexOf>::Index>(nv, volatile, policy, switches, &request) {
        Err(refused) => return refused,
        Ok((Edit::Nothing, _)) => {}
        Ok((Edit::Delete(place), end)) => {
            let store = if place.non_volatile { nv } else { volatile };
            delete(store, place.at.into(), end);
        }
        Ok((Edit::Create { end }, _)) => {
            let store = if request.attributes & NV != 0 { nv } else { volatile };
            create(&mut store[end..], &request);
        }
        Ok((Edit::Rewrite { place, end, kept }, _)) => {
            let store = if place.non_volatile { nv } else { volatile };
            rewrite(store, place.at.into(), end, kept, request.payload);
        }
    }
    SUCCESS.into()
}

/// Names a table for every lifetime, so that `set` can let go of it before it writes.
pub trait IndexOf<'a> {
    type Index: Index<'a>;
}

/// The standard library's table.
pub struct UseStandard;

impl<'a> IndexOf<'a> for UseStandard {
    type Index = Standard<'a>;
}

/// The small table.
pub struct UseSmall;

impl IndexOf<'_> for UseSmall {
    type Index = Small;
}

/// Everything but the writing: what to do, and where the records of a deletion's store end.
fn decide<'a, I: Index<'a>>(
    nv: &'a [u8],
    volatile: &'a [u8],
    policy: &[u8],
    switches: Switches,
    request: &Request,
) -> Result<(Edit, usize), Written> {
    let stores = Stores::<I>::check(nv, volatile).ok_or(VOLUME_CORRUPTED)?;
    let entries = Entries::check(policy).ok_or(VOLUME_CORRUPTED)?;
    let Request { namespace, name, attributes, payload } = *request;
    let append = attributes & APPEND != 0;
    let deletion = !append && (payload.is_empty() || attributes & (BS | RT) == 0);
    check_request(request, deletion, switches.exited)?;
    let found = stores.find(Key::new(namespace, name).bytes());
    if switches.enabled
        && let Some(chosen) = entries.choose(namespace, name)
    {
        enforce(chosen, &stores, request, deletion, found)?;
    }
    if deletion {
        let place = found.ok_or(NOT_FOUND)?;
        if switches.exited {
            check_deletion(le32(stores.record(place), 4))?;
        }
        return Ok((Edit::Delete(place), stores.ends[usize::from(place.non_volatile)]));
    }
    if let Some(place) = found
        && le32(stores.record(place), 4) != attributes & !APPEND
    {
        return Err(INVALID_PARAMETER.into());
    }
    if append && payload.is_empty() {
        return Ok((Edit::Nothing, 0));
    }
    let non_volatile = usize::from(attributes & NV != 0);
    let (end, room) = (stores.ends[non_volatile], stores.bytes[non_volatile].len());
    let Some(place) = found else {
        let fits = end + record_len(name.len() + 2, payload.len()) <= room;
        return if fits { Ok((Edit::Create { end }, 0)) } else { Err(OUT_OF_RESOURCES.into()) };
    };
    let old = stores.payload(place).len();
    let kept = if append { old } else { 0 };
    let new = kept + payload.len();
    let len = |data| record_len(name.len() + 2, data);
    if new > MAX_PAYLOAD_BYTES || end - len(old) + len(new) > room {
        return Err(OUT_OF_RESOURCES.into());
    }
    Ok((Edit::Rewrite { place, end, kept }, 0))
}

/// Steps 1 to 3: the request by itself.
fn check_request(request: &Request, deletion: bool, exited: bool) -> Result<(), Written> {
    let Request { name, attributes, payload, .. } = *request;
    if !is_name(name) || payload.len() > MAX_PAYLOAD_BYTES {
        return Err(INVALID_PARAMETER.into());
    }
    if attributes & !(NV | BS | RT | APPEND) != 0 {
        return Err(UNSUPPORTED.into());
    }
    if attributes & (RT | APPEND) != 0 && attributes & BS == 0 {
        return Err(INVALID_PARAMETER.into());
    }
    if exited && !deletion && attributes & (NV | BS | RT) != NV | BS | RT {
        return Err(INVALID_PARAMETER.into());
    }
    Ok(())
}

/// Step 5 after exit: whether a variable with these attributes may be deleted.
fn check_deletion(attributes: u32) -> Result<(), Written> {
    if attributes & RT == 0 {
        return Err(NOT_FOUND.into());
    }
    if attributes & NV == 0 { Err(WRITE_PROTECTED.into()) } else { Ok(()) }
}

/// Step 4: what the chosen entry says.
fn enforce<'a, I: Index<'a>>(
    chosen: Chosen,
    stores: &Stores<'a, I>,
    request: &Request,
    deletion: bool,
    found: Option<Place>,
) -> Result<(), Written> {
    let Chosen { entry, place, rank } = chosen;
    let report = |ground| Report { ground, place, rank, ..Report::NONE };
    let header = entry.first_chunk::<ENTRY_HEADER>().expect("a checked entry");
    let attributes = request.attributes;
    if !deletion {
        let joined = found.filter(|_| attributes & APPEND != 0).map_or(0, |place| stores.payload(place).len());
        let length = (joined + request.payload.len()) as u32;
        if length < le32(header, 24) || length > le32(header, 28) {
            return Err(Written { status: INVALID_PARAMETER, report: report(Ground::Size) });
        }
        let (missing, prohibited) = (le32(header, 32) & !attributes, le32(header, 36) & attributes);
        if missing | prohibited != 0 {
            let report = Report {
                missing: missing.count_ones(),
                prohibited: prohibited.count_ones(),
                lowest_bit: (missing | prohibited).trailing_zeros(),
                ..report(Ground::Attributes)
            };
            return Err(Written { status: INVALID_PARAMETER, report });
        }
    }
    let locked = match header[40] {
        0 => false,
        1 => true,
        2 => found.is_some(),
        _ => stores.holds(&Key::of_trigger(entry), entry[60]),
    };
    if locked { Err(Written { status: WRITE_PROTECTED, report: report(Ground::Lock) }) } else { Ok(()) }
}

fn delete(store: &mut [u8], at: usize, end: usize) {
    let len = record_len(le32(store, at + 8) as usize, le32(store, at + 12) as usize);
    store.copy_within(at + len..end, at);
    store[end - len..end].fill(0xFF);
}

fn create(free: &mut [u8], request: &Request) {
    let (name_size, data_size) = (request.name.len() + 2, request.payload.len());
    free[..4].copy_from_slice(&[0xAA, 0x55, 0x3F, 0]);
    free[4..8].copy_from_slice(&(request.attributes & !APPEND).to_le_bytes());
    free[8..12].copy_from_slice(&(name_size as u32).to_le_bytes());
    free[12..16].copy_from_slice(&(data_size as u32).to_le_bytes());
    free[16..32].copy_from_slice(request.namespace);
    free[32..32 + request.name.len()].copy_from_slice(request.name);
    free[30 + name_size..32 + name_size].fill(0);
    free[32 + name_size..32 + name_size + data_size].copy_from_slice(request.payload);
}

/// Gives the record at `at` a payload of its first `kept` old bytes and then `payload`.
fn rewrite(store: &mut [u8], at: usize, end: usize, kept: usize, payload: &[u8]) {
    let (name_size, old_size) = (le32(store, at + 8) as usize, le32(store, at + 12) as usize);
    let new_size = kept + payload.len();
    let old_end = at + record_len(name_size, old_size);
    let new_end = at + record_len(name_size, new_size);
    store.copy_within(old_end..end, new_end);
    if new_end < old_end {
        store[end - (old_end - new_end)..end].fill(0xFF);
    }
    let start = at + HEADER + name_size + kept;
    store[at + 12..at + 16].copy_from_slice(&(new_size as u32).to_le_bytes());
    store[start..start + payload.len()].copy_from_slice(payload);
    store[start + payload.len()..new_end].fill(0xFF);
}
