//! The calls of the library, one safe function each, on lent slices. Every answer is a value: a
//! refusal is a [`Status`] other than [`Status::Success`], and leaves everything as it was. A set has a
//! [`Report`] beside it.
//!
//! The switches are lent as [`SwitchBytes`], and [`Switches`](crate::Switches) serve where they are only
//! read. Whether disabling is allowed is a byte too, or a bool: 1 and true allow it.
//!
//! [`quarrels`] is lent no part of an engine: it is given the bytes of a dump. Nor are the calls of a reader, which are
//! lent its bytes, with any content: [`Reader`](crate::Reader) keeps them, and answers with entries.

use crate::abi;
use crate::{Attributes, MAX_NAME_UNITS, Namespace, READER_BYTES, Refused, Report, Status, SwitchBytes};

/// What power-on and restart answer.
#[derive(Clone, Copy, PartialEq, Eq, Debug)]
pub struct Started {
    /// SUCCESS or VOLUME_CORRUPTED.
    pub status: Status,
    /// The switches of the engine, each byte 0 or 1. After a refusal enabled, locked, disabling not allowed and not
    /// exited; a running engine goes on with those it had.
    pub switches: SwitchBytes,
}

/// What a dump answers.
#[derive(Clone, Copy, PartialEq, Eq, Debug)]
pub struct Dumped {
    /// SUCCESS, UNSUPPORTED, BUFFER_TOO_SMALL or VOLUME_CORRUPTED.
    pub status: Status,
    /// The length written or, with BUFFER_TOO_SMALL, needed; else 0.
    pub length: usize,
}

/// What a read answers. Refused: zeros and an empty payload.
#[derive(Clone, Copy, PartialEq, Eq, Debug)]
pub struct Found<'a> {
    /// SUCCESS, INVALID_PARAMETER, VOLUME_CORRUPTED or NOT_FOUND.
    pub status: Status,
    /// The stored attributes.
    pub attributes: Attributes,
    /// Whether the non-volatile store holds the variable.
    pub non_volatile: bool,
    /// Where the payload begins in its store.
    pub offset: usize,
    /// The payload, a part of its store.
    pub payload: &'a [u8],
}

/// What [`settled`] answers.
#[derive(Clone, Copy, PartialEq, Eq, Debug)]
pub struct Settled {
    /// SUCCESS, INVALID_PARAMETER or VOLUME_CORRUPTED.
    pub status: Status,
    /// Whether the variable is settled; refused, it is false.
    pub settled: bool,
}

/// What a set answers.
#[derive(Clone, Copy, PartialEq, Eq, Debug)]
pub struct Written {
    /// SUCCESS, or why nothing was written: see [`set`].
    pub status: Status,
    /// What the chosen entry had against the set; [`Report::NONE`] if it had nothing.
    pub report: Report,
}

impl Written {
    /// `Ok` for SUCCESS, and any other status with its report as the error.
    pub fn ok(self) -> Result<(), Refused> {
        let Written { status, report } = self;
        status.ok().map_err(|status| Refused { status, report })
    }
}

/// What a check for quarrels answers. Without a pair every number is 0.
#[derive(Clone, Copy, PartialEq, Eq, Debug)]
pub struct Quarrelled {
    /// SUCCESS or INVALID_PARAMETER.
    pub status: Status,
    /// Whether two entries quarrel.
    pub found: bool,
    /// The place of the earlier one, counted from 0 in the order of the dump.
    pub earlier: usize,
    /// The place of the later one.
    pub later: usize,
    /// How many bytes of the buffer are the smallest name that both target.
    pub name_length: usize,
}

/// What a reader says of the bytes that arrived.
#[derive(Clone, Copy, PartialEq, Eq, Debug)]
pub struct ReaderVerdict {
    /// SUCCESS.
    pub status: Status,
    /// Whether they are good entries and nothing else: a dump.
    pub whole: bool,
    /// Whether no further piece changes anything: a bad entry was met.
    pub ended: bool,
    /// How many good entries there are, up to the first that is malformed, repeated, past the limits or cut short.
    pub entries: usize,
    /// How many bytes they take; unless `whole`, the first byte of the bad entry.
    pub bytes: usize,
}

/// What a reader tells of an entry. Where there is none every number is 0.
#[derive(Clone, Copy, PartialEq, Eq, Debug)]
pub struct ReaderEntry {
    /// SUCCESS or NOT_FOUND.
    pub status: Status,
    /// How many bytes it has.
    pub size: usize,
    /// The number of its lock type: 0 to 3, in the order of [`Lock`](crate::Lock).
    pub lock: u32,
    /// How many `#` its name has, or [`WHOLE_NAMESPACE_RANK`](crate::WHOLE_NAMESPACE_RANK).
    pub rank: u32,
}

/// Power-on. Fills `volatile` with 0xFF and `policy` with zeros; the engine is then enabled,
/// unlocked and empty, and has not exited.
///
/// * VOLUME_CORRUPTED: `nv` is unsound, `volatile` has more than 32,768 bytes, or `policy` does not
///   have [`POLICY_BYTES`](crate::POLICY_BYTES).
pub fn power_on(nv: &[u8], volatile: &mut [u8], policy: &mut [u8], disabling_allowed: impl Into<u8>) -> Started {
    // SAFETY: each pointer and length is of one live slice, the mutable ones apart from all others.
    let answer = unsafe {
        abi::varpolicy_power_on(
            nv.as_ptr(),
            nv.len(),
            volatile.as_mut_ptr(),
            volatile.len(),
            policy.as_mut_ptr(),
            policy.len(),
            disabling_allowed.into(),
        )
    };
    Started { status: Status::answered(answer.status), switches: answer.switches }
}

/// Restart: as power-on, but both stores must be sound and stay as they are.
///
/// * VOLUME_CORRUPTED: the stores are unsound, or `policy` does not have
///   [`POLICY_BYTES`](crate::POLICY_BYTES).
pub fn restart(nv: &[u8], volatile: &[u8], policy: &mut [u8], disabling_allowed: impl Into<u8>) -> Started {
    // SAFETY: each pointer and length is of one live slice, the mutable one apart from all others.
    let answer = unsafe {
        abi::varpolicy_restart(
            nv.as_ptr(),
            nv.len(),
            volatile.as_ptr(),
            volatile.len(),
            policy.as_mut_ptr(),
            policy.len(),
            disabling_allowed.into(),
        )
    };
    Started { status: Status::answered(answer.status), switches: answer.switches }
}

/// Registers a packed entry. A disabled engine still registers.
///
/// * VOLUME_CORRUPTED: `policy` is not a policy record.
/// * UNSUPPORTED: the engine has exited; see [`exit`].
/// * WRITE_PROTECTED: the engine is locked.
/// * INVALID_PARAMETER: the entry is malformed; `#` in its trigger's name makes it so.
/// * ALREADY_STARTED: an entry of the same namespace and name is registered.
/// * OUT_OF_RESOURCES: [`MAX_ENTRIES`](crate::MAX_ENTRIES) are registered, or the Sizes would sum to more than
///   [`POLICY_BYTES`](crate::POLICY_BYTES).
pub fn register(policy: &mut [u8], switches: impl Into<SwitchBytes>, entry: &[u8]) -> Status {
    // SAFETY: each pointer and length is of one live slice, the mutable one apart from the other.
    let answer = unsafe {
        abi::varpolicy_register(policy.as_mut_ptr(), policy.len(), switches.into(), entry.as_ptr(), entry.len())
    };
    Status::answered(answer)
}

/// Writes the entries, one behind the other as they were registered, to the start of `buffer`; later bytes stay.
///
/// * VOLUME_CORRUPTED: `policy` is not a policy record.
/// * UNSUPPORTED: the engine has exited.
/// * BUFFER_TOO_SMALL: `buffer` is shorter than the sum of Sizes, which is the length answered.
pub fn dump(policy: &[u8], switches: impl Into<SwitchBytes>, buffer: &mut [u8]) -> Dumped {
    // SAFETY: each pointer and length is of one live slice, the mutable one apart from the other.
    let answer = unsafe {
        abi::varpolicy_dump(policy.as_ptr(), policy.len(), switches.into(), buffer.as_mut_ptr(), buffer.len())
    };
    Dumped { status: Status::answered(answer.status), length: answer.length }
}

/// Closes registration until the next power-on or restart: `locked` is then 1.
///
/// * UNSUPPORTED: the engine has exited.
/// * WRITE_PROTECTED: locked already.
pub fn lock(switches: &mut SwitchBytes) -> Status {
    // SAFETY: the pointer is of one live record that nothing else refers to.
    Status::answered(unsafe { abi::varpolicy_lock(switches) })
}

/// Turns enforcement off until the next power-on or restart: `enabled` is then 0.
///
/// * UNSUPPORTED: the engine has exited.
/// * ALREADY_STARTED: disabled already.
/// * WRITE_PROTECTED: locked, or disabling is not allowed.
pub fn disable(switches: &mut SwitchBytes) -> Status {
    // SAFETY: the pointer is of one live record that nothing else refers to.
    Status::answered(unsafe { abi::varpolicy_disable(switches) })
}

/// Tells the engine that the operating system starts and boot services are gone: `exited` is then 1, until the next
/// power-on or restart. Meanwhile the policy is neither added to, handed out, locked nor disabled; reads show variables
/// with RT alone; a set needs NV, BS and RT; and volatile variables are neither written nor deleted. Entries are enforced
/// as before, also by triggers that can no longer be read. To rebuild the engine later takes a dump from before.
///
/// * UNSUPPORTED: exited already.
pub fn exit(switches: &mut SwitchBytes) -> Status {
    // SAFETY: the pointer is of one live record that nothing else refers to.
    Status::answered(unsafe { abi::varpolicy_exit(switches) })
}

/// Tells whether entries are enforced, after exit too. The status is always SUCCESS.
pub fn query(switches: impl Into<SwitchBytes>) -> (Status, bool) {
    // SAFETY: only values are passed.
    let answer = unsafe { abi::varpolicy_query(switches.into()) };
    (Status::answered(answer.status), answer.enabled)
}

/// Reads a variable. `name` is the bytes of its 16-bit units, without a closing zero.
///
/// * VOLUME_CORRUPTED: the stores are unsound.
/// * INVALID_PARAMETER: the name is not 1 to 64 units, none of them zero, or its bytes are odd in number.
/// * NOT_FOUND: no such variable; or the engine has exited, and the variable has no RT.
pub fn read<'a>(
    nv: &'a [u8],
    volatile: &'a [u8],
    switches: impl Into<SwitchBytes>,
    namespace: &Namespace,
    name: &[u8],
) -> Found<'a> {
    // SAFETY: each pointer and length is of one live slice, and nothing is written.
    let answer = unsafe {
        abi::varpolicy_read(
            nv.as_ptr(),
            nv.len(),
            volatile.as_ptr(),
            volatile.len(),
            switches.into(),
            namespace,
            name.as_ptr(),
            name.len(),
        )
    };
    let store = if answer.non_volatile { nv } else { volatile };
    Found {
        status: Status::answered(answer.status),
        attributes: Attributes(answer.attributes),
        non_volatile: answer.non_volatile,
        offset: answer.offset,
        payload: &store[answer.offset..answer.offset + answer.length],
    }
}

/// A request to set a variable.
#[derive(Clone, Copy, Debug)]
pub struct Request<'a> {
    /// The namespace of the variable.
    pub namespace: &'a Namespace,
    /// The bytes of the 16-bit units of its name, without a closing zero.
    pub name: &'a [u8],
    /// The attributes. Without APPEND, and with neither BS nor RT, the request is a deletion.
    pub attributes: Attributes,
    /// The payload. Without APPEND, an empty one makes the request a deletion.
    pub payload: &'a [u8],
}

/// Sets, appends to or deletes a variable.
///
/// * VOLUME_CORRUPTED: the stores are unsound, or `policy` is not a policy record.
/// * INVALID_PARAMETER: the name is not 1 to 64 units, none of them zero, its bytes are odd in number,
///   or the payload is longer than 1,024 bytes.
/// * UNSUPPORTED: an attribute bit outside 0x47.
/// * INVALID_PARAMETER: RT or APPEND without BS.
/// * INVALID_PARAMETER: the engine has exited, this is no deletion, and the attributes are without NV, BS or RT.
/// * If the engine is enabled and an entry is chosen, and unless this is a deletion,
///   INVALID_PARAMETER: the payload as it would be afterwards, an append's with what is stored, is
///   shorter than MinSize or longer than MaxSize ([`Ground::Size`]), or the attributes lack a required
///   bit or have a prohibited one ([`Ground::Attributes`]). Then, for a deletion too, WRITE_PROTECTED:
///   the entry locks the variable ([`Ground::Lock`]).
/// * NOT_FOUND: the variable to delete does not exist; or the engine has exited, and the variable has no RT.
/// * WRITE_PROTECTED: the engine has exited, and the variable to delete is volatile.
/// * INVALID_PARAMETER: the variable exists with other attributes.
/// * OUT_OF_RESOURCES: an append would make the payload longer than 1,024 bytes, or the records
///   would be longer than their store.
///
/// The report has the ground named beside its case, and [`Ground::None`] in all others.
///
/// [`Ground::Size`]: crate::Ground::Size
/// [`Ground::Attributes`]: crate::Ground::Attributes
/// [`Ground::Lock`]: crate::Ground::Lock
/// [`Ground::None`]: crate::Ground::None
///
/// ```
/// use varpolicy::calls::{self, Request};
/// use varpolicy::{Attributes, Entry, Ground, Name, POLICY_BYTES, Report, Status};
///
/// let (mut nv, mut volatile, mut policy) = ([0xFF; 256], [0xFF; 256], [0; POLICY_BYTES]);
/// let switches = calls::power_on(&nv, &mut volatile, &mut policy, false).switches;
/// let board = *b"sixteen bytes..!";
/// let entry = Entry { must_have: Attributes::NV | Attributes::RT, ..Entry::new(board, Name::EMPTY) };
/// calls::register(&mut policy, switches, &entry.pack());
///
/// let request = Request { namespace: &board, name: b"A\0", attributes: Attributes::BS, payload: b"1" };
/// let written = calls::set(&mut nv, &mut volatile, &policy, switches, request);
/// assert_eq!(written.status, Status::InvalidParameter);
/// let report = Report { ground: Ground::Attributes, place: 0, rank: 65, missing: 2, prohibited: 0, lowest_bit: 0 };
/// assert_eq!(written.report, report);
/// ```
pub fn set(
    nv: &mut [u8],
    volatile: &mut [u8],
    policy: &[u8],
    switches: impl Into<SwitchBytes>,
    request: Request,
) -> Written {
    // SAFETY: each pointer and length is of one live slice, the mutable ones apart from all others.
    let answer = unsafe {
        abi::varpolicy_set(
            nv.as_mut_ptr(),
            nv.len(),
            volatile.as_mut_ptr(),
            volatile.len(),
            policy.as_ptr(),
            policy.len(),
            switches.into(),
            request.namespace,
            request.name.as_ptr(),
            request.name.len(),
            request.attributes.0,
            request.payload.as_ptr(),
            request.payload.len(),
        )
    };
    Written { status: Status::answered(answer.status), report: Report::answered(&answer.report) }
}

/// Tells whether a variable is settled. If so, its lock depends on nothing that a call may still change. `name` is the
/// bytes of its 16-bit units, without a closing zero.
///
/// It is settled if the entry chosen for it locks now; or locks on create, and the variable exists; or locks by the state
/// of a trigger, which exists with a payload of one byte, the entry's value, and is settled in turn. From a variable to its
/// trigger is a link, and at most [`MAX_LINKS`](crate::MAX_LINKS) are followed. Where triggers come round in a loop, or the
/// chain is longer, the answer is no.
///
/// What a yes is worth: while the engine is enabled and locked, no call but a granted start changes, creates or deletes the
/// variable, and the answer stays yes. The switches are not asked: an engine that is disabled, unlocked or has exited
/// answers alike, but while it is not enabled and locked a yes promises nothing.
///
/// * VOLUME_CORRUPTED: the stores are unsound, or `policy` is not a policy record.
/// * INVALID_PARAMETER: the name is not 1 to 64 units, none of them zero, or its bytes are odd in number.
pub fn settled(nv: &[u8], volatile: &[u8], policy: &[u8], namespace: &Namespace, name: &[u8]) -> Settled {
    // SAFETY: each pointer and length is of one live slice, and nothing is written.
    let answer = unsafe {
        abi::varpolicy_settled(
            nv.as_ptr(),
            nv.len(),
            volatile.as_ptr(),
            volatile.len(),
            policy.as_ptr(),
            policy.len(),
            namespace,
            name.as_ptr(),
            name.len(),
        )
    };
    Settled { status: Status::answered(answer.status), settled: answer.settled }
}

/// Tells whether two entries of a dump quarrel: they have the same rank, and some variable, stored or not, is targeted
/// by both. Unless an entry of lower rank targets it too, the one registered first speaks for it. `dump` is the entries
/// end to end, as [`dump`](dump()) writes them, and nothing behind them; no part of an engine is lent.
///
/// The pair is the first: of all that quarrel the one with the lowest earlier place, and of those the one with the
/// lowest later place. The bytes of the smallest name that both entries target are written to the front of `name`,
/// without a closing zero; later bytes stay, and without a pair all do.
///
/// * INVALID_PARAMETER: the bytes are not a dump, at most [`MAX_ENTRIES`](crate::MAX_ENTRIES) well-formed entries in
///   at most [`POLICY_BYTES`](crate::POLICY_BYTES) bytes, no two for one namespace and name, and nothing behind them.
///   Zeros are no entry, so that a policy record with free room is not a dump; no bytes at all are one.
///
/// [`quarrels`](crate::quarrels()) at the crate's root answers with the name itself.
pub fn quarrels(dump: &[u8], name: &mut [u8; 2 * MAX_NAME_UNITS]) -> Quarrelled {
    // SAFETY: each pointer is of one live slice or array, the mutable one apart from the other.
    let answer = unsafe { abi::varpolicy_quarrels(dump.as_ptr(), dump.len(), name) };
    Quarrelled {
        status: Status::answered(answer.status),
        found: answer.found,
        earlier: answer.earlier as usize,
        later: answer.later as usize,
        name_length: answer.name_length,
    }
}

/// Starts a reader of a dump, or starts it again: nothing arrived yet. The status is always SUCCESS.
pub fn reader_start(reader: &mut [u8; READER_BYTES]) -> Status {
    // SAFETY: the pointer is of one live array that nothing else refers to.
    Status::answered(unsafe { abi::varpolicy_reader_start(reader) })
}

/// Feeds a reader the next bytes of a dump, whatever they are. After a bad entry they change nothing.
///
/// * INVALID_PARAMETER: `piece` has not 1 to [`MAX_PIECE`](crate::MAX_PIECE) bytes. The reader stands as before.
#[inline]
pub fn reader_feed(reader: &mut [u8; READER_BYTES], piece: &[u8]) -> Status {
    // SAFETY: each pointer is of one live array or slice, the mutable one apart from the other.
    Status::answered(unsafe { abi::varpolicy_reader_feed(reader, piece.as_ptr(), piece.len()) })
}

/// Tells what a reader says of the bytes that arrived since it was started, if only [`reader_feed`] wrote it since. The
/// status is always SUCCESS.
pub fn reader_verdict(reader: &[u8; READER_BYTES]) -> ReaderVerdict {
    // SAFETY: the pointer is of one live array, and nothing is written.
    let answer = unsafe { abi::varpolicy_reader_verdict(reader) };
    ReaderVerdict {
        status: Status::answered(answer.status),
        whole: answer.whole,
        ended: answer.ended,
        entries: answer.entries as usize,
        bytes: answer.bytes as usize,
    }
}

/// Tells of the good entry that begins at byte `at` of the dump: its Size, its lock type and its rank. The first begins
/// at 0, and each other where the one before it ends; its bytes are those of the reader from `at` on. Of another byte the
/// answer tells what stands there, taken for an entry.
///
/// * NOT_FOUND: no entry begins there within the good ones.
pub fn reader_entry(reader: &[u8; READER_BYTES], at: usize) -> ReaderEntry {
    // SAFETY: the pointer is of one live array, and nothing is written.
    let answer = unsafe { abi::varpolicy_reader_entry(reader, at) };
    ReaderEntry {
        status: Status::answered(answer.status),
        size: answer.size as usize,
        lock: answer.lock,
        rank: answer.rank,
    }
}
