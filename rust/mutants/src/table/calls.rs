//! Every call but set.

use super::{Edit, edit};

pub(super) const REFUSED: &str = "Switches { enabled: true, locked: true, disabling_allowed: false, exited: false });";
pub(super) const POWER_ON: &str = "if !sound || volatile.len() > MAX_STORE || policy.len() != POLICY_BYTES {";
pub(super) const RESTART: &str = "if Pair::decode(non_volatile, volatile).is_none() || policy.len() != POLICY_BYTES {";
pub(super) const STARTED: &str = "Switches { enabled: true, locked: false, disabling_allowed, exited: false })";
pub(super) const REGISTER_LOCKED: &str =
    "if switches.locked {\n        return RegisterGround::Locked;\n    }\n    let Some(decoded)";
pub(super) const REPEATED: &str = "if policy.holds(&decoded) {\n        return RegisterGround::Repeated;";
pub(super) const TOO_MANY: &str =
    "if policy.entries.len() == MAX_ENTRIES {\n        return RegisterGround::TooMany;\n    }";
pub(super) const TOO_LONG: &str = "if bytes.len() > POLICY_BYTES {\n        return RegisterGround::TooLong;";
pub(super) const REGISTER_RECORD: &str = "    let Some(mut policy) = Policy::decode(record) else {";
pub(super) const DUMP: &str = "match buffer.get_mut(..bytes.len()) {";
pub(super) const DUMP_SHORT: &str = "None => (Status::BufferTooSmall, bytes.len()),";
const DISABLED: &str = "if !switches.enabled {\n        return Status::AlreadyStarted;\n    }";
const DISABLE: &str = "if switches.locked || !switches.disabling_allowed {";

pub(super) const EDITS: &[Edit] = &[
    edit(
        "start-refused-disabled",
        REFUSED,
        "Switches { enabled: false, locked: true, disabling_allowed: false, exited: false });",
        "a refused start hands back a disabled engine",
    ),
    edit(
        "start-refused-unlocked",
        REFUSED,
        "Switches { enabled: true, locked: false, disabling_allowed: false, exited: false });",
        "a refused start hands back an unlocked engine",
    ),
    edit(
        "start-refused-allowed",
        REFUSED,
        "Switches { enabled: true, locked: true, disabling_allowed: true, exited: false });",
        "a refused start hands back leave to disable",
    ),
    edit(
        "start-disabled",
        STARTED,
        "Switches { enabled: false, locked: false, disabling_allowed, exited: false })",
        "an engine starts disabled",
    ),
    edit(
        "start-locked",
        STARTED,
        "Switches { enabled: true, locked: true, disabling_allowed, exited: false })",
        "an engine starts locked",
    ),
    edit(
        "start-allowed",
        STARTED,
        "Switches { enabled: true, locked: false, disabling_allowed: true, exited: false })",
        "every engine may be disabled",
    ),
    edit(
        "start-not-allowed",
        STARTED,
        "Switches { enabled: true, locked: false, disabling_allowed: !disabling_allowed, exited: false })",
        "leave to disable is turned round",
    ),
    edit("start-keeps-entries", "    policy.fill(0);\n", "", "a start keeps the policy record"),
    edit("start-erases-entries", "policy.fill(0);", "policy.fill(0xFF);", "a start fills the policy record with 0xFF"),
    edit(
        "power-on-any-nv",
        POWER_ON,
        "if volatile.len() > MAX_STORE || policy.len() != POLICY_BYTES {",
        "power-on over an unsound non-volatile store",
    ),
    edit(
        "power-on-any-volatile-length",
        POWER_ON,
        "if !sound || policy.len() != POLICY_BYTES {",
        "power-on over a volatile store of any length",
    ),
    edit(
        "power-on-any-record",
        POWER_ON,
        "if !sound || volatile.len() > MAX_STORE {",
        "power-on over a policy record of any length",
    ),
    edit(
        "power-on-longer-record",
        POWER_ON,
        "if !sound || volatile.len() > MAX_STORE || policy.len() < POLICY_BYTES {",
        "power-on over a longer policy record",
    ),
    edit(
        "power-on-shorter-record",
        POWER_ON,
        "if !sound || volatile.len() > MAX_STORE || policy.len() > POLICY_BYTES {",
        "power-on over a shorter policy record",
    ),
    edit(
        "power-on-sound-volatile",
        POWER_ON,
        "if Pair::decode(non_volatile, volatile).is_none() || policy.len() != POLICY_BYTES {",
        "power-on needs a sound volatile store",
    ),
    edit(
        "power-on-sound-record",
        POWER_ON,
        "if !sound || volatile.len() > MAX_STORE || Policy::decode(policy).is_none() {",
        "power-on needs a sound policy record",
    ),
    edit("power-on-keeps-volatile", "    volatile.fill(0xFF);\n", "", "power-on keeps the volatile store"),
    edit(
        "power-on-zeroes-volatile",
        "volatile.fill(0xFF);",
        "volatile.fill(0);",
        "power-on fills the volatile store with zeros",
    ),
    edit(
        "restart-any-volatile",
        RESTART,
        "if store::decode(non_volatile, Kind::NonVolatile).is_none() || policy.len() != POLICY_BYTES {",
        "restart looks at the non-volatile store alone",
    ),
    edit(
        "restart-any-nv",
        RESTART,
        "if store::decode(volatile, Kind::Volatile).is_none() || policy.len() != POLICY_BYTES {",
        "restart looks at the volatile store alone",
    ),
    edit(
        "restart-each-alone",
        RESTART,
        "if store::decode(non_volatile, Kind::NonVolatile).is_none() || store::decode(volatile, \
         Kind::Volatile).is_none() || policy.len() != POLICY_BYTES {",
        "restart over a variable in both stores",
    ),
    edit(
        "restart-any-record",
        RESTART,
        "if Pair::decode(non_volatile, volatile).is_none() {",
        "restart over a policy record of any length",
    ),
    edit(
        "restart-longer-record",
        RESTART,
        "if Pair::decode(non_volatile, volatile).is_none() || policy.len() < POLICY_BYTES {",
        "restart over a longer policy record",
    ),
    edit(
        "restart-shorter-record",
        RESTART,
        "if Pair::decode(non_volatile, volatile).is_none() || policy.len() > POLICY_BYTES {",
        "restart over a shorter policy record",
    ),
    edit(
        "restart-sound-record",
        RESTART,
        "if Pair::decode(non_volatile, volatile).is_none() || Policy::decode(policy).is_none() {",
        "restart needs a sound policy record",
    ),
    edit(
        "register-locked-first",
        REGISTER_RECORD,
        "if switches.locked { return RegisterGround::Locked; } let Some(mut policy) = Policy::decode(record) else {",
        "register: 8 before 10",
    ),
    edit("register-unlocked", REGISTER_LOCKED, "let Some(decoded)", "a locked engine registers"),
    edit(
        "register-disabled",
        REGISTER_LOCKED,
        "if switches.locked || !switches.enabled { return RegisterGround::Locked; } let Some(decoded)",
        "a disabled engine does not register",
    ),
    edit(
        "register-malformed-first",
        REGISTER_LOCKED,
        "if Entry::decode(entry).is_none() { return RegisterGround::Malformed; } if switches.locked { return \
         RegisterGround::Locked; } let Some(decoded)",
        "register: 2 before 8",
    ),
    edit(
        "register-repeat-before-locked",
        REGISTER_LOCKED,
        "if Entry::decode(entry).is_some_and(|entry| policy.holds(&entry)) { return RegisterGround::Repeated; } if \
         switches.locked { return RegisterGround::Locked; } let Some(decoded)",
        "register: 20 before 8",
    ),
    edit(
        "register-full-before-locked",
        REGISTER_LOCKED,
        "if policy.entries.len() == MAX_ENTRIES { return RegisterGround::TooMany; } if switches.locked { return \
         RegisterGround::Locked; } let Some(decoded)",
        "register: 9 before 8 at the full count",
    ),
    edit(
        "register-full-before-malformed",
        "    let Some(decoded) = Entry::decode(entry) else {",
        "if policy.entries.len() == MAX_ENTRIES { return RegisterGround::TooMany; } let Some(decoded) = \
         Entry::decode(entry) else {",
        "register: 9 before 2 at the full count",
    ),
    edit(
        "register-sum-before-malformed",
        "    let Some(decoded) = Entry::decode(entry) else {",
        "if policy.encode().len() + entry.len() > POLICY_BYTES { return RegisterGround::TooLong; } let \
         Some(decoded) = Entry::decode(entry) else {",
        "register: 9 before 2 at the full sum",
    ),
    edit(
        "register-full-before-repeat",
        REPEATED,
        "if policy.entries.len() == MAX_ENTRIES { return RegisterGround::TooMany; } if policy.holds(&decoded) { \
         return RegisterGround::Repeated;",
        "register: 9 before 20 at the full count",
    ),
    edit(
        "register-sum-before-repeat",
        REPEATED,
        "if policy.encode().len() + entry.len() > POLICY_BYTES { return RegisterGround::TooLong; } if \
         policy.holds(&decoded) { return RegisterGround::Repeated;",
        "register: 9 before 20 at the full sum",
    ),
    edit(
        "register-repeat-replaces",
        REPEATED,
        "policy.entries.retain(|known| !known.repeats(&decoded)); if policy.holds(&decoded) { return \
         RegisterGround::Repeated;",
        "a repeat replaces the first",
    ),
    edit("register-repeats", REPEATED, "if false { return RegisterGround::Repeated;", "a repeat is registered"),
    edit("register-any-count", TOO_MANY, "", "any number of entries is registered"),
    edit(
        "register-count-more",
        TOO_MANY,
        "if policy.entries.len() > MAX_ENTRIES { return RegisterGround::TooMany; }",
        "one entry over the limit is registered",
    ),
    edit(
        "register-count-less",
        TOO_MANY,
        "if policy.entries.len() >= MAX_ENTRIES - 1 { return RegisterGround::TooMany; }",
        "one entry under the limit is the last that is registered",
    ),
    edit(
        "register-count-and-sum",
        TOO_MANY,
        "if policy.entries.len() == MAX_ENTRIES && policy.encode().len() + entry.len() > POLICY_BYTES { return \
         RegisterGround::TooMany; }",
        "an entry over the limit is registered where the sum is within its own",
    ),
    edit(
        "register-any-sum",
        TOO_LONG,
        "if bytes.len() > 2 * POLICY_BYTES { return RegisterGround::TooLong;",
        "any sum is registered",
    ),
    edit(
        "register-sum-more",
        TOO_LONG,
        "if bytes.len() > POLICY_BYTES + 2 { return RegisterGround::TooLong;",
        "a sum two bytes over the limit is registered",
    ),
    edit(
        "register-sum-below",
        TOO_LONG,
        "if bytes.len() >= POLICY_BYTES { return RegisterGround::TooLong;",
        "a sum at the limit is refused",
    ),
    edit(
        "register-sum-before",
        TOO_LONG,
        "if bytes.len() - entry.len() >= POLICY_BYTES { return RegisterGround::TooLong;",
        "an entry is registered while the sum before it is under the limit",
    ),
    edit(
        "register-sum-and-count",
        TOO_LONG,
        "if bytes.len() > POLICY_BYTES && policy.entries.len() == MAX_ENTRIES { return RegisterGround::TooLong;",
        "a sum over the limit is registered where the entries are under theirs",
    ),
    edit(
        "register-in-front",
        "policy.entries.push(decoded);",
        "policy.entries.insert(0, decoded);",
        "a new entry goes before the others",
    ),
    edit("dump-short-no-length", DUMP_SHORT, "None => (Status::BufferTooSmall, 0),", "no length beside 5"),
    edit(
        "dump-short-own-length",
        DUMP_SHORT,
        "None => (Status::BufferTooSmall, buffer.len()),",
        "the buffer's length beside 5",
    ),
    edit(
        "dump-short-count",
        DUMP_SHORT,
        "None => (Status::BufferTooSmall, policy.entries.len()),",
        "the number of entries beside 5",
    ),
    edit(
        "dump-short-writes",
        DUMP_SHORT,
        "None => { let len = buffer.len(); buffer.copy_from_slice(&bytes[..len]); (Status::BufferTooSmall, \
         bytes.len()) }",
        "a short buffer is filled",
    ),
    edit(
        "dump-not-exact",
        DUMP,
        "match if buffer.len() == bytes.len() { None } else { buffer.get_mut(..bytes.len()) } {",
        "an exact buffer is too short",
    ),
    edit(
        "dump-not-empty",
        DUMP,
        "match if buffer.is_empty() { None } else { buffer.get_mut(..bytes.len()) } {",
        "an empty buffer is too short for no entries",
    ),
    edit(
        "dump-clears-behind",
        "start.copy_from_slice(&bytes);\n            (Status::Success",
        "start.copy_from_slice(&bytes); buffer[bytes.len()..].fill(0); (Status::Success",
        "a dump clears the later bytes",
    ),
    edit(
        "dump-whole-record",
        "(Status::Success, bytes.len())",
        "(Status::Success, buffer.len())",
        "a dump returns the buffer's length",
    ),
    edit(
        "lock-twice",
        "if switches.locked {\n        return Status::WriteProtected;\n    }\n    switches.locked = true;",
        "switches.locked = true;",
        "a second lock succeeds",
    ),
    edit(
        "lock-takes-leave",
        "switches.locked = true;",
        "switches.locked = true; switches.disabling_allowed = false;",
        "a lock takes the leave to disable",
    ),
    edit(
        "lock-only-enabled",
        "if switches.locked {\n        return Status::WriteProtected;\n    }\n    switches.locked = true;",
        "if switches.locked || !switches.enabled { return Status::WriteProtected; } switches.locked = true;",
        "a disabled engine cannot be locked",
    ),
    edit("lock-does-nothing", "    switches.locked = true;\n", "", "lock answers 0 and does nothing"),
    edit("disable-twice", DISABLED, "", "a second disable is judged like the first"),
    edit(
        "disable-locked-first",
        DISABLED,
        "if switches.locked || !switches.disabling_allowed { return Status::WriteProtected; } if !switches.enabled \
         { return Status::AlreadyStarted; }",
        "disable: 8 before 20",
    ),
    edit("disable-locked", DISABLE, "if !switches.disabling_allowed {", "a locked engine can be disabled"),
    edit("disable-not-allowed", DISABLE, "if switches.locked {", "no leave is needed to disable"),
    edit(
        "disable-either",
        DISABLE,
        "if switches.locked && !switches.disabling_allowed {",
        "8 only if locked and not allowed",
    ),
    edit(
        "disable-locks",
        "switches.enabled = false;",
        "switches.enabled = false; switches.locked = true;",
        "a disabled engine is locked",
    ),
    edit(
        "query-locked",
        "(Status::Success, switches.enabled)",
        "(Status::Success, !switches.locked)",
        "the query tells whether it is unlocked",
    ),
    edit(
        "query-and-unlocked",
        "(Status::Success, switches.enabled)",
        "(Status::Success, switches.enabled && !switches.locked)",
        "a locked engine tells that it is disabled",
    ),
    edit(
        "read-name-first",
        "    let pair = Pair::decode(non_volatile, volatile).ok_or(Status::VolumeCorrupted)?;\n    let name = \
         name::decode_request(name).ok_or(Status::InvalidParameter)?;",
        "let name = name::decode_request(name).ok_or(Status::InvalidParameter)?; let pair = \
         Pair::decode(non_volatile, volatile).ok_or(Status::VolumeCorrupted)?;",
        "read: 2 before 10",
    ),
    edit(
        "read-bad-name-absent",
        "name::decode_request(name).ok_or(Status::InvalidParameter)?;\n    let (kind",
        "name::decode_request(name).ok_or(Status::NotFound)?; let (kind",
        "a variable of a bad name is absent",
    ),
    edit(
        "read-absent-bad",
        ".ok_or(Status::NotFound)?;",
        ".ok_or(Status::InvalidParameter)?;",
        "an absent variable is a bad parameter",
    ),
    edit(
        "read-attributes-0",
        "attributes: variable.attributes,\n        kind,",
        "attributes: 0, kind,",
        "a read tells no attributes",
    ),
    edit(
        "read-attributes-nv-bs",
        "attributes: variable.attributes,\n        kind,",
        "attributes: variable.attributes & 3, kind,",
        "a read does not tell RT",
    ),
    edit(
        "read-first-payload",
        "offset: before + variable.payload_at(),",
        "offset: variable.payload_at(),",
        "a read points into the first record",
    ),
    edit(
        "read-with-name",
        "offset: before + variable.payload_at(),",
        "offset: before + 32,",
        "a read points at the name",
    ),
    edit(
        "read-with-padding",
        "payload: variable.payload.clone(),",
        "payload: { let mut payload = variable.payload.clone(); payload.resize(variable.record_len() - \
         variable.payload_at(), 0xFF); payload },",
        "a read hands back the padding",
    ),
    edit(
        "read-first-store",
        "kind,\n        offset",
        "kind: Kind::NonVolatile, offset",
        "a read always names the non-volatile store",
    ),
    edit(
        "register-erased-behind",
        "bytes.resize(POLICY_BYTES, 0);",
        "bytes.resize(POLICY_BYTES, 0xFF);",
        "0xFF follows the entries",
    ),
    edit(
        "dump-buffer-16-bits",
        DUMP,
        "let len = buffer.len() & 0xFFFF; match buffer[..len].get_mut(..bytes.len()) {",
        "16 bits of the buffer's length count",
    ),
    edit(
        "status-record-2",
        "RegisterGround::BadRecord => Status::VolumeCorrupted",
        "RegisterGround::BadRecord => Status::InvalidParameter",
        "register over an unsound record answers 2",
    ),
    edit(
        "status-locked-2",
        "RegisterGround::Locked => Status::WriteProtected",
        "RegisterGround::Locked => Status::InvalidParameter",
        "a locked engine answers 2",
    ),
    edit(
        "status-malformed-8",
        "RegisterGround::Malformed => Status::InvalidParameter",
        "RegisterGround::Malformed => Status::WriteProtected",
        "a malformed entry answers 8",
    ),
    edit(
        "status-repeat-2",
        "RegisterGround::Repeated => Status::AlreadyStarted",
        "RegisterGround::Repeated => Status::InvalidParameter",
        "a repeat answers 2",
    ),
    edit(
        "status-full-8",
        "RegisterGround::TooMany | RegisterGround::TooLong => Status::OutOfResources",
        "RegisterGround::TooMany | RegisterGround::TooLong => Status::WriteProtected",
        "a full record answers 8",
    ),
];
