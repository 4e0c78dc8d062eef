//! The fourth switch (docs/RULES.md, 8.1 and 10.13): the call that sets it, what it closes, what reads show after it,
//! what sets may do, and what the policy must see all the same.

use super::calls::{POWER_ON, REFUSED, REGISTER_RECORD, RESTART, STARTED};
use super::former::DUMPED;
use super::reports::{NO_GROUND, NONE};
use super::set::{DELETED, FOUND, LOOKS_AT_RECORD, LOOKS_AT_STORES, POLICY, ROOM, STEPS_1_TO_3, UNKNOWN};
use super::{Edit, edit};

const EXIT: &str =
    "    if switches.exited {\n        return Status::Unsupported;\n    }\n    switches.exited = true;\n";
const EXITS: &str = "    switches.exited = true;\n";
const REGISTER: &str = "    if switches.exited {\n        return RegisterGround::Exited;\n    }\n";
const REGISTER_ANSWERS: &str = "RegisterGround::Exited => Status::Unsupported,";
const DUMP: &str = "    if switches.exited {\n        return (Status::Unsupported, 0);\n    }\n";
const LOCK: &str = "pub fn lock(switches: &mut Switches) -> Status {\n    if switches.exited {\n        return \
                    Status::Unsupported;\n    }\n";
const DISABLE: &str = "pub fn disable(switches: &mut Switches) -> Status {\n    if switches.exited {\n        return \
                       Status::Unsupported;\n    }\n";
const QUERY: &str = "(Status::Success, switches.enabled)";
const READ: &str = "    if switches.exited && !variable.is_runtime() {\n        return Err(Status::NotFound);\n    }\n";
const READ_STORES: &str = "    let pair = Pair::decode(non_volatile, volatile).ok_or(Status::VolumeCorrupted)?;\n";
const READ_NAME: &str = "name::decode_request(name).ok_or(Status::InvalidParameter)?;\n    let (kind";
const RUNTIME: &str = "self.is_deletion() || [NV, BS, RT].into_iter().all(|attribute| self.has(attribute))";
const REFUSED_SET: &str = "if exited && !request.is_for_runtime() {";
const SET_ANSWERS: &str = "NotForRuntime => Status::InvalidParameter,";
const DELETE: &str = "match to_delete(&pair, &request, &name, switches.exited) {";
const HIDDEN: &str = "    if exited && !variable.is_runtime() {\n        return Err(SetGround::DeleteHidden);\n    }\n";
const VOLATILE: &str =
    "    if exited && kind == Kind::Volatile {\n        return Err(SetGround::DeleteVolatile);\n    }\n";
const HIDDEN_ANSWERS: &str = "DeleteHidden => Status::NotFound,";
const VOLATILE_ANSWERS: &str = "DeleteVolatile => Status::WriteProtected,";
const STORES: &str = "    let ground = store_payload(&mut pair, &request, &name);\n";
const ASKS_POLICY: &str = "let Some(ground) = refused_by_policy(&policy, &pair, &request, &name)";
const STEPS_3_AND_4: &str = "match well_formed(&request, switches.exited) {\n        Ok(name) => name,\n        \
                             Err(ground) => return ground,\n    };\n    if switches.enabled\n        && let \
                             Some(ground) = refused_by_policy(&policy, &pair, &request, &name)\n    {\n        return \
                             ground;\n    }\n";

/// The policy asked over those variables alone, after exit, of which this holds.
macro_rules! asks_policy_over {
    ($kept:literal) => {
        concat!(
            "let Some(ground) = { let keep = |variable: &Variable| !switches.exited || ",
            $kept,
            "; let mut seen = pair.clone(); seen.non_volatile.retain(keep); seen.volatile.retain(keep); \
             refused_by_policy(&policy, &seen, &request, &name) }"
        )
    };
}

/// Step 5 after exit before step 4, for what it gives this ground.
macro_rules! step_5_before_4 {
    ($ground:literal) => {
        concat!(
            "if switches.exited && request.is_deletion() && let Err(ground @ ",
            $ground,
            ") = to_delete(&pair, &request, &name, true) { return ground; } if switches.enabled && let Some(ground)"
        )
    };
}

pub(super) const EDITS: &[Edit] = &[
    // The call.
    edit("exit-twice", EXIT, "switches.exited = true;", "a second exit succeeds"),
    edit("exit-turns", EXIT, "switches.exited = !switches.exited;", "a second exit takes the first back"),
    edit(
        "exit-twice-8",
        EXIT,
        "if switches.exited { return Status::WriteProtected; } switches.exited = true;",
        "a second exit answers 8",
    ),
    edit(
        "exit-twice-20",
        EXIT,
        "if switches.exited { return Status::AlreadyStarted; } switches.exited = true;",
        "a second exit answers 20",
    ),
    edit(
        "exit-not-locked",
        EXITS,
        "if switches.locked { return Status::WriteProtected; } switches.exited = true;",
        "a locked engine does not exit",
    ),
    edit(
        "exit-only-locked",
        EXITS,
        "if !switches.locked { return Status::WriteProtected; } switches.exited = true;",
        "only a locked engine exits",
    ),
    edit(
        "exit-not-disabled",
        EXITS,
        "if !switches.enabled { return Status::AlreadyStarted; } switches.exited = true;",
        "a disabled engine does not exit",
    ),
    edit(
        "exit-needs-leave",
        EXITS,
        "if !switches.disabling_allowed { return Status::WriteProtected; } switches.exited = true;",
        "an engine that may not be disabled does not exit",
    ),
    edit("exit-nothing", EXITS, "", "exit answers 0 and does nothing"),
    edit("exit-locks", EXITS, "switches.exited = true; switches.locked = true;", "exit locks"),
    edit("exit-unlocks", EXITS, "switches.exited = true; switches.locked = false;", "exit unlocks"),
    edit("exit-disables", EXITS, "switches.exited = true; switches.enabled = false;", "exit disables"),
    edit("exit-enables", EXITS, "switches.exited = true; switches.enabled = true;", "exit enables"),
    edit(
        "exit-takes-leave",
        EXITS,
        "switches.exited = true; switches.disabling_allowed = false;",
        "exit takes the leave to disable",
    ),
    edit(
        "exit-gives-leave",
        EXITS,
        "switches.exited = true; switches.disabling_allowed = true;",
        "exit gives leave to disable",
    ),
    // Starts.
    edit(
        "exit-refused-start",
        REFUSED,
        "Switches { enabled: true, locked: true, disabling_allowed: false, exited: true });",
        "a refused start hands back an engine that has exited",
    ),
    edit(
        "exit-started",
        STARTED,
        "Switches { enabled: true, locked: false, disabling_allowed, exited: true })",
        "an engine starts after exit",
    ),
    edit(
        "exit-started-with-leave",
        STARTED,
        "Switches { enabled: true, locked: false, disabling_allowed, exited: disabling_allowed })",
        "an engine that may be disabled starts after exit",
    ),
    edit(
        "exit-powered-on",
        "volatile.fill(0xFF);\n    started(policy, disabling_allowed)",
        "volatile.fill(0xFF); let (status, switches) = started(policy, disabling_allowed); (status, Switches { exited: \
         true, ..switches })",
        "an engine that is powered on has exited",
    ),
    edit(
        "exit-restarted",
        "return REFUSED;\n    }\n    started(policy, disabling_allowed)",
        "return REFUSED; } let (status, switches) = started(policy, disabling_allowed); (status, Switches { exited: \
         true, ..switches })",
        "an engine that is restarted has exited",
    ),
    edit(
        "exit-refused-power-on",
        POWER_ON,
        "if !sound || volatile.len() > MAX_STORE || policy.len() != POLICY_BYTES { return (REFUSED.0, Switches { \
         exited: true, ..REFUSED.1 }); } if false {",
        "a refused power-on hands back an engine that has exited",
    ),
    edit(
        "exit-refused-restart",
        RESTART,
        "if Pair::decode(non_volatile, volatile).is_none() || policy.len() != POLICY_BYTES { return (REFUSED.0, \
         Switches { exited: true, ..REFUSED.1 }); } if false {",
        "a refused restart hands back an engine that has exited",
    ),
    // Register.
    edit("exit-register", REGISTER, "", "register is granted after exit"),
    edit(
        "exit-register-8",
        REGISTER_ANSWERS,
        "RegisterGround::Exited => Status::WriteProtected,",
        "register answers 8 after exit",
    ),
    edit(
        "exit-register-0",
        REGISTER_ANSWERS,
        "RegisterGround::Exited => Status::Success,",
        "register answers 0 after exit and leaves nothing",
    ),
    edit(
        "exit-register-before-10",
        REGISTER_RECORD,
        "if switches.exited { return RegisterGround::Exited; } let Some(mut policy) = Policy::decode(record) else {",
        "register: 3 before 10",
    ),
    edit(
        "exit-register-locked-first",
        REGISTER,
        "if switches.exited && !switches.locked { return RegisterGround::Exited; }",
        "register: 8 before 3",
    ),
    edit(
        "exit-register-malformed-first",
        REGISTER,
        "if switches.exited { return if Entry::decode(entry).is_none() { RegisterGround::Malformed } else { \
         RegisterGround::Exited }; }",
        "register: 2 before 3",
    ),
    edit(
        "exit-register-repeat-first",
        REGISTER,
        "if switches.exited { return if Entry::decode(entry).is_some_and(|entry| policy.holds(&entry)) { \
         RegisterGround::Repeated } else { RegisterGround::Exited }; }",
        "register: 20 before 3",
    ),
    edit(
        "exit-register-full-first",
        REGISTER,
        "if switches.exited { return if policy.entries.len() == MAX_ENTRIES { RegisterGround::TooMany } else { \
         RegisterGround::Exited }; }",
        "register: 9 before 3 at the full count",
    ),
    edit(
        "exit-register-sum-first",
        REGISTER,
        "if switches.exited { return if policy.encode().len() + entry.len() > POLICY_BYTES { RegisterGround::TooLong } \
         else { RegisterGround::Exited }; }",
        "register: 9 before 3 at the full sum",
    ),
    edit(
        "exit-register-if-disabled",
        REGISTER,
        "if switches.exited && switches.enabled { return RegisterGround::Exited; }",
        "a disabled engine registers after exit",
    ),
    edit(
        "exit-register-first-entry",
        REGISTER,
        "if switches.exited && !policy.entries.is_empty() { return RegisterGround::Exited; }",
        "the first entry is registered after exit",
    ),
    // Dump.
    edit("exit-dump", DUMP, "", "dump is granted after exit"),
    edit(
        "exit-dump-8",
        DUMP,
        "if switches.exited { return (Status::WriteProtected, 0); }",
        "dump answers 8 after exit",
    ),
    edit(
        "exit-dump-length",
        DUMP,
        "if switches.exited { return (Status::Unsupported, policy.encode().len()); }",
        "dump tells the length beside 3",
    ),
    edit(
        "exit-dump-own-length",
        DUMP,
        "if switches.exited { return (Status::Unsupported, buffer.len()); }",
        "dump tells the buffer's length beside 3",
    ),
    edit(
        "exit-dump-writes",
        DUMP,
        "if switches.exited { let bytes = policy.encode(); if let Some(start) = buffer.get_mut(..bytes.len()) { \
         start.copy_from_slice(&bytes); } return (Status::Unsupported, 0); }",
        "dump writes the entries beside 3",
    ),
    edit(
        "exit-dump-clears",
        DUMP,
        "if switches.exited { buffer.fill(0); return (Status::Unsupported, 0); }",
        "dump clears the buffer beside 3",
    ),
    edit(
        "exit-dump-before-10",
        DUMPED,
        "if switches.exited { return (Status::Unsupported, 0); } let Some(policy) = Policy::decode(record) else { \
         return (Status::VolumeCorrupted, 0);",
        "dump: 3 before 10",
    ),
    edit(
        "exit-dump-short-first",
        DUMP,
        "if switches.exited { let needed = policy.encode().len(); return if buffer.len() < needed { \
         (Status::BufferTooSmall, needed) } else { (Status::Unsupported, 0) }; }",
        "dump: 5 before 3",
    ),
    edit(
        "exit-dump-into-nothing",
        DUMP,
        "if switches.exited && !buffer.is_empty() { return (Status::Unsupported, 0); }",
        "a dump into no bytes tells the length after exit",
    ),
    edit(
        "exit-dump-no-entries",
        DUMP,
        "if switches.exited && !policy.entries.is_empty() { return (Status::Unsupported, 0); }",
        "a dump of no entries is granted after exit",
    ),
    edit(
        "exit-dump-if-locked",
        DUMP,
        "if switches.exited && !switches.locked { return (Status::Unsupported, 0); }",
        "a locked engine dumps after exit",
    ),
    edit(
        "exit-dump-if-disabled",
        DUMP,
        "if switches.exited && switches.enabled { return (Status::Unsupported, 0); }",
        "a disabled engine dumps after exit",
    ),
    edit(
        "exit-dump-by-lock",
        DUMP,
        "if switches.exited || switches.locked { return (Status::Unsupported, 0); }",
        "a locked engine does not dump",
    ),
    // Lock and disable.
    edit("exit-lock", LOCK, "pub fn lock(switches: &mut Switches) -> Status {", "lock is granted after exit"),
    edit(
        "exit-lock-8",
        LOCK,
        "pub fn lock(switches: &mut Switches) -> Status { if switches.exited { return Status::WriteProtected; }",
        "lock answers 8 after exit",
    ),
    edit(
        "exit-lock-locked-first",
        LOCK,
        "pub fn lock(switches: &mut Switches) -> Status { if switches.exited && !switches.locked { return \
         Status::Unsupported; }",
        "lock: 8 before 3",
    ),
    edit(
        "exit-lock-if-disabled",
        LOCK,
        "pub fn lock(switches: &mut Switches) -> Status { if switches.exited && switches.enabled { return \
         Status::Unsupported; }",
        "a disabled engine is locked after exit",
    ),
    edit(
        "exit-lock-writes",
        LOCK,
        "pub fn lock(switches: &mut Switches) -> Status { if switches.exited { switches.locked = true; return \
         Status::Unsupported; }",
        "lock locks beside 3",
    ),
    edit(
        "exit-disable",
        DISABLE,
        "pub fn disable(switches: &mut Switches) -> Status {",
        "disable is granted after exit",
    ),
    edit(
        "exit-disable-8",
        DISABLE,
        "pub fn disable(switches: &mut Switches) -> Status { if switches.exited { return Status::WriteProtected; }",
        "disable answers 8 after exit",
    ),
    edit(
        "exit-disable-20-first",
        DISABLE,
        "pub fn disable(switches: &mut Switches) -> Status { if switches.exited && switches.enabled { return \
         Status::Unsupported; }",
        "disable: 20 before 3",
    ),
    edit(
        "exit-disable-locked-first",
        DISABLE,
        "pub fn disable(switches: &mut Switches) -> Status { if switches.exited && !(switches.enabled && \
         switches.locked) { return Status::Unsupported; }",
        "disable: the 8 of a lock before 3",
    ),
    edit(
        "exit-disable-leave-first",
        DISABLE,
        "pub fn disable(switches: &mut Switches) -> Status { if switches.exited && !(switches.enabled && \
         !switches.disabling_allowed) { return Status::Unsupported; }",
        "disable: the 8 of no leave before 3",
    ),
    edit(
        "exit-disable-writes",
        DISABLE,
        "pub fn disable(switches: &mut Switches) -> Status { if switches.exited { switches.enabled = false; return \
         Status::Unsupported; }",
        "disable disables beside 3",
    ),
    // Query.
    edit(
        "exit-query-3",
        QUERY,
        "(if switches.exited { Status::Unsupported } else { Status::Success }, switches.enabled)",
        "query answers 3 after exit",
    ),
    edit(
        "exit-query-disabled",
        QUERY,
        "(Status::Success, switches.enabled && !switches.exited)",
        "after exit the query tells that the engine is disabled",
    ),
    edit(
        "exit-query-enabled",
        QUERY,
        "(Status::Success, switches.enabled || switches.exited)",
        "after exit the query tells that the engine is enabled",
    ),
    // Read.
    edit("exit-read-all", READ, "", "after exit all variables are read"),
    edit(
        "exit-read-nothing",
        READ,
        "if switches.exited { return Err(Status::NotFound); }",
        "after exit no variable is read",
    ),
    edit(
        "exit-read-always",
        READ,
        "if !variable.is_runtime() { return Err(Status::NotFound); }",
        "variables without RT are not read before exit either",
    ),
    edit(
        "exit-read-not-volatile",
        READ,
        "if switches.exited && (!variable.is_runtime() || kind == Kind::Volatile) { return Err(Status::NotFound); }",
        "after exit volatile variables are not read",
    ),
    edit(
        "exit-read-by-nv",
        READ,
        "if switches.exited && kind == Kind::Volatile { return Err(Status::NotFound); }",
        "after exit NV in place of RT says what is read",
    ),
    edit(
        "exit-read-nv-or-rt",
        READ,
        "if switches.exited && !variable.is_runtime() && kind == Kind::Volatile { return Err(Status::NotFound); }",
        "after exit variables with NV or RT are read",
    ),
    edit(
        "exit-read-2",
        READ,
        "if switches.exited && !variable.is_runtime() { return Err(Status::InvalidParameter); }",
        "a read of a variable without RT answers 2 after exit",
    ),
    edit(
        "exit-read-3",
        READ,
        "if switches.exited && !variable.is_runtime() { return Err(Status::Unsupported); }",
        "a read of a variable without RT answers 3 after exit",
    ),
    edit(
        "exit-read-8",
        READ,
        "if switches.exited && !variable.is_runtime() { return Err(Status::WriteProtected); }",
        "a read of a variable without RT answers 8 after exit",
    ),
    edit(
        "exit-read-if-disabled",
        READ,
        "if switches.exited && switches.enabled && !variable.is_runtime() { return Err(Status::NotFound); }",
        "after exit a disabled engine reads all variables",
    ),
    edit(
        "exit-read-if-unlocked",
        READ,
        "if switches.exited && switches.locked && !variable.is_runtime() { return Err(Status::NotFound); }",
        "after exit an unlocked engine reads all variables",
    ),
    edit(
        "exit-read-by-lock",
        READ,
        "if switches.locked && !variable.is_runtime() { return Err(Status::NotFound); }",
        "a lock in place of exit hides variables without RT",
    ),
    edit(
        "exit-read-bad-name",
        READ_NAME,
        "name::decode_request(name).ok_or(if switches.exited { Status::NotFound } else { Status::InvalidParameter })?; \
         let (kind",
        "after exit a variable of a bad name is not found",
    ),
    edit(
        "exit-read-before-10",
        READ_STORES,
        "let pair = Pair::decode(non_volatile, volatile).ok_or(if switches.exited { Status::NotFound } else { \
         Status::VolumeCorrupted })?;",
        "after exit nothing is found in unsound stores",
    ),
    edit(
        "exit-read-offset",
        "pair.of(kind)[..place].iter().map(Variable::record_len).sum();",
        "pair.of(kind)[..place].iter().filter(|variable| !switches.exited || variable.is_runtime()) \
         .map(Variable::record_len).sum();",
        "after exit records without RT are not counted in an offset",
    ),
    edit(
        "exit-read-attributes",
        "attributes: variable.attributes,\n        kind,",
        "attributes: if switches.exited { variable.attributes & !BS } else { variable.attributes }, kind,",
        "after exit a read does not tell BS",
    ),
    // Step 3.
    edit("exit-set-any", REFUSED_SET, "if false {", "after exit any attributes will do"),
    edit("exit-set-nothing", REFUSED_SET, "if exited && !request.is_deletion() {", "after exit nothing is set"),
    edit("exit-set-always", REFUSED_SET, "if !request.is_for_runtime() {", "a set needs NV, BS and RT before exit too"),
    edit("exit-set-rt", RUNTIME, "self.is_deletion() || self.has(RT)", "after exit a set does not need NV"),
    edit("exit-set-nv", RUNTIME, "self.is_deletion() || self.has(NV)", "after exit a set does not need RT"),
    edit("exit-set-nv-or-rt", RUNTIME, "self.is_deletion() || self.has(NV | RT)", "after exit a set needs NV or RT"),
    edit(
        "exit-set-deletions",
        RUNTIME,
        "[NV, BS, RT].into_iter().all(|attribute| self.has(attribute))",
        "after exit a deletion needs NV, BS and RT",
    ),
    edit(
        "exit-set-deletions-by-bits",
        RUNTIME,
        "self.is_deletion() && self.payload.is_empty() || [NV, BS, RT].into_iter().all(|attribute| self.has(attribute))",
        "after exit a deletion with a payload needs NV, BS and RT",
    ),
    edit(
        "exit-set-deletions-with-bits",
        RUNTIME,
        "self.is_deletion() && !self.has(BS) || [NV, BS, RT].into_iter().all(|attribute| self.has(attribute))",
        "after exit a deletion with BS needs NV and RT",
    ),
    edit(
        "exit-set-no-append",
        RUNTIME,
        "self.is_deletion() || self.attributes == NV | BS | RT",
        "after exit nothing is appended",
    ),
    edit(
        "exit-set-any-append",
        RUNTIME,
        "self.is_deletion() || self.has(APPEND) || [NV, BS, RT].into_iter().all(|attribute| self.has(attribute))",
        "after exit an append may have any attributes",
    ),
    edit(
        "exit-set-empty-append",
        RUNTIME,
        "self.payload.is_empty() || self.is_deletion() || [NV, BS, RT].into_iter().all(|attribute| self.has(attribute))",
        "after exit an empty append may have any attributes",
    ),
    edit(
        "exit-set-before-2",
        UNKNOWN,
        "if exited && !request.is_for_runtime() { return Err(SetGround::NotForRuntime); } if request.has(!(NV | BS | RT \
         | APPEND)) {",
        "step 3 after exit before step 2",
    ),
    edit(
        "exit-set-before-10",
        LOOKS_AT_STORES,
        "if switches.exited && !request.is_for_runtime() { return SetGround::NotForRuntime; } let Some(mut pair) = \
         Pair::decode(non_volatile, volatile) else {",
        "step 3 after exit before 10 for a store",
    ),
    edit(
        "exit-set-before-record",
        LOOKS_AT_RECORD,
        "if switches.exited && !request.is_for_runtime() { return SetGround::NotForRuntime; } let Some(policy) = \
         Policy::decode(record) else { return SetGround::BadRecord; };",
        "step 3 after exit before 10 for the policy record",
    ),
    edit(
        "exit-set-behind-4",
        STEPS_3_AND_4,
        "match well_formed(&request, false) { Ok(name) => name, Err(ground) => return ground }; if switches.enabled && \
         let Some(ground) = refused_by_policy(&policy, &pair, &request, &name) { return ground; } if switches.exited && \
         !request.is_for_runtime() { return SetGround::NotForRuntime; }",
        "step 3 after exit behind step 4",
    ),
    edit(
        "exit-set-behind-lock",
        STEPS_3_AND_4,
        "match well_formed(&request, false) { Ok(name) => name, Err(ground) => return ground }; let said = if \
         switches.enabled { refused_by_policy(&policy, &pair, &request, &name) } else { None }; if switches.exited && \
         !request.is_for_runtime() && said.is_none_or(|ground| ground.status() != Status::WriteProtected) { return \
         SetGround::NotForRuntime; } if let Some(ground) = said { return ground; }",
        "step 3 after exit behind the lock of step 4",
    ),
    edit("exit-set-8", SET_ANSWERS, "NotForRuntime => Status::WriteProtected,", "step 3 after exit answers 8"),
    edit("exit-set-3", SET_ANSWERS, "NotForRuntime => Status::Unsupported,", "step 3 after exit answers 3"),
    edit(
        "exit-set-existing",
        STEPS_1_TO_3,
        "let exited = switches.exited && name::decode_request(request.name).is_none_or(|name| \
         pair.find(request.namespace, &name).is_none()); let name = match well_formed(&request, exited) {",
        "after exit a variable that exists may be set with its own attributes",
    ),
    edit(
        "exit-set-new",
        STEPS_1_TO_3,
        "let exited = switches.exited && name::decode_request(request.name).is_none_or(|name| \
         pair.find(request.namespace, &name).is_some()); let name = match well_formed(&request, exited) {",
        "after exit a new variable may have any attributes",
    ),
    edit(
        "exit-set-by-lock",
        STEPS_1_TO_3,
        "let name = match well_formed(&request, switches.locked) {",
        "a lock in place of exit makes a set need NV, BS and RT",
    ),
    edit(
        "exit-set-if-disabled",
        STEPS_1_TO_3,
        "let name = match well_formed(&request, switches.exited && switches.enabled) {",
        "after exit a disabled engine is not asked for attributes",
    ),
    edit(
        "exit-set-if-unlocked",
        STEPS_1_TO_3,
        "let name = match well_formed(&request, switches.exited && switches.locked) {",
        "after exit an unlocked engine is not asked for attributes",
    ),
    // Step 4.
    edit(
        "exit-policy-off",
        POLICY,
        "if switches.enabled && !switches.exited && let Some(ground)",
        "after exit no entry is enforced",
    ),
    edit(
        "exit-policy-on",
        POLICY,
        "if (switches.enabled || switches.exited) && let Some(ground)",
        "after exit a disabled engine enforces",
    ),
    edit(
        "exit-policy-not-deletions",
        POLICY,
        "if switches.enabled && !(switches.exited && request.is_deletion()) && let Some(ground)",
        "after exit a deletion is let past the lock",
    ),
    edit(
        "exit-policy-shown",
        ASKS_POLICY,
        asks_policy_over!("variable.is_runtime()"),
        "after exit the policy sees only what is read",
    ),
    edit(
        "exit-policy-nv",
        ASKS_POLICY,
        asks_policy_over!("variable.attributes & NV != 0"),
        "after exit the policy sees the non-volatile store alone",
    ),
    edit(
        "exit-trigger-hidden",
        ASKS_POLICY,
        asks_policy_over!("variable.is_runtime() || variable.is(request.namespace, &name)"),
        "after exit a trigger without RT locks nothing",
    ),
    edit(
        "exit-trigger-volatile",
        ASKS_POLICY,
        asks_policy_over!("variable.attributes & NV != 0 || variable.is(request.namespace, &name)"),
        "after exit a volatile trigger locks nothing",
    ),
    edit(
        "exit-create-hidden",
        ASKS_POLICY,
        asks_policy_over!(
            "request.has(APPEND) || variable.is_runtime() || !variable.is(request.namespace, &name) || \
             request.is_deletion()"
        ),
        "after exit type 2 lets a variable without RT be set",
    ),
    edit(
        "exit-create-hidden-deletions",
        ASKS_POLICY,
        asks_policy_over!("!request.is_deletion() || variable.is_runtime() || !variable.is(request.namespace, &name)"),
        "after exit type 2 lets a variable without RT be deleted",
    ),
    edit(
        "exit-create-volatile",
        ASKS_POLICY,
        asks_policy_over!(
            "variable.attributes & NV != 0 || !variable.is(request.namespace, &name) || request.has(APPEND)"
        ),
        "after exit type 2 does not lock a volatile variable",
    ),
    edit(
        "exit-append-hidden",
        ASKS_POLICY,
        asks_policy_over!("!request.has(APPEND) || variable.is_runtime() || !variable.is(request.namespace, &name)"),
        "after exit an append to a variable without RT is measured by its own length",
    ),
    edit(
        "exit-append-volatile",
        ASKS_POLICY,
        asks_policy_over!(
            "!request.has(APPEND) || variable.attributes & NV != 0 || !variable.is(request.namespace, &name)"
        ),
        "after exit an append to a volatile variable is measured by its own length",
    ),
    // Step 5.
    edit(
        "exit-delete-any",
        DELETE,
        "match to_delete(&pair, &request, &name, false) {",
        "after exit any variable is deleted",
    ),
    edit("exit-delete-hidden", HIDDEN, "", "after exit a variable without RT is deleted"),
    edit("exit-delete-volatile", VOLATILE, "", "after exit a volatile variable is deleted"),
    edit(
        "exit-delete-hidden-always",
        HIDDEN,
        "if !variable.is_runtime() { return Err(SetGround::DeleteHidden); }",
        "a variable without RT is not deleted before exit either",
    ),
    edit(
        "exit-delete-volatile-always",
        VOLATILE,
        "if kind == Kind::Volatile { return Err(SetGround::DeleteVolatile); }",
        "a volatile variable is not deleted before exit either",
    ),
    edit(
        "exit-delete-hidden-nv",
        HIDDEN,
        "if exited && !variable.is_runtime() && kind == Kind::Volatile { return Err(SetGround::DeleteHidden); }",
        "after exit a non-volatile variable without RT is deleted",
    ),
    edit(
        "exit-delete-hidden-8",
        HIDDEN_ANSWERS,
        "DeleteHidden => Status::WriteProtected,",
        "deleting a variable without RT answers 8 after exit",
    ),
    edit(
        "exit-delete-hidden-2",
        HIDDEN_ANSWERS,
        "DeleteHidden => Status::InvalidParameter,",
        "deleting a variable without RT answers 2 after exit",
    ),
    edit(
        "exit-delete-hidden-0",
        HIDDEN_ANSWERS,
        "DeleteHidden => Status::Success,",
        "deleting a variable without RT answers 0 after exit and leaves it",
    ),
    edit(
        "exit-delete-volatile-14",
        VOLATILE_ANSWERS,
        "DeleteVolatile => Status::NotFound,",
        "deleting a volatile variable answers 14 after exit",
    ),
    edit(
        "exit-delete-volatile-2",
        VOLATILE_ANSWERS,
        "DeleteVolatile => Status::InvalidParameter,",
        "deleting a volatile variable answers 2 after exit",
    ),
    edit(
        "exit-delete-8-first",
        HIDDEN,
        "if exited && kind == Kind::Volatile { return Err(SetGround::DeleteVolatile); } if exited && \
         !variable.is_runtime() { return Err(SetGround::DeleteHidden); }",
        "step 5 after exit: 8 before 14",
    ),
    edit(
        "exit-delete-absent-8",
        FOUND,
        "let (kind, place, variable) = pair.find(request.namespace, name).ok_or(if exited && !request.has(NV) { \
         SetGround::DeleteVolatile } else { SetGround::DeleteAbsent })?;",
        "after exit deleting nothing without NV answers 8",
    ),
    edit(
        "exit-delete-by-request",
        HIDDEN,
        "if exited && !request.has(RT) { return Err(SetGround::DeleteHidden); }",
        "after exit the request's RT says whether a variable is deleted",
    ),
    edit(
        "exit-delete-by-request-nv",
        VOLATILE,
        "if exited && !request.has(NV) { return Err(SetGround::DeleteVolatile); }",
        "after exit the request's NV says whether a variable is deleted",
    ),
    edit("exit-delete-before-4", POLICY, step_5_before_4!("_"), "step 5 after exit before step 4"),
    edit(
        "exit-delete-absent-before-4",
        POLICY,
        step_5_before_4!("SetGround::DeleteAbsent"),
        "step 5 after exit: 14 for nothing before the lock",
    ),
    edit(
        "exit-delete-hidden-before-4",
        POLICY,
        step_5_before_4!("SetGround::DeleteHidden"),
        "step 5 after exit: 14 without RT before the lock",
    ),
    edit(
        "exit-delete-volatile-before-4",
        POLICY,
        step_5_before_4!("SetGround::DeleteVolatile"),
        "step 5 after exit: the 8 without a ground before the lock",
    ),
    edit(
        "exit-delete-by-lock",
        DELETE,
        "match to_delete(&pair, &request, &name, switches.locked) {",
        "a lock in place of exit keeps variables from being deleted",
    ),
    edit(
        "exit-delete-if-disabled",
        DELETE,
        "match to_delete(&pair, &request, &name, switches.exited && switches.enabled) {",
        "after exit a disabled engine deletes any variable",
    ),
    edit(
        "exit-delete-if-unlocked",
        DELETE,
        "match to_delete(&pair, &request, &name, switches.exited && switches.locked) {",
        "after exit an unlocked engine deletes any variable",
    ),
    edit(
        "exit-delete-nothing",
        DELETED,
        "if !switches.exited { pair.of_mut(kind).remove(place); }",
        "after exit a deletion answers 0 and removes nothing",
    ),
    edit(
        "exit-delete-hidden-too",
        DELETED,
        "pair.of_mut(kind).remove(place); pair.of_mut(kind).retain(|variable| !switches.exited || \
         variable.is_runtime());",
        "after exit a deletion removes the records without RT too",
    ),
    edit(
        "exit-delete-rt-first",
        DELETED,
        "pair.of_mut(kind).remove(place); if switches.exited { pair.of_mut(kind).sort_by_key(|variable| \
         !variable.is_runtime()); }",
        "after exit a deletion moves the records with RT to the front",
    ),
    // Steps 6 to 10.
    edit(
        "exit-step6-hidden",
        STORES,
        "if switches.exited { let keep = |variable: &Variable| variable.is_runtime() || !variable.is(request.namespace, \
         &name); pair.non_volatile.retain(keep); pair.volatile.retain(keep); } let ground = store_payload(&mut pair, \
         &request, &name);",
        "after exit a variable without RT is set anew with RT",
    ),
    edit(
        "exit-step6-volatile",
        STORES,
        "if switches.exited { pair.volatile.retain(|variable| !variable.is(request.namespace, &name)); } let ground = \
         store_payload(&mut pair, &request, &name);",
        "after exit a volatile variable is set anew with NV",
    ),
    edit(
        "exit-step6-hidden-14",
        STORES,
        "if switches.exited && pair.find(request.namespace, &name).is_some_and(|found| !found.2.is_runtime()) { return \
         SetGround::DeleteHidden; } let ground = store_payload(&mut pair, &request, &name);",
        "after exit a set of a variable without RT answers 14",
    ),
    edit(
        "exit-step6-volatile-8",
        STORES,
        "if switches.exited && pair.find(request.namespace, &name).is_some_and(|found| found.0 == Kind::Volatile) { \
         return SetGround::DeleteVolatile; } let ground = store_payload(&mut pair, &request, &name);",
        "after exit a set of a volatile variable answers 8",
    ),
    edit(
        "exit-step9-hidden",
        ROOM,
        "let needed: usize = pair.non_volatile.iter().filter(|variable| !switches.exited || \
         variable.is_runtime()).map(Variable::record_len).sum(); if needed > non_volatile.len() || \
         encoded_len(&pair.volatile) > volatile.len() {",
        "after exit records without RT need no room",
    ),
    edit(
        "exit-step9-volatile",
        ROOM,
        "let others = if switches.exited { encoded_len(&pair.volatile) } else { 0 }; if \
         encoded_len(&pair.non_volatile) + others > non_volatile.len() || encoded_len(&pair.volatile) > volatile.len() {",
        "after exit the volatile records need room in the other store",
    ),
    edit(
        "exit-step10-erases",
        "write_back(volatile, &pair.volatile);\n    ground",
        "if switches.exited { pair.volatile.clear(); } write_back(volatile, &pair.volatile); ground",
        "after exit a set erases the volatile store",
    ),
    edit(
        "exit-step10-hidden-too",
        "    write_back(non_volatile, &pair.non_volatile);\n    write_back(volatile, &pair.volatile);\n    ground",
        "if switches.exited { pair.non_volatile.retain(Variable::is_runtime); } write_back(non_volatile, \
         &pair.non_volatile); write_back(volatile, &pair.volatile); ground",
        "after exit a set removes the records without RT",
    ),
];

/// The bytes of the switches.
pub(super) const SWITCH_EDITS: &[Edit] = &[
    edit("exit-byte-1", "exited: self.exited > 0,", "exited: self.exited == 1,", "only 1 means exited"),
    edit("exit-byte-0", "exited: self.exited > 0,", "exited: self.exited != 1,", "any byte but 1 means exited"),
    edit(
        "exit-byte-low-bit",
        "exited: self.exited > 0,",
        "exited: self.exited & 1 == 1,",
        "the low bit alone means exited",
    ),
    edit("exit-byte-7-bits", "exited: self.exited > 0,", "exited: self.exited & 0x7F > 0,", "7 bits of exited count"),
    edit("exit-byte-never", "exited: self.exited > 0,", "exited: false,", "no byte means exited"),
    edit(
        "exit-byte-locked",
        "exited: self.exited > 0,",
        "exited: self.locked > 0 && self.exited > 0,",
        "only a locked engine has exited",
    ),
    edit(
        "exit-byte-crossed",
        "locked: self.locked > 0,\n            disabling_allowed: gives_leave(self.disabling_allowed),\n            \
         exited: self.exited > 0,",
        "locked: self.exited > 0, disabling_allowed: gives_leave(self.disabling_allowed), exited: self.locked > 0,",
        "the bytes of locked and exited are crossed",
    ),
    edit(
        "exit-byte-last-crossed",
        "disabling_allowed: gives_leave(self.disabling_allowed),\n            exited: self.exited > 0,",
        "disabling_allowed: gives_leave(self.exited), exited: self.disabling_allowed > 0,",
        "the last two bytes are crossed",
    ),
    edit(
        "exit-byte-255",
        "exited: switches.exited.into(),",
        "exited: if switches.exited { 0xFF } else { 0 },",
        "exit leaves 0xff",
    ),
    edit(
        "exit-byte-written",
        "exited: if left.exited == before.exited { self.exited } else { written.exited },",
        "exited: written.exited,",
        "a refused call makes a byte of exited 1",
    ),
    edit(
        "exit-byte-kept",
        "exited: if left.exited == before.exited { self.exited } else { written.exited },",
        "exited: self.exited,",
        "exit writes no byte",
    ),
    edit(
        "exit-byte-enabled",
        "enabled: if left.enabled == before.enabled { self.enabled }",
        "enabled: if left.enabled == before.enabled && left.exited == before.exited { self.enabled }",
        "exit makes a byte of enabled 1",
    ),
    edit(
        "exit-byte-locked-too",
        "locked: if left.locked == before.locked { self.locked }",
        "locked: if left.locked == before.locked && left.exited == before.exited { self.locked }",
        "exit makes a byte of locked 1",
    ),
    edit(
        "exit-byte-leave",
        "disabling_allowed: if left.disabling_allowed == before.disabling_allowed {",
        "disabling_allowed: if left.disabling_allowed == before.disabling_allowed && left.exited == before.exited {",
        "exit makes a byte of disabling allowed 0 or 1",
    ),
];

/// The report, in which none of this is a ground.
pub(super) const REPORT_EDITS: &[Edit] = &[
    edit(
        "exit-report-of-step-3",
        NO_GROUND,
        "NotForRuntime => Ground::Attributes, _ => Ground::None,",
        "step 3 after exit is reported as attributes",
    ),
    edit(
        "exit-report-of-14",
        NO_GROUND,
        "DeleteHidden => Ground::Lock, _ => Ground::None,",
        "the 14 of step 5 after exit is reported as a lock",
    ),
    edit(
        "exit-report-of-8",
        NO_GROUND,
        "DeleteVolatile => Ground::Lock, _ => Ground::None,",
        "the 8 of step 5 after exit is reported as a lock",
    ),
    edit(
        "exit-report-of-8-alone",
        NONE,
        "Ground::None if decided == SetGround::DeleteVolatile => Report { ground: Ground::Lock, ..Report::NONE }, \
         Ground::None => Report::NONE,",
        "the 8 of step 5 after exit is reported as a lock by no entry",
    ),
];
