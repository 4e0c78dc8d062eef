//! Set, step by step, and the steps in other orders.

use super::{Edit, edit};

const DELETION: &str = "!self.has(APPEND) && (self.payload.is_empty() || !self.has(BS | RT))";
pub(super) const LOOKS_AT_RECORD: &str =
    "    let Some(policy) = Policy::decode(record) else {\n        return SetGround::BadRecord;\n    };\n";
pub(super) const LOOKS_AT_STORES: &str = "    let Some(mut pair) = Pair::decode(non_volatile, volatile) else {";
pub(super) const STEPS_1_TO_3: &str = "    let name = match well_formed(&request, switches.exited) {";
const PAYLOAD: &str = "if request.payload.len() > MAX_PAYLOAD {";
pub(super) const UNKNOWN: &str = "if request.has(!(NV | BS | RT | APPEND)) {";
pub(super) const NAME: &str = "    let name = name::decode_request(request.name).ok_or(SetGround::BadName)?;\n";
const WITHOUT_BS: &str = "if request.has(RT | APPEND) && !request.has(BS) {";
pub(super) const POLICY: &str = "    if switches.enabled\n        && let Some(ground)";
pub(super) const ASKED: &str = "if !request.is_deletion() {\n        let length";
pub(super) const MIN: &str = "if length < entry.min_size {";
pub(super) const MAX: &str = "if length > entry.max_size {";
pub(super) const MUST: &str = "if entry.must_have & !request.attributes != 0 {";
const CANT: &str = "if request.has(entry.cant_have) {";
pub(super) const NOW: &str = "LockRule::LockNow => Some(SetGround::LockedNow),";
const ON_CREATE: &str = "pair.find(request.namespace, name).map(|_| SetGround::LockedOnCreate)";
pub(super) const TRIGGER: &str = "pair.find(&trigger.namespace, &trigger.name)?;";
const TRIGGERED: &str = "(variable.payload == [trigger.value]).then_some(SetGround::LockedOnVarState)";
pub(super) const CHOSEN: &str = "    let entry = policy.choose(request.namespace, name)?;\n";
pub(super) const DELETED: &str = "pair.of_mut(kind).remove(place);";
const DELETES: &str = "    if request.is_deletion() {\n        let (kind, place)";
pub(super) const FOUND: &str =
    "let (kind, place, variable) = pair.find(request.namespace, name).ok_or(SetGround::DeleteAbsent)?;";
const OTHERS: &str = "stored != attributes)";
const EMPTY_APPEND: &str =
    "    if append && request.payload.is_empty() {\n        return SetGround::EmptyAppend;\n    }\n";
const OTHER_ATTRIBUTES: &str = "    if found.is_some_and(|(_, _, stored)| stored != attributes) {";
const KIND: &str = "let kind = if attributes & NV != 0 { Kind::NonVolatile } else { Kind::Volatile };";
const CREATED: &str = "pair.of_mut(kind).push(Variable { namespace, name: name.to_vec(), attributes, payload });";
const JOINED: &str = "    let payload = payload_afterwards(pair, request, name);\n";
const LONG: &str = "    if append && payload.len() > MAX_PAYLOAD {\n        return SetGround::AppendTooLong;";
const REWRITTEN: &str = "    pair.of_mut(kind)[place].payload = payload;\n";
pub(super) const ROOM: &str =
    "if encoded_len(&pair.non_volatile) > non_volatile.len() || encoded_len(&pair.volatile) > volatile.len() {";

pub(super) const EDITS: &[Edit] = &[
    // Before the steps.
    edit(
        "set-record-if-enabled",
        LOOKS_AT_RECORD,
        "let policy = match Policy::decode(record) { Some(policy) => policy, None if switches.enabled => return \
         SetGround::BadRecord, None => Policy::default(), };",
        "a disabled engine does not look at the policy record",
    ),
    edit(
        "set-record-any",
        LOOKS_AT_RECORD,
        "let policy = Policy::decode(record).unwrap_or_default();",
        "set over an unsound policy record",
    ),
    edit(
        "set-steps-before-stores",
        LOOKS_AT_STORES,
        "if let Err(ground) = well_formed(&request, switches.exited) { return ground; } let Some(mut pair) = \
         Pair::decode(non_volatile, volatile) else {",
        "set: steps 1 to 3 before 10 for a store",
    ),
    edit(
        "set-steps-before-record",
        LOOKS_AT_RECORD,
        "if let Err(ground) = well_formed(&request, switches.exited) { return ground; } let Some(policy) = \
         Policy::decode(record) else { return SetGround::BadRecord; };",
        "set: steps 1 to 3 before 10 for the policy record",
    ),
    edit(
        "set-locked-engine",
        STEPS_1_TO_3,
        "if switches.locked { return SetGround::LockedNow; } let name = match well_formed(&request, switches.exited) {",
        "a locked engine sets nothing",
    ),
    // What a deletion is.
    edit("deletion-append", DELETION, "self.payload.is_empty() || !self.has(BS | RT)", "an empty append is a deletion"),
    edit(
        "deletion-empty-only",
        DELETION,
        "!self.has(APPEND) && self.payload.is_empty()",
        "only an empty payload makes a deletion",
    ),
    edit(
        "deletion-attributes-only",
        DELETION,
        "!self.has(APPEND) && !self.has(BS | RT)",
        "only missing attributes make a deletion",
    ),
    edit(
        "deletion-both",
        DELETION,
        "!self.has(APPEND) && (self.payload.is_empty() && !self.has(BS | RT))",
        "a deletion has neither payload nor attributes",
    ),
    edit(
        "deletion-nv",
        DELETION,
        "!self.has(APPEND) && (self.payload.is_empty() || !self.has(NV | BS | RT))",
        "NV alone with a payload is no deletion",
    ),
    edit(
        "deletion-payload-0",
        DELETION,
        "!self.has(APPEND) && (self.payload.is_empty() || self.payload == [0] || !self.has(BS | RT))",
        "a payload of one zero is a deletion",
    ),
    // Steps 1 to 3.
    edit("step1-payload-below", PAYLOAD, "if request.payload.len() >= MAX_PAYLOAD {", "a payload of 1,024 is too long"),
    edit(
        "step1-payload-not-deletions",
        PAYLOAD,
        "if request.payload.len() > MAX_PAYLOAD && !request.is_deletion() {",
        "a deletion may have any payload",
    ),
    edit(
        "step1-payload-16-bits",
        PAYLOAD,
        "if request.payload.len() as u16 as usize > MAX_PAYLOAD {",
        "16 bits of the payload's length count",
    ),
    edit("step1-payload-any", PAYLOAD, "if false {", "a payload of any length"),
    edit("step2-8", UNKNOWN, "if request.has(!(NV | BS | RT | APPEND | 0x8)) {", "bit 8 is let by"),
    edit("step2-0x10", UNKNOWN, "if request.has(!(NV | BS | RT | APPEND | 0x10)) {", "bit 0x10 is let by"),
    edit("step2-0x20", UNKNOWN, "if request.has(!(NV | BS | RT | APPEND | 0x20)) {", "bit 0x20 is let by"),
    edit("step2-0x80", UNKNOWN, "if request.has(!(NV | BS | RT | APPEND | 0x80)) {", "bit 0x80 is let by"),
    edit("step2-0x100", UNKNOWN, "if request.has(!(NV | BS | RT | APPEND | 0x100)) {", "bit 0x100 is let by"),
    edit("step2-0x400000", UNKNOWN, "if request.has(!(NV | BS | RT | APPEND | 0x40_0000)) {", "bit 0x400000 is let by"),
    edit(
        "step2-0x80000000",
        UNKNOWN,
        "if request.has(!(NV | BS | RT | APPEND | 0x8000_0000)) {",
        "bit 0x80000000 is let by",
    ),
    edit("step2-byte", UNKNOWN, "if request.has(0xB8) {", "only the low byte of the attributes counts"),
    edit("step2-half", UNKNOWN, "if request.has(0xFFB8) {", "only the low half of the attributes counts"),
    edit(
        "step2-before-1",
        NAME,
        "if request.has(!(NV | BS | RT | APPEND)) { return Err(SetGround::UnknownAttribute); } let name = \
         name::decode_request(request.name).ok_or(SetGround::BadName)?;",
        "step 2 before step 1",
    ),
    edit(
        "step2-before-1-payload",
        PAYLOAD,
        "if request.has(!(NV | BS | RT | APPEND)) { return Err(SetGround::UnknownAttribute); } if \
         request.payload.len() > MAX_PAYLOAD {",
        "step 2 before the payload of step 1",
    ),
    edit(
        "step2-not-deletions",
        UNKNOWN,
        "if request.has(!(NV | BS | RT | APPEND)) && !request.is_deletion() {",
        "a deletion may have unknown bits",
    ),
    edit(
        "step3-before-2",
        UNKNOWN,
        "if request.has(RT | APPEND) && !request.has(BS) { return Err(SetGround::WithoutBootService); } if \
         request.has(!(NV | BS | RT | APPEND)) {",
        "step 3 before step 2",
    ),
    edit("step3-rt", WITHOUT_BS, "if request.has(APPEND) && !request.has(BS) {", "RT without BS is let by"),
    edit("step3-append", WITHOUT_BS, "if request.has(RT) && !request.has(BS) {", "append without BS is let by"),
    edit(
        "step3-both",
        WITHOUT_BS,
        "if request.has(RT) && request.has(APPEND) && !request.has(BS) {",
        "only RT and append without BS are refused",
    ),
    edit("step3-nv", WITHOUT_BS, "if request.has(NV | RT | APPEND) && !request.has(BS) {", "NV without BS is refused"),
    edit(
        "step3-not-empty",
        WITHOUT_BS,
        "if request.has(RT | APPEND) && !request.has(BS) && !request.payload.is_empty() {",
        "RT without BS is let by with no payload",
    ),
    // Step 4.
    edit("step4-disabled", POLICY, "if true && let Some(ground)", "a disabled engine enforces"),
    edit("step4-never", POLICY, "if false && let Some(ground)", "no entry is enforced"),
    edit(
        "step4-only-locked",
        POLICY,
        "if switches.locked && let Some(ground)",
        "entries are enforced once the engine is locked",
    ),
    edit(
        "step4-not-deletions",
        POLICY,
        "if switches.enabled && !request.is_deletion() && let Some(ground)",
        "a deletion is let past the lock",
    ),
    edit(
        "step4-before-2",
        STEPS_1_TO_3,
        "if switches.enabled && let Some(name) = name::decode_request(request.name) && let Some(ground) = \
         refused_by_policy(&policy, &pair, &request, &name) { return ground; } let name = match \
         well_formed(&request, switches.exited) {",
        "step 4 before steps 2 and 3",
    ),
    edit(
        "step4-before-3",
        STEPS_1_TO_3,
        "if switches.enabled && !request.has(!(NV | BS | RT | APPEND)) && request.payload.len() <= MAX_PAYLOAD && \
         let Some(name) = name::decode_request(request.name) && let Some(ground) = refused_by_policy(&policy, \
         &pair, &request, &name) { return ground; } let name = match well_formed(&request, switches.exited) {",
        "step 4 before step 3",
    ),
    edit("step4-deletion-size", ASKED, "if true { let length", "a deletion is asked for size and attributes"),
    edit(
        "step4-deletion-by-payload",
        ASKED,
        "if !request.payload.is_empty() { let length",
        "every empty payload is let past size and attributes",
    ),
    edit(
        "step4-deletion-by-bits",
        ASKED,
        "if request.has(BS | RT) { let length",
        "a deletion with BS is asked for size and attributes",
    ),
    edit("step4-min-equal", MIN, "if length <= entry.min_size {", "MinSize itself is too short"),
    edit("step4-min-never", MIN, "if false {", "MinSize is not asked"),
    edit("step4-min-8-bits", MIN, "if length < entry.min_size & 0xFF {", "MinSize has 8 bits"),
    edit("step4-min-16-bits", MIN, "if length < entry.min_size & 0xFFFF {", "MinSize has 16 bits"),
    edit("step4-min-24-bits", MIN, "if length < entry.min_size & 0xFF_FFFF {", "MinSize has 24 bits"),
    edit("step4-min-31-bits", MIN, "if length < entry.min_size & 0x7FFF_FFFF {", "MinSize has 31 bits"),
    edit("step4-min-signed", MIN, "if (length as i32) < entry.min_size as i32 {", "MinSize is signed"),
    edit(
        "step4-min-length-8-bits",
        MIN,
        "if u32::from(length as u8) < entry.min_size {",
        "8 bits of the length are compared with MinSize",
    ),
    edit("step4-max-equal", MAX, "if length >= entry.max_size {", "MaxSize itself is too long"),
    edit("step4-max-never", MAX, "if false {", "MaxSize is not asked"),
    edit("step4-max-0-unbounded", MAX, "if entry.max_size != 0 && length > entry.max_size {", "MaxSize 0 is no bound"),
    edit("step4-max-8-bits", MAX, "if length > entry.max_size & 0xFF {", "MaxSize has 8 bits"),
    edit("step4-max-16-bits", MAX, "if length > entry.max_size & 0xFFFF {", "MaxSize has 16 bits"),
    edit("step4-max-31-bits", MAX, "if length > entry.max_size & 0x7FFF_FFFF {", "MaxSize has 31 bits"),
    edit("step4-max-signed", MAX, "if length as i32 > entry.max_size as i32 {", "MaxSize is signed"),
    edit(
        "step4-max-length-8-bits",
        MAX,
        "if u32::from(length as u8) > entry.max_size {",
        "8 bits of the length are compared with MaxSize",
    ),
    edit(
        "step4-must-any",
        MUST,
        "if entry.must_have != 0 && entry.must_have & request.attributes == 0 {",
        "one required bit is enough",
    ),
    edit(
        "step4-must-known",
        MUST,
        "if entry.must_have & 0x47 & !request.attributes != 0 {",
        "a required bit outside 0x47 is not asked",
    ),
    edit(
        "step4-must-no-append",
        MUST,
        "if entry.must_have & !(request.attributes & !APPEND) != 0 {",
        "append does not meet a required append",
    ),
    edit(
        "step4-must-31-bits",
        MUST,
        "if entry.must_have & 0x7FFF_FFFF & !request.attributes != 0 {",
        "a required bit 31 is not asked",
    ),
    edit("step4-must-never", MUST, "if false {", "required bits are not asked"),
    edit(
        "step4-cant-all",
        CANT,
        "if entry.cant_have != 0 && request.attributes & entry.cant_have == entry.cant_have {",
        "all prohibited bits must be set",
    ),
    edit("step4-cant-no-append", CANT, "if request.has(entry.cant_have & !APPEND) {", "append cannot be prohibited"),
    edit("step4-cant-never", CANT, "if false {", "prohibited bits are not asked"),
    edit(
        "step4-cant-unless-must",
        CANT,
        "if entry.must_have == 0 && request.has(entry.cant_have) {",
        "prohibited bits are not asked beside required ones",
    ),
    edit(
        "step4-lock-before-size",
        CHOSEN,
        "let entry = policy.choose(request.namespace, name)?; if entry.lock == LockRule::LockNow { return \
         Some(SetGround::LockedNow); }",
        "step 4: the lock before the size",
    ),
    edit(
        "step4-lock-before-attributes",
        MUST,
        "if entry.lock == LockRule::LockNow { return Some(SetGround::LockedNow); } if entry.must_have & \
         !request.attributes != 0 {",
        "step 4: the lock before the attributes",
    ),
    edit(
        "step4-create-lock-before-size",
        CHOSEN,
        "let entry = policy.choose(request.namespace, name)?; if entry.lock == LockRule::LockOnCreate && \
         pair.find(request.namespace, name).is_some() { return Some(SetGround::LockedOnCreate); }",
        "step 4: a lock of type 2 before the size",
    ),
    edit(
        "step4-state-lock-before-size",
        CHOSEN,
        "let entry = policy.choose(request.namespace, name)?; if let LockRule::LockOnVarState(trigger) = &entry.lock \
         && pair.find(&trigger.namespace, &trigger.name).is_some_and(|found| found.2.payload == [trigger.value]) { \
         return Some(SetGround::LockedOnVarState); }",
        "step 4: a lock of type 3 before the size",
    ),
    edit("step4-now-never", NOW, "LockRule::LockNow => None,", "type 1 does not lock"),
    edit(
        "step4-now-if-there",
        NOW,
        "LockRule::LockNow => pair.find(request.namespace, name).map(|_| SetGround::LockedNow),",
        "type 1 lets a variable be created",
    ),
    edit(
        "step4-now-not-deletions",
        NOW,
        "LockRule::LockNow => (!request.is_deletion()).then_some(SetGround::LockedNow),",
        "type 1 lets a deletion by",
    ),
    edit("step4-create-always", ON_CREATE, "Some(SetGround::LockedOnCreate)", "type 2 locks an absent variable"),
    edit(
        "step4-create-nv",
        ON_CREATE,
        "pair.find(request.namespace, name).filter(|found| found.0 == Kind::NonVolatile).map(|_| \
         SetGround::LockedOnCreate)",
        "type 2 looks in the non-volatile store",
    ),
    edit(
        "step4-create-volatile",
        ON_CREATE,
        "pair.find(request.namespace, name).filter(|found| found.0 == Kind::Volatile).map(|_| \
         SetGround::LockedOnCreate)",
        "type 2 looks in the volatile store",
    ),
    edit(
        "step4-create-not-deletions",
        ON_CREATE,
        "pair.find(request.namespace, name).filter(|_| !request.is_deletion()).map(|_| SetGround::LockedOnCreate)",
        "type 2 lets a deletion by",
    ),
    edit(
        "step4-create-not-appends",
        ON_CREATE,
        "pair.find(request.namespace, name).filter(|_| !request.has(APPEND)).map(|_| SetGround::LockedOnCreate)",
        "type 2 lets an append by",
    ),
    edit(
        "step4-trigger-absent-0",
        "let (_, _, variable) = pair.find(&trigger.namespace, &trigger.name)?;",
        "let Some((_, _, variable)) = pair.find(&trigger.namespace, &trigger.name) else { return (trigger.value == \
         0).then_some(SetGround::LockedOnVarState); };",
        "an absent trigger is taken as 0",
    ),
    edit(
        "step4-trigger-own-namespace",
        TRIGGER,
        "pair.find(request.namespace, &trigger.name)?;",
        "the trigger is sought in the variable's namespace",
    ),
    edit(
        "step4-trigger-nv",
        TRIGGER,
        "pair.find(&trigger.namespace, &trigger.name).filter(|found| found.0 == Kind::NonVolatile)?;",
        "the trigger is sought in the non-volatile store",
    ),
    edit(
        "step4-trigger-volatile",
        TRIGGER,
        "pair.find(&trigger.namespace, &trigger.name).filter(|found| found.0 == Kind::Volatile)?;",
        "the trigger is sought in the volatile store",
    ),
    edit(
        "step4-trigger-first-byte",
        TRIGGERED,
        "(variable.payload[0] == trigger.value).then_some(SetGround::LockedOnVarState)",
        "the trigger's first byte decides, whatever its length",
    ),
    edit(
        "step4-trigger-last-byte",
        TRIGGERED,
        "(variable.payload.last() == Some(&trigger.value)).then_some(SetGround::LockedOnVarState)",
        "the trigger's last byte decides, whatever its length",
    ),
    edit(
        "step4-trigger-other-size",
        TRIGGERED,
        "(variable.payload.len() != 1 || variable.payload == [trigger.value]).then_some(SetGround::LockedOnVarState)",
        "a trigger of another size locks",
    ),
    edit(
        "step4-trigger-not-0",
        TRIGGERED,
        "(trigger.value != 0 && variable.payload == [trigger.value]).then_some(SetGround::LockedOnVarState)",
        "Value 0 never locks",
    ),
    edit(
        "step4-trigger-not-equal",
        TRIGGERED,
        "(variable.payload.len() == 1 && variable.payload[0] != \
         trigger.value).then_some(SetGround::LockedOnVarState)",
        "the trigger locks while it differs from Value",
    ),
    edit(
        "step4-trigger-at-least",
        TRIGGERED,
        "(variable.payload.len() == 1 && variable.payload[0] >= \
         trigger.value).then_some(SetGround::LockedOnVarState)",
        "the trigger locks from Value on",
    ),
    edit("step4-trigger-exists", TRIGGERED, "Some(SetGround::LockedOnVarState)", "the trigger locks once it exists"),
    edit(
        "step4-trigger-not-deletions",
        TRIGGERED,
        "(variable.payload == [trigger.value] && !request.is_deletion()).then_some(SetGround::LockedOnVarState)",
        "type 3 lets a deletion by",
    ),
    edit(
        "step4-trigger-7-bits",
        TRIGGERED,
        "(variable.payload.len() == 1 && variable.payload[0] & 0x7F == trigger.value & \
         0x7F).then_some(SetGround::LockedOnVarState)",
        "7 bits of Value count",
    ),
    edit(
        "step4-trigger-length-8-bits",
        TRIGGERED,
        "(variable.payload.len() as u8 == 1 && variable.payload[0] == \
         trigger.value).then_some(SetGround::LockedOnVarState)",
        "8 bits of the trigger's length count",
    ),
    edit(
        "step4-create-any-target",
        ON_CREATE,
        "pair.non_volatile.iter().chain(&pair.volatile).find(|other| entry.targets(&other.namespace, \
         &other.name)).map(|_| SetGround::LockedOnCreate)",
        "type 2 locks once any variable that the entry targets exists",
    ),
    edit(
        "step4-any-entry-locks",
        CHOSEN,
        "let entry = policy.choose(request.namespace, name)?; if request.is_deletion() && \
         policy.entries.iter().any(|entry| entry.targets(request.namespace, name) && entry.lock == \
         LockRule::LockNow) { return Some(SetGround::LockedNow); }",
        "entries that were not chosen lock too",
    ),
    edit(
        "step4-next-entry-asked",
        "LockRule::NoLock => None,",
        "LockRule::NoLock => policy.entries.iter().filter(|entry| entry.targets(request.namespace, \
         name)).any(|entry| entry.lock == LockRule::LockNow).then_some(SetGround::LockedNow),",
        "where the chosen entry does not lock, the others are asked",
    ),
    // Step 5.
    edit(
        "step5-before-4",
        POLICY,
        "if request.is_deletion() && pair.find(request.namespace, &name).is_none() { return \
         SetGround::DeleteAbsent; } if switches.enabled && let Some(ground)",
        "step 5 before step 4",
    ),
    edit(
        "step5-absent-0",
        "DeleteAbsent => Status::NotFound,",
        "DeleteAbsent => Status::Success,",
        "a deletion of nothing succeeds",
    ),
    edit(
        "step5-absent-2",
        "DeleteAbsent => Status::NotFound,",
        "DeleteAbsent => Status::InvalidParameter,",
        "a deletion of nothing answers 2",
    ),
    edit(
        "step5-attributes",
        DELETES,
        "if request.is_deletion() && request.attributes != 0 && pair.find(request.namespace, \
         &name).is_some_and(|found| found.2.attributes != request.attributes) { return SetGround::OtherAttributes; \
         } if request.is_deletion() { let (kind, place)",
        "a deletion is asked for the stored attributes",
    ),
    edit(
        "step5-nv",
        FOUND,
        "let (kind, place, variable) = pair.find(request.namespace, name).filter(|found| found.0 == \
         Kind::NonVolatile).ok_or(SetGround::DeleteAbsent)?;",
        "only the non-volatile store is deleted from",
    ),
    edit(
        "step5-store-of-request",
        FOUND,
        "let (kind, place, variable) = pair.find(request.namespace, name).filter(|found| request.attributes == 0 || \
         request.has(NV) == (found.0 == Kind::NonVolatile)).ok_or(SetGround::DeleteAbsent)?;",
        "a deletion looks in the store that its NV bit names",
    ),
    edit("step5-last-fills-gap", DELETED, "pair.of_mut(kind).swap_remove(place);", "the last record fills the gap"),
    edit("step5-nothing", DELETED, "let _ = (kind, place);", "a deletion answers 0 and removes nothing"),
    edit(
        "step5-with-the-rest",
        DELETED,
        "pair.of_mut(kind).truncate(place);",
        "a deletion removes the later records too",
    ),
    edit(
        "step5-volatile-not-written",
        "write_back(volatile, &pair.volatile);\n        return SetGround::Deleted;",
        "return SetGround::Deleted;",
        "a deletion from the volatile store answers 0 and removes nothing",
    ),
    edit(
        "step5-left-behind",
        "write_back(non_volatile, &pair.non_volatile);\n        write_back(volatile, &pair.volatile);\n        \
         return SetGround::Deleted;",
        "for (store, variables) in [(non_volatile, &pair.non_volatile), (volatile, &pair.volatile)] { let bytes = \
         store::encode(variables); store[..bytes.len()].copy_from_slice(&bytes); } return SetGround::Deleted;",
        "a deletion does not erase the room that is free",
    ),
    // Step 6.
    edit(
        "step6-before-4",
        POLICY,
        "if !request.is_deletion() && pair.find(request.namespace, &name).is_some_and(|found| found.2.attributes \
         != request.attributes & !APPEND) { return SetGround::OtherAttributes; } if switches.enabled && let \
         Some(ground)",
        "step 6 before step 4",
    ),
    edit(
        "step6-before-5",
        DELETES,
        "if pair.find(request.namespace, &name).is_some_and(|found| found.2.attributes != request.attributes & \
         !APPEND) { return SetGround::OtherAttributes; } if request.is_deletion() { let (kind, place)",
        "step 6 before step 5",
    ),
    edit("step6-nv-only", OTHERS, "(stored ^ attributes) & NV != 0)", "only NV is compared"),
    edit("step6-not-rt", OTHERS, "(stored ^ attributes) & !RT != 0)", "RT is not compared"),
    edit("step6-rt-added", OTHERS, "stored & !attributes != 0)", "attributes may be added"),
    edit("step6-rt-dropped", OTHERS, "attributes & !stored != 0)", "attributes may be dropped"),
    edit("step6-not-appends", OTHERS, "!append && stored != attributes)", "an append is not asked for attributes"),
    edit("step6-never", OTHERS, "false && stored != attributes)", "attributes are not compared"),
    edit("step6-with-append", OTHERS, "stored != request.attributes)", "append counts as another attribute"),
    // Step 7.
    edit(
        "step7-before-4",
        POLICY,
        "if request.has(APPEND) && request.payload.is_empty() { return SetGround::EmptyAppend; } if \
         switches.enabled && let Some(ground)",
        "step 7 before step 4",
    ),
    edit(
        "step7-before-6",
        OTHER_ATTRIBUTES,
        "if append && request.payload.is_empty() { return SetGround::EmptyAppend; } if found.is_some_and(|(_, _, \
         stored)| stored != attributes) {",
        "step 7 before step 6",
    ),
    edit(
        "step7-absent-14",
        EMPTY_APPEND,
        "if append && request.payload.is_empty() { return if found.is_some() { SetGround::EmptyAppend } else { \
         SetGround::DeleteAbsent }; }",
        "an empty append to nothing answers 14",
    ),
    edit(
        "step7-absent-2",
        EMPTY_APPEND,
        "if append && request.payload.is_empty() { return if found.is_some() { SetGround::EmptyAppend } else { \
         SetGround::OtherAttributes }; }",
        "an empty append to nothing answers 2",
    ),
    edit(
        "step7-creates",
        EMPTY_APPEND,
        "if append && request.payload.is_empty() && found.is_some() { return SetGround::EmptyAppend; }",
        "an empty append creates",
    ),
    edit(
        "step7-empties",
        EMPTY_APPEND,
        "if append && request.payload.is_empty() { if let Some((kind, place, _)) = found { \
         pair.of_mut(kind).remove(place); } return SetGround::EmptyAppend; }",
        "an empty append deletes",
    ),
    // Steps 8 and 9.
    edit(
        "step8-below",
        LONG,
        "if append && payload.len() >= MAX_PAYLOAD { return SetGround::AppendTooLong;",
        "an append to 1,024 is too long",
    ),
    edit(
        "step8-1025",
        LONG,
        "if append && payload.len() > MAX_PAYLOAD + 1 { return SetGround::AppendTooLong;",
        "an append to 1,025 is stored",
    ),
    edit("step8-never", LONG, "if false { return SetGround::AppendTooLong;", "an append to any length is stored"),
    edit(
        "step8-cuts",
        LONG,
        "let mut payload = payload; payload.truncate(MAX_PAYLOAD); if append && payload.len() > MAX_PAYLOAD { \
         return SetGround::AppendTooLong;",
        "an append is cut at 1,024",
    ),
    edit(
        "step8-answers-2",
        "AppendTooLong | NoRoom => Status::OutOfResources,",
        "AppendTooLong => Status::InvalidParameter, NoRoom => Status::OutOfResources,",
        "a long append answers 2",
    ),
    edit(
        "step8-before-6",
        OTHER_ATTRIBUTES,
        "if append && payload_afterwards(pair, request, name).len() > MAX_PAYLOAD { return \
         SetGround::AppendTooLong; } if found.is_some_and(|(_, _, stored)| stored != attributes) {",
        "step 8 before step 6",
    ),
    edit(
        "step9-below",
        ROOM,
        "if encoded_len(&pair.non_volatile) >= non_volatile.len().max(1) || encoded_len(&pair.volatile) > \
         volatile.len() {",
        "the records must be shorter than the non-volatile store",
    ),
    edit(
        "step9-nv-only",
        ROOM,
        "if encoded_len(&pair.non_volatile) > non_volatile.len() {",
        "room in the volatile store is not asked",
    ),
    edit(
        "step9-volatile-only",
        ROOM,
        "if encoded_len(&pair.volatile) > volatile.len() {",
        "room in the non-volatile store is not asked",
    ),
    edit(
        "step9-both",
        ROOM,
        "if encoded_len(&pair.non_volatile) + encoded_len(&pair.volatile) > non_volatile.len().max(volatile.len()) {",
        "both stores share their room",
    ),
    edit(
        "step9-unpadded",
        "fn encoded_len(variables: &[Variable]) -> usize {\n    variables.iter().map(Variable::record_len).sum()",
        "fn encoded_len(variables: &[Variable]) -> usize { variables.iter().map(|variable| variable.payload_at() + \
         variable.payload.len()).sum()",
        "padding needs no room",
    ),
    edit(
        "step9-two-to-spare",
        ROOM,
        "if encoded_len(&pair.non_volatile) + 2 > non_volatile.len() && !pair.non_volatile.is_empty() || \
         encoded_len(&pair.volatile) > volatile.len() {",
        "two bytes must stay free in the non-volatile store",
    ),
    edit(
        "step9-old-stays",
        "    let ground = store_payload(&mut pair, &request, &name);\n",
        "let before = [encoded_len(&pair.non_volatile), encoded_len(&pair.volatile)]; let old = \
         pair.find(request.namespace, &name).map_or(0, |found| found.2.record_len()); let ground = \
         store_payload(&mut pair, &request, &name); let grown = encoded_len(&pair.non_volatile) + \
         encoded_len(&pair.volatile) > before[0] + before[1]; if grown && encoded_len(&pair.non_volatile) + old > \
         non_volatile.len() && encoded_len(&pair.non_volatile) > before[0] { return SetGround::NoRoom; }",
        "a longer rewrite needs room beside the old record",
    ),
    edit(
        "step9-before-4",
        POLICY,
        "let mut after = pair.clone(); let stored = !request.is_deletion() && store_payload(&mut after, &request, \
         &name).status() == Status::Success; if stored && (encoded_len(&after.non_volatile) > non_volatile.len() \
         || encoded_len(&after.volatile) > volatile.len()) { return SetGround::NoRoom; } if switches.enabled && \
         let Some(ground)",
        "step 9 before step 4",
    ),
    edit(
        "step9-before-6",
        "    let ground = store_payload(&mut pair, &request, &name);\n",
        "if let Some((kind, _, old)) = pair.find(request.namespace, &name) { let joined = if request.has(APPEND) { \
         old.payload.len() + request.payload.len() } else { request.payload.len() }; let records = \
         encoded_len(pair.of(kind)) - old.record_len() + (old.payload_at() + joined).next_multiple_of(4); if \
         records > if kind == Kind::NonVolatile { non_volatile.len() } else { volatile.len() } { return \
         SetGround::NoRoom; } } let ground = store_payload(&mut pair, &request, &name);",
        "step 9 before step 6",
    ),
    edit(
        "step9-before-7",
        "    let ground = store_payload(&mut pair, &request, &name);\n",
        "if request.has(APPEND) && request.payload.is_empty() && pair.find(request.namespace, &name).is_none() { \
         let (records, len) = if request.has(NV) { (&pair.non_volatile, non_volatile.len()) } else { \
         (&pair.volatile, volatile.len()) }; if encoded_len(records) + (34 + 2 * name.len()).next_multiple_of(4) > \
         len { return SetGround::NoRoom; } } let ground = store_payload(&mut pair, &request, &name);",
        "step 9 before step 7",
    ),
    // Step 10.
    edit(
        "step10-volatile-not-written",
        "write_back(volatile, &pair.volatile);\n    ground",
        "ground",
        "a set in the volatile store answers 0 and stores nothing",
    ),
    edit(
        "step10-append-not-creates",
        CREATED,
        "if append { return SetGround::DeleteAbsent; } pair.of_mut(kind).push(Variable { namespace, name: \
         name.to_vec(), attributes, payload });",
        "an append to nothing answers 14",
    ),
    edit(
        "step10-append-stored",
        CREATED,
        "pair.of_mut(kind).push(Variable { namespace, name: name.to_vec(), attributes: request.attributes, payload \
         });",
        "append is stored among the attributes",
    ),
    edit(
        "step10-first",
        CREATED,
        "pair.of_mut(kind).insert(0, Variable { namespace, name: name.to_vec(), attributes, payload });",
        "a new variable goes before the others",
    ),
    edit("step10-volatile", KIND, "let kind = Kind::Volatile;", "every new variable goes to the volatile store"),
    edit(
        "step10-rt-non-volatile",
        KIND,
        "let kind = if attributes & (NV | RT) != 0 { Kind::NonVolatile } else { Kind::Volatile };",
        "RT goes to the non-volatile store",
    ),
    edit("step10-append-replaces", JOINED, "let payload = request.payload.to_vec();", "an append replaces"),
    edit(
        "step10-append-in-front",
        JOINED,
        "let mut payload = payload_afterwards(pair, request, name); payload.rotate_right(request.payload.len());",
        "an append goes before the old bytes",
    ),
    edit(
        "step10-write-appends",
        JOINED,
        "let mut payload = pair.find(request.namespace, name).map_or(Vec::new(), |found| found.2.payload.clone()); \
         payload.extend(request.payload);",
        "every set appends",
    ),
    edit(
        "step10-rewrite-moves",
        REWRITTEN,
        "let mut variable = pair.of_mut(kind).remove(place); variable.payload = payload; \
         pair.of_mut(kind).push(variable);",
        "a rewrite moves to the end",
    ),
    edit(
        "step10-rewrite-moves-if-longer",
        REWRITTEN,
        "let mut variable = pair.of_mut(kind).remove(place); let longer = payload.len() > variable.payload.len(); \
         variable.payload = payload; if longer { pair.of_mut(kind).push(variable); } else { \
         pair.of_mut(kind).insert(place, variable); }",
        "a longer rewrite moves to the end",
    ),
    edit("step10-nothing", REWRITTEN, "let _ = (kind, place);", "a rewrite answers 0 and stores nothing"),
    edit(
        "step10-erased-zeros",
        "bytes.resize(store.len(), 0xFF);",
        "bytes.resize(store.len(), 0);",
        "the room behind the records is filled with zeros",
    ),
    // Statuses.
    edit(
        "status-stores-14",
        "BadStores | BadRecord => Status::VolumeCorrupted",
        "BadStores | BadRecord => Status::NotFound",
        "set over something unsound answers 14",
    ),
    edit(
        "status-unknown-2",
        "UnknownAttribute => Status::Unsupported",
        "UnknownAttribute => Status::InvalidParameter",
        "an unknown bit answers 2",
    ),
    edit(
        "status-without-bs-3",
        "BadName | LongPayload | WithoutBootService => Status::InvalidParameter",
        "BadName | LongPayload => Status::InvalidParameter, WithoutBootService => Status::Unsupported",
        "RT without BS answers 3",
    ),
    edit(
        "status-policy-8",
        "TooShort | TooLong | AttributeMissing | AttributeProhibited => Status::InvalidParameter",
        "TooShort | TooLong | AttributeMissing | AttributeProhibited => Status::WriteProtected",
        "size and attributes answer 8",
    ),
    edit(
        "status-variable-locked-2",
        "LockedNow | LockedOnCreate | LockedOnVarState => Status::WriteProtected",
        "LockedNow | LockedOnCreate | LockedOnVarState => Status::InvalidParameter",
        "a locked variable answers 2",
    ),
    edit(
        "status-other-attributes-8",
        "OtherAttributes => Status::InvalidParameter",
        "OtherAttributes => Status::WriteProtected",
        "other attributes answer 8",
    ),
    edit(
        "status-room-5",
        "AppendTooLong | NoRoom => Status::OutOfResources",
        "AppendTooLong => Status::OutOfResources, NoRoom => Status::BufferTooSmall",
        "no room answers 5",
    ),
];
