//! Settled variables (docs/RULES.md, 10.14): the grounds, the number of links, loops, the types of entries, the triggers'
//! payloads, stores and namespaces, and the choice of each entry.

use super::{Edit, edit};

const STORES: &str = "    let pair = Pair::decode(non_volatile, volatile).ok_or(Status::VolumeCorrupted)?;\n";
const RECORD: &str = "    let policy = Policy::decode(record).ok_or(Status::VolumeCorrupted)?;\n";
const NAME: &str = "    let name = name::decode_request(name).ok_or(Status::InvalidParameter)?;\n";
const GROUNDS: &str = "    let pair = Pair::decode(non_volatile, volatile).ok_or(Status::VolumeCorrupted)?;\n    let policy \
                       = Policy::decode(record).ok_or(Status::VolumeCorrupted)?;\n";
const JUDGED: &str = "    let chain = Chain::new(&pair, &policy, (*namespace, name));\n    Ok(chain.is_held() && \
                      chain.links() <= MAX_LINKS)\n";
const ANSWER: &str = "Ok(chain.is_held() && chain.links() <= MAX_LINKS)";
const WITHIN: &str = "chain.links() <= MAX_LINKS";
const HELD: &str = "self.last == Hold::Held";
const FOLLOWS: &str = "            last = hold(pair, policy, &next);\n";
const CHOICE: &str = "    let Some(entry) = policy.choose(namespace, name) else {";
const NO_ENTRY: &str = "else {\n        return Hold::Free;\n    };";
const TYPE_0: &str = "LockRule::NoLock => Hold::Free,";
const TYPE_1: &str = "LockRule::LockNow => Hold::Held,";
const TYPE_2: &str = "            Some(_) => Hold::Held,\n            None => Hold::Free,\n";
const TYPE_3: &str = "LockRule::LockOnVarState(trigger) if holds_value(pair, trigger) => {";
const HANGS: &str = "Hold::HangsOn((trigger.namespace, trigger.name.clone()))";
const HOLDS: &str = "Some((_, _, variable)) => variable.payload == [trigger.value],";
const ABSENT: &str = "        None => false,\n";
const TRIGGER: &str = "match pair.find(&trigger.namespace, &trigger.name) {";

/// Another entry for a variable than the chosen one: of those that target it, in their order, the one that this picks.
macro_rules! chosen_by {
    ($pick:literal) => {
        concat!(
            "    let targeting = policy.entries.iter().filter(|entry| entry.targets(namespace, name)); let Some(entry) = ",
            $pick,
            " else {"
        )
    };
}

/// The trigger's variable held by those entries alone of which this is true.
macro_rules! follows_by {
    ($kept:literal) => {
        concat!(
            "let kept = policy.entries.iter().filter(|entry| ",
            $kept,
            ").cloned().collect(); last = hold(pair, &Policy { entries: kept }, &next);"
        )
    };
}

pub(super) const LIMIT_EDITS: &[Edit] = &[
    edit("settled-17-links", "MAX_LINKS: usize = 16", "MAX_LINKS: usize = 17", "17 links are followed"),
    edit("settled-15-links", "MAX_LINKS: usize = 16", "MAX_LINKS: usize = 15", "15 links are followed"),
];

pub(super) const EDITS: &[Edit] = &[
    // Grounds.
    edit(
        "settled-stores-unchecked",
        STORES,
        "let pair = Pair::decode(non_volatile, volatile).unwrap_or(Pair { non_volatile: Vec::new(), volatile: \
         Vec::new() });",
        "unsound stores hold nothing",
    ),
    edit(
        "settled-volatile-unchecked",
        STORES,
        "let pair = Pair::decode(non_volatile, volatile).or_else(|| Pair::decode(non_volatile, \
         &[])).ok_or(Status::VolumeCorrupted)?;",
        "an unsound volatile store holds nothing",
    ),
    edit(
        "settled-nv-unchecked",
        STORES,
        "let pair = Pair::decode(non_volatile, volatile).or_else(|| Pair::decode(&[], \
         volatile)).ok_or(Status::VolumeCorrupted)?;",
        "an unsound non-volatile store holds nothing",
    ),
    edit(
        "settled-stores-apart",
        STORES,
        "let alone = |nv: &[u8], volatile: &[u8]| Pair::decode(nv, volatile).ok_or(Status::VolumeCorrupted); let pair = \
         Pair { non_volatile: alone(non_volatile, &[])?.non_volatile, volatile: alone(&[], volatile)?.volatile };",
        "a variable may stand in both stores",
    ),
    edit(
        "settled-stores-2",
        STORES,
        "let pair = Pair::decode(non_volatile, volatile).ok_or(Status::InvalidParameter)?;",
        "unsound stores are 2",
    ),
    edit(
        "settled-record-unchecked",
        RECORD,
        "let policy = Policy::decode(record).unwrap_or_default();",
        "a policy record that is not valid has no entries",
    ),
    edit(
        "settled-record-2",
        RECORD,
        "let policy = Policy::decode(record).ok_or(Status::InvalidParameter)?;",
        "a policy record that is not valid is 2",
    ),
    edit(
        "settled-record-longer",
        RECORD,
        "let policy = Policy::decode(record.get(..crate::POLICY_BYTES).unwrap_or(record)).ok_or(Status::VolumeCorrupted)?;",
        "a policy record may be longer",
    ),
    edit(
        "settled-record-former",
        RECORD,
        "let mut longer = record.to_vec(); if record.len() == 8192 { longer.resize(crate::POLICY_BYTES, 0); } let policy \
         = Policy::decode(&longer).ok_or(Status::VolumeCorrupted)?;",
        "a policy record of the former length is taken too",
    ),
    edit(
        "settled-2-before-10",
        GROUNDS,
        "name::decode_request(name).ok_or(Status::InvalidParameter)?; let pair = Pair::decode(non_volatile, \
         volatile).ok_or(Status::VolumeCorrupted)?; let policy = \
         Policy::decode(record).ok_or(Status::VolumeCorrupted)?;",
        "2 before 10",
    ),
    edit(
        "settled-2-before-record",
        RECORD,
        "name::decode_request(name).ok_or(Status::InvalidParameter)?; let policy = \
         Policy::decode(record).ok_or(Status::VolumeCorrupted)?;",
        "2 before 10 for the policy record",
    ),
    edit(
        "settled-name-14",
        NAME,
        "let name = name::decode_request(name).ok_or(Status::NotFound)?;",
        "a bad name is 14",
    ),
    edit(
        "settled-name-0",
        NAME,
        "let Some(name) = name::decode_request(name) else { return Ok(false); };",
        "a bad name is no",
    ),
    edit(
        "settled-name-closed",
        NAME,
        "let name = name::decode_request(name.strip_suffix(&[0, 0]).unwrap_or(name)).ok_or(Status::InvalidParameter)?;",
        "a name may be closed by a zero unit",
    ),
    edit(
        "settled-name-sign",
        NAME,
        "let name = name::decode_request(name).filter(|name| \
         !name::has_number_sign(name)).ok_or(Status::InvalidParameter)?;",
        "a name with '#' is 2",
    ),
    edit(
        "settled-absent-14",
        NAME,
        "let name = name::decode_request(name).ok_or(Status::InvalidParameter)?; pair.find(namespace, \
         &name).ok_or(Status::NotFound)?;",
        "a variable without a record is 14",
    ),
    edit(
        "settled-no-entry-14",
        NAME,
        "let name = name::decode_request(name).ok_or(Status::InvalidParameter)?; policy.choose(namespace, \
         &name).ok_or(Status::NotFound)?;",
        "a variable without an entry is 14",
    ),
    edit(
        "settled-yes-8",
        ANSWER,
        "if chain.is_held() && chain.links() <= MAX_LINKS { Err(Status::WriteProtected) } else { Ok(false) }",
        "a settled variable is 8",
    ),
    edit("settled-other-way", ANSWER, "Ok(!(chain.is_held() && chain.links() <= MAX_LINKS))", "yes for no"),
    edit("settled-always", ANSWER, "Ok(true)", "every variable is settled"),
    edit("settled-never", ANSWER, "Ok(false)", "no variable is settled"),
    // Links.
    edit("settled-any-links", ANSWER, "Ok(chain.is_held())", "any number of links is followed"),
    edit("settled-no-link", WITHIN, "chain.links() == 0", "no link is followed"),
    edit("settled-one-link", WITHIN, "chain.links() <= 1", "one link is followed"),
    edit("settled-links-twice", WITHIN, "2 * chain.links() <= MAX_LINKS", "each link counts twice"),
    edit("settled-links-5-bits", WITHIN, "chain.links() % 32 <= MAX_LINKS", "links are counted in 5 bits"),
    edit("settled-links-6-bits", WITHIN, "chain.links() % 64 <= MAX_LINKS", "links are counted in 6 bits"),
    edit(
        "settled-type-2-a-link",
        WITHIN,
        "{ let (namespace, name) = &chain.variables[chain.links()]; let on_create = policy.choose(namespace, \
         name).is_some_and(|entry| entry.lock == LockRule::LockOnCreate); chain.links() + usize::from(on_create) <= \
         MAX_LINKS }",
        "an end of type 2 counts as a link",
    ),
    edit(
        "settled-links-elsewhere",
        WITHIN,
        "chain.variables.windows(2).filter(|pair| pair[0].0 == pair[1].0).count() <= MAX_LINKS",
        "links to another namespace are not counted",
    ),
    // Loops.
    edit("settled-loop", HELD, "self.last != Hold::Free", "what comes round is settled"),
    edit(
        "settled-loop-of-one",
        HELD,
        "self.last == Hold::Held || self.variables.len() == 1 && self.last != Hold::Free",
        "a variable that is its own trigger is settled",
    ),
    edit(
        "settled-loop-of-more",
        HELD,
        "self.last == Hold::Held || matches!(&self.last, Hold::HangsOn(next) if *next == self.variables[0] && \
         self.variables.len() > 1)",
        "a variable that comes round to itself over others is settled",
    ),
    edit(
        "settled-loop-led-into",
        HELD,
        "self.last == Hold::Held || matches!(&self.last, Hold::HangsOn(next) if *next != self.variables[0])",
        "a variable that leads into a loop is settled",
    ),
    edit(
        "settled-loop-two-round",
        HELD,
        "self.last == Hold::Held || self.variables.len() == 2 && matches!(&self.last, Hold::HangsOn(next) if *next == \
         self.variables[0])",
        "two variables that are each other's triggers are settled",
    ),
    edit(
        "settled-loop-of-one-led-into",
        HELD,
        "self.last == Hold::Held || matches!(&self.last, Hold::HangsOn(next) if *next == self.variables[self.links()] && \
         self.links() > 0)",
        "a variable that leads to one that is its own trigger is settled",
    ),
    // Locked is not settled.
    edit(
        "settled-locked",
        JUDGED,
        "Ok(hold(&pair, &policy, &(*namespace, name)) != Hold::Free)",
        "a locked variable is settled",
    ),
    edit(
        "settled-trigger-locked",
        ANSWER,
        "Ok(chain.links() >= 2 || chain.is_held())",
        "a trigger has to be locked, not settled",
    ),
    edit("settled-trigger-not-asked", HANGS, "Hold::Held", "the trigger's variable need not be settled"),
    // Types.
    edit("settled-no-entry", NO_ENTRY, "else { return Hold::Held; };", "a variable without an entry is settled"),
    edit("settled-type-0", TYPE_0, "LockRule::NoLock => Hold::Held,", "type 0 settles"),
    edit(
        "settled-type-0-there",
        TYPE_0,
        "LockRule::NoLock => pair.find(namespace, name).map_or(Hold::Free, |_| Hold::Held),",
        "type 0 settles what exists",
    ),
    edit("settled-type-1-not", TYPE_1, "LockRule::LockNow => Hold::Free,", "type 1 does not settle"),
    edit(
        "settled-type-1-there",
        TYPE_1,
        "LockRule::LockNow => pair.find(namespace, name).map_or(Hold::Free, |_| Hold::Held),",
        "type 1 asks whether the variable exists",
    ),
    edit(
        "settled-type-1-absent",
        TYPE_1,
        "LockRule::LockNow => pair.find(namespace, name).map_or(Hold::Held, |_| Hold::Free),",
        "type 1 settles what does not exist",
    ),
    edit("settled-type-2-always", TYPE_2, "_ => Hold::Held,", "type 2 does not ask whether the variable exists"),
    edit("settled-type-2-not", TYPE_2, "_ => Hold::Free,", "type 2 does not settle"),
    edit(
        "settled-type-2-absent",
        TYPE_2,
        "Some(_) => Hold::Free, None => Hold::Held,",
        "type 2 settles what does not exist",
    ),
    edit(
        "settled-type-2-nv",
        TYPE_2,
        "Some((crate::Kind::NonVolatile, ..)) => Hold::Held, _ => Hold::Free,",
        "type 2 looks into the non-volatile store alone",
    ),
    edit(
        "settled-type-2-volatile",
        TYPE_2,
        "Some((crate::Kind::Volatile, ..)) => Hold::Held, _ => Hold::Free,",
        "type 2 looks into the volatile store alone",
    ),
    edit(
        "settled-type-2-hidden",
        TYPE_2,
        "Some((_, _, variable)) if variable.is_runtime() => Hold::Held, _ => Hold::Free,",
        "type 2 does not see variables without RT",
    ),
    edit(
        "settled-type-2-one-byte",
        TYPE_2,
        "Some((_, _, variable)) if variable.payload.len() == 1 => Hold::Held, _ => Hold::Free,",
        "type 2 settles variables of one byte",
    ),
    edit(
        "settled-type-3-not",
        TYPE_3,
        "LockRule::LockOnVarState(trigger) if false && holds_value(pair, trigger) => {",
        "type 3 does not settle",
    ),
    edit(
        "settled-type-3-any",
        TYPE_3,
        "LockRule::LockOnVarState(trigger) if true || holds_value(pair, trigger) => {",
        "a trigger need not hold Value",
    ),
    edit(
        "settled-type-3-there",
        TYPE_3,
        "LockRule::LockOnVarState(trigger) if holds_value(pair, trigger) && pair.find(namespace, name).is_some() => {",
        "type 3 settles what exists",
    ),
    edit(
        "settled-type-3-as-2",
        TYPE_3,
        "LockRule::LockOnVarState(_) if pair.find(namespace, name).is_some() => Hold::Held, \
         LockRule::LockOnVarState(trigger) if holds_value(pair, trigger) => {",
        "type 3 settles what exists, whatever its trigger holds",
    ),
    // Triggers.
    edit("settled-trigger-absent", ABSENT, "None => true,", "a trigger that is absent holds Value"),
    edit("settled-trigger-absent-0", ABSENT, "None => trigger.value == 0,", "a trigger that is absent holds 0"),
    edit(
        "settled-trigger-first-byte",
        HOLDS,
        "Some((_, _, variable)) => variable.payload.first() == Some(&trigger.value),",
        "the first byte of a trigger counts",
    ),
    edit(
        "settled-trigger-last-byte",
        HOLDS,
        "Some((_, _, variable)) => variable.payload.last() == Some(&trigger.value),",
        "the last byte of a trigger counts",
    ),
    edit(
        "settled-trigger-two-bytes",
        HOLDS,
        "Some((_, _, variable)) => variable.payload.len() <= 2 && variable.payload[0] == trigger.value,",
        "a trigger of two bytes may hold Value first",
    ),
    edit(
        "settled-trigger-each-byte",
        HOLDS,
        "Some((_, _, variable)) => variable.payload.iter().all(|byte| *byte == trigger.value),",
        "a trigger may hold Value several times",
    ),
    edit(
        "settled-trigger-8-bits",
        HOLDS,
        "Some((_, _, variable)) => variable.payload.len() as u8 == 1 && variable.payload[0] == trigger.value,",
        "the length of a trigger in 8 bits",
    ),
    edit(
        "settled-trigger-any-byte",
        HOLDS,
        "Some((_, _, variable)) => variable.payload.len() == 1,",
        "a trigger of any one byte holds Value",
    ),
    edit("settled-trigger-there", HOLDS, "Some(_) => true,", "a trigger that exists holds Value"),
    edit(
        "settled-trigger-other-byte",
        HOLDS,
        "Some((_, _, variable)) => variable.payload.len() == 1 && variable.payload[0] != trigger.value,",
        "a trigger holds any byte but Value",
    ),
    edit(
        "settled-trigger-7-bits",
        HOLDS,
        "Some((_, _, variable)) => variable.payload.len() == 1 && (variable.payload[0] ^ trigger.value) & 0x7F == 0,",
        "the highest bit of Value does not count",
    ),
    edit(
        "settled-trigger-low-bit",
        HOLDS,
        "Some((_, _, variable)) => variable.payload.len() == 1 && (variable.payload[0] ^ trigger.value) & 0xFE == 0,",
        "the lowest bit of Value does not count",
    ),
    edit(
        "settled-trigger-reserved",
        HOLDS,
        "Some((_, _, variable)) => variable.payload == [trigger.reserved],",
        "Reserved is taken for Value",
    ),
    edit(
        "settled-trigger-nv",
        HOLDS,
        "Some((crate::Kind::NonVolatile, _, variable)) => variable.payload == [trigger.value], Some(_) => false,",
        "triggers are looked for in the non-volatile store alone",
    ),
    edit(
        "settled-trigger-volatile",
        HOLDS,
        "Some((crate::Kind::Volatile, _, variable)) => variable.payload == [trigger.value], Some(_) => false,",
        "triggers are looked for in the volatile store alone",
    ),
    edit(
        "settled-trigger-hidden",
        HOLDS,
        "Some((_, _, variable)) => variable.is_runtime() && variable.payload == [trigger.value],",
        "triggers without RT do not count",
    ),
    edit(
        "settled-trigger-runtime",
        HOLDS,
        "Some((_, _, variable)) => !variable.is_runtime() && variable.payload == [trigger.value],",
        "triggers with RT do not count",
    ),
    edit(
        "settled-trigger-any-namespace",
        TRIGGER,
        "match pair.non_volatile.iter().chain(&pair.volatile).find(|variable| variable.name == \
         trigger.name).map(|variable| (0, 0, variable)) {",
        "a trigger's namespace does not count",
    ),
    edit(
        "settled-trigger-own-namespace",
        TYPE_3,
        "LockRule::LockOnVarState(trigger) if holds_value(pair, &Trigger { namespace: *namespace, ..trigger.clone() }) \
         => {",
        "a trigger is looked for in the entry's namespace",
    ),
    edit(
        "settled-next-own-namespace",
        HANGS,
        "Hold::HangsOn((*namespace, trigger.name.clone()))",
        "the trigger's variable is asked for in the entry's namespace",
    ),
    edit(
        "settled-both-own-namespace",
        "    match &entry.lock {",
        "    let mut entry = entry.clone(); if let LockRule::LockOnVarState(trigger) = &mut entry.lock { \
         trigger.namespace = *namespace; } match &entry.lock {",
        "the trigger's namespace is the entry's",
    ),
    // The choice.
    edit("settled-first-entry", CHOICE, chosen_by!("{targeting}.next()"), "the first entry that targets speaks"),
    edit("settled-last-entry", CHOICE, chosen_by!("targeting.last()"), "the last entry that targets speaks"),
    edit(
        "settled-last-of-rank",
        CHOICE,
        chosen_by!("targeting.rev().min_by_key(|entry| entry.rank())"),
        "of equal ranks the last speaks",
    ),
    edit(
        "settled-highest-rank",
        CHOICE,
        chosen_by!("targeting.max_by_key(|entry| entry.rank())"),
        "the highest rank speaks",
    ),
    edit(
        "settled-not-whole",
        CHOICE,
        chosen_by!("targeting.filter(|entry| !entry.name.is_empty()).min_by_key(|entry| entry.rank())"),
        "the whole namespace has no say",
    ),
    edit(
        "settled-not-patterns",
        CHOICE,
        chosen_by!("targeting.filter(|entry| !name::has_number_sign(&entry.name)).min_by_key(|entry| entry.rank())"),
        "patterns have no say",
    ),
    edit(
        "settled-any-lock-now",
        CHOICE,
        chosen_by!("targeting.min_by_key(|entry| (entry.lock != LockRule::LockNow, entry.rank()))"),
        "any entry of type 1 that targets speaks",
    ),
    edit(
        "settled-any-lock",
        CHOICE,
        chosen_by!("targeting.min_by_key(|entry| (entry.lock == LockRule::NoLock, entry.rank()))"),
        "an entry that never locks has no say beside another",
    ),
    edit(
        "settled-any-namespace",
        CHOICE,
        "    let Some(entry) = policy.entries.iter().filter(|entry| entry.targets(&entry.namespace, \
         name)).min_by_key(|entry| entry.rank()) else {",
        "the namespace of an entry does not count",
    ),
    edit(
        "settled-next-not-whole",
        FOLLOWS,
        follows_by!("!entry.name.is_empty()"),
        "the whole namespace has no say over triggers",
    ),
    edit(
        "settled-next-not-patterns",
        FOLLOWS,
        follows_by!("!name::has_number_sign(&entry.name)"),
        "patterns have no say over triggers",
    ),
    edit(
        "settled-next-not-type-2",
        FOLLOWS,
        follows_by!("entry.lock != LockRule::LockOnCreate"),
        "entries of type 2 have no say over triggers",
    ),
    edit(
        "settled-next-not-type-0",
        FOLLOWS,
        follows_by!("entry.lock != LockRule::NoLock"),
        "entries of type 0 have no say over triggers",
    ),
    edit(
        "settled-next-behind",
        FOLLOWS,
        "let behind = policy.entries.iter().position(|entry| matches!(&entry.lock, LockRule::LockOnVarState(trigger) if \
         trigger.name == next.1)).map_or(0, |place| place + 1); last = hold(pair, &Policy { entries: \
         policy.entries[behind..].to_vec() }, &next);",
        "the entry of a trigger has to stand behind the one that waits for it",
    ),
];
