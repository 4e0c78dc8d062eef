//! Why a set was refused: the step (docs/RULES.md, 10.9) and what it found. Which ground of step 4 spoke, and of which
//! entry, is the library's report (10.10); the other steps are told from the status, the request and reads.

use super::{BAD_RECORD, OPEN, bad_name, bad_stores, not_found};
use crate::{describe, text};
use std::collections::BTreeMap;
use varpolicy::calls::{self, Found, Request, Written};
use varpolicy::{Attributes, Entry, Ground, Lock, MAX_PAYLOAD_BYTES, Namespace, POLICY_BYTES, Status};

/// What a request has to have after exit, if it is no deletion: NV, BS and RT.
const AFTER_EXIT: Attributes = Attributes(7);

/// A set that was refused, and what it was lent, which it left as it was.
pub struct Refusal<'a> {
    pub nv: &'a [u8],
    pub volatile: &'a [u8],
    pub policy: &'a [u8],
    pub exited: bool,
    pub request: Request<'a>,
    pub written: Written,
    pub namespaces: &'a BTreeMap<String, Namespace>,
}

/// Whether a request is a deletion: without APPEND, its payload is empty or it has neither BS nor RT.
pub fn is_deletion(request: &Request) -> bool {
    let has = |attribute| request.attributes.contains(attribute);
    !has(Attributes::APPEND) && (request.payload.is_empty() || !(has(Attributes::BS) || has(Attributes::RT)))
}

impl Refusal<'_> {
    /// The step and what it found, as a sentence.
    pub fn reason(&self) -> String {
        if self.written.status == Status::VolumeCorrupted {
            let stores = bad_stores(self.nv, self.volatile);
            return format!("before step 1: {}", stores.as_deref().unwrap_or(BAD_RECORD));
        }
        let (step, found) = match self.written.report.ground {
            Ground::None => self.other_step(),
            Ground::Size => (4, self.entry_says(Self::size)),
            Ground::Attributes => (4, self.entry_says(Self::attributes)),
            Ground::Lock => (4, self.entry_says(Self::lock)),
        };
        let deletion = if is_deletion(&self.request) { " of a deletion" } else { "" };
        format!("step {step}{deletion}: {found}")
    }

    /// The entry whose place the report has, and what `against` says of it.
    fn entry_says(&self, against: fn(&Self, &Entry) -> String) -> String {
        let place = self.written.report.place;
        let mut buffer = vec![0; POLICY_BYTES];
        let dumped = calls::dump(self.policy, OPEN, &mut buffer);
        let entry = describe::fields(describe::split(&buffer[..dumped.length])[place as usize]);
        let target = describe::variable(&entry.namespace, &entry.name, self.namespaces);
        format!("entry {place}, {target}, {}", against(self, &entry))
    }

    fn size(&self, entry: &Entry) -> String {
        let bytes = |number: u32| describe::count(number as usize);
        let allowed = match (entry.min_size, entry.max_size) {
            (min, max) if min == max => format!("exactly {}", bytes(max)),
            (min, u32::MAX) => format!("{} or more", bytes(min)),
            (min, max) => format!("{min} to {}", bytes(max)),
        };
        let (stored, given) = self.lengths();
        match self.is_append() {
            false => format!("allows {allowed}, and the payload has {given}"),
            true => format!("allows {allowed}, and the payload would have {}", sum(stored, given)),
        }
    }

    fn attributes(&self, entry: &Entry) -> String {
        let asked = self.request.attributes.0;
        let missing = Attributes(entry.must_have.0 & !asked);
        let prohibited = Attributes(entry.cant_have.0 & asked);
        let lacks = format!("requires {missing}, which the request lacks");
        let has = format!("prohibits {prohibited}, which the request has");
        match (missing, prohibited) {
            (_, Attributes::NONE) => lacks,
            (Attributes::NONE, _) => has,
            _ => format!("{lacks}, and {has}"),
        }
    }

    fn lock(&self, entry: &Entry) -> String {
        match &entry.lock {
            Lock::No => "locks it".to_string(),
            Lock::Now => "locks it (lock=now)".to_string(),
            Lock::OnCreate => "locks it, as it exists (lock=on-create)".to_string(),
            Lock::OnVarState { namespace, name, .. } => {
                let trigger = describe::variable(namespace, name, self.namespaces);
                let held = text::spaced_hex(self.read(namespace, name).payload);
                format!("locks it, as {trigger} holds {held} (lock=on-state)")
            }
        }
    }

    /// The step other than 4, by the status.
    fn other_step(&self) -> (u32, String) {
        let Request { namespace, name, attributes, .. } = self.request;
        match self.written.status {
            Status::Unsupported => (2, format!("attribute bits outside 0x47: {}", unknown(attributes))),
            Status::NotFound => (5, not_found(self.nv, self.volatile, namespace, name).to_string()),
            Status::WriteProtected => (5, "the variable is volatile, and the operating system has started".to_string()),
            Status::OutOfResources => self.no_room(),
            _ => self.invalid(),
        }
    }

    /// Step 1, 3 or 6.
    fn invalid(&self) -> (u32, String) {
        let Request { namespace, name, attributes, payload } = self.request;
        let found = self.read(namespace, name);
        if found.status == Status::InvalidParameter {
            return (1, bad_name(name));
        }
        if payload.len() > MAX_PAYLOAD_BYTES {
            let most = describe::count(MAX_PAYLOAD_BYTES);
            return (1, format!("{most} are the most, and the payload has {}", payload.len()));
        }
        let needing = Attributes(attributes.0 & (Attributes::RT | Attributes::APPEND).0);
        if needing != Attributes::NONE && !attributes.contains(Attributes::BS) {
            return (3, format!("{needing} without BS"));
        }
        let missing = Attributes(AFTER_EXIT.0 & !attributes.0);
        if self.exited && !is_deletion(&self.request) && missing != Attributes::NONE {
            return (3, format!("after exit a set needs {AFTER_EXIT}, and the request lacks {missing}"));
        }
        let asked = Attributes(attributes.0 & !Attributes::APPEND.0);
        (6, format!("it is stored with {}, and the request has {asked}", found.attributes))
    }

    /// Step 8 or 9.
    fn no_room(&self) -> (u32, String) {
        let (stored, given) = self.lengths();
        if self.is_append() && stored + given > MAX_PAYLOAD_BYTES {
            let most = describe::count(MAX_PAYLOAD_BYTES);
            return (8, format!("{most} are the most, and the payload would have {}", sum(stored, given)));
        }
        let record = (32 + self.request.name.len() + 2 + stored + given).next_multiple_of(4);
        let (store, length) = match self.request.attributes.contains(Attributes::NV) {
            true => ("non-volatile", self.nv.len()),
            false => ("volatile", self.volatile.len()),
        };
        (9, format!("the {store} store of {length} bytes has no room for a record of {record}"))
    }

    /// The lengths of which the payload as it would be afterwards is the sum: what is stored, if the request is an
    /// append, and what it brings.
    fn lengths(&self) -> (usize, usize) {
        let Request { namespace, name, payload, .. } = self.request;
        let stored = if self.is_append() { self.read(namespace, name).payload.len() } else { 0 };
        (stored, payload.len())
    }

    fn is_append(&self) -> bool {
        self.request.attributes.contains(Attributes::APPEND)
    }

    fn read(&self, namespace: &Namespace, name: &[u8]) -> Found<'_> {
        calls::read(self.nv, self.volatile, OPEN, namespace, name)
    }
}

/// The length of an append's payload as it would be afterwards.
fn sum(stored: usize, given: usize) -> String {
    format!("{}: {stored} stored and {given} appended", stored + given)
}

/// The bits that no attribute has.
fn unknown(attributes: Attributes) -> Attributes {
    Attributes::NAMED.iter().fold(attributes, |rest, (known, _)| Attributes(rest.0 & !known.0))
}

#[cfg(test)]
mod tests {
    use super::super::tests::told;
    use super::*;
    use varpolicy::{Name, Report};

    const A_IN_NV: &str = "set G \"A\" NV|BS 00";

    #[test]
    fn damage_comes_before_the_steps() {
        for (damage, what) in [
            ("poke nv 0 00", "the non-volatile store is not sound"),
            ("poke volatile 63 00", "the volatile store is not sound"),
            ("poke policy 16383 01", "the policy record is not valid"),
        ] {
            let expected = format!("VOLUME_CORRUPTED before step 1: {what}");
            assert_eq!(told(&[damage], "set G \"\" 0x8 01"), expected);
            assert_eq!(told(&[damage], "delete G \"A\""), expected);
        }
        let record = "AA553F00 02000000 04000000 01000000 5C67D181F686DF48BD959A6E4F0925C3 4100 0000 00 FFFFFF";
        let twice = format!("poke volatile 0 {record}");
        let expected = "VOLUME_CORRUPTED before step 1: one variable stands in both stores";
        assert_eq!(told(&[A_IN_NV, &twice], A_IN_NV), expected);
    }

    #[test]
    fn step_1_is_the_name_or_the_payload() {
        assert_eq!(told(&[], "set G \"\" BS 01"), "INVALID_PARAMETER step 1: the name is empty");
        let odd = "INVALID_PARAMETER step 1: the name has 3 bytes, an odd number";
        assert_eq!(told(&[], "set G hex:410042 BS|0x8 01"), odd);
        let one = "INVALID_PARAMETER step 1: the name has 1 byte, an odd number";
        assert_eq!(told(&[], "set G hex:41 BS 01"), one);
        assert_eq!(told(&[], "set G \"A\\u0000\" BS 01"), "INVALID_PARAMETER step 1: the name has a zero unit");
        let long = format!("append G \"{}\" BS 01", "A".repeat(65));
        assert_eq!(told(&[], &long), "INVALID_PARAMETER step 1: 64 units are the most, and the name has 65");
        let payload = "INVALID_PARAMETER step 1: 1024 bytes are the most, and the payload has 1025";
        assert_eq!(told(&[], "set G \"A\" BS 1025*00"), payload);
        assert_eq!(told(&[], "delete G \"\""), "INVALID_PARAMETER step 1 of a deletion: the name is empty");
    }

    #[test]
    fn steps_2_and_3_are_the_attributes_alone() {
        let unknown = "UNSUPPORTED step 2: attribute bits outside 0x47: 0x80000018";
        assert_eq!(told(&[], "set G \"A\" NV|BS|RT|APPEND|0x80000018 01"), unknown);
        let deletion = "UNSUPPORTED step 2 of a deletion: attribute bits outside 0x47: 0x8";
        assert_eq!(told(&[], "set G \"A\" 0x8 01"), deletion);
        assert_eq!(told(&[], "set G \"A\" RT 01"), "INVALID_PARAMETER step 3: RT without BS");
        assert_eq!(told(&[], "append G \"A\" NV 01"), "INVALID_PARAMETER step 3: APPEND without BS");
        assert_eq!(told(&[], "append G \"A\" RT 01"), "INVALID_PARAMETER step 3: RT|APPEND without BS");
        assert_eq!(told(&[], "set G \"A\" NV|RT"), "INVALID_PARAMETER step 3 of a deletion: RT without BS");
    }

    #[test]
    fn step_3_after_exit_is_what_the_request_lacks() {
        let lacks = |what: &str| {
            format!("INVALID_PARAMETER step 3: after exit a set needs NV|BS|RT, and the request lacks {what}")
        };
        for (attributes, what) in [("NV|BS", "RT"), ("BS|RT", "NV"), ("BS", "NV|RT")] {
            for verb in ["set", "append"] {
                let line = format!("{verb} G \"A\" {attributes} 01");
                assert_eq!(told(&[A_IN_NV, "exit"], &line), lacks(what), "{line}");
            }
        }
        assert_eq!(told(&["exit"], "append G \"A\" BS"), lacks("NV|RT"));
        assert_eq!(told(&["register G * lock=now", "exit"], A_IN_NV), lacks("RT"));
        assert_eq!(told(&["exit"], "set G \"A\" RT 01"), "INVALID_PARAMETER step 3: RT without BS");
        assert_eq!(told(&["exit"], "set G \"\" BS 01"), "INVALID_PARAMETER step 1: the name is empty");
        assert_eq!(told(&["exit"], "set G \"A\" NV|BS|RT 01"), "SUCCESS");
        assert_eq!(told(&["exit"], "append G \"A\" NV|BS|RT 01"), "SUCCESS");
    }

    #[test]
    fn step_4_is_a_size() {
        let size = |fields: &str, line: &str| {
            let entry = format!("register G \"A#\" {fields}");
            told(&["register G \"B\"", "set G \"A0\" BS 01 02", &entry], line)
        };
        let refused = "INVALID_PARAMETER step 4: entry 1, G \"A#\", allows";
        assert_eq!(size("max=2", "set G \"A0\" BS 3*00"), format!("{refused} 0 to 2 bytes, and the payload has 3"));
        assert_eq!(size("min=2", "set G \"A0\" BS 01"), format!("{refused} 2 bytes or more, and the payload has 1"));
        assert_eq!(
            size("min=1 max=1", "set G \"A0\" BS 3*00"),
            format!("{refused} exactly 1 byte, and the payload has 3")
        );
        let appended = format!("{refused} 0 to 2 bytes, and the payload would have 3: 2 stored and 1 appended");
        assert_eq!(size("max=2", "append G \"A0\" BS 01"), appended);
        let stored = format!("{refused} 0 to 1 byte, and the payload would have 2: 2 stored and 0 appended");
        assert_eq!(size("max=1", "append G \"A0\" BS"), stored);
        let absent = format!("{refused} 3 to 4 bytes, and the payload would have 1: 0 stored and 1 appended");
        assert_eq!(size("min=3 max=4", "append G \"A1\" BS 01"), absent);
    }

    #[test]
    fn step_4_is_attributes() {
        let attributes = |fields: &str, line: &str| told(&[&format!("register G * {fields}")], line);
        let refused = "INVALID_PARAMETER step 4: entry 0, G *,";
        assert_eq!(
            attributes("must=NV|BS|0x80000000 cant=RT|APPEND|0x8", "set G \"A\" BS 01"),
            format!("{refused} requires NV|0x80000000, which the request lacks")
        );
        assert_eq!(
            attributes("must=BS cant=NV|RT|APPEND", "append G \"A\" NV|BS 01"),
            format!("{refused} prohibits NV|APPEND, which the request has")
        );
        assert_eq!(
            attributes("must=RT cant=BS", "set G \"A\" NV|BS 01"),
            format!("{refused} requires RT, which the request lacks, and prohibits BS, which the request has")
        );
    }

    #[test]
    fn step_4_is_a_lock() {
        let now = ["register G \"B\"", "register G \"A\" lock=now"];
        let locked = "step 4: entry 1, G \"A\", locks it (lock=now)";
        assert_eq!(told(&now, A_IN_NV), format!("WRITE_PROTECTED {locked}"));
        let deletion = locked.replace("step 4", "step 4 of a deletion");
        for line in ["delete G \"A\"", "set G \"A\" NV|BS", "set G \"A\" NV 01"] {
            assert_eq!(told(&now, line), format!("WRITE_PROTECTED {deletion}"), "{line}");
        }
        let on_create = "WRITE_PROTECTED step 4: entry 0, G *, locks it, as it exists (lock=on-create)";
        assert_eq!(told(&["register G * lock=on-create", A_IN_NV], A_IN_NV), on_create);
        let on_state = ["register G \"A\" lock=on-state trigger=G:\"T\" value=0A", "set G \"T\" BS 0A"];
        let held = "WRITE_PROTECTED step 4: entry 0, G \"A\", locks it, as G \"T\" holds 0A (lock=on-state)";
        assert_eq!(told(&on_state, A_IN_NV), held);
        let hidden = [on_state[0], on_state[1], "exit"];
        assert_eq!(told(&hidden, "set G \"A\" NV|BS|RT 00"), held, "by a trigger that is no longer read");
    }

    /// The lengths are of what is stored, shown or not.
    #[test]
    fn step_4_after_exit_measures_what_is_hidden() {
        let before = ["register G * max=2", "set G \"A\" NV|BS 01 02", "exit"];
        let long = "INVALID_PARAMETER step 4: entry 0, G *, allows 0 to 2 bytes, and the payload would have 3: \
                    2 stored and 1 appended";
        assert_eq!(told(&before, "append G \"A\" NV|BS|RT 03"), long);
        let stored = "INVALID_PARAMETER step 6: it is stored with NV|BS, and the request has NV|BS|RT";
        assert_eq!(told(&before, "set G \"A\" NV|BS|RT 03"), stored);
    }

    #[test]
    fn steps_5_and_6_are_the_record() {
        for line in ["delete G \"A\"", "set G \"A\" BS", "set G \"A\" NV 01"] {
            let absent = "NOT_FOUND step 5 of a deletion: the variable does not exist";
            assert_eq!(told(&[], line), absent, "{line}");
        }
        let stored = "INVALID_PARAMETER step 6: it is stored with NV|BS, and the request has BS|RT";
        assert_eq!(told(&[A_IN_NV], "set G \"A\" BS|RT 01"), stored);
        assert_eq!(told(&[A_IN_NV], "append G \"A\" BS|RT"), stored);
    }

    #[test]
    fn step_5_after_exit_is_rt_or_the_volatile_store() {
        let delete = "delete G \"A\"";
        let hidden = "NOT_FOUND step 5 of a deletion: the variable has no RT, and the operating system has started";
        let volatile =
            "WRITE_PROTECTED step 5 of a deletion: the variable is volatile, and the operating system has started";
        for (set, expected) in [
            (A_IN_NV, hidden),
            ("set G \"A\" BS 00", hidden),
            ("set G \"A\" BS|RT 00", volatile),
            ("set G \"A\" NV|BS|RT 00", "SUCCESS"),
            ("set G \"B\" NV|BS 00", "NOT_FOUND step 5 of a deletion: the variable does not exist"),
        ] {
            assert_eq!(told(&[set, "exit"], delete), expected, "{set}");
            let locked = "WRITE_PROTECTED step 4 of a deletion: entry 0, G *, locks it (lock=now)";
            assert_eq!(told(&[set, "register G * lock=now", "exit"], delete), locked, "{set}");
        }
        assert_eq!(told(&["set G \"A\" BS|RT 00", "exit"], "set G \"A\" NV|BS|RT"), volatile);
    }

    #[test]
    fn steps_8_and_9_are_the_room() {
        let sum = "OUT_OF_RESOURCES step 8: 1024 bytes are the most, and the payload would have 1025: \
                   1000 stored and 25 appended";
        assert_eq!(told(&["set G \"A\" NV|BS 1000*00"], "append G \"A\" NV|BS 25*00"), sum);
        let volatile = "OUT_OF_RESOURCES step 9: the volatile store of 64 bytes has no room for a record of 68";
        assert_eq!(told(&[], "set G \"A\" BS 29*00"), volatile);
        assert_eq!(told(&["set G \"A\" BS 20*00"], "append G \"A\" BS 9*00"), volatile);
        let nv = "OUT_OF_RESOURCES step 9: the non-volatile store of 1280 bytes has no room for a record of 300";
        assert_eq!(told(&["set G \"A\" NV|BS 1000*00"], "set G \"BB\" NV|BS 262*00"), nv);
    }

    #[test]
    fn a_granted_set_tells_of_a_deletion_alone() {
        assert_eq!(told(&[A_IN_NV], "set G \"A\" NV|BS"), "SUCCESS it was a deletion");
        assert_eq!(told(&[A_IN_NV], "set G \"A\" NV 01"), "SUCCESS it was a deletion");
        for line in ["delete G \"A\"", "append G \"A\" NV|BS", A_IN_NV] {
            assert_eq!(told(&[A_IN_NV], line), "SUCCESS", "{line}");
        }
        let disabled = ["register G * max=0 lock=now", "disable"];
        assert_eq!(told(&disabled, A_IN_NV), "SUCCESS");
    }

    /// Entry 0 has a size against the request, entry 1 attributes and a lock; the reason is the one that is reported.
    #[test]
    fn the_report_decides() {
        let name = |text: &str| Name::new(text).expect("a name");
        let first = Entry { min_size: 2, ..Entry::new([1; 16], name("A")) };
        let second = Entry { must_have: Attributes::NV, lock: Lock::Now, ..Entry::new([1; 16], name("#")) };
        let mut policy = [&first.pack()[..], &second.pack()].concat();
        policy.resize(POLICY_BYTES, 0);
        let request = Request { namespace: &[1; 16], name: &name("A"), attributes: Attributes::BS, payload: &[0] };
        let namespaces = BTreeMap::from([("G".to_string(), [1; 16])]);
        for (ground, place, reason) in [
            (Ground::Size, 0, "step 4: entry 0, G \"A\", allows 2 bytes or more, and the payload has 1"),
            (Ground::Attributes, 1, "step 4: entry 1, G \"#\", requires NV, which the request lacks"),
            (Ground::Lock, 1, "step 4: entry 1, G \"#\", locks it (lock=now)"),
        ] {
            let status = if ground == Ground::Lock { Status::WriteProtected } else { Status::InvalidParameter };
            let written = Written { status, report: Report { ground, place, ..Report::NONE } };
            let (nv, volatile, policy, namespaces) = (&[], &[], &policy, &namespaces);
            let refusal = Refusal { nv, volatile, policy, exited: false, request, written, namespaces };
            assert_eq!(refusal.reason(), reason);
        }
    }
}
