//! Why a variable is settled or not (docs/RULES.md, 10.14): the chain that leads from it over triggers, and where it ends.
//! Whether it is settled is the library's answer. The chain is found by the rules once more, from entries and reads; if it
//! ends otherwise, that is told.

use super::OPEN;
use super::choice::{Variable, chosen, units};
use crate::describe;
use std::collections::BTreeMap;
use std::ops::ControlFlow::{self, Break, Continue};
use varpolicy::{Entry, Lock, MAX_LINKS, Name, Namespace, POLICY_BYTES, Status, Switches, calls};

/// What the chain of a variable is found in: what the call was lent.
pub struct Chains<'a> {
    pub nv: &'a [u8],
    pub volatile: &'a [u8],
    pub policy: &'a [u8],
    pub namespaces: &'a BTreeMap<String, Namespace>,
}

/// Where a chain ends: whether its first variable is settled, and why.
struct End {
    settled: bool,
    why: String,
}

/// One step of a chain: to the trigger, or to the end.
type Step = ControlFlow<End, Variable>;

fn yes(why: String) -> Step {
    Break(End { settled: true, why })
}

fn no(why: String) -> Step {
    Break(End { settled: false, why })
}

impl Chains<'_> {
    /// A line for each variable of the chain, and one for where it ends; another if that is not what the library answered.
    pub fn lines(&self, namespace: &Namespace, name: &[u8], answer: bool) -> Vec<String> {
        let entries = self.entries();
        let name = Name::from_units(units(name)).expect("the library answered of a name");
        let mut passed = vec![Variable { namespace: *namespace, name }];
        let mut lines = Vec::new();
        let end = loop {
            let last = passed[passed.len() - 1];
            let chosen = chosen(&entries, &last);
            lines.push(self.line(&last, chosen));
            match self.next(&passed, chosen.map(|(_, entry)| entry.lock)) {
                Continue(trigger) => passed.push(trigger),
                Break(end) => break end,
            }
        };
        lines.push(format!("{}: {}", yes_or_no(end.settled), end.why));
        if end.settled != answer {
            let (answer, found) = (yes_or_no(answer), yes_or_no(end.settled));
            lines.push(format!(
                "DISAGREEMENT: the library answered {answer}, and this chain says {found}: one is wrong"
            ));
        }
        lines
    }

    fn entries(&self) -> Vec<Entry> {
        let mut buffer = vec![0; POLICY_BYTES];
        let dumped = calls::dump(self.policy, OPEN, &mut buffer);
        describe::split(&buffer[..dumped.length]).into_iter().map(describe::fields).collect()
    }

    /// A variable with its chosen entry and, if that has one, what the trigger holds.
    fn line(&self, variable: &Variable, chosen: Option<(usize, &Entry)>) -> String {
        let named = self.named(variable);
        let Some((place, entry)) = chosen else {
            return format!("{named}: no entry");
        };
        let target = describe::variable(&entry.namespace, &entry.name, self.namespaces);
        let lock = describe::lock(&entry.lock, self.namespaces);
        let holds = match entry.lock {
            Lock::OnVarState { namespace, name, .. } => match self.held(&Variable { namespace, name }) {
                Some(payload) => format!("; the trigger holds {}", bytes(payload)),
                None => "; the trigger does not exist".to_string(),
            },
            _ => String::new(),
        };
        format!("{named}: entry {place}, {target}, {lock}{holds}")
    }

    /// The trigger to which the last of these variables leads by the lock of its chosen entry, or the end of the chain.
    fn next(&self, passed: &[Variable], lock: Option<Lock>) -> Step {
        let last = &passed[passed.len() - 1];
        let named = self.named(last);
        match lock {
            None => no(format!("no entry targets {named}")),
            Some(Lock::No) => no(format!("{named} has no lock")),
            Some(Lock::Now) => yes(format!("{named} is locked, whatever is stored")),
            Some(Lock::OnCreate) if self.held(last).is_some() => yes(format!("{named} exists, and is locked by that")),
            Some(Lock::OnCreate) => no(format!("{named} does not exist")),
            Some(Lock::OnVarState { namespace, name, value }) => self.link(passed, Variable { namespace, name }, value),
        }
    }

    /// The trigger, if it holds the value and the chain may go on to it.
    fn link(&self, passed: &[Variable], trigger: Variable, value: u8) -> Step {
        let named = self.named(&trigger);
        match self.held(&trigger) {
            None => no(format!("the trigger {named} does not exist")),
            Some(payload) if payload != [value] => {
                no(format!("the trigger {named} holds {}, not {}", bytes(payload), bytes(&[value])))
            }
            _ if passed.contains(&trigger) => no(format!("a loop, which comes back to {named}")),
            _ if passed.len() > MAX_LINKS => no(format!("{MAX_LINKS} links are the most, and {named} is one more")),
            _ => Continue(trigger),
        }
    }

    /// The payload of a variable, if it exists.
    fn held(&self, variable: &Variable) -> Option<&[u8]> {
        let found = calls::read(self.nv, self.volatile, OPEN, &variable.namespace, &variable.name);
        (found.status == Status::Success).then_some(found.payload)
    }

    fn named(&self, variable: &Variable) -> String {
        describe::variable(&variable.namespace, &variable.name, self.namespaces)
    }
}

/// Of an engine that is not enabled and locked, that a yes does not last.
pub fn lasts(switches: Switches) -> Option<String> {
    let is = match (switches.enabled, switches.locked) {
        (true, true) => return None,
        (true, false) => "unlocked",
        (false, true) => "disabled",
        (false, false) => "disabled and unlocked",
    };
    Some(format!("a yes lasts only while the engine is enabled and locked, and it is {is}"))
}

pub fn yes_or_no(settled: bool) -> &'static str {
    if settled { "yes" } else { "no" }
}

/// A payload; of one byte the byte alone.
fn bytes(payload: &[u8]) -> String {
    match payload {
        [byte] => format!("{byte:02X}"),
        _ => describe::payload(payload),
    }
}

#[cfg(test)]
mod tests {
    use super::super::tests::told;
    use super::*;
    use varpolicy::Attributes;
    use varpolicy::calls::Request;

    const T_IN_NV: &str = "set G \"T\" NV|BS 01";
    const A_BY_T: &str = "register G \"A\" lock=on-state trigger=G:\"T\" value=01";
    const T_BY_A: &str = "register G \"T\" lock=on-state trigger=G:\"A\" value=01";

    /// What is told of `A`, with the engine locked.
    fn of_a(before: &[&str]) -> String {
        told(&[before, &["lock"]].concat(), "settled G \"A\"")
    }

    /// An answer and the lines behind it.
    fn lines(answer: &str, lines: &[&str]) -> String {
        lines.iter().fold(format!("SUCCESS {answer}"), |told, line| format!("{told}\n    {line}"))
    }

    #[test]
    fn no_entry_and_no_lock() {
        let none = lines("no", &["G \"A\": no entry", "no: no entry targets G \"A\""]);
        assert_eq!(of_a(&[]), none);
        let no_lock = lines("no", &["G \"A\": entry 1, G \"#\", lock=no", "no: G \"A\" has no lock"]);
        assert_eq!(of_a(&["register G \"B\" lock=now", "register G \"#\" lock=no"]), no_lock);
    }

    #[test]
    fn a_lock_now_is_a_yes_of_what_does_not_exist_too() {
        let yes = lines("yes", &["G \"A\": entry 0, G *, lock=now", "yes: G \"A\" is locked, whatever is stored"]);
        assert_eq!(of_a(&["register G * lock=now"]), yes);
        assert_eq!(of_a(&["set G \"A\" BS 01", "register G * lock=now"]), yes);
    }

    #[test]
    fn a_lock_on_create_asks_whether_the_variable_exists() {
        let (entry, line) = ("register G \"A\" lock=on-create", "G \"A\": entry 0, G \"A\", lock=on-create");
        assert_eq!(of_a(&[entry]), lines("no", &[line, "no: G \"A\" does not exist"]));
        let yes = lines("yes", &[line, "yes: G \"A\" exists, and is locked by that"]);
        for set in ["set G \"A\" NV|BS 01", "set G \"A\" BS 01 02"] {
            assert_eq!(of_a(&[entry, set]), yes, "{set}");
        }
    }

    #[test]
    fn a_trigger_has_to_hold_the_value() {
        let line = "G \"A\": entry 0, G \"A\", lock=on-state trigger=G:\"T\" value=01; the trigger";
        let no = |holds: &str, why: &str| lines("no", &[&format!("{line} {holds}"), &format!("no: the trigger {why}")]);
        assert_eq!(of_a(&[A_BY_T]), no("does not exist", "G \"T\" does not exist"));
        for (payload, holds) in [
            ("00", "00"),
            ("01 00", "2 bytes: 01 00"),
            ("\"on\"", "2 bytes: 6F 6E \"on\""),
            ("33*00", &format!("33 bytes: {}..", "00 ".repeat(32))),
        ] {
            let set = format!("set G \"T\" NV|BS {payload}");
            let why = format!("G \"T\" holds {holds}, not 01");
            assert_eq!(of_a(&[A_BY_T, &set]), no(&format!("holds {holds}"), &why));
        }
    }

    #[test]
    fn a_trigger_is_asked_in_turn() {
        let a = "G \"A\": entry 0, G \"A\", lock=on-state trigger=G:\"T\" value=01; the trigger holds 01";
        let told = |before: &[&str]| of_a(&[&[A_BY_T, T_IN_NV], before].concat());
        let free = ["G \"T\": no entry", "no: no entry targets G \"T\""];
        assert_eq!(told(&[]), lines("no", &[a, free[0], free[1]]));
        let once = ["G \"T\": entry 1, G *, lock=on-create", "yes: G \"T\" exists, and is locked by that"];
        assert_eq!(told(&["register G * lock=on-create"]), lines("yes", &[a, once[0], once[1]]));
        let now = ["G \"T\": entry 1, G \"T\", lock=now", "yes: G \"T\" is locked, whatever is stored"];
        assert_eq!(told(&["register G \"T\" lock=now"]), lines("yes", &[a, now[0], now[1]]));
    }

    #[test]
    fn a_loop_is_a_no() {
        let (a_in_nv, by_t) = ("set G \"A\" NV|BS 01", "lock=on-state trigger=G:\"T\" value=01");
        let a_by_a = "register G \"A\" lock=on-state trigger=G:\"A\" value=01";
        let itself = "G \"A\": entry 0, G \"A\", lock=on-state trigger=G:\"A\" value=01; the trigger holds 01";
        assert_eq!(of_a(&[a_in_nv, a_by_a]), lines("no", &[itself, "no: a loop, which comes back to G \"A\""]));
        let b_by_t = format!("register G \"B\" {by_t}");
        let two = [a_in_nv, A_BY_T, T_IN_NV, T_BY_A, &b_by_t];
        let a = format!("G \"A\": entry 0, G \"A\", {by_t}; the trigger holds 01");
        let t = "G \"T\": entry 1, G \"T\", lock=on-state trigger=G:\"A\" value=01; the trigger holds 01";
        let b = format!("G \"B\": entry 2, G \"B\", {by_t}; the trigger holds 01");
        assert_eq!(of_a(&two), lines("no", &[&a, t, "no: a loop, which comes back to G \"A\""]));
        let into = lines("no", &[&b, t, &a, "no: a loop, which comes back to G \"T\""]);
        assert_eq!(told(&two, "settled G \"B\""), into);
    }

    /// What is told of the first variable of a chain with so many links, of which the last variable has this entry.
    fn chain(links: usize, last: &str) -> Vec<String> {
        let sets = (0..=links).map(|number| format!("set G \"V{number:02}\" NV|BS 01"));
        let entry = |number: usize| {
            format!("register G \"V{number:02}\" lock=on-state trigger=G:\"V{:02}\" value=01", number + 1)
        };
        let before: Vec<String> =
            sets.chain((0..links).map(entry)).chain([last.to_string(), "lock".to_string()]).collect();
        let before: Vec<&str> = before.iter().map(String::as_str).collect();
        told(&before, "settled G \"V00\"").lines().map(str::to_string).collect()
    }

    #[test]
    fn sixteen_links_are_the_most() {
        for last in ["register G * lock=now", "register G * lock=on-create"] {
            let told = chain(16, last);
            assert_eq!((told[0].as_str(), told.len()), ("SUCCESS yes", 19));
            assert!(
                told[16].starts_with("    G \"V15\": entry 15, G \"V15\", lock=on-state trigger=G:\"V16\" value=01")
            );
            assert!(told[17].starts_with("    G \"V16\": entry 16, G *, lock="));
            assert!(told[18].starts_with("    yes: G \"V16\" "));
            let told = chain(17, last);
            assert_eq!((told[0].as_str(), told.len()), ("SUCCESS no", 19));
            assert!(
                told[17].starts_with("    G \"V16\": entry 16, G \"V16\", lock=on-state trigger=G:\"V17\" value=01")
            );
            assert_eq!(told[18], "    no: 16 links are the most, and G \"V17\" is one more");
        }
        let told = chain(16, "register G \"V16\" lock=on-state trigger=G:\"V00\" value=01");
        assert_eq!((told.len(), told[18].as_str()), (19, "    no: a loop, which comes back to G \"V00\""));
    }

    #[test]
    fn a_yes_that_does_not_last_is_told() {
        let entry = "register G * lock=now";
        let yes = ["G \"A\": entry 0, G *, lock=now", "yes: G \"A\" is locked, whatever is stored"];
        for (before, is) in [
            (&["state"][..], "unlocked"),
            (&["disable"], "disabled and unlocked"),
            (&["disable", "lock"], "disabled"),
            (&["disable", "lock", "exit"], "disabled"),
        ] {
            let lasts = format!("a yes lasts only while the engine is enabled and locked, and it is {is}");
            let expected = lines("yes", &[yes[0], yes[1], &lasts]);
            assert_eq!(told(&[&[entry], before].concat(), "settled G \"A\""), expected);
        }
        assert_eq!(told(&[entry, "lock", "exit"], "settled G \"A\""), lines("yes", &yes));
        let no = lines("no", &["G \"A\": no entry", "no: no entry targets G \"A\""]);
        assert_eq!(told(&["disable"], "settled G \"A\""), no);
    }

    /// After exit a trigger without RT is not read, and counts as before.
    #[test]
    fn what_is_hidden_counts() {
        let before = [A_BY_T, "register G \"T\" lock=on-create", T_IN_NV];
        assert_eq!(told(&[&before[..], &["lock", "exit"]].concat(), "settled G \"A\""), of_a(&before));
    }

    #[test]
    fn a_refusal_tells_its_ground() {
        for (damage, what) in [
            ("poke nv 0 00", "the non-volatile store is not sound"),
            ("poke volatile 63 00", "the volatile store is not sound"),
            ("poke policy 16383 01", "the policy record is not valid"),
        ] {
            assert_eq!(told(&[damage], "settled G \"\""), format!("VOLUME_CORRUPTED {what}"));
        }
        assert_eq!(told(&[], "settled G \"\""), "INVALID_PARAMETER the name is empty");
        assert_eq!(told(&[], "settled G hex:410000"), "INVALID_PARAMETER the name has 3 bytes, an odd number");
        assert_eq!(told(&[], "settled G \"A\\u0000\""), "INVALID_PARAMETER the name has a zero unit");
    }

    #[test]
    fn another_answer_than_the_chain_s_is_told() {
        let entry = Entry { lock: Lock::Now, ..Entry::new([1; 16], Name::EMPTY) };
        let mut policy = entry.pack().to_vec();
        policy.resize(POLICY_BYTES, 0);
        let namespaces = BTreeMap::from([("G".to_string(), [1; 16])]);
        let chains = Chains { nv: &[], volatile: &[], policy: &policy, namespaces: &namespaces };
        let said = |namespace: &Namespace, answer: bool| chains.lines(namespace, b"A\0", answer);
        assert_eq!((said(&[1; 16], true).len(), said(&[2; 16], false).len()), (2, 2));
        let told = "DISAGREEMENT: the library answered no, and this chain says yes: one is wrong";
        assert_eq!(said(&[1; 16], false)[2], told);
        let told = "DISAGREEMENT: the library answered yes, and this chain says no: one is wrong";
        assert_eq!(said(&[2; 16], true)[2], told);
    }

    /// One of three variables.
    fn of_three(place: usize) -> Name {
        Name::new(["A", "B", "C"][place]).expect("a name")
    }

    /// A policy record in which each of the three has an entry or none: `number` has a digit for each to the base 7.
    fn policy(number: usize) -> Vec<u8> {
        let entries = (0..3).filter_map(|place| {
            let by = |trigger| Lock::OnVarState { namespace: [1; 16], name: of_three(trigger), value: 1 };
            let lock = match number / 7_usize.pow(place as u32) % 7 {
                6 => return None,
                trigger @ 0..3 => by(trigger),
                other => [Lock::No, Lock::Now, Lock::OnCreate][other - 3],
            };
            Some(Entry { lock, ..Entry::new([1; 16], of_three(place)) }.pack().to_vec())
        });
        let mut policy: Vec<u8> = entries.flatten().collect();
        policy.resize(POLICY_BYTES, 0);
        policy
    }

    /// A store in which each of the three has one byte, 0 or 1, or is absent: a digit for each to the base 3.
    fn store(number: usize) -> Vec<u8> {
        let mut store = vec![0xFF; 128];
        for place in 0..3 {
            let byte = (number / 3_usize.pow(place as u32) % 3) as u8;
            let (name, payload) = (of_three(place), [byte]);
            let request = Request { namespace: &[1; 16], name: &name, attributes: Attributes::BS, payload: &payload };
            if byte < 2 {
                calls::set(&mut [], &mut store, &[0; POLICY_BYTES], OPEN, request).ok().expect("room");
            }
        }
        store
    }

    #[test]
    fn the_chain_ends_as_the_library_answers() {
        let (policies, namespaces) = ((0..343).map(policy), BTreeMap::new());
        let stores: Vec<Vec<u8>> = (0..27).map(store).collect();
        let mut answers = [0; 2];
        for policy in policies {
            for (volatile, place) in stores.iter().flat_map(|store| (0..3).map(move |place| (store, place))) {
                let chains = Chains { nv: &[], volatile, policy: &policy, namespaces: &namespaces };
                let answer = calls::settled(&[], volatile, &policy, &[1; 16], &of_three(place)).settled;
                let lines = chains.lines(&[1; 16], &of_three(place), answer);
                assert!(lines[lines.len() - 1].starts_with(yes_or_no(answer)), "{lines:?}");
                answers[usize::from(answer)] += 1;
            }
        }
        assert_eq!(answers, [20_376, 7_407], "no and yes");
    }
}
