//! Settled variables (docs/RULES.md, 10.14). The chain of triggers is written down first, from the variable that is asked
//! for to where it ends or comes round; then it is judged by how it ends and by how long it is.

use crate::entry::{LockRule, Trigger};
use crate::name;
use crate::policy::Policy;
use crate::store::Pair;
use crate::{MAX_LINKS, Namespace, Status};

/// Tells whether a variable is settled. The name is the bytes of its units.
pub fn settled(
    non_volatile: &[u8],
    volatile: &[u8],
    record: &[u8],
    namespace: &Namespace,
    name: &[u8],
) -> Result<bool, Status> {
    let pair = Pair::decode(non_volatile, volatile).ok_or(Status::VolumeCorrupted)?;
    let policy = Policy::decode(record).ok_or(Status::VolumeCorrupted)?;
    let name = name::decode_request(name).ok_or(Status::InvalidParameter)?;
    let chain = Chain::new(&pair, &policy, (*namespace, name));
    Ok(chain.is_held() && chain.links() <= MAX_LINKS)
}

/// The namespace and the name of a variable.
type VariableName = (Namespace, Vec<u16>);

/// What the chosen entry of a variable makes of it.
#[derive(Clone, PartialEq, Eq, Debug)]
enum Hold {
    /// It is locked for good, by itself.
    Held,
    /// It is not locked.
    Free,
    /// It is locked as long as its trigger stays as it is.
    HangsOn(VariableName),
}

/// A variable, its trigger, the trigger of that one, and so on, as far as the triggers hold their Values.
struct Chain {
    /// The variables, no two of them the same.
    variables: Vec<VariableName>,
    /// What holds the last of them. If that hangs on a trigger, this is one of the variables: a loop.
    last: Hold,
}

impl Chain {
    fn new(pair: &Pair, policy: &Policy, first: VariableName) -> Chain {
        let mut last = hold(pair, policy, &first);
        let mut variables = vec![first];
        while let Hold::HangsOn(next) = &last
            && !variables.contains(next)
        {
            let next = next.clone();
            last = hold(pair, policy, &next);
            variables.push(next);
        }
        Chain { variables, last }
    }

    /// Whether it ends at a variable that is locked for good.
    fn is_held(&self) -> bool {
        self.last == Hold::Held
    }

    /// How many links it has from its first variable to its last.
    fn links(&self) -> usize {
        self.variables.len() - 1
    }
}

/// What holds a variable, by its chosen entry and by what is stored.
fn hold(pair: &Pair, policy: &Policy, (namespace, name): &VariableName) -> Hold {
    let Some(entry) = policy.choose(namespace, name) else {
        return Hold::Free;
    };
    match &entry.lock {
        LockRule::NoLock => Hold::Free,
        LockRule::LockNow => Hold::Held,
        LockRule::LockOnCreate => match pair.find(namespace, name) {
            Some(_) => Hold::Held,
            None => Hold::Free,
        },
        LockRule::LockOnVarState(trigger) if holds_value(pair, trigger) => {
            Hold::HangsOn((trigger.namespace, trigger.name.clone()))
        }
        LockRule::LockOnVarState(_) => Hold::Free,
    }
}

/// Whether a trigger exists and its payload is one byte, which is Value.
fn holds_value(pair: &Pair, trigger: &Trigger) -> bool {
    match pair.find(&trigger.namespace, &trigger.name) {
        Some((_, _, variable)) => variable.payload == [trigger.value],
        None => false,
    }
}

#[cfg(test)]
mod tests {
    use super::*;
    use crate::entry::Entry;
    use crate::store::{self, Variable};
    use crate::{BS, NV, POLICY_BYTES, RT};

    const G: Namespace = [7; 16];
    const H: Namespace = [8; 16];

    fn units(name: &str) -> Vec<u16> {
        name.encode_utf16().collect()
    }

    fn bytes(name: &str) -> Vec<u8> {
        units(name).iter().flat_map(|unit| unit.to_le_bytes()).collect()
    }

    fn entry(name: &str, lock: LockRule) -> Entry {
        let (namespace, reserved) = (G, [0; 3]);
        Entry { namespace, name: units(name), min_size: 0, max_size: 9, must_have: 0, cant_have: 0, lock, reserved }
    }

    fn on(namespace: Namespace, name: &str, value: u8) -> LockRule {
        LockRule::LockOnVarState(Trigger { namespace, name: units(name), value, reserved: 0 })
    }

    /// The two stores, with variables of G that have these names, attributes and payloads.
    fn stores(variables: &[(&str, u32, &[u8])]) -> [Vec<u8>; 2] {
        [NV, 0].map(|kind| {
            let here = variables.iter().filter(|(_, attributes, _)| attributes & NV == kind);
            let variables = here.map(|(name, attributes, payload)| Variable {
                namespace: G,
                name: units(name),
                attributes: *attributes,
                payload: payload.to_vec(),
            });
            store::encode(&variables.collect::<Vec<_>>())
        })
    }

    fn record(entries: &[Entry]) -> Vec<u8> {
        let mut bytes = Policy { entries: entries.to_vec() }.encode();
        bytes.resize(POLICY_BYTES, 0);
        bytes
    }

    /// Whether the variable of G with this name is settled.
    fn asked(entries: &[Entry], variables: &[(&str, u32, &[u8])], name: &str) -> bool {
        let [nv, volatile] = stores(variables);
        settled(&nv, &volatile, &record(entries), &G, &bytes(name)).unwrap()
    }

    const THERE: u32 = NV | BS;

    #[test]
    fn by_the_type_of_the_chosen_entry() {
        let stored: [(&str, u32, &[u8]); 1] = [("A", BS, &[1])];
        for (lock, absent, there) in [
            (LockRule::NoLock, false, false),
            (LockRule::LockNow, true, true),
            (LockRule::LockOnCreate, false, true),
            (on(G, "T", 1), false, false),
        ] {
            let entries = [entry("", LockRule::NoLock), entry("A", lock)];
            assert_eq!(asked(&entries, &[], "A"), absent);
            assert_eq!(asked(&entries, &stored, "A"), there);
            assert!(!asked(&entries, &stored, "B"));
        }
        let ranks = [entry("", LockRule::LockNow), entry("#", LockRule::NoLock)];
        assert_eq!(["A", "Z", "#"].map(|name| asked(&ranks, &[], name)), [false, true, true]);
    }

    #[test]
    fn a_trigger_has_to_hold_and_to_be_settled_itself() {
        let hangs = entry("A", on(G, "T", 1));
        let payloads: [&[u8]; 5] = [&[1], &[0], &[1, 1], &[1, 0], &[1; 257]];
        for attributes in [BS, BS | RT, NV | BS, NV | BS | RT] {
            for payload in payloads {
                let stored = [("T", attributes, payload)];
                for (lock, holds) in
                    [(LockRule::LockNow, true), (LockRule::LockOnCreate, true), (LockRule::NoLock, false)]
                {
                    let entries = [hangs.clone(), entry("T", lock)];
                    assert_eq!(asked(&entries, &stored, "A"), holds && payload == [1]);
                }
                assert!(!asked(std::slice::from_ref(&hangs), &stored, "A"));
            }
        }
        assert!(!asked(&[hangs, entry("T", LockRule::LockNow)], &[], "A"));
    }

    #[test]
    fn a_trigger_is_looked_for_in_its_own_namespace() {
        let entries = [entry("A", on(H, "T", 1)), entry("T", LockRule::LockNow)];
        let elsewhere = Entry { namespace: H, ..entry("T", LockRule::LockNow) };
        let there = Variable { namespace: H, name: units("T"), attributes: BS, payload: vec![1] };
        let volatile = store::encode(&[there]);
        let ask = |entries: &[Entry]| settled(&[], &volatile, &record(entries), &G, &bytes("A"));
        assert_eq!(ask(&entries), Ok(false));
        assert_eq!(ask(&[&entries[..], &[elsewhere]].concat()), Ok(true));
        assert!(!asked(&entries, &[("T", THERE, &[1])], "A"));
    }

    /// Entries of `V00`, `V01`, .., each with the next as its trigger, as many as there are links, and one with this
    /// lock behind them.
    fn chain(links: usize, last: LockRule) -> Vec<Entry> {
        let named = |number: usize| format!("V{number:02}");
        let hanging = (0..links).map(|number| entry(&named(number), on(G, &named(number + 1), 1)));
        hanging.chain([entry(&named(links), last)]).collect()
    }

    const ALL: &[u8] = &[1];

    /// Whether `V00` is settled where so many of them hold 1.
    fn first_of(entries: &[Entry], stored: usize) -> bool {
        let names: Vec<String> = (0..stored).map(|number| format!("V{number:02}")).collect();
        let variables: Vec<(&str, u32, &[u8])> = names.iter().map(|name| (name.as_str(), THERE, ALL)).collect();
        asked(entries, &variables, "V00")
    }

    #[test]
    fn sixteen_links_are_followed() {
        for links in 0..40 {
            for last in [LockRule::LockNow, LockRule::LockOnCreate] {
                let entries = chain(links, last);
                assert_eq!(first_of(&entries, 40), links <= 16, "{links} links");
                let backwards: Vec<Entry> = entries.into_iter().rev().collect();
                assert_eq!(first_of(&backwards, 40), links <= 16, "{links} links");
            }
            assert!(!first_of(&chain(links, LockRule::NoLock), 40));
            assert!(!first_of(&chain(links, LockRule::LockOnCreate), links));
            assert!(!first_of(&chain(links, LockRule::LockNow)[..links], 40));
        }
    }

    #[test]
    fn loops_lead_nowhere() {
        for links in 0..30 {
            for back in 0..=links {
                assert!(!first_of(&chain(links, on(G, &format!("V{back:02}"), 1)), 40), "{links}, back to {back}");
            }
        }
    }

    #[test]
    fn what_is_unsound_comes_before_a_bad_name() {
        let [nv, volatile] = stores(&[("A", THERE, &[1]), ("B", BS, &[1])]);
        let policy = record(&[entry("A", LockRule::LockNow)]);
        let long = [0x41; 130];
        let names: [(&[u8], Result<bool, Status>); 6] = [
            (&[0x41, 0], Ok(true)),
            (&long[..128], Ok(false)),
            (&long, Err(Status::InvalidParameter)),
            (&[], Err(Status::InvalidParameter)),
            (&[0x41], Err(Status::InvalidParameter)),
            (&[0x41, 0, 0, 0], Err(Status::InvalidParameter)),
        ];
        for (name, expected) in names {
            assert_eq!(settled(&nv, &volatile, &policy, &G, name), expected);
            let unsound = [
                settled(&volatile, &nv, &policy, &G, name),
                settled(&nv[1..], &volatile, &policy, &G, name),
                settled(&nv, &volatile[1..], &policy, &G, name),
                settled(&nv, &volatile, &policy[1..], &G, name),
                settled(&nv, &volatile, &[0x41; POLICY_BYTES], &G, name),
            ];
            assert_eq!(unsound, [Err(Status::VolumeCorrupted); 5]);
        }
    }
}
