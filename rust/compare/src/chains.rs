//! Chains of triggers (docs/RULES.md, 10.14): entries of type 3, each with the next variable as its trigger, and the
//! variables that they look at.

use crate::call::Call;
use crate::make::{EntryFields, G, Pool, record, unit_bytes, units};
use crate::random::Random;
use std::collections::BTreeSet;
use varpolicy::Namespace;

/// Another namespace than G.
pub const ELSEWHERE: Namespace = [0x0E; 16];

/// The name of the variable of this number: `V00`, `V01`, ..
pub fn name(number: usize) -> Vec<u16> {
    units(&format!("V{number:02}"))
}

/// The entry of the variable of this number, which allows everything.
pub fn entry(number: usize) -> EntryFields {
    EntryFields::new(G, &name(number))
}

/// The entry of a variable that is locked while the variable of another number holds 1.
pub fn hanging(number: usize, trigger: usize) -> EntryFields {
    entry(number).with_trigger(G, &name(trigger), 1)
}

/// Entries of variables from 0 on that are locked while the next holds 1, as many as there are links.
pub fn links(count: usize) -> Vec<EntryFields> {
    (0..count).map(|number| hanging(number, number + 1)).collect()
}

/// A chain of variables that is made by chance.
#[derive(Clone, Debug)]
pub struct RandomChain {
    variables: Vec<Member>,
    /// The entries, packed, no two for one namespace and name.
    pub entries: Vec<Vec<u8>>,
}

/// A variable of a chain.
#[derive(Clone, Debug)]
struct Member {
    namespace: Namespace,
    name: Vec<u16>,
    /// The Value that the variable before it waits for.
    value: u8,
    attributes: u32,
    /// What it holds; nothing if it is absent.
    payload: Vec<u8>,
}

impl RandomChain {
    /// One of 1 to 21 variables in one namespace or two. In one of three some variables do not hold what is waited for,
    /// and some entries are missing.
    pub fn new(random: &mut Random) -> RandomChain {
        let count = random.pick(&[1, 2, 2, 3, 3, 4, 4, 5, 6, 8, 12, 16, 17, 17, 18, 19, 21]);
        let (other, flawed) = (random.pick(&[G, G, ELSEWHERE]), random.one_in(3));
        let variables: Vec<Member> = (0..count).map(|number| Member::new(random, number, other, flawed)).collect();
        let mut entries: Vec<EntryFields> = (0..count).map(|place| entry_of(random, &variables, place)).collect();
        if random.one_in(4) {
            let lock_type = random.pick(&[0, 1, 2]);
            entries.push(EntryFields { lock_type, ..EntryFields::new(random.pick(&[G, other]), &[]) });
        }
        let mut known = BTreeSet::new();
        entries.retain(|fields| known.insert((fields.namespace, fields.name.clone())) && !(flawed && random.one_in(8)));
        random.shuffle(&mut entries);
        RandomChain { variables, entries: entries.iter().map(EntryFields::pack).collect() }
    }

    /// A pool of the variables' names and namespaces.
    pub fn pool(&self) -> Pool {
        let (names, mut namespaces): (Vec<_>, Vec<_>) =
            self.variables.iter().map(|member| (member.name.clone(), member.namespace)).unzip();
        namespaces.dedup();
        Pool { names, namespaces }
    }

    /// The records of the variables that are there, by their store.
    pub fn stores(&self) -> [Vec<u8>; 2] {
        [1, 0].map(|kind| {
            let here =
                self.variables.iter().filter(|member| member.attributes & 1 == kind && !member.payload.is_empty());
            here.flat_map(|member| record(&member.namespace, &member.name, member.attributes, &member.payload))
                .collect()
        })
    }

    /// The calls that set the variables and register the entries, or the other way round. Each variable is set before
    /// its trigger, by which it is locked then.
    pub fn calls(&self, random: &mut Random) -> Vec<Call> {
        let registrations = self.entries.iter().map(|entry| Call::Register { entry: entry.clone() });
        let sets = self.variables.iter().map(|member| Call::Set {
            namespace: member.namespace,
            name: unit_bytes(&member.name),
            attributes: member.attributes,
            payload: member.payload.clone(),
        });
        match random.one_in(3) {
            true => registrations.chain(sets).collect(),
            false => sets.chain(registrations).collect(),
        }
    }

    /// A variable of it, of the first ones more often than of the others.
    pub fn variable(&self, random: &mut Random) -> (Namespace, Vec<u8>) {
        let first = 1 + random.below(self.variables.len());
        let member = &self.variables[random.below(first)];
        (member.namespace, unit_bytes(&member.name))
    }
}

impl Member {
    fn new(random: &mut Random, number: usize, other: Namespace, flawed: bool) -> Member {
        let value = random.pick(&[0, 1, 1, 0xFF]);
        let payload = match random.below(12) {
            0 if flawed => Vec::new(),
            1 if flawed => vec![value; 2],
            2 if flawed => vec![!value],
            _ => vec![value],
        };
        let (namespace, attributes) = (random.pick(&[G, other]), random.pick(&[2, 3, 6, 7]));
        Member { namespace, name: name(number), value, attributes, payload }
    }
}

/// The entry of the variable at this place, of type 3 unless it is the last one, and then sometimes: a loop. Its name is
/// sometimes a pattern.
fn entry_of(random: &mut Random, variables: &[Member], place: usize) -> EntryFields {
    let Member { namespace, name, .. } = &variables[place];
    let mut pattern = name.clone();
    if random.one_in(16) {
        let place = 1 + random.below(pattern.len() - 1);
        pattern[place] = 0x23;
    }
    let fields = EntryFields::new(*namespace, &pattern);
    let ending = random.pick(&[0, 1, 1, 1, 2, 2, 2, 3]);
    let next = match variables.get(place + 1) {
        None if ending < 3 => return EntryFields { lock_type: ending, ..fields },
        None => &variables[random.below(variables.len())],
        Some(next) => next,
    };
    fields.with_trigger(next.namespace, &next.name, next.value)
}
