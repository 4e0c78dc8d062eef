//! Counts what the question whether a variable is settled meets (docs/RULES.md, 10.14): how its chain of triggers ends
//! and how long it is, where it comes round, what it rests on, how its entries are chosen, and what is wrong.

use super::labels::crossed;
use super::signs::NUMBER_SIGN;
use super::{count_name, switch_bits, wrong_parts};
use crate::call::{Answer, Values};
use crate::coverage::{Coverage, Input};
use crate::state::State;
use crate::steps;
use crate::tallies::Each;
use reference::{Entry, Kind, LockRule, Pair, Policy, Switches, Trigger, Variable};
use varpolicy::{Namespace, Status};

/// How a chain ends that does not come round. Behind these stands a variable of type 2 that is absent: it is nobody's
/// trigger, so that no link leads to it.
const ENDINGS: [&str; 11] = [
    "type 1",
    "type 2, there",
    "type 0",
    "no entry",
    "trigger absent",
    "trigger of one byte, another",
    "trigger of two bytes, the first Value",
    "trigger of two bytes, the first another",
    "trigger of more bytes, the first Value",
    "trigger of more bytes, the first another",
    "trigger absent, Value 0",
];
const LINKS: [&str; 5] = ["0 links", "1 to 15", "16", "17", "more"];
const LOOPS: [&str; 6] = ["1 variable", "2", "3", "4 to 16", "17", "more"];
const ATTRIBUTES: [&str; 4] = ["BS", "BS, RT", "NV, BS", "NV, BS, RT"];
const CHOSEN: [&str; 8] = [
    "equal units, alone",
    "with '#', alone",
    "the whole namespace, alone",
    "the whole namespace before it",
    "the whole namespace behind it",
    "a higher rank before it",
    "a higher rank behind it",
    "the same rank behind it",
];

/// Each of 0 to 20 links, and each loop of 1 to 21 variables, is hit (see [`Each`]).
const COUNTED: usize = 21;
/// How many endings there are, by the number of links.
pub const CHAINS: usize = ENDINGS.len() * COUNTED;
/// How many loops there are, by the number of links before them.
pub const ROUNDS: usize = COUNTED * COUNTED;
/// How many settings of the switches there are, by the answer: yes, no, 2 and 10.
pub const SETTINGS: usize = 4 * 16;

/// Namespaces of triggers, and what stands under the trigger's name in the entry's own.
pub const NAMESPACE: [&str; 4] = [
    "yes, the entry's own",
    "yes, another",
    "no, absent in another, Value under its name in the entry's own",
    "no, free in another, locked now under its name in the entry's own",
];

/// How chains end, by the number of links.
pub fn end_labels() -> Vec<String> {
    [crossed(&ENDINGS, &LINKS), vec!["type 2, absent".to_string()]].concat()
}

/// Triggers that come round, and where the variable stands that is asked for.
pub fn round_labels() -> Vec<String> {
    crossed(&["in a loop", "one link before it", "more links before it"], &LOOPS)
}

/// What a settled variable rests on, by its attributes.
pub fn rest_labels() -> Vec<String> {
    crossed(&["before exit", "after exit"], &crossed(&["type 2", "trigger"], &ATTRIBUTES))
}

/// How the entries of a chain are chosen.
pub fn choice_labels() -> Vec<String> {
    crossed(&["yes", "no"], &crossed(&["variable's", "trigger's"], &CHOSEN))
}

/// What is wrong with what is lent, and nothing else, by the name.
pub fn unsound_labels() -> Vec<String> {
    let parts = [
        "non-volatile store unsound",
        "volatile store unsound",
        "a variable in both stores",
        "non-volatile store over 32,768 bytes",
        "volatile store over 32,768 bytes",
        "policy record a byte short of the limit",
        "policy record a byte over the limit",
        "policy record of the former length",
        "policy record of another length",
        "policy record unsound",
        "more than one of these",
    ];
    crossed(&["good name", "bad name"], &parts)
}

/// Counts a question that got this answer.
pub(super) fn count(coverage: &mut Coverage, lent: &State, (namespace, name): (&Namespace, &[u8]), answer: &Answer) {
    let yes = answer.values == Values::Settled { settled: true };
    count_setting(coverage, lent.read_switches(), answer.status, yes);
    if answer.status == Status::VolumeCorrupted {
        count_unsound(coverage, lent, name);
        return;
    }
    count_name(coverage, Input::SettledName, name);
    let (Some(pair), Some(policy)) = (Pair::decode(&lent.nv, &lent.volatile), Policy::decode(&lent.policy)) else {
        return;
    };
    if answer.status == Status::Success {
        let chain = Chain::new(&pair, &policy, (*namespace, steps::units(name)));
        count_end(coverage, &chain);
        count_choices(coverage, &policy, &chain, yes);
        count_namespaces(coverage, (&pair, &policy), &chain, yes);
        if yes {
            count_rest(coverage, &pair, &chain, lent.read_switches().exited);
        }
    }
}

fn count_setting(coverage: &mut Coverage, switches: Switches, status: Status, yes: bool) {
    let answer = match status {
        Status::Success => usize::from(!yes),
        Status::InvalidParameter => 2,
        _ => 3,
    };
    coverage.each(Each::SettledSetting, 16 * answer + switch_bits(switches));
}

fn count_unsound(coverage: &mut Coverage, lent: &State, name: &[u8]) {
    let wrong = wrong_parts(lent);
    let mut places = wrong.iter().enumerate().filter(|(_, wrong)| **wrong).map(|(place, _)| place);
    let place = match (places.next(), places.next()) {
        (None, _) => return,
        (Some(place), None) => place,
        _ => wrong.len(),
    };
    let bad = !steps::is_name(name);
    coverage.input(Input::SettledUnsound, (wrong.len() + 1) * usize::from(bad) + place);
}

/// A variable, its trigger, the trigger of that one, and so on, as far as the triggers hold their Values.
struct Chain<'a> {
    links: Vec<Link<'a>>,
    end: End<'a>,
}

/// A variable, and the entry that is chosen for it.
struct Link<'a> {
    namespace: Namespace,
    name: Vec<u16>,
    entry: Option<&'a Entry>,
}

/// How a chain ends.
enum End<'a> {
    /// As it is told at this place of [`ENDINGS`].
    Told(usize),
    /// At a trigger that does not hold its Value, as it is told there.
    Trigger(&'a Trigger, usize),
    /// At a variable of type 2 that is absent.
    Absent,
    /// It comes round to the variable at this place.
    Round(usize),
}

impl<'a> Chain<'a> {
    fn new(pair: &Pair, policy: &'a Policy, first: (Namespace, Vec<u16>)) -> Chain<'a> {
        let (mut links, mut next): (Vec<Link>, _) = (Vec::new(), first);
        let end = loop {
            let (namespace, name) = next;
            if let Some(place) = links.iter().position(|link| link.namespace == namespace && link.name == name) {
                break End::Round(place);
            }
            let entry = policy.choose(&namespace, &name);
            let there = pair.find(&namespace, &name).is_some();
            links.push(Link { namespace, name, entry });
            match hangs_on(pair, entry, there) {
                Ok(trigger) => next = (trigger.namespace, trigger.name.clone()),
                Err(end) => break end,
            }
        };
        Chain { links, end }
    }
}

/// The trigger that a variable hangs on and that holds its Value; else how the chain ends at this variable.
fn hangs_on<'a>(pair: &Pair, entry: Option<&'a Entry>, there: bool) -> Result<&'a Trigger, End<'a>> {
    let Some(entry) = entry else {
        return Err(End::Told(3));
    };
    let trigger = match &entry.lock {
        LockRule::LockNow => return Err(End::Told(0)),
        LockRule::LockOnCreate if there => return Err(End::Told(1)),
        LockRule::LockOnCreate => return Err(End::Absent),
        LockRule::NoLock => return Err(End::Told(2)),
        LockRule::LockOnVarState(trigger) => trigger,
    };
    let found = pair.find(&trigger.namespace, &trigger.name);
    let ending = match found.map_or(&[][..], |(_, _, variable)| &variable.payload) {
        [byte] if *byte == trigger.value => return Ok(trigger),
        [] if trigger.value == 0 => 10,
        [] => 4,
        [_] => 5,
        [first, _] => 6 + usize::from(*first != trigger.value),
        [first, ..] => 8 + usize::from(*first != trigger.value),
    };
    Err(End::Trigger(trigger, ending))
}

fn count_end(coverage: &mut Coverage, chain: &Chain) {
    let links = chain.links.len() - 1;
    match chain.end {
        End::Absent => coverage.input(Input::SettledEnd, LINKS.len() * ENDINGS.len()),
        End::Told(ending) | End::Trigger(_, ending) => {
            let label = match links {
                0 => 0,
                1..=15 => 1,
                16 => 2,
                17 => 3,
                _ => 4,
            };
            coverage.input(Input::SettledEnd, LINKS.len() * ending + label);
            if links < COUNTED {
                coverage.each(Each::SettledLinks, COUNTED * ending + links);
            }
        }
        End::Round(before) => count_round(coverage, chain.links.len() - before, before),
    }
}

/// Counts a loop of so many variables, to which so many links lead.
fn count_round(coverage: &mut Coverage, variables: usize, before: usize) {
    let label = match variables {
        1..=3 => variables - 1,
        4..=16 => 3,
        17 => 4,
        _ => 5,
    };
    coverage.input(Input::SettledRound, LOOPS.len() * before.min(2) + label);
    if variables <= COUNTED && before < COUNTED {
        coverage.each(Each::SettledRound, COUNTED * (variables - 1) + before);
    }
}

/// Counts the stored variables that a settled one rests on: those of type 2, and the triggers.
fn count_rest(coverage: &mut Coverage, pair: &Pair, chain: &Chain, exited: bool) {
    for (place, Link { namespace, name, entry }) in chain.links.iter().enumerate() {
        let Some((kind, _, variable)) = pair.find(namespace, name) else {
            continue;
        };
        let attributes = attributes_place(kind, variable);
        let mut count = |trigger: bool| {
            coverage.input(Input::SettledRest, 8 * usize::from(exited) + 4 * usize::from(trigger) + attributes);
        };
        if entry.is_some_and(|entry| entry.lock == LockRule::LockOnCreate) {
            count(false);
        }
        if place > 0 {
            count(true);
        }
    }
}

/// The place in [`ATTRIBUTES`] of a stored variable.
fn attributes_place(kind: Kind, variable: &Variable) -> usize {
    2 * usize::from(kind == Kind::NonVolatile) + usize::from(variable.is_runtime())
}

/// Counts how each entry of a chain is chosen.
fn count_choices(coverage: &mut Coverage, policy: &Policy, chain: &Chain, yes: bool) {
    for (place, Link { namespace, name, entry }) in chain.links.iter().enumerate() {
        let Some(chosen) = entry else {
            continue;
        };
        let first_label = 16 * usize::from(!yes) + 8 * usize::from(place > 0);
        let targeting: Vec<&Entry> = policy.entries.iter().filter(|entry| entry.targets(namespace, name)).collect();
        let own = targeting.iter().position(|entry| std::ptr::eq(*entry, *chosen)).expect("the chosen one targets it");
        if targeting.len() == 1 {
            let sign = chosen.name.contains(&NUMBER_SIGN);
            let label = if chosen.name.is_empty() { 2 } else { usize::from(sign) };
            coverage.input(Input::SettledChoice, first_label + label);
        }
        for (place, other) in targeting.iter().enumerate().filter(|(place, _)| *place != own) {
            let behind = usize::from(place > own);
            let label = match other {
                other if other.name.is_empty() => 3 + behind,
                other if other.rank() == chosen.rank() => 7,
                _ => 5 + behind,
            };
            coverage.input(Input::SettledChoice, first_label + label);
        }
    }
}

/// Counts the namespaces of triggers: those of a yes, and of a no those that the entry's own would have made a yes.
fn count_namespaces(coverage: &mut Coverage, (pair, policy): (&Pair, &Policy), chain: &Chain, yes: bool) {
    for links in chain.links.windows(2).filter(|_| yes) {
        let other = links[0].namespace != links[1].namespace;
        coverage.input(Input::SettledNamespace, usize::from(other));
    }
    let [.., last] = &chain.links[..] else {
        return;
    };
    if let End::Trigger(Trigger { namespace, name, value, .. }, 4 | 10) = &chain.end
        && *namespace != last.namespace
        && pair.find(&last.namespace, name).is_some_and(|(_, _, variable)| variable.payload == [*value])
    {
        coverage.input(Input::SettledNamespace, 2);
    }
    let locked_now = |entry: &Entry| entry.lock == LockRule::LockNow;
    if let (End::Told(2 | 3), [.., before, last]) = (&chain.end, &chain.links[..])
        && before.namespace != last.namespace
        && policy.choose(&before.namespace, &last.name).is_some_and(locked_now)
    {
        coverage.input(Input::SettledNamespace, 3);
    }
}
