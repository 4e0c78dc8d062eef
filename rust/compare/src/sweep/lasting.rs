//! What it is worth that a variable is settled (docs/RULES.md, 12.9): with the engine enabled and locked every call over
//! chains of triggers, by itself and one after the other, before exit and after; rebuilds in every order; and what
//! becomes of variables where a condition is missing.

use super::{OPEN, Outcome, Sweep, delete, entry, locking, read, register, set, settled, state, store};
use crate::call::Call;
use crate::chains::{self, links, name};
use crate::comparison::{Sides, check};
use crate::lasting::Lasting;
use crate::make::{EntryFields, G, record, unit_bytes, units};
use crate::state::State;
use varpolicy::{Status, SwitchBytes};

pub(super) fn run(sweep: &mut Sweep) -> Outcome {
    held_chains(sweep)?;
    rebuilds(sweep)?;
    another_entry(sweep)?;
    disabled(sweep)?;
    started(sweep)?;
    free_triggers(sweep)
}

/// The switches of an engine that is enabled and locked.
const CLOSED: SwitchBytes = SwitchBytes { locked: 1, ..OPEN };

/// An engine with a history, and the variables that are watched in it.
struct WatchedEngine {
    sides: Sides,
    lasting: Lasting,
}

impl WatchedEngine {
    /// From this state on, with these variables of G watched.
    fn new(sweep: &mut Sweep, state: State, names: &[Vec<u16>]) -> Result<WatchedEngine, String> {
        let (mut sides, mut lasting) = (Sides::new(state), Lasting::default());
        for name in names {
            lasting.watch(sweep.comparison, &mut sides, (G, unit_bytes(name)))?;
        }
        Ok(WatchedEngine { sides, lasting })
    }

    /// The same once more.
    fn again(&self) -> WatchedEngine {
        WatchedEngine { sides: Sides::new(self.sides.library.clone()), lasting: self.lasting.clone() }
    }

    /// Makes calls one after the other.
    fn make(&mut self, sweep: &mut Sweep, calls: impl IntoIterator<Item = Call>) -> Outcome {
        for call in calls {
            let status = sweep.comparison.exchange(&mut self.sides, &call)?.status;
            self.lasting.follow(sweep.comparison, &mut self.sides, &call, status == Status::Success)?;
        }
        Ok(())
    }

    /// Makes calls, each of which is granted.
    fn grant(&mut self, sweep: &mut Sweep, calls: impl IntoIterator<Item = Call>) -> Outcome {
        for call in calls {
            let status = sweep.comparison.exchange(&mut self.sides, &call)?.status;
            check(status == Status::Success, format_args!("{} got {status}", call.name()))?;
        }
        Ok(())
    }
}

/// Every request for these names, and every call but the starts.
fn every_call(names: &[Vec<u16>]) -> Vec<Call> {
    let payloads = [vec![], vec![0], vec![1], vec![2; 9]];
    let bits = [0, 1, 2, 3, 6, 7, 0x42, 0x43, 0x46, 0x47];
    let sets = names.iter().flat_map(|name| {
        let pairs = bits.into_iter().flat_map(|bits| payloads.each_ref().map(|payload| (bits, payload.clone())));
        pairs.map(|(bits, payload)| set(name, bits, payload)).collect::<Vec<_>>()
    });
    let others = [
        register(entry("V#0").pack()),
        register(locking(G, &units("V0#"))),
        register(vec![0; 44]),
        Call::Dump { buffer: vec![0; 2000] },
        Call::Dump { buffer: Vec::new() },
        Call::Lock,
        Call::Disable,
        Call::Query,
    ];
    let questions = names.iter().flat_map(|name| [read(name), settled(name)]);
    sets.chain(others).chain(questions).chain([Call::Exit]).collect()
}

/// An engine that is enabled and locked, with a chain of so many links, which ends with a type, and beside it two
/// variables without entries. The variables of the chain exist from the first number on.
fn closed(count: usize, lock_type: u8, first: usize) -> State {
    let last = EntryFields { lock_type, ..chains::entry(count) };
    let entries: Vec<Vec<u8>> = links(count).iter().chain([&last]).map(EntryFields::pack).collect();
    let attributes = |number: usize| [3, 6, 2, 7][number % 4];
    let [nv, volatile] = [1, 0].map(|kind| {
        let here = (first..=count).filter(|number| attributes(*number) & 1 == kind);
        let chain = here.map(|number| record(&G, &name(number), attributes(number), &[1]));
        let free = [("X", 7), ("Y", 2)].into_iter().filter(|(_, bits)| bits & 1 == kind);
        let free = free.map(|(name, bits)| record(&G, &units(name), bits, &[1, 2]));
        store(1200, &free.chain(chain).collect::<Vec<_>>())
    });
    State { switches: CLOSED, ..state(&nv, &volatile, &entries) }
}

/// Every call over chains that hold, by itself, and then all of them one after the other, before exit and after.
fn held_chains(sweep: &mut Sweep) -> Outcome {
    for count in [0, 1, 2, 16] {
        for (lock_type, first) in [(1, 0), (1, 1), (2, 0), (2, 1)] {
            let names = [name(0), name(1), name(count), units("X"), units("Y"), units("Z")];
            for exited in [0, 1] {
                let state = closed(count, lock_type, first);
                let state = State { switches: SwitchBytes { exited, ..CLOSED }, ..state };
                let engine = WatchedEngine::new(sweep, state, &names[..3])?;
                for call in every_call(&names) {
                    engine.again().make(sweep, [call])?;
                }
                let (calls, backwards) = (every_call(&names), every_call(&names).into_iter().rev());
                engine.again().make(sweep, calls)?;
                engine.again().make(sweep, backwards)?;
            }
        }
    }
    Ok(())
}

/// Rebuilds in every order of four entries, before exit and after, with calls behind each.
fn rebuilds(sweep: &mut Sweep) -> Outcome {
    let state = closed(2, 2, 1);
    let last = EntryFields { lock_type: 2, ..chains::entry(2) };
    let entries = [chains::hanging(0, 1), chains::hanging(1, 2), last, entry("")].map(|fields| fields.pack());
    for exited in [0, 1] {
        let closing = [Call::Lock, Call::Exit].into_iter().take(1 + exited);
        let opened = State { switches: OPEN, ..state.clone() };
        let mut engine = WatchedEngine::new(sweep, opened, &[])?;
        engine.grant(sweep, [register(entries[3].clone())].into_iter().chain(closing.clone()))?;
        let mut engine = WatchedEngine::new(sweep, engine.sides.library.clone(), &[name(0), name(1), name(2)])?;
        for order in orders() {
            let registrations = order.map(|number| register(entries[number].clone()));
            let restart = Call::Restart { disabling_allowed: 1 };
            engine.grant(sweep, [restart].into_iter().chain(registrations).chain(closing.clone()))?;
            let in_order = order == [0, 1, 2, 3];
            engine.lasting.follow_rebuild(sweep.comparison, &mut engine.sides, in_order)?;
            let sets = [0, 1, 2].map(|number| set(&name(number), 7, vec![2]));
            engine.make(sweep, sets.into_iter().chain([0, 1, 2].map(|number| delete(&name(number)))))?;
        }
    }
    Ok(())
}

/// Every order of four.
fn orders() -> impl Iterator<Item = [usize; 4]> {
    let all = (0..256).map(|number| [6, 4, 2, 0].map(|shift| number >> shift & 3));
    all.filter(|order| (0..4).all(|number| order.contains(&number)))
}

/// The variables of which one is created, one changed and one deleted where nothing holds them.
fn three() -> [Vec<u16>; 3] {
    ["A", "B", "C"].map(units)
}

/// The sets that do so.
fn sets() -> [Call; 3] {
    let [a, b, c] = three();
    [set(&a, 3, vec![7]), set(&b, 3, vec![7, 7]), delete(&c)]
}

/// An engine with these entries and switches over a store with the second and the third, and "T", which holds 1.
fn over_three(entries: &[Vec<u8>], switches: SwitchBytes) -> State {
    let records = ["B", "C", "T"].map(|name| record(&G, &units(name), 3, &[1]));
    State { switches, ..state(&store(400, &records), &store(400, &[record(&G, &units("D"), 2, &[1])]), entries) }
}

/// The engine is not locked: another entry is registered and chosen, for the variables or for their trigger.
fn another_entry(sweep: &mut Sweep) -> Outcome {
    let hanging = ["A", "B", "C"].map(|name| entry(name).with_trigger(G, &units("T"), 1).pack());
    let entries = [&hanging[..], &[locking(G, &[])]].concat();
    let mut engine = WatchedEngine::new(sweep, over_three(&entries, OPEN), &three())?;
    let free = [register(entry("T").pack()), Call::Lock, set(&units("T"), 3, vec![0])];
    engine.make(sweep, sets().into_iter().chain(free).chain(sets()))?;
    for lock_type in 0..3 {
        let mut engine = WatchedEngine::new(sweep, over_three(&[locking(G, &[])], OPEN), &three())?;
        engine.make(sweep, sets())?;
        let registrations =
            three().map(|name| register(EntryFields { lock_type, ..EntryFields::new(G, &name) }.pack()));
        engine.make(sweep, registrations)?;
        engine.make(sweep, sets())?;
        engine.make(sweep, [Call::Lock].into_iter().chain(sets()))?;
    }
    Ok(())
}

/// The engine is not enabled: nothing holds what is settled, and its trigger neither.
fn disabled(sweep: &mut Sweep) -> Outcome {
    let on_create = |name: &str| EntryFields { lock_type: 2, ..entry(name) }.pack();
    let hanging = |name: &str| entry(name).with_trigger(G, &units("T"), 1).pack();
    for entries in [
        vec![locking(G, &[])],
        vec![locking(G, &units("A")), on_create("B"), on_create("C")],
        vec![hanging("A"), hanging("B"), hanging("C"), locking(G, &units("T"))],
    ] {
        for switches in [OPEN, CLOSED].map(|switches| SwitchBytes { enabled: 0, ..switches }) {
            let engine = WatchedEngine::new(sweep, over_three(&entries, switches), &three())?;
            engine.again().make(sweep, sets())?;
            engine.again().make(sweep, [set(&units("T"), 3, vec![0])].into_iter().chain(sets()))?;
            engine.again().make(sweep, [delete(&units("T")), Call::Lock].into_iter().chain(sets()))?;
        }
        let mut engine = WatchedEngine::new(sweep, over_three(&entries, OPEN), &three())?;
        engine.make(sweep, [Call::Disable].into_iter().chain(sets()))?;
    }
    Ok(())
}

/// A start, which takes the entries away; a power-on also what is volatile.
fn started(sweep: &mut Sweep) -> Outcome {
    for start in [Call::Restart { disabling_allowed: 1 }, Call::PowerOn { disabling_allowed: 0 }] {
        for switches in [CLOSED, OPEN, SwitchBytes { exited: 1, ..CLOSED }] {
            for names in [three(), ["A", "C", "D"].map(units)] {
                let mut engine = WatchedEngine::new(sweep, over_three(&[locking(G, &[])], switches), &names)?;
                engine.make(sweep, sets())?;
                engine.make(sweep, [start.clone()].into_iter().chain(sets()))?;
            }
        }
    }
    Ok(())
}

/// Locked by a trigger that is not settled: it has no entry, one that never locks, one that came round, or hangs on
/// another. Once it is changed or deleted, nothing holds the variables; if it becomes settled, all of them last.
fn free_triggers(sweep: &mut Sweep) -> Outcome {
    let hanging = ["A", "B", "C"].map(|name| entry(name).with_trigger(G, &units("T"), 1).pack());
    let own = [
        None,
        Some(entry("T")),
        Some(entry("T").with_trigger(G, &units("T"), 1)),
        Some(entry("T").with_trigger(G, &units("U"), 5)),
        Some(EntryFields { lock_type: 2, ..entry("T") }),
    ];
    for own in own {
        let beside = EntryFields { lock_type: 2, ..entry("U") }.pack();
        let entries: Vec<Vec<u8>> =
            hanging.iter().cloned().chain(own.map(|fields| fields.pack())).chain([beside]).collect();
        let engine = WatchedEngine::new(sweep, over_three(&entries, CLOSED), &three())?;
        for call in [set(&units("T"), 3, vec![0]), delete(&units("T")), set(&units("U"), 2, vec![5]), Call::Exit] {
            let calls = sets().into_iter().chain([call, set(&units("T"), 3, vec![2])]).chain(sets());
            engine.again().make(sweep, calls)?;
        }
    }
    Ok(())
}
