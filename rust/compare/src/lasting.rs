//! What it is worth that a variable is settled (docs/RULES.md, 12.9): variables are watched from call to call. One that
//! was settled while the engine was enabled and locked keeps its record byte for byte and stays settled, up to the next
//! granted start. Where one of these conditions is missing, what then becomes of the variable is counted.

use crate::call::{Call, Values};
use crate::comparison::{Comparison, Sides, check};
use crate::coverage::Input;
use crate::inputs::labels::crossed;
use crate::state::State;
use crate::steps::units;
use reference::{Kind, LockRule, Pair, Policy, Variable};
use varpolicy::{Namespace, Status};

/// Most variables that are watched at once.
const MOST: usize = 3;

/// What a settled variable outlasts. Behind these stands exit.
const OUTLASTED: [&str; 17] = [
    "set of it",
    "append to it",
    "deletion of it",
    "set of its trigger",
    "deletion of its trigger",
    "set of another, granted",
    "append to another, granted",
    "deletion of another, granted",
    "registration",
    "dump",
    "lock",
    "disable",
    "query",
    "read of it",
    "settled",
    "rebuild in order",
    "rebuild in another order",
];

/// What a settled variable outlasts, by whether it exists, before exit and after.
pub fn outlasted_labels() -> Vec<String> {
    let stored = ["absent", "there"];
    let all = crossed(&OUTLASTED, &crossed(&stored, &["before exit", "after exit"]));
    [all, crossed(&["exit"], &stored)].concat()
}

/// What becomes of a variable for want of a condition. A variable whose trigger is not settled was not settled itself.
pub fn lost_labels() -> Vec<String> {
    let conditions = ["not locked: another entry registered", "not enabled", "a start", "its trigger is not settled"];
    let mut labels = crossed(&conditions, &["created", "changed", "deleted", "settled no more"]);
    labels.pop();
    labels
}

/// Why a variable is watched.
#[derive(Clone, Copy, PartialEq, Eq, Debug)]
enum Standing {
    /// It is settled, and the engine is enabled and locked.
    Lasting,
    /// It is settled, and the engine is not both.
    Open,
    /// It was settled, and the engine is not locked: another entry was registered and chosen.
    Replaced,
    /// It was settled, and the engine was started.
    Started,
    /// It is locked by a trigger that is not settled, and the engine is enabled and locked.
    Hanging,
}

/// A variable that is watched.
#[derive(Clone, Debug)]
struct Watched {
    namespace: Namespace,
    name: Vec<u8>,
    /// Its store and its record there, if it exists.
    record: Option<(Kind, Vec<u8>)>,
    standing: Standing,
}

/// The variables that are watched.
#[derive(Clone, Debug, Default)]
pub struct Lasting {
    watched: Vec<Watched>,
}

impl Lasting {
    /// Begins to watch a variable, if its lock has something to say of later calls.
    pub fn watch(
        &mut self,
        comparison: &mut Comparison,
        sides: &mut Sides,
        (namespace, name): (Namespace, Vec<u8>),
    ) -> Result<(), String> {
        let known = |watched: &Watched| watched.namespace == namespace && watched.name == name;
        if self.watched.len() == MOST || self.watched.iter().any(known) {
            return Ok(());
        }
        let settled = is_settled(comparison, sides, (&namespace, &name))?;
        let state = &sides.library;
        let standing = match (settled, is_closed(state)) {
            (true, true) => Standing::Lasting,
            (true, false) => Standing::Open,
            (false, true) if trigger_that_holds(state, &namespace, &name).is_some() => Standing::Hanging,
            (false, _) => return Ok(()),
        };
        let record = record_of(state, &namespace, &name);
        self.watched.push(Watched { namespace, name, record, standing });
        Ok(())
    }

    /// Follows the variables over a call that was made, granted or not.
    pub fn follow(
        &mut self,
        comparison: &mut Comparison,
        sides: &mut Sides,
        call: &Call,
        granted: bool,
    ) -> Result<(), String> {
        let mut left = Vec::new();
        for watched in std::mem::take(&mut self.watched) {
            let settled = is_settled(comparison, sides, (&watched.namespace, &watched.name))?;
            let next = match watched.standing {
                Standing::Lasting if !is_start(call, granted) => {
                    watched.check_kept(&sides.library, settled)?;
                    watched.count_outlasted(comparison, &sides.library, call, granted);
                    Some(Standing::Lasting)
                }
                _ => watched.next_standing(comparison, &sides.library, (call, granted), settled)?,
            };
            if let Some(standing) = next {
                left.push(Watched { standing, ..watched });
            }
        }
        self.watched = left;
        Ok(())
    }

    /// Follows the variables over a rebuild, which changes nothing of them, whatever the switches are.
    pub fn follow_rebuild(
        &mut self,
        comparison: &mut Comparison,
        sides: &mut Sides,
        in_order: bool,
    ) -> Result<(), String> {
        for watched in &self.watched {
            let settled = is_settled(comparison, sides, (&watched.namespace, &watched.name))?;
            let was_settled = matches!(watched.standing, Standing::Lasting | Standing::Open);
            if was_settled {
                watched.check_kept(&sides.library, settled)?;
            }
            if watched.standing == Standing::Lasting {
                watched.count(comparison, &sides.library, if in_order { 15 } else { 16 });
            }
        }
        Ok(())
    }
}

impl Watched {
    /// A settled variable has the record that it had, and is settled; the engine is as it was.
    fn check_kept(&self, state: &State, settled: bool) -> Result<(), String> {
        let kept = record_of(state, &self.namespace, &self.name) == self.record;
        check(kept, format_args!("a settled variable has changed: {self:?}"))?;
        check(settled, format_args!("a variable is settled no more: {self:?}"))?;
        let closed = self.standing != Standing::Lasting || is_closed(state);
        check(closed, "an engine that was enabled and locked is not so any more")
    }

    /// Why the variable is still watched, if it is. What became of it for want of a condition is counted.
    fn next_standing(
        &self,
        comparison: &mut Comparison,
        state: &State,
        (call, granted): (&Call, bool),
        settled: bool,
    ) -> Result<Option<Standing>, String> {
        let was_settled = matches!(self.standing, Standing::Lasting | Standing::Open);
        let lost = was_settled && !settled;
        let change = self.change(state);
        let standing = match self.standing {
            _ if was_settled && is_start(call, granted) => Standing::Started,
            Standing::Open if lost && granted && matches!(call, Call::Register { .. }) => Standing::Replaced,
            Standing::Open if change.is_some() || lost => {
                let enabled = state.read_switches().enabled;
                check(!enabled, format_args!("an enabled engine has not held a settled variable: {self:?}"))?;
                Standing::Open
            }
            Standing::Open | Standing::Hanging if settled && is_closed(state) => Standing::Lasting,
            // Another start, or one of an engine that held nothing: no matter what becomes of the variable.
            _ if is_start(call, granted) => return Ok(None),
            standing => standing,
        };
        self.count_lost(comparison, standing, change, lost);
        Ok(Some(standing).filter(|_| change.is_none() && (standing != Standing::Open || settled)))
    }

    /// What has become of the record: 0 it was created, 1 changed, 2 deleted.
    fn change(&self, state: &State) -> Option<usize> {
        match (&self.record, record_of(state, &self.namespace, &self.name)) {
            (None, Some(_)) => Some(0),
            (Some(before), Some(after)) if *before != after => Some(1),
            (Some(_), None) => Some(2),
            _ => None,
        }
    }

    fn count_lost(&self, comparison: &mut Comparison, standing: Standing, change: Option<usize>, lost: bool) {
        let condition = match standing {
            Standing::Lasting => return,
            Standing::Replaced => 0,
            Standing::Open => 1,
            Standing::Started => 2,
            Standing::Hanging => 3,
        };
        for what in change.into_iter().chain(lost.then_some(3)) {
            comparison.coverage.input(Input::Lost, 4 * condition + what);
        }
    }

    /// Counts a call that the variable has outlasted.
    fn count_outlasted(&self, comparison: &mut Comparison, state: &State, call: &Call, granted: bool) {
        let place = match call {
            Call::Set { .. } => self.set_place(state, call, granted),
            Call::Register { .. } => Some(8),
            Call::Dump { .. } => Some(9),
            Call::Lock => Some(10),
            Call::Disable => Some(11),
            Call::Query => Some(12),
            Call::Read { namespace, name } if self.is(namespace, name) => Some(13),
            Call::Settled { .. } => Some(14),
            _ => None,
        };
        if let Some(place) = place {
            self.count(comparison, state, place);
        }
        if matches!(call, Call::Exit) && granted {
            let there = usize::from(self.record.is_some());
            comparison.coverage.input(Input::Outlasted, 4 * OUTLASTED.len() + there);
        }
    }

    /// The place in [`OUTLASTED`] of a set. One of another variable is counted if it was granted.
    fn set_place(&self, state: &State, call: &Call, granted: bool) -> Option<usize> {
        let Call::Set { namespace, name, attributes, payload } = call else {
            return None;
        };
        let append = attributes & 0x40 != 0;
        let deletion = !append && (payload.is_empty() || attributes & 6 == 0);
        let kind = if deletion { 2 } else { usize::from(append) };
        if self.is(namespace, name) {
            Some(kind)
        } else if trigger_that_holds(state, &self.namespace, &self.name) == Some((*namespace, units(name))) {
            Some(3 + usize::from(deletion))
        } else {
            granted.then_some(5 + kind)
        }
    }

    /// Counts what has this place in [`OUTLASTED`].
    fn count(&self, comparison: &mut Comparison, state: &State, place: usize) {
        let there = usize::from(self.record.is_some());
        let exited = usize::from(state.read_switches().exited);
        comparison.coverage.input(Input::Outlasted, 4 * place + 2 * there + exited);
    }

    fn is(&self, namespace: &Namespace, name: &[u8]) -> bool {
        self.namespace == *namespace && self.name == name
    }
}

fn is_start(call: &Call, granted: bool) -> bool {
    granted && matches!(call, Call::PowerOn { .. } | Call::Restart { .. })
}

/// Whether the engine is enabled and locked.
fn is_closed(state: &State) -> bool {
    let switches = state.read_switches();
    switches.enabled && switches.locked
}

/// Whether a variable is settled, as both sides say.
fn is_settled(
    comparison: &mut Comparison,
    sides: &mut Sides,
    (namespace, name): (&Namespace, &[u8]),
) -> Result<bool, String> {
    let call = Call::Settled { namespace: *namespace, name: name.to_vec() };
    let answer = comparison.exchange(sides, &call)?;
    check(answer.status == Status::Success, "a good variable of a sound state gets no answer")?;
    Ok(answer.values == Values::Settled { settled: true })
}

/// The store and the record of a variable, byte for byte, if it exists.
fn record_of(state: &State, namespace: &Namespace, name: &[u8]) -> Option<(Kind, Vec<u8>)> {
    let pair = Pair::decode(&state.nv, &state.volatile)?;
    let (kind, place, variable) = pair.find(namespace, &units(name))?;
    let start: usize = pair.of(kind)[..place].iter().map(Variable::record_len).sum();
    let store = if kind == Kind::NonVolatile { &state.nv } else { &state.volatile };
    Some((kind, store[start..start + variable.record_len()].to_vec()))
}

/// The trigger of a variable whose chosen entry is of type 3, if it holds its Value.
fn trigger_that_holds(state: &State, namespace: &Namespace, name: &[u8]) -> Option<(Namespace, Vec<u16>)> {
    let (pair, policy) = (Pair::decode(&state.nv, &state.volatile)?, Policy::decode(&state.policy)?);
    let LockRule::LockOnVarState(trigger) = &policy.choose(namespace, &units(name))?.lock else {
        return None;
    };
    let (_, _, variable) = pair.find(&trigger.namespace, &trigger.name)?;
    (variable.payload == [trigger.value]).then(|| (trigger.namespace, trigger.name.clone()))
}
