//! One call made by the library and by the reference, everything compared and counted.

use crate::call::{Answer, Call, by_library, by_reference};
use crate::coverage::Coverage;
use crate::inputs;
use crate::state::State;
use reference::Pair;
use std::fmt::{self, Display};
use varpolicy::Status;

/// The states that the two implementations keep. They are equal between calls.
pub struct Sides {
    /// What is lent to the library.
    pub library: State,
    /// What is lent to the reference.
    pub reference: State,
}

impl Sides {
    /// The same state for both.
    pub fn new(state: State) -> Sides {
        Sides { library: state.clone(), reference: state }
    }
}

/// The calls of a run so far.
#[derive(Default)]
pub struct Comparison {
    /// How many there were.
    pub calls: u64,
    /// What they hit.
    pub coverage: Coverage,
}

impl Comparison {
    /// Makes a call on both sides. After it the answers and all lent bytes are equal, a refused call has
    /// changed nothing, one after exit nothing that is then kept, and no byte outside of what was lent has
    /// changed; else the difference in words.
    pub fn exchange(&mut self, sides: &mut Sides, call: &Call) -> Result<Answer, String> {
        self.calls += 1;
        let before = sides.library.clone();
        let answer = by_library(&mut sides.library, call);
        let (expected, ground) = by_reference(&mut sides.reference, call);
        let describe = |what| Difference { what, call, answer: &answer, expected: &expected };
        check(answer == expected, describe("the answers differ"))?;
        if let Some(difference) = sides.library.difference(&sides.reference) {
            return Err(describe(&difference).to_string());
        }
        check(sides.library.is_intact(), describe("a byte outside of what was lent has changed"))?;
        let start = matches!(call, Call::PowerOn { .. } | Call::Restart { .. });
        if answer.status != Status::Success {
            check(sides.library == before, describe("a refused call has changed something"))?;
        } else if before.read_switches().exited && !start {
            check(is_kept(&before, &sides.library), describe("after exit something has changed that is kept"))?;
        }
        inputs::count(&mut self.coverage, &before, call, &answer, ground);
        check(self.coverage.answer(call.name(), answer.status, ground), describe("no such answer is possible"))?;
        Ok(answer)
    }
}

/// Whether all is kept that no call but a start changes after exit (docs/RULES.md, 8.1): switches, policy record and
/// volatile store, and in the other store the variables without RT, in their order.
fn is_kept(before: &State, after: &State) -> bool {
    let hidden = |state: &State| {
        let pair = Pair::decode(&state.nv, &state.volatile);
        pair.map(|pair| pair.non_volatile.into_iter().filter(|variable| !variable.is_runtime()).collect::<Vec<_>>())
    };
    let rest = before.switches == after.switches && before.policy == after.policy && before.volatile == after.volatile;
    rest && (before.nv == after.nv || hidden(before) == hidden(after))
}

/// `what` in words, unless it holds.
pub fn check(holds: bool, what: impl Display) -> Result<(), String> {
    if holds { Ok(()) } else { Err(what.to_string()) }
}

/// A difference, written only when there is one.
struct Difference<'a> {
    what: &'a str,
    call: &'a Call,
    answer: &'a Answer,
    expected: &'a Answer,
}

impl Display for Difference<'_> {
    fn fmt(&self, out: &mut fmt::Formatter) -> fmt::Result {
        let Difference { what, call, answer, expected } = self;
        write!(out, "{what}\ncall {call:?}\nlibrary {answer:?}\nreference {expected:?}")
    }
}
