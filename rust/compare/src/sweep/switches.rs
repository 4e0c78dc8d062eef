//! The bytes of the switches.

use super::engine::settings;
use super::{ERASED, Outcome, Sweep, entry, locking, register, set};
use crate::call::Call;
use crate::make::{G, units};
use crate::state::State;
use varpolicy::SwitchBytes;

/// Every value of the first three bytes of the switches, beside every setting of the other two before exit, and of the
/// leave to disable that a start is given. The fourth byte, and the calls of E10, are in [`super::exit`].
pub(super) fn run(sweep: &mut Sweep) -> Outcome {
    let state = super::state(ERASED, ERASED, &[locking(G, &units("A"))]);
    let calls = [register(entry("B").pack()), Call::Lock, Call::Disable, Call::Query, set(&units("A"), 2, vec![2])];
    for value in 0..=255 {
        for setting in settings() {
            for switches in [
                SwitchBytes { enabled: value, ..setting },
                SwitchBytes { locked: value, ..setting },
                SwitchBytes { disabling_allowed: value, ..setting },
            ] {
                sweep.each(&State { switches, ..state.clone() }, calls.clone())?;
            }
        }
        for start in [Call::PowerOn { disabling_allowed: value }, Call::Restart { disabling_allowed: value }] {
            sweep.history(state.clone(), [start, Call::Disable, Call::Lock])?;
        }
    }
    Ok(())
}
