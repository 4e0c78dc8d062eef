//! Counts what the limits before E5 would have made another answer of.

use super::labels::CALLS_ON_RECORD;
use super::{count_if, setting};
use crate::call::Call;
use crate::coverage::{Coverage, Input};
use crate::damage::entry_sizes;
use crate::state::State;
use crate::{FORMER_ENTRIES, FORMER_POLICY_BYTES};
use reference::{Entry, POLICY_BYTES, Pair, Policy};
use varpolicy::Status;

/// Counts a call that got this status, if the former limits would have made it another.
pub(super) fn count(coverage: &mut Coverage, lent: &State, call: &Call, status: Status) {
    match (call, status) {
        (_, Status::VolumeCorrupted) => count_length(coverage, lent, call),
        (Call::Register { entry }, Status::Success) => count_registered(coverage, &lent.policy, entry.len()),
        (Call::Dump { buffer }, Status::Success | Status::BufferTooSmall) => {
            let longer = entry_sizes(&lent.policy).iter().sum::<usize>() > FORMER_POLICY_BYTES;
            let refused = longer && buffer.len() == FORMER_POLICY_BYTES;
            count_if(coverage, Input::Beyond, &[longer && status == Status::Success, refused], 3);
        }
        _ => {}
    }
}

fn count_registered(coverage: &mut Coverage, record: &[u8], size: usize) {
    let sizes = entry_sizes(record);
    let sum: usize = sizes.iter().sum();
    let more = sizes.len() == FORMER_ENTRIES;
    let longer = sum <= FORMER_POLICY_BYTES && sum + size > FORMER_POLICY_BYTES;
    count_if(coverage, Input::Beyond, &[more, longer, more && longer], 0);
}

/// Counts the entry that a set is held to by where it stands.
pub(super) fn count_choice(coverage: &mut Coverage, record: &[u8], policy: &Policy, chosen: Option<&Entry>) {
    let is_chosen = |entry: &Entry| chosen.is_some_and(|chosen| std::ptr::eq(entry, chosen));
    let Some(place) = policy.entries.iter().position(is_chosen) else {
        return;
    };
    let start: usize = entry_sizes(record)[..place].iter().sum();
    count_if(coverage, Input::Beyond, &[place >= FORMER_ENTRIES, start >= FORMER_POLICY_BYTES], 5);
}

/// Counts a policy record that is refused for nothing but having the former length.
fn count_length(coverage: &mut Coverage, lent: &State, call: &Call) {
    let call = CALLS_ON_RECORD.iter().position(|known| *known == call.name());
    let Some(call) = call.filter(|_| lent.policy.len() == FORMER_POLICY_BYTES) else {
        return;
    };
    let mut record = lent.policy.to_vec();
    record.resize(POLICY_BYTES, 0);
    let (Some(policy), Some(_)) = (Policy::decode(&record), Pair::decode(&lent.nv, &lent.volatile)) else {
        return;
    };
    let entries = usize::from(!policy.entries.is_empty());
    coverage.input(Input::FormerLength, 8 * call + 4 * entries + setting(lent));
}
