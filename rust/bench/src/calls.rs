//! Whole calls, by the library and by ordinary Rust with two hash tables.

use crate::lent::{Answer, Lent, OURS, SWITCHES, answer};
use crate::plain::calls as plain;
use crate::plain::index::{Small, Standard};
use crate::plain::settled::{self as by_links, Settled};
use std::hint::black_box;
use varpolicy::{Attributes, Name, Report, Switches, calls};

/// A call.
pub enum Call {
    /// Reads a variable.
    Read {
        /// Its name.
        name: Name,
    },
    /// Sets a variable, by two requests in turn: first the second one, so that instructions, which are counted of the
    /// second call made, are those of the first.
    Set {
        /// Its name.
        name: Name,
        /// Attributes and payload of each request.
        requests: [(Attributes, Vec<u8>); 2],
        /// Whether the engine is enabled.
        enabled: bool,
    },
    /// Registers an entry, which is taken away again after the call.
    Register {
        /// The packed entry.
        entry: Vec<u8>,
    },
    /// Dumps the entries.
    Dump,
    /// Looks for two entries that quarrel, in the entries as a dump; the name goes to the front of the buffer.
    Quarrels,
    /// Tells whether a variable is settled.
    Settled {
        /// Its name.
        name: Name,
    },
}

/// Who makes the call.
#[derive(Clone, Copy)]
enum Who {
    /// The proved library.
    Library,
    /// Ordinary Rust with the standard library's hash table.
    Standard,
    /// Ordinary Rust with its own small table.
    Small,
}

const COLUMNS: [Who; 3] = [Who::Library, Who::Standard, Who::Small];

impl Call {
    /// Makes the call by the version of a column.
    pub fn run(&self, column: usize, lent: &mut Lent) -> Answer {
        let who = COLUMNS[column];
        // The compiler does not know them, so that every version has to look at them.
        let switches = black_box(SWITCHES);
        match self {
            Call::Read { name } => read(who, name, switches, lent),
            Call::Set { name, requests, enabled } => {
                let (attributes, payload) = &requests[lent.calls % 2];
                set(who, name, *attributes, payload, Switches { enabled: *enabled, ..switches }, lent)
            }
            Call::Register { entry } => {
                let status = register(who, entry, switches, lent);
                lent.policy[lent.policy_end..lent.policy_end + entry.len()].fill(0);
                answer([status as usize])
            }
            Call::Dump => dump(who, switches, lent),
            Call::Quarrels => quarrels(who, lent),
            Call::Settled { name } => settled(column, name, lent),
        }
    }

    /// Whether an answer tells that what is lent is not sound or not valid.
    pub fn is_refused(&self, answer: &Answer) -> bool {
        match self {
            Call::Quarrels => answer[0] == plain::INVALID_PARAMETER,
            _ => answer[0] == plain::VOLUME_CORRUPTED,
        }
    }
}

fn read(who: Who, name: &[u8], switches: Switches, lent: &Lent) -> Answer {
    let Lent { nv, volatile, .. } = lent;
    let found = match who {
        Who::Library => {
            let found = calls::read(nv, volatile, switches, &OURS, name);
            let status = found.status.number() as usize;
            return answer([status, found.attributes.0 as usize, found.offset, found.payload.len()]);
        }
        Who::Standard => plain::read::<Standard>(nv, volatile, plain_switches(switches), &OURS, name),
        Who::Small => plain::read::<Small>(nv, volatile, plain_switches(switches), &OURS, name),
    };
    answer([found.status as usize, found.attributes as usize, found.offset, found.length])
}

fn set(who: Who, name: &[u8], attributes: Attributes, payload: &[u8], switches: Switches, lent: &mut Lent) -> Answer {
    let Lent { nv, volatile, policy, .. } = lent;
    let request = plain::Request { namespace: &OURS, name, attributes: attributes.0, payload };
    let plain::Written { status, report } = match who {
        Who::Library => {
            let request = calls::Request { namespace: &OURS, name, attributes, payload };
            let calls::Written { status, report } = calls::set(nv, volatile, policy, switches, request);
            plain::Written { status: status.number(), report }
        }
        Who::Standard => plain::set::<plain::UseStandard>(nv, volatile, policy, plain_switches(switches), request),
        Who::Small => plain::set::<plain::UseSmall>(nv, volatile, policy, plain_switches(switches), request),
    };
    let Report { ground, place, rank, missing, prohibited, lowest_bit } = report;
    [status, ground.number(), place, rank, missing, prohibited, lowest_bit]
}

fn register(who: Who, entry: &[u8], switches: Switches, lent: &mut Lent) -> u32 {
    match who {
        Who::Library => calls::register(&mut lent.policy, switches, entry).number(),
        Who::Standard | Who::Small => plain::register(&mut lent.policy, plain_switches(switches), entry),
    }
}

fn dump(who: Who, switches: Switches, lent: &mut Lent) -> Answer {
    let (status, length) = match who {
        Who::Library => {
            let dumped = calls::dump(&lent.policy, switches, &mut lent.buffer);
            (dumped.status.number(), dumped.length)
        }
        Who::Standard | Who::Small => plain::dump(&lent.policy, plain_switches(switches), &mut lent.buffer),
    };
    answer([status as usize, length])
}

fn quarrels(who: Who, lent: &mut Lent) -> Answer {
    let Lent { policy, policy_end, buffer, .. } = lent;
    let (dump, name) = (&policy[..*policy_end], buffer.first_chunk_mut().expect("room for a name"));
    let plain::Quarrelled { status, found, earlier, later, name_length } = match who {
        Who::Library => {
            let calls::Quarrelled { status, found, earlier, later, name_length } = calls::quarrels(dump, name);
            plain::Quarrelled { status: status.number(), found, earlier, later, name_length }
        }
        Who::Standard | Who::Small => plain::quarrels(dump, name),
    };
    answer([status as usize, found.into(), earlier, later, name_length])
}

/// Ordinary Rust chooses as in a set, or by the table of the entries first.
fn settled(column: usize, name: &[u8], lent: &Lent) -> Answer {
    let Lent { nv, volatile, policy, .. } = lent;
    let Settled { status, settled } = match column {
        0 => {
            let calls::Settled { status, settled } = calls::settled(nv, volatile, policy, &OURS, name);
            Settled { status: status.number(), settled }
        }
        1 => by_links::settled::<false>(nv, volatile, policy, &OURS, name),
        _ => by_links::settled::<true>(nv, volatile, policy, &OURS, name),
    };
    answer([status as usize, settled.into()])
}

fn plain_switches(switches: Switches) -> plain::Switches {
    let Switches { enabled, locked, disabling_allowed, exited } = switches;
    plain::Switches { enabled, locked, disabling_allowed, exited }
}

#[cfg(test)]
mod tests {
    use super::*;
    use crate::inputs;
    use varpolicy::{Entry, Lock};

    const EXITED: Switches = Switches { exited: true, ..SWITCHES };

    fn named(letter: u8) -> Name {
        Name::from_units([letter.into()]).expect("one unit")
    }

    /// Three variables, with NV and BS, with BS and RT, and with all of them, and an entry that allows them one byte.
    fn lent() -> Lent {
        let entry = Entry { max_size: 1, ..Entry::new(OURS, Name::EMPTY) };
        let mut lent = Lent { volatile: vec![0xFF; 256], ..inputs::with_short_stores(&[entry]) };
        for (letter, bits) in [(b'A', 3), (b'B', 6), (b'C', 7)] {
            set(Who::Small, &named(letter), Attributes(bits), &[1], SWITCHES, &mut lent);
        }
        lent
    }

    /// What a version answers and leaves after exit, of every request for a variable and of the other calls.
    fn after_exit(who: Who, name: &Name) -> Vec<(Answer, Lent)> {
        let requests =
            (0..8).flat_map(|bits| [bits, bits | 0x40]).flat_map(|bits| [0, 1, 2].map(|length| (bits, length)));
        let calls = requests.map(|(bits, length)| {
            let mut left = lent();
            (set(who, name, Attributes(bits), &vec![2; length], EXITED, &mut left), left)
        });
        let mut left = lent();
        let registered = answer([register(who, &[], EXITED, &mut left) as usize]);
        let dumped = dump(who, EXITED, &mut left);
        calls.chain([registered, dumped, read(who, name, EXITED, &left)].map(|made| (made, left.clone()))).collect()
    }

    /// No case that is measured is after exit; there too all versions do the same.
    #[test]
    fn all_versions_agree_after_exit() {
        for name in b"ABCD".map(named) {
            let library = after_exit(Who::Library, &name);
            assert!(after_exit(Who::Standard, &name) == library);
            assert!(after_exit(Who::Small, &name) == library);
        }
    }

    /// Entries by chance for the variables "A0" to "A7", some of which are stored with a payload of 1.
    fn by_chance(below: &mut impl FnMut(usize) -> usize) -> Lent {
        let variable = |number: usize| inputs::text(&format!("A{number}"));
        let mut entries: Vec<Entry> = Vec::new();
        for _ in 0..below(12) {
            let name = [variable(below(8)), variable(below(8)), inputs::text("A#"), Name::EMPTY][below(9) / 2 % 4];
            let trigger = Lock::OnVarState { namespace: OURS, name: variable(below(8)), value: 1 + below(9) as u8 / 8 };
            let lock = [Lock::No, Lock::Now, Lock::OnCreate, trigger][below(8).min(3)];
            if entries.iter().all(|known| known.name != name) {
                entries.push(Entry { lock, ..Entry::new(OURS, name) });
            }
        }
        let stored: Vec<Name> = (0..8).map(variable).filter(|_| below(9) > 0).collect();
        inputs::with_stored(&entries, &stored)
    }

    #[test]
    fn all_versions_agree_whether_a_variable_is_settled() {
        let mut seed = 1_u64;
        let mut below = |most: usize| {
            seed = seed.wrapping_mul(6_364_136_223_846_793_005).wrapping_add(1);
            (seed >> 33) as usize % most
        };
        let mut settled_ones = 0;
        for round in 0..2000 {
            let mut lent = by_chance(&mut below);
            match round % 50 {
                0 => lent.nv.push(0),
                1 => lent.policy[0] = 1,
                _ => {}
            }
            for name in ["A0", "A1", "A7", "A8", "A#", ""].map(inputs::text) {
                let library = settled(0, &name, &lent);
                assert_eq!([1, 2].map(|column| settled(column, &name, &lent)), [library; 2], "{name} in {round}");
                settled_ones += library[1];
            }
        }
        assert!((2000..6000).contains(&settled_ones), "{settled_ones} are settled");
    }
}
