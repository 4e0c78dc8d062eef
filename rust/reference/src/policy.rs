//! The lent policy record, decoded, and the choice of the entry that speaks for a variable.

use crate::entry::Entry;
use crate::{MAX_ENTRIES, Namespace, POLICY_BYTES};

const ZEROS: &[u8; POLICY_BYTES] = &[0; POLICY_BYTES];

/// The entries of an engine, in the order registered.
#[derive(Clone, PartialEq, Eq, Debug, Default)]
pub struct Policy {
    /// The entries, in the order registered.
    pub entries: Vec<Entry>,
}

impl Policy {
    /// The entries of a lent policy record: distinct well-formed ones within the limits, then zeros,
    /// in exactly [`POLICY_BYTES`]. Nothing if the record is not so.
    pub fn decode(record: &[u8]) -> Option<Policy> {
        if record.len() != POLICY_BYTES {
            return None;
        }
        let mut policy = Policy::default();
        let mut rest = record;
        while *rest != ZEROS[..rest.len()] {
            let size = u16::from_le_bytes(rest.get(4..6)?.try_into().ok()?);
            let (bytes, behind) = rest.split_at_checked(size.into())?;
            let entry = Entry::decode(bytes)?;
            if policy.entries.len() == MAX_ENTRIES || policy.holds(&entry) {
                return None;
            }
            policy.entries.push(entry);
            rest = behind;
        }
        Some(policy)
    }

    /// The bytes of the entries, end to end.
    pub fn encode(&self) -> Vec<u8> {
        self.entries.iter().flat_map(Entry::encode).collect()
    }

    /// Whether an entry of this namespace and name is registered.
    pub fn holds(&self, entry: &Entry) -> bool {
        self.entries.iter().any(|known| known.repeats(entry))
    }

    /// The entry that speaks for a variable (docs/RULES.md, 4.3): of those that target it one of lowest
    /// rank, and of these the first.
    pub fn choose(&self, namespace: &Namespace, name: &[u16]) -> Option<&Entry> {
        let targeting = self.entries.iter().filter(|entry| entry.targets(namespace, name));
        targeting.min_by_key(|entry| entry.rank())
    }
}

#[cfg(test)]
mod tests {
    use super::*;
    use crate::entry::{LockRule, Trigger};

    /// A record of entries of type 3 with these triggers, each for the whole of another namespace.
    fn record(triggers: &[&str]) -> Vec<u8> {
        let entries = triggers.iter().enumerate().map(|(number, trigger)| {
            let name = trigger.encode_utf16().collect();
            let lock = LockRule::LockOnVarState(Trigger { namespace: [7; 16], name, value: 1, reserved: 0 });
            let (namespace, name) = ([number as u8; 16], Vec::new());
            Entry { namespace, name, min_size: 0, max_size: 9, must_have: 0, cant_have: 0, lock, reserved: [0; 3] }
        });
        let mut bytes = Policy { entries: entries.collect() }.encode();
        bytes.resize(POLICY_BYTES, 0);
        bytes
    }

    #[test]
    fn a_record_holds_no_trigger_with_a_number_sign() {
        assert_eq!(Policy::decode(&record(&["A0", "T", "B"])).map(|policy| policy.entries.len()), Some(3));
        for triggers in [&["A#"][..], &["A#", "T", "B"], &["T", "#", "B"], &["T", "B", "#A"]] {
            assert_eq!(Policy::decode(&record(triggers)), None, "{triggers:?}");
        }
    }
}
