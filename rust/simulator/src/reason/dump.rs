//! Why bytes are not a dump (docs/RULES.md, 10.11): the first entry that an engine with those before it refuses.

use super::{OPEN, entry, register};
use varpolicy::{POLICY_BYTES, Status, calls};

/// The first entry that is malformed, repeated or past the limits, by its place and its first byte. None of a dump.
pub fn fault(bytes: &[u8]) -> Option<String> {
    let mut policy = vec![0; POLICY_BYTES];
    let (mut place, mut at) = (0, 0);
    while at < bytes.len() {
        let rest = &bytes[at..];
        if rest.iter().all(|byte| *byte == 0) {
            let zeros = "all is zero, as in a policy record or behind a dump in its buffer";
            return Some(format!("from byte {at} on {zeros}; the entries end there"));
        }
        match registered(&mut policy, rest) {
            Ok(size) => at += size,
            Err(why) => return Some(format!("entry {place}, at byte {at}: {why}")),
        }
        place += 1;
    }
    None
}

/// Registers the entry that these bytes begin with. Its Size, or why there is none or it is refused.
fn registered(policy: &mut [u8], bytes: &[u8]) -> Result<usize, String> {
    let entry = entry::first(bytes)?;
    match calls::register(policy, OPEN, entry) {
        Status::Success => Ok(entry.len()),
        refused => Err(register(refused, policy, entry)),
    }
}

#[cfg(test)]
mod tests {
    use super::*;
    use varpolicy::{Entry, Lock, Name, quarrels};

    fn dump() -> Vec<u8> {
        let name = |text: &str| Name::new(text).expect("a name");
        let lock = Lock::OnVarState { namespace: [2; 16], name: name("T"), value: 1 };
        let triggered = Entry { lock, ..Entry::new([1; 16], name("A#")) };
        let others = [Entry::new([1; 16], Name::EMPTY), Entry::new([1; 16], name("A"))];
        [triggered, others[0], others[1]].iter().flat_map(|entry| entry.pack().to_vec()).collect()
    }

    /// A dump with each byte changed to some others, cut at each place, and with some bytes behind it.
    #[test]
    fn a_fault_is_what_the_library_refuses() {
        let good = dump();
        let cut = (0..=good.len()).map(|length| good[..length].to_vec());
        let longer = [&[0][..], &[0; 44], &[1], &good[..], &good[74..118]].map(|behind| [&good[..], behind].concat());
        let changes = (0..8).map(|bit| 1 << bit).chain([0x23, 0x41, 0xFF]);
        let changed = changes.flat_map(|change| {
            let good = &good;
            (0..good.len()).map(move |at| {
                let mut bytes = good.clone();
                bytes[at] ^= change;
                bytes
            })
        });
        for bytes in cut.chain(longer).chain(changed) {
            assert_eq!(fault(&bytes).is_some(), quarrels(&bytes).is_err(), "{bytes:02X?}");
        }
    }
}
