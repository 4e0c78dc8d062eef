//! Each limit that the header states is the library's: what reaches it is granted, one more is refused.

use varpolicy::calls::{self, Request, Started};
use varpolicy::{
    Attributes, Engine, Entry, Lock, MAX_ENTRIES, MAX_ENTRY_SIZE, MAX_LINKS, MAX_NAME_UNITS, MAX_PAYLOAD_BYTES,
    MAX_PIECE, MAX_STORE_BYTES, MIN_ENTRY_SIZE, Name, POLICY_BYTES, READER_BYTES, Status, Switches,
};

/// An entry of MIN_ENTRY_SIZE bytes: all of the namespace of this number.
fn shortest(number: usize) -> Vec<u8> {
    Entry::new(namespace(number), Name::EMPTY).pack().to_vec()
}

/// An entry of this many bytes, which a name of MAX_NAME_UNITS for the trigger leaves to its own name.
fn with_trigger(bytes: usize, number: usize) -> Vec<u8> {
    let units = |count: usize| Name::new(&"N".repeat(count)).expect("a name's units");
    let lock = Lock::OnVarState { namespace: namespace(number), name: units(MAX_NAME_UNITS), value: 1 };
    let longest = Entry { lock, ..Entry::new(namespace(number), units(MAX_NAME_UNITS)) }.pack().to_vec();
    let own = MAX_NAME_UNITS - (longest.len() - bytes) / 2;
    Entry { lock, ..Entry::new(namespace(number), units(own)) }.pack().to_vec()
}

fn namespace(number: usize) -> [u8; 16] {
    (number as u128).to_le_bytes()
}

/// The statuses of the registrations after a power-on.
fn registered(entries: &[Vec<u8>]) -> Vec<Status> {
    let mut policy = vec![0; POLICY_BYTES];
    let Started { status, switches } = calls::power_on(&[], &mut [], &mut policy, false);
    assert_eq!(status, Status::Success);
    entries.iter().map(|entry| calls::register(&mut policy, switches, entry)).collect()
}

/// What a dump, a registration and a set of a new variable answer to a lent policy record.
fn answers_to(mut policy: Vec<u8>) -> [Status; 3] {
    let switches = Switches { enabled: false, locked: false, disabling_allowed: true, exited: false };
    let request = Request { namespace: &namespace(0), name: b"N\0", attributes: Attributes::BS, payload: b"1" };
    let set = calls::set(&mut [], &mut [0xFF; 64], &policy, switches, request).status;
    let dump = calls::dump(&policy, switches, &mut vec![0; MAX_ENTRIES * MIN_ENTRY_SIZE]).status;
    [dump, calls::register(&mut policy, switches, &shortest(POLICY_BYTES)), set]
}

fn assert_only_the_last_is_refused(statuses: &[Status], by: Status) {
    let (last, others) = statuses.split_last().expect("one more than the limit");
    assert_eq!((*last, others.iter().all(|status| *status == Status::Success)), (by, true));
}

#[test]
fn policy_record() {
    for (length, status) in [
        (POLICY_BYTES - 1, Status::VolumeCorrupted),
        (POLICY_BYTES, Status::Success),
        (POLICY_BYTES + 1, Status::VolumeCorrupted),
    ] {
        assert_eq!(calls::power_on(&[], &mut [], &mut vec![7; length], false).status, status, "{length}");
        assert_eq!(calls::restart(&[], &[], &mut vec![7; length], false).status, status, "{length}");
        assert_eq!(answers_to(vec![0; length]), [status; 3], "{length}");
    }
}

#[test]
fn count_of_entries_in_a_record() {
    for (count, status) in [(MAX_ENTRIES, Status::Success), (MAX_ENTRIES + 1, Status::VolumeCorrupted)] {
        let mut record: Vec<u8> = (0..count).flat_map(shortest).collect();
        record.resize(POLICY_BYTES, 0);
        let [dump, register, set] = answers_to(record);
        let full = if status == Status::Success { Status::OutOfResources } else { status };
        assert_eq!([dump, register, set], [status, full, status], "{count}");
    }
}

#[test]
fn count_of_entries() {
    let entries: Vec<_> = (0..=MAX_ENTRIES).map(shortest).collect();
    assert!(entries.iter().all(|entry| entry.len() == MIN_ENTRY_SIZE));
    assert_only_the_last_is_refused(&registered(&entries), Status::OutOfResources);
}

#[test]
fn sum_of_sizes() {
    let count = POLICY_BYTES / MAX_ENTRY_SIZE;
    let mut entries: Vec<_> = (0..count).map(|number| with_trigger(MAX_ENTRY_SIZE, number)).collect();
    entries.push(with_trigger(POLICY_BYTES - count * MAX_ENTRY_SIZE, count));
    assert_eq!(entries.iter().map(Vec::len).sum::<usize>(), POLICY_BYTES);
    entries.push(shortest(count + 1));
    assert_only_the_last_is_refused(&registered(&entries), Status::OutOfResources);
    let last = with_trigger(POLICY_BYTES - count * MAX_ENTRY_SIZE + 2, count);
    entries.splice(count.., [last]);
    assert_only_the_last_is_refused(&registered(&entries), Status::OutOfResources);
}

#[test]
fn bytes_of_an_entry() {
    let mut longest = with_trigger(MAX_ENTRY_SIZE, 1);
    assert_eq!(registered(&[longest.clone()]), [Status::Success]);
    longest.splice(MAX_ENTRY_SIZE - 2.., [0x4E, 0, 0, 0]);
    longest[4..6].copy_from_slice(&(MAX_ENTRY_SIZE as u16 + 2).to_le_bytes());
    assert_eq!(registered(&[longest]), [Status::InvalidParameter]);
    let mut shorter = shortest(1);
    shorter.pop();
    shorter[4] = MIN_ENTRY_SIZE as u8 - 1;
    assert_eq!(registered(&[shorter]), [Status::InvalidParameter]);
}

#[test]
fn bytes_of_a_store() {
    for (length, granted) in [(MAX_STORE_BYTES, true), (MAX_STORE_BYTES + 1, false)] {
        for lengths in [(length, 0), (0, length)] {
            let (nv, mut volatile, mut policy) = (vec![0xFF; lengths.0], vec![0xFF; lengths.1], [0; POLICY_BYTES]);
            let started = calls::power_on(&nv, &mut volatile, &mut policy, false);
            assert_eq!(started.status == Status::Success, granted, "{lengths:?}");
        }
    }
}

#[test]
fn payload_and_name() {
    let (mut nv, mut volatile, mut policy) = ([0xFF; 4096], [], [0; POLICY_BYTES]);
    let switches = Engine::power_on(&mut nv, &mut volatile, &mut policy, false).expect("power-on").switches();
    let mut set = |units: usize, bytes: usize| {
        let (name, payload) = (vec![0x4E; 2 * units], vec![7; bytes]);
        let attributes = Attributes::NV | Attributes::BS;
        let request = Request { namespace: &namespace(0), name: &name, attributes, payload: &payload };
        calls::set(&mut nv, &mut volatile, &policy, switches, request).status
    };
    assert_eq!(set(MAX_NAME_UNITS, MAX_PAYLOAD_BYTES), Status::Success);
    assert_eq!(set(MAX_NAME_UNITS + 1, 1), Status::InvalidParameter);
    assert_eq!(set(1, MAX_PAYLOAD_BYTES + 1), Status::InvalidParameter);
}

/// Whether the first variable of a chain of so many links is settled: each but the last locks by the next, which holds 1.
fn first_of_chain(links: usize, last: Lock) -> Result<bool, Status> {
    let (mut nv, mut policy) = (vec![0xFF; 4096], [0; POLICY_BYTES]);
    let mut engine = Engine::power_on(&mut nv, &mut [], &mut policy, false)?;
    let name = |number: usize| Name::new(&format!("V{number:02}")).expect("a name");
    for number in 0..=links {
        engine.set(&namespace(0), &name(number), Attributes::NV | Attributes::BS, &[1])?;
    }
    for number in 0..links {
        let lock = Lock::OnVarState { namespace: namespace(0), name: name(number + 1), value: 1 };
        engine.register(&Entry { lock, ..Entry::new(namespace(0), name(number)) }.pack())?;
    }
    engine.register(&Entry { lock: last, ..Entry::new(namespace(0), name(links)) }.pack())?;
    engine.settled(&namespace(0), &name(0))
}

#[test]
fn links_of_a_settled_variable() {
    for last in [Lock::Now, Lock::OnCreate] {
        for links in 0..2 * MAX_LINKS {
            assert_eq!(first_of_chain(links, last), Ok(links <= MAX_LINKS), "{links}");
        }
    }
    assert_eq!(first_of_chain(MAX_LINKS, Lock::No), Ok(false));
}

/// A piece of the most bytes is taken. A reader is all of its bytes: its last one is written, the one behind it is not.
#[test]
fn piece_and_reader() {
    let mut lent = [0xA5; READER_BYTES + 1];
    let reader = lent.first_chunk_mut().expect("the first READER_BYTES");
    assert_eq!(calls::reader_start(reader), Status::Success);
    assert_eq!(calls::reader_feed(reader, &[0; MAX_PIECE + 1]), Status::InvalidParameter);
    assert_eq!(calls::reader_feed(reader, &[0; MAX_PIECE]), Status::Success);
    assert_eq!(lent[READER_BYTES - 1..], [0, 0xA5]);
}
