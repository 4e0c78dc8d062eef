//! Dumps that the libraries of earlier editions made (tests/first_edition/make.c), registered in order (docs/RULES.md,
//! 12.8): the entries with '#' in the trigger's name are refused, and all others come back byte for byte. Then the
//! policy records of those editions.

use varpolicy::calls::Request;
use varpolicy::{Attributes, Entry, Name, POLICY_BYTES, Status, SwitchBytes, calls};

/// The length of a policy record of the first edition, and the most entries that it held.
const FIRST_POLICY_BYTES: usize = 8192;
const FIRST_MAX_ENTRIES: usize = 64;

const FULL_COUNT: &[u8] = include_bytes!("first_edition/full-count.dump");
const FULL_SUM: &[u8] = include_bytes!("first_edition/full-sum.dump");
const MIXED: &[u8] = include_bytes!("first_edition/mixed.dump");
const SIGNS: &[u8] = include_bytes!("first_edition/signs.dump");

/// The dumps, each with the places of its entries that have '#' in the trigger's name.
const DUMPS: [(&[u8], &[usize]); 4] =
    [(FULL_COUNT, &[]), (FULL_SUM, &[]), (MIXED, &[7, 11, 19, 23]), (SIGNS, &[0, 10, 19])];

const OPEN: SwitchBytes = SwitchBytes { enabled: 1, locked: 0, disabling_allowed: 0, exited: 0 };

/// The entries of a dump: each takes as many bytes as its Size says.
fn entries(mut dump: &[u8]) -> Vec<&[u8]> {
    let mut entries = Vec::new();
    while !dump.is_empty() {
        let (entry, rest) = dump.split_at(u16::from_le_bytes([dump[4], dump[5]]).into());
        entries.push(entry);
        dump = rest;
    }
    entries
}

/// The name of the trigger of an entry of type 3, in letters.
fn trigger(entry: &[u8]) -> Option<String> {
    let offset_to_name = usize::from(u16::from_le_bytes([entry[6], entry[7]]));
    let units = entry.get(62..offset_to_name - 2).filter(|_| entry[40] == 3)?.chunks(2);
    Some(String::from_utf16(&units.map(|unit| u16::from_le_bytes([unit[0], unit[1]])).collect::<Vec<_>>()).unwrap())
}

/// The entries in a policy record of this length, and then zeros.
fn record(entries: &[&[u8]], length: usize) -> Vec<u8> {
    let mut record = entries.concat();
    record.resize(length, 0);
    record
}

#[test]
fn the_dumps_are_of_a_full_count_a_full_sum_every_lock_type_and_twenty_entries() {
    assert_eq!(entries(FULL_COUNT).len(), FIRST_MAX_ENTRIES);
    assert_eq!(FULL_SUM.len(), FIRST_POLICY_BYTES);
    for lock_type in 0..=3 {
        assert_eq!(entries(MIXED).iter().filter(|entry| entry[40] == lock_type).count(), 8);
    }
    assert_eq!(entries(SIGNS).len(), 20);
    let signed = |place: usize| trigger(entries(SIGNS)[place]);
    assert_eq!([0, 10, 19].map(signed), ["#Phase", "Phase#Done", "PhaseDone#"].map(|name| Some(name.to_string())));
    for (dump, refused) in DUMPS {
        let entries = entries(dump);
        let has_sign = |place: &usize| trigger(entries[*place]).is_some_and(|name| name.contains('#'));
        assert_eq!((0..entries.len()).filter(has_sign).collect::<Vec<_>>(), refused);
    }
}

#[test]
fn entries_with_a_sign_in_the_trigger_are_refused_and_the_others_come_back() {
    for (dump, refused) in DUMPS {
        let (nv, mut volatile, mut policy) = ([0xFF; 64], [0x5A; 64], vec![0xA5; POLICY_BYTES]);
        let started = calls::power_on(&nv, &mut volatile, &mut policy, false);
        assert_eq!((started.status, started.switches), (Status::Success, OPEN));
        let mut others = Vec::new();
        for (place, entry) in entries(dump).into_iter().enumerate() {
            let status = calls::register(&mut policy, started.switches, entry);
            let expected = if refused.contains(&place) { Status::InvalidParameter } else { Status::Success };
            assert_eq!(status, expected, "entry {place}");
            if status == Status::Success {
                others.push(entry);
            }
            assert!(policy == record(&others, POLICY_BYTES), "the policy record behind entry {place}");
        }
        let old = others.concat();
        assert_eq!(old == dump, refused.is_empty());
        let mut buffer = vec![0x5A; old.len() + 1];
        let short = calls::dump(&policy, OPEN, &mut buffer[..old.len() - 1]);
        assert_eq!((short.status, short.length), (Status::BufferTooSmall, old.len()));
        let dumped = calls::dump(&policy, OPEN, &mut buffer);
        assert_eq!((dumped.status, dumped.length), (Status::Success, old.len()));
        assert_eq!(buffer, [&old[..], &[0x5A]].concat());
        assert_eq!((nv, volatile), ([0xFF; 64], [0xFF; 64]));
    }
}

/// What register, dump and set answer to a policy record, each by itself; a refused one writes nothing.
fn answers_to(content: &[u8]) -> [Status; 3] {
    let name = Name::new("A").expect("one unit");
    let entry = Entry::new([0x77; 16], name).pack();
    let (mut policy, mut buffer, mut volatile) = (content.to_vec(), vec![9; POLICY_BYTES], [0xFF; 64]);
    let registered = calls::register(&mut policy, OPEN, &entry);
    assert_eq!(policy == content, registered != Status::Success);
    let dumped = calls::dump(content, OPEN, &mut buffer);
    assert_eq!(dumped.length > 0, dumped.status == Status::Success);
    assert!(dumped.status == Status::Success || buffer == [9; POLICY_BYTES]);
    let request = Request { namespace: &[0x77; 16], name: &name, attributes: Attributes::BS, payload: b"1" };
    let set = calls::set(&mut [], &mut volatile, content, OPEN, request).status;
    assert_eq!(volatile == [0xFF; 64], set != Status::Success);
    [registered, dumped.status, set]
}

#[test]
fn a_record_of_e5_or_e6_is_valid_if_no_trigger_has_a_sign() {
    for (dump, signed) in DUMPS {
        let all = entries(dump);
        let expected = if signed.is_empty() { Status::Success } else { Status::VolumeCorrupted };
        let content = record(&all, POLICY_BYTES);
        assert_eq!(answers_to(&content), [expected; 3]);
        for place in signed {
            assert_eq!(
                answers_to(&record(&[all[*place]], POLICY_BYTES)),
                [Status::VolumeCorrupted; 3],
                "entry {place}"
            );
        }
        let plain = all.iter().enumerate().filter(|(place, _)| !signed.contains(place)).map(|(_, entry)| *entry);
        assert_eq!(answers_to(&record(&plain.collect::<Vec<_>>(), POLICY_BYTES)), [Status::Success; 3]);
        for power_on in [true, false] {
            let mut policy = content.clone();
            let started = match power_on {
                true => calls::power_on(&[], &mut [], &mut policy, false),
                false => calls::restart(&[], &[], &mut policy, false),
            };
            assert_eq!((started.status, started.switches), (Status::Success, OPEN));
            assert!(policy == [0; POLICY_BYTES]);
        }
    }
}

#[test]
fn a_record_of_the_first_edition_is_too_short_for_every_call() {
    for content in [vec![0; FIRST_POLICY_BYTES], record(&entries(MIXED), FIRST_POLICY_BYTES), FULL_SUM.to_vec()] {
        let mut policy = content.clone();
        let started = [calls::power_on(&[], &mut [], &mut policy, true), calls::restart(&[], &[], &mut policy, true)];
        assert!(started.iter().all(|started| started.status == Status::VolumeCorrupted));
        assert!(policy == content);
        assert_eq!(answers_to(&content), [Status::VolumeCorrupted; 3]);
    }
}
