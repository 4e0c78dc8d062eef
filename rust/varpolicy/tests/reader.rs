//! The reader of a dump that arrives in pieces: however it is cut, the same entries and the same verdict as of registering
//! one entry after the other.

use varpolicy::calls::{self, ReaderEntry, ReaderVerdict};
use varpolicy::{
    Entry, Lock, MAX_ENTRIES, MAX_ENTRY_SIZE, MAX_NAME_UNITS, MAX_PIECE, MIN_ENTRY_SIZE, Marks, Name, POLICY_BYTES,
    READER_BYTES, Reader, Status, Switches, Verdict, WHOLE_NAMESPACE_RANK,
};

const G: [u8; 16] = [0x5C, 0x67, 0xD1, 0x81, 0xF6, 0x86, 0xDF, 0x48, 0xBD, 0x95, 0x9A, 0x6E, 0x4F, 0x09, 0x25, 0xC3];

/// A dump of 94 bytes: all of G, locked now, and the variables A0 to Af of G, never locked.
fn two_entries() -> Vec<u8> {
    let all = Entry { lock: Lock::Now, ..Entry::new(G, Name::EMPTY) }.pack();
    [&all[..], &entry("A#")].concat()
}

fn name(text: &str) -> Name {
    Name::new(text).unwrap()
}

fn entry(text: &str) -> Vec<u8> {
    Entry::new(G, name(text)).pack().to_vec()
}

/// A reader that was fed these pieces.
fn fed<'a>(pieces: impl IntoIterator<Item = &'a [u8]>) -> Reader {
    let mut reader = Reader::new();
    for piece in pieces {
        reader.feed(piece).expect("a piece of 1 to 4,096 bytes");
    }
    reader
}

/// A line for each good entry, and the verdict.
fn lines(reader: &Reader) -> Vec<String> {
    let entries = reader.entries().map(|entry| entry.to_string());
    entries.chain([reader.verdict().to_string()]).collect()
}

/// The same of a dump, by registering one entry after the other.
fn expected(dump: &[u8]) -> Vec<String> {
    let open = Switches { enabled: true, locked: false, disabling_allowed: false, exited: false };
    let mut policy = [0; POLICY_BYTES];
    let (mut lines, mut at) = (vec![], 0);
    while at < dump.len() {
        let number = |from: usize| dump.get(at + from..at + from + 2).map(|two| u16::from_le_bytes([two[0], two[1]]));
        let entry = number(4).and_then(|size| dump.get(at..at + usize::from(size)));
        let Some(entry) = entry.filter(|entry| calls::register(&mut policy, open, entry) == Status::Success) else {
            return [lines, vec![format!("bad at {at}")]].concat();
        };
        let units = entry[usize::from(number(6).unwrap())..].chunks(2);
        let marks = match units.clone().filter(|unit| *unit == [0x23, 0]).count() {
            _ if units.len() == 0 => "all".to_string(),
            count => count.to_string(),
        };
        lines.push(format!("{} size {} lock {} marks {marks}", lines.len(), entry.len(), entry[40]));
        at += entry.len();
    }
    let count = lines.len();
    [lines, vec![format!("entries {count} bytes {at}")]].concat()
}

/// Reads bytes whole and in pieces of several lengths. Each time the answers are as expected.
#[track_caller]
fn assert_read(dump: &[u8], cuts: &[usize]) {
    for length in cuts {
        let reader = fed(dump.chunks(*length));
        assert_eq!(lines(&reader), expected(dump), "pieces of {length}");
    }
}

#[test]
fn a_dump_of_two_entries_however_it_is_cut() {
    let dump = two_entries();
    let told = ["0 size 44 lock 1 marks all", "1 size 50 lock 0 marks 1", "entries 2 bytes 94"];
    assert_eq!((dump.len(), lines(&fed([&dump[..]]))), (94, told.map(String::from).to_vec()));
    assert_eq!(expected(&dump), told);
    for cut in 1..dump.len() {
        assert_eq!(lines(&fed([&dump[..cut], &dump[cut..]])), told, "{cut}");
        assert_eq!(lines(&fed(dump.chunks(cut))), told, "{cut}");
    }
}

#[test]
fn an_entry_has_its_place_its_bytes_and_its_marks() {
    let dump = two_entries();
    let reader = fed([&dump[..]]);
    let entries: Vec<_> = reader.entries().collect();
    assert_eq!(entries.len(), 2);
    let [all, pattern] = [entries[0], entries[1]];
    assert_eq!((all.place, all.at, all.size(), all.lock, all.marks), (0, 0, 44, 1, Marks::All));
    assert_eq!(
        (pattern.place, pattern.at, pattern.size(), pattern.lock, pattern.marks),
        (1, 44, 50, 0, Marks::Count(1))
    );
    assert_eq!([all.bytes, pattern.bytes].concat(), dump);
    let mut walk = reader.entries();
    assert_eq!(walk.by_ref().count(), 2);
    assert_eq!(walk.next(), None);
}

#[test]
fn lock_types_and_marks() {
    let trigger = Lock::OnVarState { namespace: G, name: name("T"), value: 0 };
    let most = "#".repeat(MAX_NAME_UNITS);
    let entries = [("", Lock::No), ("#B#", Lock::Now), ("B", Lock::OnCreate), (&most, trigger)];
    let dump: Vec<u8> = entries
        .iter()
        .flat_map(|(text, lock)| Entry { lock: *lock, ..Entry::new(G, name(text)) }.pack().to_vec())
        .collect();
    let reader = fed([&dump[..]]);
    let found: Vec<_> = reader.entries().map(|entry| (entry.lock, entry.marks)).collect();
    assert_eq!(found, [(0, Marks::All), (1, Marks::Count(2)), (2, Marks::Count(0)), (3, Marks::Count(64))]);
    assert_read(&dump, &[1, 43, 44, 45, MAX_PIECE]);
}

#[test]
fn no_bytes_are_a_dump_without_entries() {
    let reader = Reader::new();
    assert_eq!(lines(&reader), ["entries 0 bytes 0"]);
    assert_eq!(reader.verdict(), Verdict { whole: true, ended: false, entries: 0, bytes: 0 });
    assert_eq!(reader.verdict().bad_at(), None);
}

#[test]
fn what_is_cut_short_is_bad_until_the_rest_arrives() {
    let dump = two_entries();
    let mut reader = Reader::new();
    for length in 1..=dump.len() {
        reader.feed(&dump[length - 1..length]).unwrap();
        let (entries, bytes) = if length < 44 {
            (0, 0)
        } else if length < 94 {
            (1, 44)
        } else {
            (2, 94)
        };
        let whole = length == bytes;
        assert_eq!(reader.verdict(), Verdict { whole, ended: false, entries, bytes }, "{length}");
        assert_eq!(reader.entries().count(), entries, "{length}");
        assert_read(&dump[..length], &[1, 7, MAX_PIECE]);
    }
}

#[test]
fn damaged_at_each_byte() {
    let dump = two_entries();
    let mut bad = [0; 2];
    for at in 0..dump.len() {
        for change in [1, 2, 4, 8, 0x20, 0x23, 0x41, 0x80, 0xFF] {
            let mut damaged = dump.clone();
            damaged[at] ^= change;
            assert_read(&damaged, &[1, 44, 45, MAX_PIECE]);
            match fed([&damaged[..]]).verdict().bad_at() {
                Some(0) => bad[0] += 1,
                Some(44) => bad[1] += 1,
                found => assert_eq!(found, None),
            }
        }
    }
    assert!(bad.iter().all(|count| *count > 50), "{bad:?}");
}

#[test]
fn what_stands_behind_the_entries_is_bad() {
    let dump = two_entries();
    let zeros = vec![0; POLICY_BYTES - dump.len()];
    let trigger = Lock::OnVarState { namespace: G, name: name("T#"), value: 1 };
    let signed = Entry { lock: trigger, ..Entry::new(G, name("B")) }.pack();
    let ended: [(&[u8], bool); 6] =
        [(&[0], false), (&[0; 43], false), (&[0; 44], true), (&zeros, true), (&dump[44..], true), (&signed, true)];
    for (behind, ended) in ended {
        let bytes = [&dump[..], behind].concat();
        assert_read(&bytes, &[1, 94, 100, MAX_PIECE]);
        let reader = fed(bytes.chunks(MAX_PIECE));
        assert_eq!(reader.verdict(), Verdict { whole: false, ended, entries: 2, bytes: 94 });
    }
}

#[test]
fn after_a_bad_entry_further_pieces_change_nothing() {
    let mut reader = started();
    for piece in [&two_entries()[..], &entry("A#"), &entry("B")] {
        assert_eq!(calls::reader_feed(&mut reader, piece), Status::Success);
    }
    let told = ReaderVerdict { status: Status::Success, whole: false, ended: true, entries: 2, bytes: 94 };
    assert_eq!(calls::reader_verdict(&reader), told);
    let before = reader;
    for piece in [&[0][..], &entry("C"), &[7; MAX_PIECE]] {
        assert_eq!(calls::reader_feed(&mut reader, piece), Status::Success);
        assert!(reader == before);
    }
}

#[test]
fn as_many_entries_as_an_engine_holds() {
    let shortest = |number: usize| Entry::new((number as u128).to_le_bytes(), Name::EMPTY).pack().to_vec();
    let full: Vec<u8> = (0..MAX_ENTRIES).flat_map(shortest).collect();
    let bytes = MAX_ENTRIES * MIN_ENTRY_SIZE;
    assert_read(&full, &[1, 100, MAX_PIECE]);
    let verdict = Verdict { whole: true, ended: false, entries: MAX_ENTRIES, bytes };
    assert_eq!(fed(full.chunks(MAX_PIECE)).verdict(), verdict);
    let more = [full, shortest(MAX_ENTRIES)].concat();
    assert_read(&more, &[1, 100, MAX_PIECE]);
    assert_eq!(fed(more.chunks(MAX_PIECE)).verdict(), Verdict { whole: false, ended: true, ..verdict });
}

/// An entry with a trigger's name of the most units and a name of this many.
fn long(number: usize, units: usize) -> Vec<u8> {
    let lock = Lock::OnVarState { namespace: G, name: name(&"T".repeat(MAX_NAME_UNITS)), value: 1 };
    Entry { lock, ..Entry::new((number as u128).to_le_bytes(), name(&"#".repeat(units))) }.pack().to_vec()
}

#[test]
fn as_many_bytes_as_a_policy_record_has() {
    let count = POLICY_BYTES / MAX_ENTRY_SIZE;
    let mut full: Vec<u8> = (0..count).flat_map(|number| long(number, MAX_NAME_UNITS)).collect();
    let before = full.len();
    let units = MAX_NAME_UNITS - (MAX_ENTRY_SIZE - (POLICY_BYTES - before)) / 2;
    full.extend(long(count, units));
    assert_eq!(full.len(), POLICY_BYTES);
    assert_read(&full, &[1, 1000, MAX_PIECE]);
    let whole = Verdict { whole: true, ended: false, entries: count + 1, bytes: POLICY_BYTES };
    assert_eq!(fed(full.chunks(MAX_PIECE)).verdict(), whole);
    for behind in [&[1][..], &entry("A"), &full] {
        let more = [&full[..], behind].concat();
        assert_read(&more, &[1, 1000, MAX_PIECE]);
        assert_eq!(fed(more.chunks(MAX_PIECE)).verdict(), Verdict { whole: false, ended: true, ..whole });
    }
    let more = [&full[..before], &long(count, units + 1)].concat();
    assert_read(&more, &[1, 1000, MAX_PIECE]);
    let past = Verdict { whole: false, ended: true, entries: count, bytes: before };
    assert_eq!((more.len(), fed(more.chunks(MAX_PIECE)).verdict()), (POLICY_BYTES + 2, past));
}

/// The bytes of a reader that was started, over other bytes.
fn started() -> [u8; READER_BYTES] {
    let mut reader = [0xA5; READER_BYTES];
    assert_eq!(calls::reader_start(&mut reader), Status::Success);
    reader
}

#[test]
fn a_piece_of_another_length_is_refused_and_the_reader_stands_as_before() {
    let dump = two_entries();
    let (mut reader, mut other) = (started(), started());
    for byte in &dump {
        for refused in [&[][..], &[0; MAX_PIECE + 1], &dump.repeat(100)] {
            let before = other;
            assert_eq!(calls::reader_feed(&mut other, refused), Status::InvalidParameter);
            assert!(other == before);
        }
        assert_eq!(calls::reader_feed(&mut reader, &[*byte]), Status::Success);
        assert_eq!(calls::reader_feed(&mut other, &[*byte]), Status::Success);
    }
    assert!(reader == other);
    assert_eq!(Reader::new().feed(&[]), Err(Status::InvalidParameter));
    assert_eq!(Reader::new().feed(&[0; MAX_PIECE + 1]), Err(Status::InvalidParameter));
    assert_eq!(Reader::new().feed(&[0; MAX_PIECE]), Ok(()));
}

#[test]
fn any_number_of_bytes_is_fed_in_pieces() {
    let dump: Vec<u8> = (0..100).flat_map(|number| entry(&format!("Name{number:03}"))).collect();
    for length in [0, 1, MAX_PIECE - 1, MAX_PIECE, MAX_PIECE + 1, dump.len()] {
        let mut reader = Reader::new();
        reader.feed_all(&dump[..length]);
        assert_eq!(lines(&reader), expected(&dump[..length]), "{length}");
    }
    let mut reader = Reader::default();
    reader.feed_all(&[0; 100_000]);
    assert_eq!(lines(&reader), ["bad at 0"]);
}

#[test]
fn a_reader_that_is_started_again_has_forgotten() {
    let mut reader = Reader::new();
    for dump in [vec![7; 50], two_entries(), entry("B"), two_entries()] {
        reader.start_again();
        reader.feed_all(&dump);
        assert_eq!(lines(&reader), expected(&dump));
    }
}

#[test]
fn no_entry_is_told_with_zeros() {
    let mut reader = started();
    let none = ReaderEntry { status: Status::NotFound, size: 0, lock: 0, rank: 0 };
    assert_eq!(calls::reader_entry(&reader, 0), none);
    assert_eq!(calls::reader_feed(&mut reader, &two_entries()), Status::Success);
    let first = ReaderEntry { status: Status::Success, size: 44, lock: 1, rank: WHOLE_NAMESPACE_RANK };
    assert_eq!(calls::reader_entry(&reader, 0), first);
    let second = ReaderEntry { status: Status::Success, size: 50, lock: 0, rank: 1 };
    assert_eq!(calls::reader_entry(&reader, 44), second);
    for at in (1..44).chain(45..200).chain([READER_BYTES, usize::MAX - 4, usize::MAX]) {
        assert_eq!(calls::reader_entry(&reader, at), none, "{at}");
    }
}

/// Numbers that follow from the seed alone.
fn numbers(mut seed: u64) -> impl FnMut() -> u64 {
    move || {
        seed = seed.wrapping_mul(0x5851_F42D_4C95_7F2D).wrapping_add(1);
        seed >> 33
    }
}

/// Any bytes may be lent as a reader: every call ends, an entry that it tells lies within them, and start makes them fresh.
#[test]
fn a_reader_of_any_content() {
    let mut next = numbers(13);
    let dump = two_entries().repeat(200);
    for round in 0..2000 {
        let mut reader = [0; READER_BYTES];
        match round % 3 {
            0 => reader.fill_with(|| next() as u8),
            1 => reader.copy_from_slice(&dump[..READER_BYTES]),
            _ => reader.fill(next() as u8),
        }
        for number in reader[READER_BYTES - 6..].chunks_mut(2) {
            let any = [next() % 200, 16_300 + next() % 200, 18_400 + next() % 50, next() % 65_536];
            number.copy_from_slice(&(any[next() as usize % 4] as u16).to_le_bytes());
        }
        for length in [1, 1 + next() as usize % MAX_PIECE, MAX_PIECE, 0, MAX_PIECE + 1] {
            let status = calls::reader_feed(&mut reader, &dump[..length]);
            let granted = (1..=MAX_PIECE).contains(&length);
            assert_eq!(status, if granted { Status::Success } else { Status::InvalidParameter });
        }
        assert_eq!(calls::reader_verdict(&reader).status, Status::Success);
        for at in [0, 44, 94, next() as usize % READER_BYTES, usize::MAX] {
            let entry = calls::reader_entry(&reader, at);
            if entry.status == Status::Success {
                assert!((MIN_ENTRY_SIZE..=MAX_ENTRY_SIZE).contains(&entry.size) && at + entry.size <= READER_BYTES);
                assert!(entry.lock <= 3 && entry.rank <= WHOLE_NAMESPACE_RANK);
            }
        }
        calls::reader_start(&mut reader);
        assert_eq!(calls::reader_feed(&mut reader, &two_entries()), Status::Success);
        let told = ReaderVerdict { status: Status::Success, whole: true, ended: false, entries: 2, bytes: 94 };
        assert_eq!(calls::reader_verdict(&reader), told);
    }
}
