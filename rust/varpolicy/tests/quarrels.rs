//! The checker of a dump: the first two entries that quarrel, the smallest name that both target, and what is no dump.

use varpolicy::calls::{self, Quarrelled};
use varpolicy::{
    Engine, Entry, Lock, MAX_ENTRIES, MAX_ENTRY_SIZE, MAX_NAME_UNITS, MIN_ENTRY_SIZE, Name, POLICY_BYTES, Quarrel,
    Status, quarrels,
};

const G: [u8; 16] = [0x5C, 0x67, 0xD1, 0x81, 0xF6, 0x86, 0xDF, 0x48, 0xBD, 0x95, 0x9A, 0x6E, 0x4F, 0x09, 0x25, 0xC3];
const NONE: Quarrelled = Quarrelled { status: Status::Success, found: false, earlier: 0, later: 0, name_length: 0 };
const REFUSED: Quarrelled = Quarrelled { status: Status::InvalidParameter, ..NONE };

fn name(text: &str) -> Name {
    Name::new(text).unwrap()
}

fn entry(text: &str) -> Vec<u8> {
    Entry::new(G, name(text)).pack().to_vec()
}

/// Entries of G with these names, end to end.
fn dump(names: &[&str]) -> Vec<u8> {
    names.iter().flat_map(|name| entry(name)).collect()
}

/// The answer, with the bytes of the buffer that were written; all others stay.
fn checked(dump: &[u8]) -> (Quarrelled, Vec<u8>) {
    let mut buffer = [0xA5; 2 * MAX_NAME_UNITS];
    let answer = calls::quarrels(dump, &mut buffer);
    assert!(buffer[answer.name_length..].iter().all(|byte| *byte == 0xA5));
    assert_eq!(answer.found, answer.name_length > 0);
    (answer, buffer[..answer.name_length].to_vec())
}

/// The places and the name of the pair in such a dump.
fn pair(names: &[&str]) -> Option<(usize, usize, String)> {
    let quarrel = quarrels(&dump(names)).expect("a dump")?;
    Some((quarrel.earlier, quarrel.later, quarrel.name.to_string()))
}

#[test]
fn a_pair_is_found_with_its_smallest_name() {
    let (answer, written) = checked(&dump(&["Boot00##", "Key", "Boot##01"]));
    let found = Quarrelled { status: Status::Success, found: true, earlier: 0, later: 2, name_length: 16 };
    assert_eq!((answer, written), (found, name("Boot0001").to_vec()));
    let quarrel = Quarrel { earlier: 0, later: 2, name: name("Boot0001") };
    assert_eq!(quarrels(&dump(&["Boot00##", "Key", "Boot##01"])), Ok(Some(quarrel)));
    for (one, other, smallest) in
        [("A#", "#b", "Ab"), ("##A", "#b#", "0bA"), ("#f##", "##F#", "0fF0"), ("\u{100}#0", "\u{100}f#", "\u{100}f0")]
    {
        assert_eq!(pair(&[one, other]), Some((0, 1, smallest.to_string())));
        assert_eq!(pair(&[other, one]), Some((0, 1, smallest.to_string())));
    }
}

#[test]
fn the_first_pair_is_by_the_earlier_place_and_then_by_the_later() {
    assert_eq!(pair(&["X##", "#0", "Y#0", "0#", "Y0#", "X#1#", "X1#", "X#1"]), Some((1, 3, "00".to_string())));
    assert_eq!(pair(&["A#0", "B#0", "B0#", "A0#"]), Some((0, 3, "A00".to_string())));
    assert_eq!(pair(&["#00", "0#0", "00#"]), Some((0, 1, "000".to_string())));
    assert_eq!(pair(&["#00", "#G0", "00#"]), Some((0, 2, "000".to_string())));
}

#[test]
fn none_quarrel() {
    for (names, why) in [
        (&[][..], "no entries"),
        (&["A#"], "one entry"),
        (&["Boot00##", "Boot####"], "ranks differ"),
        (&["Boot0#", "Boot#G"], "no hex digit"),
        (&["A#", "B#"], "other letters"),
        (&["A#", "a#"], "letters of different case differ"),
        (&["A#", "#b1"], "other lengths"),
        (&["", "A", "A#", "##"], "a whole namespace ranks behind all others"),
    ] {
        assert_eq!(checked(&dump(names)), (NONE, vec![]), "{why}");
        assert_eq!(quarrels(&dump(names)), Ok(None), "{why}");
    }
    let other = Entry::new([1; 16], name("#b")).pack();
    assert_eq!(checked(&[&entry("A#")[..], &other].concat()), (NONE, vec![]), "other namespaces");
}

/// The lock part stands between the header and the name, and the fields besides namespace and name do not matter.
#[test]
fn other_fields_do_not_matter() {
    let lock = Lock::OnVarState { namespace: [2; 16], name: name("Trigger"), value: 1 };
    let triggered = Entry { lock, max_size: 7, ..Entry::new(G, name("Boot##01")) }.pack();
    let (answer, written) = checked(&[&entry("Boot00##")[..], &triggered].concat());
    assert_eq!((answer.later, written), (1, name("Boot0001").to_vec()));
}

#[test]
fn what_is_no_dump_is_refused_and_leaves_the_buffer() {
    let good = dump(&["A#", "#b"]);
    let repeated = [&good[..], &entry("A#")].concat();
    let whole = dump(&["", ""]);
    let trigger = Lock::OnVarState { namespace: G, name: name("T#"), value: 1 };
    let signed = [&good[..], &Entry { lock: trigger, ..Entry::new(G, name("B")) }.pack()].concat();
    let mut malformed = good.clone();
    malformed[40] = 4;
    let mut record = good.clone();
    record.resize(POLICY_BYTES, 0);
    for bytes in [&repeated, &whole, &signed, &malformed, &record, &vec![0; POLICY_BYTES], &vec![0], &vec![0; 44]] {
        assert_eq!(checked(bytes), (REFUSED, vec![]));
        assert_eq!(quarrels(bytes), Err(Status::InvalidParameter));
    }
    let ends = [0, entry("A#").len(), good.len()];
    for length in 0..=good.len() {
        assert_eq!(checked(&good[..length]).0.status == Status::Success, ends.contains(&length), "{length}");
    }
    for behind in [0, 1, 0xFF] {
        assert_eq!(checked(&[&good[..], &[behind]].concat()), (REFUSED, vec![]));
        assert_eq!(checked(&[&good[..], &[behind; 2]].concat()), (REFUSED, vec![]));
    }
}

#[test]
fn as_many_entries_as_an_engine_holds() {
    let shortest = |number: usize| Entry::new((number as u128).to_le_bytes(), Name::EMPTY).pack().to_vec();
    let full: Vec<u8> = (0..MAX_ENTRIES).flat_map(shortest).collect();
    assert_eq!((full.len(), checked(&full)), (MAX_ENTRIES * MIN_ENTRY_SIZE, (NONE, vec![])));
    assert_eq!(checked(&[full, shortest(MAX_ENTRIES)].concat()), (REFUSED, vec![]));
    let last: Vec<u8> = (2..MAX_ENTRIES).flat_map(shortest).chain(dump(&["A#", "#b"])).collect();
    let (answer, written) = checked(&last);
    assert_eq!((answer.earlier, answer.later, written), (MAX_ENTRIES - 2, MAX_ENTRIES - 1, name("Ab").to_vec()));
}

/// An entry with a trigger's name of the most units and a name of this many, the last of them this one.
fn long(number: usize, units: usize, last: char) -> Vec<u8> {
    let text = format!("{}{last}", "#".repeat(units - 1));
    let lock = Lock::OnVarState { namespace: G, name: name(&"T".repeat(MAX_NAME_UNITS)), value: 1 };
    Entry { lock, ..Entry::new((number as u128).to_le_bytes(), name(&text)) }.pack().to_vec()
}

#[test]
fn as_many_bytes_as_a_policy_record_has() {
    let count = POLICY_BYTES / MAX_ENTRY_SIZE;
    let mut full: Vec<u8> = (0..count).flat_map(|number| long(number, MAX_NAME_UNITS, '0')).collect();
    let units = MAX_NAME_UNITS - (MAX_ENTRY_SIZE - (POLICY_BYTES - full.len())) / 2;
    full.extend(long(count, units, '0'));
    assert_eq!((full.len(), checked(&full)), (POLICY_BYTES, (NONE, vec![])));
    let more = [&full[..count * MAX_ENTRY_SIZE], &long(count, units + 1, '0')].concat();
    assert_eq!((more.len(), checked(&more)), (POLICY_BYTES + 2, (REFUSED, vec![])));
}

#[test]
fn names_of_the_most_units_fill_the_buffer() {
    let lock = Lock::OnVarState { namespace: G, name: name("T"), value: 1 };
    let other = format!("b{}", "#".repeat(MAX_NAME_UNITS - 1));
    let other = Entry { lock, ..Entry::new([0; 16], name(&other)) }.pack();
    let (answer, written) = checked(&[&long(0, MAX_NAME_UNITS, 'F')[..], &other].concat());
    assert_eq!((answer.found, answer.name_length), (true, 2 * MAX_NAME_UNITS));
    assert_eq!(written, name(&format!("b{}F", "0".repeat(MAX_NAME_UNITS - 2))).to_vec());
}

/// Whether a pattern matches a name, as docs/RULES.md, 4.1, says it.
fn matches(pattern: &str, name: &str) -> bool {
    let unit_matches = |(wanted, unit): (char, char)| match wanted {
        '#' => unit.is_ascii_hexdigit(),
        _ => unit == wanted,
    };
    pattern.len() == name.len() && pattern.chars().zip(name.chars()).all(unit_matches)
}

/// All names of one to three units out of '#', two digits, a letter that is none and one that is, the smaller first among
/// names of one length.
fn short_names() -> Vec<String> {
    let longer = |names: &[String]| -> Vec<String> {
        names.iter().flat_map(|name| ["#", "0", "1", "G", "b"].map(|unit| format!("{name}{unit}"))).collect()
    };
    let one = longer(&[String::new()]);
    let two = longer(&one);
    let three = longer(&two);
    [one, two, three].concat()
}

#[test]
fn a_quarrel_is_equal_rank_and_a_name_that_both_match() {
    let names = short_names();
    let signs = |name: &str| name.matches('#').count();
    let mut found = 0;
    for one in &names {
        for other in names.iter().filter(|other| *other != one) {
            let common = names.iter().find(|name| matches(one, name) && matches(other, name));
            let expected = common.filter(|_| signs(one) == signs(other)).map(|name| (0, 1, name.clone()));
            assert_eq!(pair(&[one, other]), expected, "{one} {other}");
            found += usize::from(expected.is_some());
        }
    }
    assert!(found > 100, "{found}");
}

#[test]
fn an_engine_tells_of_its_own_entries() {
    let (mut nv, mut volatile, mut policy) = ([], [], [0; POLICY_BYTES]);
    let mut engine = Engine::power_on(&mut nv, &mut volatile, &mut policy, false).unwrap();
    assert_eq!(engine.quarrels(), Ok(None));
    for text in ["Boot00##", "Key"] {
        engine.register(&entry(text)).unwrap();
        assert_eq!(engine.quarrels(), Ok(None));
    }
    engine.register(&entry("Boot##01")).unwrap();
    let quarrel = Quarrel { earlier: 0, later: 2, name: name("Boot0001") };
    assert_eq!(engine.quarrels(), Ok(Some(quarrel)));
    let mut buffer = [0; 200];
    let length = engine.dump(&mut buffer).unwrap();
    assert_eq!(quarrels(&buffer[..length]), Ok(Some(quarrel)));
    assert_eq!(quarrels(&buffer), Err(Status::InvalidParameter), "the buffer, with zeros behind the entries");
    engine.lock().unwrap();
    assert_eq!(engine.quarrels(), Ok(Some(quarrel)));
    engine.exit().unwrap();
    assert_eq!(engine.quarrels(), Err(Status::Unsupported));
    let switches = engine.switches();
    policy[POLICY_BYTES - 1] = 1;
    let engine = Engine::resume(&mut nv, &mut volatile, &mut policy, switches);
    assert_eq!(engine.quarrels(), Err(Status::VolumeCorrupted));
}

#[test]
fn a_quarrel_is_a_sentence_and_a_name_can_stand_in_quotes() {
    let quarrel = Quarrel { earlier: 3, later: 12, name: Name::from_units([0x22, 0x5C, 0x41, 7, 0xD800]).unwrap() };
    let sentence = "entries 3 and 12 quarrel: they have the same rank, and \"\\\"\\\\A\\u0007\\uD800\" is the smallest \
                    name that both target";
    assert_eq!(quarrel.to_string(), sentence);
    assert_eq!([name("Größe").to_string(), Name::EMPTY.to_string()], ["Größe", ""]);
}
