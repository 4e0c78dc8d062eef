//! Each call of the archive, once or twice: the declarations in `abi.rs` fit it.

use varpolicy::calls::{Request, Settled, Written};
use varpolicy::{
    Attributes, Engine, Entry, Ground, Lock, Name, NotDumped, POLICY_BYTES, Refused, Report, Status, SwitchBytes,
    Switches, calls,
};

const G: [u8; 16] = [0x5C, 0x67, 0xD1, 0x81, 0xF6, 0x86, 0xDF, 0x48, 0xBD, 0x95, 0x9A, 0x6E, 0x4F, 0x09, 0x25, 0xC3];

fn name(text: &str) -> Name {
    Name::new(text).unwrap()
}

#[test]
fn power_on_wipes_what_it_should() {
    let (nv, mut volatile, mut policy) = ([0xFF; 64], [7; 65], [9; POLICY_BYTES]);
    let started = calls::power_on(&nv, &mut volatile, &mut policy, true);
    let fresh = Switches { enabled: true, locked: false, disabling_allowed: true, exited: false };
    assert_eq!((started.status, started.switches), (Status::Success, fresh.into()));
    assert_eq!((volatile, policy), ([0xFF; 65], [0; POLICY_BYTES]));
}

#[test]
fn refused_starts_hand_back_closed_switches_and_write_nothing() {
    let closed = Switches { enabled: true, locked: true, disabling_allowed: false, exited: false };
    let (mut volatile, mut policy) = ([7; 65], [9; POLICY_BYTES]);
    for started in [
        calls::power_on(&[0; 4], &mut volatile, &mut policy, true),
        calls::power_on(&[], &mut volatile, &mut policy[1..], true),
        calls::restart(&[], &volatile, &mut policy, true),
    ] {
        assert_eq!((started.status, started.switches), (Status::VolumeCorrupted, closed.into()));
    }
    assert_eq!((volatile, policy), ([7; 65], [9; POLICY_BYTES]));
}

#[test]
fn variables_are_written_read_and_deleted() {
    let (mut nv, mut volatile, mut policy) = ([0xFF; 128], [0xFF; 128], [0; POLICY_BYTES]);
    let mut engine = Engine::power_on(&mut nv, &mut volatile, &mut policy, false).unwrap();
    let (nv_bs, bs) = (Attributes::NV | Attributes::BS, Attributes::BS);
    engine.set(&G, &name("A"), nv_bs, &[1, 2]).unwrap();
    engine.set(&G, &name("B"), bs, &[3]).unwrap();
    engine.set(&G, &name("A"), nv_bs | Attributes::APPEND, &[4]).unwrap();
    let a = engine.read(&G, &name("A")).unwrap();
    assert_eq!((a.attributes, a.payload), (nv_bs, &[1, 2, 4][..]));
    let b = engine.read(&G, &name("B")).unwrap();
    assert_eq!((b.attributes, b.payload), (bs, &[3][..]));
    engine.delete(&G, &name("A")).unwrap();
    assert_eq!(engine.read(&G, &name("A")), Err(Status::NotFound));
    assert_eq!(engine.read(&G, &[]), Err(Status::InvalidParameter));
    let refused = Refused { status: Status::Unsupported, report: Report::NONE };
    assert_eq!(engine.set(&G, &name("B"), Attributes(8), &[1]), Err(refused));
}

#[test]
fn entries_are_registered_dumped_and_enforced() {
    let (mut nv, mut volatile, mut policy) = ([0xFF; 128], [0xFF; 128], [0; POLICY_BYTES]);
    let mut engine = Engine::power_on(&mut nv, &mut volatile, &mut policy, true).unwrap();
    assert_eq!(engine.dump(&mut []), Ok(0));
    let lock = Lock::OnVarState { namespace: G, name: name("T"), value: 1 };
    let entry = Entry { lock, min_size: 2, ..Entry::new(G, name("A")) }.pack();
    engine.register(&entry).unwrap();
    assert_eq!(engine.register(&entry), Err(Status::AlreadyStarted));
    assert_eq!(engine.register(&entry[..43]), Err(Status::InvalidParameter));
    assert_eq!(engine.dump(&mut [0; 10]), Err(NotDumped { status: Status::BufferTooSmall, needed: entry.len() }));
    let mut buffer = [7; 100];
    assert_eq!(engine.dump(&mut buffer), Ok(entry.len()));
    assert_eq!(buffer[..entry.len()], entry[..]);
    let refused = |status, ground| Err(Refused { status, report: Report { ground, ..Report::NONE } });
    assert_eq!(engine.set(&G, &name("A"), Attributes::BS, &[1]), refused(Status::InvalidParameter, Ground::Size));
    engine.set(&G, &name("A"), Attributes::BS, &[1, 2]).unwrap();
    engine.set(&G, &name("T"), Attributes::BS, &[1]).unwrap();
    assert_eq!(engine.delete(&G, &name("A")), refused(Status::WriteProtected, Ground::Lock));
    engine.disable().unwrap();
    assert_eq!(engine.disable(), Err(Status::AlreadyStarted));
    assert!(!engine.is_enabled());
    engine.lock().unwrap();
    assert_eq!(engine.lock(), Err(Status::WriteProtected));
    let used = Switches { enabled: false, locked: true, disabling_allowed: true, exited: false };
    assert_eq!(engine.switches(), used);
    engine.delete(&G, &name("A")).unwrap();
    engine.exit().unwrap();
    assert_eq!(engine.exit(), Err(Status::Unsupported));
    assert_eq!(engine.switches(), Switches { exited: true, ..used });
}

/// Two stores, and a policy record with these entries, at their places.
struct Bench {
    nv: [u8; 128],
    volatile: [u8; 128],
    policy: [u8; POLICY_BYTES],
    switches: SwitchBytes,
}

impl Bench {
    fn with(entries: &[Entry]) -> Bench {
        let (nv, mut volatile, mut policy) = ([0xFF; 128], [0xFF; 128], [0; POLICY_BYTES]);
        let switches = calls::power_on(&nv, &mut volatile, &mut policy, true).switches;
        for entry in entries {
            assert_eq!(calls::register(&mut policy, switches, &entry.pack()), Status::Success);
        }
        Bench { nv, volatile, policy, switches }
    }

    /// The status and the report of a set in G; refused, it changes nothing.
    fn set(&mut self, name: &str, attributes: Attributes, payload: &[u8]) -> (Status, Report) {
        let before = (self.nv, self.volatile);
        let name = Name::new(name).unwrap();
        let request = Request { namespace: &G, name: &name, attributes, payload };
        let written = calls::set(&mut self.nv, &mut self.volatile, &self.policy, self.switches, request);
        let Written { status, report } = written;
        assert!(status == Status::Success || before == (self.nv, self.volatile));
        assert_eq!(written.ok().is_ok(), status == Status::Success);
        (status, report)
    }

    /// Sets variables of G to one byte, which is granted.
    fn with_set(mut self, variables: &[(&str, u8)]) -> Bench {
        for (name, byte) in variables {
            assert_eq!(self.set(name, Attributes(3), &[*byte]), (Status::Success, Report::NONE));
        }
        self
    }

    /// Whether a variable of G is settled.
    fn settled(&self, name: &str) -> bool {
        let name = Name::new(name).unwrap();
        let Settled { status, settled } = calls::settled(&self.nv, &self.volatile, &self.policy, &G, &name);
        assert_eq!(status, Status::Success);
        settled
    }
}

/// An entry for `A#` with three grounds, behind one for `B` with none: the bench of docs/RULES.md, 13.
fn three_grounds() -> [Entry; 2] {
    let (must_have, cant_have) = (Attributes::NV | Attributes::RT, Attributes::APPEND);
    let entry = Entry { max_size: 2, must_have, cant_have, lock: Lock::Now, ..Entry::new(G, name("A#")) };
    [Entry::new(G, name("B")), entry]
}

#[test]
fn a_report_tells_the_ground_the_entry_and_the_bits() {
    let mut bench = Bench::with(&three_grounds());
    let (bs, all) = (Attributes::BS, Attributes::NV | Attributes::BS | Attributes::RT);
    let report = |ground, missing, prohibited, lowest_bit| {
        let status = if ground == Ground::Lock { Status::WriteProtected } else { Status::InvalidParameter };
        (status, Report { ground, place: 1, rank: 1, missing, prohibited, lowest_bit })
    };
    assert_eq!(bench.set("A0", bs, &[1, 2, 3]), report(Ground::Size, 0, 0, 0));
    assert_eq!(bench.set("A0", bs, &[1]), report(Ground::Attributes, 2, 0, 0));
    assert_eq!(bench.set("A0", all | Attributes::APPEND, &[1]), report(Ground::Attributes, 0, 1, 6));
    assert_eq!(bench.set("A0", bs | Attributes::APPEND, &[1]), report(Ground::Attributes, 2, 1, 0));
    assert_eq!(bench.set("A0", all, &[1]), report(Ground::Lock, 0, 0, 0));
    assert_eq!(bench.set("A0", all, &[]), report(Ground::Lock, 0, 0, 0), "a deletion");
}

#[test]
fn a_report_tells_a_whole_namespace_and_the_highest_bit() {
    let must_have = Attributes(0x8000_0000);
    let report = Report { ground: Ground::Attributes, place: 0, rank: 65, missing: 1, prohibited: 0, lowest_bit: 31 };
    let entry = Entry { must_have, ..Entry::new(G, Name::EMPTY) };
    let refused = Bench::with(&[entry]).set("A", Attributes::BS, &[1]);
    assert_eq!(refused, (Status::InvalidParameter, report));
    let refused = Bench::with(&[Entry { cant_have: Attributes::BS, ..entry }]).set("A", Attributes::BS, &[1]);
    assert_eq!(refused, (Status::InvalidParameter, Report { prohibited: 1, lowest_bit: 1, ..report }));
}

#[test]
fn no_ground_but_of_an_entry() {
    let mut bench = Bench::with(&three_grounds());
    let (bs, nv_bs) = (Attributes::BS, Attributes::NV | Attributes::BS);
    let append = bs | Attributes::APPEND;
    for (name, attributes, payload, status) in [
        ("", bs, &[1][..], Status::InvalidParameter),
        ("A0", bs, &[1; 1025], Status::InvalidParameter),
        ("A0", Attributes(8), &[1], Status::Unsupported),
        ("A0", Attributes::RT, &[1], Status::InvalidParameter),
        ("A0G", bs, &[], Status::NotFound),
        ("B", bs, &[7; 60], Status::Success),
        ("B", nv_bs, &[1], Status::InvalidParameter),
        ("B", append, &[1; 1000], Status::OutOfResources),
        ("B", bs, &[1; 1000], Status::OutOfResources),
        ("B", append, &[], Status::Success),
        ("B", bs, &[], Status::Success),
    ] {
        assert_eq!(bench.set(name, attributes, payload), (status, Report::NONE), "{name} {attributes}");
    }
    assert_eq!(calls::disable(&mut bench.switches), Status::Success);
    assert_eq!(bench.set("A0", bs, &[1, 2, 3]), (Status::Success, Report::NONE));
    bench.policy[POLICY_BYTES - 1] = 1;
    assert_eq!(bench.set("A0", bs, &[1, 2, 3]), (Status::VolumeCorrupted, Report::NONE));
}

/// NV, BS and RT, with which alone a set is granted after exit.
const ALL: Attributes = Attributes(7);

/// The stores of docs/RULES.md, 13, with these entries: `A` with NV and BS, `B` with BS and RT, `C` with all; after exit.
fn exited(entries: &[Entry]) -> Bench {
    let mut bench = Bench::with(&[]);
    for (name, attributes) in [("A", Attributes(3)), ("B", Attributes(6)), ("C", ALL)] {
        assert_eq!(bench.set(name, attributes, &[1]), (Status::Success, Report::NONE));
    }
    for entry in entries {
        assert_eq!(calls::register(&mut bench.policy, bench.switches, &entry.pack()), Status::Success);
    }
    assert_eq!(calls::exit(&mut bench.switches), Status::Success);
    bench
}

#[test]
fn after_exit_the_policy_is_closed_and_a_damaged_record_is_told_first() {
    let mut bench = exited(&three_grounds());
    let entry = Entry::new(G, name("D")).pack();
    for status in [Status::Unsupported, Status::VolumeCorrupted] {
        let (policy, switches) = (bench.policy, bench.switches);
        assert_eq!(calls::register(&mut bench.policy, switches, &entry), status);
        assert_eq!(calls::register(&mut bench.policy, switches, &entry[..43]), status, "a malformed one");
        let mut buffer = [7; 200];
        for room in [0, 200] {
            let dumped = calls::dump(&bench.policy, switches, &mut buffer[..room]);
            assert_eq!((dumped.status, dumped.length), (status, 0));
        }
        assert_eq!((buffer, bench.policy), ([7; 200], policy));
        assert_eq!(calls::lock(&mut bench.switches), Status::Unsupported);
        assert_eq!(calls::disable(&mut bench.switches), Status::Unsupported);
        assert_eq!(calls::exit(&mut bench.switches), Status::Unsupported);
        assert_eq!((bench.switches, calls::query(switches)), (switches, (Status::Success, true)));
        bench.policy[POLICY_BYTES - 1] = 1;
    }
}

#[test]
fn after_exit_a_read_shows_what_has_rt() {
    let bench = exited(&[]);
    let read = |name: &str| calls::read(&bench.nv, &bench.volatile, bench.switches, &G, &Name::new(name).unwrap());
    let shown = |name| (read(name).status, read(name).attributes, read(name).payload.to_vec());
    assert_eq!(shown("B"), (Status::Success, Attributes(6), vec![1]));
    assert_eq!(shown("C"), (Status::Success, ALL, vec![1]));
    let hidden = read("A");
    assert_eq!(hidden, read("D"));
    assert_eq!((hidden.status, hidden.attributes, hidden.payload), (Status::NotFound, Attributes::NONE, &[][..]));
    assert!(!hidden.non_volatile && hidden.offset == 0);
    assert_eq!(read("").status, Status::InvalidParameter);
    let damaged = calls::read(&[0; 4], &bench.volatile, bench.switches, &G, b"A\0");
    assert_eq!(damaged.status, Status::VolumeCorrupted);
}

#[test]
fn after_exit_a_set_needs_nv_bs_and_rt() {
    let mut bench = exited(&[]);
    let refused = (Status::InvalidParameter, Report::NONE);
    let granted = (Status::Success, Report::NONE);
    for bits in 0..8 {
        let plain = if bits == 7 { granted } else { refused };
        assert_eq!(bench.set("D", Attributes(bits | 0x40), &[1]), plain, "append, {bits}");
        let deletion = bits & 6 == 0;
        let expected = match (deletion, bits) {
            (true, _) => (Status::NotFound, Report::NONE),
            _ => plain,
        };
        assert_eq!(bench.set("D", Attributes(bits), &[1]), expected, "{bits}");
    }
    assert_eq!(bench.set("D", Attributes(0x47), &[]), granted, "an empty append");
    assert_eq!(bench.set("D", Attributes(8), &[1]), (Status::Unsupported, Report::NONE));
    for stored in ["A", "B"] {
        assert_eq!(bench.set(stored, ALL, &[1]), refused, "it is stored with other attributes: {stored}");
    }
}

#[test]
fn after_exit_a_deletion_needs_rt_and_nv() {
    let mut bench = exited(&[]);
    for (name, status) in [
        ("E", Status::NotFound),
        ("A", Status::NotFound),
        ("B", Status::WriteProtected),
        ("C", Status::Success),
        ("C", Status::NotFound),
    ] {
        assert_eq!(bench.set(name, Attributes::NONE, &[]), (status, Report::NONE), "{name}");
    }
}

/// The chosen entry is asked before step 5, also by what can no longer be read.
#[test]
fn after_exit_entries_are_enforced() {
    let on_state = |trigger: &str| Lock::OnVarState { namespace: G, name: name(trigger), value: 1 };
    let entry = |lock| Entry { lock, max_size: 1, ..Entry::new(G, Name::EMPTY) };
    let report = |ground| Report { ground, rank: 65, ..Report::NONE };
    for lock in [Lock::Now, on_state("A"), on_state("B")] {
        let mut bench = exited(&[entry(lock)]);
        let locked = (Status::WriteProtected, report(Ground::Lock));
        for name in ["A", "B", "C", "D"] {
            assert_eq!(bench.set(name, Attributes::NONE, &[]), locked, "{name}");
            assert_eq!(bench.set(name, ALL, &[2]), locked, "{name}");
            assert_eq!(bench.set(name, Attributes(3), &[2]), (Status::InvalidParameter, Report::NONE), "{name}");
        }
        assert_eq!(bench.set("C", ALL, &[1, 2]), (Status::InvalidParameter, report(Ground::Size)));
    }
}

/// An entry for this name or pattern of G.
fn locked(text: &str, lock: Lock) -> Entry {
    Entry { lock, ..Entry::new(G, name(text)) }
}

/// An entry that locks while the trigger, of G too, holds 1.
fn locked_by(text: &str, trigger: &str) -> Entry {
    locked(text, Lock::OnVarState { namespace: G, name: name(trigger), value: 1 })
}

#[test]
fn the_chosen_entry_settles() {
    assert!(!Bench::with(&[]).settled("A"));
    assert!(!Bench::with(&[locked("A", Lock::No), locked("", Lock::Now)]).settled("A"), "another entry is chosen");
    assert!(Bench::with(&[locked("#", Lock::Now), locked("", Lock::No)]).settled("A"));
    assert!(!Bench::with(&[locked("#", Lock::Now)]).settled("G"), "no hex digit");
    let once = [locked("A", Lock::OnCreate)];
    assert!(!Bench::with(&once).settled("A"));
    let mut bench = Bench::with(&once).with_set(&[("A", 0), ("B", 0)]);
    assert!(bench.settled("A") && !bench.settled("B"));
    assert_eq!(bench.set("A", Attributes(3), &[1]).0, Status::WriteProtected);
    bench = Bench::with(&once);
    assert_eq!(bench.set("A", Attributes::BS, &[1, 2]).0, Status::Success);
    assert!(bench.settled("A"), "in the volatile store");
}

#[test]
fn a_trigger_settles_if_it_holds_the_value_and_is_settled() {
    let entries = [locked_by("A", "T"), locked("T", Lock::OnCreate)];
    assert!(!Bench::with(&entries).settled("A"), "no trigger");
    let held = Bench::with(&entries).with_set(&[("T", 1)]);
    assert!(held.settled("A") && held.settled("T"));
    let other = Bench::with(&entries).with_set(&[("T", 0)]);
    assert!(!other.settled("A") && other.settled("T"));
    let mut longer = Bench::with(&entries);
    assert_eq!(longer.set("T", Attributes::BS, &[1, 1]).0, Status::Success);
    assert!(!longer.settled("A") && longer.settled("T"));
    let mut free = Bench::with(&entries[..1]).with_set(&[("A", 7), ("T", 1)]);
    assert_eq!(free.set("A", Attributes(3), &[8]).0, Status::WriteProtected);
    assert!(!free.settled("A"), "locked, but by what may change");
    assert_eq!(free.set("T", Attributes(3), &[0]).0, Status::Success);
    assert_eq!(free.set("A", Attributes(3), &[8]).0, Status::Success);
}

#[test]
fn no_loop_settles() {
    let mut one = Bench::with(&[locked_by("A", "A"), locked_by("B", "A")]).with_set(&[("A", 1)]);
    assert_eq!(one.set("A", Attributes(3), &[0]).0, Status::WriteProtected);
    assert!(!one.settled("A") && !one.settled("B"));
    let mut two = Bench::with(&[locked_by("A", "T")]).with_set(&[("A", 1), ("T", 1)]);
    assert_eq!(calls::register(&mut two.policy, two.switches, &locked_by("T", "A").pack()), Status::Success);
    assert!(!two.settled("A") && !two.settled("T"));
}

#[test]
fn of_settled_damage_is_told_before_a_bad_name() {
    let bench = Bench::with(&[locked("", Lock::Now)]);
    let refused = |status| Settled { status, settled: false };
    let mut damaged = bench.policy;
    damaged[POLICY_BYTES - 1] = 1;
    for name in [&b"A\0"[..], b""] {
        let corrupted = refused(Status::VolumeCorrupted);
        assert_eq!(calls::settled(&[0; 4], &bench.volatile, &bench.policy, &G, name), corrupted);
        assert_eq!(calls::settled(&bench.nv, &[0; 4], &bench.policy, &G, name), corrupted);
        assert_eq!(calls::settled(&bench.nv, &bench.volatile, &damaged, &G, name), corrupted);
        assert_eq!(calls::settled(&bench.nv, &bench.volatile, &bench.policy[1..], &G, name), corrupted);
    }
    for name in [&b""[..], b"A", b"A\0B", b"\0\0", b"A\0\0\0", &[0x41; 130]] {
        let answer = calls::settled(&bench.nv, &bench.volatile, &bench.policy, &G, name);
        assert_eq!(answer, refused(Status::InvalidParameter), "{name:?}");
    }
    let longest = calls::settled(&[], &[], &bench.policy, &G, &[0x41; 128]);
    assert_eq!(longest, Settled { status: Status::Success, settled: true });
}

#[test]
fn a_trigger_has_no_number_sign() {
    let (mut nv, mut volatile, mut policy) = ([0xFF; 128], [0xFF; 128], [0; POLICY_BYTES]);
    let mut engine = Engine::power_on(&mut nv, &mut volatile, &mut policy, true).unwrap();
    let entry = |trigger: &str| {
        let lock = Lock::OnVarState { namespace: G, name: name(trigger), value: 1 };
        Entry { lock, ..Entry::new(G, name("Boot####")) }.pack()
    };
    for trigger in ["", "#", "#T", "T#", "T#T", "Boot####"] {
        assert_eq!(engine.register(&entry(trigger)), Err(Status::InvalidParameter), "{trigger}");
    }
    assert_eq!(engine.dump(&mut []), Ok(0));
    assert_eq!(engine.register(&entry("T0")), Ok(()));
    assert_eq!(engine.register(&entry("T#")), Err(Status::InvalidParameter));
    let mut buffer = [0; 100];
    assert_eq!(engine.dump(&mut buffer), Ok(entry("T0").len()));
    assert_eq!(buffer[..entry("T0").len()], entry("T0")[..]);
}

#[test]
fn a_name_has_at_most_64_units() {
    assert_eq!(Name::new(&"A".repeat(64)).map(|name| name.len()), Some(128));
    assert_eq!(Name::new(&"A".repeat(65)), None);
}

#[test]
fn statuses_and_attributes_have_uefi_names() {
    assert_eq!(Status::from_number(8), Some(Status::WriteProtected));
    assert_eq!(Status::from_number(1), None);
    assert_eq!(Status::OutOfResources.name(), "OUT_OF_RESOURCES");
    assert_eq!(std::format!("{} {} {}", Attributes(0x43), Attributes(0), Attributes(0xC)), "NV|BS|APPEND 0 RT|0x8");
}

#[test]
fn grounds_have_numbers_and_names() {
    assert_eq!(Ground::ALL.map(Ground::number), [0, 1, 2, 3]);
    for ground in Ground::ALL {
        assert_eq!(Ground::from_number(ground.number()), Some(ground));
    }
    assert_eq!(Ground::from_number(4), None);
    assert_eq!(std::format!("{} {}", Ground::None, Ground::Attributes), "NONE ATTRIBUTES");
}
