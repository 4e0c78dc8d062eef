//! An engine that is started anew: refused, it keeps its own switches and its history goes on. An engine that has exited.
//! A variable that is settled. An engine that refuses a set, and the sentence that it tells.

use varpolicy::{
    Attributes, Engine, Entry, Ground, Lock, Name, NotDumped, POLICY_BYTES, Refused, Report, Status, Switches,
};

const G: [u8; 16] = [0x5C, 0x67, 0xD1, 0x81, 0xF6, 0x86, 0xDF, 0x48, 0xBD, 0x95, 0x9A, 0x6E, 0x4F, 0x09, 0x25, 0xC3];
const FRESH: Switches = Switches { enabled: true, locked: false, disabling_allowed: false, exited: false };
const USED: Switches = Switches { enabled: false, locked: true, disabling_allowed: true, exited: false };
const EXITED: Switches = Switches { exited: true, ..USED };

/// What an engine is lent.
struct Lent {
    nv: [u8; 128],
    volatile: [u8; 128],
    policy: [u8; POLICY_BYTES],
}

impl Lent {
    fn erased() -> Lent {
        Lent { nv: [0xFF; 128], volatile: [0xFF; 128], policy: [0; POLICY_BYTES] }
    }

    /// Left by an engine with one entry and a variable in each store, which is then disabled and locked.
    fn used() -> Lent {
        let mut lent = Lent::erased();
        let mut engine = Engine::power_on(&mut lent.nv, &mut lent.volatile, &mut lent.policy, true).unwrap();
        engine.register(&Entry::new(G, Name::EMPTY).pack()).unwrap();
        engine.set(&G, &name("A"), Attributes::NV | Attributes::BS, &[1]).unwrap();
        engine.set(&G, &name("B"), Attributes::BS, &[2]).unwrap();
        engine.disable().unwrap();
        engine.lock().unwrap();
        assert_eq!(engine.switches(), USED);
        lent
    }

    fn resumed(&mut self) -> Engine<'_> {
        Engine::resume(&mut self.nv, &mut self.volatile, &mut self.policy, USED)
    }
}

fn name(text: &str) -> Name {
    Name::new(text).unwrap()
}

/// The engine as `Lent::used` left it, but for the stores.
fn expect_used(engine: &mut Engine) {
    assert_eq!((engine.switches(), engine.is_enabled()), (USED, false));
    assert_eq!(engine.dump(&mut [0; 100]), Ok(44));
    assert_eq!(engine.register(&Entry::new(G, name("C")).pack()), Err(Status::WriteProtected));
    assert_eq!(engine.disable(), Err(Status::AlreadyStarted));
}

#[test]
fn an_engine_resumes_with_its_switches() {
    let mut lent = Lent::used();
    let mut engine = lent.resumed();
    expect_used(&mut engine);
    assert_eq!(engine.read(&G, &name("A")).unwrap().payload, [1]);
    assert_eq!(engine.read(&G, &name("B")).unwrap().payload, [2]);
}

#[test]
fn a_restart_keeps_the_stores_and_empties_the_policy_record() {
    let mut lent = Lent::used();
    let mut engine = lent.resumed();
    engine.restart_again(false).unwrap();
    assert_eq!((engine.switches(), engine.dump(&mut [])), (FRESH, Ok(0)));
    assert_eq!(engine.read(&G, &name("A")).unwrap().payload, [1]);
    assert_eq!(engine.read(&G, &name("B")).unwrap().payload, [2]);
}

#[test]
fn a_power_on_wipes_the_volatile_store_and_the_policy_record() {
    let mut lent = Lent::used();
    let mut engine = lent.resumed();
    engine.power_on_again(false).unwrap();
    assert_eq!((engine.switches(), engine.dump(&mut [])), (FRESH, Ok(0)));
    assert_eq!(engine.read(&G, &name("A")).unwrap().payload, [1]);
    assert_eq!(engine.read(&G, &name("B")), Err(Status::NotFound));
}

#[test]
fn a_refused_restart_leaves_the_engine_its_switches() {
    let mut lent = Lent::used();
    lent.volatile[0] = 0;
    let refused = Engine::restart(&mut lent.nv, &mut lent.volatile, &mut lent.policy, false);
    assert_eq!(refused.err(), Some(Status::VolumeCorrupted));
    let mut engine = lent.resumed();
    expect_used(&mut engine);
    assert_eq!(engine.restart_again(false), Err(Status::VolumeCorrupted));
    expect_used(&mut engine);
    assert_eq!(engine.read(&G, &name("A")), Err(Status::VolumeCorrupted));
    engine.power_on_again(false).unwrap();
    assert_eq!(engine.switches(), FRESH);
}

#[test]
fn a_refused_power_on_leaves_the_engine_its_switches() {
    let mut lent = Lent::used();
    lent.nv[0] = 0;
    let volatile = lent.volatile;
    let refused = Engine::power_on(&mut lent.nv, &mut lent.volatile, &mut lent.policy, false);
    assert_eq!(refused.err(), Some(Status::VolumeCorrupted));
    let mut engine = lent.resumed();
    assert_eq!(engine.power_on_again(false), Err(Status::VolumeCorrupted));
    expect_used(&mut engine);
    assert_eq!(lent.volatile, volatile);
}

/// The engine as `Lent::used` left it, but for the stores and after exit.
fn expect_exited(engine: &mut Engine) {
    assert_eq!((engine.switches(), engine.has_exited(), engine.is_enabled()), (EXITED, true, false));
    assert_eq!(engine.dump(&mut [0; 100]), Err(NotDumped { status: Status::Unsupported, needed: 0 }));
    assert_eq!(engine.register(&Entry::new(G, name("C")).pack()), Err(Status::Unsupported));
    assert_eq!(engine.lock(), Err(Status::Unsupported));
    assert_eq!(engine.disable(), Err(Status::Unsupported));
    assert_eq!(engine.exit(), Err(Status::Unsupported));
}

#[test]
fn after_exit_an_engine_shows_what_has_rt() {
    let mut lent = Lent::used();
    let mut engine = lent.resumed();
    let all = Attributes::NV | Attributes::BS | Attributes::RT;
    engine.set(&G, &name("C"), all, &[3]).unwrap();
    assert!(!engine.has_exited());
    engine.exit().unwrap();
    expect_exited(&mut engine);
    assert_eq!(engine.read(&G, &name("C")).unwrap().payload, [3]);
    assert_eq!(engine.read(&G, &name("A")), Err(Status::NotFound));
    assert_eq!(engine.read(&G, &name("B")), Err(Status::NotFound));
    engine.set(&G, &name("C"), all, &[4]).unwrap();
    engine.delete(&G, &name("C")).unwrap();
    let told = |refused: Result<(), Refused>| refused.unwrap_err().to_string();
    assert_eq!(told(engine.set(&G, &name("C"), Attributes::BS, &[4])), "INVALID_PARAMETER");
    assert_eq!(told(engine.delete(&G, &name("A"))), "NOT_FOUND");
}

#[test]
fn a_granted_start_ends_what_an_exit_began() {
    for power_on in [true, false] {
        let mut lent = Lent::used();
        let mut engine = lent.resumed();
        engine.exit().unwrap();
        match power_on {
            true => engine.power_on_again(false).unwrap(),
            false => engine.restart_again(false).unwrap(),
        }
        assert_eq!((engine.switches(), engine.dump(&mut [])), (FRESH, Ok(0)));
        assert_eq!(engine.read(&G, &name("A")).unwrap().payload, [1]);
        engine.exit().unwrap();
    }
}

#[test]
fn a_refused_start_leaves_the_engine_exited() {
    let mut lent = Lent::used();
    lent.nv[0] = 0;
    let mut engine = Engine::resume(&mut lent.nv, &mut lent.volatile, &mut lent.policy, EXITED);
    assert_eq!(engine.power_on_again(true), Err(Status::VolumeCorrupted));
    expect_exited(&mut engine);
    assert_eq!(engine.restart_again(true), Err(Status::VolumeCorrupted));
    expect_exited(&mut engine);
}

/// An engine is made anew from a dump that was made before the exit, as often as wanted.
#[test]
fn an_engine_that_has_exited_is_rebuilt_from_an_earlier_dump() {
    let mut lent = Lent::used();
    let mut buffer = [0; 100];
    let length = lent.resumed().dump(&mut buffer).unwrap();
    let mut engine = lent.resumed();
    engine.exit().unwrap();
    for _ in 0..2 {
        let old = engine.switches();
        engine.restart_again(old.disabling_allowed).unwrap();
        engine.register(&buffer[..length]).unwrap();
        engine.disable().unwrap();
        engine.lock().unwrap();
        engine.exit().unwrap();
        expect_exited(&mut engine);
    }
    let as_it_was = Lent::used();
    assert!(lent.nv == as_it_was.nv && lent.volatile == as_it_was.volatile && lent.policy == as_it_was.policy);
}

/// `A`, which is locked while `T` holds 1, and `T`, which is written once.
fn with_settled(lent: &mut Lent) -> Result<Engine<'_>, Status> {
    let mut engine = Engine::power_on(&mut lent.nv, &mut lent.volatile, &mut lent.policy, true)?;
    let lock = Lock::OnVarState { namespace: G, name: name("T"), value: 1 };
    engine.register(&Entry { lock, ..Entry::new(G, name("A")) }.pack())?;
    engine.register(&Entry { lock: Lock::OnCreate, ..Entry::new(G, name("T")) }.pack())?;
    engine.set(&G, &name("A"), Attributes(7), &[1])?;
    engine.set(&G, &name("T"), Attributes::BS, &[1])?;
    Ok(engine)
}

#[test]
fn what_is_settled_stays_while_the_engine_is_enabled_and_locked() -> Result<(), Status> {
    let mut lent = Lent::erased();
    let mut engine = with_settled(&mut lent)?;
    engine.lock()?;
    for exited in [false, true] {
        for variable in ["A", "T"] {
            assert_eq!(engine.settled(&G, &name(variable)), Ok(true));
            let refused = engine.delete(&G, &name(variable)).unwrap_err();
            assert_eq!((refused.status, refused.report.ground), (Status::WriteProtected, Ground::Lock));
            assert!(engine.set(&G, &name(variable), Attributes(7), &[0]).is_err());
        }
        assert!(engine.disable().is_err() && engine.register(&Entry::new(G, name("B")).pack()).is_err());
        assert_eq!(engine.read(&G, &name("A"))?.payload, [1]);
        assert_eq!(engine.exit().is_ok(), !exited);
    }
    engine.restart_again(true)?;
    assert_eq!(engine.settled(&G, &name("A")), Ok(false));
    Ok(())
}

/// The switches are not asked, and a yes of an engine that is disabled holds nothing.
#[test]
fn a_disabled_engine_answers_by_its_entries() -> Result<(), Status> {
    let mut lent = Lent::erased();
    let mut engine = with_settled(&mut lent)?;
    engine.disable()?;
    engine.lock()?;
    assert_eq!(engine.settled(&G, &name("A")), Ok(true));
    engine.set(&G, &name("T"), Attributes::BS, &[2])?;
    assert_eq!((engine.settled(&G, &name("A")), engine.settled(&G, &name("T"))), (Ok(false), Ok(true)));
    assert_eq!(engine.settled(&G, &[]), Err(Status::InvalidParameter));
    lent.nv[0] = 0;
    assert_eq!(lent.resumed().settled(&G, &[]), Err(Status::VolumeCorrupted));
    Ok(())
}

/// A set and a delete of `A` by an engine with this entry; the first that is refused.
fn refused(entry: Entry, attributes: Attributes) -> Result<(), Refused> {
    let mut lent = Lent::erased();
    let mut engine = Engine::power_on(&mut lent.nv, &mut lent.volatile, &mut lent.policy, true).unwrap();
    engine.register(&entry.pack()).unwrap();
    engine.set(&G, &name("A"), attributes, &[1])?;
    engine.delete(&G, &name("A"))
}

#[test]
fn a_refused_set_is_a_sentence() {
    let (all, bs) = (Entry::new(G, Name::EMPTY), Attributes::BS);
    let sentence = |entry| refused(entry, bs).unwrap_err().to_string();
    assert_eq!(refused(all, bs), Ok(()));
    assert_eq!(
        sentence(Entry { min_size: 2, ..Entry::new(G, name("A")) }),
        "INVALID_PARAMETER: the size is not one that entry 0 (rank 0) allows"
    );
    assert_eq!(
        sentence(Entry { must_have: Attributes::NV, ..all }),
        "INVALID_PARAMETER: entry 0 (rank 65, whole namespace) requires 1 attribute bit that is missing, bit 0 (NV)"
    );
    assert_eq!(
        sentence(Entry { cant_have: bs, ..all }),
        "INVALID_PARAMETER: entry 0 (rank 65, whole namespace) prohibits 1 attribute bit that is set, bit 1 (BS)"
    );
    assert_eq!(
        sentence(Entry { must_have: Attributes(0x8000_0008), ..Entry::new(G, name("A")) }),
        "INVALID_PARAMETER: entry 0 (rank 0) requires 2 attribute bits that are missing, the lowest is bit 3"
    );
    assert_eq!(
        sentence(Entry { must_have: Attributes::NV | Attributes::RT, cant_have: bs, ..Entry::new(G, name("A")) }),
        "INVALID_PARAMETER: entry 0 (rank 0) requires 2 attribute bits that are missing and prohibits 1 that is set, \
         the lowest is bit 0 (NV)"
    );
    for lock in [Lock::Now, Lock::OnCreate] {
        let locked = "WRITE_PROTECTED: entry 0 (rank 65, whole namespace) locks the variable";
        assert_eq!(sentence(Entry { lock, ..all }), locked);
    }
    assert_eq!(refused(all, Attributes::RT).unwrap_err().to_string(), "INVALID_PARAMETER");
}

#[test]
fn more_bits_than_one_are_counted() {
    let report = Report { ground: Ground::Attributes, place: 3, rank: 4, missing: 1, prohibited: 2, lowest_bit: 6 };
    let told = |report| Refused { status: Status::InvalidParameter, report }.to_string();
    assert_eq!(
        told(report),
        "INVALID_PARAMETER: entry 3 (rank 4) requires 1 attribute bit that is missing and prohibits 2 that are set, \
         the lowest is bit 6 (APPEND)"
    );
    assert_eq!(
        told(Report { missing: 0, lowest_bit: 1, ..report }),
        "INVALID_PARAMETER: entry 3 (rank 4) prohibits 2 attribute bits that are set, the lowest is bit 1 (BS)"
    );
}

#[test]
fn a_refused_set_is_an_error_and_has_a_status() {
    fn status_alone() -> Result<(), Status> {
        Ok(refused(Entry { lock: Lock::Now, ..Entry::new(G, Name::EMPTY) }, Attributes::BS)?)
    }
    assert_eq!(status_alone(), Err(Status::WriteProtected));
    let error: Box<dyn std::error::Error> = Box::new(refused(Entry::new(G, name("B")), Attributes(8)).unwrap_err());
    assert_eq!(error.to_string(), "UNSUPPORTED");
}
