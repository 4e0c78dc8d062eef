//! A rail that is locked while the variable "RailLock" holds 0. An absent "RailLock" locks nothing. A refused set tells
//! which entry refused it, and why. "RailLock" can be written once, so that the rail is then settled.

use varpolicy::{Attributes, Engine, Entry, Lock, Name, POLICY_BYTES, Refused, Status};

const BOARD: [u8; 16] =
    [0x5C, 0x67, 0xD1, 0x81, 0xF6, 0x86, 0xDF, 0x48, 0xBD, 0x95, 0x9A, 0x6E, 0x4F, 0x09, 0x25, 0xC3];

fn main() -> Result<(), Status> {
    let (mut nv, mut volatile, mut policy) = ([0xFF; 256], [0xFF; 256], [0; POLICY_BYTES]);
    let mut engine = Engine::power_on(&mut nv, &mut volatile, &mut policy, false)?;
    let (rail, rail_lock) = (name("Rail"), name("RailLock"));
    let attributes = Attributes::NV | Attributes::BS;

    let lock = Lock::OnVarState { namespace: BOARD, name: rail_lock, value: 0 };
    engine.register(&Entry { lock, ..Entry::new(BOARD, rail) }.pack())?;
    engine.register(&Entry { lock: Lock::OnCreate, ..Entry::new(BOARD, rail_lock) }.pack())?;
    engine.lock()?;

    engine.set(&BOARD, &rail, attributes, b"3.3 V")?;
    tell("RailLock absent, 1.8 V", engine.set(&BOARD, &rail, attributes, b"1.8 V"));
    engine.set(&BOARD, &rail_lock, Attributes::BS, &[0])?;
    tell("RailLock 00, 3.3 V", engine.set(&BOARD, &rail, attributes, b"3.3 V"));
    println!("the rail is settled: {}", engine.settled(&BOARD, &rail)?);
    println!("the rail is at {}", String::from_utf8_lossy(engine.read(&BOARD, &rail)?.payload));
    Ok(())
}

fn name(text: &str) -> Name {
    Name::new(text).expect("at most 64 units")
}

fn tell(what: &str, answer: Result<(), Refused>) {
    match answer {
        Ok(()) => println!("{what}: {}", Status::Success),
        Err(refused) => println!("{what}: {refused}"),
    }
}
