//! Every value of every byte of the switches answers by the rule, and a refused lock, disable or exit makes no store.

use std::os::unix::process::ExitStatusExt;
use std::process::Command;
use std::ptr;
use varpolicy::{Attributes, Engine, Entry, Ground, Lock, Name, POLICY_BYTES, Status, SwitchBytes, Switches, calls};

const G: [u8; 16] = [0x5C, 0x67, 0xD1, 0x81, 0xF6, 0x86, 0xDF, 0x48, 0xBD, 0x95, 0x9A, 0x6E, 0x4F, 0x09, 0x25, 0xC3];

/// The switches of these bytes, in order.
fn of_bytes([enabled, locked, disabling_allowed, exited]: [u8; 4]) -> SwitchBytes {
    SwitchBytes { enabled, locked, disabling_allowed, exited }
}

/// Every value in each of the four places, beside every setting of the other three by 0 and 1.
fn every_byte() -> impl Iterator<Item = SwitchBytes> {
    let settings = (0..16).map(|bits| [bits >> 3 & 1, bits >> 2 & 1, bits >> 1 & 1, bits & 1]);
    settings.flat_map(|setting| {
        (0..4).flat_map(move |place| {
            (0..=255).map(move |value| {
                let mut bytes = setting;
                bytes[place] = value;
                of_bytes(bytes)
            })
        })
    })
}

/// The rule, in words of its own.
fn enforced(bytes: SwitchBytes) -> bool {
    !matches!(bytes.enabled, 0)
}

fn closed(bytes: SwitchBytes) -> bool {
    !matches!(bytes.locked, 0)
}

fn may_disable(bytes: SwitchBytes) -> bool {
    matches!(bytes.disabling_allowed, 1)
}

fn gone(bytes: SwitchBytes) -> bool {
    !matches!(bytes.exited, 0)
}

#[test]
fn bytes_mean_what_the_rule_says() {
    for bytes in every_byte() {
        let meant = Switches {
            enabled: enforced(bytes),
            locked: closed(bytes),
            disabling_allowed: may_disable(bytes),
            exited: gone(bytes),
        };
        assert_eq!(Switches::from(bytes), meant);
        assert_eq!(Switches::from(SwitchBytes::from(meant)), meant);
    }
}

#[test]
fn a_lock_closes_what_is_open_and_writes_one_byte() {
    for bytes in every_byte() {
        let mut lent = bytes;
        let answer = calls::lock(&mut lent);
        let expected = match (gone(bytes), closed(bytes)) {
            (true, _) => (Status::Unsupported, bytes),
            (false, true) => (Status::WriteProtected, bytes),
            (false, false) => (Status::Success, SwitchBytes { locked: 1, ..bytes }),
        };
        assert_eq!((answer, lent), expected, "{bytes:?}");
    }
}

#[test]
fn a_disable_needs_leave_and_writes_one_byte() {
    for bytes in every_byte() {
        let mut lent = bytes;
        let answer = calls::disable(&mut lent);
        let expected = match (enforced(bytes), closed(bytes), may_disable(bytes)) {
            _ if gone(bytes) => (Status::Unsupported, bytes),
            (false, _, _) => (Status::AlreadyStarted, bytes),
            (true, false, true) => (Status::Success, SwitchBytes { enabled: 0, ..bytes }),
            _ => (Status::WriteProtected, bytes),
        };
        assert_eq!((answer, lent), expected, "{bytes:?}");
    }
}

#[test]
fn an_exit_is_made_once_whatever_the_others_are_and_writes_one_byte() {
    for bytes in every_byte() {
        let mut lent = bytes;
        let answer = calls::exit(&mut lent);
        let expected = match gone(bytes) {
            true => (Status::Unsupported, bytes),
            false => (Status::Success, SwitchBytes { exited: 1, ..bytes }),
        };
        assert_eq!((answer, lent), expected, "{bytes:?}");
    }
}

#[test]
fn a_query_tells_whether_entries_are_enforced() {
    for bytes in every_byte() {
        assert_eq!(calls::query(bytes), (Status::Success, enforced(bytes)), "{bytes:?}");
    }
}

#[test]
fn a_registration_is_refused_where_the_engine_has_exited_or_is_closed() {
    let entry = Entry::new(G, Name::EMPTY).pack();
    for bytes in every_byte() {
        let mut policy = [0; POLICY_BYTES];
        let expected = match (gone(bytes), closed(bytes)) {
            (true, _) => Status::Unsupported,
            (false, true) => Status::WriteProtected,
            (false, false) => Status::Success,
        };
        assert_eq!(calls::register(&mut policy, bytes, &entry), expected, "{bytes:?}");
        assert_eq!(policy[..entry.len()] == entry[..], expected == Status::Success, "{bytes:?}");
    }
}

/// The policy record with one entry, which locks all of `G`.
fn all_locked() -> [u8; POLICY_BYTES] {
    let mut policy = [0; POLICY_BYTES];
    let entry = Entry { lock: Lock::Now, ..Entry::new(G, Name::EMPTY) }.pack();
    policy[..entry.len()].copy_from_slice(&entry);
    policy
}

#[test]
fn a_dump_is_refused_where_the_engine_has_exited_and_then_tells_no_length() {
    let policy = all_locked();
    for bytes in every_byte() {
        let mut buffer = [7; 50];
        let dumped = calls::dump(&policy, bytes, &mut buffer);
        let short = calls::dump(&policy, bytes, &mut []);
        let (expected, expected_short) = match gone(bytes) {
            true => ((Status::Unsupported, 0), (Status::Unsupported, 0)),
            false => ((Status::Success, 44), (Status::BufferTooSmall, 44)),
        };
        assert_eq!((dumped.status, dumped.length), expected, "{bytes:?}");
        assert_eq!((short.status, short.length), expected_short, "{bytes:?}");
        assert_eq!(buffer == [7; 50], gone(bytes), "{bytes:?}");
    }
}

#[test]
fn a_read_needs_rt_where_the_engine_has_exited() {
    let (mut nv, mut volatile, mut policy) = ([0xFF; 40], [0xFF; 40], [0; POLICY_BYTES]);
    let mut engine = Engine::power_on(&mut nv, &mut volatile, &mut policy, false).unwrap();
    engine.set(&G, b"A\0", Attributes::NV | Attributes::BS, &[1]).unwrap();
    engine.set(&G, b"B\0", Attributes::BS | Attributes::RT, &[2]).unwrap();
    for bytes in every_byte() {
        let status = |name: &[u8]| calls::read(&nv, &volatile, bytes, &G, name).status;
        let hidden = if gone(bytes) { Status::NotFound } else { Status::Success };
        let answers = [status(b"A\0"), status(b"B\0"), status(b"C\0"), status(b"")];
        assert_eq!(answers, [hidden, Status::Success, Status::NotFound, Status::InvalidParameter], "{bytes:?}");
    }
}

#[test]
fn a_set_is_held_to_the_entries_where_they_are_enforced() {
    let policy = all_locked();
    for bytes in every_byte() {
        let (mut nv, mut volatile) = ([0xFF; 40], [0xFF; 40]);
        let request = calls::Request { namespace: &G, name: b"A\0", attributes: Attributes::BS, payload: &[1] };
        let written = calls::set(&mut nv, &mut volatile, &policy, bytes, request);
        let expected = match (gone(bytes), enforced(bytes)) {
            (true, _) => (Status::InvalidParameter, Ground::None),
            (false, true) => (Status::WriteProtected, Ground::Lock),
            (false, false) => (Status::Success, Ground::None),
        };
        assert_eq!((written.status, written.report.ground), expected, "{bytes:?}");
        assert_eq!(volatile == [0xFF; 40], expected.0 != Status::Success, "{bytes:?}");
        let attributes = Attributes::NV | Attributes::BS | Attributes::RT;
        let written = calls::set(&mut nv, &mut [], &policy, bytes, calls::Request { attributes, ..request });
        assert_eq!(written.status == Status::Success, !enforced(bytes), "{bytes:?}");
    }
}

#[test]
fn a_start_gives_leave_for_1_alone_and_hands_back_0_and_1() {
    let nv = [0xFF; 8];
    for leave in 0..=255_u8 {
        let (mut volatile, mut policy) = ([0xFF; 8], [0; POLICY_BYTES]);
        let fresh = of_bytes([1, 0, u8::from(matches!(leave, 1)), 0]);
        for started in [
            calls::power_on(&nv, &mut volatile, &mut policy, leave),
            calls::restart(&nv, &volatile, &mut policy, leave),
        ] {
            assert_eq!((started.status, started.switches), (Status::Success, fresh), "{leave}");
        }
        let refused = of_bytes([1, 1, 0, 0]);
        for started in [
            calls::power_on(&[0; 4], &mut volatile, &mut policy, leave),
            calls::restart(&[0; 4], &volatile, &mut policy, leave),
        ] {
            assert_eq!((started.status, started.switches), (Status::VolumeCorrupted, refused), "{leave}");
        }
    }
}

// The three calls with raw pointers, since no `&mut` may stand for a page that is read-only; and libc's pages.
unsafe extern "C" {
    #[link_name = "varpolicy_lock_e10"]
    fn varpolicy_lock(switches: *mut SwitchBytes) -> u32;
    #[link_name = "varpolicy_disable_e10"]
    fn varpolicy_disable(switches: *mut SwitchBytes) -> u32;
    fn varpolicy_exit(switches: *mut SwitchBytes) -> u32;
    fn mmap(address: *mut u8, length: usize, protection: i32, flags: i32, file: i32, offset: i64) -> *mut u8;
    fn mprotect(address: *mut u8, length: usize, protection: i32) -> i32;
}

const READ: i32 = 1;
const READ_AND_WRITE: i32 = 3;
const PRIVATE_WITHOUT_FILE: i32 = 0x22;
const PAGE: usize = 4096;
const MAP_FAILED: *mut u8 = ptr::without_provenance_mut(usize::MAX);

/// The status of a call on these bytes at the end of a page that is read-only meanwhile.
fn on_a_read_only_page(call: unsafe extern "C" fn(*mut SwitchBytes) -> u32, bytes: SwitchBytes) -> u32 {
    // SAFETY: the page is new and this function's alone, holds the bytes at its end, and is never given back.
    unsafe {
        let page = mmap(ptr::null_mut(), PAGE, READ_AND_WRITE, PRIVATE_WITHOUT_FILE, -1, 0);
        assert_ne!(page, MAP_FAILED);
        let switches = page.add(PAGE - size_of::<SwitchBytes>()).cast::<SwitchBytes>();
        switches.write(bytes);
        assert_eq!(mprotect(page, PAGE, READ), 0);
        let status = call(switches);
        assert_eq!(switches.read(), bytes);
        status
    }
}

#[test]
fn a_refused_lock_disable_or_exit_makes_no_store() {
    for set in [1, 2, 255] {
        assert_eq!(on_a_read_only_page(varpolicy_lock, of_bytes([1, set, 1, 0])), 8);
        assert_eq!(on_a_read_only_page(varpolicy_disable, of_bytes([1, set, 1, 0])), 8);
        for call in [varpolicy_lock, varpolicy_disable, varpolicy_exit] {
            assert_eq!(on_a_read_only_page(call, of_bytes([1, 0, 1, set])), 3);
            assert_eq!(on_a_read_only_page(call, of_bytes([0, 1, 0, set])), 3);
        }
    }
    for leave in [0, 2, 255] {
        assert_eq!(on_a_read_only_page(varpolicy_disable, of_bytes([1, 0, leave, 0])), 8);
    }
    assert_eq!(on_a_read_only_page(varpolicy_disable, of_bytes([0, 0, 1, 0])), 20);
}

// Run by the test below, each in a process of its own.

#[test]
#[ignore = "ends by a fault"]
fn lock_on_a_read_only_page() {
    on_a_read_only_page(varpolicy_lock, of_bytes([1, 0, 1, 0]));
}

#[test]
#[ignore = "ends by a fault"]
fn disable_on_a_read_only_page() {
    on_a_read_only_page(varpolicy_disable, of_bytes([1, 0, 1, 0]));
}

#[test]
#[ignore = "ends by a fault"]
fn exit_on_a_read_only_page() {
    on_a_read_only_page(varpolicy_exit, of_bytes([1, 0, 1, 0]));
}

/// So the test of refused calls sees a store where there is one.
#[test]
fn a_granted_lock_disable_or_exit_stores() {
    const SEGMENTATION_FAULT: i32 = 11;
    let program = std::env::current_exe().unwrap();
    for test in ["lock_on_a_read_only_page", "disable_on_a_read_only_page", "exit_on_a_read_only_page"] {
        let ended = Command::new(&program).args(["--exact", test, "--ignored", "--quiet"]).output().unwrap().status;
        assert_eq!(ended.signal(), Some(SEGMENTATION_FAULT), "{test}: {ended}");
    }
}
