//! The C functions of libvarpolicy.a and the records that they pass, declared here and nowhere else
//! in Rust but for a test that needs raw pointers. Nothing checks these declarations against the archive
//! but the tests and the comparison; include/varpolicy.h has the same ones for C.

use crate::{MAX_NAME_UNITS, READER_BYTES, SwitchBytes};

#[repr(C)]
pub(crate) struct Started {
    pub(crate) status: u32,
    pub(crate) switches: SwitchBytes,
}

#[repr(C)]
pub(crate) struct Dumped {
    pub(crate) status: u32,
    pub(crate) length: usize,
}

#[repr(C)]
pub(crate) struct State {
    pub(crate) status: u32,
    pub(crate) enabled: bool,
}

#[repr(C)]
pub(crate) struct Found {
    pub(crate) status: u32,
    pub(crate) attributes: u32,
    pub(crate) non_volatile: bool,
    pub(crate) offset: usize,
    pub(crate) length: usize,
}

#[repr(C)]
pub(crate) struct Settled {
    pub(crate) status: u32,
    pub(crate) settled: bool,
}

#[repr(C)]
pub(crate) struct Report {
    pub(crate) ground: u32,
    pub(crate) place: u32,
    pub(crate) rank: u32,
    pub(crate) missing: u32,
    pub(crate) prohibited: u32,
    pub(crate) lowest_bit: u32,
}

#[repr(C)]
pub(crate) struct Written {
    pub(crate) status: u32,
    pub(crate) report: Report,
}

#[repr(C)]
pub(crate) struct Quarrel {
    pub(crate) status: u32,
    pub(crate) found: bool,
    pub(crate) earlier: u32,
    pub(crate) later: u32,
    pub(crate) name_length: usize,
}

#[repr(C)]
pub(crate) struct Verdict {
    pub(crate) status: u32,
    pub(crate) whole: bool,
    pub(crate) ended: bool,
    pub(crate) entries: u32,
    pub(crate) bytes: u32,
}

#[repr(C)]
pub(crate) struct Listing {
    pub(crate) status: u32,
    pub(crate) size: u32,
    pub(crate) lock: u32,
    pub(crate) rank: u32,
}

unsafe extern "C" {
    #[link_name = "varpolicy_power_on_e10"]
    pub(crate) fn varpolicy_power_on(
        nv: *const u8,
        nv_len: usize,
        volatile: *mut u8,
        volatile_len: usize,
        policy: *mut u8,
        policy_len: usize,
        disabling_allowed: u8,
    ) -> Started;

    #[link_name = "varpolicy_restart_e10"]
    pub(crate) fn varpolicy_restart(
        nv: *const u8,
        nv_len: usize,
        volatile: *const u8,
        volatile_len: usize,
        policy: *mut u8,
        policy_len: usize,
        disabling_allowed: u8,
    ) -> Started;

    #[link_name = "varpolicy_register_e10"]
    pub(crate) fn varpolicy_register(
        policy: *mut u8,
        policy_len: usize,
        switches: SwitchBytes,
        entry: *const u8,
        entry_len: usize,
    ) -> u32;

    #[link_name = "varpolicy_dump_e10"]
    pub(crate) fn varpolicy_dump(
        policy: *const u8,
        policy_len: usize,
        switches: SwitchBytes,
        buffer: *mut u8,
        buffer_len: usize,
    ) -> Dumped;

    #[link_name = "varpolicy_lock_e10"]
    pub(crate) fn varpolicy_lock(switches: *mut SwitchBytes) -> u32;

    #[link_name = "varpolicy_disable_e10"]
    pub(crate) fn varpolicy_disable(switches: *mut SwitchBytes) -> u32;

    pub(crate) fn varpolicy_exit(switches: *mut SwitchBytes) -> u32;

    #[link_name = "varpolicy_query_e10"]
    pub(crate) fn varpolicy_query(switches: SwitchBytes) -> State;

    #[link_name = "varpolicy_read_e10"]
    pub(crate) fn varpolicy_read(
        nv: *const u8,
        nv_len: usize,
        volatile: *const u8,
        volatile_len: usize,
        switches: SwitchBytes,
        namespace: *const [u8; 16],
        name: *const u8,
        name_len: usize,
    ) -> Found;

    #[link_name = "varpolicy_set_e10"]
    pub(crate) fn varpolicy_set(
        nv: *mut u8,
        nv_len: usize,
        volatile: *mut u8,
        volatile_len: usize,
        policy: *const u8,
        policy_len: usize,
        switches: SwitchBytes,
        namespace: *const [u8; 16],
        name: *const u8,
        name_len: usize,
        attributes: u32,
        payload: *const u8,
        payload_len: usize,
    ) -> Written;

    pub(crate) fn varpolicy_settled(
        nv: *const u8,
        nv_len: usize,
        volatile: *const u8,
        volatile_len: usize,
        policy: *const u8,
        policy_len: usize,
        namespace: *const [u8; 16],
        name: *const u8,
        name_len: usize,
    ) -> Settled;

    pub(crate) fn varpolicy_quarrels(dump: *const u8, dump_len: usize, name: *mut [u8; 2 * MAX_NAME_UNITS]) -> Quarrel;

    pub(crate) fn varpolicy_reader_start(reader: *mut [u8; READER_BYTES]) -> u32;

    pub(crate) fn varpolicy_reader_feed(reader: *mut [u8; READER_BYTES], piece: *const u8, piece_len: usize) -> u32;

    pub(crate) fn varpolicy_reader_verdict(reader: *const [u8; READER_BYTES]) -> Verdict;

    pub(crate) fn varpolicy_reader_entry(reader: *const [u8; READER_BYTES], at: usize) -> Listing;
}

// The layout that the C declarations have.
const _: () = {
    assert!(size_of::<SwitchBytes>() == 4);
    assert!(size_of::<Started>() == 8);
    assert!(size_of::<Dumped>() == 16);
    assert!(size_of::<State>() == 8);
    assert!(size_of::<Found>() == 32);
    assert!(size_of::<Settled>() == 8);
    assert!(size_of::<Report>() == 24);
    assert!(size_of::<Written>() == 28);
    assert!(size_of::<Quarrel>() == 24);
    assert!(size_of::<Verdict>() == 16);
    assert!(size_of::<Listing>() == 16);
};
