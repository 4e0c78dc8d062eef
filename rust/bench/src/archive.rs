//! The functions of libbench_parts.a, declared here and nowhere else in Rust; crates/bench_parts has their contracts.
//! Nothing checks these declarations against the archive but the comparison with ordinary Rust before each measurement.

use varpolicy::Namespace;

/// What a part found: which case, 0 for nothing, and the two numbers of that case.
#[repr(C)]
#[derive(Clone, Copy, PartialEq, Eq, Debug)]
pub struct Numbers {
    /// Which case.
    pub kind: u32,
    /// Its first number.
    pub first: usize,
    /// Its second number.
    pub second: usize,
}

const _: () = assert!(size_of::<Numbers>() == 24);

unsafe extern "C" {
    fn bench_check_policy(policy: *const u8, policy_len: usize) -> Numbers;
    fn bench_choose(
        policy: *const u8,
        policy_len: usize,
        namespace: *const [u8; 16],
        name: *const u8,
        name_len: usize,
    ) -> Numbers;
    fn bench_check_stores(nv: *const u8, nv_len: usize, volatile: *const u8, volatile_len: usize) -> Numbers;
    fn bench_find(
        nv: *const u8,
        nv_len: usize,
        volatile: *const u8,
        volatile_len: usize,
        namespace: *const [u8; 16],
        name: *const u8,
        name_len: usize,
    ) -> Numbers;
    fn bench_slot(record: *const u8, record_len: usize) -> usize;
    fn bench_match(pattern: *const u8, pattern_len: usize, name: *const u8, name_len: usize) -> bool;
    fn bench_fill(bytes: *mut u8, len: usize, at: usize, count: usize, value: u8);
    fn bench_copy(bytes: *mut u8, len: usize, at: usize, source: *const u8, source_len: usize);
    fn bench_move(bytes: *mut u8, len: usize, from: usize, to: usize, count: usize);
}

/// The check of a policy record.
pub fn check_policy(policy: &[u8]) -> Numbers {
    // SAFETY: the pointer and the length are of one live slice.
    unsafe { bench_check_policy(policy.as_ptr(), policy.len()) }
}

/// The check, and then the choice; with an empty name the check alone.
pub fn choose(policy: &[u8], namespace: &Namespace, name: &[u8]) -> Numbers {
    // SAFETY: each pointer and length is of one live slice.
    unsafe { bench_choose(policy.as_ptr(), policy.len(), namespace, name.as_ptr(), name.len()) }
}

/// The check of the two stores.
pub fn check_stores(nv: &[u8], volatile: &[u8]) -> Numbers {
    // SAFETY: each pointer and length is of one live slice.
    unsafe { bench_check_stores(nv.as_ptr(), nv.len(), volatile.as_ptr(), volatile.len()) }
}

/// The check, and then the search for a variable; with an empty name the check alone.
pub fn find(nv: &[u8], volatile: &[u8], namespace: &Namespace, name: &[u8]) -> Numbers {
    // SAFETY: each pointer and length is of one live slice.
    unsafe {
        bench_find(nv.as_ptr(), nv.len(), volatile.as_ptr(), volatile.len(), namespace, name.as_ptr(), name.len())
    }
}

/// The slot, in the filter of the check of the stores, of the non-volatile record that the bytes begin with.
pub fn slot(record: &[u8]) -> usize {
    // SAFETY: the pointer and the length are of one live slice.
    unsafe { bench_slot(record.as_ptr(), record.len()) }
}

/// Whether an entry's name matches a variable's.
pub fn matches(pattern: &[u8], name: &[u8]) -> bool {
    // SAFETY: each pointer and length is of one live slice.
    unsafe { bench_match(pattern.as_ptr(), pattern.len(), name.as_ptr(), name.len()) }
}

/// Sets `count` bytes from `at` on to `value`. Out of bounds, this and the next two change nothing.
pub fn fill(bytes: &mut [u8], at: usize, count: usize, value: u8) {
    // SAFETY: the pointer and the length are of one live slice.
    unsafe { bench_fill(bytes.as_mut_ptr(), bytes.len(), at, count, value) }
}

/// Copies `source` to `at`.
pub fn copy(bytes: &mut [u8], at: usize, source: &[u8]) {
    // SAFETY: each pointer and length is of one live slice, the mutable one apart from the other.
    unsafe { bench_copy(bytes.as_mut_ptr(), bytes.len(), at, source.as_ptr(), source.len()) }
}

/// Moves `count` bytes from `from` to `to`.
pub fn move_within(bytes: &mut [u8], from: usize, to: usize, count: usize) {
    // SAFETY: the pointer and the length are of one live slice.
    unsafe { bench_move(bytes.as_mut_ptr(), bytes.len(), from, to, count) }
}

#[cfg(test)]
mod tests {
    use super::*;
    use varpolicy::POLICY_BYTES;

    const NOTHING: Numbers = Numbers { kind: 0, first: 0, second: 0 };

    #[test]
    fn what_is_not_sound_is_refused() {
        let damaged = [1; POLICY_BYTES];
        assert_eq!(check_policy(&damaged), NOTHING);
        assert_eq!(choose(&damaged, &[7; 16], b"A\0"), NOTHING);
        assert_eq!(check_stores(&damaged, &[]), NOTHING);
        assert_eq!(find(&[], &damaged, &[7; 16], b"A\0"), NOTHING);
        assert_eq!(slot(&damaged), 0);
    }

    #[test]
    fn nothing_is_written_out_of_bounds() {
        let mut bytes = [1, 2, 3, 4];
        fill(&mut bytes, 2, 3, 0);
        fill(&mut bytes, usize::MAX, 2, 0);
        copy(&mut bytes, 3, &[5, 6]);
        move_within(&mut bytes, 0, 2, 3);
        move_within(&mut bytes, 2, 0, 3);
        assert_eq!(bytes, [1, 2, 3, 4]);
        move_within(&mut bytes, 1, 0, 3);
        assert_eq!(bytes, [2, 3, 4, 4]);
        move_within(&mut bytes, 0, 1, 3);
        assert_eq!(bytes, [2, 2, 3, 4]);
    }
}
