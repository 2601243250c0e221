//! Slices that a caller in C passes as a pointer and a length. The pointer may be null if the
//! length is 0.

use core::slice;

/// Returns `true` if a slice can have this length: its values have at most `isize::MAX` bytes. A
/// program that passes the -1 of a `recv` that failed passes a greater length. The call then fails,
/// and reads nothing at the pointer.
pub const fn is_possible<T>(length: usize) -> bool {
    length <= isize::MAX as usize / size_of::<T>()
}

/// Returns the slice that a call reads.
///
/// # Safety
///
/// If the length is not 0, that many values are at the pointer, and nothing writes to them before
/// the call ends.
pub unsafe fn read<'a, T>(at: *const T, length: usize) -> &'a [T] {
    if length == 0 {
        return &[];
    }
    // SAFETY: the caller guarantees this.
    unsafe { slice::from_raw_parts(at, length) }
}

/// Returns the slice that a call writes.
///
/// # Safety
///
/// If the length is not 0, that many values are at the pointer, and nothing else reads or writes
/// them before the call ends.
pub unsafe fn written<'a, T>(at: *mut T, length: usize) -> &'a mut [T] {
    if length == 0 {
        return &mut [];
    }
    // SAFETY: the caller guarantees this.
    unsafe { slice::from_raw_parts_mut(at, length) }
}
