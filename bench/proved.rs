//! Safe Rust over the functions that `lib.rattle` exports. None of them has a `requires`, so each call is safe whose pointer and
//! length are those of one slice.

use crate::fields::Fields;

/// How far a world came.
#[derive(Clone, Copy, Debug, Default, PartialEq, Eq)]
#[repr(C)]
pub struct Tally {
    /// The events that were taken.
    pub steps: u64,
    /// The octets that were read.
    pub octets: u64,
}

// Nothing compares these declarations with `lib.rattle`. A slice crosses as a pointer and a length, and an allocator as nothing.
unsafe extern "C" {
    fn bench_sum(octets: *const u8, len: usize) -> u16;
    fn bench_copy(from: *const u8, from_len: usize, to: *mut u8, to_len: usize) -> u16;
    fn bench_parse(src: u32, dst: u32, segment: *const u8, len: usize, fields: &mut Fields)
    -> bool;
    fn bench_emit(src: u32, dst: u32, fields: &Fields, out: *mut u8, len: usize) -> usize;
    safe fn bench_world(rounds: u64, tally: &mut Tally) -> bool;
}

/// The one's complement sum of `octets`.
pub fn sum(octets: &[u8]) -> u16 {
    // SAFETY: the pointer and the length are those of `octets`, which is lent for the call.
    unsafe { bench_sum(octets.as_ptr(), octets.len()) }
}

/// Copies `from` to `to`, which has as many octets, and answers the one's complement sum of what was copied.
pub fn copy_sum(from: &[u8], to: &mut [u8]) -> u16 {
    // SAFETY: the pointers and the lengths are those of `from` and `to`, which are lent for the call, `to` to it alone.
    unsafe { bench_copy(from.as_ptr(), from.len(), to.as_mut_ptr(), to.len()) }
}

/// What a segment from `src` for `dst` says, where it is well-formed.
pub fn parse(src: u32, dst: u32, segment: &[u8]) -> Option<Fields> {
    let mut fields = Fields::default();
    // SAFETY: the pointer and the length are those of `segment`, which is lent for the call.
    let is_well_formed =
        unsafe { bench_parse(src, dst, segment.as_ptr(), segment.len(), &mut fields) };
    is_well_formed.then_some(fields)
}

/// Writes a header before the payload, which stands in `out` already, and answers the length of the segment, where `out` has room.
pub fn emit(src: u32, dst: u32, fields: &Fields, out: &mut [u8]) -> Option<usize> {
    // SAFETY: the pointer and the length are those of `out`, which is lent to this call alone.
    let len = unsafe { bench_emit(src, dst, fields, out.as_mut_ptr(), out.len()) };
    (len != 0).then_some(len)
}

/// How far a world comes in which one host writes to the other `rounds` times, where all of it goes well.
pub fn world(rounds: u64) -> Option<Tally> {
    let mut tally = Tally::default();
    bench_world(rounds, &mut tally).then_some(tally)
}
