//! The C calls of `include/t1mmu.h` as they stand, for states and lengths that the safe face does not take.
//!
//! # Safety
//!
//! [`t1mmu_reset`], [`t1mmu_run`], [`t1mmu_run_hypervisor`], [`t1mmu_hand_back`] and [`t1mmu_serve`] take each range as a pointer and a length.
//! For the whole of a call
//! - each range may be read, and state and output be written, by this call alone;
//! - state, input and output do not overlap, nor does state with a table, and state is aligned as `u64` is;
//! - a range of length 0 is not touched, so that its pointer may be null.
//!
//! Any length and any contents will do: a state of a wrong length is refused, not read.
//! The other calls take and give numbers alone, and can do no harm.

use crate::numbers::ANSWER_BYTES;
use crate::Tte;

/// What a run returns beside the state and the answers: [`crate::Report`] with the stop as its number.
#[repr(C)]
#[derive(Clone, Copy, Debug, PartialEq, Eq)]
pub struct Report {
    pub answered: usize,
    pub taken: usize,
    pub stop: u8,
}

/// What hand back returns: why there is no part, or 0, the table (0 for context zero, 1 for the others), and where in it the part stands.
#[repr(C)]
#[derive(Clone, Copy, Debug, Default, PartialEq, Eq)]
pub struct Part {
    pub number: u8,
    pub other: u8,
    pub start: usize,
    pub length: usize,
}

/// What a serve returns: the bytes of an answer.
#[repr(C)]
#[derive(Clone, Copy, Debug, PartialEq, Eq)]
pub struct Answered {
    pub bytes: [u8; ANSWER_BYTES],
}

extern "C" {
    pub fn t1mmu_version() -> u32;
    pub fn t1mmu_state_words() -> usize;
    pub fn t1mmu_reset(state: *mut u64, words: usize) -> u8;
    pub fn t1mmu_run(state: *mut u64, words: usize, input: *const u8, length: usize, output: *mut u8, room: usize) -> Report;
    pub fn t1mmu_run_hypervisor(state: *mut u64, words: usize, input: *const u8, length: usize, output: *mut u8, room: usize) -> Report;
    pub fn t1mmu_hand_back(
        state: *const u64,
        words: usize,
        strand: u8,
        side: u8,
        zero: *const u8,
        zero_length: usize,
        other: *const u8,
        other_length: usize,
    ) -> Part;
    pub fn t1mmu_serve(
        state: *mut u64,
        words: usize,
        strand: u8,
        side: u8,
        zero: *const u8,
        zero_length: usize,
        other: *const u8,
        other_length: usize,
    ) -> Answered;
    pub fn t1mmu_unpack(word: u64) -> Tte;
    pub fn t1mmu_pack(fields: Tte) -> u64;
}
