//! The proved library over slices of any length, which the Rust crate's safe face does not take.
use t1mmu::numbers::ANSWER_BYTES;
use t1mmu::sys::{self, Part, Report};

pub fn reset(state: &mut [u64]) -> u8 {
    // SAFETY: the range is the slice's.
    unsafe { sys::t1mmu_reset(state.as_mut_ptr(), state.len()) }
}

pub fn run(state: &mut [u64], hypervisor: bool, input: &[u8], output: &mut [u8]) -> Report {
    let run = if hypervisor { sys::t1mmu_run_hypervisor } else { sys::t1mmu_run };
    // SAFETY: three ranges of three slices, which do not overlap.
    unsafe { run(state.as_mut_ptr(), state.len(), input.as_ptr(), input.len(), output.as_mut_ptr(), output.len()) }
}

pub fn hand_back(state: &[u64], strand: u8, side: u8, [zero, other]: [&[u8]; 2]) -> Part {
    // SAFETY: three ranges of three slices, which are only read.
    unsafe { sys::t1mmu_hand_back(state.as_ptr(), state.len(), strand, side, zero.as_ptr(), zero.len(), other.as_ptr(), other.len()) }
}

pub fn serve(state: &mut [u64], strand: u8, side: u8, [zero, other]: [&[u8]; 2]) -> [u8; ANSWER_BYTES] {
    // SAFETY: three ranges of three slices; the state overlaps no table, and the tables are only read.
    unsafe { sys::t1mmu_serve(state.as_mut_ptr(), state.len(), strand, side, zero.as_ptr(), zero.len(), other.as_ptr(), other.len()).bytes }
}
