// SPDX-License-Identifier: Apache-2.0
//! How much stack a call needs: it runs on one of its own that is filled with a mark, and how far the mark is gone is seen
//! afterwards.

use std::arch::asm;

const MARK: u64 = 0x5ac4_91e3_7d02_b86f;

extern "C" fn enter(work: *mut &mut dyn FnMut()) {
    // SAFETY: `measured` gives a pointer to its own argument, which lives until this returns.
    unsafe { (*work)() }
}

/// How many bytes of a stack of so many the work needs. A panic in it ends the process.
pub fn measured(bytes: usize, mut work: &mut dyn FnMut()) -> usize {
    let mut stack = vec![MARK; bytes / 8];
    let end = stack.as_mut_ptr_range().end as usize;
    let top = end & !15;
    // SAFETY: `enter` is called as C asks it, on a stack that is aligned and lives until it has returned; the stack pointer
    // is kept in a register that a callee restores.
    unsafe {
        asm!(
            "mov r12, rsp",
            "mov rsp, {top}",
            "call {enter}",
            "mov rsp, r12",
            top = in(reg) top,
            enter = sym enter,
            in("rdi") &raw mut work,
            out("r12") _,
            clobber_abi("C"),
        );
    }
    let untouched = stack.iter().take_while(|word| **word == MARK).count();
    bytes - 8 * untouched
}
