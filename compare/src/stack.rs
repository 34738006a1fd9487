//! How much stack a call takes: it is run on a stack of its own, painted before, and what is no longer painted is counted.

use std::arch::asm;

const WORDS: usize = 1 << 17;
const PAINT: u64 = 0xA5A5_5A5A_A5A5_5A5A;

extern "C" fn enter(call: *mut &mut dyn FnMut()) {
    // SAFETY: `painted` hands over a pointer to its own argument, which outlives the call.
    unsafe { (*call)() }
}

/// Bytes from the top of the stack down to the lowest that is written.
fn painted(mut call: &mut dyn FnMut()) -> usize {
    let mut stack = vec![PAINT; WORDS];
    // SAFETY: the top is aligned to 16 bytes and within the allocation; r12 is kept by the callee, so that it brings the old stack back.
    unsafe {
        let top = (stack.as_mut_ptr().add(WORDS) as usize) & !15;
        asm!(
            "mov r12, rsp",
            "mov rsp, {top}",
            "call {enter}",
            "mov rsp, r12",
            top = in(reg) top,
            enter = sym enter,
            in("rdi") &mut call,
            out("r12") _,
            clobber_abi("C"),
        );
    }
    let untouched = stack.iter().take_while(|&&word| word == PAINT).count();
    assert!(untouched > 0, "the call takes more than {} bytes", 8 * WORDS);
    8 * (WORDS - untouched)
}

/// Bytes of stack that a call takes, its return address included and what it takes to get there left out.
pub fn taken(mut call: impl FnMut()) -> usize {
    painted(&mut call) - painted(&mut || ())
}
