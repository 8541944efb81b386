//! How deep a call goes: it runs on a painted stack of its own.

use std::arch::asm;

const WORDS: usize = 1 << 16;
const PAINT: u64 = 0xC3A5_5A3C_96F0_0F69;

pub struct Stack {
    words: Vec<u64>,
}

impl Stack {
    pub fn new() -> Self {
        Stack {
            words: vec![PAINT; WORDS],
        }
    }

    /// Runs the call, and says how many bytes of the stack hold something else than paint now:
    /// the deepest of all calls so far.
    pub fn depth(&mut self, mut call: impl FnMut()) -> usize {
        let mut call: &mut dyn FnMut() = &mut call;
        let top = self.words.as_mut_ptr_range().end;
        // SAFETY: the words are a stack for as long as the call runs, and its end is aligned to 16.
        unsafe { run_on(top as usize & !15, &raw mut call) };
        let touched = self.words.iter().position(|&word| word != PAINT);
        touched.map_or(0, |first| (WORDS - first) * 8)
    }
}

extern "C" fn run(call: *mut &mut dyn FnMut()) {
    // SAFETY: the pointer is that of `depth`.
    unsafe { (*call)() }
}

#[cfg(target_arch = "x86_64")]
unsafe fn run_on(top: usize, call: *mut &mut dyn FnMut()) {
    asm!(
        "mov r12, rsp",
        "mov rsp, {top}",
        "call {run}",
        "mov rsp, r12",
        top = in(reg) top,
        run = sym run,
        in("rdi") call,
        out("r12") _,
        clobber_abi("C"),
    );
}

#[cfg(target_arch = "aarch64")]
unsafe fn run_on(top: usize, call: *mut &mut dyn FnMut()) {
    asm!(
        "mov x20, sp",
        "mov sp, {top}",
        "bl {run}",
        "mov sp, x20",
        top = in(reg) top,
        run = sym run,
        in("x0") call,
        out("x20") _,
        clobber_abi("C"),
    );
}
