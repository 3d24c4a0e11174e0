//! How deep a call goes: it gets a stack of its own, painted before and looked at afterwards.

use std::arch::asm;

/// Bytes of the stack.
const LENGTH: usize = 1 << 20;
/// What stands where nothing was written.
const PAINT: u128 = 0xa5a5_a5a5_a5a5_a5a5_a5a5_a5a5_a5a5_a5a5;

/// A painted stack, in words to which a stack pointer must be aligned.
pub struct Stack(Vec<u128>);

impl Stack {
    pub fn new() -> Stack {
        Stack(vec![PAINT; LENGTH / size_of::<u128>()])
    }

    /// Makes the call on the stack.
    pub fn call(&mut self, mut call: impl FnMut()) {
        let mut call: &mut dyn FnMut() = &mut call;
        let top = self.0.as_mut_ptr_range().end;
        // SAFETY: r12 keeps the stack pointer, which `made` and all that it calls restore; a panic ends the program there.
        unsafe {
            asm!(
                "mov r12, rsp",
                "mov rsp, {top}",
                "call {made}",
                "mov rsp, r12",
                top = in(reg) top,
                made = sym made,
                in("rdi") &mut call,
                out("r12") _,
                clobber_abi("C"),
            );
        }
    }

    /// Bytes from the top to the deepest place that was written.
    pub fn depth(&self) -> usize {
        let unused = self.0.iter().take_while(|&&word| word == PAINT).count();
        assert!(unused > 0, "the stack is long enough");
        (self.0.len() - unused) * size_of::<u128>()
    }
}

extern "C" fn made(call: &mut &mut dyn FnMut()) {
    call();
}
