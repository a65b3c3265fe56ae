//! The deepest stack of a call, found by painting: the call runs on a stack of its own, filled with
//! one byte value, and the deepest byte that has changed afterwards shows how far it went.
//!
//! Nothing of the loader is in it: rustc links with `-z now`, so that memset, memcpy and the like are
//! found when the program starts and not in the first call.

use std::arch::asm;
use std::hint::black_box;

use gurvoke::executive::Executive;

use crate::trial::{Operation, Trial};

/// Much more than any call takes, so that it never runs out of it.
const STACK_LEN: usize = 1 << 20;
/// The alignment that a function may expect of its stack.
const ALIGNMENT: usize = 16;
/// A call may write one of them at its deepest place, but not both.
const COLOURS: [u8; 2] = [0xA5, 0x5A];

/// How many bytes of stack a call takes that must be accepted.
pub fn depth(trial: &mut Trial, executive: &Executive, operation: Operation) -> usize {
    depth_of(trial, executive, operation, true)
}

/// The same of a call that must be refused.
pub fn refused_depth(trial: &mut Trial, executive: &Executive, operation: Operation) -> usize {
    depth_of(trial, executive, operation, false)
}

fn depth_of(trial: &mut Trial, called: &Executive, operation: Operation, passes: bool) -> usize {
    let depths = COLOURS.map(|colour| {
        trial.prepare(operation);
        let mut accepted = false;
        let depth = painted_depth(colour, &mut || accepted = trial.call(called, operation));
        assert_eq!(accepted, passes, "{} {}", called.name, operation.name());
        depth
    });
    depths[0].max(depths[1])
}

fn painted_depth(colour: u8, call: &mut dyn FnMut()) -> usize {
    let mut stack = vec![colour; STACK_LEN];
    let len = STACK_LEN - stack.as_ptr_range().end as usize % ALIGNMENT;
    let top = stack[len..].as_mut_ptr();
    // SAFETY: below `top` there is an aligned stack that nothing else uses, with room for the call.
    unsafe { run_on(top, call) };
    let stack = black_box(stack);
    len - stack.iter().take_while(|&&byte| byte == colour).count()
}

/// Calls with the stack pointer at `top`.
///
/// # Safety
///
/// `top` is aligned, and the memory below it is a stack that is large enough for the call. The call
/// does not panic: there is nothing above `top` to unwind to.
unsafe fn run_on(top: *mut u8, mut call: &mut dyn FnMut()) {
    // r12 holds the caller's stack pointer during the call, because every function keeps it.
    asm!(
        "xchg rsp, r12",
        "call {enter}",
        "mov rsp, r12",
        enter = sym enter,
        inout("r12") top => _,
        in("rdi") &raw mut call,
        clobber_abi("sysv64"),
    );
}

unsafe extern "sysv64" fn enter(call: *mut &mut dyn FnMut()) {
    (*call)();
}

#[cfg(test)]
mod tests {
    use super::*;

    /// A call that fills a local array shows at least its length, and not much more.
    #[test]
    fn finds_a_local_array() {
        let depth = painted_depth(COLOURS[0], &mut || {
            black_box([0u8; 5000]);
        });
        assert!((5000..5500).contains(&depth), "{depth}");
    }
}
