//! How much stack a call uses, found by running it on a painted stack.

use std::arch::asm;
use std::ffi::c_void;

const AREA: usize = 1 << 20;
const PAINT: u8 = 0xA5;

/// The bytes of stack from the entry of the call down to the lowest one that it changed.
pub fn used_by(mut call: impl FnMut()) -> usize {
    let nothing = painted_run(&mut || ());
    painted_run(&mut call).saturating_sub(nothing)
}

/// Runs a call on a stack of its own, and counts the bytes down to the lowest one changed.
fn painted_run(mut call: &mut dyn FnMut()) -> usize {
    let mut area = vec![PAINT; AREA];
    let end = area.as_mut_ptr().wrapping_add(AREA);
    let top = end.wrapping_sub(end as usize % 16);
    let argument: *mut &mut dyn FnMut() = &mut call;
    // SAFETY: the new stack is memory of this function, far larger than any call here needs, and the old one is back
    // before anything else runs. `enter` does not unwind.
    unsafe {
        asm!(
            "mov r12, rsp",
            "mov rsp, {top}",
            "call {enter}",
            "mov rsp, r12",
            top = in(reg) top,
            enter = sym enter,
            in("rdi") argument.cast::<c_void>(),
            out("r12") _,
            clobber_abi("C"),
        );
    }
    let untouched = area.iter().take_while(|&&byte| byte == PAINT).count();
    assert!(untouched > AREA / 2, "the stack may have been too small");
    AREA - untouched
}

/// Runs the call that the argument points to.
extern "C" fn enter(argument: *mut c_void) {
    // SAFETY: `painted_run` passes a pointer to its call, which lives until this returns.
    let call = unsafe { &mut *argument.cast::<&mut dyn FnMut()>() };
    call();
}

#[cfg(test)]
mod tests {
    use super::*;
    use std::hint::black_box;

    #[inline(never)]
    fn fill<const SIZE: usize>() {
        black_box([1u8; SIZE]);
    }

    #[test]
    fn a_local_array_is_seen() {
        for (used, size) in [
            (used_by(fill::<1_000>), 1_000),
            (used_by(fill::<50_000>), 50_000),
        ] {
            assert!((size..size + 500).contains(&used), "{used} for {size}");
        }
    }
}
