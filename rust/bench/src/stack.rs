//! How much stack a call takes: it runs on a stack of its own, which is painted before and looked at afterwards.

use std::arch::asm;
use std::ffi::c_void;
use std::hint::black_box;

use crate::Outcome;

/// What the stack is painted with, a word at a time.
const PAINT: u128 = 0x6c62_272e_07bb_0142_62b8_2175_6295_c58d;
/// The bytes of the stack.
const ROOM: usize = 1 << 20;
/// The bytes of the frame of `control`.
const FRAME: usize = 10_000;
/// What the frames around the measured one may add.
const AROUND: usize = 500;

/// The bytes from the top of the stack down to the lowest that the work writes. What the work sets aside below that and
/// never writes is not seen.
pub fn bytes_used(work: &mut dyn FnMut()) -> usize {
    let mut room = vec![PAINT; ROOM / size_of::<u128>()];
    let top = room.as_mut_ptr_range().end;
    // SAFETY: the stack ends at `top`, is aligned to 16 bytes, and belongs to the call alone as long as it runs.
    unsafe { run_on(top, work) };
    let kept = room.iter().take_while(|&&word| word == PAINT).count();
    size_of_val(&room[kept..])
}

/// Measures a function with a known frame; an error if that is not what is found.
pub fn control() -> Outcome<()> {
    let found = bytes_used(&mut write_a_frame);
    if (FRAME..FRAME + AROUND).contains(&found) {
        Ok(())
    } else {
        Err(format!("a frame of {FRAME} bytes is measured as {found} bytes of stack"))
    }
}

#[inline(never)]
fn write_a_frame() {
    black_box([1u8; FRAME]);
}

/// Runs the work with the stack pointer at `top`, and puts the stack pointer back.
///
/// # Safety
///
/// `top` is the end of memory that is large enough for the work, aligned to 16 bytes, and used by nothing else.
unsafe fn run_on(top: *mut u128, mut work: &mut dyn FnMut()) {
    let work: *mut &mut dyn FnMut() = &mut work;
    // SAFETY: the stack is as the caller promises; r12 keeps the old one over the call, which leaves r12 as it was.
    unsafe {
        asm!(
            "mov r12, rsp",
            "mov rsp, {top}",
            "call {run}",
            "mov rsp, r12",
            top = in(reg) top,
            run = sym run,
            in("rdi") work,
            out("r12") _,
            clobber_abi("C"),
        );
    }
}

extern "C" fn run(work: *mut c_void) {
    let work: *mut &mut dyn FnMut() = work.cast();
    // SAFETY: `run_on` passes work that lives until it returns.
    unsafe { (*work)() }
}

#[cfg(test)]
mod tests {
    use super::*;

    #[test]
    fn a_known_frame_is_found() {
        assert_eq!(control(), Ok(()));
    }

    #[test]
    fn work_without_a_frame_takes_next_to_nothing() {
        assert!(bytes_used(&mut || ()) < AROUND);
    }
}
