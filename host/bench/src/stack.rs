//! How much stack a call takes. What lies below the caller's frame is painted before the
//! call, and afterwards one sees how deep the paint is gone.

use std::arch::asm;
use std::ptr;

const PAINT: u32 = 0xC01D_FACE;

/// The words that are painted: more than any call takes.
const WORDS: usize = 48 * 1024;

/// The bytes between the end of the stack where something is called and the lowest word that
/// it changed. What it reserves below that and does not touch is not seen.
#[inline(never)]
pub fn depth(run: impl FnOnce()) -> usize {
    let lowest = paint();
    run();
    let top = pointer();
    // Safety: the words lay in the frame of a call that is over. They are still mapped, of
    // this thread alone, and whatever stands in them is a number.
    let changed = |at: &usize| unsafe { ptr::read_volatile(*at as *const u32) } != PAINT;
    let words = (0..WORDS).map(|k| lowest + 4 * k);
    words.take_while(|at| *at < top).find(changed).map_or(0, |at| top - at)
}

/// Paints a frame of its own, which is where that of the next call will lie; its lowest word.
#[inline(never)]
fn paint() -> usize {
    let mut words = [0; WORDS];
    for word in &mut words {
        // Safety: a reference may be written through. The compiler must not leave it out.
        unsafe { ptr::write_volatile(word, PAINT) };
    }
    words.as_ptr() as usize
}

/// The stack pointer.
#[inline(always)]
fn pointer() -> usize {
    let pointer;
    // Safety: a register is copied to another one.
    #[cfg(target_arch = "x86_64")]
    unsafe {
        asm!("mov {}, rsp", out(reg) pointer, options(nomem, nostack, preserves_flags))
    };
    #[cfg(target_arch = "aarch64")]
    unsafe {
        asm!("mov {}, sp", out(reg) pointer, options(nomem, nostack, preserves_flags))
    };
    pointer
}

#[cfg(test)]
mod tests {
    use super::depth;
    use std::ptr;

    #[inline(never)]
    fn touch<const BYTES: usize>() {
        let mut bytes = [0_u8; BYTES];
        // Safety: a reference may be written through.
        bytes.iter_mut().for_each(|byte| unsafe { ptr::write_volatile(byte, 1) });
    }

    /// A frame is as deep as what stands in it, and little deeper.
    #[test]
    fn a_frame_is_measured() {
        for (measured, bytes) in [(depth(touch::<1000>), 1000), (depth(touch::<100_000>), 100_000)] {
            assert!((bytes..bytes + 500).contains(&measured), "{measured} for {bytes}");
        }
    }
}
