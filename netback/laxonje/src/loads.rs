//! Words of a page that its guest may write meanwhile.
use core::sync::atomic::{AtomicU32, Ordering};

/// The words of a wide load.
const WIDE: usize = 4;

/// Reads as many words as both have, in rising order, each by one load: four by one where the processor has such loads, since a guest may have
/// answered anything for any word. For a [`Guest`](crate::Guest) of your own that has pages mapped.
pub fn read_words(from: &[AtomicU32], into: &mut [u32]) {
    let count = from.len().min(into.len());
    let (from, into) = (&from[..count], &mut into[..count]);
    for (from, into) in from.chunks(WIDE).zip(into.chunks_mut(WIDE)) {
        match (from.try_into(), into.try_into()) {
            (Ok(from), Ok(into)) => load_wide(from, into),
            _ => load_each(from, into),
        }
    }
}

fn load_each(from: &[AtomicU32], into: &mut [u32]) {
    for (to, shared) in into.iter_mut().zip(from) {
        *to = shared.load(Ordering::Acquire);
    }
}

#[cfg(all(target_arch = "x86_64", target_feature = "sse2", not(miri)))]
fn load_wide(from: &[AtomicU32; WIDE], into: &mut [u32; WIDE]) {
    // SAFETY: both have 16 bytes, the first of which may be read whoever writes them. Loads and stores of the block's kind are made in order
    // with those before and after it: by the processor, and by the compiler, to which the block may touch any memory.
    unsafe {
        core::arch::asm!("movdqu {wide}, [{from}]", "movdqu [{into}], {wide}", wide = out(xmm_reg) _, from = in(reg) from.as_ptr(),
            into = in(reg) into.as_mut_ptr(), options(nostack, preserves_flags));
    }
}

#[cfg(not(all(target_arch = "x86_64", target_feature = "sse2", not(miri))))]
fn load_wide(from: &[AtomicU32; WIDE], into: &mut [u32; WIDE]) {
    load_each(from, into);
}
