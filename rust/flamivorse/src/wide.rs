//! Which wide vector registers the machine has and its operating system keeps, asked of the processor
//! itself: the standard library's answer is not there without it.

use core::arch::x86_64::{__cpuid, __cpuid_count, _xgetbv};
use core::sync::atomic::{AtomicU8, Ordering};

/// The widest vector registers there are, from the narrowest kind to the widest.
#[derive(Clone, Copy, Debug, PartialEq, Eq, PartialOrd, Ord)]
#[repr(u8)]
pub(crate) enum Width {
    /// 16 registers of 16 bytes (SSE), which every such machine has.
    Bytes16 = 1,
    /// 16 registers of 32 bytes (AVX).
    Bytes32 = 2,
    /// 32 registers of 64 bytes (AVX-512).
    Bytes64 = 3,
}

/// What was found, or 0 before anybody asked.
static FOUND: AtomicU8 = AtomicU8::new(0);

/// The width, asked for once: under a hypervisor the question itself takes thousands of cycles.
pub(crate) fn width() -> Width {
    match FOUND.load(Ordering::Relaxed) {
        1 => Width::Bytes16,
        2 => Width::Bytes32,
        3 => Width::Bytes64,
        _ => {
            let width = ask();
            FOUND.store(width as u8, Ordering::Relaxed);
            width
        }
    }
}

/// Asks the processor what it has, and then what the operating system keeps: a register that it does
/// not keep must not be touched. The bits are those of Intel's manual, volume 1, chapters 14 and 15.
// Asking became safe in a later Rust than the least that this crate takes.
#[allow(unused_unsafe)]
fn ask() -> Width {
    const OSXSAVE: u32 = 1 << 27;
    const AVX: u32 = 1 << 28;
    const AVX512F: u32 = 1 << 16;
    const KEEPS_32_BYTES: u64 = 0b110;
    const KEEPS_64_BYTES: u64 = 0b1110_0110;
    // SAFETY: every x86-64 processor has this instruction.
    let (last, features) = unsafe { (__cpuid(0).eax, __cpuid(1).ecx) };
    if features & OSXSAVE == 0 {
        return Width::Bytes16;
    }
    // SAFETY: OSXSAVE says that this instruction is there.
    let kept = unsafe { _xgetbv(0) };
    if features & AVX == 0 || kept & KEEPS_32_BYTES != KEEPS_32_BYTES {
        return Width::Bytes16;
    }
    // SAFETY: as above; leaf 7 is asked where the processor has one.
    let more = unsafe {
        if last < 7 {
            0
        } else {
            __cpuid_count(7, 0).ebx
        }
    };
    if more & AVX512F == 0 || kept & KEEPS_64_BYTES != KEEPS_64_BYTES {
        return Width::Bytes32;
    }
    Width::Bytes64
}

#[cfg(test)]
mod tests {
    use super::*;

    #[test]
    fn the_standard_library_finds_the_same() {
        let wide = is_x86_feature_detected!("avx");
        let widest = is_x86_feature_detected!("avx512f");
        // The second answer is the one that was kept.
        for width in [ask(), width(), width()] {
            assert_eq!(width >= Width::Bytes32, wide);
            assert_eq!(width >= Width::Bytes64, widest);
        }
    }
}
