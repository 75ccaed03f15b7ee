//! A stand-in for the crate `bytemuck`: the two slice casts that the original
//! calls, with the same panics.

use std::mem::{align_of, size_of, size_of_val};

mod sealed {
    pub trait Sealed {}
}

/// A plain integer type.
///
/// # Safety
/// Every pattern of bits is a value, and no byte is padding.
pub unsafe trait Pod: sealed::Sealed + Copy + 'static {}

macro_rules! pod {
    ($($t:ty)*) => {
        $(
            impl sealed::Sealed for $t {}
            // SAFETY: an unsigned integer has no padding and no forbidden value.
            unsafe impl Pod for $t {}
        )*
    };
}

pod!(u8 u16 u32);

/// How many `B`s the slice holds. Panics if they would be misaligned, or if bytes
/// would be left over.
fn cast_len<A: Pod, B: Pod>(a: &[A]) -> usize {
    let bytes = size_of_val(a);
    assert!(
        a.as_ptr().align_offset(align_of::<B>()) == 0,
        "cast_slice>TargetAlignmentGreaterAndInputNotAligned"
    );
    assert!(bytes.is_multiple_of(size_of::<B>()), "cast_slice>OutputSliceWouldHaveSlop");
    bytes / size_of::<B>()
}

/// The same memory, read as a slice of another integer type.
pub fn cast_slice<A: Pod, B: Pod>(a: &[A]) -> &[B] {
    let len = cast_len::<A, B>(a);
    // SAFETY: `cast_len` checked alignment and size; any bits are a `B`.
    unsafe { std::slice::from_raw_parts(a.as_ptr().cast(), len) }
}

/// The same memory, lent for writing as a slice of another integer type.
pub fn cast_slice_mut<A: Pod, B: Pod>(a: &mut [A]) -> &mut [B] {
    let len = cast_len::<A, B>(a);
    // SAFETY: as in `cast_slice`; any bits are an `A` as well.
    unsafe { std::slice::from_raw_parts_mut(a.as_mut_ptr().cast(), len) }
}

#[cfg(test)]
mod tests {
    use super::*;

    /// Eight bytes at an address that is a multiple of 4.
    #[repr(align(4))]
    struct Aligned([u8; 8]);

    #[test]
    fn casts_share_the_memory() {
        let mut memory = Aligned([0; 8]);
        let words: &mut [u16] = cast_slice_mut(&mut memory.0[..6]);
        words[1] = u16::from_le_bytes([0x34, 0x12]);
        assert_eq!(memory.0, [0, 0, 0x34, 0x12, 0, 0, 0, 0]);
        assert_eq!(cast_slice::<u8, u32>(&memory.0).len(), 2);
        assert_eq!(cast_slice::<u16, u8>(&[1u16, 2]).len(), 4);
    }

    #[test]
    #[should_panic(expected = "InputNotAligned")]
    fn misaligned_bytes_panic() {
        cast_slice::<u8, u16>(&Aligned([0; 8]).0[1..3]);
    }

    #[test]
    #[should_panic(expected = "WouldHaveSlop")]
    fn an_odd_byte_panics() {
        cast_slice_mut::<u8, u16>(&mut Aligned([0; 8]).0[..3]);
    }
}
