//! The few vector instructions that are used, all of SSE2, which every x86-64 has: that is why each call of one is
//! sound.

use std::arch::x86_64::*;
use std::ops::{BitAnd, BitOr};

/// 16 bytes in a register, or four numbers of four bytes. A comparison has ones wherever it holds, else zeros.
#[derive(Clone, Copy)]
pub struct Vector(__m128i);

impl Vector {
    /// The same byte everywhere.
    #[inline(always)]
    pub fn of_byte(byte: u8) -> Vector {
        // SAFETY: SSE2.
        Vector(unsafe { _mm_set1_epi8(byte as i8) })
    }

    /// The same number four times.
    #[inline(always)]
    pub fn of_number(number: u32) -> Vector {
        // SAFETY: SSE2.
        Vector(unsafe { _mm_set1_epi32(number as i32) })
    }

    #[inline(always)]
    pub fn load(bytes: &[u8; 16]) -> Vector {
        // SAFETY: SSE2; the load has no alignment and reads 16 bytes.
        Vector(unsafe { _mm_loadu_si128(bytes.as_ptr().cast()) })
    }

    /// Eight bytes and eight zeros.
    #[inline(always)]
    pub fn load_half(bytes: &[u8; 8]) -> Vector {
        // SAFETY: SSE2; the load has no alignment and reads eight bytes.
        Vector(unsafe { _mm_loadl_epi64(bytes.as_ptr().cast()) })
    }

    #[inline(always)]
    pub fn equal_bytes(self, other: Vector) -> Vector {
        // SAFETY: SSE2.
        Vector(unsafe { _mm_cmpeq_epi8(self.0, other.0) })
    }

    #[inline(always)]
    pub fn equal_numbers(self, other: Vector) -> Vector {
        // SAFETY: SSE2.
        Vector(unsafe { _mm_cmpeq_epi32(self.0, other.0) })
    }

    /// Is a number greater than the other one, both taken as signed? SSE2 compares no others.
    #[inline(always)]
    pub fn greater_signed(self, other: Vector) -> Vector {
        // SAFETY: SSE2.
        Vector(unsafe { _mm_cmpgt_epi32(self.0, other.0) })
    }

    #[inline(always)]
    pub fn minus_numbers(self, other: Vector) -> Vector {
        // SAFETY: SSE2.
        Vector(unsafe { _mm_sub_epi32(self.0, other.0) })
    }

    /// The bytes of each number turned round, for which SSE2 has no single instruction.
    #[inline(always)]
    pub fn turned_round(self) -> Vector {
        const HALVES_SWAPPED: i32 = 0b10_11_00_01;
        // SAFETY: SSE2.
        unsafe {
            let bytes_swapped = _mm_or_si128(_mm_slli_epi16(self.0, 8), _mm_srli_epi16(self.0, 8));
            Vector(_mm_shufflehi_epi16(_mm_shufflelo_epi16(bytes_swapped, HALVES_SWAPPED), HALVES_SWAPPED))
        }
    }

    /// The highest bit of each byte.
    #[inline(always)]
    pub fn bits(self) -> u32 {
        // SAFETY: SSE2.
        unsafe { _mm_movemask_epi8(self.0) as u32 }
    }

    /// The bits of four comparisons of numbers, one for each number.
    #[inline(always)]
    pub fn bits_of_numbers([a, b, c, d]: [Vector; 4]) -> u32 {
        // SAFETY: SSE2.
        Vector(unsafe { _mm_packs_epi16(_mm_packs_epi32(a.0, b.0), _mm_packs_epi32(c.0, d.0)) }).bits()
    }
}

impl BitAnd for Vector {
    type Output = Vector;

    #[inline(always)]
    fn bitand(self, other: Vector) -> Vector {
        // SAFETY: SSE2.
        Vector(unsafe { _mm_and_si128(self.0, other.0) })
    }
}

impl BitOr for Vector {
    type Output = Vector;

    #[inline(always)]
    fn bitor(self, other: Vector) -> Vector {
        // SAFETY: SSE2.
        Vector(unsafe { _mm_or_si128(self.0, other.0) })
    }
}
