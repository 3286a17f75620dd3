//! The search for a backslash by vectors of 16 bytes: what the plain programs that read texts have in common.

/// The place of the first backslash.
#[cfg(target_arch = "x86_64")]
pub fn find_backslash(bytes: &[u8]) -> Option<usize> {
    use std::arch::x86_64::*;
    let length = bytes.len();
    if length < 16 {
        return bytes.iter().position(|&b| b == b'\\');
    }
    let start = bytes.as_ptr();
    // Each load below lies within the slice: a place is at most the length less what is loaded.
    unsafe {
        let wanted = _mm_set1_epi8(b'\\' as i8);
        let equal = |at: usize| _mm_cmpeq_epi8(_mm_loadu_si128(start.add(at).cast()), wanted);
        let any = |found: __m128i| _mm_movemask_epi8(found) != 0;
        let first = |found: __m128i| _mm_movemask_epi8(found).trailing_zeros() as usize;
        let mut at = 0;
        while at + 16 <= length {
            let found = equal(at);
            if any(found) {
                return Some(at + first(found));
            }
            at += 16;
        }
        let found = equal(length - 16);
        if any(found) {
            return Some(length - 16 + first(found));
        }
    }
    None
}

#[cfg(not(target_arch = "x86_64"))]
pub fn find_backslash(bytes: &[u8]) -> Option<usize> {
    bytes.iter().position(|&b| b == b'\\')
}
