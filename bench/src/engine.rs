//! The proved elimination on its own, by the archive `engine`.

/// The shape of a matrix: rows of `width` words every `stride` words, of
/// which the first `lead` are eliminated.
#[derive(Clone, Copy)]
pub struct Shape {
    pub rows: usize,
    pub stride: usize,
    pub width: usize,
    pub lead: usize,
}

extern "C" {
    fn dayunglipo_engine_eliminate(
        buf: *mut u64,
        len: usize,
        rows: usize,
        stride: usize,
        width: usize,
        lead: usize,
        slots: *mut usize,
        slots_len: usize,
    ) -> usize;
    fn dayunglipo_engine_basis(
        buf: *mut u64,
        len: usize,
        rows: usize,
        stride: usize,
        width: usize,
        k: usize,
    ) -> usize;
}

/// Eliminates row by row up to the first that is a sum of earlier ones; gives its number.
pub fn eliminate(buf: &mut [u64], s: Shape, slots: &mut [usize]) -> usize {
    // SAFETY: each pointer and length are those of one slice.
    unsafe {
        dayunglipo_engine_eliminate(
            buf.as_mut_ptr(),
            buf.len(),
            s.rows,
            s.stride,
            s.width,
            s.lead,
            slots.as_mut_ptr(),
            slots.len(),
        )
    }
}

/// The reduced rows at the front; gives the rank.
pub fn basis(buf: &mut [u64], s: Shape, _: &mut [usize]) -> usize {
    // SAFETY: the pointer and the length are those of one slice.
    unsafe {
        dayunglipo_engine_basis(buf.as_mut_ptr(), buf.len(), s.rows, s.stride, s.width, 64 * s.lead)
    }
}
