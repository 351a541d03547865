//! The proved listing.

/// The memory that a listing wants at least.
pub const LEAST_MEMORY: usize = 65_536;

extern "C" {
    fn magbolisu_list(
        sheet: *const u8,
        sheet_length: usize,
        memory: *mut u8,
        memory_length: usize,
    ) -> usize;
}

/// Writes the sheet's listing at the memory's front and answers its length,
/// or answers 0 and writes nothing where the memory is too short.
pub fn list(sheet: &[u8], memory: &mut [u8]) -> usize {
    // SAFETY: a slice is good for reading, and a mutable one for writing, at
    // its pointer and for its length, and the borrows keep the two apart.
    unsafe {
        magbolisu_list(
            sheet.as_ptr(),
            sheet.len(),
            memory.as_mut_ptr(),
            memory.len(),
        )
    }
}
