//! The library's function for programs typed as text, called from Rust.

extern "C" {
    fn gurvoke_text(text: *const u8, text_len: usize, file: *mut u8, file_len: usize) -> u32;
}

/// Reads a text and writes its program file to the front of `file`.
///
/// The error is the refusal's number. A refused call writes nothing, and an accepted one writes
/// nothing past the file.
pub fn write_file(text: &[u8], file: &mut [u8]) -> Result<(), u32> {
    let (text_len, file_len) = (text.len(), file.len());
    // SAFETY: the pointers come from slices of these lengths, which do not overlap.
    let number = unsafe { gurvoke_text(text.as_ptr(), text_len, file.as_mut_ptr(), file_len) };
    crate::answer(number)
}
