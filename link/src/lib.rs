//! The static library of the proved crates, called from Rust. Its header is
//! include/fiddleroost.h; the types below keep what it asks of a caller.

/// No text is longer.
pub const TEXT_MOST: usize = 688_708;

#[link(name = "fiddleroost", kind = "static")]
extern "C" {
    fn fiddleroost_text_most() -> usize;
    fn fiddleroost_text(file: *const u8, length: usize, out: *mut u8) -> usize;
}

/// `TEXT_MOST` as the library was built with it.
pub fn text_most() -> usize {
    // It takes nothing and touches nothing.
    unsafe { fiddleroost_text_most() }
}

/// Writes the text of a file's bytes to the front of `out` and gives its
/// length; the bytes after it stay.
pub fn text_into(file: &[u8], out: &mut [u8; TEXT_MOST]) -> usize {
    // A shared and a sole reference never overlap and are never null.
    unsafe { fiddleroost_text(file.as_ptr(), file.len(), out.as_mut_ptr()) }
}

/// The text of a file's bytes.
pub fn text(file: &[u8]) -> Vec<u8> {
    let mut out: Box<[u8; TEXT_MOST]> = vec![0; TEXT_MOST].try_into().expect("so many bytes");
    let length = text_into(file, &mut out);
    out[..length].to_vec()
}
