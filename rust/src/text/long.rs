//! Long texts: nests, lists, and gaps.

/// Begins a text of one variable and one clock.
pub const SIZES: &str = "1 1:";

/// What is opened so many times, what stands inside, and what is closed as often.
pub fn nest(opening: &str, levels: usize, inner: &str, closing: &str) -> Vec<u8> {
    let (before, behind) = (opening.repeat(levels), closing.repeat(levels));
    [SIZES, &before, inner, &behind].concat().into_bytes()
}

/// So many copies of a step.
pub fn list(step: &str, joint: &str, count: usize) -> Vec<u8> {
    let steps = vec![step; count].join(joint);
    [SIZES, &steps].concat().into_bytes()
}

/// A text made so many bytes long by gaps put at a place.
pub fn padded(text: &[u8], place: usize, gap: u8, len: usize) -> Vec<u8> {
    let (front, back) = text.split_at(place);
    let gaps = vec![gap; len - text.len()];
    [front, &gaps, back].concat()
}
