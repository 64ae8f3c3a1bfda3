//! Numbers and events of a file.

/// The number at a position, and the position after it; none where it is
/// spoilt.
#[inline(always)]
pub fn number(file: &[u8], at: usize) -> Option<(usize, usize)> {
    let first = *file.get(at)?;
    if first < 128 {
        return Some((first.into(), at + 1));
    }
    let second = *file.get(at + 1)?;
    let low = usize::from(first & 127);
    if second < 128 {
        return (second > 0).then_some((low | usize::from(second) << 7, at + 2));
    }
    let third = *file.get(at + 2)?;
    let low = low | usize::from(second & 127) << 7;
    (1..128)
        .contains(&third)
        .then_some((low | usize::from(third) << 14, at + 3))
}
