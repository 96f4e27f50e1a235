//! A line of a webcache trace, for the programs beside this file.
use crate::lines::is_gap;
use std::slice::Iter;

// The number that the next word is. The gap after it is taken too.
fn number(bytes: &mut Iter<u8>) -> Option<u64> {
    let mut next = bytes.find(|byte| !is_gap(byte));
    next?;
    let mut value = 0_u64;
    while let Some(byte) = next.filter(|byte| !is_gap(byte)) {
        let digit = byte.wrapping_sub(b'0');
        if digit > 9 {
            return None;
        }
        value = value.checked_mul(10)?.checked_add(u64::from(digit))?;
        next = bytes.next();
    }
    Some(value)
}

/// The id and the size; nothing within where the line is skipped, and nothing at all where it is refused.
///
/// Inlined into the loop it was slower.
#[inline(never)]
pub fn parse(text: &[u8]) -> Option<Option<(u64, u64)>> {
    let mut bytes = text.iter();
    if bytes.find(|byte| !is_gap(byte)).is_none() {
        return Some(None);
    }
    bytes.find(|byte| is_gap(byte))?;
    let (id, size) = (number(&mut bytes)?, number(&mut bytes)?);
    (size <= 1 << 48).then_some(Some((id, size)))
}
