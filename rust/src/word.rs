use crate::raw::{fetulombo_u16_at, fetulombo_u32_at, fetulombo_u64_at};
use crate::{Order, Refusal};

/// The word of 2 bytes at a place. A byte past the end counts as 0.
///
/// ```
/// use fetulombo::{Order, u16_at};
/// assert_eq!(u16_at(Order::Big, &[1, 2, 3], 1), Ok(0x0203));
/// assert_eq!(u16_at(Order::Big, &[1, 2, 3], 2), Ok(0x0300));
/// ```
pub fn u16_at(order: Order, bytes: &[u8], at: usize) -> Result<u16, Refusal> {
    // Safety: the slice is lent for the call.
    let answer = unsafe { fetulombo_u16_at(order.raw(), bytes.as_ptr(), bytes.len(), at) };
    Ok(answer.get()? as u16)
}

/// The word of 4 bytes at a place. A byte past the end counts as 0.
///
/// ```
/// use fetulombo::{Order, u32_at};
/// assert_eq!(u32_at(Order::Little, &[1, 2, 3, 4], 0), Ok(0x0403_0201));
/// assert_eq!(u32_at(Order::Little, &[1, 2, 3, 4], usize::MAX), Ok(0));
/// ```
pub fn u32_at(order: Order, bytes: &[u8], at: usize) -> Result<u32, Refusal> {
    // Safety: the slice is lent for the call.
    let answer = unsafe { fetulombo_u32_at(order.raw(), bytes.as_ptr(), bytes.len(), at) };
    Ok(answer.get()? as u32)
}

/// The word of 8 bytes at a place. A byte past the end counts as 0.
///
/// ```
/// use fetulombo::{Order, u64_at};
/// let bytes = [1, 2, 3, 4, 5, 6, 7, 8];
/// assert_eq!(u64_at(Order::Big, &bytes, 0), Ok(0x0102_0304_0506_0708));
/// ```
pub fn u64_at(order: Order, bytes: &[u8], at: usize) -> Result<u64, Refusal> {
    // Safety: the slice is lent for the call.
    let answer = unsafe { fetulombo_u64_at(order.raw(), bytes.as_ptr(), bytes.len(), at) };
    answer.get()
}
