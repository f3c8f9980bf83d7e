use crate::Refusal;
use crate::raw::{fetulombo_string_at, fetulombo_string_equals};
use core::ops::Range;

/// Where the string at an offset stands, without its zero. Refused as [`string_at`].
///
/// ```
/// use fetulombo::string_place;
/// assert_eq!(string_place(b"\0abc\0", 2), Ok(2..4));
/// ```
pub fn string_place(strings: &[u8], offset: u32) -> Result<Range<usize>, Refusal> {
    // Safety: the slice is lent for the call.
    unsafe { fetulombo_string_at(strings.as_ptr(), strings.len(), offset) }.get()
}

/// The string at an offset, without its zero. [`Refusal::NO_STRING`]: no byte is there, or no zero from
/// there on.
///
/// ```
/// use fetulombo::{Refusal, string_at};
/// assert_eq!(string_at(b"\0abc\0d", 1), Ok(&b"abc"[..]));
/// assert_eq!(string_at(b"\0abc\0d", 5), Err(Refusal::NO_STRING));
/// ```
pub fn string_at(strings: &[u8], offset: u32) -> Result<&[u8], Refusal> {
    Ok(&strings[string_place(strings, offset)?])
}

/// Whether there is a string at an offset and it is the name, byte for byte.
///
/// ```
/// use fetulombo::string_equals;
/// assert_eq!(string_equals(b"\0abc\0", 1, b"abc"), Ok(true));
/// assert_eq!(string_equals(b"\0abc\0", 1, b"ab"), Ok(false));
/// assert_eq!(string_equals(b"\0abc", 1, b"abc"), Ok(false));
/// ```
pub fn string_equals(strings: &[u8], offset: u32, name: &[u8]) -> Result<bool, Refusal> {
    // Safety: the slices are lent for the call.
    let answer = unsafe {
        fetulombo_string_equals(
            strings.as_ptr(),
            strings.len(),
            offset,
            name.as_ptr(),
            name.len(),
        )
    };
    Ok(answer.get()? == 1)
}
