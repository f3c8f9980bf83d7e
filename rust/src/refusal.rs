//! Refusals, by their numbers.

use core::fmt;
use core::num::NonZeroU32;

/// Why there is no answer: a number, and nothing else.
///
/// ```
/// use fetulombo::{Refusal, string_at};
/// let refusal = string_at(b"", 0).unwrap_err();
/// assert_eq!(refusal, Refusal::NO_STRING);
/// assert_eq!(refusal.to_string(), "refused (36): no string stands at that offset");
/// ```
#[derive(Clone, Copy, PartialEq, Eq, PartialOrd, Ord, Hash)]
pub struct Refusal(NonZeroU32);

macro_rules! refusals {
    ($($name:ident $number:literal $text:literal,)*) => {
        impl Refusal {
            $(
                #[doc = $text]
                pub const $name: Refusal = Refusal(NonZeroU32::new($number).unwrap());
            )*

            /// All of them, in order: 1 to 37, and 39.
            ///
            /// ```
            /// use fetulombo::Refusal;
            /// assert_eq!(Refusal::ALL[36], Refusal::NO_SYMBOL);
            /// assert_eq!(Refusal::ALL[37], Refusal::UNKNOWN_KIND);
            /// assert_eq!(Refusal::ALL.len(), 38);
            /// ```
            pub const ALL: &[Refusal] = &[$(Refusal::$name,)*];

            fn text(self) -> &'static str {
                match self.number() {
                    $($number => $text,)*
                    _ => "a refusal of another version of the library",
                }
            }
        }
    };
}

refusals! {
    TOO_LONG 1 "a part is too long",
    NOTE_SHORT 2 "a note's header is short",
    BAD_NOTE_NAME 3 "a note's name runs past the bytes",
    BAD_NOTE_DESCRIPTOR 4 "a note's descriptor runs past the bytes",
    BAD_NOTE_ALIGNMENT 5 "a note alignment other than 0 to 4 or 8",
    BAD_PROPERTY 6 "a property runs past its note",
    SHORT_PROPERTY_NUMBER 7 "a property's number has fewer than 4 bytes",
    VERDEF_SHORT 8 "a Verdef is short",
    BAD_VERDEF_AUX 9 "a Verdef's aux lies past the bytes",
    BAD_VERDEF_NEXT 10 "a Verdef's next lies past the bytes",
    VERDAUX_SHORT 11 "a Verdaux is short",
    BAD_VERDAUX_NEXT 12 "a Verdaux's next lies past the bytes",
    VERNEED_SHORT 13 "a Verneed is short",
    BAD_VERNEED_AUX 14 "a Verneed's aux lies past the bytes",
    BAD_VERNEED_NEXT 15 "a Verneed's next lies past the bytes",
    VERNAUX_SHORT 16 "a Vernaux is short",
    BAD_VERNAUX_NEXT 17 "a Vernaux's next lies past the bytes",
    BAD_VERDAUX_NAME 18 "a Verdaux's name cannot be read",
    BAD_VERNEED_FILE 19 "a Verneed's file cannot be read",
    BAD_VERNAUX_NAME 20 "a Vernaux's name cannot be read",
    BAD_VERSION_INDEX 21 "the version index is invalid",
    STORE_TOO_SMALL 22 "the store is too small",
    BAD_SYSV_HEADER 23 "a SysV table's header is short",
    BAD_SYSV_BUCKETS 24 "a SysV table's buckets run past it",
    BAD_SYSV_CHAINS 25 "a SysV table's chains run past it",
    BAD_GNU_HEADER 26 "a GNU table's header is short",
    BAD_GNU_BLOOM 27 "a GNU table's bloom words run past it",
    BAD_GNU_BUCKETS 28 "a GNU table's buckets run past it",
    NO_SEGMENT 29 "no whole segment record has that number",
    BAD_BLOOM_SHIFT 30 "a bloom shift above 31",
    BAD_SEGMENT_DATA 31 "a segment's data lies outside the file",
    BAD_DYNAMIC_PLACE 32 "a dynamic segment lies outside the file",
    BAD_INTERPRETER_PLACE 33 "an interpreter lies outside the file",
    ENDLESS_INTERPRETER 34 "an interpreter has no zero",
    BAD_NOTE_PLACE 35 "a note segment lies outside the file",
    NO_STRING 36 "no string stands at that offset",
    NO_SYMBOL 37 "no symbol has that number",
    UNKNOWN_KIND 39 "a class or a byte order that is none",
}

impl Refusal {
    /// The number.
    ///
    /// ```
    /// use fetulombo::Refusal;
    /// assert_eq!(Refusal::TOO_LONG.number(), 1);
    /// assert_eq!(Refusal::UNKNOWN_KIND.number(), 39);
    /// ```
    pub const fn number(self) -> u32 {
        self.0.get()
    }

    /// The refusal field of an answer: 0 is none.
    pub(crate) fn test(number: u64) -> Result<(), Refusal> {
        match NonZeroU32::new(number as u32) {
            None => Ok(()),
            Some(number) => Err(Refusal(number)),
        }
    }
}

impl fmt::Display for Refusal {
    fn fmt(&self, f: &mut fmt::Formatter<'_>) -> fmt::Result {
        write!(f, "refused ({}): {}", self.number(), self.text())
    }
}

impl fmt::Debug for Refusal {
    fn fmt(&self, f: &mut fmt::Formatter<'_>) -> fmt::Result {
        write!(f, "Refusal({})", self.number())
    }
}

impl core::error::Error for Refusal {}
