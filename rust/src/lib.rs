//! Which symbol of an ELF library a name and a version bind to.
//!
//! Safe functions over `libfetulombo.a`, whose functions are proved to answer what their
//! definitions say. The archive is for x86-64 Linux; this package and the calls into the archive are
//! tested, not proved. It needs neither the standard library nor an allocator.
//!
//! ```
//! use fetulombo::{Class, GnuTable, GnuVerdict, Needed, Order, Refusal, SymbolIndex};
//! use fetulombo::{Symbols, Versions, versions_parse};
//! # use fetulombo::sample::{GNU, STRINGS, SYMBOLS, VERDEF, VERNEED, VERSYMS};
//! # let (table, symbols, strings, versyms, verdef, verneed) =
//! #     (GNU, SYMBOLS, STRINGS, VERSYMS, VERDEF, VERNEED);
//!
//! // The parts of a library with `import_lot` in two versions, as byte slices.
//! let (class, order) = (Class::Elf32, Order::Little);
//! let symbols = Symbols { symbols, strings };
//! let mut store = [0; 30];
//! versions_parse(order, verdef, verneed, strings, &mut store)?;
//! let versions = Versions { versyms, store: &store, strings };
//!
//! let table = GnuTable::parse(class, order, table)?;
//! assert_eq!(table.check(symbols), Ok(GnuVerdict::Accepted { longest: 2 }));
//! let old = table.find(symbols, versions, b"import_lot", Some(Needed::new(b"LOT_1.0")?))?;
//! let new = table.find(symbols, versions, b"import_lot", Some(Needed::new(b"LOT_2.0")?))?;
//! assert_eq!(old.symbol, Some(SymbolIndex(1)));
//! assert_eq!(new.symbol, Some(SymbolIndex(2)));
//! # Ok::<(), Refusal>(())
//! ```
//!
//! # Parts
//!
//! A part is a slice of bytes that is lent for a call: a table, symbols, strings, versyms, a version
//! section, notes, a note's name or descriptor, a table of program headers, a file, a wanted name. It
//! may hold any bytes: every function answers or refuses. One of more than [`LIMIT`] bytes is refused
//! ([`Refusal::TOO_LONG`]) before anything else. The store of the versions is no part: it holds
//! numbers, and may have any length.
//!
//! What is found in a lent slice is answered as a part of that slice, never as a copy. Where its place
//! is wanted, there is a form that answers a range (`string_place` beside [`string_at`]).
//!
//! # Refusals
//!
//! A [`Refusal`] is a number and nothing else. Each function says which it has and in which order they
//! come.
//!
//! # Threads
//!
//! The functions keep nothing between calls, so any number of threads may call them at once, also over
//! the same parts. [`versions_parse`] and [`store_needed`] alone write to lent memory, the store, which
//! they borrow alone.
//!
//! # What a lookup matches
//!
//! A symbol matches where its name is the wanted one, byte for byte, and its version is the needed one.
//! The version is behind its index, the low 15 bits of its versym, or 1 where it has none; the top bit
//! of a versym means hidden.
//!
//! | index | with a need | without |
//! |---|---|---|
//! | 0 or 1, which name no version | never | always, hidden or not |
//! | one that is invalid ([`Refusal::BAD_VERSION_INDEX`]) | never | never |
//! | any other | where hash and name are equal; the file is not compared | where it is not hidden |
//!
//! A lookup hashes the name itself, and [`Needed::new`] the version's. Whoever keeps hashes has a type
//! for each of the two, [`GnuHash`] and [`SysvHash`], so that one cannot stand for the other.
//!
//! # Out of scope
//!
//! ELF64 files of s390x and of Alpha have a SysV hash table whose words have 8 bytes. Such a table
//! would be read as another one. A caller learns of it from the section's entry size (`sh_entsize` is 8)
//! and must not lend it.
//!
//! File header, sections and relocations are not read. `examples/lookup.rs` shows how the parts of a
//! library are found.

#![no_std]
#![deny(missing_docs)]

mod check;
mod hash;
mod lookup;
mod note;
mod raw;
mod refusal;
#[doc(hidden)]
pub mod sample;
mod segment;
mod string;
mod symbol;
mod version;
mod word;

pub use check::{GnuVerdict, SysvVerdict};
pub use hash::{GnuHash, SysvHash};
pub use lookup::{Found, GnuTable, Symbols, SysvTable};
pub use note::{
    Note, Notes, Properties, Property, gnu_properties, notes, property_number, trimmed,
};
pub use refusal::Refusal;
pub use segment::{
    Dynamic, DynamicEntry, Permissions, Segment, SegmentKind, dynamic_entry, segment_at,
    segment_count,
};
pub use string::{string_at, string_equals, string_place};
pub use symbol::{Symbol, SymbolIndex, symbol_at, symbol_count, symbol_name, symbol_name_place};
pub use version::{
    ENTRY, LARGEST_STORE, Needed, Version, VersionIndex, VersionPlace, Versions, Versym, store_len,
    store_needed, versions_parse,
};
pub use word::{u16_at, u32_at, u64_at};

/// The most bytes that a lent part may have.
///
/// ```
/// use fetulombo::{LIMIT, Refusal, string_at};
/// let strings = vec![0; LIMIT + 1];
/// assert_eq!(string_at(&strings, 0), Err(Refusal::TOO_LONG));
/// assert_eq!(string_at(&strings[1..], 0), Ok(&b""[..]));
/// ```
pub const LIMIT: usize = 1_073_741_824;

/// Whether a file has the layouts of 32 bits or those of 64.
///
/// ```
/// use fetulombo::{Class, symbol_count};
/// assert_eq!(symbol_count(Class::Elf32, &[0; 48]), Ok(3));
/// assert_eq!(symbol_count(Class::Elf64, &[0; 48]), Ok(2));
/// ```
#[derive(Debug, Clone, Copy, PartialEq, Eq, Hash)]
pub enum Class {
    /// 32 bits.
    Elf32,
    /// 64 bits.
    Elf64,
}

/// Which byte of a word comes first.
///
/// ```
/// use fetulombo::{Order, u16_at};
/// assert_eq!(u16_at(Order::Little, &[1, 2], 0), Ok(0x0201));
/// assert_eq!(u16_at(Order::Big, &[1, 2], 0), Ok(0x0102));
/// ```
#[derive(Debug, Clone, Copy, PartialEq, Eq, Hash)]
pub enum Order {
    /// The lowest.
    Little,
    /// The highest.
    Big,
}

impl Class {
    /// The class that byte 4 of a file (`e_ident[EI_CLASS]`) names: 1 is ELF32 and 2 is ELF64. Any
    /// other is refused ([`Refusal::UNKNOWN_KIND`]).
    ///
    /// ```
    /// use fetulombo::{Class, Refusal};
    /// let file = b"\x7fELF\x02\x01\x01";
    /// assert_eq!(Class::from_ident(file[4]), Ok(Class::Elf64));
    /// assert_eq!(Class::from_ident(0), Err(Refusal::UNKNOWN_KIND));
    /// ```
    pub const fn from_ident(byte: u8) -> Result<Self, Refusal> {
        match byte {
            1 => Ok(Class::Elf32),
            2 => Ok(Class::Elf64),
            _ => Err(Refusal::UNKNOWN_KIND),
        }
    }

    fn raw(self) -> u8 {
        match self {
            Class::Elf32 => 1,
            Class::Elf64 => 2,
        }
    }
}

impl Order {
    /// The order that byte 5 of a file (`e_ident[EI_DATA]`) names: 1 is little and 2 is big. Any other
    /// is refused ([`Refusal::UNKNOWN_KIND`]).
    ///
    /// ```
    /// use fetulombo::{Order, Refusal};
    /// let file = b"\x7fELF\x02\x01\x01";
    /// assert_eq!(Order::from_ident(file[5]), Ok(Order::Little));
    /// assert_eq!(Order::from_ident(3), Err(Refusal::UNKNOWN_KIND));
    /// ```
    pub const fn from_ident(byte: u8) -> Result<Self, Refusal> {
        match byte {
            1 => Ok(Order::Little),
            2 => Ok(Order::Big),
            _ => Err(Refusal::UNKNOWN_KIND),
        }
    }

    fn raw(self) -> u8 {
        match self {
            Order::Little => 1,
            Order::Big => 2,
        }
    }
}
