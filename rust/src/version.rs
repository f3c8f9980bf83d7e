use crate::raw::{
    fetulombo_version_entry, fetulombo_version_matches, fetulombo_version_of,
    fetulombo_versions_parse,
};
use crate::{Order, Refusal, SymbolIndex, SysvHash};
use core::ops::Range;

/// The numbers of a version in the store: kind, hash, name start, name length, file start, file length.
///
/// ```
/// # use fetulombo::{*, sample::*};
/// assert_eq!(STORE[2 * ENTRY..3 * ENTRY], [1, 0x014a_2440, 12, 7, 0, 0]);
/// ```
pub const ENTRY: usize = 6;

/// Numbers in a store that is always large enough: 393,216.
///
/// ```
/// use fetulombo::{LARGEST_STORE, VersionIndex, store_len};
/// assert_eq!(LARGEST_STORE, store_len(VersionIndex(u16::MAX)));
/// ```
pub const LARGEST_STORE: usize = store_len(VersionIndex(u16::MAX));

/// A version's number, which is never a symbol's.
///
/// ```
/// # use fetulombo::{*, sample::*};
/// assert!(VERSIONS.entry(VersionIndex(2)).is_ok());
/// ```
///
/// ```compile_fail,E0308
/// # use fetulombo::{*, sample::*};
/// assert!(VERSIONS.entry(SymbolIndex(2)).is_ok());
/// ```
#[derive(Debug, Clone, Copy, PartialEq, Eq, PartialOrd, Ord, Hash)]
pub struct VersionIndex(
    /// The number.
    pub u16,
);

/// What a symbol's versym says.
///
/// ```
/// # use fetulombo::{*, sample::*};
/// let versym = VERSIONS.version_of(Order::Little, SymbolIndex(1))?;
/// assert_eq!(versym, Versym { index: VersionIndex(2), hidden: true });
/// # Ok::<(), Refusal>(())
/// ```
#[derive(Debug, Clone, Copy, PartialEq, Eq, Hash)]
pub struct Versym {
    /// The low 15 bits.
    pub index: VersionIndex,
    /// The top bit.
    pub hidden: bool,
}

/// A version that a library defines, or one that it needs of a file. Names and files are parts of the
/// versions' strings; the hash is the one that the record holds, whether or not it is the name's.
///
/// ```
/// # use fetulombo::{*, sample::*};
/// let Some(Version::Need { hash, name, file }) = VERSIONS.entry(VersionIndex(4))? else {
///     panic!("a need")
/// };
/// assert_eq!((name, file), (&b"SUM_1"[..], &b"libsum.so"[..]));
/// assert_eq!(Ok(hash), SysvHash::of(name));
/// # Ok::<(), Refusal>(())
/// ```
#[derive(Debug, Clone, Copy, PartialEq, Eq, Hash)]
pub enum Version<'data> {
    /// One that the library defines.
    Definition {
        /// The hash in its record.
        hash: SysvHash,
        /// Its name.
        name: &'data [u8],
    },
    /// One that it needs.
    Need {
        /// The hash in its record.
        hash: SysvHash,
        /// Its name.
        name: &'data [u8],
        /// The file that has it.
        file: &'data [u8],
    },
}

/// The same with places in the versions' strings.
///
/// ```
/// # use fetulombo::{*, sample::*};
/// let Some(VersionPlace::Definition { name, .. }) = VERSIONS.entry_place(VersionIndex(2))? else {
///     panic!("a definition")
/// };
/// assert_eq!(name, 12..19);
/// # Ok::<(), Refusal>(())
/// ```
#[derive(Debug, Clone, PartialEq, Eq, Hash)]
pub enum VersionPlace {
    /// One that the library defines.
    Definition {
        /// The hash in its record.
        hash: SysvHash,
        /// The place of its name.
        name: Range<usize>,
    },
    /// One that it needs.
    Need {
        /// The hash in its record.
        hash: SysvHash,
        /// The place of its name.
        name: Range<usize>,
        /// The place of the name of the file that has it.
        file: Range<usize>,
    },
}

/// A version that is needed: its name and the SysV hash of that name.
///
/// ```
/// # use fetulombo::{*, sample::*};
/// let table = GnuTable::parse(Class::Elf32, Order::Little, GNU)?;
/// let need = Needed::new(b"LOT_1.0")?;
/// let found = table.find(LIBRARY, VERSIONS, b"import_lot", Some(need))?;
/// assert_eq!(found.symbol, Some(SymbolIndex(1)));
/// # Ok::<(), Refusal>(())
/// ```
#[derive(Debug, Clone, Copy, PartialEq, Eq, Hash)]
pub struct Needed<'name> {
    name: &'name [u8],
    hash: SysvHash,
}

impl<'name> Needed<'name> {
    /// The version of a name, which is hashed here. Refused only where the name is too long.
    ///
    /// ```
    /// # use fetulombo::{*, sample::*};
    /// let need = Some(Needed::new(b"LOT_2.0")?);
    /// assert_eq!(VERSIONS.matches(Order::Little, SymbolIndex(2), need), Ok(true));
    /// assert_eq!(VERSIONS.matches(Order::Little, SymbolIndex(1), need), Ok(false));
    /// # Ok::<(), Refusal>(())
    /// ```
    pub fn new(name: &'name [u8]) -> Result<Self, Refusal> {
        let hash = SysvHash::of(name)?;
        Ok(Needed { name, hash })
    }

    /// The version of a name with a hash that is at hand, as from the record of a program that needs it.
    /// A match wants both to be equal, so one whose hash is not the name's may be missed.
    ///
    /// ```
    /// # use fetulombo::{*, sample::*};
    /// let hash = SysvHash::of(b"LOT_2.0")?;
    /// assert_eq!(Needed::with_hash(b"LOT_2.0", hash), Needed::new(b"LOT_2.0")?);
    /// # Ok::<(), Refusal>(())
    /// ```
    ///
    /// A GNU hash is none of a version:
    ///
    /// ```compile_fail,E0308
    /// # use fetulombo::{*, sample::*};
    /// let hash = GnuHash::of(b"LOT_2.0")?;
    /// assert_eq!(Needed::with_hash(b"LOT_2.0", hash), Needed::new(b"LOT_2.0")?);
    /// # Ok::<(), Refusal>(())
    /// ```
    pub const fn with_hash(name: &'name [u8], hash: SysvHash) -> Self {
        Needed { name, hash }
    }

    /// As the archive takes it: whether there is a need, its hash and its name.
    pub(crate) fn parts(need: Option<Self>) -> (u8, u32, &'name [u8]) {
        match need {
            None => (0, 0, &[]),
            Some(need) => (1, need.hash.number(), need.name),
        }
    }
}

/// Parses the definitions and the needs into the store, and answers the highest index. An absent
/// section is an empty one. Every number of the store is settled: those of the versions up to the
/// highest index, and 0 in all others; after a refusal all are 0. How many numbers it must have:
/// [`store_len`].
///
/// Refused, each list record by record:
///
/// 1. [`TOO_LONG`](Refusal::TOO_LONG).
/// 2. The first pass. Of each Verdef: short (8), aux (9), next (10). Then of each Verneed: short (13),
///    aux (14), next (15), and of each of its Vernauxs: short (16), next (17). So a bad Vernaux comes
///    before a bad Verneed that follows it.
/// 3. [`STORE_TOO_SMALL`](Refusal::STORE_TOO_SMALL).
/// 4. The second pass. Of the first Verdaux of each Verdef: short (11), next (12), name (18). Then of each
///    Vernaux of each Verneed: its name (20) and then its Verneed's file (19), so one that has neither
///    answers 20. What is behind the indices 0 and 1 or a base definition is not read.
///
/// ```
/// # use fetulombo::{*, sample::*};
/// let mut store = [7; 32];
/// let highest = versions_parse(Order::Little, VERDEF, VERNEED, STRINGS, &mut store);
/// assert_eq!(highest, Ok(VersionIndex(4)));
/// assert_eq!(store[..30], *STORE);
/// assert_eq!(store[30..], [0, 0]);
/// ```
pub fn versions_parse(
    order: Order,
    verdef: &[u8],
    verneed: &[u8],
    strings: &[u8],
    store: &mut [u32],
) -> Result<VersionIndex, Refusal> {
    // Safety: the slices are lent for the call, and the store is lent alone.
    let answer = unsafe {
        fetulombo_versions_parse(
            order.raw(),
            verdef.as_ptr(),
            verdef.len(),
            verneed.as_ptr(),
            verneed.len(),
            strings.as_ptr(),
            strings.len(),
            store.as_mut_ptr(),
            store.len(),
        )
    };
    Ok(VersionIndex(answer.get()? as u16))
}

/// How many numbers a store must have for versions up to a highest index: so many of a larger store, from
/// its front, are to be kept after [`versions_parse`].
///
/// ```
/// # use fetulombo::{*, sample::*};
/// let mut store = vec![0; LARGEST_STORE];
/// let highest = versions_parse(Order::Little, VERDEF, VERNEED, STRINGS, &mut store)?;
/// store.truncate(store_len(highest));
/// assert_eq!(store, STORE);
/// # Ok::<(), Refusal>(())
/// ```
pub const fn store_len(highest: VersionIndex) -> usize {
    (highest.0 as usize + 1) * ENTRY
}

/// How many numbers a store must have for these sections. With one number less [`versions_parse`]
/// refuses [`Refusal::STORE_TOO_SMALL`].
///
/// The highest index is known by parsing alone, so the sections are parsed into `scratch`, which is
/// settled as by [`versions_parse`] and refused as there: [`LARGEST_STORE`] numbers are always enough. One
/// scratch serves any number of libraries, one after the other.
///
/// ```
/// # use fetulombo::{*, sample::*};
/// let mut scratch = vec![0; LARGEST_STORE];
/// let needed = store_needed(Order::Little, VERDEF, VERNEED, STRINGS, &mut scratch);
/// assert_eq!(needed, Ok(30));
/// ```
pub fn store_needed(
    order: Order,
    verdef: &[u8],
    verneed: &[u8],
    strings: &[u8],
    scratch: &mut [u32],
) -> Result<usize, Refusal> {
    versions_parse(order, verdef, verneed, strings, scratch).map(store_len)
}

/// A version table: the versyms, a store that [`versions_parse`] filled, and the strings that it was lent.
/// A store may hold anything: what does not lie in the strings is an invalid version.
///
/// ```
/// # use fetulombo::{*, sample::*};
/// let versions = Versions { versyms: VERSYMS, store: STORE, strings: STRINGS };
/// assert_eq!(versions.matches(Order::Little, SymbolIndex(2), None), Ok(true));
/// ```
#[derive(Debug, Clone, Copy)]
pub struct Versions<'data> {
    /// Two bytes for each symbol.
    pub versyms: &'data [u8],
    /// [`ENTRY`] numbers for each index.
    pub store: &'data [u32],
    /// The strings of the version sections.
    pub strings: &'data [u8],
}

impl<'data> Versions<'data> {
    /// The table of a library without versions.
    ///
    /// ```
    /// # use fetulombo::{*, sample::*};
    /// let need = Some(Needed::new(b"LOT_1.0")?);
    /// assert_eq!(Versions::NONE.matches(Order::Big, SymbolIndex(1), None), Ok(true));
    /// assert_eq!(Versions::NONE.matches(Order::Big, SymbolIndex(1), need), Ok(false));
    /// # Ok::<(), Refusal>(())
    /// ```
    pub const NONE: Versions<'static> = Versions {
        versyms: &[],
        store: &[],
        strings: &[],
    };

    /// The version behind an index, or nothing for the indices 0 and 1, which name none.
    /// [`Refusal::BAD_VERSION_INDEX`]: past the whole entries of the store, of another kind, or with a name
    /// or a file outside the strings.
    ///
    /// ```
    /// # use fetulombo::{*, sample::*};
    /// let definition = Version::Definition {
    ///     hash: SysvHash::of(b"LOT_1.0")?,
    ///     name: b"LOT_1.0",
    /// };
    /// assert_eq!(VERSIONS.entry(VersionIndex(2)), Ok(Some(definition)));
    /// assert_eq!(VERSIONS.entry(VersionIndex(1)), Ok(None));
    /// assert_eq!(VERSIONS.entry(VersionIndex(5)), Err(Refusal::BAD_VERSION_INDEX));
    /// # Ok::<(), Refusal>(())
    /// ```
    pub fn entry(&self, index: VersionIndex) -> Result<Option<Version<'data>>, Refusal> {
        let part = |place| &self.strings[place];
        Ok(self.entry_place(index)?.map(|version| match version {
            VersionPlace::Definition { hash, name } => Version::Definition {
                hash,
                name: part(name),
            },
            VersionPlace::Need { hash, name, file } => Version::Need {
                hash,
                name: part(name),
                file: part(file),
            },
        }))
    }

    /// The same with places in the versions' strings. Refused as [`entry`](Self::entry).
    ///
    /// ```
    /// # use fetulombo::{*, sample::*};
    /// let need = VersionPlace::Need { hash: SysvHash::of(b"SUM_1")?, name: 38..43, file: 28..37 };
    /// assert_eq!(VERSIONS.entry_place(VersionIndex(4)), Ok(Some(need)));
    /// # Ok::<(), Refusal>(())
    /// ```
    pub fn entry_place(&self, index: VersionIndex) -> Result<Option<VersionPlace>, Refusal> {
        // Safety: the slices are lent for the call.
        let answer = unsafe {
            fetulombo_version_entry(
                self.store.as_ptr(),
                self.store.len(),
                self.strings.as_ptr(),
                self.strings.len(),
                index.0,
            )
        };
        Refusal::test(answer.refusal.into())?;
        if answer.special == 1 {
            return Ok(None);
        }
        let place = |start: u32, length: u32| start as usize..start as usize + length as usize;
        let hash = SysvHash::from_number(answer.hash);
        let name = place(answer.name, answer.name_length);
        Ok(Some(match answer.kind {
            1 => VersionPlace::Definition { hash, name },
            _ => VersionPlace::Need {
                hash,
                name,
                file: place(answer.file, answer.file_length),
            },
        }))
    }

    /// The version of a symbol: its versym, or index 1 and not hidden where there is none.
    ///
    /// ```
    /// # use fetulombo::{*, sample::*};
    /// let versym = |symbol| VERSIONS.version_of(Order::Little, SymbolIndex(symbol));
    /// assert_eq!(versym(2), Ok(Versym { index: VersionIndex(3), hidden: false }));
    /// assert_eq!(versym(9), Ok(Versym { index: VersionIndex(1), hidden: false }));
    /// ```
    pub fn version_of(&self, order: Order, symbol: SymbolIndex) -> Result<Versym, Refusal> {
        // Safety: the slice is lent for the call.
        let answer = unsafe {
            fetulombo_version_of(
                order.raw(),
                self.versyms.as_ptr(),
                self.versyms.len(),
                symbol.0,
            )
        };
        Refusal::test(answer.refusal)?;
        Ok(Versym {
            index: VersionIndex(answer.index as u16),
            hidden: answer.hidden == 1,
        })
    }

    /// Whether the version of a symbol is the one that is needed. Without a need a symbol of index 0 or 1
    /// matches, hidden or not, one with an invalid index never does, and any other exactly if it is not
    /// hidden.
    ///
    /// ```
    /// # use fetulombo::{*, sample::*};
    /// let matches = |symbol, need| VERSIONS.matches(Order::Little, SymbolIndex(symbol), need);
    /// assert_eq!(matches(1, None), Ok(false));
    /// assert_eq!(matches(1, Some(Needed::new(b"LOT_1.0")?)), Ok(true));
    /// assert_eq!(matches(1, Some(Needed::new(b"LOT_2.0")?)), Ok(false));
    /// # Ok::<(), Refusal>(())
    /// ```
    pub fn matches(
        &self,
        order: Order,
        symbol: SymbolIndex,
        need: Option<Needed<'_>>,
    ) -> Result<bool, Refusal> {
        let (needed, hash, name) = Needed::parts(need);
        // Safety: the slices are lent for the call.
        let answer = unsafe {
            fetulombo_version_matches(
                order.raw(),
                self.versyms.as_ptr(),
                self.versyms.len(),
                self.store.as_ptr(),
                self.store.len(),
                self.strings.as_ptr(),
                self.strings.len(),
                symbol.0,
                needed,
                hash,
                name.as_ptr(),
                name.len(),
            )
        };
        Ok(answer.get()? == 1)
    }
}
