use crate::Refusal;
use crate::raw::{fetulombo_gnu_hash, fetulombo_sysv_hash};

/// The GNU hash of a name, by which a GNU table is asked.
///
/// ```
/// # use fetulombo::{*, sample::*};
/// let table = GnuTable::parse(Class::Elf32, Order::Little, GNU)?;
/// let hash = GnuHash::of(b"import_lot")?;
/// let found = table.find_hashed(LIBRARY, VERSIONS, b"import_lot", hash, None)?;
/// assert_eq!(found.symbol, Some(SymbolIndex(2)));
/// # Ok::<(), Refusal>(())
/// ```
///
/// A SysV hash does not stand for it:
///
/// ```compile_fail,E0308
/// # use fetulombo::{*, sample::*};
/// let table = GnuTable::parse(Class::Elf32, Order::Little, GNU)?;
/// let hash = SysvHash::of(b"import_lot")?;
/// let found = table.find_hashed(LIBRARY, VERSIONS, b"import_lot", hash, None)?;
/// # Ok::<(), Refusal>(())
/// ```
#[derive(Debug, Clone, Copy, PartialEq, Eq, Hash)]
pub struct GnuHash(u32);

/// The SysV hash of a name, by which a SysV table is asked, and which a version's record holds.
///
/// ```
/// # use fetulombo::{*, sample::*};
/// let table = SysvTable::parse(Class::Elf32, Order::Little, SYSV)?;
/// let hash = SysvHash::of(b"import_lot")?;
/// let found = table.find_hashed(LIBRARY, VERSIONS, b"import_lot", hash, None)?;
/// assert_eq!(found.symbol, Some(SymbolIndex(2)));
/// # Ok::<(), Refusal>(())
/// ```
///
/// A GNU hash does not stand for it:
///
/// ```compile_fail,E0308
/// # use fetulombo::{*, sample::*};
/// let table = SysvTable::parse(Class::Elf32, Order::Little, SYSV)?;
/// let hash = GnuHash::of(b"import_lot")?;
/// let found = table.find_hashed(LIBRARY, VERSIONS, b"import_lot", hash, None)?;
/// # Ok::<(), Refusal>(())
/// ```
#[derive(Debug, Clone, Copy, PartialEq, Eq, Hash)]
pub struct SysvHash(u32);

impl GnuHash {
    /// The hash of a name, which is refused only where it is too long.
    ///
    /// ```
    /// use fetulombo::GnuHash;
    /// assert_eq!(GnuHash::of(b"").map(GnuHash::number), Ok(5381));
    /// assert_eq!(GnuHash::of(b"ab").map(GnuHash::number), Ok(5_863_208));
    /// ```
    pub fn of(name: &[u8]) -> Result<Self, Refusal> {
        // Safety: the slice is lent for the call.
        let answer = unsafe { fetulombo_gnu_hash(name.as_ptr(), name.len()) };
        Ok(GnuHash(answer.get()? as u32))
    }

    /// A number that was read from a file as a GNU hash. Nothing says whose hash it is: a lookup by
    /// one that is not the name's may miss a symbol.
    ///
    /// ```
    /// use fetulombo::GnuHash;
    /// assert_eq!(Ok(GnuHash::from_number(177_670)), GnuHash::of(b"a"));
    /// ```
    pub const fn from_number(number: u32) -> Self {
        GnuHash(number)
    }

    /// The number.
    ///
    /// ```
    /// use fetulombo::GnuHash;
    /// assert_eq!(GnuHash::from_number(177_670).number(), 177_670);
    /// ```
    pub const fn number(self) -> u32 {
        self.0
    }
}

impl SysvHash {
    /// The hash of a name, which is refused only where it is too long.
    ///
    /// ```
    /// use fetulombo::SysvHash;
    /// assert_eq!(SysvHash::of(b"").map(SysvHash::number), Ok(0));
    /// assert_eq!(SysvHash::of(b"ab").map(SysvHash::number), Ok(1650));
    /// ```
    pub fn of(name: &[u8]) -> Result<Self, Refusal> {
        // Safety: the slice is lent for the call.
        let answer = unsafe { fetulombo_sysv_hash(name.as_ptr(), name.len()) };
        Ok(SysvHash(answer.get()? as u32))
    }

    /// A number that was read from a file as a SysV hash. Nothing says whose hash it is: a lookup by
    /// one that is not the name's may miss a symbol, and a need with one may miss its version.
    ///
    /// ```
    /// use fetulombo::SysvHash;
    /// assert_eq!(Ok(SysvHash::from_number(97)), SysvHash::of(b"a"));
    /// ```
    pub const fn from_number(number: u32) -> Self {
        SysvHash(number)
    }

    /// The number.
    ///
    /// ```
    /// use fetulombo::SysvHash;
    /// assert_eq!(SysvHash::from_number(97).number(), 97);
    /// ```
    pub const fn number(self) -> u32 {
        self.0
    }
}
