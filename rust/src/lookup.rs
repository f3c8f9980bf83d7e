use crate::raw::{
    Lookup as RawLookup, fetulombo_gnu_base, fetulombo_gnu_find, fetulombo_gnu_length,
    fetulombo_sysv_find, fetulombo_sysv_length,
};
use crate::{Class, GnuHash, Needed, Order, Refusal, SymbolIndex, SysvHash, Versions};

/// Symbols and their strings.
///
/// ```
/// # use fetulombo::{*, sample::*};
/// let symbols = Symbols { symbols: SYMBOLS, strings: STRINGS };
/// let table = SysvTable::parse(Class::Elf32, Order::Little, SYSV)?;
/// assert_eq!(table.check(symbols), Ok(SysvVerdict::Accepted));
/// # Ok::<(), Refusal>(())
/// ```
#[derive(Debug, Clone, Copy)]
pub struct Symbols<'data> {
    /// The symbols.
    pub symbols: &'data [u8],
    /// The strings that hold their names.
    pub strings: &'data [u8],
}

/// What a lookup gives: the symbol, if there is one, and how many were tested.
///
/// ```
/// # use fetulombo::{*, sample::*};
/// let table = SysvTable::parse(Class::Elf32, Order::Little, SYSV)?;
/// let found = table.find(LIBRARY, VERSIONS, b"import_lot", None)?;
/// assert_eq!(found, Found { symbol: Some(SymbolIndex(2)), probes: 2 });
/// # Ok::<(), Refusal>(())
/// ```
#[derive(Debug, Clone, Copy, PartialEq, Eq, Hash)]
pub struct Found {
    /// The number of the symbol.
    pub symbol: Option<SymbolIndex>,
    /// How many symbols were tested, whether or not one was found.
    pub probes: u64,
}

/// A GNU table that has its header, its bloom words and its buckets.
///
/// ```
/// # use fetulombo::{*, sample::*};
/// let table = GnuTable::parse(Class::Elf32, Order::Little, GNU)?;
/// assert_eq!(table.check(LIBRARY), Ok(GnuVerdict::Accepted { longest: 2 }));
/// let found = table.find(LIBRARY, VERSIONS, b"import_lot", None)?;
/// assert_eq!(found.symbol, Some(SymbolIndex(2)));
/// # Ok::<(), Refusal>(())
/// ```
#[derive(Debug, Clone, Copy)]
pub struct GnuTable<'data> {
    pub(crate) class: Class,
    pub(crate) order: Order,
    pub(crate) table: &'data [u8],
    base: u32,
}

/// A SysV table that has its header, its buckets and its chains. Its words have 4 bytes: one of words of
/// 8 (`sh_entsize` is 8, as on s390x and Alpha) is out of scope and must not be lent.
///
/// ```
/// # use fetulombo::{*, sample::*};
/// let table = SysvTable::parse(Class::Elf32, Order::Little, SYSV)?;
/// assert_eq!(table.check(LIBRARY), Ok(SysvVerdict::Accepted));
/// let found = table.find(LIBRARY, VERSIONS, b"import_lot", None)?;
/// assert_eq!(found.symbol, Some(SymbolIndex(2)));
/// # Ok::<(), Refusal>(())
/// ```
#[derive(Debug, Clone, Copy)]
pub struct SysvTable<'data> {
    pub(crate) class: Class,
    pub(crate) order: Order,
    pub(crate) table: &'data [u8],
    length: u32,
}

impl<'data> GnuTable<'data> {
    /// The table in these bytes, which may be longer than it. Refused in this order:
    /// [`TOO_LONG`](Refusal::TOO_LONG), [`BAD_GNU_HEADER`](Refusal::BAD_GNU_HEADER),
    /// [`BAD_GNU_BLOOM`](Refusal::BAD_GNU_BLOOM), [`BAD_GNU_BUCKETS`](Refusal::BAD_GNU_BUCKETS).
    ///
    /// ```
    /// # use fetulombo::{*, sample::*};
    /// let table = |bytes| GnuTable::parse(Class::Elf32, Order::Little, bytes);
    /// assert!(table(GNU).is_ok());
    /// assert_eq!(table(&GNU[..15]).map(drop), Err(Refusal::BAD_GNU_HEADER));
    /// ```
    pub fn parse(class: Class, order: Order, table: &'data [u8]) -> Result<Self, Refusal> {
        // Safety: the slice is lent for the call.
        let answer =
            unsafe { fetulombo_gnu_base(class.raw(), order.raw(), table.as_ptr(), table.len()) };
        let base = answer.get()? as u32;
        Ok(GnuTable {
            class,
            order,
            table,
            base,
        })
    }

    /// The number of the first hashed symbol.
    ///
    /// ```
    /// # use fetulombo::{*, sample::*};
    /// let table = GnuTable::parse(Class::Elf32, Order::Little, GNU)?;
    /// assert_eq!(table.symbol_base(), SymbolIndex(1));
    /// # Ok::<(), Refusal>(())
    /// ```
    pub fn symbol_base(&self) -> SymbolIndex {
        SymbolIndex(self.base)
    }

    /// The number of symbols that the table speaks of: one more than the symbol at which the chain of the
    /// highest bucket ends. Nothing where the symbol base or the bucket count is 0, the highest bucket is
    /// below the symbol base, no word ends its chain, or the number passes 32 bits.
    ///
    /// ```
    /// # use fetulombo::{*, sample::*};
    /// let table = GnuTable::parse(Class::Elf32, Order::Little, GNU)?;
    /// assert_eq!(table.length(), Ok(Some(3)));
    /// let without_end = GnuTable::parse(Class::Elf32, Order::Little, &GNU[..28])?;
    /// assert_eq!(without_end.length(), Ok(None));
    /// # Ok::<(), Refusal>(())
    /// ```
    pub fn length(&self) -> Result<Option<u32>, Refusal> {
        // Safety: the slice is lent for the call.
        let answer = unsafe {
            fetulombo_gnu_length(
                self.class.raw(),
                self.order.raw(),
                self.table.as_ptr(),
                self.table.len(),
            )
        };
        Refusal::test(answer.refusal)?;
        Ok((answer.known == 1).then_some(answer.symbols as u32))
    }

    /// The symbol of a name and a version, or without a need as in [`Versions::matches`]. All parts are
    /// read in the table's class and byte order. Refused: [`TOO_LONG`](Refusal::TOO_LONG), then
    /// [`BAD_BLOOM_SHIFT`](Refusal::BAD_BLOOM_SHIFT), where the second bit of the bloom filter is reached.
    ///
    /// ```
    /// # use fetulombo::{*, sample::*};
    /// let table = GnuTable::parse(Class::Elf32, Order::Little, GNU)?;
    /// let need = Some(Needed::new(b"LOT_1.0")?);
    /// let found = table.find(LIBRARY, VERSIONS, b"import_lot", need)?;
    /// assert_eq!(found, Found { symbol: Some(SymbolIndex(1)), probes: 1 });
    /// let absent = table.find(LIBRARY, VERSIONS, b"import", need)?;
    /// assert_eq!(absent, Found { symbol: None, probes: 0 });
    /// # Ok::<(), Refusal>(())
    /// ```
    pub fn find(
        &self,
        symbols: Symbols<'_>,
        versions: Versions<'_>,
        name: &[u8],
        need: Option<Needed<'_>>,
    ) -> Result<Found, Refusal> {
        self.find_hashed(symbols, versions, name, GnuHash::of(name)?, need)
    }

    /// The same by a hash that is at hand, so that a name that is looked up in many libraries is hashed
    /// once. A hash that is not the name's may miss a symbol; it never finds one of another name or
    /// version.
    ///
    /// ```
    /// # use fetulombo::{*, sample::*};
    /// let table = GnuTable::parse(Class::Elf32, Order::Little, GNU)?;
    /// let (name, hash) = (b"import_lot", GnuHash::of(b"import_lot")?);
    /// let found = table.find_hashed(LIBRARY, VERSIONS, name, hash, None);
    /// assert_eq!(found, table.find(LIBRARY, VERSIONS, name, None));
    /// # Ok::<(), Refusal>(())
    /// ```
    pub fn find_hashed(
        &self,
        symbols: Symbols<'_>,
        versions: Versions<'_>,
        name: &[u8],
        hash: GnuHash,
        need: Option<Needed<'_>>,
    ) -> Result<Found, Refusal> {
        let table = (self.class, self.order, self.table);
        let wanted = (name, hash.number(), need);
        find(fetulombo_gnu_find, table, symbols, versions, wanted)
    }
}

impl<'data> SysvTable<'data> {
    /// The table in these bytes, which may be longer than it. Refused in this order:
    /// [`TOO_LONG`](Refusal::TOO_LONG), [`BAD_SYSV_HEADER`](Refusal::BAD_SYSV_HEADER),
    /// [`BAD_SYSV_BUCKETS`](Refusal::BAD_SYSV_BUCKETS), [`BAD_SYSV_CHAINS`](Refusal::BAD_SYSV_CHAINS).
    ///
    /// ```
    /// # use fetulombo::{*, sample::*};
    /// let table = |bytes| SysvTable::parse(Class::Elf32, Order::Little, bytes);
    /// assert!(table(SYSV).is_ok());
    /// assert_eq!(table(&SYSV[..23]).map(drop), Err(Refusal::BAD_SYSV_CHAINS));
    /// ```
    pub fn parse(class: Class, order: Order, table: &'data [u8]) -> Result<Self, Refusal> {
        // Safety: the slice is lent for the call.
        let answer = unsafe { fetulombo_sysv_length(order.raw(), table.as_ptr(), table.len()) };
        let length = answer.get()? as u32;
        Ok(SysvTable {
            class,
            order,
            table,
            length,
        })
    }

    /// The number of symbols that the table speaks of.
    ///
    /// ```
    /// # use fetulombo::{*, sample::*};
    /// let table = SysvTable::parse(Class::Elf32, Order::Little, SYSV)?;
    /// assert_eq!(table.length(), 3);
    /// # Ok::<(), Refusal>(())
    /// ```
    pub fn length(&self) -> u32 {
        self.length
    }

    /// The symbol of a name and a version, or without a need as in [`Versions::matches`]. All parts are
    /// read in the table's class and byte order. Refused: [`TOO_LONG`](Refusal::TOO_LONG).
    ///
    /// ```
    /// # use fetulombo::{*, sample::*};
    /// let table = SysvTable::parse(Class::Elf32, Order::Little, SYSV)?;
    /// let need = Some(Needed::new(b"LOT_1.0")?);
    /// let found = table.find(LIBRARY, VERSIONS, b"import_lot", need)?;
    /// assert_eq!(found, Found { symbol: Some(SymbolIndex(1)), probes: 1 });
    /// let absent = table.find(LIBRARY, VERSIONS, b"import", need)?;
    /// assert_eq!(absent, Found { symbol: None, probes: 2 });
    /// # Ok::<(), Refusal>(())
    /// ```
    pub fn find(
        &self,
        symbols: Symbols<'_>,
        versions: Versions<'_>,
        name: &[u8],
        need: Option<Needed<'_>>,
    ) -> Result<Found, Refusal> {
        self.find_hashed(symbols, versions, name, SysvHash::of(name)?, need)
    }

    /// The same by a hash that is at hand, so that a name that is looked up in many libraries is hashed
    /// once. A hash that is not the name's may miss a symbol; it never finds one of another name or
    /// version.
    ///
    /// ```
    /// # use fetulombo::{*, sample::*};
    /// let table = SysvTable::parse(Class::Elf32, Order::Little, SYSV)?;
    /// let (name, hash) = (b"import_lot", SysvHash::of(b"import_lot")?);
    /// let found = table.find_hashed(LIBRARY, VERSIONS, name, hash, None);
    /// assert_eq!(found, table.find(LIBRARY, VERSIONS, name, None));
    /// # Ok::<(), Refusal>(())
    /// ```
    pub fn find_hashed(
        &self,
        symbols: Symbols<'_>,
        versions: Versions<'_>,
        name: &[u8],
        hash: SysvHash,
        need: Option<Needed<'_>>,
    ) -> Result<Found, Refusal> {
        let table = (self.class, self.order, self.table);
        let wanted = (name, hash.number(), need);
        find(fetulombo_sysv_find, table, symbols, versions, wanted)
    }
}

/// The lookups of both tables have one shape.
type RawFind = unsafe extern "C" fn(
    u8,
    u8,
    *const u8,
    usize,
    *const u8,
    usize,
    *const u8,
    usize,
    *const u8,
    usize,
    *const u32,
    usize,
    *const u8,
    usize,
    *const u8,
    usize,
    u32,
    u8,
    u32,
    *const u8,
    usize,
) -> RawLookup;

fn find(
    raw: RawFind,
    (class, order, table): (Class, Order, &[u8]),
    symbols: Symbols<'_>,
    versions: Versions<'_>,
    (name, hash, need): (&[u8], u32, Option<Needed<'_>>),
) -> Result<Found, Refusal> {
    let (needed, need_hash, need_name) = Needed::parts(need);
    // Safety: the slices are lent for the call.
    let answer = unsafe {
        raw(
            class.raw(),
            order.raw(),
            table.as_ptr(),
            table.len(),
            symbols.symbols.as_ptr(),
            symbols.symbols.len(),
            symbols.strings.as_ptr(),
            symbols.strings.len(),
            versions.versyms.as_ptr(),
            versions.versyms.len(),
            versions.store.as_ptr(),
            versions.store.len(),
            versions.strings.as_ptr(),
            versions.strings.len(),
            name.as_ptr(),
            name.len(),
            hash,
            needed,
            need_hash,
            need_name.as_ptr(),
            need_name.len(),
        )
    };
    Refusal::test(answer.refusal.into())?;
    Ok(Found {
        symbol: (answer.found == 1).then_some(SymbolIndex(answer.symbol as u32)),
        probes: answer.probes,
    })
}
