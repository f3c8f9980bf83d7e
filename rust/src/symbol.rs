use crate::raw::{
    Facts, fetulombo_symbol_at, fetulombo_symbol_count, fetulombo_symbol_facts,
    fetulombo_symbol_is_definition, fetulombo_symbol_name,
};
use crate::{Class, Order, Refusal};
use core::ops::Range;

/// A symbol's number, which is never a version's.
///
/// ```
/// # use fetulombo::{*, sample::*};
/// let symbol = symbol_at(Class::Elf32, Order::Little, SYMBOLS, SymbolIndex(1))?;
/// assert_eq!(symbol.value, 0x1000);
/// # Ok::<(), Refusal>(())
/// ```
///
/// ```compile_fail,E0308
/// # use fetulombo::{*, sample::*};
/// let symbol = symbol_at(Class::Elf32, Order::Little, SYMBOLS, VersionIndex(1))?;
/// # Ok::<(), Refusal>(())
/// ```
#[derive(Debug, Clone, Copy, PartialEq, Eq, PartialOrd, Ord, Hash)]
pub struct SymbolIndex(
    /// The number.
    pub u32,
);

/// The fields of a symbol. Value and size have 64 bits in either class.
///
/// ```
/// use fetulombo::Symbol;
/// let symbol = Symbol { name: 1, value: 0x1000, size: 8, info: 0x12, other: 0, shndx: 6 };
/// assert_eq!((symbol.bind(), symbol.kind(), symbol.visibility()), (1, 2, 0));
/// ```
#[derive(Debug, Clone, Copy, PartialEq, Eq, Hash)]
pub struct Symbol {
    /// The offset of its name in the strings.
    pub name: u32,
    /// Its value.
    pub value: u64,
    /// Its size.
    pub size: u64,
    /// Its binding and its type.
    pub info: u8,
    /// Its visibility.
    pub other: u8,
    /// The number of its section.
    pub shndx: u16,
}

/// How many whole symbols there are; a shorter tail is ignored.
///
/// ```
/// use fetulombo::{Class, symbol_count};
/// assert_eq!(symbol_count(Class::Elf32, &[0; 47]), Ok(2));
/// ```
pub fn symbol_count(class: Class, symbols: &[u8]) -> Result<u32, Refusal> {
    // Safety: the slice is lent for the call.
    let answer = unsafe { fetulombo_symbol_count(class.raw(), symbols.as_ptr(), symbols.len()) };
    Ok(answer.get()? as u32)
}

/// The symbol of a number. [`Refusal::NO_SYMBOL`]: number 0, or no whole record.
///
/// ```
/// # use fetulombo::{*, sample::*};
/// let symbol = |index| symbol_at(Class::Elf32, Order::Little, SYMBOLS, SymbolIndex(index));
/// assert_eq!(symbol(2).map(|symbol| symbol.value), Ok(0x1008));
/// assert_eq!(symbol(0), Err(Refusal::NO_SYMBOL));
/// assert_eq!(symbol(3), Err(Refusal::NO_SYMBOL));
/// ```
pub fn symbol_at(
    class: Class,
    order: Order,
    symbols: &[u8],
    index: SymbolIndex,
) -> Result<Symbol, Refusal> {
    // Safety: the slice is lent for the call.
    let answer = unsafe {
        fetulombo_symbol_at(
            class.raw(),
            order.raw(),
            symbols.as_ptr(),
            symbols.len(),
            index.0,
        )
    };
    Refusal::test(answer.refusal.into())?;
    Ok(Symbol {
        name: answer.name,
        value: answer.value,
        size: answer.size,
        info: answer.info,
        other: answer.other,
        shndx: answer.shndx,
    })
}

/// Where the name of the symbol of a number stands in the strings. Refused as [`symbol_name`].
///
/// ```
/// # use fetulombo::{*, sample::*};
/// let (class, order) = (Class::Elf32, Order::Little);
/// assert_eq!(symbol_name_place(class, order, SYMBOLS, STRINGS, SymbolIndex(1)), Ok(1..11));
/// ```
pub fn symbol_name_place(
    class: Class,
    order: Order,
    symbols: &[u8],
    strings: &[u8],
    index: SymbolIndex,
) -> Result<Range<usize>, Refusal> {
    // Safety: the slices are lent for the call.
    unsafe {
        fetulombo_symbol_name(
            class.raw(),
            order.raw(),
            symbols.as_ptr(),
            symbols.len(),
            strings.as_ptr(),
            strings.len(),
            index.0,
        )
    }
    .get()
}

/// The name of the symbol of a number. Refused as [`symbol_at`], then as
/// [`string_at`](crate::string_at).
///
/// ```
/// # use fetulombo::{*, sample::*};
/// let (class, order) = (Class::Elf32, Order::Little);
/// let name = |strings| symbol_name(class, order, SYMBOLS, strings, SymbolIndex(1));
/// assert_eq!(name(STRINGS), Ok(&b"import_lot"[..]));
/// assert_eq!(name(b"\0import_lot"), Err(Refusal::NO_STRING));
/// ```
pub fn symbol_name<'strings>(
    class: Class,
    order: Order,
    symbols: &[u8],
    strings: &'strings [u8],
    index: SymbolIndex,
) -> Result<&'strings [u8], Refusal> {
    Ok(&strings[symbol_name_place(class, order, symbols, strings, index)?])
}

impl Symbol {
    fn facts(self) -> Facts {
        // Safety: numbers alone.
        unsafe { fetulombo_symbol_facts(self.info, self.other, self.shndx) }
    }

    /// The binding, the high half of `info`.
    ///
    /// ```
    /// # use fetulombo::Symbol;
    /// # let symbol = Symbol { name: 1, value: 0, size: 8, info: 0x12, other: 0, shndx: 6 };
    /// assert_eq!(Symbol { info: 0x21, ..symbol }.bind(), 2);
    /// ```
    pub fn bind(self) -> u8 {
        self.facts().bind as u8
    }

    /// The type, the low half of `info`.
    ///
    /// ```
    /// # use fetulombo::Symbol;
    /// # let symbol = Symbol { name: 1, value: 0, size: 8, info: 0x12, other: 0, shndx: 6 };
    /// assert_eq!(Symbol { info: 0x21, ..symbol }.kind(), 1);
    /// ```
    pub fn kind(self) -> u8 {
        self.facts().kind as u8
    }

    /// The visibility, the low two bits of `other`.
    ///
    /// ```
    /// # use fetulombo::Symbol;
    /// # let symbol = Symbol { name: 1, value: 0, size: 8, info: 0x12, other: 0, shndx: 6 };
    /// assert_eq!(Symbol { other: 0xfe, ..symbol }.visibility(), 2);
    /// ```
    pub fn visibility(self) -> u8 {
        self.facts().visibility as u8
    }

    /// Whether its section number is `SHN_UNDEF`.
    ///
    /// ```
    /// # use fetulombo::Symbol;
    /// # let symbol = Symbol { name: 1, value: 0, size: 8, info: 0x12, other: 0, shndx: 6 };
    /// assert!(Symbol { shndx: 0, ..symbol }.is_undefined());
    /// assert!(!symbol.is_undefined());
    /// ```
    pub fn is_undefined(self) -> bool {
        self.facts().undefined == 1
    }

    /// Whether its section number is `SHN_COMMON`.
    ///
    /// ```
    /// # use fetulombo::Symbol;
    /// # let symbol = Symbol { name: 1, value: 0, size: 8, info: 0x12, other: 0, shndx: 6 };
    /// assert!(Symbol { shndx: 0xfff2, ..symbol }.is_common());
    /// assert!(!symbol.is_common());
    /// ```
    pub fn is_common(self) -> bool {
        self.facts().common == 1
    }

    /// Whether its section number is `SHN_ABS`.
    ///
    /// ```
    /// # use fetulombo::Symbol;
    /// # let symbol = Symbol { name: 1, value: 0, size: 8, info: 0x12, other: 0, shndx: 6 };
    /// assert!(Symbol { shndx: 0xfff1, ..symbol }.is_absolute());
    /// assert!(!symbol.is_absolute());
    /// ```
    pub fn is_absolute(self) -> bool {
        self.facts().absolute == 1
    }

    /// Whether its binding is `STB_LOCAL`.
    ///
    /// ```
    /// # use fetulombo::Symbol;
    /// # let symbol = Symbol { name: 1, value: 0, size: 8, info: 0x12, other: 0, shndx: 6 };
    /// assert!(Symbol { info: 0x02, ..symbol }.is_local());
    /// assert!(!symbol.is_local());
    /// ```
    pub fn is_local(self) -> bool {
        self.facts().local == 1
    }

    /// Whether its binding is `STB_WEAK`.
    ///
    /// ```
    /// # use fetulombo::Symbol;
    /// # let symbol = Symbol { name: 1, value: 0, size: 8, info: 0x12, other: 0, shndx: 6 };
    /// assert!(Symbol { info: 0x22, ..symbol }.is_weak());
    /// assert!(!symbol.is_weak());
    /// ```
    pub fn is_weak(self) -> bool {
        self.facts().weak == 1
    }

    /// Whether it defines a function or a data object; a local symbol without a type does unless
    /// its name starts with `$`.
    ///
    /// ```
    /// # use fetulombo::Symbol;
    /// # let symbol = Symbol { name: 1, value: 0, size: 8, info: 0x12, other: 0, shndx: 6 };
    /// assert_eq!(symbol.is_definition(b"\0a\0"), Ok(true));
    /// assert_eq!(Symbol { shndx: 0, ..symbol }.is_definition(b"\0a\0"), Ok(false));
    /// assert_eq!(Symbol { info: 0x00, ..symbol }.is_definition(b"\0$x\0"), Ok(false));
    /// ```
    pub fn is_definition(self, strings: &[u8]) -> Result<bool, Refusal> {
        // Safety: the slice is lent for the call.
        let answer = unsafe {
            fetulombo_symbol_is_definition(
                strings.as_ptr(),
                strings.len(),
                self.name,
                self.info,
                self.shndx,
            )
        };
        Ok(answer.get()? == 1)
    }
}
