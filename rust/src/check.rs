use crate::raw::{Check, fetulombo_gnu_check, fetulombo_sysv_check};
use crate::{Class, GnuTable, Order, Refusal, Symbols, SysvTable};

/// What the GNU checker says of a table and its symbols.
///
/// The rules, n being the symbols: G1 the first hashed symbol is one of 1 to n; G2 the bloom words are a
/// power of two; G3 there is a bucket; G4 the bloom shift is at most 31; G5 each hashed symbol has a value;
/// G6 its name can be read; G7 its value is the name's hash but for the low bit; G8 both its bloom bits are
/// set; G9 each bucket holds its lowest symbol, or 0 without one, and its symbols are consecutive; G10 the
/// low bit of a value is 1 exactly at a bucket's last symbol.
///
/// ```
/// # use fetulombo::{*, sample::*};
/// let table = GnuTable::parse(Class::Elf32, Order::Little, GNU)?;
/// let others = Symbols { strings: b"\0export_lot\0", ..LIBRARY };
/// assert_eq!(table.check(LIBRARY), Ok(GnuVerdict::Accepted { longest: 2 }));
/// assert_eq!(table.check(others), Ok(GnuVerdict::Broken { rule: 7, place: 1 }));
/// # Ok::<(), Refusal>(())
/// ```
#[derive(Debug, Clone, Copy, PartialEq, Eq, Hash)]
pub enum GnuVerdict {
    /// No rule is broken.
    Accepted {
        /// The most hashed symbols in one bucket: no lookup makes more probes.
        longest: u64,
    },
    /// The first rule that is broken.
    Broken {
        /// Its number, 1 to 10.
        rule: u8,
        /// Its lowest symbol (G6 to G8, G10) or bucket (G9), or 0.
        place: u32,
    },
}

/// What the SysV checker says of a table and its symbols.
///
/// The rules: T1 there are symbols, as many chains, and a bucket; T2 the names of all symbols but the first
/// can be read; T3 each chain ends in 0, and each symbol but the first stands on exactly one chain, once,
/// that of its hash.
///
/// ```
/// # use fetulombo::{*, sample::*};
/// let table = SysvTable::parse(Class::Elf32, Order::Little, SYSV)?;
/// let fewer = Symbols { symbols: &SYMBOLS[..32], ..LIBRARY };
/// assert_eq!(table.check(LIBRARY), Ok(SysvVerdict::Accepted));
/// assert_eq!(table.check(fewer), Ok(SysvVerdict::Broken { rule: 1 }));
/// # Ok::<(), Refusal>(())
/// ```
#[derive(Debug, Clone, Copy, PartialEq, Eq, Hash)]
pub enum SysvVerdict {
    /// No rule is broken.
    Accepted,
    /// The first rule that is broken.
    Broken {
        /// Its number, 1 to 3.
        rule: u8,
    },
}

impl GnuTable<'_> {
    /// Whether a lookup by the name's own hash finds exactly the lowest hashed symbol that matches.
    /// Refused: [`Refusal::TOO_LONG`].
    ///
    /// ```
    /// # use fetulombo::{*, sample::*};
    /// let table = GnuTable::parse(Class::Elf32, Order::Little, &GNU[..28])?;
    /// assert_eq!(table.check(LIBRARY), Ok(GnuVerdict::Broken { rule: 5, place: 0 }));
    /// # Ok::<(), Refusal>(())
    /// ```
    pub fn check(&self, symbols: Symbols<'_>) -> Result<GnuVerdict, Refusal> {
        let table = (self.class, self.order, self.table);
        let answer = check(fetulombo_gnu_check, table, symbols)?;
        Ok(match answer.accepted {
            1 => GnuVerdict::Accepted {
                longest: answer.longest,
            },
            _ => GnuVerdict::Broken {
                rule: answer.rule as u8,
                place: answer.place,
            },
        })
    }
}

impl SysvTable<'_> {
    /// Whether a lookup by the name's own hash finds a symbol exactly if one matches. Refused:
    /// [`Refusal::TOO_LONG`].
    ///
    /// ```
    /// # use fetulombo::{*, sample::*};
    /// let table = SysvTable::parse(Class::Elf32, Order::Little, SYSV)?;
    /// let unreadable = Symbols { strings: b"\0import_lot", ..LIBRARY };
    /// assert_eq!(table.check(unreadable), Ok(SysvVerdict::Broken { rule: 2 }));
    /// # Ok::<(), Refusal>(())
    /// ```
    pub fn check(&self, symbols: Symbols<'_>) -> Result<SysvVerdict, Refusal> {
        let table = (self.class, self.order, self.table);
        let answer = check(fetulombo_sysv_check, table, symbols)?;
        Ok(match answer.accepted {
            1 => SysvVerdict::Accepted,
            _ => SysvVerdict::Broken {
                rule: answer.rule as u8,
            },
        })
    }
}

/// The checkers of both tables have one shape.
type RawCheck =
    unsafe extern "C" fn(u8, u8, *const u8, usize, *const u8, usize, *const u8, usize) -> Check;

fn check(
    raw: RawCheck,
    (class, order, table): (Class, Order, &[u8]),
    symbols: Symbols<'_>,
) -> Result<Check, Refusal> {
    // Safety: the slices are lent for the call.
    let answer = unsafe {
        raw(
            class.raw(),
            order.raw(),
            table.as_ptr(),
            table.len(),
            symbols.symbols.as_ptr(),
            symbols.symbols.len(),
            symbols.strings.as_ptr(),
            symbols.strings.len(),
        )
    };
    Refusal::test(answer.refusal.into())?;
    Ok(answer)
}
