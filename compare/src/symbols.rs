//! Symbols by number, their names, and what their fields say.

use crate::Run;
use crate::inputs::{KINDS, big, is64};
use crate::libraries::{DYNSYM, Library, SYMTAB};
use crate::limits;
use crate::report::{Answer, hex};
use fetulombo::{Class, LIMIT, Order, Symbol, SymbolIndex};
use oracle::endian::Endianness;
use oracle::read::StringTable;
use oracle::read::elf::Sym;

pub fn compare(run: &mut Run) {
    random(run);
    libraries(run);
    facts(run);
}

pub fn size(class: Class) -> usize {
    match class {
        Class::Elf32 => 16,
        Class::Elf64 => 24,
    }
}

/// The fields as the oracle has them.
fn fields(symbol: Symbol) -> oracle::Symbol {
    oracle::Symbol {
        name: symbol.name,
        info: symbol.info,
        other: symbol.other,
        shndx: symbol.shndx,
        value: symbol.value,
        size: symbol.size,
    }
}

pub fn ours_at(class: Class, order: Order, symbols: &[u8], index: u32) -> Answer<oracle::Symbol> {
    fetulombo::symbol_at(class, order, symbols, SymbolIndex(index))
        .map(fields)
        .map_err(|refusal| refusal.number())
}

pub fn ours_name(
    class: Class,
    order: Order,
    symbols: &[u8],
    strings: &[u8],
    index: u32,
) -> Answer<(usize, usize)> {
    fetulombo::symbol_name_place(class, order, symbols, strings, SymbolIndex(index))
        .map(|place| (place.start, place.len()))
        .map_err(|refusal| refusal.number())
}

fn one(run: &mut Run, class: Class, order: Order, symbols: &[u8], strings: &[u8], index: u32) {
    let (wide, other) = (is64(class), big(order));
    let long = symbols.len() > LIMIT;
    let input = || {
        let (symbols, strings) = (hex(symbols), hex(strings));
        format!("{class:?} {order:?} symbols {symbols} strings {strings} index {index}")
    };
    let original = match long {
        true => Err(1),
        false => oracle::symbol_at(wide, other, symbols, index),
    };
    let ours = ours_at(class, order, symbols, index);
    run.report
        .same("symbol_at", ours, original, |_| "symbol", input);
    let original = match long || strings.len() > LIMIT {
        true => Err(1),
        false => oracle::symbol_name(wide, other, symbols, strings, index),
    };
    let ours = ours_name(class, order, symbols, strings, index);
    run.report
        .same("symbol_name", ours, original, |_| "name", input);
}

fn count(run: &mut Run, class: Class, symbols: &[u8]) {
    let original = match symbols.len() <= LIMIT {
        true => Ok(oracle::symbol_count(is64(class), symbols) as u32),
        false => Err(1),
    };
    let ours = fetulombo::symbol_count(class, symbols).map_err(|refusal| refusal.number());
    run.report.same(
        "symbol_count",
        ours,
        original,
        |_| "count",
        || format!("{class:?} {}", hex(symbols)),
    );
}

/// Tables of every length up to some records, with numbers around their count and names around the
/// end of the strings.
fn random(run: &mut Run) {
    for turn in 0..run.times(1_000_000) {
        let (class, order) = KINDS[turn % 4];
        let length = run.random.below(size(class) * 4);
        let mut symbols = run.random.bytes(length, 4);
        let strings_length = run.random.below(20);
        let strings = run.random.bytes(strings_length, 4);
        let records = length / size(class);
        for record in 0..records {
            // A name near the strings' end, in the order of the table.
            let name = run.random.near(&[0, strings_length as u64]) as u32;
            let bytes = match order {
                Order::Little => name.to_le_bytes(),
                Order::Big => name.to_be_bytes(),
            };
            symbols[record * size(class)..][..4].copy_from_slice(&bytes);
        }
        let index = run.random.near(&[0, 1, records as u64]) as u32;
        one(run, class, order, &symbols, &strings, index);
        count(run, class, &symbols);
    }
    for class in [Class::Elf32, Class::Elf64] {
        for length in 0..200 {
            count(run, class, &vec![0; length]);
        }
    }
}

/// The last record of the longest table has a name and a value; names lie at the end of the strings.
pub fn limits(run: &mut Run, parts: &mut limits::Parts) {
    for &(class, order) in run.kinds() {
        for &length in run.limits.lengths() {
            let end = (length / size(class)) as u32;
            let last = oracle::Symbol {
                name: length as u32 - 2,
                info: 0x12,
                other: 3,
                shndx: 7,
                value: 0x8765_4321,
                size: 9,
            };
            let long = &mut parts.zeros;
            let start = length / size(class) * size(class) - size(class);
            long[start..start + size(class)].copy_from_slice(&encoded(class, order, &last));
            let long = &long[..length];
            count(run, class, long);
            for index in [0, 1, end - 1, end, end + 1, u32::MAX] {
                one(run, class, order, long, b"\0", index);
                one(run, class, order, &long[..100], long, index);
                one(run, class, order, long, long, index);
            }
            definition(run, &last, long);
            parts.zeros.renew();
        }
    }
}

/// A symbol's bytes in any class and order.
pub fn encoded(class: Class, order: Order, symbol: &oracle::Symbol) -> Vec<u8> {
    let mut bytes = Vec::with_capacity(24);
    let mut put = |value: u64, width: usize| match order {
        Order::Little => bytes.extend(&value.to_le_bytes()[..width]),
        Order::Big => bytes.extend(&value.to_be_bytes()[8 - width..]),
    };
    put(symbol.name.into(), 4);
    match class {
        Class::Elf32 => {
            put(symbol.value, 4);
            put(symbol.size, 4);
            put(symbol.info.into(), 1);
            put(symbol.other.into(), 1);
            put(symbol.shndx.into(), 2);
        }
        Class::Elf64 => {
            put(symbol.info.into(), 1);
            put(symbol.other.into(), 1);
            put(symbol.shndx.into(), 2);
            put(symbol.value, 8);
            put(symbol.size, 8);
        }
    }
    bytes
}

/// The symbol tables of a library with their strings.
pub fn tables(library: &Library) -> impl Iterator<Item = (&[u8], &[u8])> {
    library.linked(DYNSYM).chain(library.linked(SYMTAB))
}

/// Real tables, as they stand and damaged, and the same symbols in every class and order.
fn libraries(run: &mut Run) {
    for library in run.libraries {
        let class = if library.is64 {
            Class::Elf64
        } else {
            Class::Elf32
        };
        let order = if library.big {
            Order::Big
        } else {
            Order::Little
        };
        for (symbols, strings) in tables(library) {
            count(run, class, symbols);
            let records = (symbols.len() / size(class)) as u32;
            let damaged_symbols = run.random.damaged(symbols);
            let damaged_strings = run.random.damaged(strings);
            for _ in 0..run.times(1000) {
                let index = run.random.below(records as usize + 2) as u32;
                one(run, class, order, symbols, strings, index);
                one(run, class, order, &damaged_symbols, &damaged_strings, index);
                let Ok(symbol) = oracle::symbol_at(library.is64, library.big, symbols, index)
                else {
                    continue;
                };
                for (class, order) in KINDS {
                    let mut table = vec![0; size(class)];
                    table.extend(encoded(class, order, &symbol));
                    one(run, class, order, &table, strings, 1);
                }
                definition(run, &symbol, strings);
            }
        }
    }
}

/// The original's answers about one symbol: type Sym of symbol.rs, its own methods.
struct Said {
    parts: (u8, u8, u8),
    truths: [bool; 5],
    definition: bool,
}

fn original(symbol: &oracle::Symbol, strings: &[u8]) -> Said {
    let bytes = encoded(Class::Elf64, Order::Big, symbol);
    let endian = Endianness::Big;
    let (record, _) = oracle::pod::from_bytes::<oracle::elf::Sym64<Endianness>>(&bytes).unwrap();
    Said {
        parts: (
            Sym::st_bind(record).0,
            Sym::st_type(record).0,
            Sym::st_visibility(record).0,
        ),
        truths: [
            record.is_undefined(endian),
            record.is_common(endian),
            record.is_absolute(endian),
            Sym::is_local(record),
            Sym::is_weak(record),
        ],
        definition: record
            .is_definition(endian, StringTable::new(strings, 0, strings.len() as u64)),
    }
}

fn definition(run: &mut Run, symbol: &oracle::Symbol, strings: &[u8]) {
    let said = original(symbol, strings);
    let ours = Symbol {
        name: symbol.name,
        value: symbol.value,
        size: symbol.size,
        info: symbol.info,
        other: symbol.other,
        shndx: symbol.shndx,
    };
    let input = || format!("{symbol:?} strings {}", hex(strings));
    run.report.same(
        "symbol parts",
        Ok((ours.bind(), ours.kind(), ours.visibility())),
        Ok(said.parts),
        |_| "parts",
        input,
    );
    run.report.same(
        "symbol truths",
        Ok([
            ours.is_undefined(),
            ours.is_common(),
            ours.is_absolute(),
            ours.is_local(),
            ours.is_weak(),
        ]),
        Ok(said.truths),
        |truths| {
            if truths.contains(&true) {
                "some"
            } else {
                "none"
            }
        },
        input,
    );
    let original = match strings.len() <= LIMIT {
        true => Ok(said.definition),
        false => Err(1),
    };
    run.report.same(
        "is_definition",
        ours.is_definition(strings)
            .map_err(|refusal| refusal.number()),
        original,
        |&is| if is { "a definition" } else { "none" },
        input,
    );
}

/// Every section number, every info and every other; names that start with `$`, that do not, that
/// are empty and that cannot be read.
fn facts(run: &mut Run) {
    let strings = b"$d\0x$\0\0$";
    let symbol = |name: u32, info: u8, other: u8, shndx: u16| oracle::Symbol {
        name,
        info,
        other,
        shndx,
        value: 0,
        size: 0,
    };
    for shndx in (0..=u16::MAX).step_by(run.step()) {
        for info in [0, 0x10, 0x12] {
            definition(run, &symbol(0, info, 0, shndx), strings);
        }
    }
    for info in 0..=255 {
        for other in 0..=255 {
            definition(run, &symbol(3, info, other, 1), strings);
        }
        for name in 0..10 {
            for shndx in [0, 1, 0xfeff, 0xff00, 0xfff1, 0xfff2, 0xfffe, 0xffff] {
                definition(run, &symbol(name, info, 0, shndx), strings);
            }
        }
    }
}
