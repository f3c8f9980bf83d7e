//! Hash tables to look up in: symbols with their strings and versions, and a GNU and a SysV table
//! over them, well made, damaged, short, of real libraries, and turned to the other byte order.

use crate::inputs::{Random, big, is64};
use crate::libraries::{DYNSYM, GNU_HASH, HASH, Library, VERDEF, VERNEED, VERSYM};
use crate::plain::{Plain, gnu_hash, sysv_hash};
use crate::versions::{Parts, big_parts, put};
use fetulombo::{Class, Order};

/// Symbols, their strings and their versions; the hash tables are lent apart.
#[derive(Clone)]
pub struct Symbols {
    pub class: Class,
    pub order: Order,
    pub symbols: Vec<u8>,
    pub strings: Vec<u8>,
    pub versions: Parts,
}

impl Symbols {
    pub fn plain<'a>(&'a self, table: &'a [u8]) -> Plain<'a> {
        Plain {
            is64: is64(self.class),
            big: big(self.order),
            table,
            symbols: &self.symbols,
            strings: &self.strings,
        }
    }

    pub fn word(&self) -> usize {
        if is64(self.class) { 8 } else { 4 }
    }
}

pub fn put_word(order: Order, bytes: &mut Vec<u8>, value: u64, width: usize) {
    match order {
        Order::Little => bytes.extend(&value.to_le_bytes()[..width]),
        Order::Big => bytes.extend(&value.to_be_bytes()[8 - width..]),
    }
}

/// A symbol with a name; its other fields are of no account to a lookup.
pub fn put_symbol(class: Class, order: Order, bytes: &mut Vec<u8>, name: u32) {
    let size = if is64(class) { 24 } else { 16 };
    put(order, bytes, name, 4);
    bytes.extend(std::iter::repeat_n(0x11, size - 4));
}

/// The names of the versions that made-up symbols have, in the order of their indices from 2 on.
pub const VERSIONS: [&[u8]; 3] = [b"LOT_1.0", b"LOT_2.0", b"V"];

/// Definitions of `VERSIONS`, the last of them as a need of a file.
fn put_versions(order: Order, made: &mut Parts) {
    made.strings = b"\0file\0".to_vec();
    let mut places = Vec::new();
    for name in VERSIONS {
        places.push(made.strings.len() as u32);
        made.strings.extend(name);
        made.strings.push(0);
    }
    for (k, name) in VERSIONS[..2].iter().enumerate() {
        let bytes = &mut made.verdef;
        for (value, width) in [(1, 2), (0, 2), (k as u32 + 2, 2), (1, 2)] {
            put(order, bytes, value, width);
        }
        let next = if k == 0 { 28 } else { 0 };
        for value in [sysv_hash(name), 20, next, places[k], 0] {
            put(order, bytes, value, 4);
        }
    }
    let bytes = &mut made.verneed;
    for (value, width) in [(1, 2), (1, 2), (1, 4), (16, 4), (0, 4)] {
        put(order, bytes, value, width);
    }
    put(order, bytes, sysv_hash(VERSIONS[2]), 4);
    for (value, width) in [(0, 2), (4, 2), (places[2], 4), (0, 4)] {
        put(order, bytes, value, width);
    }
}

/// Names that make trouble: equal ones, ones whose hashes differ in the low bit alone, of one SysV
/// hash, empty, and long.
pub const NAMES: [&[u8]; 10] = [
    b"a",
    b"b",
    b"c",
    b"ab",
    b"import_lot",
    b"",
    b"a",
    b"x\xff",
    b"xyzzy",
    b"bA",
];

/// Symbols 1 on with these names, in the order that a GNU table with these buckets asks for.
pub fn made_up(
    random: &mut Random,
    class: Class,
    order: Order,
    buckets: u32,
    base: usize,
) -> Symbols {
    let mut names: Vec<&[u8]> = (0..random.below(9)).map(|_| random.of(&NAMES)).collect();
    let first = base.saturating_sub(1).min(names.len());
    if buckets > 0 {
        names[first..].sort_by_key(|name| gnu_hash(name) % buckets);
    }
    let mut made = Symbols {
        class,
        order,
        symbols: Vec::new(),
        strings: vec![0],
        versions: Parts::default(),
    };
    put_versions(order, &mut made.versions);
    put_symbol(class, order, &mut made.symbols, 0);
    put(order, &mut made.versions.versyms, 0, 2);
    for name in names {
        let place = made.strings.len() as u32;
        made.strings.extend(name);
        made.strings.push(0);
        put_symbol(class, order, &mut made.symbols, place);
        let versym = random.of(&[0, 1, 2, 2, 3, 3, 4, 0x8002, 0x8003, 0x8001, 5, 0x7fff]);
        put(order, &mut made.versions.versyms, versym, 2);
    }
    match random.below(12) {
        0 => {
            let versyms = &mut made.versions.versyms;
            versyms.truncate(random.below(versyms.len() + 1));
        }
        1 => made.strings.truncate(random.below(made.strings.len() + 1)),
        2 => made.symbols.truncate(random.below(made.symbols.len() + 1)),
        _ => (),
    }
    made
}

/// The header of a GNU table, for one that is made.
#[derive(Clone, Copy)]
pub struct GnuShape {
    pub buckets: u32,
    pub base: usize,
    pub blooms: usize,
    pub shift: u32,
}

impl GnuShape {
    pub fn random(random: &mut Random) -> Self {
        GnuShape {
            buckets: random.of(&[1, 1, 2, 3, 4, 7]),
            base: random.of(&[1, 1, 1, 2, 3]),
            blooms: random.of(&[1, 1, 2, 4, 8]),
            shift: random.of(&[0, 5, 6, 26, 31]),
        }
    }
}

/// The GNU table over symbols that stand in its order; what cannot be read has the hash of the empty
/// name.
pub fn gnu_table(made: &Symbols, shape: GnuShape) -> Vec<u8> {
    let plain = made.plain(&[]);
    let n = plain.count();
    let hash = |symbol: usize| gnu_hash(plain.name(symbol).unwrap_or(b""));
    let bits = made.word() as u32 * 8;
    let mut bloom = vec![0u64; shape.blooms];
    let mut buckets = vec![0u32; shape.buckets as usize];
    let mut values = Vec::new();
    for symbol in shape.base..n {
        let h = hash(symbol);
        let word = &mut bloom[(h / bits) as usize & (shape.blooms - 1)];
        *word |= 1 << (h % bits) | 1 << ((h >> (shape.shift % 32)) % bits);
        let b = (h % shape.buckets) as usize;
        if buckets[b] == 0 {
            buckets[b] = symbol as u32;
        }
        let last = symbol + 1 == n || hash(symbol + 1) % shape.buckets != h % shape.buckets;
        values.push(h & !1 | u32::from(last));
    }
    let mut bytes = Vec::new();
    for value in [
        shape.buckets,
        shape.base as u32,
        shape.blooms as u32,
        shape.shift,
    ] {
        put(made.order, &mut bytes, value, 4);
    }
    for word in bloom {
        put_word(made.order, &mut bytes, word, made.word());
    }
    for value in buckets.into_iter().chain(values) {
        put(made.order, &mut bytes, value, 4);
    }
    bytes
}

/// The SysV table over symbols.
pub fn sysv_table(made: &Symbols, buckets: usize) -> Vec<u8> {
    let plain = made.plain(&[]);
    let n = plain.count();
    let mut starts = vec![0u32; buckets];
    let mut chains = vec![0u32; n];
    for symbol in (1..n).rev() {
        let name = plain.name(symbol).unwrap_or(b"");
        let b = sysv_hash(name) as usize % buckets;
        chains[symbol] = starts[b];
        starts[b] = symbol as u32;
    }
    let mut bytes = Vec::new();
    for value in [buckets as u32, n as u32] {
        put(made.order, &mut bytes, value, 4);
    }
    for value in starts.into_iter().chain(chains) {
        put(made.order, &mut bytes, value, 4);
    }
    bytes
}

/// A copy with some of its words changed to numbers that decide, or cut short.
pub fn damaged_words(random: &mut Random, order: Order, table: &[u8]) -> Vec<u8> {
    let mut damaged = table.to_vec();
    let words = table.len() / 4;
    for _ in 0..=random.below(3) {
        if words == 0 {
            break;
        }
        let at = match random.below(3) {
            0 => random.below(words.min(5)) * 4,
            _ => random.below(words) * 4,
        };
        let here = &damaged[at..at + 4];
        let old = match order {
            Order::Little => u32::from_le_bytes(here.try_into().unwrap()),
            Order::Big => u32::from_be_bytes(here.try_into().unwrap()),
        };
        let new = match random.below(6) {
            0 => old ^ 1 << random.below(32),
            1 => old ^ 1,
            2 => old.wrapping_add(1),
            3 => random.of(&[0, 1, 2, 3, 5, 31, 32, 33, 0x7fff_ffff, u32::MAX]),
            4 => random.below(12) as u32,
            _ => old.wrapping_sub(1),
        };
        let mut word = Vec::new();
        put(order, &mut word, new, 4);
        damaged[at..at + 4].copy_from_slice(&word);
    }
    match random.below(8) {
        0 => damaged.truncate(random.below(table.len() + 1)),
        1 => {
            let more = random.below(9);
            damaged.extend(random.bytes(more, 2));
        }
        _ => (),
    }
    damaged
}

/// A library's dynamic symbols with their versions, its GNU table and its SysV table, where it has
/// them.
pub fn of_library(library: &Library) -> Option<(Symbols, Vec<u8>, Vec<u8>)> {
    let (symbols, strings) = library.linked(DYNSYM).next()?;
    let class = if library.is64 {
        Class::Elf64
    } else {
        Class::Elf32
    };
    let order = if library.big {
        Order::Big
    } else {
        Order::Little
    };
    let part = |kind| library.linked(kind).next();
    let bytes = |kind| part(kind).map_or(Vec::new(), |(bytes, _)| bytes.to_vec());
    let version_strings = part(VERDEF).or(part(VERNEED)).map_or(strings, |(_, s)| s);
    let made = Symbols {
        class,
        order,
        symbols: symbols.to_vec(),
        strings: strings.to_vec(),
        versions: Parts {
            versyms: bytes(VERSYM),
            verdef: bytes(VERDEF),
            verneed: bytes(VERNEED),
            strings: version_strings.to_vec(),
        },
    };
    Some((made, bytes(GNU_HASH), bytes(HASH)))
}

/// The numbers of these widths, over and over, with their bytes the other way round.
fn turn(bytes: &mut [u8], widths: &[usize]) {
    let mut rest = bytes;
    for &width in widths.iter().cycle() {
        if rest.len() < width {
            return;
        }
        let (here, after) = rest.split_at_mut(width);
        here.reverse();
        rest = after;
    }
}

/// The same symbols and tables, of little numbers, with big ones.
pub fn turned(made: &Symbols, gnu: &[u8], sysv: &[u8]) -> (Symbols, Vec<u8>, Vec<u8>) {
    let mut other = made.clone();
    other.order = Order::Big;
    match made.class {
        Class::Elf32 => turn(&mut other.symbols, &[4, 4, 4, 1, 1, 2]),
        Class::Elf64 => turn(&mut other.symbols, &[4, 1, 1, 2, 8, 8]),
    }
    other.versions = big_parts(&made.versions);
    let (mut gnu, mut sysv) = (gnu.to_vec(), sysv.to_vec());
    let blooms = match gnu.get(8..12) {
        Some(count) => u32::from_le_bytes(count.try_into().unwrap()) as usize,
        None => 0,
    };
    let header = gnu.len().min(16);
    let end = gnu.len().min(header + blooms * made.word());
    turn(&mut gnu[..header], &[4]);
    turn(&mut gnu[header..end], &[made.word()]);
    turn(&mut gnu[end..], &[4]);
    turn(&mut sysv, &[4]);
    (other, gnu, sysv)
}
