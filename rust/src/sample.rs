//! The parts of a made-up library, for the examples of this documentation: ELF32, little, with
//! `import_lot` as LOT_1.0 (hidden) and as LOT_2.0, and a need of SUM_1 of `libsum.so`. Beside them a
//! file with a segment of each kind.
#![allow(missing_docs)]

use crate::{Symbols, Versions};

const fn bytes<const W: usize, const B: usize>(words: [u32; W]) -> [u8; B] {
    assert!(B == W * 4);
    let mut bytes = [0; B];
    let mut at = 0;
    while at < B {
        bytes[at] = words[at / 4].to_le_bytes()[at % 4];
        at += 1;
    }
    bytes
}

/// The hashes of `import_lot`, LOT_1.0, LOT_2.0 and SUM_1: the first is a GNU hash.
const IMPORT_LOT: u32 = 0x46a2_21ae;
const LOT_1: u32 = 0x014a_2440;
const LOT_2: u32 = 0x014a_2540;
const SUM_1: u32 = 0x0058_a321;

/// One bucket, symbol base 1, one bloom word, shift 5.
pub const GNU: &[u8] = &bytes::<8, 32>([
    1,
    1,
    1,
    5,
    1 << (IMPORT_LOT % 32) | 1 << ((IMPORT_LOT >> 5) % 32),
    1,
    IMPORT_LOT & !1,
    IMPORT_LOT | 1,
]);

/// One bucket, whose chain is 1, 2.
pub const SYSV: &[u8] = &bytes::<6, 24>([1, 3, 1, 0, 2, 0]);

/// The null symbol, then `import_lot` twice: a global function of 8 bytes in section 6.
pub const SYMBOLS: &[u8] =
    &bytes::<12, 48>([0, 0, 0, 0, 1, 0x1000, 8, 0x6_0012, 1, 0x1008, 8, 0x6_0012]);

pub const STRINGS: &[u8] = b"\0import_lot\0LOT_1.0\0LOT_2.0\0libsum.so\0SUM_1\0";

pub const VERSYMS: &[u8] = &[0, 0, 2, 0x80, 3, 0];

/// Index 2 is LOT_1.0, index 3 LOT_2.0.
pub const VERDEF: &[u8] = &bytes::<14, 56>([
    1, 0x1_0002, LOT_1, 20, 28, 12, 0, 1, 0x1_0003, LOT_2, 20, 0, 20, 0,
]);

/// Index 4 is SUM_1 of `libsum.so`.
pub const VERNEED: &[u8] = &bytes::<8, 32>([0x1_0001, 28, 16, 0, SUM_1, 0x4_0000, 38, 0]);

/// What parsing stores of them.
pub const STORE: &[u32; 30] = &[
    0, 0, 0, 0, 0, 0, //
    0, 0, 0, 0, 0, 0, //
    1, LOT_1, 12, 7, 0, 0, //
    1, LOT_2, 20, 7, 0, 0, //
    2, SUM_1, 38, 5, 28, 9,
];

pub const LIBRARY: Symbols<'static> = Symbols {
    symbols: SYMBOLS,
    strings: STRINGS,
};

pub const VERSIONS: Versions<'static> = Versions {
    versyms: VERSYMS,
    store: STORE,
    strings: STRINGS,
};

/// A note of one GNU property of ELF32: type 0xc0000002, the number 3.
pub const NOTES: &[u8] =
    &bytes::<7, 28>([4, 12, 5, u32::from_le_bytes(*b"GNU\0"), 0xc000_0002, 4, 3]);

/// The name of an interpreter, at 12 two dynamic entries, at 28 that note.
pub const FILE: &[u8] = &bytes::<14, 56>([
    u32::from_le_bytes(*b"/ld."),
    u32::from_le_bytes(*b"so\0\0"),
    0,
    1,
    28,
    0,
    0,
    4,
    12,
    5,
    u32::from_le_bytes(*b"GNU\0"),
    0xc000_0002,
    4,
    3,
]);

/// The program headers of that file: an interpreter, dynamic entries, notes, and all of it to be loaded
/// at 0x1000.
pub const SEGMENTS: &[u8] = &bytes::<32, 128>([
    3, 0, 0x1000, 0x1000, 8, 8, 4, 1, //
    2, 12, 0x100c, 0x100c, 16, 16, 6, 4, //
    4, 28, 0x101c, 0x101c, 28, 28, 4, 4, //
    1, 0, 0x1000, 0x1000, 56, 56, 5, 4,
]);
