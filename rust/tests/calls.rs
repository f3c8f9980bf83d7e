//! Every function of the package, on values worked out from the public documents. The comparison
//! with the original is in compare/.

use fetulombo::*;

#[test]
fn words() {
    let bytes = [1, 2, 3, 4, 5, 6, 7, 8, 9];
    assert_eq!(u16_at(Order::Little, &bytes, 1), Ok(0x0302));
    assert_eq!(u16_at(Order::Big, &bytes, 8), Ok(0x0900));
    assert_eq!(u32_at(Order::Little, &bytes, 1), Ok(0x05040302));
    assert_eq!(u32_at(Order::Big, &bytes, 1), Ok(0x02030405));
    assert_eq!(u64_at(Order::Little, &bytes, 6), Ok(0x090807));
    assert_eq!(u64_at(Order::Big, &bytes, 0), Ok(0x0102030405060708));
    assert_eq!(u64_at(Order::Big, &bytes, usize::MAX), Ok(0));
    assert_eq!(u32_at(Order::Big, &[], 0), Ok(0));
}

#[test]
fn strings() {
    let table = b"\0abc\0d";
    assert_eq!(string_at(table, 0), Ok(&b""[..]));
    assert_eq!(string_at(table, 2), Ok(&b"bc"[..]));
    assert_eq!(string_place(table, 2), Ok(2..4));
    assert_eq!(string_at(table, 5), Err(Refusal::NO_STRING));
    assert_eq!(string_at(table, 6), Err(Refusal::NO_STRING));
    assert_eq!(string_at(b"", 0), Err(Refusal::NO_STRING));
    assert_eq!(string_equals(table, 1, b"abc"), Ok(true));
    assert_eq!(string_equals(table, 1, b"ab"), Ok(false));
    assert_eq!(string_equals(table, 1, b"abcd"), Ok(false));
    assert_eq!(string_equals(table, 1, b"abc\0"), Ok(false));
    assert_eq!(string_equals(table, 5, b"d"), Ok(false));
}

#[test]
fn hashes() {
    for (name, gnu, sysv) in [
        ("", 5381, 0),
        ("a", 177670, 97),
        ("ab", 5863208, 1650),
        ("printf", 0x156b2bb8, 0x077905a6),
        ("exit", 0x7c967e3f, 0x0006cf04),
    ] {
        let name = name.as_bytes();
        assert_eq!(GnuHash::of(name).map(GnuHash::number), Ok(gnu));
        assert_eq!(GnuHash::of(name), Ok(GnuHash::from_number(gnu)));
        assert_eq!(SysvHash::of(name).map(SysvHash::number), Ok(sysv));
        assert_eq!(SysvHash::of(name), Ok(SysvHash::from_number(sysv)));
    }
}

#[test]
fn class_and_order_are_elfs_own_numbers() {
    for (byte, class, order) in [
        (0, None, None),
        (1, Some(Class::Elf32), Some(Order::Little)),
        (2, Some(Class::Elf64), Some(Order::Big)),
        (3, None, None),
        (255, None, None),
    ] {
        assert_eq!(
            Class::from_ident(byte),
            class.ok_or(Refusal::UNKNOWN_KIND),
            "{byte}"
        );
        assert_eq!(
            Order::from_ident(byte),
            order.ok_or(Refusal::UNKNOWN_KIND),
            "{byte}"
        );
    }
    let others = (0..=255).filter(|&byte| Class::from_ident(byte).is_err());
    assert_eq!(others.count(), 254);
    let others = (0..=255).filter(|&byte| Order::from_ident(byte).is_err());
    assert_eq!(others.count(), 254);
}

/// The test's own program and the library of `make run`, both ELF64 and little.
#[test]
fn class_and_order_of_real_files() {
    let own = std::env::current_exe().unwrap();
    let library = concat!(env!("CARGO_MANIFEST_DIR"), "/../fixtures/lot/liblot.so");
    for path in [own, library.into()] {
        let file = std::fs::read(path).unwrap();
        assert_eq!(file[..4], *b"\x7fELF");
        assert_eq!(Class::from_ident(file[4]), Ok(Class::Elf64));
        assert_eq!(Order::from_ident(file[5]), Ok(Order::Little));
        // e_machine is 62, x86-64.
        let order = Order::from_ident(file[5]).unwrap();
        assert_eq!(u16_at(order, &file[..64], 18), Ok(62));
    }
}

#[test]
fn symbols() {
    // Big, 32 bits: the null symbol, then name, value, size, info, other, shndx.
    let mut table = vec![0; 16];
    table.extend([0, 0, 0, 1, 1, 2, 3, 4, 0, 0, 0, 9, 0x21, 3, 0xff, 0xf1]);
    table.extend([0xee; 15]);
    let (class, order) = (Class::Elf32, Order::Big);
    assert_eq!(symbol_count(class, &table), Ok(2));
    let symbol = symbol_at(class, order, &table, SymbolIndex(1)).unwrap();
    assert_eq!(
        symbol,
        Symbol {
            name: 1,
            value: 0x01020304,
            size: 9,
            info: 0x21,
            other: 3,
            shndx: 0xfff1
        }
    );
    assert_eq!(
        (symbol.bind(), symbol.kind(), symbol.visibility()),
        (2, 1, 3)
    );
    assert!(symbol.is_absolute() && symbol.is_weak());
    assert!(!symbol.is_undefined() && !symbol.is_common() && !symbol.is_local());
    assert_eq!(symbol.is_definition(b"\0x\0"), Ok(false));
    let object = Symbol { shndx: 1, ..symbol };
    assert_eq!(object.is_definition(b"\0x\0"), Ok(true));
    for index in [0, 2, u32::MAX] {
        let refused = symbol_at(class, order, &table, SymbolIndex(index));
        assert_eq!(refused, Err(Refusal::NO_SYMBOL));
    }
    let name = |strings| symbol_name(class, order, &table, strings, SymbolIndex(1));
    assert_eq!(name(b"\0x\0"), Ok(&b"x"[..]));
    assert_eq!(name(b"\0x"), Err(Refusal::NO_STRING));
}

#[test]
fn note_walk() {
    // Big, align 8: a note without name or descriptor, then one whose padding is missing.
    let mut section = vec![0; 16];
    section.extend([0, 0, 0, 4, 0, 0, 0, 1, 0, 0, 0, 9]);
    section.extend(b"ab\0\0!");
    let mut walk = notes(Order::Big, 8, &section).unwrap();
    let first = walk.next().unwrap().unwrap();
    assert_eq!(
        (first.kind, first.name_bytes(), first.descriptor()),
        (0, &[][..], &[][..])
    );
    assert_eq!(walk.place(), 16);
    let second = walk.next().unwrap().unwrap();
    assert_eq!(
        (second.kind, second.name(), second.descriptor()),
        (9, &b"ab"[..], &b"!"[..])
    );
    assert_eq!(second.name_bytes(), b"ab\0\0");
    assert_eq!(
        (second.name_place, second.descriptor_place),
        (28..32, 32..33)
    );
    assert!(walk.next().is_none() && walk.next().is_none());

    let cut = &section[..32];
    let steps: Vec<_> = notes(Order::Big, 8, cut).unwrap().collect();
    assert_eq!(steps[1], Err(Refusal::BAD_NOTE_DESCRIPTOR));
    assert_eq!(steps.len(), 2);
    assert_eq!(
        notes(Order::Big, 5, &[]).map(drop),
        Err(Refusal::BAD_NOTE_ALIGNMENT)
    );
    assert_eq!(
        notes(Order::Big, 16, &[]).map(drop),
        Err(Refusal::BAD_NOTE_ALIGNMENT)
    );
    assert_eq!(notes(Order::Big, 0, &[]).unwrap().count(), 0);
    assert_eq!(trimmed(b"GNU\0\0"), Ok(&b"GNU"[..]));
}

#[test]
fn property_walk() {
    let descriptor = [2, 0, 0, 0xc0, 4, 0, 0, 0, 3, 0, 0, 0];
    let walk = |class, part| {
        gnu_properties(class, Order::Little, 5, b"GNU\0", part)
            .unwrap()
            .unwrap()
    };
    let all: Vec<_> = walk(Class::Elf32, &descriptor).collect();
    let [Ok(property)] = &all[..] else {
        panic!("{all:?}")
    };
    assert_eq!((property.kind, property.place.clone()), (0xc0000002, 8..12));
    assert_eq!(
        (property.bytes(), property.number()),
        (&[3, 0, 0, 0][..], Ok(3))
    );
    // The padding must be present.
    let all: Vec<_> = walk(Class::Elf64, &descriptor).collect();
    assert_eq!(all, [Err(Refusal::BAD_PROPERTY)]);
    assert_eq!(
        property_number(Order::Big, &[1, 2, 3]),
        Err(Refusal::SHORT_PROPERTY_NUMBER)
    );
    assert_eq!(
        property_number(Order::Big, &[1, 2, 3, 4, 5]),
        Ok(0x01020304)
    );
    let other = |kind, name: &[u8]| {
        gnu_properties(Class::Elf64, Order::Little, kind, name, &descriptor).unwrap()
    };
    assert!(other(4, b"GNU\0").is_none() && other(5, b"GNV\0").is_none());
    assert!(other(5, b"GNU").is_some());
}

#[test]
fn version_table() {
    // Big: one definition of index 2, hash 7, whose name is `a`; one need of index 3, hash 8, name
    // `b`, file `f`.
    let verdef = [
        0, 1, 0, 0, 0, 2, 0, 1, 0, 0, 0, 7, 0, 0, 0, 20, 0, 0, 0, 0, 0, 0, 0, 1, 0, 0, 0, 0,
    ];
    let verneed = [
        0, 1, 0, 1, 0, 0, 0, 5, 0, 0, 0, 16, 0, 0, 0, 0, 0, 0, 0, 8, 0, 0, 0x80, 3, 0, 0, 0, 3, 0,
        0, 0, 0,
    ];
    let strings = b"\0a\0b\0f\0";
    let mut store = [9; 26];
    let highest = versions_parse(Order::Big, &verdef, &verneed, strings, &mut store);
    assert_eq!(highest, Ok(VersionIndex(3)));
    assert_eq!(store[..12], [0; 12]);
    assert_eq!(store[12..24], [1, 7, 1, 1, 0, 0, 2, 8, 3, 1, 5, 1]);
    assert_eq!(store[24..], [0, 0]);

    let order = Order::Big;
    let versions = Versions {
        versyms: &[0, 0, 0x80, 2, 0, 3],
        store: &store,
        strings,
    };
    let (seven, eight) = (SysvHash::from_number(7), SysvHash::from_number(8));
    let definition = Version::Definition {
        hash: seven,
        name: b"a",
    };
    assert_eq!(versions.entry(VersionIndex(2)), Ok(Some(definition)));
    let place = VersionPlace::Definition {
        hash: seven,
        name: 1..2,
    };
    assert_eq!(versions.entry_place(VersionIndex(2)), Ok(Some(place)));
    let need = Version::Need {
        hash: eight,
        name: b"b",
        file: b"f",
    };
    assert_eq!(versions.entry(VersionIndex(3)), Ok(Some(need)));
    let place = VersionPlace::Need {
        hash: eight,
        name: 3..4,
        file: 5..6,
    };
    assert_eq!(versions.entry_place(VersionIndex(3)), Ok(Some(place)));
    assert_eq!(versions.entry(VersionIndex(1)), Ok(None));
    assert_eq!(versions.entry_place(VersionIndex(1)), Ok(None));
    let refused = Err(Refusal::BAD_VERSION_INDEX);
    assert_eq!(versions.entry(VersionIndex(4)).map(drop), refused);
    assert_eq!(versions.entry_place(VersionIndex(4)).map(drop), refused);
    let versym = Versym {
        index: VersionIndex(2),
        hidden: true,
    };
    assert_eq!(versions.version_of(order, SymbolIndex(1)), Ok(versym));
    let versym = Versym {
        index: VersionIndex(1),
        hidden: false,
    };
    assert_eq!(versions.version_of(order, SymbolIndex(3)), Ok(versym));
    let a = Some(Needed::with_hash(b"a", seven));
    assert_eq!(versions.matches(order, SymbolIndex(1), a), Ok(true));
    assert_eq!(versions.matches(order, SymbolIndex(1), None), Ok(false));
    assert_eq!(versions.matches(order, SymbolIndex(2), None), Ok(true));
    assert_eq!(versions.matches(order, SymbolIndex(2), a), Ok(false));
    assert_eq!(
        Versions::NONE.matches(order, SymbolIndex(1), None),
        Ok(true)
    );
    assert_eq!(Versions::NONE.matches(order, SymbolIndex(1), a), Ok(false));

    // The record's hash is not the name's, so a need that hashes the name does not match.
    let a = Needed::new(b"a").unwrap();
    assert_ne!(a, Needed::with_hash(b"a", seven));
    assert_eq!(versions.matches(order, SymbolIndex(1), Some(a)), Ok(false));

    // A refusal leaves 0 throughout.
    let mut store = [9; 23];
    let refused = versions_parse(order, &verdef, &verneed, strings, &mut store);
    assert_eq!(refused, Err(Refusal::STORE_TOO_SMALL));
    assert_eq!(store, [0; 23]);
    let refused = store_needed(order, &verdef, &verneed, strings, &mut store);
    assert_eq!(refused, Err(Refusal::STORE_TOO_SMALL));
    let mut scratch = vec![9; LARGEST_STORE];
    let needed = store_needed(order, &verdef, &verneed, strings, &mut scratch);
    assert_eq!(needed, Ok(24));
    let needed = store_needed(order, &[], &[], strings, &mut scratch);
    assert_eq!(needed, Ok(6));
    let refused = store_needed(order, &verdef[..19], &[], strings, &mut scratch);
    assert_eq!(refused, Err(Refusal::VERDEF_SHORT));
}

/// For every highest index: so many numbers pass, and one less is refused.
#[test]
fn the_store_has_as_many_numbers_as_are_needed() {
    assert_eq!(LARGEST_STORE, 393_216);
    let mut store = vec![0; LARGEST_STORE];
    for index in [0, 1, 2, 3, 255, 256, 0x7fff, 0x8000, 0xfffe, 0xffff] {
        let mut verdef = vec![0, 1, 0, 0];
        verdef.extend(u16::to_be_bytes(index));
        verdef.extend([0, 1, 0, 0, 0, 7, 0, 0, 0, 20, 0, 0, 0, 0]);
        verdef.extend([0, 0, 0, 0, 0, 0, 0, 0]);
        let parse = |store: &mut [u32]| versions_parse(Order::Big, &verdef, &[], b"\0", store);
        let needed = store_len(VersionIndex(index));
        assert_eq!(needed, (index as usize + 1) * ENTRY);
        assert_eq!(parse(&mut store[..needed]), Ok(VersionIndex(index)));
        let refused = parse(&mut store[..needed - 1]);
        assert_eq!(refused, Err(Refusal::STORE_TOO_SMALL));
        let asked = store_needed(Order::Big, &verdef, &[], b"\0", &mut store);
        assert_eq!(asked, Ok(needed));
    }
}

/// The fields of a version section, big: each a value and its width.
fn section(fields: &[(u32, usize)]) -> Vec<u8> {
    let bytes = |&(value, width): &(u32, usize)| value.to_be_bytes()[4 - width..].to_vec();
    fields.iter().flat_map(bytes).collect()
}

/// A Verdef of index 2 with one Verdaux.
fn verdef([aux, next, name, aux_next]: [u32; 4]) -> Vec<u8> {
    let head = [(1, 2), (0, 2), (2, 2), (1, 2), (7, 4), (aux, 4), (next, 4)];
    section(&[&head[..], &[(name, 4), (aux_next, 4)]].concat())
}

/// A Verneed of so many Vernauxs of index 3, each with its name and its next.
fn verneed([file, aux, next]: [u32; 3], auxs: &[[u32; 2]]) -> Vec<u8> {
    let count = auxs.len() as u32;
    let mut fields = vec![(1, 2), (count, 2), (file, 4), (aux, 4), (next, 4)];
    for &[name, next] in auxs {
        fields.extend([(8, 4), (0, 2), (3, 2), (name, 4), (next, 4)]);
    }
    section(&fields)
}

/// Sections with more than one fault answer the one that is reached first: each pass goes record by record.
#[test]
fn refusals_of_version_parsing_come_record_by_record() {
    let far = 1_000;
    let parse = |verdef: &[u8], verneed: &[u8]| {
        let mut store = [9; 24];
        let answer = versions_parse(Order::Big, verdef, verneed, b"\0a\0", &mut store);
        assert!(answer.is_ok() || store == [0; 24]);
        answer.map(|index| index.0).map_err(Refusal::number)
    };
    let good_def = verdef([20, 0, 1, 0]);
    let good_need = verneed([1, 16, 0], &[[1, 0]]);
    assert_eq!(parse(&good_def, &good_need), Ok(3));
    // In one record aux comes before next.
    assert_eq!(parse(&verdef([far, far, 1, 0]), &[]), Err(9));
    assert_eq!(parse(&[], &verneed([1, far, far], &[[1, 0]])), Err(14));
    // A definition comes before a need, whatever its place.
    let late = [verdef([20, 28, 1, 0]), verdef([20, far, 1, 0])].concat();
    assert_eq!(parse(&late, &good_need[..15]), Err(10));
    // The Vernauxs of a need come before the next need.
    let needs = |aux_next, aux| {
        let first = verneed([1, 16, 32], &[[1, aux_next]]);
        [first, verneed([1, aux, 0], &[[1, 0]])].concat()
    };
    assert_eq!(parse(&[], &needs(far, far)), Err(17));
    assert_eq!(parse(&[], &needs(0, far)), Err(14));
    // The first pass over both lists, the store, then the second pass.
    let nameless = verdef([20, 0, far, 0]);
    assert_eq!(parse(&nameless, &good_need[..15]), Err(13));
    let mut small = [9; 17];
    let answer = versions_parse(Order::Big, &nameless, &[], b"\0a\0", &mut small);
    assert_eq!(answer, Err(Refusal::STORE_TOO_SMALL));
    assert_eq!(parse(&nameless, &good_need), Err(18));
    // The name of the first definition comes before the aux of the second.
    let two = |name, aux| [verdef([20, 28, name, 0]), verdef([aux, 0, 1, 0])].concat();
    assert_eq!(parse(&two(far, 28), &[]), Err(18));
    assert_eq!(parse(&two(1, 28), &[]), Err(11));
    // In a Verdaux next comes before the name.
    assert_eq!(parse(&verdef([20, 0, far, far]), &[]), Err(12));
    // In a Vernaux the name comes before the file; the next Vernaux after both.
    let need = |file, names: [u32; 2]| verneed([file, 16, 0], &[[names[0], 16], [names[1], 0]]);
    assert_eq!(parse(&[], &need(far, [far, 1])), Err(20));
    assert_eq!(parse(&[], &need(far, [1, far])), Err(19));
    assert_eq!(parse(&[], &need(1, [1, far])), Err(20));
    // What a definition names comes before what a need names.
    assert_eq!(parse(&nameless, &need(far, [far, 1])), Err(18));
}

/// Without a need: 0 and 1 match hidden or not, an invalid index never, any other if it is not hidden.
#[test]
fn a_lookup_without_a_need() {
    let mut store = [0; 24];
    store[12..16].copy_from_slice(&[1, 7, 0, 0]);
    // Entry 3 is of kind 0, and there is none behind 4.
    for (versym, matches) in [
        (0, true),
        (0x8000, true),
        (1, true),
        (0x8001, true),
        (2, true),
        (0x8002, false),
        (3, false),
        (0x8003, false),
        (4, false),
        (0x7fff, false),
        (0xffff, false),
    ] {
        for (order, versyms) in [
            (Order::Little, u16::to_le_bytes(versym)),
            (Order::Big, u16::to_be_bytes(versym)),
        ] {
            let versions = Versions {
                versyms: &[[0, 0], versyms].concat(),
                store: &store,
                strings: b"",
            };
            let symbol = SymbolIndex(1);
            assert_eq!(versions.matches(order, symbol, None), Ok(matches));
            let table = bytes_of(order, &[1, 2, 1, 0, 0]);
            let table = SysvTable::parse(Class::Elf32, order, &table).unwrap();
            let symbols = Symbols {
                symbols: &bytes_of(order, &[0, 0, 0, 0, 1, 0, 0, 0]),
                strings: b"\0a\0",
            };
            let found = table.find(symbols, versions, b"a", None).unwrap();
            assert_eq!(found.symbol, matches.then_some(symbol), "{versym:#x}");
        }
    }
}

fn bytes_of(order: Order, words: &[u32]) -> Vec<u8> {
    let bytes = |word: &u32| match order {
        Order::Little => word.to_le_bytes(),
        Order::Big => word.to_be_bytes(),
    };
    words.iter().flat_map(bytes).collect()
}

#[test]
fn gnu_lookups() {
    for order in [Order::Little, Order::Big] {
        // Document 01's table, and the same with a bloom word of ones.
        let table = |bloom, shift| bytes_of(order, &[1, 1, 1, shift, bloom, 1, 177_671]);
        let symbols = bytes_of(order, &[0, 0, 0, 0, 1, 0, 0, 0]);
        let symbols = Symbols {
            symbols: &symbols,
            strings: b"\0a\0",
        };
        let find = |table: &[u8], name: &[u8]| {
            let table = GnuTable::parse(Class::Elf32, order, table)?;
            let found = table.find(symbols, Versions::NONE, name, None);
            let hash = GnuHash::of(name)?;
            let hashed = table.find_hashed(symbols, Versions::NONE, name, hash, None);
            assert_eq!(found, hashed);
            found
        };
        let found = |symbol, probes| Ok(Found { symbol, probes });
        let one = table(65_600, 5);
        assert_eq!(find(&one, b"a"), found(Some(SymbolIndex(1)), 1));
        assert_eq!(find(&one, b"b"), found(None, 0));
        let ones = table(u32::MAX, 5);
        assert_eq!(find(&ones, b"b"), found(None, 1));
        let shifted = table(u32::MAX, 32);
        assert_eq!(find(&shifted, b"b"), Err(Refusal::BAD_BLOOM_SHIFT));
        assert_eq!(find(&one[..15], b"a"), Err(Refusal::BAD_GNU_HEADER));
        assert_eq!(find(&one[..19], b"a"), Err(Refusal::BAD_GNU_BLOOM));
        assert_eq!(find(&one[..23], b"a"), Err(Refusal::BAD_GNU_BUCKETS));
        let parsed = GnuTable::parse(Class::Elf32, order, &one).unwrap();
        assert_eq!(parsed.symbol_base(), SymbolIndex(1));
        assert_eq!(parsed.length(), Ok(Some(2)));
        let length = |words: &[u32]| {
            let table = bytes_of(order, words);
            GnuTable::parse(Class::Elf32, order, &table)?.length()
        };
        assert_eq!(length(&[1, 1, 1, 5, 0, 1, 6, 7]), Ok(Some(3)));
        // No end; symbol base 0; no bucket; the highest bucket below the base; past 32 bits.
        assert_eq!(length(&[1, 1, 1, 5, 0, 1, 6]), Ok(None));
        assert_eq!(length(&[1, 1, 1, 5, 0, 1]), Ok(None));
        assert_eq!(length(&[1, 0, 1, 5, 0, 1, 6, 7]), Ok(None));
        assert_eq!(length(&[0, 1, 1, 5, 0, 7]), Ok(None));
        assert_eq!(length(&[1, 2, 1, 5, 0, 1, 7]), Ok(None));
        let last = u32::MAX - 1;
        assert_eq!(length(&[1, last, 1, 5, 0, last, 7]), Ok(Some(u32::MAX)));
        assert_eq!(length(&[1, last, 1, 5, 0, last, 6, 7]), Ok(None));
    }
}

#[test]
fn sysv_lookups() {
    for order in [Order::Little, Order::Big] {
        // One bucket with the chain 2, 1; symbol 2 is `b`.
        let table = bytes_of(order, &[1, 3, 2, 0, 0, 1]);
        let symbols = bytes_of(order, &[0, 0, 0, 0, 1, 0, 0, 0, 3, 0, 0, 0]);
        let symbols = Symbols {
            symbols: &symbols,
            strings: b"\0a\0b\0",
        };
        let find = |table: &[u8], name: &[u8]| {
            let table = SysvTable::parse(Class::Elf32, order, table)?;
            let found = table.find(symbols, Versions::NONE, name, None);
            let hash = SysvHash::of(name)?;
            let hashed = table.find_hashed(symbols, Versions::NONE, name, hash, None);
            assert_eq!(found, hashed);
            found
        };
        let found = |symbol, probes| Ok(Found { symbol, probes });
        assert_eq!(find(&table, b"a"), found(Some(SymbolIndex(1)), 2));
        assert_eq!(find(&table, b"b"), found(Some(SymbolIndex(2)), 1));
        assert_eq!(find(&table, b"c"), found(None, 2));
        assert_eq!(find(&table[..7], b"a"), Err(Refusal::BAD_SYSV_HEADER));
        assert_eq!(find(&table[..11], b"a"), Err(Refusal::BAD_SYSV_BUCKETS));
        assert_eq!(find(&table[..23], b"a"), Err(Refusal::BAD_SYSV_CHAINS));
        let parsed = SysvTable::parse(Class::Elf32, order, &table).unwrap();
        assert_eq!(parsed.length(), 3);
        // Two buckets: the SysV hash of `a` is odd and that of `b` even, their GNU hashes are not.
        let table = bytes_of(order, &[2, 3, 2, 1, 0, 0, 0]);
        assert_eq!(find(&table, b"a"), found(Some(SymbolIndex(1)), 1));
        assert_eq!(find(&table, b"b"), found(Some(SymbolIndex(2)), 1));
    }
}

#[test]
fn checkers() {
    for order in [Order::Little, Order::Big] {
        let symbols = bytes_of(order, &[0, 0, 0, 0, 1, 0, 0, 0]);
        let symbols = Symbols {
            symbols: &symbols,
            strings: b"\0a\0",
        };
        let check = |words: &[u32]| {
            let table = bytes_of(order, words);
            GnuTable::parse(Class::Elf32, order, &table)?.check(symbols)
        };
        let broken = |rule, place| Ok(GnuVerdict::Broken { rule, place });
        let accepted = Ok(GnuVerdict::Accepted { longest: 1 });
        assert_eq!(check(&[1, 1, 1, 5, 65_600, 1, 177_671]), accepted);
        assert_eq!(check(&[1, 0, 1, 5, 65_600, 1, 177_671]), broken(1, 0));
        assert_eq!(check(&[1, 1, 0, 5, 1, 177_671]), broken(2, 0));
        assert_eq!(check(&[0, 1, 1, 5, 65_600, 177_671]), broken(3, 0));
        assert_eq!(check(&[1, 1, 1, 32, 65_600, 1, 177_671]), broken(4, 0));
        assert_eq!(check(&[1, 1, 1, 5, 65_600, 1]), broken(5, 0));
        assert_eq!(check(&[1, 1, 1, 5, 65_600, 1, 177_673]), broken(7, 1));
        assert_eq!(check(&[1, 1, 1, 5, 64, 1, 177_671]), broken(8, 1));
        assert_eq!(check(&[1, 1, 1, 5, 65_600, 0, 177_671]), broken(9, 0));
        assert_eq!(check(&[1, 1, 1, 5, 65_600, 1, 177_670]), broken(10, 1));
        let check = |words: &[u32], symbols| {
            let table = bytes_of(order, words);
            SysvTable::parse(Class::Elf32, order, &table)?.check(symbols)
        };
        let broken = |rule| Ok(SysvVerdict::Broken { rule });
        assert_eq!(check(&[1, 2, 1, 9, 0], symbols), Ok(SysvVerdict::Accepted));
        assert_eq!(check(&[0, 2, 9, 0], symbols), broken(1));
        let endless = Symbols {
            strings: b"\0a",
            ..symbols
        };
        assert_eq!(check(&[1, 2, 1, 9, 0], endless), broken(2));
        assert_eq!(check(&[1, 2, 1, 9, 1], symbols), broken(3));
    }
}

/// A hash that was read from a file may be another name's: it may miss a symbol, and never finds one of
/// another name.
#[test]
fn a_wrong_hash_finds_no_other_name() {
    use fetulombo::sample::{GNU, LIBRARY, SYSV, VERSIONS};
    let gnu = GnuTable::parse(Class::Elf32, Order::Little, GNU).unwrap();
    let sysv = SysvTable::parse(Class::Elf32, Order::Little, SYSV).unwrap();
    let symbol = |found: Result<Found, Refusal>| found.unwrap().symbol;
    let (name, other) = (b"import_lot", b"export_lot");
    let number = SysvHash::of(name).unwrap().number();
    let hash = GnuHash::from_number(number);
    let found = gnu.find_hashed(LIBRARY, VERSIONS, name, hash, None);
    assert_eq!(symbol(found), None);
    let hash = GnuHash::of(name).unwrap();
    let found = gnu.find_hashed(LIBRARY, VERSIONS, other, hash, None);
    assert_eq!(symbol(found), None);
    let found = gnu.find_hashed(LIBRARY, VERSIONS, name, hash, None);
    assert_eq!(symbol(found), Some(SymbolIndex(2)));
    let hash = SysvHash::of(name).unwrap();
    let found = sysv.find_hashed(LIBRARY, VERSIONS, other, hash, None);
    assert_eq!(symbol(found), None);
    // One bucket has every hash.
    let hash = SysvHash::from_number(hash.number() ^ 1);
    let found = sysv.find_hashed(LIBRARY, VERSIONS, name, hash, None);
    assert_eq!(symbol(found), Some(SymbolIndex(2)));
}

/// The accident's library: `import_lot` as LOT_1.0, hidden, and as LOT_2.0.
#[test]
fn a_lookup_binds_the_version_that_it_states() {
    use fetulombo::sample::{GNU, LIBRARY, SYSV, VERSIONS};
    let gnu = GnuTable::parse(Class::Elf32, Order::Little, GNU).unwrap();
    let sysv = SysvTable::parse(Class::Elf32, Order::Little, SYSV).unwrap();
    let find = |need| {
        let name = b"import_lot";
        let found = gnu.find(LIBRARY, VERSIONS, name, need).unwrap();
        assert_eq!(sysv.find(LIBRARY, VERSIONS, name, need), Ok(found));
        found.symbol
    };
    let stated = |name| find(Some(Needed::new(name).unwrap()));
    assert_eq!(stated(b"LOT_1.0"), Some(SymbolIndex(1)));
    assert_eq!(stated(b"LOT_2.0"), Some(SymbolIndex(2)));
    assert_eq!(stated(b"LOT_3.0"), None);
    assert_eq!(stated(b"SUM_1"), None);
    assert_eq!(stated(b""), None);
    assert_eq!(find(None), Some(SymbolIndex(2)));
    // The hash of the one with the name of the other is neither.
    let hash = SysvHash::of(b"LOT_1.0").unwrap();
    assert_eq!(find(Some(Needed::with_hash(b"LOT_2.0", hash))), None);
    assert_eq!(
        find(Some(Needed::with_hash(b"LOT_1.0", hash))),
        Some(SymbolIndex(1))
    );
}

/// The sample of the documentation is a library: its hashes, its store and its tables are right.
#[test]
fn the_sample_is_right() {
    use fetulombo::sample::*;
    let (class, order) = (Class::Elf32, Order::Little);
    let mut store = [9; 30];
    let highest = versions_parse(order, VERDEF, VERNEED, STRINGS, &mut store);
    assert_eq!(highest, Ok(VersionIndex(4)));
    assert_eq!(store, *STORE);
    for index in 2..=4 {
        let (Some(Version::Definition { hash, name }) | Some(Version::Need { hash, name, .. })) =
            VERSIONS.entry(VersionIndex(index)).unwrap()
        else {
            panic!("a version")
        };
        assert_eq!(SysvHash::of(name), Ok(hash));
    }
    let gnu = GnuTable::parse(class, order, GNU).unwrap();
    assert_eq!(gnu.check(LIBRARY), Ok(GnuVerdict::Accepted { longest: 2 }));
    let sysv = SysvTable::parse(class, order, SYSV).unwrap();
    assert_eq!(sysv.check(LIBRARY), Ok(SysvVerdict::Accepted));
    assert_eq!(NOTES, &FILE[28..]);
    assert_eq!(segment_count(class, SEGMENTS), Ok(4));
}

/// What is answered lies in the lent bytes, and is no copy.
#[test]
fn answers_are_parts_of_what_was_lent() {
    use fetulombo::sample::*;
    let (class, order) = (Class::Elf32, Order::Little);
    fn at(part: &[u8], whole: &[u8]) -> core::ops::Range<usize> {
        let start = part.as_ptr() as usize - whole.as_ptr() as usize;
        start..start + part.len()
    }
    let Some(Version::Need { name, file, .. }) = VERSIONS.entry(VersionIndex(4)).unwrap() else {
        panic!("a need")
    };
    assert_eq!((at(name, STRINGS), at(file, STRINGS)), (38..43, 28..37));
    let name = symbol_name(class, order, SYMBOLS, STRINGS, SymbolIndex(1)).unwrap();
    assert_eq!(at(name, STRINGS), 1..11);
    assert_eq!(at(string_at(STRINGS, 20).unwrap(), STRINGS), 20..27);
    let padded = b"GNU\0";
    assert_eq!(at(trimmed(padded).unwrap(), padded), 0..3);
    let note = notes(order, 4, NOTES).unwrap().next().unwrap().unwrap();
    assert_eq!(at(note.name(), NOTES), 12..15);
    assert_eq!(at(note.descriptor(), NOTES), 16..28);
    let mut properties = note.gnu_properties(class).unwrap();
    let property = properties.next().unwrap().unwrap();
    assert_eq!(at(property.bytes(), NOTES), 24..28);
    let segment = |number| segment_at(class, order, SEGMENTS, number).unwrap();
    let name = segment(0).interpreter(FILE).unwrap().unwrap();
    assert_eq!(at(name, FILE), 0..6);
    let dynamic = segment(1).dynamic(class, order, FILE).unwrap().unwrap();
    assert_eq!(at(dynamic.bytes(), FILE), dynamic.place);
    assert_eq!(at(segment(2).data(FILE).unwrap(), FILE), 28..56);
    let range = segment(3).data_range(FILE, 0x1004, 4).unwrap().unwrap();
    assert_eq!(at(range, FILE), 4..8);
    // Of the same bytes lent elsewhere, a part of those.
    let copy = STRINGS.to_vec();
    let versions = Versions {
        strings: &copy,
        ..VERSIONS
    };
    let Some(Version::Definition { name, .. }) = versions.entry(VersionIndex(2)).unwrap() else {
        panic!("a definition")
    };
    assert_eq!(at(name, &copy), 12..19);
}

/// The functions keep nothing: many threads ask the same table at once, each with a store of its own.
#[test]
fn any_number_of_threads() {
    use fetulombo::sample::*;
    let ask = |turn: usize| {
        for _ in 0..200 {
            let mut store = [9; 30];
            versions_parse(Order::Little, VERDEF, VERNEED, STRINGS, &mut store).unwrap();
            let versions = Versions {
                store: &store,
                ..VERSIONS
            };
            let table = GnuTable::parse(Class::Elf32, Order::Little, GNU).unwrap();
            let (name, symbol) = [(b"LOT_1.0", 1), (b"LOT_2.0", 2)][turn % 2];
            let need = Some(Needed::new(name).unwrap());
            let found = table.find(LIBRARY, versions, b"import_lot", need).unwrap();
            assert_eq!(found.symbol, Some(SymbolIndex(symbol)));
        }
    };
    std::thread::scope(|scope| {
        for turn in 0..8 {
            scope.spawn(move || ask(turn));
        }
    });
}

#[test]
fn segments() {
    // Little, 32 bits: type, offset, vaddr, paddr, filesz, memsz, flags, align.
    let mut table = Vec::new();
    for field in [2u32, 8, 0x1000, 0x2000, 16, 32, 6, 4] {
        table.extend(field.to_le_bytes());
    }
    table.extend([0xee; 31]);
    let (class, order) = (Class::Elf32, Order::Little);
    assert_eq!(segment_count(class, &table), Ok(1));
    assert_eq!(segment_count(Class::Elf64, &table), Ok(1));
    let segment = segment_at(class, order, &table, 0).unwrap();
    assert_eq!(
        segment,
        Segment {
            kind: 2,
            flags: 6,
            offset: 8,
            vaddr: 0x1000,
            paddr: 0x2000,
            filesz: 16,
            memsz: 32,
            align: 4
        }
    );
    assert_eq!(segment.known_kind(), SegmentKind::Dynamic);
    assert_eq!(segment.file_range(), (8, 16));
    let may = segment.permissions();
    assert!(may.readable && may.writable && !may.executable);
    for number in [1, u32::MAX] {
        let refused = segment_at(class, order, &table, number);
        assert_eq!(refused, Err(Refusal::NO_SEGMENT));
    }
    let file = b"/lib/x\0\0\x01\0\0\0\x80\0\0\0\x02\0\0\0\x03\0\0\0";
    assert_eq!(segment.data(file), Ok(&file[8..]));
    assert_eq!(segment.data(&file[1..]), Err(Refusal::BAD_SEGMENT_DATA));
    assert_eq!(segment.data_range_place(file, 0x1004, 12), Ok(Some(12..24)));
    assert_eq!(segment.data_range(file, 0x1010, 0), Ok(Some(&b""[..])));
    assert_eq!(segment.data_range(file, 0x1004, 13), Ok(None));
    assert_eq!(segment.data_range(file, 0xfff, 1), Ok(None));
    assert_eq!(segment.data_range(file, 0x1001, u64::MAX), Ok(None));
    let dynamic = segment.dynamic(class, order, file).unwrap().unwrap();
    assert_eq!((dynamic.place.clone(), dynamic.count), (8..24, 2));
    assert_eq!(dynamic.bytes(), &file[8..]);
    let entries: Vec<_> = dynamic.entries().map(|e| (e.tag, e.value)).collect();
    assert_eq!(entries, [(1, 0x80), (2, 3)]);
    assert_eq!(dynamic.entry(2), None);
    assert_eq!(
        dynamic_entry(Class::Elf64, order, &file[8..23], 0),
        Ok(None)
    );
    let past = Segment {
        offset: 9,
        ..segment
    };
    let refused = past.dynamic(class, order, file);
    assert_eq!(refused, Err(Refusal::BAD_DYNAMIC_PLACE));
    let wraps = Segment {
        offset: 8,
        filesz: u64::MAX,
        ..segment
    };
    assert_eq!(wraps.data(file), Err(Refusal::BAD_SEGMENT_DATA));
    let name = Segment {
        kind: 3,
        offset: 1,
        filesz: 23,
        ..segment
    };
    assert_eq!(name.known_kind(), SegmentKind::Interpreter);
    assert_eq!(name.interpreter(file), Ok(Some(&b"lib/x"[..])));
    assert_eq!(
        name.interpreter_place(&file[1..]),
        Err(Refusal::BAD_INTERPRETER_PLACE)
    );
    let endless = Segment { filesz: 5, ..name };
    assert_eq!(endless.interpreter(file), Err(Refusal::ENDLESS_INTERPRETER));
    assert_eq!(name.dynamic(class, order, file), Ok(None));
    assert_eq!(segment.interpreter(file), Ok(None));
    assert!(segment.notes(order, file).unwrap().is_none());
    let held = Segment {
        kind: 4,
        offset: 8,
        ..segment
    };
    assert_eq!(held.known_kind(), SegmentKind::Note);
    assert_eq!(held.notes_place(file), Ok(Some((8..24, 4))));
    let mut walk = held.notes(order, file).unwrap().unwrap();
    assert_eq!(walk.next(), Some(Err(Refusal::BAD_NOTE_DESCRIPTOR)));
    assert_eq!(walk.next(), None);
    let odd = Segment { align: 5, ..held };
    assert_eq!(odd.notes_place(file), Err(Refusal::BAD_NOTE_ALIGNMENT));
    let outside = Segment { offset: 9, ..odd };
    assert_eq!(outside.notes_place(file), Err(Refusal::BAD_NOTE_PLACE));
}

/// Document 02, item 7.
#[test]
fn the_limit() {
    assert_eq!(LIMIT, 1_073_741_824);
}

// A long part of zeros that is only read costs address space, and next to no memory.

#[test]
fn too_long_comes_first() {
    let part = vec![0; LIMIT + 1];
    let long = Err(Refusal::TOO_LONG);
    let (class, order) = (Class::Elf64, Order::Little);
    assert_eq!(u16_at(order, &part, 0).map(drop), long);
    assert_eq!(u32_at(order, &part, 0).map(drop), long);
    assert_eq!(u64_at(order, &part, 0).map(drop), long);
    assert_eq!(string_at(&part, u32::MAX).map(drop), long);
    assert_eq!(string_equals(&part, 0, b"").map(drop), long);
    assert_eq!(string_equals(b"", 0, &part).map(drop), long);
    assert_eq!(GnuHash::of(&part).map(drop), long);
    assert_eq!(SysvHash::of(&part).map(drop), long);
    assert_eq!(Needed::new(&part).map(drop), long);
    assert_eq!(symbol_count(class, &part).map(drop), long);
    assert_eq!(
        symbol_at(class, order, &part, SymbolIndex(0)).map(drop),
        long
    );
    assert_eq!(
        symbol_name(class, order, &part, b"", SymbolIndex(0)).map(drop),
        long
    );
    assert_eq!(
        symbol_name(class, order, b"", &part, SymbolIndex(0)).map(drop),
        long
    );
    assert_eq!(notes(order, 5, &part).map(drop), long);
    assert_eq!(trimmed(&part).map(drop), long);
    assert_eq!(gnu_properties(class, order, 5, &part, b"").map(drop), long);
    assert_eq!(gnu_properties(class, order, 5, b"", &part).map(drop), long);
    assert_eq!(property_number(order, &part).map(drop), long);
    let mut store = [9; 6];
    assert_eq!(
        versions_parse(order, &part, b"", b"", &mut store).map(drop),
        long
    );
    assert_eq!(store, [0; 6]);
    assert_eq!(
        store_needed(order, b"", &part, b"", &mut store).map(drop),
        long
    );
    let versions = Versions {
        strings: &part,
        versyms: &part,
        ..Versions::NONE
    };
    assert_eq!(versions.entry(VersionIndex(0)).map(drop), long);
    assert_eq!(versions.entry_place(VersionIndex(0)).map(drop), long);
    assert_eq!(versions.version_of(order, SymbolIndex(0)).map(drop), long);
    assert_eq!(
        versions.matches(order, SymbolIndex(0), None).map(drop),
        long
    );
    let none = SysvHash::from_number(0);
    let need = Some(Needed::with_hash(&part, none));
    assert_eq!(
        Versions::NONE
            .matches(order, SymbolIndex(0), need)
            .map(drop),
        long
    );
    assert_eq!(GnuTable::parse(class, order, &part).map(drop), long);
    assert_eq!(SysvTable::parse(class, order, &part).map(drop), long);
    let gnu = GnuTable::parse(class, order, &[0; 16]).unwrap();
    let sysv = SysvTable::parse(class, order, &[0; 16]).unwrap();
    let symbols = Symbols {
        symbols: b"",
        strings: b"",
    };
    let short = Versions::NONE;
    assert_eq!(gnu.find(symbols, short, b"", need).map(drop), long);
    assert_eq!(sysv.find(symbols, short, b"", need).map(drop), long);
    assert_eq!(gnu.find(symbols, short, &part, None).map(drop), long);
    assert_eq!(sysv.find(symbols, short, &part, None).map(drop), long);
    let hash = GnuHash::from_number(0);
    let found = gnu.find_hashed(symbols, short, &part, hash, None);
    assert_eq!(found.map(drop), long);
    let found = sysv.find_hashed(symbols, short, &part, none, None);
    assert_eq!(found.map(drop), long);
    assert_eq!(gnu.find(symbols, versions, b"", None).map(drop), long);
    assert_eq!(sysv.find(symbols, versions, b"", None).map(drop), long);
    let symbols = Symbols {
        symbols: &part,
        ..symbols
    };
    assert_eq!(gnu.find(symbols, short, b"", None).map(drop), long);
    assert_eq!(sysv.find(symbols, short, b"", None).map(drop), long);
    assert_eq!(gnu.check(symbols).map(drop), long);
    assert_eq!(sysv.check(symbols).map(drop), long);
    assert_eq!(segment_count(class, &part).map(drop), long);
    assert_eq!(segment_at(class, order, &part, 0).map(drop), long);
    assert_eq!(dynamic_entry(class, order, &part, 0).map(drop), long);
    let segment = segment_at(class, order, &[0; 56], 0).unwrap();
    assert_eq!(segment.data(&part).map(drop), long);
    assert_eq!(segment.data_range(&part, 1, 1).map(drop), long);
    assert_eq!(segment.dynamic(class, order, &part).map(drop), long);
    assert_eq!(segment.interpreter(&part).map(drop), long);
    assert_eq!(segment.notes(order, &part).map(drop), long);
}

/// Every part of exactly the limit passes.
#[test]
fn at_the_limit() {
    let part = vec![0; LIMIT];
    let (class, order) = (Class::Elf64, Order::Little);
    assert_eq!(u16_at(order, &part, LIMIT - 1), Ok(0));
    assert_eq!(u32_at(order, &part, 0), Ok(0));
    assert_eq!(u64_at(order, &part, LIMIT), Ok(0));
    assert_eq!(string_at(&part, 7), Ok(&b""[..]));
    assert_eq!(string_equals(&part, 0, &part), Ok(false));
    // 33 to the power of 2^30 is 1 modulo 2^32.
    assert_eq!(GnuHash::of(&part).map(GnuHash::number), Ok(5381));
    assert_eq!(SysvHash::of(&part).map(SysvHash::number), Ok(0));
    assert_eq!(symbol_count(class, &part), Ok(44_739_242));
    let last = SymbolIndex(44_739_241);
    assert_eq!(symbol_name(class, order, &part, &part, last), Ok(&b""[..]));
    let past = symbol_at(class, order, &part, SymbolIndex(44_739_242));
    assert_eq!(past, Err(Refusal::NO_SYMBOL));
    assert_eq!(trimmed(&part), Ok(&b""[..]));
    assert_eq!(
        gnu_properties(class, order, 5, b"GNU", &part).map(|found| found.is_some()),
        Ok(true)
    );
    assert_eq!(property_number(order, &part), Ok(0));
    let mut store = [9; 12];
    let highest = versions_parse(order, &part, &part, &part, &mut store);
    assert_eq!(highest, Ok(VersionIndex(0)));
    assert_eq!(store, [0; 12]);
    let versions = Versions {
        versyms: &part,
        store: &store,
        strings: &part,
    };
    assert_eq!(versions.entry(VersionIndex(1)), Ok(None));
    let first = SymbolIndex(0);
    let hash = SysvHash::from_number(0);
    let need = Some(Needed::with_hash(&part, hash));
    assert_eq!(versions.matches(order, first, need), Ok(false));
    let symbols = Symbols {
        symbols: &part,
        strings: &part,
    };
    let none = Ok(Found {
        symbol: None,
        probes: 0,
    });
    let gnu = GnuTable::parse(class, order, &part).unwrap();
    let gnu_hash = GnuHash::from_number(0);
    let found = gnu.find_hashed(symbols, versions, &part, gnu_hash, need);
    assert_eq!(found, none);
    let broken = GnuVerdict::Broken { rule: 1, place: 0 };
    assert_eq!(gnu.check(symbols), Ok(broken));
    let sysv = SysvTable::parse(class, order, &part).unwrap();
    let found = sysv.find_hashed(symbols, versions, &part, hash, need);
    assert_eq!(found, none);
    assert_eq!(sysv.check(symbols), Ok(SysvVerdict::Broken { rule: 1 }));
    assert_eq!(segment_count(class, &part), Ok(19_173_961));
    let segment = segment_at(class, order, &part, 19_173_960).unwrap();
    let refused = segment_at(class, order, &part, 19_173_961);
    assert_eq!(refused, Err(Refusal::NO_SEGMENT));
    let entry = dynamic_entry(class, order, &part, 67_108_863).unwrap();
    assert!(entry.is_some());
    assert_eq!(dynamic_entry(class, order, &part, 67_108_864), Ok(None));
    let whole = Segment {
        filesz: LIMIT as u64,
        ..segment
    };
    assert_eq!(whole.data_place(&part), Ok(0..LIMIT));
    let end = Segment {
        offset: LIMIT as u64,
        ..segment
    };
    assert_eq!(end.data(&part), Ok(&b""[..]));
    let past = Segment { filesz: 1, ..end };
    assert_eq!(past.data(&part), Err(Refusal::BAD_SEGMENT_DATA));
}

/// Strings, versyms and notes at the ends of parts of the limit.
#[test]
fn ends_of_the_limit() {
    let order = Order::Little;
    let mut part = vec![0; LIMIT];
    part[0] = b'a';
    let end = LIMIT as u32;
    assert_eq!(string_at(&part, 0), Ok(&b"a"[..]));
    assert_eq!(string_place(&part, end - 1), Ok(LIMIT - 1..LIMIT - 1));
    assert_eq!(string_at(&part, end), Err(Refusal::NO_STRING));
    // One byte more than document 01 lets a part have.
    assert_eq!(string_at(&part[..16_777_217], 0), Ok(&b"a"[..]));
    part[0] = 0;
    part[LIMIT - 2..].fill(0xff);
    let versions = Versions {
        versyms: &part,
        ..Versions::NONE
    };
    let last = versions
        .version_of(order, SymbolIndex(536_870_911))
        .unwrap();
    assert_eq!((last.index, last.hidden), (VersionIndex(0x7fff), true));
    let past = versions
        .version_of(order, SymbolIndex(536_870_912))
        .unwrap();
    assert_eq!((past.index, past.hidden), (VersionIndex(1), false));
    part[4..8].copy_from_slice(&(end - 12).to_le_bytes());
    let mut walk = notes(order, 4, &part).unwrap();
    let note = walk.next().unwrap().unwrap();
    assert_eq!(note.descriptor_place, 12..LIMIT);
    assert_eq!(walk.next(), None);
    part[4..8].copy_from_slice(&(end - 11).to_le_bytes());
    let refused = notes(order, 4, &part).unwrap().next();
    assert_eq!(refused, Some(Err(Refusal::BAD_NOTE_DESCRIPTOR)));
}

#[test]
fn refusals_are_numbered_in_order() {
    let numbers: Vec<u32> = Refusal::ALL
        .iter()
        .map(|refusal| refusal.number())
        .collect();
    assert_eq!(numbers, (1..=37).chain([39]).collect::<Vec<u32>>());
    let text = Refusal::NO_SYMBOL.to_string();
    assert_eq!(text, "refused (37): no symbol has that number");
    let text = Refusal::UNKNOWN_KIND.to_string();
    assert_eq!(text, "refused (39): a class or a byte order that is none");
}
