//! Lookups in both tables, with their probes, and the lengths. The symbol is held against the
//! original's, the probes, which it does not count, against the plain walk; a shift above 31, which
//! the original does not take, against the plain walk alone.

use crate::Run;
use crate::inputs::{KINDS, Random, big, is64};
use crate::limits::{self, FORMER};
use crate::memory::Long;
use crate::plain::{Found, gnu_hash, sysv_hash};
use crate::report::hex;
use crate::tables::{
    GnuShape, NAMES, Symbols, VERSIONS, damaged_words, gnu_table, made_up, of_library, put_symbol,
    put_word, sysv_table, turned,
};
use crate::versions::{self, put};
use fetulombo::{
    Class, ENTRY, GnuHash, GnuTable, LARGEST_STORE, LIMIT, Needed, Order, Symbols as OurSymbols,
    SysvHash, SysvTable, Versions,
};

#[derive(Debug, Clone, Copy, PartialEq, Eq, PartialOrd, Ord)]
pub enum Kind {
    Gnu,
    Sysv,
}

impl Kind {
    fn hash(self, name: &[u8]) -> u32 {
        match self {
            Kind::Gnu => gnu_hash(name),
            Kind::Sysv => sysv_hash(name),
        }
    }
}

/// What is asked for.
#[derive(Debug, Clone)]
pub struct Asked {
    pub name: Vec<u8>,
    pub hash: u32,
    pub need: Option<(Vec<u8>, u32)>,
}

pub fn compare(run: &mut Run) {
    for turn in 0..run.times(40_000) {
        let (class, order) = KINDS[turn % 4];
        let shape = GnuShape::random(&mut run.random);
        let made = made_up(&mut run.random, class, order, shape.buckets, shape.base);
        let mut gnu = gnu_table(&made, shape);
        let mut sysv = sysv_table(&made, shape.buckets as usize);
        if turn % 3 != 0 {
            gnu = damaged_words(&mut run.random, order, &gnu);
            sysv = damaged_words(&mut run.random, order, &sysv);
        }
        let asked: Vec<Asked> = (0..6).map(|_| ask(&mut run.random)).collect();
        one(run, Kind::Gnu, &made, &gnu, &asked);
        let asked: Vec<Asked> = asked.into_iter().map(|asked| rehashed(asked)).collect();
        one(run, Kind::Sysv, &made, &sysv, &asked);
    }
    short_gnu(run);
    short_sysv(run);
    libraries(run);
}

/// A name that may be there with its GNU hash or another, and any need.
pub fn ask(random: &mut Random) -> Asked {
    let mut name = random.of(&NAMES).to_vec();
    if random.below(8) == 0 {
        name = random.damaged(&name);
    }
    let hash = match random.below(8) {
        0 => gnu_hash(&name) ^ 1,
        1 => random.next() as u32,
        _ => gnu_hash(&name),
    };
    let need = match random.below(3) {
        0 => None,
        _ => {
            let version = random.of(&VERSIONS);
            Some(match random.below(8) {
                0 => (version.to_vec(), sysv_hash(version) ^ 1),
                1 => (b"W".to_vec(), sysv_hash(version)),
                2 => (Vec::new(), 0),
                _ => (version.to_vec(), sysv_hash(version)),
            })
        }
    };
    Asked { name, hash, need }
}

/// The same with the SysV hash where the GNU one was right.
pub fn rehashed(mut asked: Asked) -> Asked {
    if asked.hash == gnu_hash(&asked.name) {
        asked.hash = sysv_hash(&asked.name);
    }
    asked
}

/// The original's versions of these symbols, if it does not refuse them.
pub fn their_versions(made: &Symbols) -> Option<oracle::Versions<'_>> {
    oracle::versions_parse(
        is64(made.class),
        big(made.order),
        &made.versions.versyms,
        Some(&made.versions.verdef),
        Some(&made.versions.verneed),
        &made.versions.strings,
    )
    .ok()
}

/// The same with the store of ours, which is empty where they are refused.
pub fn versions_of(made: &Symbols) -> (Option<oracle::Versions<'_>>, Vec<u32>) {
    let theirs = their_versions(made);
    let parsed = |room| {
        let mut store = vec![0; room];
        let highest = fetulombo::versions_parse(
            made.order,
            &made.versions.verdef,
            &made.versions.verneed,
            &made.versions.strings,
            &mut store,
        );
        store.truncate(highest.map_or(0, |index| (index.0 as usize + 1) * ENTRY));
        (highest, store)
    };
    let (highest, mut store) = parsed(8 * ENTRY);
    if highest == Err(fetulombo::Refusal::STORE_TOO_SMALL) {
        store = parsed(LARGEST_STORE).1;
    }
    (theirs, store)
}

/// One table with some lookups, and its length.
pub fn one(run: &mut Run, kind: Kind, made: &Symbols, table: &[u8], asked: &[Asked]) {
    let (theirs, store) = versions_of(made);
    let none = oracle::Versions::none(is64(made.class), big(made.order));
    let theirs = theirs.as_ref().unwrap_or(&none);
    let versions = Versions {
        versyms: if store.is_empty() && theirs.entries() == none.entries() {
            &[]
        } else {
            &made.versions.versyms
        },
        store: &store,
        strings: &made.versions.strings,
    };
    lengths(run, kind, made, table);
    for asked in asked {
        lookup(run, kind, made, table, versions, theirs, asked);
    }
}

fn lookup(
    run: &mut Run,
    kind: Kind,
    made: &Symbols,
    table: &[u8],
    versions: Versions<'_>,
    theirs: &oracle::Versions<'_>,
    asked: &Asked,
) {
    let (class, order) = (made.class, made.order);
    let symbols = OurSymbols {
        symbols: &made.symbols,
        strings: &made.strings,
    };
    let need = asked.need.as_ref();
    let need = need.map(|(name, hash)| Needed::with_hash(name, SysvHash::from_number(*hash)));
    let name = &asked.name[..];
    let ours = match kind {
        Kind::Gnu => GnuTable::parse(class, order, table).and_then(|table| {
            let hash = GnuHash::from_number(asked.hash);
            table.find_hashed(symbols, versions, name, hash, need)
        }),
        Kind::Sysv => SysvTable::parse(class, order, table).and_then(|table| {
            let hash = SysvHash::from_number(asked.hash);
            table.find_hashed(symbols, versions, name, hash, need)
        }),
    };
    let ours = ours
        .map(|found| (found.symbol.map(|symbol| symbol.0), found.probes))
        .map_err(|refusal| refusal.number());
    let original = original(kind, made, table, theirs, asked);
    let name = match kind {
        Kind::Gnu => "gnu find",
        Kind::Sysv => "sysv find",
    };
    run.report.same(
        name,
        ours,
        original,
        |found| match (found.0, found.1) {
            (Some(_), 1) => "found at once",
            (Some(_), _) => "found",
            (None, 0) => "none, no probe",
            (None, _) => "none",
        },
        || {
            format!(
                "{class:?} {order:?} table {} symbols {} strings {} {asked:?} versions {:?}",
                hex(table),
                hex(&made.symbols),
                hex(&made.strings),
                versions
            )
        },
    );
}

/// The original's symbol with the plain walk's probes. Where the shift is above 31, the plain walk's
/// answer: the original must not see such a shift.
pub fn original(
    kind: Kind,
    made: &Symbols,
    table: &[u8],
    theirs: &oracle::Versions<'_>,
    asked: &Asked,
) -> Found {
    let need = asked.need.as_ref();
    let need = need.map(|(name, hash)| oracle::Need { name, hash: *hash });
    let matches = |symbol| theirs.matches(symbol, need);
    let plain = made.plain(table);
    let walked = match kind {
        Kind::Gnu => plain.gnu_find(&asked.name, asked.hash, &matches),
        Kind::Sysv => plain.sysv_find(&asked.name, asked.hash, &matches),
    };
    let there = oracle::Symbols {
        symbols: &made.symbols,
        strings: &made.strings,
    };
    let wanted = oracle::Wanted {
        name: &asked.name,
        hash: asked.hash,
        need,
    };
    let probes = walked.map_or(u64::MAX, |found| found.1);
    let (is64, big) = (is64(made.class), big(made.order));
    match kind {
        Kind::Gnu if walked == Err(30) => walked,
        Kind::Gnu => oracle::gnu_parse(is64, big, table).map(|gnu| {
            let found = match shift(made.order, table) > 31 {
                true => walked.ok().and_then(|found| found.0),
                false => gnu.find(there, theirs, wanted),
            };
            (found, probes)
        }),
        Kind::Sysv => oracle::sysv_parse(is64, big, table)
            .map(|sysv| (sysv.find(there, theirs, wanted), probes)),
    }
}

/// The shift of a table that has a header.
pub fn shift(order: Order, table: &[u8]) -> u32 {
    let bytes = table[12..16].try_into().expect("4 bytes");
    match order {
        Order::Little => u32::from_le_bytes(bytes),
        Order::Big => u32::from_be_bytes(bytes),
    }
}

fn lengths(run: &mut Run, kind: Kind, made: &Symbols, table: &[u8]) {
    let (class, order) = (made.class, made.order);
    let (is64, big) = (is64(class), big(order));
    let input = || format!("{class:?} {order:?} table {}", hex(table));
    match kind {
        Kind::Gnu => {
            let ours = GnuTable::parse(class, order, table)
                .and_then(|gnu| Ok((gnu.symbol_base().0, gnu.length()?)))
                .map_err(|refusal| refusal.number());
            let original =
                oracle::gnu_parse(is64, big, table).map(|gnu| (gnu.symbol_base(), gnu.length()));
            run.report.same(
                "gnu base, length",
                ours,
                original,
                |length| match length.1 {
                    Some(_) => "length",
                    None => "nothing",
                },
                input,
            );
        }
        Kind::Sysv => {
            let ours = SysvTable::parse(class, order, table)
                .map(|sysv| sysv.length())
                .map_err(|refusal| refusal.number());
            let original = oracle::sysv_parse(is64, big, table).map(|sysv| sysv.length());
            run.report
                .same("sysv length", ours, original, |_| "length", input);
        }
    }
}

/// Every table of these few words: GNU, with one bucket or none or two, over three symbols.
fn short_gnu(run: &mut Run) {
    let (a, b) = (gnu_hash(b"a"), gnu_hash(b"b"));
    let asked: Vec<Asked> = [(&b"a"[..], a), (b"b", b), (b"a", b), (b"c", a ^ 1)]
        .map(|(name, hash)| Asked {
            name: name.to_vec(),
            hash,
            need: None,
        })
        .to_vec();
    for (class, order) in KINDS {
        let made = three(class, order);
        let width = made.word();
        for header in lists_of(&[0, 1, 2, 3], 3) {
            let [bucket_count, base, blooms] = header[..] else {
                continue;
            };
            if blooms > 2 || bucket_count > 2 {
                continue;
            }
            for shift in [0, 5, 31, 32, u32::MAX] {
                for bloom in [0, u64::MAX, 1 << (a % (width as u32 * 8))] {
                    let all = lists_of(&[0, 1, 2, 3, 0xffff_ffff, a & !1, a | 1], 3);
                    for words in all.into_iter().step_by(run.step()) {
                        let mut table = Vec::new();
                        for value in [bucket_count, base, blooms, shift] {
                            put(order, &mut table, value, 4);
                        }
                        for _ in 0..blooms {
                            put_word(order, &mut table, bloom, width);
                        }
                        for &value in &words {
                            put(order, &mut table, value, 4);
                        }
                        one(run, Kind::Gnu, &made, &table, &asked);
                    }
                }
            }
        }
    }
}

/// Every table of these few words: SysV.
fn short_sysv(run: &mut Run) {
    let asked: Vec<Asked> = [(&b"a"[..], 97), (b"b", 98), (b"a", 98), (b"", 0)]
        .map(|(name, hash)| Asked {
            name: name.to_vec(),
            hash,
            need: None,
        })
        .to_vec();
    for (class, order) in KINDS {
        let made = three(class, order);
        for counts in lists_of(&[0, 1, 2, 3, 4], 2) {
            let all = lists_of(&[0, 1, 2, 3, 4], 5);
            for words in all.into_iter().step_by(run.step()) {
                if counts.len() < 2 && words.len() > 1 {
                    continue;
                }
                let mut table = Vec::new();
                for &value in counts.iter().chain(&words) {
                    put(order, &mut table, value, 4);
                }
                one(run, Kind::Sysv, &made, &table, &asked);
            }
        }
    }
}

/// Symbols null, `a`, `b`, without versions.
fn three(class: Class, order: Order) -> Symbols {
    let mut made = Symbols {
        class,
        order,
        symbols: Vec::new(),
        strings: b"\0a\0b\0".to_vec(),
        versions: versions::Parts::default(),
    };
    for name in [0, 1, 3] {
        put_symbol(class, order, &mut made.symbols, name);
    }
    made
}

/// Every list of at most `length` of these numbers.
fn lists_of(numbers: &[u32], length: usize) -> Vec<Vec<u32>> {
    let places: Vec<u8> = (0..numbers.len() as u8).collect();
    crate::inputs::lists(&places, length)
        .into_iter()
        .map(|list| list.iter().map(|&k| numbers[k as usize]).collect())
        .collect()
}

/// Each part of exactly the limit and of one byte more; one that is too long comes first. Then tables
/// and symbols that take the whole of the limit.
pub fn limits(run: &mut Run, parts: &mut limits::Parts) {
    for &length in run.limits.lengths() {
        let refused = length > LIMIT;
        let part = &parts.zeros[..length];
        long_tables(run, part, refused);
        for which in 0..7 {
            let lent = |k: usize| if which == k { part } else { &[0; 16][..] };
            let symbols = OurSymbols {
                symbols: lent(1),
                strings: lent(2),
            };
            let versions = Versions {
                versyms: lent(3),
                store: &[],
                strings: lent(4),
            };
            let need = Some(Needed::with_hash(lent(6), SysvHash::from_number(0)));
            let (class, order) = (Class::Elf32, Order::Little);
            let gnu = GnuTable::parse(class, order, lent(0)).and_then(|table| {
                let hash = GnuHash::from_number(0);
                table.find_hashed(symbols, versions, lent(5), hash, need)
            });
            let sysv = SysvTable::parse(class, order, lent(0)).and_then(|table| {
                let hash = SysvHash::from_number(0);
                table.find_hashed(symbols, versions, lent(5), hash, need)
            });
            let fits = if refused { Err(1) } else { Ok(()) };
            for (name, ours) in [("gnu find", gnu), ("sysv find", sysv)] {
                let ours = ours.map(|_| ()).map_err(|refusal| refusal.number());
                run.report.same(
                    name,
                    ours,
                    fits,
                    |_| "none, no probe",
                    || format!("part {which} of {length}"),
                );
            }
        }
    }
    if run.limits.answered() {
        for &length in run.limits.lengths().iter().filter(|&&n| n <= LIMIT) {
            whole_tables(run, &mut parts.zeros, length);
            last_symbols(run, length);
        }
        many(run);
    }
}

/// The names that are asked of long tables.
fn some_names(kind: Kind) -> Vec<Asked> {
    let asked = |name: &[u8]| Asked {
        name: name.to_vec(),
        hash: kind.hash(name),
        need: None,
    };
    vec![asked(b"a"), asked(b"b"), asked(b"")]
}

/// Puts words to the front of a table.
fn put_words(order: Order, table: &mut [u8], words: &[u32]) {
    let mut bytes = Vec::new();
    for &word in words {
        put(order, &mut bytes, word, 4);
    }
    table[..bytes.len()].copy_from_slice(&bytes);
}

/// A GNU table of buckets alone, a SysV table of chains alone: as many as a table of this length holds,
/// and one more. The SysV table's bucket holds its last chain.
fn whole_tables(run: &mut Run, long: &mut Long, length: usize) {
    for &(class, order) in run.kinds() {
        let made = three(class, order);
        for more in [0, 1] {
            let bloom = made.word();
            let buckets = ((length - 16 - bloom) / 4 + more) as u32;
            let words = [buckets, 1, 1, 5, u32::MAX, u32::MAX];
            put_words(order, long, &words[..4 + bloom / 4]);
            one(
                run,
                Kind::Gnu,
                &made,
                &long[..length],
                &some_names(Kind::Gnu),
            );
            long.renew();
            let chains = ((length - 12) / 4 + more) as u32;
            put_words(order, long, &[1, chains, chains - 1]);
            one(
                run,
                Kind::Sysv,
                &made,
                &long[..length],
                &some_names(Kind::Sysv),
            );
            long.renew();
        }
    }
}

/// A symbol table of this length whose last symbol alone has a name; both tables lead to it.
fn last_symbols(run: &mut Run, length: usize) {
    for &(class, order) in run.kinds() {
        let mut made = three(class, order);
        let mut last = Vec::new();
        put_symbol(class, order, &mut last, 1);
        let number = (length / last.len()) as u32 - 1;
        made.symbols = vec![0; length];
        made.symbols[number as usize * last.len()..][..last.len()].copy_from_slice(&last);
        for past in [0, 1] {
            let number = number + past;
            let mut gnu = Vec::new();
            for word in [1, number, 1, 5] {
                put(order, &mut gnu, word, 4);
            }
            put_word(order, &mut gnu, u64::MAX, made.word());
            for word in [number, gnu_hash(b"a") | 1] {
                put(order, &mut gnu, word, 4);
            }
            one(run, Kind::Gnu, &made, &gnu, &some_names(Kind::Gnu));
            let mut sysv = Vec::new();
            for word in [1, 1, number, 0] {
                put(order, &mut sysv, word, 4);
            }
            one(run, Kind::Sysv, &made, &sysv, &some_names(Kind::Sysv));
        }
    }
}

/// Well-made tables over more symbols than document 01 lets a part have.
fn many(run: &mut Run) {
    let made = crate::cost::many(1_000_000, 250_000);
    assert!(made.symbols.len() > FORMER);
    let shape = GnuShape {
        buckets: 250_000,
        base: 1,
        blooms: 1 << 16,
        shift: 6,
    };
    let tables = [
        (Kind::Gnu, gnu_table(&made, shape)),
        (Kind::Sysv, sysv_table(&made, 250_000)),
    ];
    for (kind, table) in tables {
        let asked = names_of(run, kind, &made, run.at_most(1_000));
        one(run, kind, &made, &table, &asked);
    }
}

/// The lengths of a table of zeros.
fn long_tables(run: &mut Run, table: &[u8], refused: bool) {
    for (class, order) in KINDS {
        let input = || format!("{class:?} {order:?} a table of {}", table.len());
        let gnu = GnuTable::parse(class, order, table)
            .and_then(|gnu| Ok((gnu.symbol_base().0, gnu.length()?)));
        run.report.same(
            "gnu base, length",
            gnu.map_err(|refusal| refusal.number()),
            if refused { Err(1) } else { Ok((0, None)) },
            |_| "nothing",
            input,
        );
        let sysv = SysvTable::parse(class, order, table).map(|sysv| sysv.length());
        run.report.same(
            "sysv length",
            sysv.map_err(|refusal| refusal.number()),
            if refused { Err(1) } else { Ok(0) },
            |_| "length",
            input,
        );
    }
}

/// Every name of real libraries with its own hash, with its own version, with another, and with
/// none; absent names; wrong hashes; then damaged copies.
fn libraries(run: &mut Run) {
    for library in run.libraries {
        let Some((made, gnu, sysv)) = of_library(library) else {
            continue;
        };
        for (kind, table) in [(Kind::Gnu, &gnu), (Kind::Sysv, &sysv)] {
            if table.is_empty() {
                continue;
            }
            // Every name, but for a run that copies the whole table at each call.
            let most = if run.is_part() { 100 } else { usize::MAX };
            let asked = names_of(run, kind, &made, most);
            one(run, kind, &made, table, &asked);
            for _ in 0..run.times(3) {
                let damaged = damaged_words(&mut run.random, made.order, table);
                let some: Vec<Asked> = (0..run.at_most(200))
                    .map(|_| asked[run.random.below(asked.len())].clone())
                    .collect();
                one(run, kind, &made, &damaged, &some);
            }
        }
        if made.order == Order::Little {
            let (made, gnu, sysv) = turned(&made, &gnu, &sysv);
            for (kind, table) in [(Kind::Gnu, gnu), (Kind::Sysv, sysv)] {
                if !table.is_empty() {
                    let asked = names_of(run, kind, &made, run.times(500));
                    one(run, kind, &made, &table, &asked);
                }
            }
        }
    }
}

/// What to ask of a library: for some of its symbols each way of asking.
fn names_of(run: &mut Run, kind: Kind, made: &Symbols, most: usize) -> Vec<Asked> {
    let plain = made.plain(&[]);
    let (theirs, _) = versions_of(made);
    let count = plain.count();
    let step = count / most + 1;
    let mut asked = vec![Asked {
        name: b"absent".to_vec(),
        hash: kind.hash(b"absent"),
        need: None,
    }];
    for symbol in (1..count).step_by(step) {
        let Some(name) = plain.name(symbol) else {
            continue;
        };
        let name = name.to_vec();
        let hash = kind.hash(&name);
        let own = theirs.as_ref().and_then(|theirs| {
            let index = theirs.version_index(symbol as u32) & 0x7fff;
            match theirs.entry(index) {
                oracle::Entry::Version { hash, name, .. } => {
                    let name = &made.versions.strings[name.0..name.0 + name.1];
                    Some((name.to_vec(), hash))
                }
                _ => None,
            }
        });
        for need in [
            None,
            own.clone(),
            Some((b"GLIBC_2.2.5".to_vec(), 0x0963_1a75)),
        ] {
            asked.push(Asked {
                name: name.clone(),
                hash,
                need,
            });
        }
        if run.random.below(4) == 0 {
            asked.push(Asked {
                name: name.clone(),
                hash: hash ^ 1 << run.random.below(32),
                need: own,
            });
            let absent = [&name[..], b"!"].concat();
            asked.push(Asked {
                hash: kind.hash(&absent),
                name: absent,
                need: None,
            });
        }
    }
    asked
}
