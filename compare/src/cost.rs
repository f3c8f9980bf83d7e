//! What version parsing and the lookups cost on the inputs that are made to cost the most, and how the
//! checkers' time grows.

use crate::plain::gnu_hash;
use crate::tables::{self, GnuShape, gnu_table, put_symbol, sysv_table};
use fetulombo::{
    Class, GnuTable, GnuVerdict, LARGEST_STORE, LIMIT, Order, Symbols, SysvTable, SysvVerdict,
    Versions,
};
use std::time::{Duration, Instant};

pub fn print() {
    println!("| input | bytes | ours | the original |");
    println!("|---|---:|---:|---:|");
    for records in [1024, 4096] {
        row("one record that repeats", &repeated(records));
    }
    for records in [1 << 14, 1 << 16, (1 << 20) - 1, (1 << 26) - 1] {
        row_alone("one record that repeats", &repeated(records));
    }
    for records in [1024, 2048, 4096, 16384] {
        row("one chain that all share", &shared(records));
    }
    let mut strings = vec![b'a'; 1 << 20];
    strings.push(0);
    for records in [256, 512, 1024] {
        row_over("names of 1 MiB", &separate(records), &strings);
    }
    strings.pop();
    strings.resize(LIMIT - 1, b'a');
    strings.push(0);
    for records in [1, 4] {
        row_over("names of 1 GiB", &separate(records), &strings);
    }
}

/// The lookups that test the most: a SysV table of the limit whose one chain is a circle, and a GNU table
/// whose one run has all symbols of a table of the limit. No name is the wanted one.
pub fn print_lookups() {
    println!("| table | probes | ours | the original |");
    println!("|---|---:|---:|---:|");
    let (class, order) = (Class::Elf32, Order::Little);
    let put = |table: &mut [u8], words: &[u32]| {
        for (place, word) in table.chunks_exact_mut(4).zip(words) {
            place.copy_from_slice(&word.to_le_bytes());
        }
    };
    let symbols = vec![0; LIMIT];
    let names = Symbols {
        symbols: &symbols,
        strings: b"\0",
    };
    let theirs = oracle::Symbols {
        symbols: &symbols,
        strings: b"\0",
    };
    let none = oracle::Versions::none(false, false);
    let wanted = |hash| oracle::Wanted {
        name: b"a",
        hash,
        need: None,
    };
    let mut table = vec![0; LIMIT];
    put(&mut table, &[1, (LIMIT as u32 - 12) / 4, 1, 0, 1]);
    let sysv = SysvTable::parse(class, order, &table).expect("a table");
    let start = Instant::now();
    let found = sysv.find(names, Versions::NONE, b"a", None).expect("found");
    let ours = start.elapsed();
    let start = Instant::now();
    let sysv = oracle::sysv_parse(false, false, &table).expect("a table");
    assert_eq!(
        sysv.find(theirs, &none, wanted(97)),
        found.symbol.map(|s| s.0)
    );
    let original = start.elapsed();
    println!(
        "| SysV, a circle | {} | {ours:.2?} | {original:.2?} |",
        found.probes
    );
    // Every value is that of `a`, none the last of its run.
    let hash = gnu_hash(b"a");
    put(&mut table, &[1, 1, 1, 5, u32::MAX, 1]);
    for place in table[24..].chunks_exact_mut(4) {
        place.copy_from_slice(&(hash & !1).to_le_bytes());
    }
    let gnu = GnuTable::parse(class, order, &table).expect("a table");
    let start = Instant::now();
    let found = gnu.find(names, Versions::NONE, b"a", None).expect("found");
    let ours = start.elapsed();
    let start = Instant::now();
    let gnu = oracle::gnu_parse(false, false, &table).expect("a table");
    assert_eq!(
        gnu.find(theirs, &none, wanted(hash)),
        found.symbol.map(|s| s.0)
    );
    let original = start.elapsed();
    println!(
        "| GNU, one run | {} | {ours:.2?} | {original:.2?} |",
        found.probes
    );
}

fn word(bytes: &mut Vec<u8>, value: u32, width: usize) {
    bytes.extend(&value.to_le_bytes()[..width]);
}

/// A Verneed with this count, aux and next.
fn need(bytes: &mut Vec<u8>, count: u32, aux: usize, next: u32) {
    for (value, width) in [(1, 2), (count, 2), (0, 4), (aux as u32, 4), (next, 4)] {
        word(bytes, value, width);
    }
}

/// A Vernaux of index 2.
fn aux(bytes: &mut Vec<u8>, next: u32) {
    for (value, width) in [(0, 4), (0, 2), (2, 2), (0, 4), (next, 4)] {
        word(bytes, value, width);
    }
}

/// So many needs of count 65,535, whose aux is the one record at the end, with next 0.
fn repeated(records: usize) -> Vec<u8> {
    let mut bytes = Vec::new();
    for record in 0..records {
        let next = if record + 1 < records { 16 } else { 0 };
        need(&mut bytes, 0xffff, (records - record) * 16, next);
    }
    aux(&mut bytes, 0);
    bytes
}

/// So many needs, whose aux is the first record of one chain of as many.
fn shared(records: usize) -> Vec<u8> {
    let mut bytes = Vec::new();
    for record in 0..records {
        let next = if record + 1 < records { 16 } else { 0 };
        need(&mut bytes, records as u32, (records - record) * 16, next);
    }
    for _ in 0..records {
        aux(&mut bytes, 16);
    }
    bytes
}

/// So many needs, each with an aux record of its own.
fn separate(records: usize) -> Vec<u8> {
    let mut bytes = Vec::new();
    for record in 0..records {
        let next = if record + 1 < records { 32 } else { 0 };
        need(&mut bytes, 1, 16, next);
        aux(&mut bytes, 0);
    }
    bytes
}

fn ours(verneed: &[u8], strings: &[u8]) -> Duration {
    let mut store = vec![0; LARGEST_STORE];
    let start = Instant::now();
    let answer = fetulombo::versions_parse(Order::Little, &[], verneed, strings, &mut store);
    let time = start.elapsed();
    assert_eq!(answer.map(|index| index.0), Ok(2));
    time
}

fn original(verneed: &[u8], strings: &[u8]) -> Duration {
    let start = Instant::now();
    let answer = oracle::versions_parse(true, false, &[], None, Some(verneed), strings);
    let time = start.elapsed();
    assert_eq!(answer.map(|versions| versions.entries()), Ok(3));
    time
}

fn row(input: &str, verneed: &[u8]) {
    row_over(input, verneed, b"\0");
}

fn row_over(input: &str, verneed: &[u8], strings: &[u8]) {
    let (ours, original) = (ours(verneed, strings), original(verneed, strings));
    println!("| {input} | {} | {ours:?} | {original:?} |", verneed.len());
}

fn row_alone(input: &str, verneed: &[u8]) {
    let ours = ours(verneed, b"\0");
    println!("| {input} | {} | {ours:?} | not run |", verneed.len());
}

/// The checkers on tables of n and of 4n symbols: good ones, ones with all symbols in one bucket, and
/// ones that are broken at their end.
pub fn print_checkers() {
    println!("| table | symbols | GNU checker | SysV checker |");
    println!("|---|---:|---:|---:|");
    for (name, buckets, broken) in [
        ("good", None, false),
        ("one bucket", Some(1), false),
        ("broken at its end", None, true),
    ] {
        for n in [10_000, 40_000, 150_000, 600_000] {
            let buckets = buckets.unwrap_or(n / 4);
            let made = many(n, buckets as u32);
            let shape = GnuShape {
                buckets: buckets as u32,
                base: 1,
                blooms: (n / 16).next_power_of_two(),
                shift: 6,
            };
            let mut gnu = gnu_table(&made, shape);
            let mut sysv = sysv_table(&made, buckets);
            if broken {
                // The last end bit; the chain of the last bucket that has one.
                let last = gnu.len() - 4;
                gnu[last] ^= 1;
                let last = (0..buckets).rev().map(|b| 8 + b * 4);
                let last = last.filter(|&at| sysv[at..at + 4] != [0; 4]).next();
                let at = last.expect("a bucket in use");
                sysv[at..at + 4].copy_from_slice(&[0; 4]);
            }
            let symbols = Symbols {
                symbols: &made.symbols,
                strings: &made.strings,
            };
            let gnu = GnuTable::parse(made.class, made.order, &gnu).expect("a table");
            let sysv = SysvTable::parse(made.class, made.order, &sysv).expect("a table");
            let accepted = gnu.check(symbols).map(|said| match said {
                GnuVerdict::Accepted { .. } => true,
                GnuVerdict::Broken { rule, .. } => rule != 10,
            });
            assert_eq!(accepted, Ok(!broken));
            let said = sysv.check(symbols);
            assert_eq!(said == Ok(SysvVerdict::Accepted), !broken);
            let gnu = best(|| assert!(gnu.check(symbols).is_ok()));
            let sysv = best(|| assert!(sysv.check(symbols).is_ok()));
            println!("| {name} | {n} | {gnu:.2?} | {sysv:.2?} |");
        }
    }
}

/// The shortest of five runs.
fn best(mut run: impl FnMut()) -> Duration {
    let time = |_| {
        let start = Instant::now();
        run();
        start.elapsed()
    };
    (0..5).map(time).min().expect("five runs")
}

/// So many symbols of short names, in the order that a GNU table with these buckets asks for.
pub fn many(n: usize, buckets: u32) -> tables::Symbols {
    let mut names: Vec<String> = (1..n).map(|k| format!("s{k:06}")).collect();
    names.sort_by_key(|name| gnu_hash(name.as_bytes()) % buckets);
    let (class, order) = (Class::Elf64, Order::Little);
    let mut made = tables::Symbols {
        class,
        order,
        symbols: Vec::new(),
        strings: vec![0],
        versions: Default::default(),
    };
    put_symbol(class, order, &mut made.symbols, 0);
    for name in names {
        put_symbol(class, order, &mut made.symbols, made.strings.len() as u32);
        made.strings.extend(name.as_bytes());
        made.strings.push(0);
    }
    made
}
