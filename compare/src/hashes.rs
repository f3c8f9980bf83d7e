//! The hashes of a name. The original's file is not at hand: against the public rule, as the
//! oracle's shim has it, and against what real tables hold.

use crate::Run;
use crate::inputs::{is64, lists};
use crate::libraries::{DYNSYM, GNU_HASH, Library, VERDEF, VERNEED, VERSYM};
use crate::limits;
use crate::report::{Answer, hex};
use crate::symbols::size;
use fetulombo::{Class, GnuHash, LIMIT, Order, SysvHash};

pub fn compare(run: &mut Run) {
    let all: Vec<u8> = (0..=255).collect();
    let short = lists(&all, 2).into_iter().step_by(run.step());
    for name in short.chain(lists(b"\0a\xff", 7)) {
        one(run, &name);
    }
    for _ in 0..run.times(1_000_000) {
        let length = run.random.below(70);
        let zeros = run.random.of(&[4, 1000]);
        let name = run.random.bytes(length, zeros);
        one(run, &name);
    }
    for library in run.libraries {
        gnu_values(run, library);
        version_hashes(run, library);
    }
}

pub fn limits(run: &mut Run, parts: &mut limits::Parts) {
    for &length in run.limits.lengths() {
        one(run, &parts.letters[..length]);
    }
}

fn gnu_hash(name: &[u8]) -> Answer<u32> {
    let hash = GnuHash::of(name).map_err(|refusal| refusal.number())?;
    Ok(hash.number())
}

fn sysv_hash(name: &[u8]) -> Answer<u32> {
    let hash = SysvHash::of(name).map_err(|refusal| refusal.number())?;
    Ok(hash.number())
}

fn one(run: &mut Run, name: &[u8]) {
    let fits = name.len() <= LIMIT;
    let rule = |hash: fn(&[u8]) -> u32| if fits { Ok(hash(name)) } else { Err(1) };
    let ours = gnu_hash(name);
    run.report.same(
        "gnu_hash, public rule",
        ours,
        rule(oracle::gnu_hash),
        |_| "hash",
        || hex(name),
    );
    let ours = sysv_hash(name);
    run.report.same(
        "sysv_hash, public rule",
        ours,
        rule(oracle::sysv_hash),
        |_| "hash",
        || hex(name),
    );
}

/// A GNU table holds the hash of each hashed symbol's name, but for the low bit.
fn gnu_values(run: &mut Run, library: &Library) {
    let class = if library.is64 {
        Class::Elf64
    } else {
        Class::Elf32
    };
    let order = if library.big {
        Order::Big
    } else {
        Order::Little
    };
    let word = |table: &[u8], at: usize| fetulombo::u32_at(order, table, at).unwrap() as usize;
    for (table, symbols) in library.linked(GNU_HASH) {
        let Some((_, strings)) = library.linked(DYNSYM).next() else {
            continue;
        };
        let (buckets, base, bloom) = (word(table, 0), word(table, 4), word(table, 8));
        let values = 16 + bloom * if is64(class) { 8 } else { 4 } + buckets * 4;
        for index in base..symbols.len() / size(class) {
            let name =
                oracle::symbol_name(library.is64, library.big, symbols, strings, index as u32);
            let Ok((start, length)) = name else {
                continue;
            };
            let name = &strings[start..start + length];
            run.report.same(
                "gnu_hash, real tables",
                gnu_hash(name).map(|hash| hash | 1),
                Ok(word(table, values + (index - base) * 4) as u32 | 1),
                |_| "hash",
                || hex(name),
            );
        }
    }
}

/// A version record holds the SysV hash of its name.
fn version_hashes(run: &mut Run, library: &Library) {
    let first = |kind| library.linked(kind).next();
    let Some((versyms, _)) = first(VERSYM) else {
        return;
    };
    let (verdef, verneed) = (first(VERDEF), first(VERNEED));
    let Some((_, strings)) = verdef.or(verneed) else {
        return;
    };
    let versions = oracle::versions_parse(
        library.is64,
        library.big,
        versyms,
        verdef.map(|(section, _)| section),
        verneed.map(|(section, _)| section),
        strings,
    );
    let Ok(versions) = versions else {
        return;
    };
    for index in 0..versions.entries() as u16 {
        let oracle::Entry::Version { hash, name, .. } = versions.entry(index) else {
            continue;
        };
        let name = &strings[name.0..name.0 + name.1];
        run.report.same(
            "sysv_hash, real versions",
            sysv_hash(name),
            Ok(hash),
            |_| "hash",
            || hex(name),
        );
    }
}
