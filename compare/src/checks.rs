//! The checkers, which the original lacks, against the plain ones; and what an accepted table
//! promises of a lookup, against the original's lookups.

use crate::Run;
use crate::inputs::{KINDS, big, is64};
use crate::limits::{self, FORMER};
use crate::lookups::{Asked, ask, rehashed, versions_of};
use crate::plain::Verdict;
use crate::report::{Answer, hex};
use crate::tables::{
    GnuShape, Symbols, damaged_words, gnu_table, made_up, of_library, sysv_table, turned,
};
use fetulombo::{
    Class, GnuTable, GnuVerdict, LIMIT, Order, Symbols as OurSymbols, SysvTable, SysvVerdict,
};

pub fn compare(run: &mut Run) {
    for turn in 0..run.times(120_000) {
        let (class, order) = KINDS[turn % 4];
        let shape = GnuShape::random(&mut run.random);
        let made = made_up(&mut run.random, class, order, shape.buckets, shape.base);
        let mut gnu = gnu_table(&made, shape);
        let mut sysv = sysv_table(&made, shape.buckets as usize);
        if turn % 3 != 0 {
            gnu = damaged_words(&mut run.random, order, &gnu);
            sysv = damaged_words(&mut run.random, order, &sysv);
        }
        gnu_check(run, &made, &gnu);
        sysv_check(run, &made, &sysv);
        if turn % 4 == 0 {
            let asked = ask(&mut run.random);
            promised(run, &made, &gnu, &sysv, &asked);
        }
    }
    libraries(run);
}

fn ours(made: &Symbols) -> OurSymbols<'_> {
    OurSymbols {
        symbols: &made.symbols,
        strings: &made.strings,
    }
}

const RULES: [&str; 11] = [
    "accepted", "G1", "G2", "G3", "G4", "G5", "G6", "G7", "G8", "G9", "G10",
];

pub fn gnu_verdict(made: &Symbols, table: &[u8]) -> Answer<Verdict> {
    GnuTable::parse(made.class, made.order, table)
        .and_then(|table| table.check(ours(made)))
        .map(|verdict| match verdict {
            GnuVerdict::Accepted { longest } => Verdict::Accepted(longest),
            GnuVerdict::Broken { rule, place } => Verdict::Broken(rule.into(), place),
        })
        .map_err(|refusal| refusal.number())
}

pub fn sysv_verdict(made: &Symbols, table: &[u8]) -> Answer<Verdict> {
    SysvTable::parse(made.class, made.order, table)
        .and_then(|table| table.check(ours(made)))
        .map(|verdict| match verdict {
            SysvVerdict::Accepted => Verdict::Accepted(0),
            SysvVerdict::Broken { rule } => Verdict::Broken(rule.into(), 0),
        })
        .map_err(|refusal| refusal.number())
}

fn text(made: &Symbols, table: &[u8]) -> String {
    format!(
        "{:?} {:?} table {} symbols {} strings {}",
        made.class,
        made.order,
        hex(table),
        hex(&made.symbols),
        hex(&made.strings)
    )
}

fn gnu_check(run: &mut Run, made: &Symbols, table: &[u8]) {
    run.report.same(
        "gnu check, plain rules",
        gnu_verdict(made, table),
        made.plain(table).gnu_check(),
        |verdict| match verdict {
            Verdict::Accepted(_) => RULES[0],
            Verdict::Broken(rule, _) => RULES[*rule as usize],
        },
        || text(made, table),
    );
}

fn sysv_check(run: &mut Run, made: &Symbols, table: &[u8]) {
    run.report.same(
        "sysv check, plain rules",
        sysv_verdict(made, table),
        made.plain(table).sysv_check(),
        |verdict| match verdict {
            Verdict::Accepted(_) => "accepted",
            Verdict::Broken(1, _) => "T1",
            Verdict::Broken(2, _) => "T2",
            Verdict::Broken(_, _) => "T3",
        },
        || text(made, table),
    );
}

/// Of an accepted table: the original finds the lowest hashed symbol that matches (GNU), or one
/// exactly if one matches (SysV).
fn promised(run: &mut Run, made: &Symbols, gnu: &[u8], sysv: &[u8], asked: &Asked) {
    let plain = made.plain(gnu);
    let (theirs, _) = versions_of(made);
    let none = oracle::Versions::none(is64(made.class), big(made.order));
    let theirs = theirs.as_ref().unwrap_or(&none);
    let need = asked
        .need
        .as_ref()
        .map(|(name, hash)| oracle::Need { name, hash: *hash });
    let symbols = oracle::Symbols {
        symbols: &made.symbols,
        strings: &made.strings,
    };
    let matching = |symbol: &usize| {
        plain.name(*symbol) == Some(&asked.name[..]) && theirs.matches(*symbol as u32, need)
    };
    let asked = rehashed(asked.clone());
    let wanted = |hash| oracle::Wanted {
        name: &asked.name,
        hash,
        need,
    };
    if let Ok(Verdict::Accepted(_)) = gnu_verdict(made, gnu) {
        let table = oracle::gnu_parse(is64(made.class), big(made.order), gnu).unwrap();
        let lowest = (table.symbol_base() as usize..plain.count()).find(matching);
        let hash = crate::plain::gnu_hash(&asked.name);
        run.report.same(
            "accepted GNU table, the original's lookup",
            Ok(lowest.map(|symbol| symbol as u32)),
            Ok(table.find(symbols, theirs, wanted(hash))),
            |found| found.map_or("none", |_| "the lowest"),
            || text(made, gnu),
        );
    }
    if let Ok(Verdict::Accepted(_)) = sysv_verdict(made, sysv) {
        let table = oracle::sysv_parse(is64(made.class), big(made.order), sysv).unwrap();
        let hash = crate::plain::sysv_hash(&asked.name);
        let found = table.find(symbols, theirs, wanted(hash));
        let any = (1..plain.count()).any(|symbol| matching(&symbol));
        let right = found.map_or(!any, |symbol| matching(&(symbol as usize)));
        run.report.same(
            "accepted SysV table, the original's lookup",
            Ok(right),
            Ok(true),
            |_| if any { "a match" } else { "none" },
            || text(made, sysv),
        );
    }
}

/// Each part of exactly the limit and of one byte more; a table of buckets alone that takes the whole of
/// the limit, and is accepted.
pub fn limits(run: &mut Run, parts: &mut limits::Parts) {
    for &length in run.limits.lengths() {
        for which in 0..3 {
            let lent = |k: usize| vec![0; if which == k { length } else { 16 }];
            let made = Symbols {
                class: Class::Elf64,
                order: Order::Big,
                symbols: lent(1),
                strings: lent(2),
                versions: Default::default(),
            };
            let table = lent(0);
            gnu_check(run, &made, &table);
            sysv_check(run, &made, &table);
        }
    }
    // The plain checker reads the whole table: in a run of a part, one that is shorter.
    let length = match (run.limits.answered(), run.is_part()) {
        (false, _) => return,
        (true, true) => FORMER + 4,
        (true, false) => LIMIT,
    };
    let made = Symbols {
        class: Class::Elf32,
        order: Order::Little,
        symbols: vec![0; 16],
        strings: vec![0],
        versions: Default::default(),
    };
    let table = &mut parts.zeros[..length];
    for (at, word) in [(length as u32 - 20) / 4, 1, 1].iter().enumerate() {
        table[at * 4..][..4].copy_from_slice(&word.to_le_bytes());
    }
    gnu_check(run, &made, table);
    // Its last bucket holds a symbol that is not there.
    table[length - 4] = 1;
    gnu_check(run, &made, table);
}

/// Real tables, as they stand, damaged, and with big numbers.
fn libraries(run: &mut Run) {
    for library in run.libraries {
        let Some((made, gnu, sysv)) = of_library(library) else {
            continue;
        };
        if made.plain(&[]).count() > 4_000 {
            continue;
        }
        let mut tried = vec![(made.clone(), gnu.clone(), sysv.clone())];
        if made.order == Order::Little {
            tried.push(turned(&made, &gnu, &sysv));
        }
        for _ in 0..run.times(4) {
            let gnu = damaged_words(&mut run.random, made.order, &gnu);
            let sysv = damaged_words(&mut run.random, made.order, &sysv);
            tried.push((made.clone(), gnu, sysv));
        }
        for (made, gnu, sysv) in tried {
            if !gnu.is_empty() {
                gnu_check(run, &made, &gnu);
            }
            if !sysv.is_empty() {
                sysv_check(run, &made, &sysv);
            }
        }
    }
}
