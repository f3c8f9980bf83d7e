//! The lists of answers about the two hash tables that the replay programs read: records of a fixed
//! length, numbers little. A symbol and a length are the original's; the probes, the refusal of a
//! shift above 31 and the verdicts, which it does not have, are those of `plain`.

use crate::inputs::{KINDS, Random, big, is64};
use crate::lookups::{Asked, Kind, ask, original, rehashed, shift, their_versions};
use crate::plain::{Found, Verdict, gnu_hash};
use crate::record::{class_number, order_number, padded};
use crate::symbols::size;
use crate::tables::{GnuShape, Symbols, damaged_words, gnu_table, made_up, sysv_table};
use crate::versions::{Parts, put};
use std::collections::BTreeMap;

/// How many records a list has of each answer, of each refusal, of each broken rule, and of each
/// broken rule about whole chains.
const OF_AN_ANSWER: usize = 150;
const OF_A_REFUSAL: usize = 50;
const OF_A_RULE: usize = 50;
const OF_A_CHAIN_RULE: usize = 150;

/// What an answer is counted as, with the table's kind.
type Label = (Kind, String);

/// Made records, as many of each label as the label is asked for and no more.
fn collected(
    most: &[(Kind, &str, usize)],
    mut make: impl FnMut(Kind) -> (Vec<u8>, String),
) -> Vec<u8> {
    let mut left: BTreeMap<Label, usize> = BTreeMap::new();
    for &(kind, label, most) in most {
        left.insert((kind, label.to_string()), most);
    }
    let mut list = Vec::new();
    while left.values().any(|&left| left > 0) {
        for kind in [Kind::Gnu, Kind::Sysv] {
            let (record, label) = make(kind);
            let left = left
                .get_mut(&(kind, label))
                .expect("an answer that is listed");
            if *left > 0 {
                *left -= 1;
                list.extend(record);
            }
        }
    }
    list
}

/// A table over some symbols, well made or damaged, and the name of the last of them; of some tables
/// the symbols do not stand in their order.
fn table(random: &mut Random, kind: Kind) -> (Symbols, Vec<u8>, Vec<u8>) {
    let (class, order) = random.of(&KINDS);
    let shape = GnuShape::random(random);
    let sorted_for = match random.below(6) {
        0 => 0,
        _ => shape.buckets,
    };
    let mut made = made_up(random, class, order, sorted_for, shape.base);
    if random.below(8) == 0 {
        made.versions = Parts::default();
    }
    let table = match kind {
        Kind::Gnu => gnu_table(&made, shape),
        Kind::Sysv => sysv_table(&made, shape.buckets as usize),
    };
    let plain = made.plain(&table);
    let last = plain.name(plain.count().saturating_sub(1)).unwrap_or(b"");
    let last = last.to_vec();
    let table = match random.below(8) {
        0 | 1 => table,
        2 | 3 => pointed(random, &made, &table),
        4 | 5 => frayed(random, &mut made, table),
        _ => damaged_words(random, order, &table),
    };
    (made, table, last)
}

/// A copy in which a word after the counts is a number around that of the symbols.
fn pointed(random: &mut Random, made: &Symbols, table: &[u8]) -> Vec<u8> {
    let number = (made.plain(table).count() + random.below(3)).saturating_sub(1);
    let mut word = Vec::new();
    put(made.order, &mut word, number as u32, 4);
    let at = (2 + random.below(table.len() / 4 - 2)) * 4;
    let mut pointed = table.to_vec();
    pointed[at..at + 4].copy_from_slice(&word);
    pointed
}

/// The last symbols or the last words left out, or more words than there should be.
fn frayed(random: &mut Random, made: &mut Symbols, mut table: Vec<u8>) -> Vec<u8> {
    match random.below(3) {
        0 => {
            let left_out = (1 + random.below(2)) * size(made.class);
            let left = made.symbols.len().saturating_sub(left_out);
            made.symbols.truncate(left);
        }
        1 => table.truncate(table.len() - (1 + random.below(3)) * 4),
        _ => {
            table = pointed(random, made, &table);
            for _ in 0..2 {
                put(made.order, &mut table, random.below(5) as u32, 4);
            }
        }
    }
    table
}

/// The first three bytes of a record: `g` or `s`, class, order.
fn head(kind: Kind, made: &Symbols) -> Vec<u8> {
    let kind = match kind {
        Kind::Gnu => b'g',
        Kind::Sysv => b's',
    };
    vec![kind, class_number(made.class), order_number(made.order)]
}

/// A part after its length in 1, in as many bytes as any such part may have.
fn put_part(record: &mut Vec<u8>, part: &[u8], most: usize) {
    record.push(part.len() as u8);
    record.extend(padded(part, most));
}

/// The table, the symbols and their strings.
fn put_table(record: &mut Vec<u8>, made: &Symbols, table: &[u8]) {
    put_part(record, table, 148);
    put_part(record, &made.symbols, 216);
    put_part(record, &made.strings, 89);
}

pub fn lookups(random: &mut Random) -> Vec<u8> {
    let mut most = Vec::new();
    for kind in [Kind::Gnu, Kind::Sysv] {
        for label in ["found at once", "found", "none, no probe", "none"] {
            most.push((kind, label, OF_AN_ANSWER));
        }
    }
    for label in ["none, shift above 31", "26", "27", "28", "30"] {
        most.push((Kind::Gnu, label, OF_A_REFUSAL));
    }
    for label in ["23", "24", "25"] {
        most.push((Kind::Sysv, label, OF_A_REFUSAL));
    }
    collected(&most, |kind| lookup(random, kind))
}

/// 640 bytes: `g` or `s`, class, order; then each after its length in 1: table in 148, symbols in
/// 216, strings in 89, versyms in 18, verdef in 56, verneed in 32, the versions' strings in 24, name
/// in 10, the needed version's name in 7; hash in 4, whether a version is needed in 1, its hash in 4;
/// refusal in 1, whether a symbol is found in 1, the symbol in 4, probes in 4; the length's refusal
/// in 1, whether there is a length in 1, the length in 4; 3 unused.
fn lookup(random: &mut Random, kind: Kind) -> (Vec<u8>, String) {
    let (made, table, last) = table(random, kind);
    let mut asked = ask(random);
    if random.below(3) == 0 {
        asked.hash = gnu_hash(&last);
        asked.name = last;
    }
    if kind == Kind::Sysv {
        asked = rehashed(asked);
    }
    let theirs = their_versions(&made).expect("versions that can be read");
    let found = original(kind, &made, &table, &theirs, &asked);

    let mut record = head(kind, &made);
    put_table(&mut record, &made, &table);
    put_part(&mut record, &made.versions.versyms, 18);
    put_part(&mut record, &made.versions.verdef, 56);
    put_part(&mut record, &made.versions.verneed, 32);
    put_part(&mut record, &made.versions.strings, 24);
    put_asked(&mut record, &asked);
    put_found(&mut record, found);
    put_length(&mut record, kind, &made, &table);
    let label = match found {
        Ok(_) if kind == Kind::Gnu && shift(made.order, &table) > 31 => {
            "none, shift above 31".to_string()
        }
        Ok((Some(_), 1)) => "found at once".to_string(),
        Ok((Some(_), _)) => "found".to_string(),
        Ok((None, 0)) => "none, no probe".to_string(),
        Ok((None, _)) => "none".to_string(),
        Err(number) => number.to_string(),
    };
    (padded(&record, 640), label)
}

fn put_asked(record: &mut Vec<u8>, asked: &Asked) {
    let (need_name, need_hash) = match &asked.need {
        Some((name, hash)) => (&name[..], *hash),
        None => (&[][..], 0),
    };
    put_part(record, &asked.name, 10);
    put_part(record, need_name, 7);
    record.extend(asked.hash.to_le_bytes());
    record.push(asked.need.is_some().into());
    record.extend(need_hash.to_le_bytes());
}

fn put_found(record: &mut Vec<u8>, found: Found) {
    let (refusal, (symbol, probes)) = match found {
        Ok(found) => (0, found),
        Err(number) => (number as u8, (None, 0)),
    };
    let probes = u32::try_from(probes).expect("as many probes as the table has words");
    record.extend([refusal, symbol.is_some().into()]);
    record.extend(symbol.unwrap_or(0).to_le_bytes());
    record.extend(probes.to_le_bytes());
}

fn put_length(record: &mut Vec<u8>, kind: Kind, made: &Symbols, table: &[u8]) {
    let (is64, big) = (is64(made.class), big(made.order));
    let length = match kind {
        Kind::Gnu => oracle::gnu_parse(is64, big, table).map(|gnu| gnu.length()),
        Kind::Sysv => oracle::sysv_parse(is64, big, table).map(|sysv| Some(sysv.length())),
    };
    let (refusal, length) = match length {
        Ok(length) => (0, length),
        Err(number) => (number as u8, None),
    };
    record.extend([refusal, length.is_some().into()]);
    record.extend(length.unwrap_or(0).to_le_bytes());
}

pub fn checks(random: &mut Random) -> Vec<u8> {
    let mut most = Vec::new();
    for (kind, rules, chain_rules, refusals) in [
        (
            Kind::Gnu,
            &["1", "2", "3", "4", "5", "6", "7", "8"][..],
            &["9", "10"][..],
            ["26", "27", "28"],
        ),
        (Kind::Sysv, &["1", "2"], &["3"], ["23", "24", "25"]),
    ] {
        most.push((kind, "accepted", OF_AN_ANSWER));
        most.extend(rules.iter().map(|&rule| (kind, rule, OF_A_RULE)));
        most.extend(
            chain_rules
                .iter()
                .map(|&rule| (kind, rule, OF_A_CHAIN_RULE)),
        );
        most.extend(refusals.map(|refusal| (kind, refusal, OF_A_REFUSAL)));
    }
    collected(&most, |kind| check(random, kind))
}

/// 472 bytes: `g` or `s`, class, order; then each after its length in 1: table in 148, symbols in
/// 216, strings in 89; refusal in 1, broken rule or 0 in 1, its place in 4, the longest chain in 4;
/// 3 unused.
fn check(random: &mut Random, kind: Kind) -> (Vec<u8>, String) {
    let (made, table, _) = table(random, kind);
    let verdict = match kind {
        Kind::Gnu => made.plain(&table).gnu_check(),
        Kind::Sysv => made.plain(&table).sysv_check(),
    };
    let (refusal, rule, place, longest) = match verdict {
        Ok(Verdict::Accepted(longest)) => (0, 0, 0, longest as u32),
        Ok(Verdict::Broken(rule, place)) => (0, rule as u8, place, 0),
        Err(number) => (number as u8, 0, 0, 0),
    };
    let mut record = head(kind, &made);
    put_table(&mut record, &made, &table);
    record.extend([refusal, rule]);
    record.extend(place.to_le_bytes());
    record.extend(longest.to_le_bytes());
    let label = match verdict {
        Ok(Verdict::Accepted(_)) => "accepted".to_string(),
        Ok(Verdict::Broken(rule, _)) => rule.to_string(),
        Err(number) => number.to_string(),
    };
    (padded(&record, 472), label)
}
