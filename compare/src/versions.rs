//! Versions: parsing with the whole store, the entry behind every index, the version of a symbol,
//! the match.

use crate::Run;
use crate::inputs::{Random, big};
use crate::libraries::{VERDEF, VERNEED, VERSYM};
use crate::limits::{self, FORMER};
use crate::memory::Long;
use crate::plain;
use crate::report::{Answer, fitting, hex};
use fetulombo::{
    ENTRY, LARGEST_STORE, LIMIT, Needed, Order, SymbolIndex, SysvHash, Version, VersionIndex,
    VersionPlace, Versions,
};
use oracle::Entry;

pub fn compare(run: &mut Run) {
    for turn in 0..run.times(150_000) {
        let order = [Order::Little, Order::Big][turn % 2];
        let parts = made_up(&mut run.random, order);
        if costly(order, &parts) && run.random.below(COSTLY) != 0 {
            continue;
        }
        one(run, order, &parts, turn % 2_000 == 0);
    }
    stores(run);
    libraries(run);
}

/// Of the made-up tables that are costly, one in so many is run.
const COSTLY: usize = 16;

/// Whether a table that the first pass does not refuse has an index of 300 or more: the oracle counts
/// its entries slowly.
fn costly(order: Order, parts: &Parts) -> bool {
    let highest =
        || Some(highest_def(order, &parts.verdef)?.max(highest_need(order, &parts.verneed)?));
    highest().is_some_and(|highest| highest >= 300)
}

fn number_at(order: Order, bytes: &[u8], at: usize, width: usize) -> usize {
    plain::word(order == Order::Big, bytes, at, width) as usize
}

/// The highest index of the definitions, by a plain walk; nothing where a record is refused.
fn highest_def(order: Order, bytes: &[u8]) -> Option<usize> {
    let (mut at, mut highest) = (0, 0);
    while at < bytes.len() {
        let left = bytes.len() - at;
        if left < 20 {
            return None;
        }
        let field = |offset, width| number_at(order, bytes, at + offset, width);
        let next = field(16, 4);
        if field(12, 4) > left || next > left {
            return None;
        }
        if field(2, 2) % 2 == 0 {
            highest = highest.max(field(4, 2));
        }
        at = if next == 0 { bytes.len() } else { at + next };
    }
    Some(highest)
}

/// The same of the needs.
fn highest_need(order: Order, bytes: &[u8]) -> Option<usize> {
    let (mut at, mut highest) = (0, 0);
    while at < bytes.len() {
        let left = bytes.len() - at;
        if left < 16 {
            return None;
        }
        let field = |offset, width| number_at(order, bytes, at + offset, width);
        let (aux, next) = (field(8, 4), field(12, 4));
        if aux > left || next > left {
            return None;
        }
        highest = highest.max(highest_aux(order, bytes, at + aux, field(2, 2))?);
        at = if next == 0 { bytes.len() } else { at + next };
    }
    Some(highest)
}

/// The same of one need's chain of so many records; one with `next` 0 repeats itself.
fn highest_aux(order: Order, bytes: &[u8], mut at: usize, count: usize) -> Option<usize> {
    let mut highest = 0;
    for _ in 0..count {
        let left = bytes.len() - at;
        if left < 16 {
            return None;
        }
        let next = number_at(order, bytes, at + 12, 4);
        if next > left {
            return None;
        }
        highest = highest.max(number_at(order, bytes, at + 6, 2) % 0x8000);
        if next == 0 {
            break;
        }
        at += next;
    }
    Some(highest)
}

/// The parts of a version table.
#[derive(Clone, Default)]
pub struct Parts {
    pub versyms: Vec<u8>,
    pub verdef: Vec<u8>,
    pub verneed: Vec<u8>,
    pub strings: Vec<u8>,
}

impl Parts {
    fn text(&self) -> String {
        let [versyms, verdef, verneed, strings] =
            [&self.versyms, &self.verdef, &self.verneed, &self.strings].map(|part| hex(part));
        format!("versyms {versyms} verdef {verdef} verneed {verneed} strings {strings}")
    }
}

/// What parsing comes to: the highest index and the store up to it.
type Table = (u16, Vec<u32>);

/// The original's table: an absent section is `None` or an empty one.
pub fn original(order: Order, parts: &Parts, absent: bool) -> Answer<oracle::Versions<'_>> {
    let section = |part| Some(part).filter(|part: &&[u8]| !(absent && part.is_empty()));
    oracle::versions_parse(
        true,
        big(order),
        &parts.versyms,
        section(&parts.verdef),
        section(&parts.verneed),
        &parts.strings,
    )
}

/// The six numbers of an entry of the original.
pub fn numbers(entry: Entry) -> [u32; ENTRY] {
    match entry {
        Entry::Special | Entry::Invalid => [0; ENTRY],
        Entry::Version { hash, name, file } => {
            let (kind, file) = match file {
                None => (1, (0, 0)),
                Some(file) => (2, file),
            };
            let [start, length, file_start, file_length] =
                [name.0, name.1, file.0, file.1].map(|number| number as u32);
            [kind, hash, start, length, file_start, file_length]
        }
    }
}

fn table(versions: &oracle::Versions<'_>) -> Table {
    let entries = versions.entries();
    let store = (0..entries)
        .flat_map(|index| numbers(versions.entry(index as u16)))
        .collect();
    ((entries - 1) as u16, store)
}

/// Ours, with every number of the store looked at: what was there before is 0xffffffff.
fn parsed(order: Order, parts: &Parts, room: usize) -> (Answer<u16>, Vec<u32>) {
    let mut store = vec![u32::MAX; room];
    let answer = fetulombo::versions_parse(
        order,
        &parts.verdef,
        &parts.verneed,
        &parts.strings,
        &mut store,
    );
    let answer = answer.map(|index| index.0).map_err(|r| r.number());
    (answer, store)
}

/// One table: parsing, then every index and symbol around those that are stored. `whole` looks at
/// every index there is.
fn one(run: &mut Run, order: Order, parts: &Parts, whole: bool) {
    let whole = whole && !run.is_part();
    let absent = run.random.below(2) == 0;
    let theirs = original(order, parts, absent);
    let room = match whole {
        true => LARGEST_STORE,
        false => LARGEST_STORE.min((parts.verdef.len() + parts.verneed.len()) * 6 + 2_000),
    };
    let (mut answer, mut store) = parsed(order, parts, room);
    if answer == Err(22) {
        (answer, store) = parsed(order, parts, LARGEST_STORE);
    }
    let input = || format!("{order:?} {}", parts.text());
    // The table up to the highest index; all that follows, and all after a refusal, is 0.
    let used = answer.map_or(0, |highest| (highest as usize + 1) * ENTRY);
    let zeros = store[used..].iter().all(|&number| number == 0);
    let ours: Answer<(Table, bool)> =
        answer.map(|highest| ((highest, store[..used].to_vec()), zeros));
    run.report.same(
        "versions_parse",
        ours,
        theirs.as_ref().map(|v| (table(v), true)).map_err(|&n| n),
        |_| "table",
        input,
    );
    run.report
        .same("store after it", Ok(zeros), Ok(true), |_| "zeros", input);
    let (Ok(highest), Ok(theirs)) = (answer, theirs) else {
        return;
    };
    let versions = Versions {
        versyms: &parts.versyms,
        store: &store,
        strings: &parts.strings,
    };
    let last = match whole {
        true => u16::MAX,
        false => highest.saturating_add(2).min(300),
    };
    for index in (0..=last).chain([0x7fff, 0x8000, 0xffff]) {
        entry(run, versions, &theirs, index);
    }
    symbols(run, order, versions, &theirs, highest);
}

fn entry(run: &mut Run, versions: Versions<'_>, theirs: &oracle::Versions<'_>, index: u16) {
    let start = versions.strings.as_ptr() as usize;
    let place = |part: &[u8]| (part.as_ptr() as usize - start, part.len());
    let ours = versions.entry(VersionIndex(index)).map_err(|r| r.number());
    let ours = ours.map(|found| match found {
        None => Entry::Special,
        Some(Version::Definition { hash, name }) => Entry::Version {
            hash: hash.number(),
            name: place(name),
            file: None,
        },
        Some(Version::Need { hash, name, file }) => Entry::Version {
            hash: hash.number(),
            name: place(name),
            file: Some(place(file)),
        },
    });
    let original = match theirs.entry(index) {
        Entry::Invalid => Err(21),
        found => Ok(found),
    };
    run.report.same(
        "version entry",
        ours,
        original,
        |found| match found {
            Entry::Special => "special",
            Entry::Version { file: None, .. } => "definition",
            _ => "need",
        },
        || {
            format!(
                "index {index} store {:?}",
                &versions.store[..versions.store.len().min(600)]
            )
        },
    );
}

/// The version of each symbol, and its match.
fn symbols(
    run: &mut Run,
    order: Order,
    versions: Versions<'_>,
    theirs: &oracle::Versions<'_>,
    highest: u16,
) {
    let count = versions.versyms.len() / 2;
    for number in (0..count.min(12) as u32 + 2).chain([u32::MAX]) {
        symbol(run, order, versions, theirs, highest, number);
    }
}

/// The version of a symbol, and its match with no need, with its own version as the need, and with
/// needs that are a little different.
fn symbol(
    run: &mut Run,
    order: Order,
    versions: Versions<'_>,
    theirs: &oracle::Versions<'_>,
    highest: u16,
    symbol: u32,
) {
    let input = || format!("symbol {symbol} versyms {}", hex(versions.versyms));
    let versym = theirs.version_index(symbol);
    let ours = versions
        .version_of(order, SymbolIndex(symbol))
        .map(|versym| (versym.index.0, versym.hidden))
        .map_err(|refusal| refusal.number());
    run.report.same(
        "version_of",
        ours,
        Ok((versym & 0x7fff, versym & 0x8000 != 0)),
        |versym| if versym.1 { "hidden" } else { "not hidden" },
        input,
    );
    let index = match run.random.below(4) {
        0 => run.random.below(highest as usize + 2) as u16,
        _ => versym & 0x7fff,
    };
    let (mut name, mut hash) = match theirs.entry(index) {
        Entry::Version { hash, name, .. } => {
            (versions.strings[name.0..name.0 + name.1].to_vec(), hash)
        }
        _ => (b"x".to_vec(), 0),
    };
    match run.random.below(6) {
        0 => name = run.random.damaged(&name),
        1 => name.push(0),
        2 => hash ^= 1,
        _ => (),
    }
    for need in [None, Some((&name[..], hash))] {
        let ours = versions
            .matches(
                order,
                SymbolIndex(symbol),
                need.map(|(name, hash)| Needed::with_hash(name, SysvHash::from_number(hash))),
            )
            .map_err(|refusal| refusal.number());
        let original = theirs.matches(symbol, need.map(|(name, hash)| oracle::Need { name, hash }));
        let kind = |&yes: &bool| match (need, yes) {
            (None, true) => "no need: yes",
            (None, false) => "no need: no",
            (Some(_), true) => "need: yes",
            (Some(_), false) => "need: no",
        };
        run.report
            .same("version matches", ours, Ok(original), kind, input);
    }
}

/// Stores of exactly the size, of one number less, and of more.
fn stores(run: &mut Run) {
    for turn in 0..run.times(20_000) {
        let order = [Order::Little, Order::Big][turn % 2];
        let parts = made_up(&mut run.random, order);
        if costly(order, &parts) {
            continue;
        }
        let Ok(versions) = original(order, &parts, false) else {
            continue;
        };
        let entries = versions.entries();
        let needed = entries * ENTRY;
        for room in [0, needed - 1, needed, needed + 1, needed + 5] {
            let (ours, store) = parsed(order, &parts, room);
            let original = match room < needed {
                true => Err(22),
                false => Ok((entries - 1) as u16),
            };
            let wanted = match room < needed {
                true => vec![0; room],
                false => {
                    let mut wanted = table(&versions).1;
                    wanted.resize(room, 0);
                    wanted
                }
            };
            run.report.same(
                "versions_parse, any store",
                ours.map(|highest| (highest, ())),
                original.map(|highest| (highest, ())),
                |_| "table",
                || format!("{order:?} room {room} {}", parts.text()),
            );
            run.report.same(
                "store of any size",
                Ok(store == wanted),
                Ok(true),
                |_| "as it must be",
                || format!("{order:?} room {room} {}", parts.text()),
            );
        }
    }
}

/// Each part that is too long; then records and names at the end of long parts, and as many versyms.
pub fn limits(run: &mut Run, parts: &mut limits::Parts) {
    let long = &parts.zeros[..];
    let none = &long[..0];
    for [verdef, verneed, strings] in [[long, none, none], [none, long, none], [none, none, long]] {
        let mut store = [7; 12];
        let ours = fetulombo::versions_parse(Order::Big, verdef, verneed, strings, &mut store);
        let ours = ours.map(|index| index.0).map_err(|r| r.number());
        let input = || {
            let [verdef, verneed, strings] = [verdef, verneed, strings].map(|part| part.len());
            format!("parts of {verdef}, {verneed} and {strings}")
        };
        run.report
            .same("versions_parse", ours, Err(1), |_| "table", input);
        run.report.same(
            "store after it",
            Ok(store == [0; 12]),
            Ok(true),
            |_| "zeros",
            input,
        );
    }
    long_tables(run, long);
    if run.limits.answered() {
        for order in [Order::Little, Order::Big] {
            for &length in run.limits.lengths().iter().filter(|&&n| n <= LIMIT) {
                one(run, order, &to_the_end(order, length), false);
                versyms(run, order, length);
            }
            one(run, order, &many(order), false);
        }
    }
}

/// A definition and a need at the end of sections of this length, each with a record before it, and
/// their names at the end of strings of this length.
fn to_the_end(order: Order, length: usize) -> Parts {
    let [mut verdef, mut verneed, mut strings] = [(); 3].map(|_| vec![0; length]);
    let copy = |part: &mut Vec<u8>, at: usize, fields: &[(u32, usize)]| {
        let mut bytes = Vec::new();
        for &(value, width) in fields {
            put(order, &mut bytes, value, width);
        }
        part[at..at + bytes.len()].copy_from_slice(&bytes);
    };
    let (name, file) = (length as u32 - 2, length as u32 - 5);
    strings[length - 5..].copy_from_slice(b"so\0v\0");
    copy(&mut verdef, 16, &[(length as u32 - 28, 4)]);
    let definition = [(1, 2), (0, 2), (2, 2), (1, 2), (0x76, 4), (20, 4), (0, 4)];
    copy(&mut verdef, length - 28, &definition);
    copy(&mut verdef, length - 8, &[(name, 4), (0, 4)]);
    copy(&mut verneed, 12, &[(length as u32 - 32, 4)]);
    let need = [(1, 2), (1, 2), (file, 4), (16, 4), (0, 4)];
    copy(&mut verneed, length - 32, &need);
    let record = [(0x76, 4), (0, 2), (3, 2), (name, 4), (0, 4)];
    copy(&mut verneed, length - 16, &record);
    Parts {
        versyms: Vec::new(),
        verdef,
        verneed,
        strings,
    }
}

/// More needs than sections within document 01's limit can have, each with a record of its own.
fn many(order: Order) -> Parts {
    let mut parts = Parts {
        strings: b"\0file\0LOT_1.0\0V\0".to_vec(),
        ..Parts::default()
    };
    const NEEDS: usize = FORMER / 32 + 1;
    for k in 0..NEEDS as u32 {
        let next = if k + 1 < NEEDS as u32 { 32 } else { 0 };
        for (value, width) in [(1, 2), (1, 2), (1, 4), (16, 4), (next, 4)] {
            put(order, &mut parts.verneed, value, width);
        }
        for (value, width) in [(k, 4), (0, 2), (2 + k % 97, 2), (6 + k % 9, 4), (0, 4)] {
            put(order, &mut parts.verneed, value, width);
        }
    }
    parts
}

/// A versym of ones for every symbol, and the first that has none.
fn versyms(run: &mut Run, order: Order, length: usize) {
    let ones = Long::of(0xff);
    let versyms = &ones[..length];
    let theirs = oracle::versions_parse(true, big(order), versyms, None, None, &[]);
    let theirs = theirs.expect("no section is refused");
    let versions = Versions {
        versyms,
        store: &[],
        strings: &[],
    };
    let end = (length / 2) as u32;
    for number in [0, end - 1, end, end + 1, u32::MAX] {
        symbol(run, order, versions, &theirs, 0, number);
    }
}

/// What a version table of one definition answers when one of its parts is of the limit or longer.
fn long_tables(run: &mut Run, long: &[u8]) {
    let store = [0, 0, 0, 0, 0, 0, 0, 0, 0, 0, 0, 0, 1, 7, 0, 0, 0, 0];
    for &length in run.limits.lengths() {
        let input = || format!("a part of {length}");
        let part = &long[..length];
        let order = Order::Little;
        let versions = Versions {
            versyms: &[2, 0],
            store: &store,
            strings: part,
        };
        let entry = versions.entry_place(VersionIndex(2));
        let entry = entry.map_err(|r| r.number());
        let hash = SysvHash::from_number(7);
        let definition = Some(VersionPlace::Definition { hash, name: 0..0 });
        run.report.same(
            "version entry",
            entry,
            fitting(length, definition),
            |_| "definition",
            input,
        );
        let need = |name| Some(Needed::with_hash(name, hash));
        for (versions, need, yes) in [
            (versions, need(&[]), true),
            (
                Versions {
                    versyms: part,
                    strings: &[],
                    ..versions
                },
                None,
                true,
            ),
            (
                Versions {
                    strings: &[],
                    ..versions
                },
                need(part),
                false,
            ),
        ] {
            let kind = |&yes: &bool| match (need.is_some(), yes) {
                (false, _) => "no need: yes",
                (true, true) => "need: yes",
                (true, false) => "need: no",
            };
            let ours = versions.matches(order, SymbolIndex(0), need);
            let ours = ours.map_err(|r| r.number());
            run.report
                .same("version matches", ours, fitting(length, yes), kind, input);
        }
        let versions = Versions {
            versyms: part,
            ..versions
        };
        let versym = versions.version_of(order, SymbolIndex(0));
        run.report.same(
            "version_of",
            versym.map(|versym| versym.index.0).map_err(|r| r.number()),
            fitting(length, 0),
            |_| "not hidden",
            input,
        );
    }
}

pub fn put(order: Order, bytes: &mut Vec<u8>, value: u32, width: usize) {
    match order {
        Order::Little => bytes.extend(&value.to_le_bytes()[..width]),
        Order::Big => bytes.extend(&value.to_be_bytes()[4 - width..]),
    }
}

/// An index: special, low, high, with its top bit.
fn index(random: &mut Random) -> u32 {
    match random.below(12) {
        0 => random.below(0x10000) as u32,
        1 => 0x8000 | random.below(8) as u32,
        2 => random.below(2) as u32,
        _ => 2 + random.below(5) as u32,
    }
}

/// How many aux records a record says that it has.
fn count(random: &mut Random, real: usize) -> u32 {
    match random.below(10) {
        0 => 0,
        1 => 2,
        2 => real as u32 + 1,
        3 if random.below(20) == 0 => 0xffff,
        _ => real as u32,
    }
}

/// An offset: the right one, 0, to the end, past it, or any small one.
fn offset(random: &mut Random, right: u32, to_end: u32) -> u32 {
    match random.below(24) {
        0 => 0,
        1 => to_end,
        2 => to_end + 1,
        3 => to_end.saturating_sub(1 + random.below(20) as u32),
        4 => random.below(40) as u32,
        5 => random.next() as u32,
        _ => right,
    }
}

fn string(random: &mut Random, strings: usize) -> u32 {
    match random.below(30) {
        0 => strings as u32,
        1 => random.next() as u32,
        _ => random.below(strings.max(1)) as u32,
    }
}

/// Definitions: their sizes are drawn first, so that offsets to the end are known.
fn definitions(random: &mut Random, order: Order, strings: usize) -> Vec<u8> {
    let sizes: Vec<usize> = (0..random.below(4)).map(|_| random.below(3)).collect();
    let total: usize = sizes.iter().map(|auxs| 20 + auxs * 8).sum();
    let mut bytes = Vec::new();
    for (i, &auxs) in sizes.iter().enumerate() {
        let to_end = (total - bytes.len()) as u32;
        let next = match i + 1 < sizes.len() {
            true => 20 + auxs as u32 * 8,
            false => 0,
        };
        put(order, &mut bytes, 1, 2);
        let flags = random.of(&[0, 0, 0, 1, 2, 3]);
        put(order, &mut bytes, flags, 2);
        put(order, &mut bytes, index(random), 2);
        put(order, &mut bytes, count(random, auxs), 2);
        put(order, &mut bytes, random.next() as u32, 4);
        put(order, &mut bytes, offset(random, 20, to_end), 4);
        put(order, &mut bytes, offset(random, next, to_end), 4);
        for aux in 0..auxs {
            let to_end = (total - bytes.len()) as u32;
            let next = if aux + 1 < auxs { 8 } else { 0 };
            put(order, &mut bytes, string(random, strings), 4);
            put(order, &mut bytes, offset(random, next, to_end), 4);
        }
    }
    bytes
}

fn needs(random: &mut Random, order: Order, strings: usize) -> Vec<u8> {
    let sizes: Vec<usize> = (0..random.below(3)).map(|_| random.below(3)).collect();
    let total: usize = sizes.iter().map(|auxs| 16 + auxs * 16).sum();
    let mut bytes = Vec::new();
    for (i, &auxs) in sizes.iter().enumerate() {
        let to_end = (total - bytes.len()) as u32;
        let next = match i + 1 < sizes.len() {
            true => 16 + auxs as u32 * 16,
            false => 0,
        };
        put(order, &mut bytes, 1, 2);
        put(order, &mut bytes, count(random, auxs), 2);
        put(order, &mut bytes, string(random, strings), 4);
        put(order, &mut bytes, offset(random, 16, to_end), 4);
        put(order, &mut bytes, offset(random, next, to_end), 4);
        for aux in 0..auxs {
            let to_end = (total - bytes.len()) as u32;
            let next = if aux + 1 < auxs { 16 } else { 0 };
            put(order, &mut bytes, random.next() as u32, 4);
            put(order, &mut bytes, 0, 2);
            put(order, &mut bytes, index(random), 2);
            put(order, &mut bytes, string(random, strings), 4);
            put(order, &mut bytes, offset(random, next, to_end), 4);
        }
    }
    bytes
}

/// A table of all shapes, now and then damaged or cut short.
pub fn made_up(random: &mut Random, order: Order) -> Parts {
    let length = 4 + random.below(12);
    let mut strings = random.bytes(length, 4);
    if random.below(8) != 0 {
        *strings.last_mut().expect("some") = 0;
    }
    let mut verdef = definitions(random, order, strings.len());
    let mut verneed = needs(random, order, strings.len());
    match random.below(6) {
        0 => verdef = random.damaged(&verdef),
        1 => verneed = random.damaged(&verneed),
        _ => (),
    }
    let mut versyms = Vec::new();
    for _ in 0..random.below(8) {
        put(
            order,
            &mut versyms,
            index(random) ^ random.of(&[0, 0x8000]),
            2,
        );
    }
    if random.below(4) == 0 {
        versyms.push(random.next() as u8);
    }
    Parts {
        versyms,
        verdef,
        verneed,
        strings,
    }
}

/// The place and the width of each field of a record.
const VERDEF_FIELDS: &[usize] = &[2, 2, 2, 2, 4, 4, 4];
const VERDAUX_FIELDS: &[usize] = &[4, 4];
const VERNEED_FIELDS: &[usize] = &[2, 2, 4, 4, 4];
const VERNAUX_FIELDS: &[usize] = &[4, 2, 2, 4, 4];

/// A real section of little records as big ones. `count`, `aux` and `next` are the places of these
/// fields in a record, `aux_next` that of an aux record's next.
fn big_section(
    bytes: &[u8],
    fields: &[usize],
    aux_fields: &[usize],
    [count, aux, next, aux_next]: [usize; 4],
) -> Vec<u8> {
    let mut turned = bytes.to_vec();
    let mut turn = |at: usize, fields: &[usize]| {
        let mut at = at;
        for &width in fields {
            if let Some(field) = turned.get_mut(at..at + width) {
                field.copy_from_slice(&bytes[at..at + width]);
                field.reverse();
            }
            at += width;
        }
    };
    let word = |at| fetulombo::u32_at(Order::Little, bytes, at).unwrap() as usize;
    let half = |at| fetulombo::u16_at(Order::Little, bytes, at).unwrap();
    let mut at = 0;
    while at < bytes.len() {
        turn(at, fields);
        let mut aux_at = at + word(at + aux);
        for _ in 0..half(at + count) {
            turn(aux_at, aux_fields);
            aux_at += word(aux_at + aux_next);
        }
        match word(at + next) {
            0 => break,
            more => at += more,
        }
    }
    turned
}

/// A real table of little records as one of big ones.
pub fn big_parts(parts: &Parts) -> Parts {
    Parts {
        versyms: parts
            .versyms
            .chunks(2)
            .flat_map(|two| two.iter().rev().copied())
            .collect(),
        verdef: big_section(&parts.verdef, VERDEF_FIELDS, VERDAUX_FIELDS, [6, 12, 16, 4]),
        verneed: big_section(
            &parts.verneed,
            VERNEED_FIELDS,
            VERNAUX_FIELDS,
            [2, 8, 12, 12],
        ),
        strings: parts.strings.clone(),
    }
}

/// Real tables, as they stand, damaged, and in the other order.
fn libraries(run: &mut Run) {
    for (turn, library) in run.libraries.iter().enumerate() {
        let order = if library.big {
            Order::Big
        } else {
            Order::Little
        };
        let whole = turn % 8 == 0;
        let first = |kind| library.linked(kind).next();
        let (verdef, verneed) = (first(VERDEF), first(VERNEED));
        let Some((_, strings)) = verdef.or(verneed) else {
            continue;
        };
        let section =
            |part: Option<(&[u8], &[u8])>| part.map_or(Vec::new(), |(part, _)| part.to_vec());
        let parts = Parts {
            versyms: section(first(VERSYM)),
            verdef: section(verdef),
            verneed: section(verneed),
            strings: strings.to_vec(),
        };
        one(run, order, &parts, whole);
        if order == Order::Little {
            one(run, Order::Big, &big_parts(&parts), whole);
        }
        for _ in 0..run.times(20) {
            let mut damaged = parts.clone();
            match run.random.below(4) {
                0 => damaged.verdef = run.random.damaged(&parts.verdef),
                1 => damaged.verneed = run.random.damaged(&parts.verneed),
                2 => damaged.strings = run.random.damaged(&parts.strings),
                _ => damaged.versyms = run.random.damaged(&parts.versyms),
            }
            one(run, order, &damaged, false);
        }
    }
}
