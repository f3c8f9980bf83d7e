//! The lists of the original's answers that the replay programs read: records of a fixed length,
//! numbers little. Every part of an answer comes from the oracle; those about the hash tables are
//! made in `record_tables`.

use crate::inputs::{KINDS, Random, big, is64};
use crate::notes::{property_bytes, section};
use crate::record_tables;
use crate::segments;
use crate::strings::original_equals;
use crate::symbols::size;
use crate::versions::{Parts, made_up, numbers, original};
use fetulombo::{Class, Order};
use oracle::{NoteStep, PropertyStep};
use std::path::Path;

/// How many records each list has.
const RECORDS: usize = 4000;

pub fn write(folder: &Path, seed: u64) {
    let mut random = Random::new(seed);
    let strings: Vec<u8> = (0..RECORDS).flat_map(|_| string(&mut random)).collect();
    std::fs::write(folder.join("replay_strings/stdin"), strings).expect("replay_strings");
    let symbols: Vec<u8> = (0..RECORDS).flat_map(|_| symbol(&mut random)).collect();
    std::fs::write(folder.join("replay_symbols/stdin"), symbols).expect("replay_symbols");
    let notes: Vec<u8> = (0..RECORDS)
        .flat_map(|turn| match turn % 4 {
            0 => property(&mut random),
            _ => note(&mut random),
        })
        .collect();
    std::fs::write(folder.join("replay_notes/stdin"), notes).expect("replay_notes");
    let versions: Vec<u8> = (0..RECORDS / 2)
        .flat_map(|_| version(&mut random))
        .collect();
    std::fs::write(folder.join("replay_versions/stdin"), versions).expect("replay_versions");
    let segments: Vec<u8> = (0..RECORDS / 2)
        .flat_map(|_| segment(&mut random))
        .collect();
    std::fs::write(folder.join("replay_segments/stdin"), segments).expect("replay_segments");
    let lookups = record_tables::lookups(&mut random);
    std::fs::write(folder.join("replay_lookups/stdin"), lookups).expect("replay_lookups");
    let checks = record_tables::checks(&mut random);
    std::fs::write(folder.join("replay_checks/stdin"), checks).expect("replay_checks");
}

pub fn padded(bytes: &[u8], length: usize) -> Vec<u8> {
    let mut padded = bytes.to_vec();
    assert!(padded.len() <= length);
    padded.resize(length, 0);
    padded
}

/// Class and order stand in a record as in e_ident.
pub fn class_number(class: Class) -> u8 {
    match class {
        Class::Elf32 => 1,
        Class::Elf64 => 2,
    }
}

pub fn order_number(order: Order) -> u8 {
    match order {
        Order::Little => 1,
        Order::Big => 2,
    }
}

/// 64 bytes: strings (their length in 1, then 32), offset in 4; refusal in 1, start in 4, length in
/// 4; name (its length in 1, then 12), equal in 1; 4 unused.
fn string(random: &mut Random) -> Vec<u8> {
    let length = random.below(33);
    let zeros = random.of(&[2, 5, 100]);
    let strings = random.bytes(length, zeros);
    let offset = match random.below(2) {
        0 => random.near(&[0, length as u64]) as u32,
        _ => random.below(length + 1) as u32,
    };
    let answer = oracle::string_at(&strings, offset);
    let mut name = match answer {
        Ok((start, length)) => strings[start..start + length].to_vec(),
        Err(_) => strings.get(offset as usize..).unwrap_or(&[]).to_vec(),
    };
    name.truncate(12);
    if random.below(3) == 0 {
        name = random.damaged(&name);
    }
    let equal = original_equals(&strings, offset, &name).expect("short parts");
    let (refusal, (start, long)) = match answer {
        Ok(place) => (0, place),
        Err(number) => (number as u8, (0, 0)),
    };
    let mut record = vec![length as u8];
    record.extend(padded(&strings, 32));
    record.extend(offset.to_le_bytes());
    record.push(refusal);
    record.extend((start as u32).to_le_bytes());
    record.extend((long as u32).to_le_bytes());
    record.push(name.len() as u8);
    record.extend(padded(&name, 12));
    record.push(equal.into());
    padded(&record, 64)
}

/// 128 bytes: class, order, symbols (their length in 1, then 80), index in 4, strings (their length
/// in 1, then 12); refusal in 1, name in 4, value in 8, size in 8, info, other, shndx in 2; the
/// name's refusal, start and length in 1 each.
fn symbol(random: &mut Random) -> Vec<u8> {
    let (class, order) = random.of(&KINDS);
    let length = 20 + random.below(61);
    let mut symbols = random.bytes(length, 4);
    let strings_length = random.below(13);
    let strings = random.bytes(strings_length, 4);
    let records = length / size(class);
    for record in 0..records {
        let name = random.below(strings_length + 2) as u32;
        let bytes = match order {
            Order::Little => name.to_le_bytes(),
            Order::Big => name.to_be_bytes(),
        };
        symbols[record * size(class)..][..4].copy_from_slice(&bytes);
    }
    let index = match random.below(3) {
        0 => random.near(&[0, 1, records as u64]) as u32,
        _ => 1 + random.below(records.max(2) - 1) as u32,
    };
    let (wide, other) = (is64(class), big(order));
    let found = oracle::symbol_at(wide, other, &symbols, index);
    let name = oracle::symbol_name(wide, other, &symbols, &strings, index);

    let mut record = vec![class_number(class), order_number(order), length as u8];
    record.extend(padded(&symbols, 80));
    record.extend(index.to_le_bytes());
    record.push(strings_length as u8);
    record.extend(padded(&strings, 12));
    match found {
        Ok(symbol) => {
            record.push(0);
            record.extend(symbol.name.to_le_bytes());
            record.extend(symbol.value.to_le_bytes());
            record.extend(symbol.size.to_le_bytes());
            record.extend([symbol.info, symbol.other]);
            record.extend(symbol.shndx.to_le_bytes());
        }
        Err(number) => record.extend(padded(&[number as u8], 25)),
    }
    record.extend(match name {
        Ok((start, length)) => [0, start as u8, length as u8],
        Err(number) => [number as u8, 0, 0],
    });
    padded(&record, 128)
}

/// What a step of a walk is recorded as.
const REFUSED: u8 = 0;
const FOUND: u8 = 1;
const END: u8 = 2;

/// 128 bytes: `n`, order, alignment, bytes (their length in 1, then 64); then up to 6 steps of 10
/// bytes: what, refusal, type in 4, name, its length, descriptor, its length.
fn note(random: &mut Random) -> Vec<u8> {
    loop {
        let order = random.of(&[Order::Little, Order::Big]);
        let align = random.of(&[4, 4, 8, 8, 0, 3, 5]);
        let bytes = section(random, order, align, 3);
        if bytes.len() > 64 {
            continue;
        }
        let mut record = vec![b'n', order_number(order), align as u8, bytes.len() as u8];
        record.extend(padded(&bytes, 64));
        match oracle::notes(true, big(order), align, &bytes) {
            Err(number) => record.extend([REFUSED, number as u8]),
            Ok(walk) => {
                for step in &walk.steps {
                    match step {
                        NoteStep::Note(note) => {
                            record.extend([FOUND, 0]);
                            record.extend(note.n_type.to_le_bytes());
                            let (name, descriptor) = (note.name, note.desc);
                            record.extend([name.0 as u8, name.1 as u8]);
                            record.extend([descriptor.0 as u8, descriptor.1 as u8]);
                        }
                        NoteStep::Refused(number) => {
                            record.extend(padded(&[REFUSED, *number as u8], 10));
                        }
                    }
                }
                record.push(END);
            }
        }
        if record.len() <= 128 {
            return padded(&record, 128);
        }
    }
}

/// 128 bytes: `p`, order, class, a descriptor (its length in 1, then 64); then up to 6 steps of 10
/// bytes: what, refusal, type in 4, start, length, the number's refusal, its low byte.
fn property(random: &mut Random) -> Vec<u8> {
    loop {
        let (class, order) = random.of(&KINDS);
        let descriptor = property_bytes(random, order);
        if descriptor.len() > 64 {
            continue;
        }
        let mut record = vec![b'p', order_number(order), class_number(class)];
        record.push(descriptor.len() as u8);
        record.extend(padded(&descriptor, 64));
        let walk = oracle::gnu_properties(is64(class), big(order), 5, b"GNU", &descriptor);
        for step in walk.expect("this kind").steps {
            match step {
                PropertyStep::Property {
                    pr_type,
                    data,
                    number,
                } => {
                    record.extend([FOUND, 0]);
                    record.extend(pr_type.to_le_bytes());
                    record.extend([data.0 as u8, data.1 as u8]);
                    record.extend(match number {
                        Ok(number) => [0, number as u8],
                        Err(refusal) => [refusal as u8, 0],
                    });
                }
                PropertyStep::Refused(number) => {
                    record.extend(padded(&[REFUSED, number as u8], 10));
                }
            }
        }
        record.push(END);
        if record.len() <= 128 {
            return padded(&record, 128);
        }
    }
}

/// Versyms of the indices that a table stores, if there are any.
fn stored(random: &mut Random, order: Order, parts: &Parts) -> Option<Vec<u8>> {
    let versions = original(order, parts, false).ok()?;
    let indices: Vec<u16> = (2..7)
        .filter(|&index| matches!(versions.entry(index), oracle::Entry::Version { .. }))
        .collect();
    if indices.is_empty() {
        return None;
    }
    let versyms = (0..4).flat_map(|_| {
        let versym = random.of(&indices) | random.of(&[0, 0x8000]);
        match order {
            Order::Little => versym.to_le_bytes(),
            Order::Big => versym.to_be_bytes(),
        }
    });
    Some(versyms.collect())
}

/// 288 bytes: order, the lengths of versyms, verdef, verneed and strings in 1 each, then these parts
/// in 8, 56, 64 and 16; refusal in 1, highest index in 2; the numbers of the entries 2 to 6 in 4
/// each; a symbol in 1, its versym in 2, whether a version is needed in 1, its hash in 4, its name
/// (its length in 1, then 4), whether it matches in 1; 2 unused.
fn version(random: &mut Random) -> Vec<u8> {
    loop {
        let order = random.of(&[Order::Little, Order::Big]);
        let mut parts = made_up(random, order);
        if let Some(versyms) = stored(random, order, &parts) {
            parts.versyms = versyms;
        }
        let lists = [
            (&parts.versyms, 8),
            (&parts.verdef, 56),
            (&parts.verneed, 64),
            (&parts.strings, 16),
        ];
        if lists.iter().any(|(part, most)| part.len() > *most) {
            continue;
        }
        let mut record = vec![order_number(order)];
        record.extend(lists.map(|(part, _)| part.len() as u8));
        for (part, most) in lists {
            record.extend(padded(part, most));
        }
        let symbol = random.below(5) as u32;
        let mut needed = None;
        let mut matches = false;
        let mut versym = 1;
        match original(order, &parts, false) {
            Err(number) => record.extend(padded(&[number as u8], 3 + 5 * 24)),
            Ok(versions) => {
                let entries = versions.entries();
                if entries > 7 {
                    continue;
                }
                record.push(0);
                record.extend((entries as u16 - 1).to_le_bytes());
                for index in 2..7 {
                    for number in numbers(versions.entry(index)) {
                        record.extend(number.to_le_bytes());
                    }
                }
                versym = versions.version_index(symbol);
                if let oracle::Entry::Version { hash, name, .. } = versions.entry(versym & 0x7fff) {
                    let name = &parts.strings[name.0..name.0 + name.1];
                    if name.len() <= 4 && random.below(2) == 0 {
                        let hash = if random.below(4) == 0 { hash ^ 1 } else { hash };
                        needed = Some((name, hash));
                    }
                }
                let need = needed.map(|(name, hash)| oracle::Need { name, hash });
                matches = versions.matches(symbol, need);
            }
        }
        let (name, hash) = needed.unwrap_or((&[], 0));
        record.push(symbol as u8);
        record.extend(versym.to_le_bytes());
        record.push(needed.is_some().into());
        record.extend(hash.to_le_bytes());
        record.push(name.len() as u8);
        record.extend(padded(name, 4));
        record.push(matches.into());
        return padded(&record, 288);
    }
}

/// What an answer about a segment is recorded as.
const NONE: u8 = 2;

/// 5 bytes: what, refusal, start, length, number.
fn part(found: Result<Option<(usize, usize, usize)>, u32>) -> [u8; 5] {
    match found {
        Ok(Some((start, length, number))) => [FOUND, 0, start as u8, length as u8, number as u8],
        Ok(None) => [NONE, 0, 0, 0, 0],
        Err(refusal) => [REFUSED, refusal as u8, 0, 0, 0],
    }
}

/// 320 bytes: class, order, table (its length in 1, then 112), number in 4, file (its length in 1, then
/// 80), address and size in 8 each, an entry's number in 1; refusal in 1, type and flags in 4 each,
/// offset, vaddr, paddr, filesz, memsz and align in 8 each; data, range, dynamic with its count,
/// interpreter, and notes with their alignment in 5 each; of the dynamic entry what in 1, tag and value
/// in 8 each; 4 unused. After a refused record all else is 0.
fn segment(random: &mut Random) -> Vec<u8> {
    let (class, order) = random.of(&KINDS);
    let (wide, other) = (is64(class), big(order));
    let length = random.below(81);
    let zeros = random.of(&[2, 12, 100]);
    let file = random.bytes(length, zeros);
    let mut table = Vec::new();
    for _ in 0..2 {
        let fields = segments::made_up(random, length as u64);
        table.extend(segments::encoded(class, order, &fields));
    }
    if random.below(6) == 0 {
        table.truncate(random.below(table.len()));
    }
    let number = match random.below(6) {
        0 => random.near(&[0, 2]) as u32,
        _ => random.below(2) as u32,
    };
    let bytes = segments::record(class, &table, number);
    let found = oracle::segment_fields(wide, other, bytes);

    let mut record = vec![class_number(class), order_number(order), table.len() as u8];
    record.extend(padded(&table, 112));
    record.extend(number.to_le_bytes());
    record.push(length as u8);
    record.extend(padded(&file, 80));
    let Ok(fields) = found else {
        record.extend([0; 17]);
        record.push(29);
        return padded(&record, 320);
    };
    let (address, size) = segments::asked(random, &fields);
    let index = random.below(4) as u8;
    record.extend(address.to_le_bytes());
    record.extend(size.to_le_bytes());
    record.extend([index, 0]);
    record.extend(fields.p_type.to_le_bytes());
    record.extend(fields.flags.to_le_bytes());
    for word in [
        fields.offset,
        fields.vaddr,
        fields.paddr,
        fields.filesz,
        fields.memsz,
        fields.align,
    ] {
        record.extend(word.to_le_bytes());
    }
    let data = oracle::segment_data(wide, other, bytes, &file);
    let range = oracle::segment_data_range(wide, other, bytes, &file, address, size);
    let dynamic = oracle::segment_dynamic(wide, other, bytes, &file);
    let interpreter = oracle::segment_interpreter(wide, other, bytes, &file);
    let notes = oracle::segment_notes(wide, other, bytes, &file);
    let with = |place: (usize, usize)| (place.0, place.1, 0);
    record.extend(part(data.map(|place| Some(with(place)))));
    record.extend(part(range.map(|found| found.map(with))));
    record.extend(part(dynamic.as_ref().map_err(|&number| number).map(
        |found| {
            let found = found.as_ref()?;
            Some((found.start, data.unwrap().1, found.entries.len()))
        },
    )));
    record.extend(part(interpreter.map(|found| found.map(with))));
    record.extend(part(notes.map(|found| {
        let (start, length) = found.map(|_| data.unwrap())?;
        Some((start, length, if fields.align == 8 { 8 } else { 4 }))
    })));
    if let Ok(Some(dynamic)) = dynamic {
        match dynamic.entries.get(index as usize) {
            Some(entry) => {
                let tag = match wide {
                    true => entry.tag as u64,
                    false => (entry.tag as u32).into(),
                };
                record.push(FOUND);
                record.extend(tag.to_le_bytes());
                record.extend(entry.value.to_le_bytes());
            }
            None => record.push(NONE),
        }
    }
    padded(&record, 320)
}
