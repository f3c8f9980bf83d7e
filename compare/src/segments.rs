//! Segments by number, what their fields say, and what they hold.

use crate::Run;
use crate::inputs::{KINDS, Random, big, is64};
use crate::libraries::{self, Library};
use crate::limits::{self, FORMER};
use crate::memory::Long;
use crate::notes::{original_steps, our_steps, walks};
use crate::report::{Answer, hex};
use fetulombo::{Class, LIMIT, Order, Permissions, Segment, SegmentKind};
use oracle::SegmentFields;
use oracle::elf;
use std::ops::Range;

pub fn compare(run: &mut Run) {
    meanings(run);
    boundaries(run);
    random(run);
    libraries(run);
}

pub fn size(class: Class) -> usize {
    match class {
        Class::Elf32 => 32,
        Class::Elf64 => 56,
    }
}

/// The record of a number, or what there is of it.
pub fn record(class: Class, table: &[u8], number: u32) -> &[u8] {
    let start = number as usize * size(class);
    let rest = table.get(start..).unwrap_or(&[]);
    &rest[..rest.len().min(size(class))]
}

fn fields(segment: Segment) -> SegmentFields {
    SegmentFields {
        p_type: segment.kind,
        flags: segment.flags,
        offset: segment.offset,
        vaddr: segment.vaddr,
        paddr: segment.paddr,
        filesz: segment.filesz,
        memsz: segment.memsz,
        align: segment.align,
    }
}

fn number(refusal: fetulombo::Refusal) -> u32 {
    refusal.number()
}

fn pair(place: Range<usize>) -> (usize, usize) {
    (place.start, place.len())
}

/// The original's answer, or 1 where a part is too long.
fn within<T>(part: &[u8], original: impl FnOnce() -> Answer<T>) -> Answer<T> {
    match part.len() <= LIMIT {
        true => original(),
        false => Err(1),
    }
}

/// The record's bytes in any class and order; in 32 bits the low halves.
pub fn encoded(class: Class, order: Order, fields: &SegmentFields) -> Vec<u8> {
    let mut bytes = Vec::with_capacity(56);
    let mut put = |value: u64, width: usize| match order {
        Order::Little => bytes.extend(&value.to_le_bytes()[..width]),
        Order::Big => bytes.extend(&value.to_be_bytes()[8 - width..]),
    };
    let words = [
        fields.offset,
        fields.vaddr,
        fields.paddr,
        fields.filesz,
        fields.memsz,
    ];
    put(fields.p_type.into(), 4);
    match class {
        Class::Elf32 => {
            words.iter().for_each(|&word| put(word, 4));
            put(fields.flags.into(), 4);
            put(fields.align, 4);
        }
        Class::Elf64 => {
            put(fields.flags.into(), 4);
            words.iter().for_each(|&word| put(word, 8));
            put(fields.align, 8);
        }
    }
    bytes
}

fn count(run: &mut Run, class: Class, table: &[u8]) {
    // The original has no function of its own for a table without a file.
    let original = within(table, || Ok((table.len() / size(class)) as u32));
    let ours = fetulombo::segment_count(class, table).map_err(number);
    let input = || format!("{class:?} {}", hex(table));
    run.report
        .same("segment_count", ours, original, |_| "count", input);
}

/// The record of a number, and all that the segment holds.
fn one(run: &mut Run, class: Class, order: Order, table: &[u8], index: u32, file: &[u8]) {
    let bytes = record(class, table, index);
    let original = within(table, || {
        oracle::segment_fields(is64(class), big(order), bytes)
    });
    let ours = fetulombo::segment_at(class, order, table, index).map_err(number);
    let input = || format!("{class:?} {order:?} number {index} table {}", hex(table));
    run.report.same(
        "segment_at",
        ours.map(fields),
        original,
        |_| "segment",
        input,
    );
    let Ok(segment) = ours else {
        return;
    };
    meaning(run, segment);
    held(run, class, order, bytes, segment, file);
}

fn kind(segment: Segment) -> SegmentKind {
    match elf::ProgramType(segment.kind) {
        elf::PT_LOAD => SegmentKind::Load,
        elf::PT_DYNAMIC => SegmentKind::Dynamic,
        elf::PT_INTERP => SegmentKind::Interpreter,
        elf::PT_NOTE => SegmentKind::Note,
        _ => SegmentKind::Other,
    }
}

fn meaning(run: &mut Run, segment: Segment) {
    let input = || format!("{segment:?}");
    run.report.same(
        "segment kind",
        Ok(segment.known_kind()),
        Ok(kind(segment)),
        |kind| match kind {
            SegmentKind::Load => "load",
            SegmentKind::Dynamic => "dynamic",
            SegmentKind::Interpreter => "interpreter",
            SegmentKind::Note => "note",
            SegmentKind::Other => "other",
        },
        input,
    );
    let flags = elf::ProgramFlags(segment.flags);
    run.report.same(
        "segment permissions",
        Ok(segment.permissions()),
        Ok(Permissions {
            readable: flags.contains(elf::PF_R),
            writable: flags.contains(elf::PF_W),
            executable: flags.contains(elf::PF_X),
        }),
        |may| match (may.readable, may.writable, may.executable) {
            (false, false, false) => "none",
            (true, true, true) => "all",
            _ => "some",
        },
        input,
    );
}

/// The data of a segment, its dynamic entries, its interpreter and its notes.
fn held(run: &mut Run, class: Class, order: Order, bytes: &[u8], segment: Segment, file: &[u8]) {
    let (wide, other) = (is64(class), big(order));
    let input = || format!("{class:?} {order:?} {segment:?} file {}", hex(file));
    let data = within(file, || oracle::segment_data(wide, other, bytes, file));
    run.report.same(
        "segment_data",
        segment.data_place(file).map(pair).map_err(number),
        data,
        |&(_, length)| if length == 0 { "empty" } else { "data" },
        input,
    );
    dynamic(run, class, order, bytes, segment, file);
    run.report.same(
        "segment_interpreter",
        segment
            .interpreter_place(file)
            .map(|found| found.map(pair))
            .map_err(number),
        within(file, || {
            oracle::segment_interpreter(wide, other, bytes, file)
        }),
        |found| match found {
            Some((_, 0)) => "empty",
            Some(_) => "name",
            None => "not this kind",
        },
        input,
    );
    let walk = within(file, || oracle::segment_notes(wide, other, bytes, file));
    let ours = segment.notes_place(file).map_err(number);
    run.report.same(
        "segment_notes",
        ours.clone()
            .map(|found| found.map(|(place, _)| pair(place))),
        walk.clone().map(|found| found.map(|_| data.unwrap())),
        |found| match found {
            Some((_, 0)) => "empty",
            Some(_) => "notes",
            None => "not this kind",
        },
        input,
    );
    if let (Ok(Some((place, align))), Ok(Some(walk))) = (ours, walk) {
        let notes = segment.notes(order, file).unwrap().unwrap();
        let mut mine = our_steps(notes);
        for step in mine.iter_mut().flatten().flatten() {
            step.name.0 += place.start;
            step.descriptor.0 += place.start;
        }
        assert_eq!(align, if segment.align == 8 { 8 } else { 4 });
        let theirs = original_steps(&walk.steps);
        walks(run, "segment note step", "note", mine, theirs, input);
    }
}

fn dynamic(run: &mut Run, class: Class, order: Order, bytes: &[u8], segment: Segment, file: &[u8]) {
    let (wide, other) = (is64(class), big(order));
    let input = || format!("{class:?} {order:?} {segment:?} file {}", hex(file));
    let ours = segment.dynamic(class, order, file).map_err(number);
    let theirs = within(file, || oracle::segment_dynamic(wide, other, bytes, file));
    run.report.same(
        "segment_dynamic",
        ours.as_ref()
            .map(|found| found.as_ref().map(|d| (d.place.start, d.count as usize)))
            .map_err(|&number| number),
        theirs
            .as_ref()
            .map(|found| found.as_ref().map(|d| (d.start, d.entries.len())))
            .map_err(|&number| number),
        |found| match found {
            Some((_, 0)) => "no entries",
            Some(_) => "entries",
            None => "not this kind",
        },
        input,
    );
    let (Ok(Some(ours)), Ok(Some(theirs))) = (ours, theirs) else {
        return;
    };
    let count = theirs.entries.len() as u32;
    for index in (0..count).chain([count, count + 1, u32::MAX]) {
        let theirs = theirs.entries.get(index as usize).map(|entry| {
            // The oracle extends a tag of 32 bits by its sign (docs/DIFFERENCES.md).
            let tag = match wide {
                true => entry.tag as u64,
                false => (entry.tag as u32).into(),
            };
            (tag, entry.value)
        });
        run.report.same(
            "dynamic_entry",
            Ok(ours.entry(index).map(|entry| (entry.tag, entry.value))),
            Ok(theirs),
            |entry| match entry {
                Some((tag, _)) if !wide && tag >> 31 == 1 => "tag of 32 bits, the top one set",
                Some(_) => "entry",
                None => "none",
            },
            input,
        );
    }
}

/// The bytes of an address range, in any class and order.
fn range(run: &mut Run, fields: &SegmentFields, file: &[u8], address: u64, length: u64) {
    let (class, order) = run.random.of(&KINDS);
    let bytes = encoded(class, order, fields);
    let segment = fetulombo::segment_at(class, order, &bytes, 0).unwrap();
    let place = segment.data_range_place(file, address, length);
    run.report.same(
        "segment_data_range",
        place.map(|found| found.map(pair)).map_err(number),
        within(file, || {
            oracle::segment_data_range(is64(class), big(order), &bytes, file, address, length)
        }),
        |found| match found {
            Some((_, 0)) => "empty",
            Some(_) => "here",
            None => "not here",
        },
        || {
            format!(
                "{segment:?} address {address} size {length} file {}",
                hex(file)
            )
        },
    );
}

/// Every low type, and every flag beside any others.
fn meanings(run: &mut Run) {
    let segment = |kind: u32, flags: u32| Segment {
        kind,
        flags,
        offset: 0,
        vaddr: 0,
        paddr: 0,
        filesz: 0,
        memsz: 0,
        align: 0,
    };
    for kind in (0..1000).chain([0x6474_e551, 0x7fff_ffff, 0x8000_0002, u32::MAX]) {
        meaning(run, segment(kind, kind));
        meaning(run, segment(kind, kind << 29));
    }
    for _ in 0..run.times(10_000) {
        let (kind, flags) = (run.random.near(&[2, 3]) as u32, run.random.next() as u32);
        meaning(run, segment(kind, flags));
    }
}

/// Numbers at, just below and just above 0, a length, 2^31, 2^32, 2^63 and 2^64.
fn edges(length: u64) -> Vec<u64> {
    let mut all = Vec::new();
    for middle in [0, length, 1 << 31, 1 << 32, 1 << 63] {
        all.extend([middle.wrapping_sub(1), middle, middle.wrapping_add(1)]);
    }
    all.extend([length / 2, length.wrapping_neg(), u64::MAX - 1]);
    all.sort();
    all.dedup();
    all
}

/// All of them together, in offset, size, address and the segment's own address.
fn boundaries(run: &mut Run) {
    let fields = |p_type: u32, offset: u64, vaddr: u64, filesz: u64, align: u64| SegmentFields {
        p_type,
        flags: 4,
        offset,
        vaddr,
        paddr: 7,
        filesz,
        memsz: 9,
        align,
    };
    for length in [0, 1, 40] {
        let file = run.random.bytes(length, 9);
        let all = edges(length as u64);
        for &offset in &all {
            for &filesz in &all {
                for p_type in [1, 2, 3, 4] {
                    for align in [0, 4, 5, 8, 9, u64::MAX] {
                        let fields = fields(p_type, offset, 0, filesz, align);
                        for (class, order) in KINDS {
                            let table = encoded(class, order, &fields);
                            one(run, class, order, &table, 0, &file);
                        }
                    }
                }
            }
        }
        for &filesz in &all {
            for &vaddr in &all {
                for &address in &all {
                    for &size in all.iter().step_by(run.step()) {
                        let offset = run.random.of(&all);
                        range(
                            run,
                            &fields(1, offset, vaddr, filesz, 0),
                            &file,
                            address,
                            size,
                        );
                        range(run, &fields(1, 0, vaddr, filesz, 0), &file, address, size);
                    }
                }
            }
        }
    }
}

/// A segment inside a file or around its end, mostly of a kind that holds something.
pub fn made_up(random: &mut Random, length: u64) -> SegmentFields {
    let (offset, filesz) = match random.below(2) {
        0 => {
            let offset = random.near(&[0, length / 2, length]);
            let filesz = random.near(&[0, length / 2, length.wrapping_sub(offset)]);
            (offset, filesz)
        }
        _ => {
            let offset = random.next() % (length + 1);
            (offset, random.next() % (length - offset + 1))
        }
    };
    SegmentFields {
        p_type: match random.below(8) {
            0 => random.next() as u32,
            turn => 1 + turn as u32 % 4,
        },
        flags: random.next() as u32,
        offset,
        vaddr: random.near(&[0, 0x1000, 1 << 32]),
        paddr: random.next(),
        filesz,
        memsz: random.next(),
        align: match random.below(4) {
            0 => random.near(&[4, 8]),
            _ => random.of(&[0, 1, 4, 8]),
        },
    }
}

/// An address and a size inside a segment's file bytes or around them.
pub fn asked(random: &mut Random, fields: &SegmentFields) -> (u64, u64) {
    let end = fields.vaddr.wrapping_add(fields.filesz);
    match random.below(2) {
        0 => {
            let address = random.near(&[fields.vaddr, end]);
            (
                address,
                random.near(&[0, fields.filesz, end.wrapping_sub(address)]),
            )
        }
        _ => {
            let from = random.next() % (fields.filesz | 1);
            let size = random.next() % ((fields.filesz - from) | 1);
            (fields.vaddr.wrapping_add(from), size)
        }
    }
}

fn random(run: &mut Run) {
    for turn in 0..run.times(300_000) {
        let (class, order) = KINDS[turn % 4];
        let length = run.random.below(80);
        let zeros = run.random.of(&[2, 12, 100]);
        let file = run.random.bytes(length, zeros);
        let records = 1 + run.random.below(2);
        let mut table = Vec::new();
        for _ in 0..records {
            let fields = made_up(&mut run.random, length as u64);
            table.extend(encoded(class, order, &fields));
        }
        let tail = run.random.below(size(class));
        table.extend(run.random.bytes(tail, 3));
        let index = match run.random.below(4) {
            0 => run.random.near(&[0, records as u64]) as u32,
            _ => run.random.below(records) as u32,
        };
        one(run, class, order, &table, index, &file);
        count(run, class, &table);
        let fields = made_up(&mut run.random, length as u64);
        let (address, length) = asked(&mut run.random, &fields);
        range(run, &fields, &file, address, length);
    }
}

pub fn limits(run: &mut Run, parts: &mut limits::Parts) {
    let long = &parts.zeros;
    for &(class, order) in run.kinds() {
        for &length in run.limits.lengths() {
            count(run, class, &long[..length]);
            let end = (length / size(class)) as u32;
            for index in [0, end - 1, end, end + 1, u32::MAX] {
                one(run, class, order, &long[..length], index, &[]);
            }
            for p_type in [1, 2, 3, 4] {
                for filesz in [0, 100, length, length + 1] {
                    let fields = SegmentFields {
                        p_type,
                        flags: 0,
                        offset: (length - filesz.min(length)) as u64,
                        vaddr: 0,
                        paddr: 0,
                        filesz: if p_type == 2 {
                            filesz.min(1000)
                        } else {
                            filesz
                        } as u64,
                        memsz: 0,
                        align: 5,
                    };
                    let table = encoded(class, order, &fields);
                    one(run, class, order, &table, 0, &long[..length]);
                    range(run, &fields, &long[..length], 0, filesz as u64);
                }
            }
            // The bytes of a dynamic segment are a part too.
            for index in [0, u32::MAX] {
                let ours = fetulombo::dynamic_entry(class, order, &long[..length], index);
                let whole = index == 0;
                run.report.same(
                    "dynamic_entry",
                    ours.map(|entry| entry.is_some()).map_err(number),
                    within(&long[..length], || Ok(whole)),
                    |&whole| if whole { "entry" } else { "none" },
                    || format!("{class:?} {order:?} number {index} of {length} bytes"),
                );
            }
        }
    }
    if run.limits.answered() {
        long_files(run, &mut parts.zeros);
    }
}

/// In a file of 300 MiB the notes that end it; in a file of the limit what is empty at its end; and a
/// dynamic segment of more bytes than document 01 lets a part have.
fn long_files(run: &mut Run, long: &mut Long) {
    let fields = |p_type, offset: usize, filesz: usize| SegmentFields {
        p_type,
        flags: 4,
        offset: offset as u64,
        vaddr: 0,
        paddr: 0,
        filesz: filesz as u64,
        memsz: 0,
        align: 4,
    };
    let middle = 300 << 20;
    for &(class, order) in run.kinds() {
        let note = match order {
            Order::Little => b"\x04\0\0\0\x04\0\0\0\x01\0\0\0GNU\0abcd",
            Order::Big => b"\0\0\0\x04\0\0\0\x04\0\0\0\x01GNU\0abcd",
        };
        long[middle - 20..middle].copy_from_slice(note);
        for filesz in [20, 21] {
            for p_type in [1, 3, 4] {
                let table = encoded(class, order, &fields(p_type, middle - 20, filesz));
                one(run, class, order, &table, 0, &long[..middle]);
            }
        }
        long.renew();
        for (offset, filesz) in [(LIMIT, 0), (LIMIT, 1), (LIMIT + 1, 0), (1, LIMIT)] {
            let fields = fields(1, offset, filesz);
            let table = encoded(class, order, &fields);
            one(run, class, order, &table, 0, &long[..LIMIT]);
            range(run, &fields, &long[..LIMIT], 0, 0);
        }
    }
    if !run.is_part() {
        let (class, order) = (Class::Elf64, Order::Little);
        let table = encoded(class, order, &fields(2, LIMIT - FORMER - 16, FORMER + 16));
        one(run, class, order, &table, 0, &long[..LIMIT]);
    }
}

/// The program headers of real files, as they stand, in every class and order, and damaged.
fn libraries(run: &mut Run) {
    let programs = libraries::programs();
    for library in run.libraries.iter().chain(&programs) {
        let (class, order) = (library.class(), library.order());
        let table = library.program_headers();
        let records = (table.len() / size(class)) as u32;
        count(run, class, table);
        for index in 0..records + 1 {
            one(run, class, order, table, index, &library.bytes);
            let Ok(fields) =
                oracle::segment_fields(library.is64, library.big, record(class, table, index))
            else {
                continue;
            };
            for (class, order) in KINDS {
                one(
                    run,
                    class,
                    order,
                    &encoded(class, order, &fields),
                    0,
                    &library.bytes,
                );
            }
            ranges(run, library, &fields);
        }
        for _ in 0..run.times(1) {
            let file = run.random.damaged(&library.bytes);
            for _ in 0..run.at_most(200) {
                let table = run.random.damaged(table);
                let index = run.random.below(records as usize + 1) as u32;
                one(run, class, order, &table, index, &file);
            }
        }
    }
}

fn ranges(run: &mut Run, library: &Library, fields: &SegmentFields) {
    for _ in 0..run.at_most(50) {
        let (address, length) = asked(&mut run.random, fields);
        range(run, fields, &library.bytes, address, length);
    }
}
