//! Notes and GNU properties: every step of a walk, its places, and how it ends.

use crate::Run;
use crate::inputs::{KINDS, Random, big, is64};
use crate::libraries::NOTE;
use crate::limits::{self, FORMER};
use crate::report::{Answer, fitting, hex};
use fetulombo::{Class, LIMIT, Order, Properties};
use oracle::{NoteInfo, NoteStep, PropertyStep, PropertyWalk};

pub fn compare(run: &mut Run) {
    short(run);
    random(run);
    names(run);
    properties(run);
    libraries(run);
}

/// A note's fields and places, and the length of its trimmed name.
#[derive(Debug, PartialEq, Eq)]
pub struct Note {
    kind: u32,
    pub name: (usize, usize),
    trimmed: usize,
    pub descriptor: (usize, usize),
}

/// A step: a note or the end, or a refusal.
pub type Step<T> = Answer<Option<T>>;

pub fn original_steps(walk: &[NoteStep]) -> Vec<Step<Note>> {
    let note = |info: &NoteInfo| {
        assert_eq!(info.name.1, info.namesz as usize);
        assert_eq!(info.desc.1, info.descsz as usize);
        Note {
            kind: info.n_type,
            name: info.name,
            trimmed: info.trimmed,
            descriptor: info.desc,
        }
    };
    let mut steps: Vec<Step<Note>> = walk
        .iter()
        .map(|step| match step {
            NoteStep::Note(info) => Ok(Some(note(info))),
            NoteStep::Refused(number) => Err(*number),
        })
        .collect();
    steps.push(Ok(None));
    steps
}

pub fn our_steps(notes: fetulombo::Notes<'_>) -> Vec<Step<Note>> {
    let mut steps: Vec<Step<Note>> = notes
        .map(|step| match step {
            Ok(note) => Ok(Some(Note {
                kind: note.kind,
                name: (note.name_place.start, note.name_place.len()),
                trimmed: note.name().len(),
                descriptor: (note.descriptor_place.start, note.descriptor_place.len()),
            })),
            Err(refusal) => Err(refusal.number()),
        })
        .collect();
    steps.push(Ok(None));
    steps
}

/// Holds two walks together, step by step.
pub fn walks<T: PartialEq + std::fmt::Debug>(
    run: &mut Run,
    name: &'static str,
    found: &'static str,
    ours: Vec<Step<T>>,
    original: Vec<Step<T>>,
    input: impl Fn() -> String,
) {
    // A walk that is too short is made up by a refusal that is none.
    let steps = ours.len().max(original.len());
    let mut ours = ours.into_iter();
    let mut original = original.into_iter();
    for _ in 0..steps {
        run.report.same(
            name,
            ours.next().unwrap_or(Err(0)),
            original.next().unwrap_or(Err(0)),
            |step| if step.is_some() { found } else { "end" },
            &input,
        );
    }
}

fn one(run: &mut Run, class: Class, order: Order, align: u64, bytes: &[u8]) {
    let input = || format!("{class:?} {order:?} align {align} {}", hex(bytes));
    let original = match bytes.len() <= LIMIT {
        true => oracle::notes(is64(class), big(order), align, bytes),
        false => Err(1),
    };
    let ours = fetulombo::notes(order, align, bytes).map_err(|refusal| refusal.number());
    run.report.same(
        "notes",
        ours.as_ref().map(drop).map_err(|&number| number),
        original.as_ref().map(drop).map_err(|&number| number),
        |_| "reader",
        input,
    );
    let (Ok(notes), Ok(walk)) = (ours, original) else {
        return;
    };
    let (mine, theirs) = (our_steps(notes.clone()), original_steps(&walk.steps));
    walks(run, "note step", "note", mine, theirs, input);
    for (note, step) in notes.zip(&walk.steps) {
        let (Ok(note), NoteStep::Note(info)) = (note, step) else {
            continue;
        };
        let mine = note.gnu_properties(class);
        let theirs = info.properties.as_ref();
        kinds(run, Ok(mine.is_some()), Ok(theirs.is_some()), input);
        if let (Some(mine), Some(theirs)) = (mine, theirs) {
            property_walks(run, mine, theirs, note.descriptor_place.start, input);
        }
    }
}

fn kinds(
    run: &mut Run,
    ours: Answer<bool>,
    original: Answer<bool>,
    input: impl FnOnce() -> String,
) {
    run.report.same(
        "gnu_properties",
        ours,
        original,
        |&is| if is { "this kind" } else { "not this kind" },
        input,
    );
}

/// A property's type, place and number. The original's places count from the walked bytes, in which
/// the descriptor starts at `base`.
fn property_walks(
    run: &mut Run,
    ours: Properties<'_>,
    original: &PropertyWalk,
    base: usize,
    input: impl Fn() -> String,
) {
    let mut numbers = Vec::new();
    let mut mine: Vec<Step<(u32, usize, usize)>> = ours
        .map(|step| match step {
            Ok(property) => {
                numbers.push(property.number().map_err(|refusal| refusal.number()));
                let place = property.place;
                Ok(Some((property.kind, base + place.start, place.len())))
            }
            Err(refusal) => Err(refusal.number()),
        })
        .collect();
    mine.push(Ok(None));
    let mut theirs: Vec<Step<(u32, usize, usize)>> = Vec::new();
    let mut numbers = numbers.into_iter();
    for step in &original.steps {
        match *step {
            PropertyStep::Property {
                pr_type,
                data,
                number,
            } => {
                theirs.push(Ok(Some((pr_type, data.0, data.1))));
                if let Some(ours) = numbers.next() {
                    run.report
                        .same("property_number", ours, number, |_| "number", &input);
                }
            }
            PropertyStep::Refused(number) => theirs.push(Err(number)),
        }
    }
    theirs.push(Ok(None));
    walks(run, "property step", "property", mine, theirs, input);
}

fn word(order: Order, value: u32) -> [u8; 4] {
    match order {
        Order::Little => value.to_le_bytes(),
        Order::Big => value.to_be_bytes(),
    }
}

/// A note's bytes, with its padding.
fn encoded(order: Order, align: usize, kind: u32, name: &[u8], descriptor: &[u8]) -> Vec<u8> {
    let mut bytes = Vec::new();
    for field in [name.len() as u32, descriptor.len() as u32, kind] {
        bytes.extend(word(order, field));
    }
    bytes.extend(name);
    bytes.resize(bytes.len().next_multiple_of(align), 0);
    bytes.extend(descriptor);
    bytes.resize(bytes.len().next_multiple_of(align), 0);
    bytes
}

/// Every small namesz and descsz at every length, both alignments; every alignment around those
/// that pass.
fn short(run: &mut Run) {
    for order in [Order::Little, Order::Big] {
        for align in [4, 8] {
            for namesz in 0..=9 {
                for descsz in 0..=9 {
                    let mut bytes = Vec::new();
                    for field in [namesz, descsz, 5] {
                        bytes.extend(word(order, field));
                    }
                    bytes.extend(b"GNU\0abcdefgh\0\0\0\0\0\0\0\0\0\0\0\0\0\0\0\0\0\0\0\0\0\0\0\0");
                    for length in 0..=bytes.len() {
                        one(run, Class::Elf64, order, align, &bytes[..length]);
                    }
                }
            }
        }
        for align in (0..20).chain([32, 1 << 32, (1 << 32) + 4, 1 << 63, u64::MAX]) {
            for (class, length) in [(Class::Elf32, 0), (Class::Elf64, 12), (Class::Elf64, 40)] {
                one(run, class, order, align, &vec![0; length]);
            }
        }
    }
}

/// A section of some notes, whole or damaged.
pub fn section(random: &mut Random, order: Order, align: u64, most: usize) -> Vec<u8> {
    let mut bytes = Vec::new();
    for _ in 0..random.below(most + 1) {
        let (name, descriptor) = (random.below(10), random.below(24));
        let name = match random.below(2) {
            0 => b"GNU\0".to_vec(),
            _ => random.bytes(name, 3),
        };
        let descriptor = match random.below(2) {
            0 => random.bytes(descriptor, 3),
            _ => property_bytes(random, order),
        };
        let kind = random.of(&[5, 5, 1, 0xffff_ffff]);
        let aligned = if align == 8 { 8 } else { 4 };
        bytes.extend(encoded(order, aligned, kind, &name, &descriptor));
    }
    if random.below(3) == 0 && !bytes.is_empty() {
        bytes.truncate(random.below(bytes.len()) + 1);
    }
    match random.below(3) {
        0 => random.damaged(&bytes),
        _ => bytes,
    }
}

/// A descriptor of some properties, their padding now and then missing.
pub fn property_bytes(random: &mut Random, order: Order) -> Vec<u8> {
    let mut bytes = Vec::new();
    let align = random.of(&[4, 8, 8]);
    for _ in 0..random.below(4) {
        let size = random.below(10);
        bytes.extend(word(order, random.next() as u32));
        bytes.extend(word(order, size as u32));
        bytes.extend(random.bytes(size, 4));
        bytes.resize(bytes.len().next_multiple_of(align), 0);
    }
    if random.below(4) == 0 && !bytes.is_empty() {
        bytes.truncate(random.below(bytes.len()) + 1);
    }
    bytes
}

/// Sections of all shapes; and each from any place on, where what stands there is the first note.
fn random(run: &mut Run) {
    for turn in 0..run.times(200_000) {
        let (class, order) = KINDS[turn % 4];
        let align = run.random.of(&[4, 4, 8, 8, 0, 1, 5]);
        let bytes = section(&mut run.random, order, align, 4);
        one(run, class, order, align, &bytes);
        let place = run.random.below(bytes.len() + 4);
        from(run, order, align, &bytes, place);
    }
}

/// A walk from a place, against the original's walk of the bytes from there on.
fn from(run: &mut Run, order: Order, align: u64, bytes: &[u8], place: usize) {
    let Ok(notes) = fetulombo::notes(order, align, bytes) else {
        return;
    };
    let rest = bytes.get(place..).unwrap_or(&[]);
    let walk = oracle::notes(true, big(order), align, rest).expect("the same alignment");
    let mut theirs = original_steps(&walk.steps);
    for step in &mut theirs {
        if let Ok(Some(note)) = step {
            note.name.0 += place;
            note.descriptor.0 += place;
        }
    }
    let input = || format!("{order:?} align {align} place {place} {}", hex(bytes));
    let mine = our_steps(notes.starting_at(place));
    walks(run, "note step, any place", "note", mine, theirs, input);
}

fn trimmed(run: &mut Run, name: &[u8], original: Answer<usize>) {
    let ours = fetulombo::trimmed(name).map(|name| name.len());
    run.report.same(
        "trimmed",
        ours.map_err(|refusal| refusal.number()),
        original,
        |&length| match length == name.len() {
            true => "as it is",
            false => "shorter",
        },
        || hex(name),
    );
}

/// Names by themselves: only `GNU`, with any zeros after it, holds properties.
fn names(run: &mut Run) {
    let names = crate::inputs::lists(b"\0GNU", 6);
    for name in &names {
        let note = encoded(Order::Little, 4, 1, name, b"");
        let walk = oracle::notes(true, false, 4, &note).expect("an alignment that passes");
        let NoteStep::Note(info) = &walk.steps[0] else {
            panic!("one note");
        };
        trimmed(run, name, Ok(info.trimmed));
    }
    for (class, order) in KINDS {
        for name in &names {
            for kind in [4, 5] {
                let theirs = oracle::gnu_properties(is64(class), big(order), kind, name, b"");
                let ours = fetulombo::gnu_properties(class, order, kind, name, b"")
                    .map(|walk| walk.is_some())
                    .map_err(|refusal| refusal.number());
                let input = || format!("type {kind} name {}", hex(name));
                kinds(run, ours, Ok(theirs.is_some()), input);
            }
        }
    }
}

fn properties(run: &mut Run) {
    for turn in 0..run.times(200_000) {
        let (class, order) = KINDS[turn % 4];
        let descriptor = property_bytes(&mut run.random, order);
        let descriptor = match run.random.below(3) {
            0 => run.random.damaged(&descriptor),
            _ => descriptor,
        };
        let theirs =
            oracle::gnu_properties(is64(class), big(order), 5, b"GNU\0", &descriptor).unwrap();
        let ours = fetulombo::gnu_properties(class, order, 5, b"GNU\0", &descriptor)
            .unwrap()
            .unwrap();
        let input = || format!("{class:?} {order:?} {}", hex(&descriptor));
        property_walks(run, ours, &theirs, 0, input);
    }
}

pub fn limits(run: &mut Run, parts: &mut limits::Parts) {
    for &length in run.limits.lengths() {
        let long = &mut parts.zeros;
        // One note whose descriptor ends with the part, and one byte past it.
        for descsz in [length - 12, length - 11] {
            long[4..8].copy_from_slice(&(descsz as u32).to_le_bytes());
            for align in [4, 5, 8] {
                one(run, Class::Elf64, Order::Little, align, &long[..length]);
            }
        }
        // The same of a name.
        long[4..8].fill(0);
        for namesz in [length - 12, length - 11] {
            long[..4].copy_from_slice(&(namesz as u32).to_le_bytes());
            one(run, Class::Elf64, Order::Little, 4, &long[..length]);
        }
        long.renew();
        long[6] = 1;
        for (name, descriptor) in [(&long[..length], &b""[..]), (b"GNU", &long[..length])] {
            let ours = fetulombo::gnu_properties(Class::Elf64, Order::Little, 5, name, descriptor)
                .map(|walk| walk.is_some())
                .map_err(|refusal| refusal.number());
            let original = match length <= LIMIT {
                true => Ok(name == b"GNU"),
                false => Err(1),
            };
            kinds(run, ours, original, || format!("parts of {length}"));
        }
        let part = &long[..length];
        let input = || format!("a part of {length}");
        // Its last byte that is not 0 is number 6.
        trimmed(run, part, fitting(length, 7));
        let number = fetulombo::property_number(Order::Little, part).map_err(|r| r.number());
        run.report.same(
            "property_number",
            number,
            fitting(length, 0),
            |_| "number",
            input,
        );
        // The package's walk is refused before its first step.
        // Safety: the slice is lent for the call.
        let step = unsafe {
            crate::edges::__wrap_fetulombo_property_step(2, 1, part.as_ptr(), part.len(), length)
        };
        let step = match step.0[0] as u32 {
            0 => Ok(None::<()>),
            number => Err(number),
        };
        run.report.same(
            "property step",
            step,
            fitting(length, None),
            |_| "end",
            input,
        );
        parts.zeros.renew();
    }
    if run.limits.answered() {
        many(run);
    }
}

/// Notes over more bytes than document 01 lets a part have.
fn many(run: &mut Run) {
    // Where each call copies the part, few notes.
    let descriptor = vec![0x11; if run.is_part() { 1 << 22 } else { 1001 }];
    for &(class, order) in run.kinds() {
        let mut bytes = Vec::new();
        let mut kind = 0;
        while bytes.len() <= FORMER {
            bytes.extend(encoded(order, 8, kind, b"GNU\0", &descriptor));
            kind = (kind + 1) % 5;
        }
        one(run, class, order, 8, &bytes);
        bytes.pop();
        one(run, class, order, 8, &bytes);
        one(run, class, order, 4, &bytes);
    }
}

/// Real notes, as they stand, damaged, and encoded in every order and alignment.
fn libraries(run: &mut Run) {
    for library in run.libraries {
        let order = if library.big {
            Order::Big
        } else {
            Order::Little
        };
        for section in library.sections.iter().filter(|s| s.kind == NOTE) {
            let bytes = library.part(section);
            for (class, _) in KINDS {
                one(run, class, order, section.align, bytes);
            }
            for _ in 0..run.times(200) {
                let damaged = run.random.damaged(bytes);
                let (class, order) = run.random.of(&KINDS);
                one(run, class, order, section.align, &damaged);
            }
            let notes: Vec<_> = fetulombo::notes(order, section.align, bytes)
                .into_iter()
                .flatten()
                .flatten()
                .collect();
            for (class, order) in KINDS {
                for align in [4, 8] {
                    let again: Vec<u8> = notes
                        .iter()
                        .flat_map(|note| {
                            encoded(
                                order,
                                align,
                                note.kind,
                                note.name_bytes(),
                                note.descriptor(),
                            )
                        })
                        .collect();
                    one(run, class, order, align as u64, &again);
                }
            }
        }
    }
}
