//! What a call costs, ours and the original's, on the same questions (docs/SPEED.md).
//!
//! Each question is asked of every contender in the same shuffled order, round after round; the next
//! round begins with another contender. What they answer is summed, and the sums must be equal.

// The functions as a C program calls them, without the package and what is around it in edges.rs.
use crate::edges::{
    __real_fetulombo_gnu_find as fetulombo_gnu_find,
    __real_fetulombo_gnu_hash as fetulombo_gnu_hash,
    __real_fetulombo_note_step as fetulombo_note_step,
    __real_fetulombo_string_at as fetulombo_string_at,
    __real_fetulombo_sysv_find as fetulombo_sysv_find,
    __real_fetulombo_sysv_hash as fetulombo_sysv_hash,
    __real_fetulombo_versions_parse as fetulombo_versions_parse, Answer,
};
use crate::inputs::Random;
use crate::libraries::{Library, NOTE};
use crate::plain::{gnu_hash, sysv_hash};
use crate::tables::{GnuShape, Symbols, gnu_table, of_library, put_symbol, sysv_table};
use crate::versions::put;
use fetulombo::{Class, ENTRY, LARGEST_STORE, Order};
use oracle::elf::FileHeader64;
use oracle::endian::Endianness;
use oracle::read::StringTable;
use oracle::read::elf::{NoteIterator, Version};
use oracle::{Bench64, BenchInput, NeedParts};
use std::ffi::{CString, c_char, c_int, c_void};
use std::hint::black_box;
use std::path::Path;

/// How the rows are run: so many rounds, and those alone whose name holds the text.
#[derive(Clone, Copy)]
struct Rows<'a> {
    rounds: usize,
    text: &'a str,
}

const ROUNDS: usize = 31;

/// The least time that a contender runs in a round, in nanoseconds.
const LEAST: f64 = 1e7;

unsafe extern "C" {
    fn dlopen(name: *const c_char, flags: c_int) -> *mut c_void;
    fn dlsym(library: *mut c_void, name: *const c_char) -> *mut c_void;
    fn dlvsym(library: *mut c_void, name: *const c_char, version: *const c_char) -> *mut c_void;
    fn clock_gettime(clock: c_int, time: *mut [i64; 2]) -> c_int;
}

/// The processor's time of this thread, in nanoseconds: what else runs on the machine does not count.
fn now() -> f64 {
    let mut time = [0; 2];
    // Safety: a clock of Linux (CLOCK_THREAD_CPUTIME_ID), and a place for its two numbers.
    assert_eq!(unsafe { clock_gettime(3, &mut time) }, 0);
    time[0] as f64 * 1e9 + time[1] as f64
}

/// One who answers all questions in an order, and the sum of the answers.
type Contender<'a> = Box<dyn FnMut(&[u32]) -> u64 + 'a>;

fn contender<'a>(mut answer: impl FnMut(usize) -> u64 + 'a) -> Contender<'a> {
    Box::new(move |order| {
        let each = order.iter().map(|&question| answer(question as usize));
        each.fold(0, u64::wrapping_add)
    })
}

/// The nanoseconds of a question, of each contender in each round.
fn timed(rounds: usize, questions: usize, contenders: &mut [Contender<'_>]) -> Vec<Vec<f64>> {
    let mut random = Random::new(1);
    let mut order: Vec<u32> = (0..questions as u32).collect();
    let sums: Vec<u64> = contenders.iter_mut().map(|ask| ask(&order)).collect();
    assert!(
        sums.iter().all(|&sum| sum == sums[0]),
        "answers differ: {sums:?}"
    );
    let start = now();
    black_box(contenders[0](&order));
    let passes = (LEAST / (now() - start)) as usize + 1;
    let mut times = vec![Vec::new(); contenders.len()];
    for round in 0..rounds {
        for last in (1..questions).rev() {
            order.swap(last, random.below(last + 1));
        }
        for turn in 0..contenders.len() {
            let which = (round + turn) % contenders.len();
            let start = now();
            for _ in 0..passes {
                assert_eq!(contenders[which](black_box(&order)), sums[0]);
            }
            times[which].push((now() - start) / (passes * questions) as f64);
        }
    }
    times
}

/// The middle one, the smallest and the largest.
fn spread(mut numbers: Vec<f64>) -> [f64; 3] {
    numbers.sort_by(f64::total_cmp);
    [
        numbers[numbers.len() / 2],
        numbers[0],
        numbers[numbers.len() - 1],
    ]
}

fn ratios(ours: &[f64], theirs: &[f64]) -> Vec<f64> {
    ours.iter().zip(theirs).map(|(a, b)| a / b).collect()
}

/// One row: `each` is how many times a question does what is counted.
fn row<'a>(
    rows: Rows<'_>,
    what: &str,
    questions: usize,
    each: f64,
    ours: impl FnMut(usize) -> u64 + 'a,
    theirs: impl FnMut(usize) -> u64 + 'a,
) {
    if !what.contains(rows.text) {
        return;
    }
    let times = timed(
        rows.rounds,
        questions,
        &mut [contender(ours), contender(theirs)],
    );
    let [ratio, least, most] = spread(ratios(&times[0], &times[1]));
    let [ours, _, _] = spread(times[0].clone());
    let [theirs, _, _] = spread(times[1].clone());
    let (ours, theirs) = (ours / each, theirs / each);
    println!("| {what} | {ours:.1} | {theirs:.1} | {ratio:.2} | {least:.2} to {most:.2} |");
}

pub fn print(rounds: Option<u64>, text: &str) {
    let rounds = rounds.map_or(ROUNDS, |rounds| rounds as usize);
    let rows = Rows { rounds, text };
    println!(
        "{rounds} rounds; ns for each call (median), the ratio's median, smallest and largest"
    );
    println!("| what | ours | the original | ratio | spread |");
    println!("|---|---:|---:|---:|---:|");
    lookups(rows);
    versions(rows);
    notes(rows);
    strings(rows);
    hashes(rows);
    loader(rows);
}

/// `fetulombo_gnu_find` and `fetulombo_sysv_find`.
type Find = unsafe extern "C" fn(
    u8,
    u8,
    *const u8,
    usize,
    *const u8,
    usize,
    *const u8,
    usize,
    *const u8,
    usize,
    *const u32,
    usize,
    *const u8,
    usize,
    *const u8,
    usize,
    u32,
    u8,
    u32,
    *const u8,
    usize,
) -> Answer<3>;

/// A question to a hash table.
#[derive(Clone)]
struct Asked {
    name: Vec<u8>,
    hash: u32,
    /// Which version is needed, among those of the library.
    need: Option<usize>,
}

/// A library's parts with its versions parsed, as each contender wants them.
struct Parsed {
    made: Symbols,
    table: Vec<u8>,
    store: Vec<u32>,
    needs: Vec<(Vec<u8>, u32)>,
}

impl Parsed {
    fn new(made: Symbols, table: Vec<u8>, needs: Vec<(Vec<u8>, u32)>) -> Self {
        let store = filled(
            &made.versions.verdef,
            &made.versions.verneed,
            &made.versions.strings,
        );
        Parsed {
            made,
            table,
            store,
            needs,
        }
    }

    fn input(&self) -> BenchInput<'_> {
        BenchInput {
            big: black_box(false),
            table: &self.table,
            symbols: &self.made.symbols,
            strings: &self.made.strings,
            versyms: &self.made.versions.versyms,
            verdef: Some(&self.made.versions.verdef),
            verneed: Some(&self.made.versions.verneed),
            version_strings: &self.made.versions.strings,
        }
    }

    fn needed(&self) -> Vec<NeedParts<'_>> {
        let needs = self.needs.iter();
        needs
            .map(|(name, hash)| NeedParts::new(name, *hash))
            .collect()
    }

    /// The number of the symbol that is found, or 0.
    fn find(&self, find: Find, asked: &Asked) -> u64 {
        let versions = &self.made.versions;
        let (needed, need_hash, need_name) = match asked.need {
            None => (0, 0, &[][..]),
            Some(which) => (1, self.needs[which].1, &self.needs[which].0[..]),
        };
        // Safety: the slices are lent for the call.
        let found = unsafe {
            find(
                2,
                1,
                self.table.as_ptr(),
                self.table.len(),
                self.made.symbols.as_ptr(),
                self.made.symbols.len(),
                self.made.strings.as_ptr(),
                self.made.strings.len(),
                versions.versyms.as_ptr(),
                versions.versyms.len(),
                self.store.as_ptr(),
                self.store.len(),
                versions.strings.as_ptr(),
                versions.strings.len(),
                asked.name.as_ptr(),
                asked.name.len(),
                asked.hash,
                needed,
                need_hash,
                need_name.as_ptr(),
                need_name.len(),
            )
        };
        found.0[1]
    }
}

/// The store of these versions, of exactly the size that they need.
fn filled(verdef: &[u8], verneed: &[u8], strings: &[u8]) -> Vec<u32> {
    let mut store = vec![0; LARGEST_STORE];
    let highest = fetulombo::versions_parse(Order::Little, verdef, verneed, strings, &mut store);
    store.truncate((highest.expect("a version table").0 as usize + 1) * ENTRY);
    store
}

const WORDS: [&str; 32] = [
    "lot", "import", "open", "close", "read", "write", "get", "set", "list", "table", "index",
    "name", "hash", "node", "buffer", "file", "string", "symbol", "version", "state", "cache",
    "error", "init", "free", "copy", "find", "insert", "remove", "first", "last", "next", "size",
];

/// Names as libraries have them: two to four words and a number.
fn names(random: &mut Random, count: usize) -> Vec<Vec<u8>> {
    let mut all = std::collections::BTreeSet::new();
    while all.len() < count {
        let mut name = String::new();
        for _ in 0..2 + random.below(3) {
            name += random.of(&WORDS);
            name.push('_');
        }
        name += &random.below(1000).to_string();
        all.insert(name.into_bytes());
    }
    let mut all: Vec<Vec<u8>> = all.into_iter().collect();
    for last in (1..all.len()).rev() {
        all.swap(last, random.below(last + 1));
    }
    all
}

/// Definitions of the versions LOT_1.0 and so on, from index 2 on; then needs of one file each, with
/// `auxs` versions each.
fn version_parts(
    definitions: usize,
    files: usize,
    auxs: usize,
) -> (crate::versions::Parts, Vec<(Vec<u8>, u32)>) {
    let order = Order::Little;
    let mut parts = crate::versions::Parts::default();
    parts.strings.push(0);
    let mut needs = Vec::new();
    let string = |strings: &mut Vec<u8>, text: String| {
        let place = strings.len() as u32;
        strings.extend(text.as_bytes());
        strings.push(0);
        place
    };
    for k in 0..definitions {
        let text = format!("LOT_{}.{}", 1 + k / 10, k % 10);
        let hash = sysv_hash(text.as_bytes());
        needs.push((text.clone().into_bytes(), hash));
        let place = string(&mut parts.strings, text);
        for (value, width) in [(1, 2), (0, 2), (k as u32 + 2, 2), (1, 2)] {
            put(order, &mut parts.verdef, value, width);
        }
        let next = if k + 1 < definitions { 28 } else { 0 };
        for value in [hash, 20, next, place, 0] {
            put(order, &mut parts.verdef, value, 4);
        }
    }
    for file in 0..files {
        let place = string(&mut parts.strings, format!("libfile{file}.so.1"));
        let next = if file + 1 < files {
            16 + 16 * auxs as u32
        } else {
            0
        };
        for (value, width) in [(1, 2), (auxs as u32, 2), (place, 4), (16, 4), (next, 4)] {
            put(order, &mut parts.verneed, value, width);
        }
        for aux in 0..auxs {
            let text = format!("FILE{file}_{}.{}", 1 + aux / 10, aux % 10);
            let hash = sysv_hash(text.as_bytes());
            let place = string(&mut parts.strings, text);
            put(order, &mut parts.verneed, hash, 4);
            put(order, &mut parts.verneed, 0, 2);
            let index = 2 + definitions + file * auxs + aux;
            put(order, &mut parts.verneed, index as u32, 2);
            put(order, &mut parts.verneed, place, 4);
            let next = if aux + 1 < auxs { 16 } else { 0 };
            put(order, &mut parts.verneed, next, 4);
        }
    }
    (parts, needs)
}

/// How many symbols the table of the lookups has, and how many versions they are of.
const SYMBOLS: usize = 20_000;
const VERSIONS: usize = 8;

/// Buckets, bloom words and shift as GNU ld takes them for so many symbols.
const SHAPE: GnuShape = GnuShape {
    buckets: 16_411,
    base: 1,
    blooms: 8_192,
    shift: 19,
};

/// The symbols, and as many names that are not there.
fn library(random: &mut Random) -> (Symbols, Vec<Vec<u8>>, Vec<Vec<u8>>, Vec<(Vec<u8>, u32)>) {
    let mut present = names(random, 2 * SYMBOLS);
    let absent = present.split_off(SYMBOLS);
    present.sort_by_key(|name| gnu_hash(name) % SHAPE.buckets);
    let (class, order) = (Class::Elf64, Order::Little);
    let (versions, needs) = version_parts(VERSIONS, 1, 2);
    let mut made = Symbols {
        class,
        order,
        symbols: Vec::new(),
        strings: vec![0],
        versions,
    };
    put_symbol(class, order, &mut made.symbols, 0);
    put(order, &mut made.versions.versyms, 0, 2);
    for (k, name) in present.iter().enumerate() {
        put_symbol(class, order, &mut made.symbols, made.strings.len() as u32);
        made.strings.extend(name);
        made.strings.push(0);
        put(
            order,
            &mut made.versions.versyms,
            (2 + k % VERSIONS) as u32,
            2,
        );
    }
    (made, present, absent, needs)
}

fn lookups(rows: Rows<'_>) {
    let mut random = Random::new(1);
    let (made, present, absent, needs) = library(&mut random);
    let gnu = gnu_table(&made, SHAPE);
    let sysv = sysv_table(&made, SHAPE.buckets as usize);
    for (kind, table, hash) in [
        ("GNU", gnu, gnu_hash as fn(&[u8]) -> u32),
        ("SysV", sysv, sysv_hash),
    ] {
        let parsed = Parsed::new(made.clone(), table, needs.clone());
        let questions = |names: &[Vec<u8>], stated: bool| -> Vec<Asked> {
            let asked = names.iter().enumerate().map(|(k, name)| Asked {
                name: name.clone(),
                hash: hash(name),
                need: stated.then_some(k % VERSIONS),
            });
            asked.collect()
        };
        for (how, stated) in [("", false), (", with a version", true)] {
            let there = questions(&present, stated);
            let not = questions(&absent, stated);
            let half: Vec<Asked> = there
                .iter()
                .step_by(2)
                .chain(not.iter().step_by(2))
                .cloned()
                .collect();
            for (which, asked) in [("half absent", half), ("present", there), ("absent", not)] {
                let what = format!("{kind} lookup, {which}{how}");
                if kind == "GNU" {
                    gnu_row(rows, &what, &parsed, &asked);
                } else {
                    sysv_row(rows, &what, &parsed, &asked);
                }
            }
        }
    }
}

fn gnu_row(rows: Rows<'_>, what: &str, parsed: &Parsed, asked: &[Asked]) {
    let parts = Bench64::new(parsed.input()).expect("either order");
    let bench = parts.gnu().expect("a table");
    let needed = parsed.needed();
    let versions: Vec<Version<'_>> = needed.iter().map(|need| need.version()).collect();
    row(
        rows,
        what,
        asked.len(),
        1.0,
        |k| parsed.find(fetulombo_gnu_find, &asked[k]),
        |k| {
            let asked = &asked[k];
            let need = asked.need.map(|which| &versions[which]);
            bench
                .find(&asked.name, asked.hash, need)
                .unwrap_or(0)
                .into()
        },
    );
}

fn sysv_row(rows: Rows<'_>, what: &str, parsed: &Parsed, asked: &[Asked]) {
    let parts = Bench64::new(parsed.input()).expect("either order");
    let bench = parts.sysv().expect("a table");
    let needed = parsed.needed();
    let versions: Vec<Version<'_>> = needed.iter().map(|need| need.version()).collect();
    row(
        rows,
        what,
        asked.len(),
        1.0,
        |k| parsed.find(fetulombo_sysv_find, &asked[k]),
        |k| {
            let asked = &asked[k];
            let need = asked.need.map(|which| &versions[which]);
            bench
                .find(&asked.name, asked.hash, need)
                .unwrap_or(0)
                .into()
        },
    );
}

/// The shared C library that this program is linked with.
fn libc() -> Option<Library> {
    let maps = std::fs::read_to_string("/proc/self/maps").ok()?;
    let path = maps
        .lines()
        .filter_map(|line| line.find('/').map(|at| &line[at..]))
        .find(|path| path.ends_with("libc.so.6"))?;
    Library::open(Path::new(path))
}

fn versions(rows: Rows<'_>) {
    let (made, _) = version_parts(200, 0, 0);
    parse_row(rows, "version parsing, 200 definitions", &made);
    let (made, _) = version_parts(0, 20, 10);
    parse_row(rows, "version parsing, 20 files of 10 needs", &made);
    if let Some((made, _, _)) = libc().as_ref().and_then(of_library) {
        parse_row(rows, "version parsing, the C library", &made.versions);
    }
}

fn parse_row(rows: Rows<'_>, what: &str, parts: &crate::versions::Parts) {
    let mut store = filled(&parts.verdef, &parts.verneed, &parts.strings);
    row(
        rows,
        what,
        100,
        1.0,
        |_| {
            // Safety: the slices are lent for the call, and the store is lent alone.
            let answer = unsafe {
                fetulombo_versions_parse(
                    1,
                    parts.verdef.as_ptr(),
                    parts.verdef.len(),
                    parts.verneed.as_ptr(),
                    parts.verneed.len(),
                    parts.strings.as_ptr(),
                    parts.strings.len(),
                    store.as_mut_ptr(),
                    store.len(),
                )
            };
            answer.0[0]
        },
        |_| {
            let absent = |part| Some(part).filter(|part: &&[u8]| !part.is_empty());
            let answer = oracle::versions_parse(
                true,
                black_box(false),
                &parts.versyms,
                absent(&parts.verdef),
                absent(&parts.verneed),
                &parts.strings,
            );
            black_box(&answer).is_err().into()
        },
    );
}

fn notes(rows: Rows<'_>) {
    let mut random = Random::new(1);
    let order = Order::Little;
    let mut bytes = Vec::new();
    for _ in 0..64 {
        let descriptor = random.below(40);
        for field in [4, descriptor as u32, 1] {
            put(order, &mut bytes, field, 4);
        }
        bytes.extend(b"LOT\0");
        bytes.extend(random.bytes(descriptor, 8));
        bytes.resize(bytes.len().next_multiple_of(4), 0);
    }
    note_row(rows, "note walk, 64 notes (for each note)", 4, &bytes);
    let Some(library) = libc() else {
        return;
    };
    if let Some(section) = library.sections.iter().find(|s| s.kind == NOTE) {
        let bytes = library.part(section);
        let what = "note walk, the C library's first section (for each note)";
        note_row(rows, what, section.align, bytes);
    }
}

fn note_row(rows: Rows<'_>, what: &str, align: u64, bytes: &[u8]) {
    let count = fetulombo::notes(Order::Little, align, bytes)
        .expect("an alignment that passes")
        .count();
    row(
        rows,
        what,
        100,
        count as f64,
        |_| {
            let (mut at, mut sum) = (0, 0);
            loop {
                // Safety: the slice is lent for the call.
                let note =
                    unsafe { fetulombo_note_step(1, align, bytes.as_ptr(), bytes.len(), at) };
                let [found, kind, _, name_length, _, descriptor_length, next] = note.0;
                if found == 0 {
                    return sum;
                }
                sum += kind + name_length + descriptor_length;
                at = next as usize;
            }
        },
        |_| {
            let endian = black_box(Endianness::Little);
            let notes = NoteIterator::<FileHeader64<Endianness>>::new(endian, align, bytes);
            let mut notes = notes.expect("an alignment that passes");
            let mut sum = 0;
            while let Ok(Some(note)) = notes.next() {
                let lengths = note.name_bytes().len() + note.desc().len();
                sum += u64::from(note.n_type(endian).0) + lengths as u64;
            }
            sum
        },
    );
}

fn strings(rows: Rows<'_>) {
    if let Some((made, _, _)) = libc().as_ref().and_then(of_library) {
        let plain = made.plain(&[]);
        let offsets: Vec<u32> = (1..plain.count())
            .filter_map(|symbol| {
                let name = plain.name(symbol)?;
                Some((name.as_ptr() as usize - made.strings.as_ptr() as usize) as u32)
            })
            .collect();
        string_row(
            rows,
            "string read, the C library's names",
            &made.strings,
            &offsets,
        );
    }
    let mut random = Random::new(1);
    for (what, length, count) in [
        ("string read, 16 bytes", 16, 1000),
        ("string read, 64 bytes", 64, 1000),
        ("string read, 1 KiB", 1 << 10, 1000),
        ("string read, 1 MiB", 1 << 20, 8),
    ] {
        let mut strings = vec![0];
        let mut offsets = Vec::new();
        for _ in 0..count {
            offsets.push(strings.len() as u32);
            strings.extend(random.bytes(length, 1 << 30).iter().map(|byte| byte | 1));
            strings.push(0);
        }
        string_row(rows, what, &strings, &offsets);
    }
}

fn string_row(rows: Rows<'_>, what: &str, strings: &[u8], offsets: &[u32]) {
    let table = StringTable::new(strings, 0, strings.len() as u64);
    row(
        rows,
        what,
        offsets.len(),
        1.0,
        |k| {
            // Safety: the slice is lent for the call.
            unsafe { fetulombo_string_at(strings.as_ptr(), strings.len(), offsets[k]) }.0[2]
        },
        |k| {
            table
                .get(offsets[k])
                .map_or(0, |string| string.len() as u64)
        },
    );
}

/// The original has no hash of its own at hand: against a plain loop in Rust.
fn hashes(rows: Rows<'_>) {
    let names = names(&mut Random::new(1), 10_000);
    row(
        rows,
        "GNU hash of a name (the other: a plain loop in Rust)",
        names.len(),
        1.0,
        // Safety: the slice is lent for the call.
        |k| unsafe { fetulombo_gnu_hash(names[k].as_ptr(), names[k].len()) }.0[1],
        |k| oracle::gnu_hash(&names[k]).into(),
    );
    row(
        rows,
        "SysV hash of a name (the other: a plain loop in Rust)",
        names.len(),
        1.0,
        // Safety: the slice is lent for the call.
        |k| unsafe { fetulombo_sysv_hash(names[k].as_ptr(), names[k].len()) }.0[1],
        |k| oracle::sysv_hash(&names[k]).into(),
    );
}

const LOADER: &str = "names of the C library, hashed and looked up";

/// The loader's own lookup beside both, on the C library that this program runs with: a name is
/// hashed and looked up. Functions and objects alone, for of the others the loader does more.
fn loader(rows: Rows<'_>) {
    if !LOADER.contains(rows.text) {
        return;
    }
    let Some((made, gnu, _)) = libc().as_ref().and_then(of_library) else {
        println!("no C library at hand");
        return;
    };
    // Safety: a constant name.
    let handle = unsafe { dlopen(c"libc.so.6".as_ptr(), 1) };
    assert!(!handle.is_null());
    let theirs = crate::lookups::their_versions(&made).expect("its own versions");
    let plain = made.plain(&[]);
    let mut needs: Vec<(Vec<u8>, u32)> = Vec::new();
    let mut asked: Vec<Asked> = Vec::new();
    let mut values = vec![0; plain.count()];
    for symbol in 1..plain.count() {
        let record = oracle::symbol_at(true, false, &made.symbols, symbol as u32).expect("there");
        let versym = theirs.version_index(symbol as u32);
        let oracle::Entry::Version {
            hash,
            name,
            file: None,
        } = theirs.entry(versym & 0x7fff)
        else {
            continue;
        };
        let kind = record.info & 15;
        if versym & 0x8000 != 0
            || record.shndx == 0
            || record.shndx >= 0xff00
            || !(kind == 1 || kind == 2)
        {
            continue;
        }
        values[symbol] = record.value;
        let version = made.versions.strings[name.0..name.0 + name.1].to_vec();
        let which = needs.iter().position(|need| need.0 == version);
        let which = which.unwrap_or_else(|| {
            needs.push((version, hash));
            needs.len() - 1
        });
        let name = plain.name(symbol).expect("a name").to_vec();
        asked.push(Asked {
            hash: gnu_hash(&name),
            name,
            need: Some(which),
        });
    }
    let text = |bytes: &[u8]| CString::new(bytes).expect("no zero");
    let names: Vec<CString> = asked.iter().map(|asked| text(&asked.name)).collect();
    let stated: Vec<CString> = needs.iter().map(|need| text(&need.0)).collect();
    let parsed = Parsed::new(made.clone(), gnu, needs);
    let parts = Bench64::new(parsed.input()).expect("either order");
    let bench = parts.gnu().expect("a table");
    let needed = parsed.needed();
    let versions: Vec<Version<'_>> = needed.iter().map(|need| need.version()).collect();
    let base = {
        let found = parsed.find(fetulombo_gnu_find, &asked[0]);
        // Safety: names that end in a zero.
        let there = unsafe { dlsym(handle, names[0].as_ptr()) };
        (there as u64).wrapping_sub(values[found as usize])
    };
    for with in [false, true] {
        let questions: Vec<Asked> = asked
            .iter()
            .map(|asked| Asked {
                need: asked.need.filter(|_| with),
                ..asked.clone()
            })
            .collect();
        let ours = contender(|k| {
            let asked = &questions[k];
            // Safety: the slice is lent for the call.
            let hash = unsafe { fetulombo_gnu_hash(asked.name.as_ptr(), asked.name.len()) };
            debug_assert_eq!(hash.0[1], u64::from(asked.hash));
            values[parsed.find(fetulombo_gnu_find, asked) as usize].wrapping_add(hash.0[0])
        });
        let original = contender(|k| {
            let asked = &questions[k];
            let hash = oracle::gnu_hash(&asked.name);
            let need = asked.need.map(|which| &versions[which]);
            values[bench.find(&asked.name, hash, need).unwrap_or(0) as usize]
        });
        let loader = contender(|k| {
            // Safety: names that end in a zero.
            let there = unsafe {
                match questions[k].need {
                    None => dlsym(handle, names[k].as_ptr()),
                    Some(which) => dlvsym(handle, names[k].as_ptr(), stated[which].as_ptr()),
                }
            };
            (there as u64).wrapping_sub(base)
        });
        let times = timed(rows.rounds, questions.len(), &mut [ours, original, loader]);
        let call = if with { "dlvsym" } else { "dlsym" };
        let [a, b, c] = [0, 1, 2].map(|k| spread(times[k].clone())[0]);
        let [ratio, least, most] = spread(ratios(&times[0], &times[1]));
        println!(
            "| {} {LOADER}{} | {a:.1} | {b:.1} | {ratio:.2} | {least:.2} to {most:.2} |",
            questions.len(),
            if with { ", with a version" } else { "" },
        );
        let [ratio, least, most] = spread(ratios(&times[0], &times[2]));
        println!(
            "| the same by `{call}` (the ratio: ours to it) | {a:.1} | {c:.1} | {ratio:.2} | {least:.2} to {most:.2} |"
        );
    }
}
