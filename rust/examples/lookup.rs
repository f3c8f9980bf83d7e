//! Looks names up in a shared library:
//!
//!     lookup LIBRARY NAME...
//!
//! A NAME is the name of a symbol, or name@version. The parts of the library are found by its section
//! headers, which are read here by hand; the checker says whether the table can be relied on, and each
//! lookup prints the symbol, its version and how many symbols were tested. The rule is document 01's;
//! docs/STATION.md says where a loader has another.

use fetulombo::{
    Class, GnuTable, GnuVerdict, LARGEST_STORE, Needed, Order, Refusal, SymbolIndex, Symbols,
    SysvTable, SysvVerdict, Version, Versions, store_len, symbol_at, u16_at, u32_at, u64_at,
    versions_parse,
};
use std::error::Error;
use std::process::ExitCode;

const HASH: u32 = 5;
const GNU_HASH: u32 = 0x6fff_fff6;
const VERDEF: u32 = 0x6fff_fffd;
const VERNEED: u32 = 0x6fff_fffe;
const VERSYM: u32 = 0x6fff_ffff;

fn main() -> ExitCode {
    let mut words = std::env::args().skip(1);
    let Some(path) = words.next() else {
        eprintln!("lookup LIBRARY NAME...");
        return ExitCode::FAILURE;
    };
    let names: Vec<String> = words.collect();
    let names: Vec<&str> = names.iter().map(String::as_str).collect();
    let answer = std::fs::read(&path)
        .map_err(Box::from)
        .and_then(|file| report(&file, &names));
    match answer {
        Ok(text) => print!("{text}"),
        Err(error) => {
            eprintln!("{path}: {error}");
            return ExitCode::FAILURE;
        }
    }
    ExitCode::SUCCESS
}

/// What is printed of a library and these names.
pub fn report(file: &[u8], names: &[&str]) -> Result<String, Box<dyn Error>> {
    let parts = parts(file)?;
    let (order, strings) = (parts.order, parts.version_strings);
    let mut store = vec![0; LARGEST_STORE];
    let highest = versions_parse(order, parts.verdef, parts.verneed, strings, &mut store)?;
    store.truncate(store_len(highest));
    let versions = Versions {
        versyms: parts.versyms,
        store: &store,
        strings,
    };
    let mut text = parts.table.verdict(parts.symbols)?;
    for asked in names {
        text += &line(&parts, versions, asked)?;
    }
    Ok(text)
}

/// What is printed of a name.
fn line(parts: &Parts<'_>, versions: Versions<'_>, asked: &str) -> Result<String, Refusal> {
    let (name, need) = match asked.split_once('@') {
        None => (asked, None),
        Some((name, version)) => (name, Some(Needed::new(version.as_bytes())?)),
    };
    let (symbols, name) = (parts.symbols, name.as_bytes());
    let found = match parts.table {
        Table::Gnu(table) => table.find(symbols, versions, name, need)?,
        Table::Sysv(table) => table.find(symbols, versions, name, need)?,
    };
    let probes = match found.probes {
        1 => "1 probe".to_string(),
        probes => format!("{probes} probes"),
    };
    let Some(index) = found.symbol else {
        return Ok(format!("{asked}: nothing, {probes}\n"));
    };
    let value = symbol_at(parts.class, parts.order, symbols.symbols, index)?.value;
    let version = version(versions, parts.order, index)?;
    let number = index.0;
    Ok(format!(
        "{asked}: symbol {number}, {version}, value {value:#x}, {probes}\n"
    ))
}

/// The version of a symbol that was found, in words.
fn version(versions: Versions<'_>, order: Order, index: SymbolIndex) -> Result<String, Refusal> {
    let versym = versions.version_of(order, index)?;
    let name = match versions.entry(versym.index)? {
        None => return Ok("no version".to_string()),
        Some(Version::Definition { name, .. } | Version::Need { name, .. }) => name,
    };
    let hidden = if versym.hidden { " (hidden)" } else { "" };
    Ok(format!("{}{hidden}", String::from_utf8_lossy(name)))
}

/// The parts of a library that a lookup is lent.
struct Parts<'file> {
    class: Class,
    order: Order,
    table: Table<'file>,
    symbols: Symbols<'file>,
    versyms: &'file [u8],
    verdef: &'file [u8],
    verneed: &'file [u8],
    version_strings: &'file [u8],
}

/// A section's link names the section that it speaks of: a table's its symbols, theirs the strings.
fn parts(file: &[u8]) -> Result<Parts<'_>, Box<dyn Error>> {
    if !file.starts_with(b"\x7fELF") || file.len() < 52 {
        return Err("no ELF file".into());
    }
    let class = Class::from_ident(file[4])?;
    let order = Order::from_ident(file[5])?;
    let sections = sections(class, order, file)?;
    let of_kind = |kind| sections.iter().find(|section| section.kind == kind);
    let linked = |section: &Section| sections.get(section.link).ok_or("a link to no section");
    let bytes = |section: Option<&Section>| section.map_or(Ok(&[][..]), |s| s.bytes(file));

    let (section, table) = match (of_kind(GNU_HASH), of_kind(HASH)) {
        (Some(gnu), _) => {
            let table = GnuTable::parse(class, order, gnu.bytes(file)?)?;
            (gnu, Table::Gnu(table))
        }
        // Words of 8 bytes are out of scope, and would be read as something else.
        (None, Some(sysv)) if sysv.entry_size == 8 => {
            return Err("a SysV table whose words have 8 bytes".into());
        }
        (None, Some(sysv)) => {
            let table = SysvTable::parse(class, order, sysv.bytes(file)?)?;
            (sysv, Table::Sysv(table))
        }
        (None, None) => return Err("no hash table".into()),
    };
    let symbols = linked(section)?;
    let versyms = of_kind(VERSYM);
    if versyms.is_some_and(|versyms| versyms.link != section.link) {
        return Err("versyms of other symbols".into());
    }
    // The archive takes one slice of strings for both version sections.
    let (verdef, verneed) = (of_kind(VERDEF), of_kind(VERNEED));
    let version_strings = match (verdef, verneed) {
        (None, None) => None,
        (Some(one), None) | (None, Some(one)) => Some(linked(one)?),
        (Some(one), Some(other)) if one.link == other.link => Some(linked(one)?),
        _ => return Err("version sections with strings of their own".into()),
    };
    Ok(Parts {
        class,
        order,
        table,
        symbols: Symbols {
            symbols: symbols.bytes(file)?,
            strings: linked(symbols)?.bytes(file)?,
        },
        versyms: bytes(versyms)?,
        verdef: bytes(verdef)?,
        verneed: bytes(verneed)?,
        version_strings: bytes(version_strings)?,
    })
}

#[derive(Clone, Copy)]
enum Table<'data> {
    Gnu(GnuTable<'data>),
    Sysv(SysvTable<'data>),
}

impl Table<'_> {
    /// What its checker says, as a line.
    fn verdict(&self, symbols: Symbols<'_>) -> Result<String, Refusal> {
        Ok(match self {
            Table::Gnu(table) => match table.check(symbols)? {
                GnuVerdict::Accepted { longest } => {
                    format!("GNU table: accepted, longest chain {longest}\n")
                }
                GnuVerdict::Broken { rule, place } => {
                    format!("GNU table: NOT TO BE RELIED ON, rule G{rule} is broken at {place}\n")
                }
            },
            Table::Sysv(table) => match table.check(symbols)? {
                SysvVerdict::Accepted => "SysV table: accepted\n".to_string(),
                SysvVerdict::Broken { rule } => {
                    format!("SysV table: NOT TO BE RELIED ON, rule T{rule} is broken\n")
                }
            },
        })
    }
}

struct Section {
    kind: u32,
    offset: u64,
    size: u64,
    link: usize,
    entry_size: u64,
}

impl Section {
    /// Its bytes in the file.
    fn bytes<'file>(&self, file: &'file [u8]) -> Result<&'file [u8], &'static str> {
        slice(file, self.offset, self.size).ok_or("a section lies outside the file")
    }
}

fn slice(file: &[u8], start: u64, size: u64) -> Option<&[u8]> {
    let end = usize::try_from(start.checked_add(size)?).ok()?;
    file.get(start as usize..end)
}

/// The section headers. A word past the end of what is lent would count as 0, so each record is first
/// known to stand in the file.
fn sections(class: Class, order: Order, file: &[u8]) -> Result<Vec<Section>, Box<dyn Error>> {
    // The words of a record that have 4 bytes in ELF32 and 8 in ELF64.
    let wide = |bytes: &[u8], at: usize| match class {
        Class::Elf32 => u32_at(order, bytes, at).map(u64::from),
        Class::Elf64 => u64_at(order, bytes, at),
    };
    // Where the header has the place, the size of a record and their number; the size of a record; where
    // it has offset, size, link and entry size.
    let (header, [place, each, count], size, [offset, bytes, link, entry]) = match class {
        Class::Elf32 => (52, [32, 46, 48], 40, [16, 20, 24, 36]),
        Class::Elf64 => (64, [40, 58, 60], 64, [24, 32, 40, 56]),
    };
    let header = file.get(..header).ok_or("a file header that is short")?;
    let (start, count) = (wide(header, place)?, u16_at(order, header, count)?);
    if u16_at(order, header, each)? != size || count == 0 {
        return Err("no section headers".into());
    }
    let table = slice(file, start, u64::from(count) * u64::from(size));
    let table = table.ok_or("section headers outside the file")?;
    let records = table.chunks(size.into()).map(|record| {
        Ok(Section {
            kind: u32_at(order, record, 4)?,
            offset: wide(record, offset)?,
            size: wide(record, bytes)?,
            link: u32_at(order, record, link)? as usize,
            entry_size: wide(record, entry)?,
        })
    });
    records.collect()
}
