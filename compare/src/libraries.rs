//! The machine's own shared libraries: their sections, as the original reads them.

use fetulombo::{Class, Order};
use std::path::{Path, PathBuf};

/// Folders that are looked into; COMPARE_LIBRARIES names others, separated by colons.
const FOLDERS: &str = "/lib/x86_64-linux-gnu:/usr/lib/x86_64-linux-gnu:/lib64:/usr/lib64:/usr/lib:\
    /usr/i686-linux-gnu/lib:/usr/s390x-linux-gnu/lib:/usr/powerpc-linux-gnu/lib";

/// Folders of programs, which name an interpreter as most libraries do not; COMPARE_PROGRAMS names others.
const PROGRAMS: &str = "/bin:/usr/bin:/usr/sbin";

/// How many libraries, and how many programs, are taken.
const MOST: usize = 60;

pub struct Library {
    pub is64: bool,
    pub big: bool,
    pub bytes: Vec<u8>,
    pub sections: Vec<Section>,
}

pub struct Section {
    pub kind: u32,
    pub link: usize,
    pub align: u64,
    start: usize,
    length: usize,
}

pub const NOTE: u32 = 7;
pub const STRTAB: u32 = 3;
pub const SYMTAB: u32 = 2;
pub const DYNSYM: u32 = 11;
pub const HASH: u32 = 5;
pub const GNU_HASH: u32 = 0x6fff_fff6;
pub const VERDEF: u32 = 0x6fff_fffd;
pub const VERNEED: u32 = 0x6fff_fffe;
pub const VERSYM: u32 = 0x6fff_ffff;

impl Library {
    pub fn open(path: &Path) -> Option<Self> {
        let bytes = std::fs::read(path).ok()?;
        if !bytes.starts_with(b"\x7fELF") || bytes.len() > fetulombo::LIMIT {
            return None;
        }
        let is64 = oracle::file_is64(&bytes);
        let big = oracle::file_header(is64, &bytes).ok()?.big;
        let sections = oracle::file_sections(is64, &bytes)
            .ok()?
            .into_iter()
            .map(|section| {
                let (start, length) = section.data.unwrap_or((0, 0));
                Section {
                    kind: section.sh_type,
                    link: section.link as usize,
                    align: section.addralign,
                    start,
                    length,
                }
            })
            .collect();
        Some(Library {
            is64,
            big,
            bytes,
            sections,
        })
    }

    pub fn class(&self) -> Class {
        match self.is64 {
            true => Class::Elf64,
            false => Class::Elf32,
        }
    }

    pub fn order(&self) -> Order {
        match self.big {
            true => Order::Big,
            false => Order::Little,
        }
    }

    /// The table of program headers.
    pub fn program_headers(&self) -> &[u8] {
        let records = oracle::file_program_headers(self.is64, &self.bytes).expect("an ELF file");
        &self.bytes[records.start..records.start + records.count * records.size]
    }

    /// Every shared library in these folders and below, each once.
    pub fn below(folders: &[String]) -> Vec<PathBuf> {
        let mut paths = Vec::new();
        let mut open: Vec<PathBuf> = folders.iter().map(PathBuf::from).collect();
        while let Some(folder) = open.pop() {
            for entry in std::fs::read_dir(folder).into_iter().flatten().flatten() {
                let is_folder = entry.file_type().is_ok_and(|kind| kind.is_dir());
                if is_folder {
                    open.push(entry.path());
                } else if entry.file_name().to_string_lossy().contains(".so") {
                    paths.extend(entry.path().canonicalize());
                }
            }
        }
        paths.sort();
        paths.dedup();
        paths
    }

    /// Where the first section of a kind starts in the file.
    pub fn first(&self, kind: u32) -> usize {
        let section = self.sections.iter().find(|section| section.kind == kind);
        section.expect("a section of that kind").start
    }

    pub fn part(&self, section: &Section) -> &[u8] {
        &self.bytes[section.start..section.start + section.length]
    }

    /// The sections of a kind, each with the one that it is linked to.
    pub fn linked(&self, kind: u32) -> impl Iterator<Item = (&[u8], &[u8])> {
        self.sections
            .iter()
            .filter(move |section| section.kind == kind)
            .filter_map(|section| {
                let other = self.sections.get(section.link)?;
                Some((self.part(section), self.part(other)))
            })
    }
}

/// Libraries, the same ones in every run on one machine.
pub fn found() -> Vec<Library> {
    let folders = std::env::var("COMPARE_LIBRARIES").unwrap_or(FOLDERS.to_owned());
    opened(&folders, |name| name.contains(".so"))
}

/// Programs, the same.
pub fn programs() -> Vec<Library> {
    let folders = std::env::var("COMPARE_PROGRAMS").unwrap_or(PROGRAMS.to_owned());
    opened(&folders, |_| true)
}

fn opened(folders: &str, wanted: impl Fn(&str) -> bool) -> Vec<Library> {
    let mut paths: Vec<PathBuf> = Vec::new();
    for folder in folders.split(':') {
        for entry in std::fs::read_dir(folder).into_iter().flatten().flatten() {
            if wanted(&entry.file_name().to_string_lossy()) {
                paths.extend(entry.path().canonicalize());
            }
        }
    }
    paths.sort();
    paths.dedup();
    // A few of each size: every n-th.
    let step = paths.len() / MOST + 1;
    paths
        .iter()
        .step_by(step)
        .filter_map(|path| Library::open(path))
        .collect()
}
