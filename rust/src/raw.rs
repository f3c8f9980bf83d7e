//! The archive's functions and structs, as include/fetulombo.h declares them.

use crate::Refusal;
use core::ops::Range;

#[repr(C)]
pub struct Number {
    pub refusal: u64,
    pub value: u64,
    pub unused: u64,
}

#[repr(C)]
pub struct Place {
    pub refusal: u64,
    pub start: u64,
    pub length: u64,
}

#[repr(C)]
pub struct Symbol {
    pub refusal: u32,
    pub name: u32,
    pub value: u64,
    pub size: u64,
    pub info: u8,
    pub other: u8,
    pub shndx: u16,
}

#[repr(C)]
pub struct Facts {
    pub bind: u32,
    pub kind: u32,
    pub visibility: u32,
    pub undefined: u32,
    pub common: u32,
    pub absolute: u32,
    pub local: u32,
    pub weak: u32,
}

#[repr(C)]
pub struct Note {
    pub refusal: u32,
    pub found: u32,
    pub kind: u64,
    pub name: u64,
    pub name_length: u64,
    pub descriptor: u64,
    pub descriptor_length: u64,
    pub next: u64,
}

#[repr(C)]
pub struct Property {
    pub refusal: u32,
    pub found: u32,
    pub kind: u64,
    pub start: u64,
    pub length: u64,
    pub next: u64,
}

#[repr(C)]
pub struct Version {
    pub refusal: u32,
    pub special: u32,
    pub kind: u32,
    pub hash: u32,
    pub name: u32,
    pub name_length: u32,
    pub file: u32,
    pub file_length: u32,
}

#[repr(C)]
pub struct Versym {
    pub refusal: u64,
    pub index: u64,
    pub hidden: u64,
}

#[repr(C)]
pub struct Lookup {
    pub refusal: u32,
    pub found: u32,
    pub symbol: u64,
    pub probes: u64,
}

#[repr(C)]
pub struct Check {
    pub refusal: u32,
    pub accepted: u32,
    pub rule: u32,
    pub place: u32,
    pub longest: u64,
}

#[repr(C)]
pub struct Length {
    pub refusal: u64,
    pub known: u64,
    pub symbols: u64,
}

#[repr(C)]
pub struct Segment {
    pub refusal: u64,
    pub kind: u32,
    pub flags: u32,
    pub offset: u64,
    pub vaddr: u64,
    pub paddr: u64,
    pub filesz: u64,
    pub memsz: u64,
    pub align: u64,
}

#[repr(C)]
pub struct SegmentMeaning {
    pub kind: u64,
    pub readable: u64,
    pub writable: u64,
    pub executable: u64,
}

#[repr(C)]
pub struct Part {
    pub refusal: u32,
    pub found: u32,
    pub start: u64,
    pub length: u64,
    pub number: u64,
}

#[repr(C)]
pub struct Dynamic {
    pub refusal: u32,
    pub found: u32,
    pub tag: u64,
    pub value: u64,
}

// More than 16 bytes each: handed back through memory.
const _: () = assert!(size_of::<Number>() == 24);
const _: () = assert!(size_of::<Place>() == 24);
const _: () = assert!(size_of::<Symbol>() == 32);
const _: () = assert!(size_of::<Facts>() == 32);
const _: () = assert!(size_of::<Note>() == 56);
const _: () = assert!(size_of::<Property>() == 40);
const _: () = assert!(size_of::<Version>() == 32);
const _: () = assert!(size_of::<Versym>() == 24);
const _: () = assert!(size_of::<Lookup>() == 24);
const _: () = assert!(size_of::<Length>() == 24);
const _: () = assert!(size_of::<Check>() == 24);
const _: () = assert!(size_of::<Segment>() == 64);
const _: () = assert!(size_of::<SegmentMeaning>() == 32);
const _: () = assert!(size_of::<Part>() == 32);
const _: () = assert!(size_of::<Dynamic>() == 24);

impl Number {
    pub fn get(self) -> Result<u64, Refusal> {
        Refusal::test(self.refusal)?;
        Ok(self.value)
    }
}

impl Place {
    pub fn get(self) -> Result<Range<usize>, Refusal> {
        Refusal::test(self.refusal)?;
        Ok(self.start as usize..(self.start + self.length) as usize)
    }
}

impl Part {
    /// The place and the number, or nothing.
    pub fn get(self) -> Result<Option<(Range<usize>, u64)>, Refusal> {
        Refusal::test(self.refusal.into())?;
        if self.found == 0 {
            return Ok(None);
        }
        let place = self.start as usize..(self.start + self.length) as usize;
        Ok(Some((place, self.number)))
    }
}

unsafe extern "C" {
    pub fn fetulombo_u16_at(order: u8, bytes: *const u8, length: usize, at: usize) -> Number;
    pub fn fetulombo_u32_at(order: u8, bytes: *const u8, length: usize, at: usize) -> Number;
    pub fn fetulombo_u64_at(order: u8, bytes: *const u8, length: usize, at: usize) -> Number;

    pub fn fetulombo_string_at(strings: *const u8, length: usize, offset: u32) -> Place;
    pub fn fetulombo_string_equals(
        strings: *const u8,
        length: usize,
        offset: u32,
        name: *const u8,
        name_length: usize,
    ) -> Number;

    pub fn fetulombo_gnu_hash(name: *const u8, length: usize) -> Number;
    pub fn fetulombo_sysv_hash(name: *const u8, length: usize) -> Number;

    pub fn fetulombo_symbol_count(class: u8, symbols: *const u8, length: usize) -> Number;
    pub fn fetulombo_symbol_at(
        class: u8,
        order: u8,
        symbols: *const u8,
        length: usize,
        index: u32,
    ) -> Symbol;
    pub fn fetulombo_symbol_name(
        class: u8,
        order: u8,
        symbols: *const u8,
        length: usize,
        strings: *const u8,
        strings_length: usize,
        index: u32,
    ) -> Place;
    pub fn fetulombo_symbol_facts(info: u8, other: u8, shndx: u16) -> Facts;
    pub fn fetulombo_symbol_is_definition(
        strings: *const u8,
        length: usize,
        name: u32,
        info: u8,
        shndx: u16,
    ) -> Number;

    pub fn fetulombo_note_step(
        order: u8,
        align: u64,
        bytes: *const u8,
        length: usize,
        at: usize,
    ) -> Note;
    pub fn fetulombo_trimmed(name: *const u8, length: usize) -> Number;
    pub fn fetulombo_gnu_properties(
        class: u8,
        order: u8,
        kind: u32,
        name: *const u8,
        name_length: usize,
        descriptor: *const u8,
        descriptor_length: usize,
    ) -> Number;
    pub fn fetulombo_property_step(
        class: u8,
        order: u8,
        descriptor: *const u8,
        length: usize,
        at: usize,
    ) -> Property;
    pub fn fetulombo_property_number(order: u8, part: *const u8, length: usize) -> Number;

    pub fn fetulombo_versions_parse(
        order: u8,
        verdef: *const u8,
        verdef_length: usize,
        verneed: *const u8,
        verneed_length: usize,
        strings: *const u8,
        strings_length: usize,
        store: *mut u32,
        store_length: usize,
    ) -> Number;
    pub fn fetulombo_version_entry(
        store: *const u32,
        store_length: usize,
        strings: *const u8,
        strings_length: usize,
        index: u16,
    ) -> Version;
    pub fn fetulombo_version_of(
        order: u8,
        versyms: *const u8,
        length: usize,
        symbol: u32,
    ) -> Versym;
    pub fn fetulombo_version_matches(
        order: u8,
        versyms: *const u8,
        versyms_length: usize,
        store: *const u32,
        store_length: usize,
        strings: *const u8,
        strings_length: usize,
        symbol: u32,
        needed: u8,
        hash: u32,
        name: *const u8,
        name_length: usize,
    ) -> Number;

    pub fn fetulombo_gnu_find(
        class: u8,
        order: u8,
        table: *const u8,
        table_length: usize,
        symbols: *const u8,
        symbols_length: usize,
        strings: *const u8,
        strings_length: usize,
        versyms: *const u8,
        versyms_length: usize,
        store: *const u32,
        store_length: usize,
        version_strings: *const u8,
        version_strings_length: usize,
        name: *const u8,
        name_length: usize,
        hash: u32,
        needed: u8,
        need_hash: u32,
        need_name: *const u8,
        need_name_length: usize,
    ) -> Lookup;
    pub fn fetulombo_sysv_find(
        class: u8,
        order: u8,
        table: *const u8,
        table_length: usize,
        symbols: *const u8,
        symbols_length: usize,
        strings: *const u8,
        strings_length: usize,
        versyms: *const u8,
        versyms_length: usize,
        store: *const u32,
        store_length: usize,
        version_strings: *const u8,
        version_strings_length: usize,
        name: *const u8,
        name_length: usize,
        hash: u32,
        needed: u8,
        need_hash: u32,
        need_name: *const u8,
        need_name_length: usize,
    ) -> Lookup;
    pub fn fetulombo_gnu_base(class: u8, order: u8, table: *const u8, length: usize) -> Number;
    pub fn fetulombo_gnu_length(class: u8, order: u8, table: *const u8, length: usize) -> Length;
    pub fn fetulombo_sysv_length(order: u8, table: *const u8, length: usize) -> Number;
    pub fn fetulombo_gnu_check(
        class: u8,
        order: u8,
        table: *const u8,
        table_length: usize,
        symbols: *const u8,
        symbols_length: usize,
        strings: *const u8,
        strings_length: usize,
    ) -> Check;
    pub fn fetulombo_sysv_check(
        class: u8,
        order: u8,
        table: *const u8,
        table_length: usize,
        symbols: *const u8,
        symbols_length: usize,
        strings: *const u8,
        strings_length: usize,
    ) -> Check;
    pub fn fetulombo_segment_count(class: u8, table: *const u8, length: usize) -> Number;
    pub fn fetulombo_segment_at(
        class: u8,
        order: u8,
        table: *const u8,
        length: usize,
        number: u32,
    ) -> Segment;
    pub fn fetulombo_segment_facts(kind: u32, flags: u32) -> SegmentMeaning;
    pub fn fetulombo_segment_data(
        file: *const u8,
        length: usize,
        offset: u64,
        filesz: u64,
    ) -> Place;
    pub fn fetulombo_segment_data_range(
        file: *const u8,
        length: usize,
        offset: u64,
        vaddr: u64,
        filesz: u64,
        address: u64,
        size: u64,
    ) -> Part;
    pub fn fetulombo_segment_dynamic(
        class: u8,
        file: *const u8,
        length: usize,
        kind: u32,
        offset: u64,
        filesz: u64,
    ) -> Part;
    pub fn fetulombo_segment_dynamic_entry(
        class: u8,
        order: u8,
        bytes: *const u8,
        length: usize,
        number: u32,
    ) -> Dynamic;
    pub fn fetulombo_segment_interpreter(
        file: *const u8,
        length: usize,
        kind: u32,
        offset: u64,
        filesz: u64,
    ) -> Part;
    pub fn fetulombo_segment_notes(
        file: *const u8,
        length: usize,
        kind: u32,
        offset: u64,
        filesz: u64,
        align: u64,
    ) -> Part;
}
