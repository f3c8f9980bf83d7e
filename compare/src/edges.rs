//! Parts at the edge of readable memory. Every call of the archive goes through here (build.rs). In a
//! default run it goes on as it is; otherwise each part, wanted names and the store among them, is
//! copied to where a read past it is caught, and lent from there.

use crate::memory::{Long, PAGE, give_back, open, reserved};
use fetulombo::LIMIT;
use std::cell::RefCell;
use std::ffi::c_int;
use std::hint::black_box;
use std::sync::atomic::{AtomicU8, Ordering};

/// Where the parts of a call stand.
#[derive(Clone, Copy, PartialEq, Eq)]
#[repr(u8)]
pub enum Placing {
    /// Where the comparison has them.
    Anywhere,
    /// Each at the end of a page, before one without access.
    End,
    /// Each at the start of a page, after one without access.
    Start,
    /// Each in a block of the heap of exactly its size, for a memory checker.
    Blocks,
}

static PLACING: AtomicU8 = AtomicU8::new(Placing::Anywhere as u8);

pub fn place_parts(placing: Placing) {
    PLACING.store(placing as u8, Ordering::Relaxed);
}

/// One page without access, room for the longest part that is read, and more without access: a part that
/// is too long is lent from there, for it must not be read at all.
struct Area {
    room: *mut u8,
    closed: *mut u8,
}

/// Whole pages.
const ROOM: usize = LIMIT;

/// The pages of a part of more bytes are given back after the call.
const KEPT: usize = 1 << 24;

/// As many as the parts of the call that has the most.
const AREAS: usize = 8;

impl Area {
    fn new() -> Self {
        // Safety: fresh memory, of which the middle is opened.
        unsafe {
            let room = reserved(PAGE + ROOM + LIMIT + PAGE).add(PAGE);
            open(room, ROOM);
            let closed = room.add(ROOM);
            Area { room, closed }
        }
    }

    /// Puts a part at the end of the room or at its start.
    ///
    /// # Safety
    /// It has so many bytes, apart from the room.
    unsafe fn put(&self, part: *const u8, bytes: usize, at_end: bool) -> *mut u8 {
        if bytes > LIMIT {
            return self.closed;
        }
        let to = self
            .room
            .wrapping_add(if at_end { ROOM - bytes } else { 0 });
        // Safety: there is room for so many.
        unsafe {
            if bytes > KEPT {
                give_back(self.room, ROOM);
                copy_over_zeros(part, to, bytes);
            } else {
                part.copy_to_nonoverlapping(to, bytes);
            }
        }
        to
    }
}

/// Copies to where all is 0: pages that are 0 stay as they are.
///
/// # Safety
/// Both have so many bytes, apart from each other.
unsafe fn copy_over_zeros(from: *const u8, to: *mut u8, bytes: usize) {
    for at in (0..bytes).step_by(PAGE) {
        let length = PAGE.min(bytes - at);
        // Safety: as the caller says.
        unsafe {
            let page = std::slice::from_raw_parts(from.add(at), length);
            if page.iter().fold(0, |all, byte| all | byte) != 0 {
                page.as_ptr().copy_to_nonoverlapping(to.add(at), length);
            }
        }
    }
}

thread_local! {
    static ALL: RefCell<Vec<Area>> = RefCell::new((0..AREAS).map(|_| Area::new()).collect());
}

/// The parts of one call.
struct Call {
    placing: u8,
    parts: usize,
    blocks: Vec<Vec<u8>>,
    /// Rooms that are given back.
    long: Vec<*mut u8>,
    /// The store where the caller has it, where it is lent from, and its bytes.
    store: Option<(*mut u8, *const u8, usize)>,
}

impl Call {
    fn new() -> Self {
        Call {
            placing: PLACING.load(Ordering::Relaxed),
            parts: 0,
            blocks: Vec::new(),
            long: Vec::new(),
            store: None,
        }
    }

    /// Where a part is lent from.
    ///
    /// # Safety
    /// It has so many bytes.
    unsafe fn lent(&mut self, part: *const u8, bytes: usize) -> *mut u8 {
        if self.placing == Placing::Anywhere as u8 {
            return part.cast_mut();
        }
        let which = self.parts;
        self.parts += 1;
        if self.placing != Placing::Blocks as u8 {
            let at_end = self.placing == Placing::End as u8;
            return ALL.with_borrow(|areas| {
                if bytes > KEPT {
                    self.long.push(areas[which].room);
                }
                // Safety: each part of a call has an area of its own.
                unsafe { areas[which].put(part, bytes, at_end) }
            });
        }
        self.blocks.push(Vec::with_capacity(bytes));
        let to = match bytes {
            0 => std::ptr::without_provenance_mut(16),
            _ => self.blocks[which].as_mut_ptr(),
        };
        // Safety: there is room for so many, apart from the caller's.
        unsafe { part.copy_to_nonoverlapping(to, bytes) };
        to
    }
}

impl Drop for Call {
    /// What was written to the store goes back to the caller's, and the pages of long parts to the
    /// system.
    fn drop(&mut self) {
        if let Some((caller, lent, bytes)) = self.store
            && caller.cast_const() != lent
        {
            // Safety: as in `lent`.
            unsafe { lent.copy_to_nonoverlapping(caller, bytes) };
        }
        for &room in &self.long {
            // Safety: the call is over.
            unsafe { give_back(room, ROOM) };
        }
    }
}

/// An answer of so many words, in the order of the header's fields: all are handed back through memory.
#[repr(C)]
pub struct Answer<const WORDS: usize>(pub [u64; WORDS]);

/// The functions as the header has them. `[u8]` and `[u32]` are a pointer and a length; `[mut]` is the
/// store that is written. The number is that of the answer's words.
macro_rules! wrapped {
    ($($wrap:ident $real:ident ($($name:ident: $kind:tt),*) $words:literal;)*) => {
        $(wrapped!(@ $wrap $real $words ($($name: $kind,)*) () () () call);)*
    };
    (@ $wrap:ident $real:ident $words:literal ($name:ident: [u8], $($rest:tt)*)
        ($($taken:tt)*) ($($lent:tt)*) ($($given:tt)*) $call:ident) => {
        wrapped!(@ $wrap $real $words ($($rest)*)
            ($($taken)* $name: *const u8, length: usize,)
            ($($lent)* let $name = unsafe { $call.lent($name, length) };)
            ($($given)* $name, length,) $call);
    };
    (@ $wrap:ident $real:ident $words:literal ($name:ident: [u32], $($rest:tt)*)
        ($($taken:tt)*) ($($lent:tt)*) ($($given:tt)*) $call:ident) => {
        wrapped!(@ $wrap $real $words ($($rest)*)
            ($($taken)* $name: *const u32, length: usize,)
            ($($lent)* let $name = unsafe { $call.lent($name.cast(), length * 4) }.cast();)
            ($($given)* $name, length,) $call);
    };
    (@ $wrap:ident $real:ident $words:literal ($name:ident: [mut], $($rest:tt)*)
        ($($taken:tt)*) ($($lent:tt)*) ($($given:tt)*) $call:ident) => {
        wrapped!(@ $wrap $real $words ($($rest)*)
            ($($taken)* $name: *mut u32, length: usize,)
            ($($lent)*
                let lent = unsafe { $call.lent($name.cast(), length * 4) };
                $call.store = Some(($name.cast(), lent, length * 4));)
            ($($given)* lent.cast(), length,) $call);
    };
    (@ $wrap:ident $real:ident $words:literal ($name:ident: $kind:ident, $($rest:tt)*)
        ($($taken:tt)*) ($($lent:tt)*) ($($given:tt)*) $call:ident) => {
        wrapped!(@ $wrap $real $words ($($rest)*)
            ($($taken)* $name: $kind,) ($($lent)*) ($($given)* $name,) $call);
    };
    (@ $wrap:ident $real:ident $words:literal ()
        ($($taken:tt)*) ($($lent:tt)*) ($($given:tt)*) $call:ident) => {
        unsafe extern "C" {
            pub fn $real($($taken)*) -> Answer<$words>;
        }
        /// # Safety
        /// As the header says.
        #[unsafe(no_mangle)]
        pub unsafe extern "C" fn $wrap($($taken)*) -> Answer<$words> {
            let mut $call = Call::new();
            $($lent)*
            unsafe { $real($($given)*) }
        }
    };
}

wrapped! {
    __wrap_fetulombo_u16_at __real_fetulombo_u16_at(order: u8, bytes: [u8], at: usize) 3;
    __wrap_fetulombo_u32_at __real_fetulombo_u32_at(order: u8, bytes: [u8], at: usize) 3;
    __wrap_fetulombo_u64_at __real_fetulombo_u64_at(order: u8, bytes: [u8], at: usize) 3;
    __wrap_fetulombo_string_at __real_fetulombo_string_at(strings: [u8], offset: u32) 3;
    __wrap_fetulombo_string_equals __real_fetulombo_string_equals(
        strings: [u8], offset: u32, name: [u8]
    ) 3;
    __wrap_fetulombo_gnu_hash __real_fetulombo_gnu_hash(name: [u8]) 3;
    __wrap_fetulombo_sysv_hash __real_fetulombo_sysv_hash(name: [u8]) 3;
    __wrap_fetulombo_symbol_count __real_fetulombo_symbol_count(class: u8, symbols: [u8]) 3;
    __wrap_fetulombo_symbol_at __real_fetulombo_symbol_at(
        class: u8, order: u8, symbols: [u8], index: u32
    ) 4;
    __wrap_fetulombo_symbol_name __real_fetulombo_symbol_name(
        class: u8, order: u8, symbols: [u8], strings: [u8], index: u32
    ) 3;
    __wrap_fetulombo_symbol_is_definition __real_fetulombo_symbol_is_definition(
        strings: [u8], name: u32, info: u8, shndx: u16
    ) 3;
    __wrap_fetulombo_note_step __real_fetulombo_note_step(
        order: u8, align: u64, bytes: [u8], at: usize
    ) 7;
    __wrap_fetulombo_trimmed __real_fetulombo_trimmed(name: [u8]) 3;
    __wrap_fetulombo_gnu_properties __real_fetulombo_gnu_properties(
        class: u8, order: u8, kind: u32, name: [u8], descriptor: [u8]
    ) 3;
    __wrap_fetulombo_property_step __real_fetulombo_property_step(
        class: u8, order: u8, descriptor: [u8], at: usize
    ) 5;
    __wrap_fetulombo_property_number __real_fetulombo_property_number(order: u8, part: [u8]) 3;
    __wrap_fetulombo_versions_parse __real_fetulombo_versions_parse(
        order: u8, verdef: [u8], verneed: [u8], strings: [u8], store: [mut]
    ) 3;
    __wrap_fetulombo_version_entry __real_fetulombo_version_entry(
        store: [u32], strings: [u8], index: u16
    ) 4;
    __wrap_fetulombo_version_of __real_fetulombo_version_of(
        order: u8, versyms: [u8], symbol: u32
    ) 3;
    __wrap_fetulombo_version_matches __real_fetulombo_version_matches(
        order: u8, versyms: [u8], store: [u32], strings: [u8], symbol: u32, needed: u8,
        hash: u32, name: [u8]
    ) 3;
    __wrap_fetulombo_gnu_find __real_fetulombo_gnu_find(
        class: u8, order: u8, table: [u8], symbols: [u8], strings: [u8], versyms: [u8],
        store: [u32], version_strings: [u8], name: [u8], hash: u32, needed: u8, need_hash: u32,
        need_name: [u8]
    ) 3;
    __wrap_fetulombo_sysv_find __real_fetulombo_sysv_find(
        class: u8, order: u8, table: [u8], symbols: [u8], strings: [u8], versyms: [u8],
        store: [u32], version_strings: [u8], name: [u8], hash: u32, needed: u8, need_hash: u32,
        need_name: [u8]
    ) 3;
    __wrap_fetulombo_gnu_base __real_fetulombo_gnu_base(class: u8, order: u8, table: [u8]) 3;
    __wrap_fetulombo_gnu_length __real_fetulombo_gnu_length(class: u8, order: u8, table: [u8]) 3;
    __wrap_fetulombo_sysv_length __real_fetulombo_sysv_length(order: u8, table: [u8]) 3;
    __wrap_fetulombo_gnu_check __real_fetulombo_gnu_check(
        class: u8, order: u8, table: [u8], symbols: [u8], strings: [u8]
    ) 3;
    __wrap_fetulombo_sysv_check __real_fetulombo_sysv_check(
        class: u8, order: u8, table: [u8], symbols: [u8], strings: [u8]
    ) 3;
    __wrap_fetulombo_segment_count __real_fetulombo_segment_count(class: u8, table: [u8]) 3;
    __wrap_fetulombo_segment_at __real_fetulombo_segment_at(
        class: u8, order: u8, table: [u8], number: u32
    ) 8;
    __wrap_fetulombo_segment_data __real_fetulombo_segment_data(
        file: [u8], offset: u64, filesz: u64
    ) 3;
    __wrap_fetulombo_segment_data_range __real_fetulombo_segment_data_range(
        file: [u8], offset: u64, vaddr: u64, filesz: u64, address: u64, size: u64
    ) 4;
    __wrap_fetulombo_segment_dynamic __real_fetulombo_segment_dynamic(
        class: u8, file: [u8], kind: u32, offset: u64, filesz: u64
    ) 4;
    __wrap_fetulombo_segment_dynamic_entry __real_fetulombo_segment_dynamic_entry(
        class: u8, order: u8, bytes: [u8], number: u32
    ) 3;
    __wrap_fetulombo_segment_interpreter __real_fetulombo_segment_interpreter(
        file: [u8], kind: u32, offset: u64, filesz: u64
    ) 4;
    __wrap_fetulombo_segment_notes __real_fetulombo_segment_notes(
        file: [u8], kind: u32, offset: u64, filesz: u64, align: u64
    ) 4;
}

unsafe extern "C" {
    fn fork() -> c_int;
    fn waitpid(child: c_int, status: *mut c_int, options: c_int) -> c_int;
    fn _exit(status: c_int) -> !;
}

/// Reads the byte at a place, counted from the start of a part.
fn read_at(placing: Placing, part: &[u8], place: isize) {
    place_parts(placing);
    let mut call = Call::new();
    // Safety: none; this is what the guards are for.
    unsafe {
        let lent = black_box(call.lent(part.as_ptr(), part.len()));
        black_box(lent.wrapping_offset(place).read_volatile());
    }
}

/// One byte past a part in a block of the heap: a memory checker must say so.
pub fn read_past_block() {
    read_at(Placing::Blocks, &[7; 5], 5);
}

/// Whether reading a byte ends the program: a copy of it tries.
fn caught(placing: Placing, part: &[u8], place: isize) -> bool {
    const SEGMENTATION_FAULT: c_int = 11;
    let mut status = 0;
    // Safety: there is one thread; the copy only reads where it may not, and ends.
    unsafe {
        let child = fork();
        if child == 0 {
            read_at(placing, part, place);
            _exit(0);
        }
        assert_eq!(waitpid(child, &mut status, 0), child);
    }
    status & 0x7f == SEGMENTATION_FAULT
}

/// Tries the guards themselves: one byte past a part, one byte before it; the first and the last of one
/// that is too long.
pub fn try_guards() {
    let zeros = Long::of(0);
    for length in [0, 1, 5, 100, LIMIT] {
        let part = &zeros[..length];
        for (placing, beside) in [(Placing::End, length as isize), (Placing::Start, -1)] {
            assert!(caught(placing, part, beside), "a read beside a part passed");
            assert!(
                length == 0 || !caught(placing, part, 0),
                "a part is not read"
            );
        }
    }
    for placing in [Placing::End, Placing::Start] {
        for place in [0, LIMIT as isize] {
            assert!(
                caught(placing, &zeros, place),
                "a read of a long part passed"
            );
        }
    }
    println!(
        "a byte past a part, one before it, and the first and the last of a part that is too long: \
         reading it ends the program (SIGSEGV)"
    );
}
