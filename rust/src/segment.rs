use crate::raw::{
    fetulombo_segment_at, fetulombo_segment_count, fetulombo_segment_data,
    fetulombo_segment_data_range, fetulombo_segment_dynamic, fetulombo_segment_dynamic_entry,
    fetulombo_segment_facts, fetulombo_segment_interpreter, fetulombo_segment_notes,
};
use crate::{Class, Notes, Order, Refusal, notes};
use core::ops::Range;

/// The fields of a program header. Offsets, addresses and sizes have 64 bits in either class. They may
/// be any numbers: every function tests what it uses.
///
/// ```
/// # use fetulombo::{*, sample::*};
/// let segment = segment_at(Class::Elf32, Order::Little, SEGMENTS, 0)?;
/// assert_eq!((segment.kind, segment.vaddr, segment.filesz), (3, 0x1000, 8));
/// let past = Segment { offset: u64::MAX, ..segment };
/// assert_eq!(past.data(FILE), Err(Refusal::BAD_SEGMENT_DATA));
/// # Ok::<(), Refusal>(())
/// ```
#[derive(Debug, Clone, Copy, PartialEq, Eq, Hash)]
pub struct Segment {
    /// The segment's type.
    pub kind: u32,
    /// What a program may do with it.
    pub flags: u32,
    /// Where its bytes start in the file.
    pub offset: u64,
    /// Where it starts in memory.
    pub vaddr: u64,
    /// Where it starts in physical memory.
    pub paddr: u64,
    /// How many bytes it has in the file.
    pub filesz: u64,
    /// How many bytes it has in memory.
    pub memsz: u64,
    /// Its alignment.
    pub align: u64,
}

/// The types of segments that are told apart.
///
/// ```
/// # use fetulombo::{*, sample::*};
/// let kind = |number| {
///     let segment = segment_at(Class::Elf32, Order::Little, SEGMENTS, number);
///     segment.map(Segment::known_kind)
/// };
/// assert_eq!(kind(0), Ok(SegmentKind::Interpreter));
/// assert_eq!(kind(3), Ok(SegmentKind::Load));
/// ```
#[derive(Debug, Clone, Copy, PartialEq, Eq, Hash)]
pub enum SegmentKind {
    /// `PT_LOAD`.
    Load,
    /// `PT_DYNAMIC`.
    Dynamic,
    /// `PT_INTERP`.
    Interpreter,
    /// `PT_NOTE`.
    Note,
    /// Any other type.
    Other,
}

/// What a program may do with a segment in memory.
///
/// ```
/// # use fetulombo::{*, sample::*};
/// let segment = segment_at(Class::Elf32, Order::Little, SEGMENTS, 3)?;
/// let may = Permissions { readable: true, writable: false, executable: true };
/// assert_eq!(segment.permissions(), may);
/// # Ok::<(), Refusal>(())
/// ```
#[derive(Debug, Clone, Copy, PartialEq, Eq, Hash)]
pub struct Permissions {
    /// Read it.
    pub readable: bool,
    /// Write it.
    pub writable: bool,
    /// Run it.
    pub executable: bool,
}

/// A dynamic entry, both fields unsigned.
///
/// ```
/// use fetulombo::{Class, DynamicEntry, Order, dynamic_entry};
/// let bytes = [0xff, 0xff, 0xff, 0xff, 0, 0, 0, 2];
/// let entry = DynamicEntry { tag: 0xffff_ffff, value: 2 };
/// assert_eq!(dynamic_entry(Class::Elf32, Order::Big, &bytes, 0), Ok(Some(entry)));
/// ```
#[derive(Debug, Clone, Copy, PartialEq, Eq, Hash)]
pub struct DynamicEntry {
    /// What it says.
    pub tag: u64,
    /// The number or the address that it says.
    pub value: u64,
}

/// The entries of a dynamic segment.
///
/// ```
/// # use fetulombo::{*, sample::*};
/// let (class, order) = (Class::Elf32, Order::Little);
/// let dynamic = segment_at(class, order, SEGMENTS, 1)?.dynamic(class, order, FILE)?.unwrap();
/// assert_eq!((dynamic.place.clone(), dynamic.count), (12..28, 2));
/// # Ok::<(), Refusal>(())
/// ```
#[derive(Debug, Clone, PartialEq, Eq)]
pub struct Dynamic<'file> {
    class: Class,
    order: Order,
    bytes: &'file [u8],
    /// The place of the segment's bytes in the file.
    pub place: Range<usize>,
    /// How many whole entries there are; a shorter tail is ignored.
    pub count: u32,
}

/// How many whole records a table of program headers has; a shorter tail is ignored.
///
/// ```
/// use fetulombo::{Class, segment_count};
/// assert_eq!(segment_count(Class::Elf32, &[0; 95]), Ok(2));
/// assert_eq!(segment_count(Class::Elf64, &[0; 95]), Ok(1));
/// ```
pub fn segment_count(class: Class, table: &[u8]) -> Result<u32, Refusal> {
    // Safety: the slice is lent for the call.
    let answer = unsafe { fetulombo_segment_count(class.raw(), table.as_ptr(), table.len()) };
    Ok(answer.get()? as u32)
}

/// The segment of a number. [`Refusal::NO_SEGMENT`]: no whole record stands there.
///
/// ```
/// # use fetulombo::{*, sample::*};
/// let segment = |number| segment_at(Class::Elf32, Order::Little, SEGMENTS, number);
/// assert_eq!(segment(1)?.offset, 12);
/// assert_eq!(segment(4), Err(Refusal::NO_SEGMENT));
/// # Ok::<(), Refusal>(())
/// ```
pub fn segment_at(
    class: Class,
    order: Order,
    table: &[u8],
    number: u32,
) -> Result<Segment, Refusal> {
    // Safety: the slice is lent for the call.
    let answer = unsafe {
        fetulombo_segment_at(
            class.raw(),
            order.raw(),
            table.as_ptr(),
            table.len(),
            number,
        )
    };
    Refusal::test(answer.refusal)?;
    Ok(Segment {
        kind: answer.kind,
        flags: answer.flags,
        offset: answer.offset,
        vaddr: answer.vaddr,
        paddr: answer.paddr,
        filesz: answer.filesz,
        memsz: answer.memsz,
        align: answer.align,
    })
}

/// The entry of a number among the bytes of a dynamic segment, or nothing past the whole entries.
///
/// ```
/// # use fetulombo::{*, sample::*};
/// let entry = |number| dynamic_entry(Class::Elf32, Order::Little, &FILE[12..28], number);
/// assert_eq!(entry(0), Ok(Some(DynamicEntry { tag: 1, value: 28 })));
/// assert_eq!(entry(2), Ok(None));
/// ```
pub fn dynamic_entry(
    class: Class,
    order: Order,
    bytes: &[u8],
    number: u32,
) -> Result<Option<DynamicEntry>, Refusal> {
    // Safety: the slice is lent for the call.
    let answer = unsafe {
        fetulombo_segment_dynamic_entry(
            class.raw(),
            order.raw(),
            bytes.as_ptr(),
            bytes.len(),
            number,
        )
    };
    Refusal::test(answer.refusal.into())?;
    Ok((answer.found == 1).then_some(DynamicEntry {
        tag: answer.tag,
        value: answer.value,
    }))
}

impl Segment {
    /// Which of the types that are told apart it has.
    ///
    /// ```
    /// # use fetulombo::{*, sample::*};
    /// # let (class, order) = (Class::Elf32, Order::Little);
    /// let segment = segment_at(class, order, SEGMENTS, 1)?;
    /// assert_eq!(segment.known_kind(), SegmentKind::Dynamic);
    /// assert_eq!(Segment { kind: 6, ..segment }.known_kind(), SegmentKind::Other);
    /// # Ok::<(), Refusal>(())
    /// ```
    pub fn known_kind(self) -> SegmentKind {
        // Safety: numbers alone.
        match unsafe { fetulombo_segment_facts(self.kind, self.flags) }.kind {
            1 => SegmentKind::Load,
            2 => SegmentKind::Dynamic,
            3 => SegmentKind::Interpreter,
            4 => SegmentKind::Note,
            _ => SegmentKind::Other,
        }
    }

    /// What its flags say.
    ///
    /// ```
    /// # use fetulombo::{*, sample::*};
    /// # let (class, order) = (Class::Elf32, Order::Little);
    /// let segment = segment_at(class, order, SEGMENTS, 1)?;
    /// let may = segment.permissions();
    /// assert!(may.readable && may.writable && !may.executable);
    /// # Ok::<(), Refusal>(())
    /// ```
    pub fn permissions(self) -> Permissions {
        // Safety: numbers alone.
        let answer = unsafe { fetulombo_segment_facts(self.kind, self.flags) };
        Permissions {
            readable: answer.readable == 1,
            writable: answer.writable == 1,
            executable: answer.executable == 1,
        }
    }

    /// Offset and size in the file, as they stand in the record.
    ///
    /// ```
    /// # use fetulombo::{*, sample::*};
    /// # let (class, order) = (Class::Elf32, Order::Little);
    /// let segment = segment_at(class, order, SEGMENTS, 1)?;
    /// assert_eq!(segment.file_range(), (12, 16));
    /// # Ok::<(), Refusal>(())
    /// ```
    pub fn file_range(self) -> (u64, u64) {
        (self.offset, self.filesz)
    }

    /// Where the segment's bytes stand in the file. Refused as [`data`](Self::data).
    ///
    /// ```
    /// # use fetulombo::{*, sample::*};
    /// # let (class, order) = (Class::Elf32, Order::Little);
    /// let segment = segment_at(class, order, SEGMENTS, 1)?;
    /// assert_eq!(segment.data_place(FILE), Ok(12..28));
    /// # Ok::<(), Refusal>(())
    /// ```
    pub fn data_place(self, file: &[u8]) -> Result<Range<usize>, Refusal> {
        // Safety: the slice is lent for the call.
        unsafe { fetulombo_segment_data(file.as_ptr(), file.len(), self.offset, self.filesz) }.get()
    }

    /// The segment's bytes. [`Refusal::BAD_SEGMENT_DATA`]: they are not all in the file.
    ///
    /// ```
    /// # use fetulombo::{*, sample::*};
    /// # let (class, order) = (Class::Elf32, Order::Little);
    /// let segment = segment_at(class, order, SEGMENTS, 1)?;
    /// assert_eq!(segment.data(FILE), Ok(&FILE[12..28]));
    /// assert_eq!(segment.data(&FILE[..27]), Err(Refusal::BAD_SEGMENT_DATA));
    /// # Ok::<(), Refusal>(())
    /// ```
    pub fn data(self, file: &[u8]) -> Result<&[u8], Refusal> {
        Ok(&file[self.data_place(file)?])
    }

    /// Where the bytes of an address range stand in the file, or nothing if they are not here. Refused as
    /// [`data`](Self::data).
    ///
    /// ```
    /// # use fetulombo::{*, sample::*};
    /// # let (class, order) = (Class::Elf32, Order::Little);
    /// let segment = segment_at(class, order, SEGMENTS, 1)?;
    /// assert_eq!(segment.data_range_place(FILE, 0x1010, 4), Ok(Some(16..20)));
    /// # Ok::<(), Refusal>(())
    /// ```
    pub fn data_range_place(
        self,
        file: &[u8],
        address: u64,
        size: u64,
    ) -> Result<Option<Range<usize>>, Refusal> {
        // Safety: the slice is lent for the call.
        let answer = unsafe {
            fetulombo_segment_data_range(
                file.as_ptr(),
                file.len(),
                self.offset,
                self.vaddr,
                self.filesz,
                address,
                size,
            )
        };
        Ok(answer.get()?.map(|(place, _)| place))
    }

    /// The bytes of an address range, or nothing if it begins below the segment or reaches past its file
    /// bytes. Refused as [`data`](Self::data).
    ///
    /// ```
    /// # use fetulombo::{*, sample::*};
    /// # let (class, order) = (Class::Elf32, Order::Little);
    /// let segment = segment_at(class, order, SEGMENTS, 1)?;
    /// assert_eq!(segment.data_range(FILE, 0x1010, 4), Ok(Some(&FILE[16..20])));
    /// assert_eq!(segment.data_range(FILE, 0x1010, 13), Ok(None));
    /// assert_eq!(segment.data_range(FILE, 0x100b, 1), Ok(None));
    /// # Ok::<(), Refusal>(())
    /// ```
    pub fn data_range(
        self,
        file: &[u8],
        address: u64,
        size: u64,
    ) -> Result<Option<&[u8]>, Refusal> {
        let place = self.data_range_place(file, address, size)?;
        Ok(place.map(|place| &file[place]))
    }

    /// The dynamic entries, or nothing if the segment is of another kind.
    /// [`Refusal::BAD_DYNAMIC_PLACE`]: they are not all in the file.
    ///
    /// ```
    /// # use fetulombo::{*, sample::*};
    /// # let (class, order) = (Class::Elf32, Order::Little);
    /// let segment = segment_at(class, order, SEGMENTS, 1)?;
    /// assert_eq!(segment.dynamic(class, order, FILE)?.unwrap().count, 2);
    /// let other = Segment { kind: 1, ..segment };
    /// assert_eq!(other.dynamic(class, order, FILE), Ok(None));
    /// # Ok::<(), Refusal>(())
    /// ```
    pub fn dynamic(
        self,
        class: Class,
        order: Order,
        file: &[u8],
    ) -> Result<Option<Dynamic<'_>>, Refusal> {
        // Safety: the slice is lent for the call.
        let answer = unsafe {
            fetulombo_segment_dynamic(
                class.raw(),
                file.as_ptr(),
                file.len(),
                self.kind,
                self.offset,
                self.filesz,
            )
        };
        Ok(answer.get()?.map(|(place, count)| Dynamic {
            class,
            order,
            bytes: &file[place.clone()],
            place,
            count: count as u32,
        }))
    }

    /// Where the interpreter's name stands in the file, or nothing if the segment is of another kind.
    /// Refused as [`interpreter`](Self::interpreter).
    ///
    /// ```
    /// # use fetulombo::{*, sample::*};
    /// # let (class, order) = (Class::Elf32, Order::Little);
    /// let segment = segment_at(class, order, SEGMENTS, 0)?;
    /// assert_eq!(segment.interpreter_place(FILE), Ok(Some(0..6)));
    /// # Ok::<(), Refusal>(())
    /// ```
    pub fn interpreter_place(self, file: &[u8]) -> Result<Option<Range<usize>>, Refusal> {
        // Safety: the slice is lent for the call.
        let answer = unsafe {
            fetulombo_segment_interpreter(
                file.as_ptr(),
                file.len(),
                self.kind,
                self.offset,
                self.filesz,
            )
        };
        Ok(answer.get()?.map(|(place, _)| place))
    }

    /// The interpreter's name without its zero, or nothing if the segment is of another kind.
    /// [`Refusal::BAD_INTERPRETER_PLACE`]: the segment's bytes are not all in the file;
    /// [`Refusal::ENDLESS_INTERPRETER`]: there is no zero among them.
    ///
    /// ```
    /// # use fetulombo::{*, sample::*};
    /// # let (class, order) = (Class::Elf32, Order::Little);
    /// let segment = segment_at(class, order, SEGMENTS, 0)?;
    /// assert_eq!(segment.interpreter(FILE), Ok(Some(&b"/ld.so"[..])));
    /// let cut = Segment { filesz: 6, ..segment };
    /// assert_eq!(cut.interpreter(FILE), Err(Refusal::ENDLESS_INTERPRETER));
    /// # Ok::<(), Refusal>(())
    /// ```
    pub fn interpreter(self, file: &[u8]) -> Result<Option<&[u8]>, Refusal> {
        Ok(self.interpreter_place(file)?.map(|place| &file[place]))
    }

    /// Where the segment's notes stand in the file, and their alignment, 4 or 8; or nothing if it is of
    /// another kind. Refused as [`notes`](Self::notes).
    ///
    /// ```
    /// # use fetulombo::{*, sample::*};
    /// # let (class, order) = (Class::Elf32, Order::Little);
    /// let segment = segment_at(class, order, SEGMENTS, 2)?;
    /// assert_eq!(segment.notes_place(FILE), Ok(Some((28..56, 4))));
    /// # Ok::<(), Refusal>(())
    /// ```
    pub fn notes_place(self, file: &[u8]) -> Result<Option<(Range<usize>, u64)>, Refusal> {
        // Safety: the slice is lent for the call.
        unsafe {
            fetulombo_segment_notes(
                file.as_ptr(),
                file.len(),
                self.kind,
                self.offset,
                self.filesz,
                self.align,
            )
        }
        .get()
    }

    /// The notes, with places in the segment's bytes; or nothing if it is of another kind.
    /// [`Refusal::BAD_NOTE_PLACE`]: they are not all in the file; then [`Refusal::BAD_NOTE_ALIGNMENT`].
    ///
    /// ```
    /// # use fetulombo::{*, sample::*};
    /// # let (class, order) = (Class::Elf32, Order::Little);
    /// let segment = segment_at(class, order, SEGMENTS, 2)?;
    /// let note = segment.notes(order, FILE)?.unwrap().next().unwrap()?;
    /// assert_eq!((note.name(), note.name_place.clone()), (&b"GNU"[..], 12..16));
    /// let odd = Segment { align: 5, ..segment };
    /// assert_eq!(odd.notes(order, FILE).map(drop), Err(Refusal::BAD_NOTE_ALIGNMENT));
    /// # Ok::<(), Refusal>(())
    /// ```
    pub fn notes(self, order: Order, file: &[u8]) -> Result<Option<Notes<'_>>, Refusal> {
        match self.notes_place(file)? {
            Some((place, align)) => Ok(Some(notes(order, align, &file[place])?)),
            None => Ok(None),
        }
    }
}

impl<'file> Dynamic<'file> {
    /// The segment's bytes.
    ///
    /// ```
    /// # use fetulombo::{*, sample::*};
    /// # let (class, order) = (Class::Elf32, Order::Little);
    /// let dynamic = segment_at(class, order, SEGMENTS, 1)?.dynamic(class, order, FILE)?.unwrap();
    /// assert_eq!(dynamic.bytes(), &FILE[12..28]);
    /// # Ok::<(), Refusal>(())
    /// ```
    pub fn bytes(&self) -> &'file [u8] {
        self.bytes
    }

    /// The entry of a number, or nothing past the whole entries.
    ///
    /// ```
    /// # use fetulombo::{*, sample::*};
    /// # let (class, order) = (Class::Elf32, Order::Little);
    /// let dynamic = segment_at(class, order, SEGMENTS, 1)?.dynamic(class, order, FILE)?.unwrap();
    /// assert_eq!(dynamic.entry(0), Some(DynamicEntry { tag: 1, value: 28 }));
    /// assert_eq!(dynamic.entry(2), None);
    /// # Ok::<(), Refusal>(())
    /// ```
    pub fn entry(&self, number: u32) -> Option<DynamicEntry> {
        dynamic_entry(self.class, self.order, self.bytes, number)
            .expect("a part of a part within the limit")
    }

    /// All entries in order.
    ///
    /// ```
    /// # use fetulombo::{*, sample::*};
    /// # let (class, order) = (Class::Elf32, Order::Little);
    /// let dynamic = segment_at(class, order, SEGMENTS, 1)?.dynamic(class, order, FILE)?.unwrap();
    /// let tags: Vec<u64> = dynamic.entries().map(|entry| entry.tag).collect();
    /// assert_eq!(tags, [1, 0]);
    /// # Ok::<(), Refusal>(())
    /// ```
    pub fn entries(&self) -> impl Iterator<Item = DynamicEntry> + '_ {
        (0..self.count).filter_map(|number| self.entry(number))
    }
}
