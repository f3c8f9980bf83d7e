use crate::raw::{
    fetulombo_gnu_properties, fetulombo_note_step, fetulombo_property_number,
    fetulombo_property_step, fetulombo_trimmed,
};
use crate::{Class, Order, Refusal, raw};
use core::iter::FusedIterator;
use core::ops::Range;

/// A note: its type, and where its name and its descriptor stand in the bytes that were read.
///
/// ```
/// # use fetulombo::{*, sample::*};
/// let note = notes(Order::Little, 4, NOTES)?.next().unwrap()?;
/// assert_eq!((note.kind, note.name_place.clone(), note.descriptor_place.clone()), (5, 12..16, 16..28));
/// # Ok::<(), Refusal>(())
/// ```
#[derive(Debug, Clone, PartialEq, Eq)]
pub struct Note<'bytes> {
    bytes: &'bytes [u8],
    order: Order,
    /// The note's type.
    pub kind: u32,
    /// The place of the name, its trailing zeros included.
    pub name_place: Range<usize>,
    /// The place of the descriptor.
    pub descriptor_place: Range<usize>,
}

/// The notes of a section or a segment, in order. After a refusal the reader is at its end: a loop sees it
/// as its last item, and then nothing, however often it asks.
///
/// ```
/// # use fetulombo::{*, sample::*};
/// let mut walk = notes(Order::Little, 4, &NOTES[..27])?;
/// assert_eq!(walk.next(), Some(Err(Refusal::BAD_NOTE_DESCRIPTOR)));
/// assert_eq!(walk.next(), None);
/// assert_eq!(walk.place(), 27);
/// # Ok::<(), Refusal>(())
/// ```
#[derive(Debug, Clone)]
pub struct Notes<'bytes> {
    order: Order,
    align: u64,
    bytes: &'bytes [u8],
    at: usize,
}

/// The notes of `bytes`, whose section or segment has the alignment `align`: 0 to 4 counts as 4, 8 as 8.
/// Refused: bytes that are too long, then any other alignment ([`Refusal::BAD_NOTE_ALIGNMENT`]). A step is
/// refused by [`NOTE_SHORT`](Refusal::NOTE_SHORT), [`BAD_NOTE_NAME`](Refusal::BAD_NOTE_NAME),
/// [`BAD_NOTE_DESCRIPTOR`](Refusal::BAD_NOTE_DESCRIPTOR), in this order.
///
/// ```
/// # use fetulombo::{*, sample::*};
/// for note in notes(Order::Little, 4, NOTES)? {
///     assert_eq!(note?.name(), b"GNU");
/// }
/// assert_eq!(notes(Order::Little, 16, NOTES).map(drop), Err(Refusal::BAD_NOTE_ALIGNMENT));
/// # Ok::<(), Refusal>(())
/// ```
pub fn notes(order: Order, align: u64, bytes: &[u8]) -> Result<Notes<'_>, Refusal> {
    let notes = Notes {
        order,
        align,
        bytes,
        at: 0,
    };
    // A step at the end finds nothing, and refuses what every step refuses.
    Refusal::test(notes.step(bytes.len()).refusal.into())?;
    Ok(notes)
}

impl Notes<'_> {
    /// The place of the next step.
    ///
    /// ```
    /// # use fetulombo::{*, sample::*};
    /// let mut walk = notes(Order::Little, 4, NOTES)?;
    /// assert_eq!(walk.place(), 0);
    /// walk.next();
    /// assert_eq!(walk.place(), 28);
    /// # Ok::<(), Refusal>(())
    /// ```
    pub fn place(&self) -> usize {
        self.at
    }

    /// The notes from another place on, which may be any.
    ///
    /// ```
    /// # use fetulombo::{*, sample::*};
    /// let bytes = [&[0xff; 4], NOTES].concat();
    /// let mut walk = notes(Order::Little, 4, &bytes)?.starting_at(4);
    /// assert_eq!(walk.next().unwrap()?.kind, 5);
    /// assert_eq!(walk.starting_at(usize::MAX).next(), None);
    /// # Ok::<(), Refusal>(())
    /// ```
    pub fn starting_at(self, place: usize) -> Self {
        Notes { at: place, ..self }
    }

    fn step(&self, at: usize) -> raw::Note {
        // Safety: the slice is lent for the call.
        unsafe {
            fetulombo_note_step(
                self.order.raw(),
                self.align,
                self.bytes.as_ptr(),
                self.bytes.len(),
                at,
            )
        }
    }
}

impl<'bytes> Iterator for Notes<'bytes> {
    type Item = Result<Note<'bytes>, Refusal>;

    fn next(&mut self) -> Option<Self::Item> {
        let (bytes, order) = (self.bytes, self.order);
        let answer = self.step(self.at);
        self.at = answer.next as usize;
        if let Err(refusal) = Refusal::test(answer.refusal.into()) {
            return Some(Err(refusal));
        }
        if answer.found == 0 {
            return None;
        }
        let place = |start: u64, length: u64| start as usize..(start + length) as usize;
        Some(Ok(Note {
            bytes,
            order,
            kind: answer.kind as u32,
            name_place: place(answer.name, answer.name_length),
            descriptor_place: place(answer.descriptor, answer.descriptor_length),
        }))
    }
}

impl FusedIterator for Notes<'_> {}

/// The front part of a name without its trailing zeros.
///
/// ```
/// use fetulombo::trimmed;
/// assert_eq!(trimmed(b"G\0NU\0\0"), Ok(&b"G\0NU"[..]));
/// ```
pub fn trimmed(name: &[u8]) -> Result<&[u8], Refusal> {
    // Safety: the slice is lent for the call.
    let length = unsafe { fetulombo_trimmed(name.as_ptr(), name.len()) }.get()?;
    Ok(&name[..length as usize])
}

impl<'bytes> Note<'bytes> {
    /// The name, its trailing zeros included.
    ///
    /// ```
    /// # use fetulombo::{*, sample::*};
    /// let note = notes(Order::Little, 4, NOTES)?.next().unwrap()?;
    /// assert_eq!(note.name_bytes(), b"GNU\0");
    /// # Ok::<(), Refusal>(())
    /// ```
    pub fn name_bytes(&self) -> &'bytes [u8] {
        &self.bytes[self.name_place.clone()]
    }

    /// The name without its trailing zeros.
    ///
    /// ```
    /// # use fetulombo::{*, sample::*};
    /// let note = notes(Order::Little, 4, NOTES)?.next().unwrap()?;
    /// assert_eq!(note.name(), b"GNU");
    /// # Ok::<(), Refusal>(())
    /// ```
    pub fn name(&self) -> &'bytes [u8] {
        trimmed(self.name_bytes()).expect("a part of a part within the limit")
    }

    /// The descriptor.
    ///
    /// ```
    /// # use fetulombo::{*, sample::*};
    /// let note = notes(Order::Little, 4, NOTES)?.next().unwrap()?;
    /// assert_eq!(note.descriptor(), &NOTES[16..]);
    /// # Ok::<(), Refusal>(())
    /// ```
    pub fn descriptor(&self) -> &'bytes [u8] {
        &self.bytes[self.descriptor_place.clone()]
    }

    /// The GNU properties of the note, or nothing if it is of another kind.
    ///
    /// ```
    /// # use fetulombo::{*, sample::*};
    /// let note = notes(Order::Little, 4, NOTES)?.next().unwrap()?;
    /// let mut properties = note.gnu_properties(Class::Elf32).unwrap();
    /// assert_eq!(properties.next().unwrap()?.number(), Ok(3));
    /// # Ok::<(), Refusal>(())
    /// ```
    pub fn gnu_properties(&self, class: Class) -> Option<Properties<'bytes>> {
        gnu_properties(
            class,
            self.order,
            self.kind,
            self.name_bytes(),
            self.descriptor(),
        )
        .expect("parts of a part within the limit")
    }
}

/// The GNU properties of a note of this type, name and descriptor, or nothing if it is of another
/// kind: only type 5 and the name `GNU`, with any zeros after it, are of this one.
///
/// ```
/// # use fetulombo::{*, sample::*};
/// let of = |kind| gnu_properties(Class::Elf32, Order::Little, kind, b"GNU\0", &NOTES[16..]);
/// assert_eq!(of(5)?.unwrap().count(), 1);
/// assert!(of(4)?.is_none());
/// # Ok::<(), Refusal>(())
/// ```
pub fn gnu_properties<'descriptor>(
    class: Class,
    order: Order,
    kind: u32,
    name: &[u8],
    descriptor: &'descriptor [u8],
) -> Result<Option<Properties<'descriptor>>, Refusal> {
    // Safety: the slices are lent for the call.
    let answer = unsafe {
        fetulombo_gnu_properties(
            class.raw(),
            order.raw(),
            kind,
            name.as_ptr(),
            name.len(),
            descriptor.as_ptr(),
            descriptor.len(),
        )
    };
    Ok((answer.get()? == 1).then_some(Properties {
        class,
        order,
        descriptor,
        at: 0,
    }))
}

/// A property: its type, and where its data stands in the descriptor.
///
/// ```
/// # use fetulombo::{*, sample::*};
/// let walk = gnu_properties(Class::Elf32, Order::Little, 5, b"GNU", &NOTES[16..])?;
/// let property = walk.unwrap().next().unwrap()?;
/// assert_eq!((property.kind, property.place.clone()), (0xc000_0002, 8..12));
/// # Ok::<(), Refusal>(())
/// ```
#[derive(Debug, Clone, PartialEq, Eq)]
pub struct Property<'descriptor> {
    descriptor: &'descriptor [u8],
    order: Order,
    /// The property's type.
    pub kind: u32,
    /// The place of the data.
    pub place: Range<usize>,
}

/// The properties of a descriptor, in order. They are aligned to 8 bytes in ELF64 and to 4 in ELF32, and
/// the padding must be present ([`Refusal::BAD_PROPERTY`]). After a refusal the reader is at its end, as in
/// [`Notes`].
///
/// ```
/// # use fetulombo::{*, sample::*};
/// let of = |class| gnu_properties(class, Order::Little, 5, b"GNU", &NOTES[16..]);
/// assert_eq!(of(Class::Elf32)?.unwrap().filter(Result::is_ok).count(), 1);
/// let mut walk = of(Class::Elf64)?.unwrap();
/// assert_eq!(walk.next(), Some(Err(Refusal::BAD_PROPERTY)));
/// assert_eq!(walk.next(), None);
/// # Ok::<(), Refusal>(())
/// ```
#[derive(Debug, Clone)]
pub struct Properties<'descriptor> {
    class: Class,
    order: Order,
    descriptor: &'descriptor [u8],
    at: usize,
}

impl<'descriptor> Iterator for Properties<'descriptor> {
    type Item = Result<Property<'descriptor>, Refusal>;

    fn next(&mut self) -> Option<Self::Item> {
        let (descriptor, order) = (self.descriptor, self.order);
        // Safety: the slice is lent for the call.
        let answer = unsafe {
            fetulombo_property_step(
                self.class.raw(),
                order.raw(),
                descriptor.as_ptr(),
                descriptor.len(),
                self.at,
            )
        };
        self.at = answer.next as usize;
        if let Err(refusal) = Refusal::test(answer.refusal.into()) {
            return Some(Err(refusal));
        }
        if answer.found == 0 {
            return None;
        }
        let start = answer.start as usize;
        Some(Ok(Property {
            descriptor,
            order,
            kind: answer.kind as u32,
            place: start..start + answer.length as usize,
        }))
    }
}

impl FusedIterator for Properties<'_> {}

impl<'descriptor> Property<'descriptor> {
    /// The data.
    ///
    /// ```
    /// # use fetulombo::{*, sample::*};
    /// # let walk = gnu_properties(Class::Elf32, Order::Little, 5, b"GNU", &NOTES[16..])?;
    /// # let property = walk.unwrap().next().unwrap()?;
    /// assert_eq!(property.bytes(), [3, 0, 0, 0]);
    /// # Ok::<(), Refusal>(())
    /// ```
    pub fn bytes(&self) -> &'descriptor [u8] {
        &self.descriptor[self.place.clone()]
    }

    /// The data as a number: its first 4 bytes. Refused as [`property_number`].
    ///
    /// ```
    /// # use fetulombo::{*, sample::*};
    /// # let walk = gnu_properties(Class::Elf32, Order::Little, 5, b"GNU", &NOTES[16..])?;
    /// # let property = walk.unwrap().next().unwrap()?;
    /// assert_eq!(property.number(), Ok(3));
    /// # Ok::<(), Refusal>(())
    /// ```
    pub fn number(&self) -> Result<u32, Refusal> {
        property_number(self.order, self.bytes())
    }
}

/// A property's data as a number: its first 4 bytes. [`Refusal::SHORT_PROPERTY_NUMBER`]: there are fewer.
///
/// ```
/// use fetulombo::{Order, Refusal, property_number};
/// assert_eq!(property_number(Order::Big, &[0, 0, 0, 3, 9]), Ok(3));
/// assert_eq!(property_number(Order::Big, &[0, 0, 3]), Err(Refusal::SHORT_PROPERTY_NUMBER));
/// ```
pub fn property_number(order: Order, part: &[u8]) -> Result<u32, Refusal> {
    // Safety: the slice is lent for the call.
    let answer = unsafe { fetulombo_property_number(order.raw(), part.as_ptr(), part.len()) };
    Ok(answer.get()? as u32)
}
