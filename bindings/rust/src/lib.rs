//! DWARF debugging entries by the proved library `rothelduf_c`: a section is read whole, or refused with its first fault.
//!
//! ```no_run
//! use rothelduf::{Options, Section, Sections};
//!
//! let (info, abbrev) = (std::fs::read("debug_info")?, std::fs::read("debug_abbrev")?);
//! let section = Section::open(Sections { info: &info, abbrev: &abbrev, ..Default::default() }, Options::default())?;
//! for unit in section.units() {
//!     for entry in section.entries(&unit) {
//!         println!("{:#x} {:#x}", unit.start + entry.offset, entry.tag);
//!     }
//! }
//! # Ok::<(), Box<dyn std::error::Error>>(())
//! ```
//!
//! A [`Section`] is used by one thread: it is neither `Send` nor `Sync`.

mod ffi;

use std::cell::UnsafeCell;
use std::fmt;
use std::ptr::null_mut;

/// The bytes of the sections; those of texts may be empty.
#[derive(Clone, Copy, Default)]
pub struct Sections<'a> {
    pub info: &'a [u8],
    pub abbrev: &'a [u8],
    pub str: &'a [u8],
    pub line_str: &'a [u8],
    pub str_offsets: &'a [u8],
}

/// How a section is read: big-endian or little-endian, and whether units of version 4 are read, too.
#[derive(Clone, Copy, Default)]
pub struct Options {
    pub big_endian: bool,
    pub four: bool,
}

macro_rules! names {
    ($(#[$doc:meta])* $name:ident: $($variant:ident),+) => {
        $(#[$doc])*
        #[derive(Clone, Copy, Debug, PartialEq, Eq)]
        pub enum $name { $($variant),+ }

        impl $name {
            const ALL: &'static [$name] = &[$($name::$variant),+];

            /// That of a number, which counts from 1 on.
            fn of(number: u32) -> $name {
                Self::ALL[number as usize - 1]
            }
        }

        impl fmt::Display for $name {
            fn fmt(&self, f: &mut fmt::Formatter<'_>) -> fmt::Result {
                write!(f, "{self:?}")
            }
        }

        impl std::error::Error for $name {}
    };
}

names!(
    /// What is wrong with the first broken field.
    Reason: Truncated, PastUnit, ReservedLength, BadVersion, BadUnitType, BadAddressSize, LebTooLong, LebTooBig, NoRoot, UnknownCode,
    UnknownForm, BadIndirect, TooDeep, SecondRoot, AbbrevOffset, BadChildren, HalfPair, DuplicateCode, TooManyPairs, LengthTooBig
);
names!(
    /// Why an attribute names no entry.
    NoEntry: NotReference, OutsideUnit, OutsideSection, NotAnEntry, InOther, NoSignature, BadTypeOffset, Supplementary
);
names!(
    /// Why an attribute names no text.
    NoText: NotText, PastSection, NoZero, NoBase, PastOffsets, Supplementary
);
names!(
    /// Why a type isn't told. `NoMemory`: memory was refused.
    NoType: NoEntry, TypeTooBig, NoMemory
);
names!(
    /// Why a number isn't set.
    NotSet: NoEntry, NoAttribute, NotANumber, InTable, DoesNotFit, BadTarget
);
names!(
    /// Why a unit isn't put into a section.
    NotPut: WrongOrder, WrongVersion, TooLong
);
names!(
    /// What is wrong.
    Wrong: BadReference, BadSibling, RootTag, TypeOffset, BadText, RepeatedName
);

/// Why no section is read.
#[derive(Clone, Copy, Debug, PartialEq, Eq)]
pub enum OpenError {
    /// The first fault of the bytes: the section and the offset of the broken field, and what is wrong with it.
    Fault { in_abbrev: bool, offset: u64, reason: Reason },
    /// Memory was refused.
    NoMemory,
}

impl fmt::Display for OpenError {
    fn fmt(&self, f: &mut fmt::Formatter<'_>) -> fmt::Result {
        match self {
            OpenError::Fault { in_abbrev, offset, reason } => write!(f, "{} {offset:#x} {reason}", if *in_abbrev { "abbrev" } else { "info" }),
            OpenError::NoMemory => f.write_str("memory"),
        }
    }
}

impl std::error::Error for OpenError {}

/// Memory was refused.
#[derive(Clone, Copy, Debug, PartialEq, Eq)]
pub struct NoMemory;

impl fmt::Display for NoMemory {
    fn fmt(&self, f: &mut fmt::Formatter<'_>) -> fmt::Result {
        f.write_str("memory")
    }
}

impl std::error::Error for NoMemory {}

/// Why a piece isn't taken.
#[derive(Clone, Copy, Debug, PartialEq, Eq)]
pub enum PushError {
    /// The first fault of the unit that comes, or of its table: its offset counts from the unit's first byte, or from that of `.debug_abbrev`.
    Fault { in_abbrev: bool, offset: u64, reason: Reason },
    /// The unit came, and isn't put behind the others.
    NotPut(NotPut),
    /// Memory was refused.
    NoMemory,
}

impl fmt::Display for PushError {
    fn fmt(&self, f: &mut fmt::Formatter<'_>) -> fmt::Result {
        match self {
            PushError::Fault { in_abbrev, offset, reason } => write!(f, "{} {offset:#x} {reason}", if *in_abbrev { "abbrev" } else { "info" }),
            PushError::NotPut(why) => write!(f, "{why}"),
            PushError::NoMemory => f.write_str("memory"),
        }
    }
}

impl std::error::Error for PushError {}

/// An entry: its item, and where it begins in it.
#[derive(Clone, Copy, Debug, PartialEq, Eq, Hash)]
pub struct EntryId {
    pub item: usize,
    pub offset: u64,
}

/// A unit: which item it is, and what its header says.
#[derive(Clone, Copy, Debug, PartialEq, Eq)]
pub struct Unit {
    pub item: usize,
    pub start: u64,
    pub size: u64,
    pub abbrev_offset: u64,
    /// Of a type unit its signature, of a skeleton unit its id, else 0.
    pub signature: u64,
    /// Of a type unit, else 0.
    pub type_offset: u64,
    /// 1 to 4 as `DW_UT_compile` to `DW_UT_skeleton`, and 0 for a unit of version 4.
    pub kind: u32,
    pub is_wide: bool,
    pub address_size: u8,
}

/// An entry with its attributes.
#[derive(Clone, Debug)]
pub struct Entry<'a> {
    pub offset: u64,
    pub tag: u64,
    pub depth: u64,
    pub attributes: Vec<Attribute<'a>>,
}

/// An attribute. `form` is the one in effect, and `offset` is where its value begins in its unit.
#[derive(Clone, Copy, Debug)]
pub struct Attribute<'a> {
    pub name: u64,
    pub form: u64,
    pub offset: u64,
    pub value: Value<'a>,
}

/// The value of an attribute (section 7.5.5).
#[derive(Clone, Copy, Debug, PartialEq, Eq)]
pub enum Value<'a> {
    Number(u64),
    Uleb(u64),
    Sleb(i64),
    Implicit(i64),
    Present,
    Block(&'a [u8]),
    Text(&'a [u8]),
    Wide(u128),
}

/// Something that is wrong: of which entry, by its offset in the section, of which of its attributes (0: of itself), and what.
#[derive(Clone, Copy, Debug, PartialEq, Eq)]
pub struct Finding {
    pub offset: u64,
    pub position: u64,
    pub kind: Wrong,
}

/// A whole `.debug_info` that was read. Texts and blocks are lent from the bytes that it was read from.
pub struct Section<'a> {
    // (a pointer, so it is neither Send nor Sync; each call ends before the next one begins)
    raw: UnsafeCell<ffi::Section>,
    of: Sections<'a>,
}

impl Drop for Section<'_> {
    fn drop(&mut self) {
        // SAFETY: as for each call.
        unsafe { ffi::rothelduf_close(self.raw.get()) }
    }
}

impl<'a> Section<'a> {
    /// Reads all of `info`.
    pub fn open(of: Sections<'a>, how: Options) -> Result<Section<'a>, OpenError> {
        let section = Section { raw: UnsafeCell::new(ffi::Section { is_open: false, at: null_mut() }), of };
        let mut fault = ffi::Fault::default();
        // SAFETY: the section is all zero, and is never moved out of its cell while a call runs; slices have pointers that aren't null.
        let status = unsafe { ffi::rothelduf_open(section.raw.get(), of.info.as_ptr(), of.info.len(), of.abbrev.as_ptr(), of.abbrev.len(), how.big_endian, how.four, &mut fault) };
        match status {
            0 => Ok(section),
            1 => Err(OpenError::Fault { in_abbrev: fault.section == 1, offset: fault.offset, reason: Reason::of(fault.reason) }),
            _ => Err(OpenError::NoMemory),
        }
    }

    /// How many items it has, units and others.
    pub fn items(&self) -> usize {
        unsafe { ffi::rothelduf_items(self.raw.get()) }
    }

    /// The unit that an item is.
    pub fn unit(&self, item: usize) -> Option<Unit> {
        let mut it = ffi::Unit::default();
        let status = unsafe { ffi::rothelduf_unit(self.raw.get(), item, &mut it) };
        (status == 0).then_some(Unit {
            item,
            start: it.start,
            size: it.size,
            abbrev_offset: it.abbrev_offset,
            signature: it.signature,
            type_offset: it.type_offset,
            kind: it.kind,
            is_wide: it.wide,
            address_size: it.address_size,
        })
    }

    pub fn units(&self) -> impl Iterator<Item = Unit> + '_ {
        (0..self.items()).filter_map(|item| self.unit(item))
    }

    /// The entries of a unit in order, each before those below it.
    pub fn entries<'s>(&'s self, unit: &Unit) -> Entries<'s, 'a> {
        Entries { section: self, unit: *unit, next: 0, entries: vec![ffi::Entry::default(); 512], attributes: vec![ffi::Attribute::default(); 4096], at: 0, filled: 0, begin: 0 }
    }

    /// The entry that begins at an offset of the section.
    pub fn find(&self, offset: u64) -> Option<EntryId> {
        let mut id = ffi::Id::default();
        (unsafe { ffi::rothelduf_find(self.raw.get(), offset, &mut id) } == 0).then_some(EntryId { item: id.item, offset: id.offset })
    }

    /// The entry that an attribute of a unit names.
    pub fn resolve(&self, unit: &Unit, attribute: &Attribute<'_>) -> Result<EntryId, NoEntry> {
        let number = attribute.number().ok_or(NoEntry::NotReference)?;
        let (mut id, mut why) = (ffi::Id::default(), 0);
        match unsafe { ffi::rothelduf_resolve(self.raw.get(), unit.item, attribute.form, number, &mut id, &mut why) } {
            0 => Ok(EntryId { item: id.item, offset: id.offset }),
            _ => Err(NoEntry::of(why.max(1))),
        }
    }

    /// The text that an attribute of a unit is, or names.
    pub fn text(&self, unit: &Unit, attribute: &Attribute<'a>) -> Result<&'a [u8], NoText> {
        if let Value::Text(text) = attribute.value {
            return Ok(text);
        }
        let number = attribute.number().ok_or(NoText::NotText)?;
        let (of, mut place, mut why) = (self.of, ffi::Place::default(), 0);
        let status = unsafe {
            ffi::rothelduf_text(self.raw.get(), unit.item, attribute.form, number, of.str.as_ptr(), of.str.len(), of.line_str.as_ptr(), of.line_str.len(), of.str_offsets.as_ptr(), of.str_offsets.len(), &mut place, &mut why)
        };
        if status != 0 {
            return Err(NoText::of(why.max(1)));
        }
        let whole = if place.section == 1 { of.str } else { of.line_str };
        Ok(&whole[place.offset as usize..][..place.length])
    }

    /// The type of an entry, as the declaration of this name in C.
    pub fn type_text(&self, id: EntryId, name: &[u8]) -> Result<Vec<u8>, NoType> {
        let (of, raw_id) = (self.of, ffi::Id { item: id.item, offset: id.offset });
        let (mut out, mut length, mut why) = (vec![0; 256], 0, 0);
        loop {
            let status = unsafe {
                ffi::rothelduf_type(self.raw.get(), &raw_id, name.as_ptr(), name.len(), of.str.as_ptr(), of.str.len(), of.line_str.as_ptr(), of.line_str.len(), of.str_offsets.as_ptr(), of.str_offsets.len(), out.as_mut_ptr(), out.len(), &mut length, &mut why)
            };
            match status {
                0 => {
                    out.truncate(length);
                    return Ok(out);
                }
                6 => out.resize(length, 0),
                2 => return Err(NoType::NoMemory),
                _ => return Err(NoType::of(why.max(1))),
            }
        }
    }

    /// What is wrong, ordered by offset, position and kind.
    pub fn check(&self) -> Result<Vec<Finding>, NoMemory> {
        let (of, mut out, mut count) = (self.of, vec![ffi::Finding::default(); 64], 0);
        loop {
            let status = unsafe {
                ffi::rothelduf_check(self.raw.get(), of.str.as_ptr(), of.str.len(), of.line_str.as_ptr(), of.line_str.len(), of.str_offsets.as_ptr(), of.str_offsets.len(), out.as_mut_ptr(), out.len(), &mut count)
            };
            if status != 0 {
                return Err(NoMemory);
            }
            if count <= out.len() {
                return Ok(out[..count].iter().map(|it| Finding { offset: it.offset, position: it.position, kind: Wrong::of(it.kind) }).collect());
            }
            out.resize(count, ffi::Finding::default());
        }
    }

    /// Puts a number in the place of that of the first attribute of a name. After an error the section is as it was.
    pub fn set_number(&mut self, id: EntryId, name: u64, number: i128) -> Result<(), NotSet> {
        let magnitude = u64::try_from(number.unsigned_abs()).map_err(|_| NotSet::DoesNotFit)?;
        let (raw_id, mut why) = (ffi::Id { item: id.item, offset: id.offset }, 0);
        match unsafe { ffi::rothelduf_set_number(self.raw.get(), &raw_id, name, number < 0, magnitude, &mut why) } {
            0 => Ok(()),
            _ => Err(NotSet::of(why.max(1))),
        }
    }

    /// The bytes of the section.
    pub fn to_bytes(&self) -> Result<Vec<u8>, NoMemory> {
        written(self.raw.get())
    }
}

/// Units that are pushed in pieces of any size, over one `.debug_abbrev`. No piece is kept.
pub struct Feed<'a> {
    feed: ffi::Section,
    section: ffi::Section,
    abbrev: &'a [u8],
}

impl Drop for Feed<'_> {
    fn drop(&mut self) {
        // SAFETY: as for each call.
        unsafe {
            ffi::rothelduf_feed_close(&mut self.feed);
            ffi::rothelduf_close(&mut self.section);
        }
    }
}

impl<'a> Feed<'a> {
    pub fn new(abbrev: &'a [u8], how: Options) -> Result<Feed<'a>, NoMemory> {
        let closed = || ffi::Section { is_open: false, at: null_mut() };
        let mut feed = Feed { feed: closed(), section: closed(), abbrev };
        // SAFETY: both are all zero, and slices have pointers that aren't null. (C moves neither, and a Rust value that is moved leaves no other behind.)
        let status = unsafe { ffi::rothelduf_begin(&mut feed.section, how.big_endian, how.four) | ffi::rothelduf_feed_open(&mut feed.feed, how.big_endian, how.four) };
        if status == 0 { Ok(feed) } else { Err(NoMemory) }
    }

    /// Takes all of a piece. A fault is told as soon as the bytes show it, and again from then on.
    pub fn push(&mut self, piece: &[u8]) -> Result<(), PushError> {
        let (mut left, mut taken, mut why, mut fault) = (piece, 0, 0, ffi::Fault::default());
        while !left.is_empty() {
            let mut status = unsafe { ffi::rothelduf_feed_push(&mut self.feed, left.as_ptr(), left.len(), &mut taken, &mut fault) };
            left = &left[taken..];
            if status == 8 {
                status = unsafe { ffi::rothelduf_feed_table(&mut self.feed, self.abbrev.as_ptr(), self.abbrev.len(), &mut fault) };
            } else if status == 9 {
                status = unsafe { ffi::rothelduf_feed_take(&mut self.feed, &mut self.section, &mut why) };
            }
            match status {
                0 | 7 => {}
                1 => return Err(PushError::Fault { in_abbrev: fault.section == 1, offset: fault.offset, reason: Reason::of(fault.reason) }),
                5 => return Err(PushError::NotPut(NotPut::of(why))),
                _ => return Err(PushError::NoMemory),
            }
        }
        Ok(())
    }

    /// The bytes of the units that came.
    pub fn to_bytes(&mut self) -> Result<Vec<u8>, NoMemory> {
        written(&mut self.section)
    }
}

/// The bytes of a section.
fn written(section: *mut ffi::Section) -> Result<Vec<u8>, NoMemory> {
    let mut out = vec![0; unsafe { ffi::rothelduf_size(section) } as usize];
    match unsafe { ffi::rothelduf_write(section, out.as_mut_ptr(), out.len()) } {
        0 => Ok(out),
        _ => Err(NoMemory),
    }
}

impl Attribute<'_> {
    fn number(&self) -> Option<u64> {
        match self.value {
            Value::Number(number) | Value::Uleb(number) => Some(number),
            _ => None,
        }
    }
}

/// The entries of a unit, from `Section::entries`.
pub struct Entries<'s, 'a> {
    section: &'s Section<'a>,
    unit: Unit,
    next: u64,
    entries: Vec<ffi::Entry>,
    attributes: Vec<ffi::Attribute>,
    /// The entry that comes next, of so many, and where its attributes begin.
    at: usize,
    filled: usize,
    begin: usize,
}

impl<'a> Iterator for Entries<'_, 'a> {
    type Item = Entry<'a>;

    fn next(&mut self) -> Option<Entry<'a>> {
        if self.at == self.filled {
            if self.next == u64::MAX {
                return None;
            }
            let filled = unsafe {
                ffi::rothelduf_walk(self.section.raw.get(), self.unit.item, self.next, self.entries.as_mut_ptr(), self.entries.len(), self.attributes.as_mut_ptr(), self.attributes.len())
            };
            (self.at, self.filled, self.begin, self.next) = (0, filled.entries, 0, filled.next);
            if filled.entries == 0 {
                return None;
            }
        }
        let entry = self.entries[self.at];
        let attributes = &self.attributes[self.begin..entry.attributes];
        (self.at, self.begin) = (self.at + 1, entry.attributes);
        let (info, start) = (self.section.of.info, self.unit.start);
        Some(Entry { offset: entry.offset, tag: entry.tag, depth: entry.depth, attributes: attributes.iter().map(|it| seen(info, start, it)).collect() })
    }
}

fn seen<'a>(info: &'a [u8], start: u64, it: &ffi::Attribute) -> Attribute<'a> {
    let content = || &info[(start + it.offset) as usize + it.front as usize..][..it.length];
    let value = match it.kind {
        0 => Value::Number(it.number),
        1 => Value::Uleb(it.number),
        2 => Value::Sleb(it.signed_number),
        3 => Value::Implicit(it.signed_number),
        4 => Value::Present,
        5 => Value::Block(content()),
        6 => Value::Text(content()),
        _ => Value::Wide(u128::from(it.high) << 64 | u128::from(it.number)),
    };
    Attribute { name: it.name, form: it.form, offset: it.offset, value }
}
