//! The declarations of `rothelduf.h`.

/// A `rothelduf_section`, and a `rothelduf_feed`.
#[repr(C)]
pub struct Section {
    pub is_open: bool,
    pub at: *mut (),
}

#[repr(C)]
#[derive(Clone, Copy, Default)]
pub struct Fault {
    pub section: u32,
    pub reason: u32,
    pub offset: u64,
}

#[repr(C)]
#[derive(Clone, Copy, Default)]
pub struct Id {
    pub item: usize,
    pub offset: u64,
}

#[repr(C)]
#[derive(Clone, Copy, Default)]
pub struct Unit {
    pub start: u64,
    pub size: u64,
    pub abbrev_offset: u64,
    pub signature: u64,
    pub type_offset: u64,
    pub rows: usize,
    pub kind: u32,
    pub wide: bool,
    pub address_size: u8,
}

#[repr(C)]
#[derive(Clone, Copy, Default)]
pub struct Entry {
    pub offset: u64,
    pub tag: u64,
    pub depth: u64,
    pub attributes: usize,
}

#[repr(C)]
#[derive(Clone, Copy, Default)]
pub struct Attribute {
    pub name: u64,
    pub form: u64,
    pub offset: u64,
    pub number: u64,
    pub signed_number: i64,
    pub high: u64,
    pub length: usize,
    pub front: u32,
    pub kind: u32,
}

#[repr(C)]
#[derive(Clone, Copy, Default)]
pub struct Place {
    pub offset: u64,
    pub length: usize,
    pub section: u32,
}

#[repr(C)]
pub struct Filled {
    pub entries: usize,
    pub attributes: usize,
    pub next: u64,
}

#[repr(C)]
#[derive(Clone, Copy, Default)]
pub struct Finding {
    pub offset: u64,
    pub position: u64,
    pub kind: u32,
}

extern "C" {
    pub fn rothelduf_begin(s: *mut Section, big: bool, four: bool) -> u32;
    pub fn rothelduf_feed_open(f: *mut Section, big: bool, four: bool) -> u32;
    pub fn rothelduf_feed_close(f: *mut Section);
    pub fn rothelduf_feed_push(f: *mut Section, piece: *const u8, size: usize, taken: *mut usize, fault: *mut Fault) -> u32;
    pub fn rothelduf_feed_table(f: *mut Section, abbrev: *const u8, abbrev_size: usize, fault: *mut Fault) -> u32;
    pub fn rothelduf_feed_take(f: *mut Section, s: *mut Section, why: *mut u32) -> u32;
    pub fn rothelduf_open(s: *mut Section, info: *const u8, info_size: usize, abbrev: *const u8, abbrev_size: usize, big: bool, four: bool, fault: *mut Fault) -> u32;
    pub fn rothelduf_close(s: *mut Section);
    pub fn rothelduf_items(s: *mut Section) -> usize;
    pub fn rothelduf_unit(s: *mut Section, item: usize, out: *mut Unit) -> u32;
    pub fn rothelduf_walk(s: *mut Section, item: usize, from: u64, entries: *mut Entry, entry_room: usize, attributes: *mut Attribute, attribute_room: usize) -> Filled;
    pub fn rothelduf_find(s: *mut Section, offset: u64, out: *mut Id) -> u32;
    pub fn rothelduf_resolve(s: *mut Section, item: usize, form: u64, number: u64, out: *mut Id, why: *mut u32) -> u32;
    pub fn rothelduf_text(s: *mut Section, item: usize, form: u64, number: u64, str: *const u8, str_size: usize, line_str: *const u8, line_str_size: usize, str_offsets: *const u8, str_offsets_size: usize, out: *mut Place, why: *mut u32) -> u32;
    pub fn rothelduf_type(s: *mut Section, id: *const Id, name: *const u8, name_size: usize, str: *const u8, str_size: usize, line_str: *const u8, line_str_size: usize, str_offsets: *const u8, str_offsets_size: usize, out: *mut u8, room: usize, length: *mut usize, why: *mut u32) -> u32;
    pub fn rothelduf_check(s: *mut Section, str: *const u8, str_size: usize, line_str: *const u8, line_str_size: usize, str_offsets: *const u8, str_offsets_size: usize, out: *mut Finding, room: usize, count: *mut usize) -> u32;
    pub fn rothelduf_set_number(s: *mut Section, id: *const Id, name: u64, minus: bool, magnitude: u64, why: *mut u32) -> u32;
    pub fn rothelduf_size(s: *mut Section) -> u64;
    pub fn rothelduf_write(s: *mut Section, out: *mut u8, room: usize) -> u32;
}
