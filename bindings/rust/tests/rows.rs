//! The worked rows of the documents, through the safe interface.
use rothelduf::{EntryId, Feed, NoEntry, NotSet, OpenError, Options, PushError, Reason, Section, Sections, Value};

/// DW_TAG_compile_unit with DW_AT_name as DW_FORM_string.
const ABBREV: [u8; 8] = [0x01, 0x11, 0x00, 0x03, 0x08, 0x00, 0x00, 0x00];
const INFO: [u8; 15] = [0x0b, 0, 0, 0, 0x05, 0x00, 0x01, 0x08, 0, 0, 0, 0, 0x01, 0x61, 0x00];

fn of<'a>(info: &'a [u8], abbrev: &'a [u8]) -> Sections<'a> {
    Sections { info, abbrev, ..Sections::default() }
}

#[test]
fn the_fifteen_bytes() {
    let section = Section::open(of(&INFO, &ABBREV), Options::default()).unwrap();
    assert_eq!(section.items(), 1);
    let unit = section.units().next().unwrap();
    assert_eq!((unit.start, unit.size, unit.kind, unit.address_size), (0, 15, 1, 8));
    let entries: Vec<_> = section.entries(&unit).collect();
    assert_eq!(entries.len(), 1);
    assert_eq!((entries[0].offset, entries[0].tag, entries[0].depth), (0xc, 0x11, 1));
    assert_eq!(entries[0].attributes[0].value, Value::Text(b"a"));
    assert_eq!(section.text(&unit, &entries[0].attributes[0]), Ok(&b"a"[..]));
    assert_eq!(section.resolve(&unit, &entries[0].attributes[0]), Err(NoEntry::NotReference));
    assert_eq!(section.find(0xc), Some(EntryId { item: 0, offset: 0xc }));
    assert_eq!(section.find(0xd), None);
    assert_eq!(section.check(), Ok(vec![]));
    assert_eq!(section.to_bytes().unwrap(), INFO);
}

#[test]
fn the_last_byte_is_missing() {
    let cut = Section::open(of(&INFO[..14], &ABBREV), Options::default()).err();
    assert_eq!(cut, Some(OpenError::Fault { in_abbrev: false, offset: 13, reason: Reason::Truncated }));
    assert_eq!(cut.unwrap().to_string(), "info 0xd Truncated");
}

#[test]
fn a_text_is_no_number() {
    let mut section = Section::open(of(&INFO, &ABBREV), Options::default()).unwrap();
    assert_eq!(section.set_number(EntryId { item: 0, offset: 0xc }, 0x03, 1), Err(NotSet::NotANumber));
    assert_eq!(section.set_number(EntryId { item: 0, offset: 0xb }, 0x03, 1), Err(NotSet::NoEntry));
    assert_eq!(section.to_bytes().unwrap(), INFO);
}

#[test]
fn two_units_in_pieces() {
    let twice = [INFO, INFO].concat();
    for size in 1..=twice.len() {
        let mut feed = Feed::new(&ABBREV, Options::default()).unwrap();
        for piece in twice.chunks(size) {
            assert_eq!(feed.push(piece), Ok(()));
        }
        assert_eq!(feed.to_bytes().unwrap(), twice);
    }
}

#[test]
fn a_version_is_refused_where_it_shows() {
    let mut other = INFO;
    other[4] = 6;
    let mut feed = Feed::new(&ABBREV, Options::default()).unwrap();
    assert_eq!(feed.push(&other[..5]), Ok(()));
    let fault = Err(PushError::Fault { in_abbrev: false, offset: 4, reason: Reason::BadVersion });
    assert_eq!(feed.push(&other[5..]), fault);
    assert_eq!(feed.push(&other), fault);
}
