/* rothelduf.h: DWARF 5 debugging entries, and those of DWARF 4 on request, read, checked, edited and written by code that is
 * proved. C99 and C++17.
 *
 * A rothelduf_section holds a whole .debug_info that was read. It is all zero at first:
 *
 *     rothelduf_section s = {0};
 *     rothelduf_fault fault;
 *     if (rothelduf_open(&s, info, info_size, abbrev, abbrev_size, false, false, &fault) == ROTHELDUF_OK) { .. }
 *     rothelduf_close(&s);
 *
 * What a caller owes, and nothing checks:
 *
 *  - A rothelduf_section is all zero before its first use, and its owner never writes it. Where it is copied, one of the copies
 *    alone is used from then on.
 *  - It is used by one thread, the one that opened it, and by one call at a time.
 *  - A pointer is aligned and never null, also where its count is 0. It and its count name that many objects. No object
 *    that a call writes is overlapped by another argument.
 *  - A bool is 0 or 1.
 *
 * Nothing else is asked: every number may be any number, and all bytes may be any bytes. No call keeps a pointer. None panics,
 * calls back, prints or changes errno but as malloc does.
 *
 * What isn't answered is left as it was: a status other than OK leaves *out and the room, one other than FAULT leaves *fault, and one other
 * than REFUSED leaves *why. rothelduf_type writes *length at OK and SHORT, rothelduf_check *count at OK, and rothelduf_feed_push *taken
 * at all but CLOSED. rothelduf_entries, rothelduf_attributes and rothelduf_walk answer how many they filled: what is behind these in the
 * room, and at OK behind what was written, has no meaning.
 *
 * Sizes and offsets are in bytes. An offset of an entry counts from the first byte of its unit, and that of a fault from the
 * first byte of its section. Sections of the standard are those of DWARF 5.
 */
#ifndef ROTHELDUF_H
#define ROTHELDUF_H

#include <stdbool.h>
#include <stddef.h>
#include <stdint.h>

#ifdef __cplusplus
extern "C" {
#endif

/* ---- what calls answer ---- */

enum rothelduf_status {
    ROTHELDUF_OK = 0,
    ROTHELDUF_FAULT = 1,     /* the bytes are refused: *fault is their first fault */
    ROTHELDUF_NO_MEMORY = 2, /* malloc answered null */
    ROTHELDUF_CLOSED = 3,    /* no section is open */
    ROTHELDUF_NOTHING = 4,   /* no such item, or no entry begins there */
    ROTHELDUF_REFUSED = 5,   /* *why is the number of the reason */
    ROTHELDUF_SHORT = 6,     /* the room for the answer is too small, and nothing was written to it */
    ROTHELDUF_MORE = 7,      /* of a feed: more bytes are needed */
    ROTHELDUF_HEADER = 8,    /* of a feed: a header came, whose table comes next */
    ROTHELDUF_UNIT = 9,      /* of a feed: a unit came, which waits to be taken */
    ROTHELDUF_SPENT = 10     /* of a feed: there is no more, since memory was refused before */
};

/* Why bytes are refused (rothelduf_fault.reason): what is wrong with the first broken field. */
enum rothelduf_reason {
    ROTHELDUF_TRUNCATED = 1, ROTHELDUF_PAST_UNIT, ROTHELDUF_RESERVED_LENGTH, ROTHELDUF_BAD_VERSION, ROTHELDUF_BAD_UNIT_TYPE,
    ROTHELDUF_BAD_ADDRESS_SIZE, ROTHELDUF_LEB_TOO_LONG, ROTHELDUF_LEB_TOO_BIG, ROTHELDUF_NO_ROOT, ROTHELDUF_UNKNOWN_CODE,
    ROTHELDUF_UNKNOWN_FORM, ROTHELDUF_BAD_INDIRECT, ROTHELDUF_TOO_DEEP, ROTHELDUF_SECOND_ROOT, ROTHELDUF_ABBREV_OFFSET,
    ROTHELDUF_BAD_CHILDREN, ROTHELDUF_HALF_PAIR, ROTHELDUF_DUPLICATE_CODE, ROTHELDUF_TOO_MANY_PAIRS, ROTHELDUF_LENGTH_TOO_BIG
};

/* Why a number names no entry (rothelduf_resolve). */
enum rothelduf_no_entry {
    ROTHELDUF_NOT_REFERENCE = 1, ROTHELDUF_OUTSIDE_UNIT, ROTHELDUF_OUTSIDE_SECTION, ROTHELDUF_NOT_AN_ENTRY, ROTHELDUF_IN_OTHER,
    ROTHELDUF_NO_SIGNATURE, ROTHELDUF_BAD_TYPE_OFFSET, ROTHELDUF_SUPPLEMENTARY_ENTRY
};

/* Why a number names no text (rothelduf_text). */
enum rothelduf_no_text {
    ROTHELDUF_NOT_TEXT = 1, ROTHELDUF_PAST_SECTION, ROTHELDUF_NO_ZERO, ROTHELDUF_NO_BASE, ROTHELDUF_PAST_OFFSETS,
    ROTHELDUF_SUPPLEMENTARY_TEXT
};

/* Why a type isn't told (rothelduf_type). */
enum rothelduf_no_type { ROTHELDUF_NO_TYPED_ENTRY = 1, ROTHELDUF_TYPE_TOO_BIG };

/* Why a number isn't set (rothelduf_set_number). */
enum rothelduf_not_set {
    ROTHELDUF_NO_ENTRY = 1, ROTHELDUF_NO_ATTRIBUTE, ROTHELDUF_NOT_A_NUMBER, ROTHELDUF_IN_TABLE, ROTHELDUF_DOES_NOT_FIT,
    ROTHELDUF_BAD_TARGET
};

/* Why a unit isn't put into a section (rothelduf_feed_take). */
enum rothelduf_not_put { ROTHELDUF_WRONG_ORDER = 1, ROTHELDUF_WRONG_VERSION, ROTHELDUF_TOO_LONG };

/* What is wrong (rothelduf_finding.kind). */
enum rothelduf_wrong {
    ROTHELDUF_BAD_REFERENCE = 1, ROTHELDUF_BAD_SIBLING, ROTHELDUF_ROOT_TAG, ROTHELDUF_TYPE_OFFSET, ROTHELDUF_BAD_TEXT,
    ROTHELDUF_REPEATED_NAME
};

/* What the value of an attribute is (rothelduf_attribute.kind; section 7.5.5). */
enum rothelduf_kind {
    ROTHELDUF_NUMBER = 0,   /* a number of a fixed size, at most 8 bytes */
    ROTHELDUF_ULEB = 1,     /* an unsigned LEB128 number */
    ROTHELDUF_SLEB = 2,     /* a signed LEB128 number */
    ROTHELDUF_IMPLICIT = 3, /* the constant of its declaration (DW_FORM_implicit_const) */
    ROTHELDUF_PRESENT = 4,  /* that it is there (DW_FORM_flag_present) */
    ROTHELDUF_BLOCK = 5,    /* bytes with their count before them */
    ROTHELDUF_TEXT = 6,     /* a text in the unit itself (DW_FORM_string) */
    ROTHELDUF_WIDE = 7      /* a number of 16 bytes (DW_FORM_data16) */
};

typedef struct rothelduf_section { bool is_open; void *at; } rothelduf_section;

typedef struct rothelduf_feed { bool is_open; void *at; } rothelduf_feed;

typedef struct rothelduf_fault {
    uint32_t section; /* 0 .debug_info, 1 .debug_abbrev */
    uint32_t reason;  /* enum rothelduf_reason */
    uint64_t offset;  /* where the broken field begins */
} rothelduf_fault;

/* An entry: its item, and where it begins in it. */
typedef struct rothelduf_id { size_t item; uint64_t offset; } rothelduf_id;

typedef struct rothelduf_unit_info {
    uint64_t start;         /* where it begins in .debug_info */
    uint64_t size;          /* its bytes, with its initial length */
    uint64_t abbrev_offset; /* where its table begins in .debug_abbrev */
    uint64_t signature;     /* of a type unit its signature, of a skeleton unit its id, else 0 */
    uint64_t type_offset;   /* of a type unit, else 0 */
    size_t rows;            /* its entries, and the nulls that end their children */
    uint32_t kind;          /* 1 to 4 as DW_UT_compile to DW_UT_skeleton; 0: version 4 */
    bool wide;              /* the 64-bit format (section 7.4) */
    uint8_t address_size;
} rothelduf_unit_info;

typedef struct rothelduf_entry {
    uint64_t offset;   /* from the unit's first byte */
    uint64_t tag;      /* DW_TAG_.. */
    uint64_t depth;    /* the root's is 1 */
    size_t attributes; /* of rothelduf_walk: the place behind its last attribute */
} rothelduf_entry;

/* An attribute. The bytes of a BLOCK or TEXT are in those that rothelduf_open was given, and in those that rothelduf_write
 * writes: so many as `length` says, from unit.start + offset + front on. rothelduf_set_number moves none of them: after
 * it, that they are there is proved of the bytes that rothelduf_write writes, and no longer of those that were opened. */
typedef struct rothelduf_attribute {
    uint64_t name;         /* DW_AT_.. */
    uint64_t form;         /* DW_FORM_.. in effect: of an indirect value the one that it names */
    uint64_t offset;       /* where its value begins, from the unit's first byte */
    uint64_t number;       /* NUMBER, ULEB; WIDE: its lower half */
    int64_t signed_number; /* SLEB, IMPLICIT */
    uint64_t high;         /* WIDE: its upper half */
    size_t length;         /* BLOCK, TEXT: the count of its bytes, else 0 */
    uint32_t front;        /* bytes of the value before its content */
    uint32_t kind;         /* enum rothelduf_kind */
} rothelduf_attribute;

/* A text: its bytes are those of that section from offset on, without the zero that ends it. */
typedef struct rothelduf_text_place {
    uint64_t offset;
    size_t length;
    uint32_t section; /* 1 .debug_str, 2 .debug_line_str */
} rothelduf_text_place;

typedef struct rothelduf_filled {
    size_t entries, attributes; /* how many were filled */
    uint64_t next;              /* where the next entry begins; ROTHELDUF_END where there is none */
} rothelduf_filled;

#define ROTHELDUF_END UINT64_MAX

typedef struct rothelduf_finding {
    uint64_t offset;   /* of the entry, from the section's first byte */
    uint64_t position; /* which attribute of it, from 1 on; 0: the entry itself */
    uint32_t kind;     /* enum rothelduf_wrong */
} rothelduf_finding;

/* ---- a section ---- */

/* Reads all of info as .debug_info, over abbrev as .debug_abbrev: units of version 5, and of version 4 too where `four` is
 * set; other items are kept as their bytes (section 7.5). A section that was open is closed first.
 * OK; FAULT, with the first fault of the bytes; NO_MEMORY. After an error no section is open. */
uint32_t rothelduf_open(rothelduf_section *s, const uint8_t *info, size_t info_size, const uint8_t *abbrev, size_t abbrev_size,
                        bool big_endian, bool four, rothelduf_fault *fault);

/* Frees what the section holds, if it is open. */
void rothelduf_close(rothelduf_section *s);

/* How many items it has, units and others; 0 where none is open. */
size_t rothelduf_items(rothelduf_section *s);

/* Tells of the unit that an item is. OK; NOTHING where the item is no unit; CLOSED. */
uint32_t rothelduf_unit(rothelduf_section *s, size_t item, rothelduf_unit_info *out);

/* ---- entries and attributes ---- */

/* Fills out with the entries of a unit in their order, each before those below it (section 7.5.2), as many as there is room
 * for, and answers how many; 0 where the item is no unit. */
size_t rothelduf_entries(rothelduf_section *s, size_t item, rothelduf_entry *out, size_t room);

/* Fills out with the attributes of an entry in their order, as many as there is room for, and answers how many; 0 where no
 * entry begins there. An entry has at most 1,024. */
size_t rothelduf_attributes(rothelduf_section *s, const rothelduf_id *id, rothelduf_attribute *out, size_t room);

/* Fills both with the entries of a unit from the one on that begins at `from`, or from its root on where that is 0, and with
 * their attributes. It stops where there is no room for one more entry with all its attributes; an entry has at most 1,024, so
 * with that much room each call goes on. The answer says where. No entries where the item is no unit, or none begins at
 * `from`. What is behind the counts in both is of no meaning. */
rothelduf_filled rothelduf_walk(rothelduf_section *s, size_t item, uint64_t from, rothelduf_entry *entries, size_t entry_room,
                                rothelduf_attribute *attributes, size_t attribute_room);

/* The entry that begins at this offset of .debug_info. OK; NOTHING; CLOSED. */
uint32_t rothelduf_find(rothelduf_section *s, uint64_t section_offset, rothelduf_id *out);

/* The entry that a number of this form names in the unit that an item is (section 7.5.5). OK; REFUSED, with an enum
 * rothelduf_no_entry; NOTHING where the item is no unit; CLOSED. */
uint32_t rothelduf_resolve(rothelduf_section *s, size_t item, uint64_t form, uint64_t number, rothelduf_id *out, uint32_t *why);

/* Where the text is that a number of this form names in the unit that an item is (section 7.26). The three sections are those
 * of texts; one that isn't there has the size 0. OK; REFUSED, with an enum rothelduf_no_text; NOTHING; CLOSED. */
uint32_t rothelduf_text(rothelduf_section *s, size_t item, uint64_t form, uint64_t number, const uint8_t *str, size_t str_size,
                        const uint8_t *line_str, size_t line_str_size, const uint8_t *str_offsets, size_t str_offsets_size,
                        rothelduf_text_place *out, uint32_t *why);

/* Writes the type of an entry to the front of out, as the declaration of this name in C: of a variable, a parameter or a member
 * its type, and else the entry itself. OK, and then *length is how many bytes it has, at most the room; SHORT, and then it is what
 * it needs, more than the room; REFUSED, with an enum rothelduf_no_type; NO_MEMORY; CLOSED. */
uint32_t rothelduf_type(rothelduf_section *s, const rothelduf_id *id, const uint8_t *name, size_t name_size, const uint8_t *str,
                        size_t str_size, const uint8_t *line_str, size_t line_str_size, const uint8_t *str_offsets,
                        size_t str_offsets_size, uint8_t *out, size_t room, size_t *length, uint32_t *why);

/* ---- findings, edits, bytes ---- */

/* Fills out with what is wrong in the section, ordered by offset, position and kind, as much as there is room for. *count is
 * how much there is. OK; NO_MEMORY; CLOSED. */
uint32_t rothelduf_check(rothelduf_section *s, const uint8_t *str, size_t str_size, const uint8_t *line_str, size_t line_str_size,
                         const uint8_t *str_offsets, size_t str_offsets_size, rothelduf_finding *out, size_t room, size_t *count);

/* Puts a number in the place of that of the first attribute of this name of an entry: `magnitude`, or with `minus` its
 * negative. The value keeps its size, and every entry its offset. OK; REFUSED, with an enum rothelduf_not_set, and then the
 * section is as it was; CLOSED. */
uint32_t rothelduf_set_number(rothelduf_section *s, const rothelduf_id *id, uint64_t name, bool minus, uint64_t magnitude, uint32_t *why);

/* How many bytes the section has; 0 where none is open. */
uint64_t rothelduf_size(rothelduf_section *s);

/* Writes the section's bytes to the front of out. OK; SHORT; NO_MEMORY; CLOSED. */
uint32_t rothelduf_write(rothelduf_section *s, uint8_t *out, size_t room);

/* ---- units that are pushed ----
 *
 * A feed takes the bytes of one unit after the other, in pieces of any size, and answers with the first byte that shows the
 * header, the unit, or its fault (section 7.5):
 *
 *     rothelduf_feed f = {0};
 *     rothelduf_feed_open(&f, false, false);
 *     push: rothelduf_feed_push until HEADER; rothelduf_feed_table; rothelduf_feed_push until UNIT; rothelduf_feed_take; and again.
 *
 * A rothelduf_feed is owed what a rothelduf_section is. Nothing of a piece is kept but what the unit needs. Offsets of faults
 * count from the unit's first byte. */

/* Opens a section without items, to put units into. What was open is closed before. OK; NO_MEMORY, and none is open. */
uint32_t rothelduf_begin(rothelduf_section *s, bool big_endian, bool four);

/* Opens a feed of units of version 5, and of version 4 too where `four` is set. What was open is closed before. OK; NO_MEMORY,
 * and none is open. */
uint32_t rothelduf_feed_open(rothelduf_feed *f, bool big_endian, bool four);

/* Frees what the feed holds, if it is open. */
void rothelduf_feed_close(rothelduf_feed *f);

/* Takes bytes of a piece; *taken is how many, and what follows them belongs to the next unit, or is to be pushed again. MORE: all
 * of the piece was taken. HEADER: its last byte was taken, and it is answered until the table is handed in. UNIT: its last byte
 * was taken, and it is answered until it is taken. FAULT, never for a cut: it is answered again and again. NO_MEMORY: no byte
 * was taken, and SPENT is answered from then on. CLOSED. */
uint32_t rothelduf_feed_push(rothelduf_feed *f, const uint8_t *piece, size_t size, size_t *taken, rothelduf_fault *fault);

/* After HEADER: reads the table that the header names in abbrev, all of .debug_abbrev. OK; FAULT, of the table; NO_MEMORY; and
 * after both the header waits still. NOTHING where no header waits; CLOSED. */
uint32_t rothelduf_feed_table(rothelduf_feed *f, const uint8_t *abbrev, size_t abbrev_size, rothelduf_fault *fault);

/* How many bytes a header needs at the least before rothelduf_feed_push can answer it; 0 where no header is pushed. Whoever pushes
 * no more takes no byte that the header doesn't have. */
size_t rothelduf_feed_wants(rothelduf_feed *f);

/* What is held of a unit behind its header; nothing of all else. */
typedef struct rothelduf_held {
    size_t pending;       /* the bytes of a number or of a length field that isn't whole: at most 16 */
    size_t nested;        /* the entries whose subtree hasn't ended: at most 4,096 */
    size_t entries;       /* no more than bytes were pushed */
    size_t pool;          /* the bytes of texts and blocks: no more than bytes were pushed */
    uint64_t values;      /* the values that are whole: the lower half of their count */
    uint64_t values_high; /* its upper half */
} rothelduf_held;

/* OK; CLOSED. */
uint32_t rothelduf_feed_held(rothelduf_feed *f, rothelduf_held *out);

/* The end of the input, after which the feed is closed. FAULT: what is missing of a header or a unit, which is Truncated, before
 * the first byte of a unit at 0; the fault that was answered before; or PastUnit behind the header, where the unit has no room
 * for a root and nothing was pushed since its table was handed in. HEADER, where the table is missing. UNIT, where a unit
 * wasn't taken. OK, where memory was refused. CLOSED. */
uint32_t rothelduf_feed_end(rothelduf_feed *f, rothelduf_fault *fault);

/* After UNIT: puts the unit behind the items of s. The feed then takes the next header, of the order and versions of s. OK;
 * REFUSED, with an enum rothelduf_not_put; NO_MEMORY; and after both the unit waits still, and s is as it was. NOTHING where
 * no unit waits; CLOSED, where the feed or s is. */
uint32_t rothelduf_feed_take(rothelduf_feed *f, rothelduf_section *s, uint32_t *why);

#ifdef __cplusplus
}
#endif

#endif
