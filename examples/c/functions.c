/* Prints the functions of a section with their types: functions INFO ABBREV STR LINE_STR STR_OFFSETS */
#include <rothelduf.h>
#include <rothelduf_constants.h>
#include <stdio.h>
#include <stdlib.h>

enum { INFO, ABBREV, STR, LINE_STR, STR_OFFSETS, SECTIONS, ENTRIES = 4096, ATTRIBUTES = 8192 };

static uint8_t *bytes[SECTIONS];
static size_t sizes[SECTIONS];

static int load(int section, const char *path)
{
    FILE *file = fopen(path, "rb");
    if (!file || fseek(file, 0, SEEK_END) != 0)
        return 0;
    sizes[section] = (size_t)ftell(file);
    bytes[section] = malloc(sizes[section] + 1); /* (never null) */
    rewind(file);
    int whole = bytes[section] && fread(bytes[section], 1, sizes[section], file) == sizes[section];
    fclose(file);
    return whole;
}

/* The name that an attribute is, or names. */
static const uint8_t *name_of(rothelduf_section *s, size_t item, uint64_t start, const rothelduf_attribute *a, size_t *size)
{
    rothelduf_text_place place;
    uint32_t why;
    if (a->kind == ROTHELDUF_TEXT) {
        *size = a->length;
        return bytes[INFO] + start + a->offset + a->front;
    }
    if (rothelduf_text(s, item, a->form, a->number, bytes[STR], sizes[STR], bytes[LINE_STR], sizes[LINE_STR], bytes[STR_OFFSETS],
                       sizes[STR_OFFSETS], &place, &why) != ROTHELDUF_OK)
        return NULL;
    *size = place.length;
    return bytes[place.section == 1 ? STR : LINE_STR] + place.offset;
}

static void print(rothelduf_section *s, rothelduf_id id, uint64_t start, const rothelduf_attribute *a)
{
    static uint8_t text[65536];
    size_t size, length;
    uint32_t why;
    const uint8_t *name = name_of(s, id.item, start, a, &size);
    if (name && rothelduf_type(s, &id, name, size, bytes[STR], sizes[STR], bytes[LINE_STR], sizes[LINE_STR], bytes[STR_OFFSETS],
                               sizes[STR_OFFSETS], text, sizeof text, &length, &why) == ROTHELDUF_OK)
        printf("%#llx %.*s\n", (unsigned long long)(start + id.offset), (int)length, (const char *)text);
}

static void print_unit(rothelduf_section *s, size_t item)
{
    static rothelduf_entry entries[ENTRIES];
    static rothelduf_attribute attributes[ATTRIBUTES];
    rothelduf_unit_info unit;
    rothelduf_filled filled = {0, 0, 0};
    if (rothelduf_unit(s, item, &unit) != ROTHELDUF_OK)
        return;
    while (filled.next != ROTHELDUF_END) {
        filled = rothelduf_walk(s, item, filled.next, entries, ENTRIES, attributes, ATTRIBUTES);
        for (size_t e = 0, a = 0; e < filled.entries; e++)
            for (; a < entries[e].attributes; a++)
                if (entries[e].tag == DW_TAG_subprogram && attributes[a].name == DW_AT_name) {
                    rothelduf_id id = {item, entries[e].offset};
                    print(s, id, unit.start, &attributes[a]);
                }
    }
}

int main(int count, char **words)
{
    rothelduf_section s = {0};
    rothelduf_fault fault;
    for (int n = 0; n < SECTIONS; n++)
        if (count != 1 + SECTIONS || !load(n, words[1 + n]))
            return 2;
    uint32_t status = rothelduf_open(&s, bytes[INFO], sizes[INFO], bytes[ABBREV], sizes[ABBREV], false, true, &fault);
    if (status == ROTHELDUF_FAULT)
        printf("fault %s %#llx %u\n", fault.section ? "abbrev" : "info", (unsigned long long)fault.offset, fault.reason);
    for (size_t item = 0; item < rothelduf_items(&s); item++)
        print_unit(&s, item);
    rothelduf_close(&s);
    for (int n = 0; n < SECTIONS; n++)
        free(bytes[n]);
    return status == ROTHELDUF_OK ? 0 : 1;
}
