/* Prints the entries of a section, with the texts that stand in it: entries INFO ABBREV */
#include <rothelduf.h>
#include <stdio.h>

enum { MOST = 1 << 24, ENTRIES = 512, ATTRIBUTES = 4096 };

static uint8_t info[MOST], abbrev[MOST];

static size_t load(const char *path, uint8_t *bytes)
{
    FILE *file = fopen(path, "rb");
    size_t size = file ? fread(bytes, 1, MOST, file) : 0;
    return file && fclose(file) == 0 ? size : 0;
}

int main(int count, char **words)
{
    static rothelduf_entry entries[ENTRIES];
    static rothelduf_attribute attributes[ATTRIBUTES];
    rothelduf_section s = {0};
    rothelduf_unit_info unit;
    rothelduf_fault fault;
    if (count != 3 || rothelduf_open(&s, info, load(words[1], info), abbrev, load(words[2], abbrev), false, true, &fault) != ROTHELDUF_OK)
        return 1;
    for (size_t item = 0; item < rothelduf_items(&s); item++) {
        rothelduf_filled filled = {0, 0, rothelduf_unit(&s, item, &unit) == ROTHELDUF_OK ? 0 : ROTHELDUF_END};
        while (filled.next != ROTHELDUF_END) {
            filled = rothelduf_walk(&s, item, filled.next, entries, ENTRIES, attributes, ATTRIBUTES);
            for (size_t e = 0, a = 0; e < filled.entries; e++) {
                printf("%#llx tag %#llx\n", (unsigned long long)(unit.start + entries[e].offset), (unsigned long long)entries[e].tag);
                for (; a < entries[e].attributes; a++)
                    if (attributes[a].kind == ROTHELDUF_TEXT)
                        printf("  %.*s\n", (int)attributes[a].length, (char *)info + unit.start + attributes[a].offset + attributes[a].front);
            }
        }
    }
    rothelduf_close(&s);
    return 0;
}
