/* The longest word of a line, in a program without a library. */

enum kind { SPACE = -1, LETTER = 1 };

struct word {
    const char *start;
    unsigned short length;
    struct word *next;
};

static const char line[] = "a reader of debugging entries"; /* const const char line[30] */

struct word words[sizeof line];
struct word *longest;

static enum kind kind_of(char letter)
{
    return letter == ' ' || letter == 0 ? SPACE : LETTER;
}

static unsigned split(const char *restrict text, struct word *restrict into)
{
    unsigned count = 0;
    while (*text != 0) {
        struct word *word = &into[count++];
        word->start = text;
        while (kind_of(*text) == LETTER)
            text++;
        word->length = (unsigned short)(text - word->start);
        word->next = 0;
        while (*text != 0 && kind_of(*text) == SPACE)
            text++;
    }
    return count;
}

_Noreturn void _start(void)
{
    unsigned count = split(line, words);
    longest = &words[0];
    for (unsigned i = 1; i < count; i++) {
        if (words[i].length > longest->length) {
            longest->next = &words[i];
            longest = &words[i];
        }
    }
    for (;;) {
    }
}
