/* A program without a library: its one unit is that of this file. */

typedef unsigned char byte;

enum color { RED, GREEN = 7, BLUE };

struct point {
    int x;
    int y : 5;
    const char *name;
};

union word {
    unsigned long whole;
    byte parts[8];
};

static const struct point origin = { 1, -2, "origin" };

volatile enum color last;

static int apply(int (*each)(int), union word *words, unsigned count)
{
    int sum = 0;
    for (unsigned i = 0; i < count; i++) {
        int part = each(words[i].parts[0]);
        sum += part;
    }
    return sum;
}

static int twice(int number)
{
    return 2 * number;
}

void _start(void)
{
    union word words[2] = { { 1 }, { 2 } };
    last = apply(twice, words, 2) + origin.x ? GREEN : RED;
    for (;;) {
    }
}
