/* A program without a library: its one unit is that of this file. */

struct pair {
    int first;
    unsigned char second;
};

static int sum(const struct pair *pair)
{
    return pair->first + pair->second;
}

int last;

void _start(void)
{
    struct pair pair = { 1, 2 };
    last = sum(&pair);
    for (;;) {
    }
}
