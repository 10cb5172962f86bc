/* A program without a library: its one unit is that of this file. */

struct node {
    struct node *next;
    long value;
};

static long total(const struct node *list)
{
    long sum = 0;
    for (; list; list = list->next)
        sum += list->value;
    return sum;
}

long last;

void _start(void)
{
    struct node end = { 0, 2 }, start = { &end, 1 }; /* struct node start */
    last = total(&start);
    for (;;) {
    }
}
