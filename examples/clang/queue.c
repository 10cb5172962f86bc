/* A queue of numbers in a ring, in a program without a library. */

typedef long number;

struct queue {
    number items[8];
    unsigned first;
    unsigned count;
};

typedef _Bool (*test)(const struct queue *queue);

static struct queue waiting;
static const char *const names[2] = { "even", "odd" };

volatile number total;
const char *volatile name;

static _Bool is_full(const struct queue *queue)
{
    return queue->count == sizeof queue->items / sizeof queue->items[0];
}

static int push(struct queue *queue, number item, test refuses)
{
    if (refuses(queue))
        return -1;
    queue->items[(queue->first + queue->count) % 8] = item;
    queue->count += 1;
    return 0;
}

static number pop(struct queue *queue)
{
    number item = queue->items[queue->first];
    queue->first = (queue->first + 1) % 8;
    queue->count -= 1;
    return item;
}

void _start(void)
{
    for (number item = 0; push(&waiting, item, is_full) == 0; item++) {
    }
    while (waiting.count > 0) {
        number item = pop(&waiting);
        total += item;
        name = names[item % 2];
    }
    for (;;) {
    }
}
