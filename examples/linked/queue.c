/* Sums up a queue. */
struct point {
    int x;
    int y;
};

struct queue {
    struct point points[4];
    unsigned length;
    int color;
};

static int both(const struct point *point)
{
    return point->x + point->y;
}

int sum_of(const struct queue *queue)
{
    int sum = 0;
    for (unsigned i = 0; i < queue->length; i++)
        sum += both(&queue->points[i]);
    return sum;
}
