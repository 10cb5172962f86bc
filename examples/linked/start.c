/* A program of three sources and two compilers: a queue of points that is summed up. */
struct point {
    int x;
    int y;
};

enum color { RED, GREEN = 5, BLUE };

struct queue {
    struct point points[4];
    unsigned length;
    enum color color;
};

int sum_of(const struct queue *queue);
int area_of(int width, int height);

static struct queue points = {{{1, 2}, {3, 4}}, 2, GREEN};

void _start(void)
{
    int status = sum_of(&points) + area_of(2, 3);
    __asm__ volatile("syscall" : : "a"(60), "D"(status));
    for (;;) {
    }
}
