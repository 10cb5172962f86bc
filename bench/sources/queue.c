/* A queue of jobs in C: structures, unions, bit fields, function pointers, arrays. */
#include <stddef.h>
#include <stdint.h>
#include <stdio.h>
#include <stdlib.h>
#include <string.h>

enum level { LOW, MIDDLE = 5, HIGH };

struct job;

typedef int (*handler)(struct job *restrict, void *, ...);

struct job {
    struct job *next;
    const char *const name;
    enum level level;
    union { uint64_t number; char text[8]; struct { uint16_t low, high[3]; } parts; } payload;
    unsigned ready : 1, held : 1, tries : 6;
    volatile int state;
    handler run;
    int grid[3][4];
};

struct queue { struct job *first, **last; size_t count; _Atomic int users; };

static inline int is_due(const struct job *job, int now) { return job->ready && job->tries < (unsigned)now; }

static struct job *pop(struct queue *queue, int now) {
    for (struct job **at = &queue->first; *at; at = &(*at)->next) {
        struct job *job = *at;
        if (is_due(job, now)) {
            *at = job->next;
            if (queue->last == &job->next) queue->last = at;
            queue->count--;
            return job;
        }
    }
    return NULL;
}

int run_queue(struct queue *queue, int now) {
    int done = 0;
    for (struct job *job; (job = pop(queue, now));) {
        int local = job->grid[1][2];
        if (job->run && job->run(job, &local, now) == 0) done++;
        printf("%s %d\n", job->name, local);
        free(job);
    }
    return done;
}
