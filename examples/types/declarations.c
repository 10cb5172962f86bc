/* Declarations of many types, each on its line. A comment behind one has a compiler's words for the same type. */

#define KEPT static __attribute__((used))

typedef unsigned char byte;
typedef int (*handler)(const char *, ...);
typedef int row[4];
typedef struct node tree;

enum color { RED, GREEN = 7, BLUE };

union word {
    unsigned long whole;
    byte parts[8];
    float real;
};

struct node {
    struct node *left;
    tree *right;
    const char *const name;
    enum color color;
    union word word;
    int (*order)(const struct node *, const struct node *);
    unsigned bits : 5;
    handler handlers[2];
    row rows[3]; /* int rows[3][4] */
    void *restrict held;
    _Atomic int shared;
    struct { int x; int y; } place; /* struct {...} place */
};

KEPT int plain;
KEPT const int fixed = 1;
KEPT volatile long moved;
KEPT const volatile unsigned short both; /* volatile const unsigned short both */
KEPT int *pointer;
KEPT const int *to_fixed;
KEPT int *const fixed_pointer;
KEPT const char *const *const pointers;
KEPT char **words;
KEPT void *anything;
KEPT const void *nothing;
KEPT int list[3];
KEPT int grid[2][3];
KEPT const char *names[4];
KEPT const char *const fixed_names[2]; /* const const char *const fixed_names[2] */
KEPT int (*to_list)[3];
KEPT const int (*to_fixed_list)[3];
KEPT int (*table[3])(char, ...);
KEPT int (*function)(void);
KEPT void (*with_parameters)(int, const char *, struct node *);
KEPT int (*(*giving)(int))[3];
KEPT void (*(*nested)(void (*)(int)))(int);
KEPT int (**to_function)(double, float);
KEPT int (*const fixed_function)(unsigned char, long long);
KEPT struct node root;
KEPT const struct node *const first;
KEPT union word word;
KEPT enum color color;
KEPT byte bytes[16];
KEPT handler handle;
KEPT handler handles[2];
KEPT row matrix[2]; /* int matrix[2][4] */
KEPT row *to_row;
KEPT _Bool flag;
KEPT double reals[2][2][2];
KEPT int (*unsaid)(); /* int (*unsaid)(...) */

KEPT int sum(int count, const int *items, int (*each)(int), int grid[2][3], struct node *restrict node) /* int (*grid)[3] */
{
    return each(count) + items[0] + grid[0][0] + node->bits;
}
