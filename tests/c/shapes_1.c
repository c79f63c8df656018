#include "shapes.h"

extern inline int squared(int n);

int shape_limit = 7;
const char shape_title[] = "shapes";
static int hidden_count;
__thread int shape_thread;
__attribute__((visibility("hidden"))) int shape_hidden = 3;

static long unseen(const struct shape *shape) { return shape->count; }

long shape_area(const struct shape *shape) {
    long area = 0;
    for (unsigned i = 0; i < shape->count; i++) area += twice(shape->corners[i].x) * squared(shape->corners[i].y);
    hidden_count++;
    return area + unseen(shape);
}

/* A rarely executed part, which a compiler may put elsewhere. */
__attribute__((cold, noinline)) int shape_rare(int n) {
    static int times;
    return n + ++times;
}

int shape_sum(const struct shape *shape, measure each) {
    if (__builtin_expect(shape->count > 1000000u, 0)) return shape_rare((int)shape->count);
    return (int)each(shape) + shape_limit;
}

extern int shape_total(const struct shape *shape, measure each) __attribute__((alias("shape_sum")));
