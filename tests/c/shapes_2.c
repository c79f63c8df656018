#include "shapes.h"

union number { int whole; double part; };

int shape_points;
union number shape_number = { 1 };
int (*shape_call)(int) = 0;
struct point shape_corners[2][3];

static struct point origin;

struct point *shape_origin(void) { return &origin; }

__attribute__((noinline)) static int inner(int n) { return n * 3; }

int shape_first(int n) {
    struct local { int n; } kept = { inner(n) };
    return kept.n + shape_points;
}

int shape_old(int n) { return inner(n) + 1; }

int shape_new(int n) { return inner(n) + 2; }

#ifdef VERSIONS
__asm__(".symver shape_old, shape_step@OLD");
__asm__(".symver shape_new, shape_step@@NEW");
#endif
