#include "shapes.h"

/* Declared before it is defined, and used in between. */
extern int shape_late;
int shape_use(void) { return shape_late + squared(shape_limit); }
int shape_late = 4;

void shape_each(void (*call)(struct shape *, void *), struct shape *shapes, unsigned count, void *with) {
    for (unsigned i = 0; i < count; i++) call(&shapes[i], with);
}

_Complex double shape_turn(_Complex double z) { return z * z; }

int shape_many(int first, ...) { return twice(first); }

float shape_kept(float f);
float shape_kept(float f) { return f + (float)shape_title[0]; }
