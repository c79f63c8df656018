/* What the units of the library share: types, and inline functions. */
struct point { int x, y; };

struct shape {
    const char *name;
    struct point *corners;
    unsigned count;
    enum { OPEN, CLOSED } kind;
};

typedef long (*measure)(const struct shape *);

static inline int twice(int n) { return n + n; }

inline int squared(int n) { return n * n; }

extern int shape_limit;
extern const char shape_title[];
long shape_area(const struct shape *shape);
int shape_sum(const struct shape *shape, measure each);
