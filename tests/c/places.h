/* What the functions that places.py makes share: types, and how a function reports what it finds in its parameters, and a caller what
 * it finds in a result. Each has bytes to pass and room for what it finds; both are in places.c. */
#ifndef PLACES_H
#define PLACES_H

typedef unsigned char byte;

enum places_limits {
    ROOM = 512, /* bytes of one object at most */
    MOST = 16    /* parameters at most */
};

/* what callers pass, and what functions find of it; what functions return, and what callers find of it */
extern byte passed[MOST][ROOM], found[MOST][ROOM], given[ROOM], kept[ROOM];

/* what callers call, as a function of any type */
extern void (*volatile put)(void);

/* A truth value is 0 or 1: a compiler may read only its lowest bit. */
enum { TRUTH = 0x10000 };

struct subject {
    const char *name;
    void (*function)(void), (*call)(void);
    unsigned result;      /* the size of the result, with TRUTH if it is a truth value */
    unsigned count;       /* how many parameters there are */
    unsigned sizes[MOST]; /* their sizes, in the same way */
};

#define PASS(n, object) __builtin_memcpy(&object, passed[n], sizeof object)
#define FIND(n, object) __builtin_memcpy(found[n], &object, sizeof object)
#define GIVE(object) __builtin_memcpy(&object, given, sizeof object)
#define KEEP(object) __builtin_memcpy(kept, &object, sizeof object)
#define FITS(type) _Static_assert(sizeof(type) <= ROOM, #type)

/* SUBJECT(NAME, RESULT, COUNT, SIZE..): describes a function for places.c; COUNT sizes follow. */
#define SUBJECT(name, result, count, ...)                                                                                    \
    static const struct subject about_##name = {#name, (void (*)(void))name, call_##name, result, count, {__VA_ARGS__}};     \
    static const struct subject *const at_##name __attribute__((section("subjects"), used)) = &about_##name

/* Types of objects in the sources. */
struct unknown;
typedef struct unknown *handle;
typedef void *address;
typedef const char *text;
typedef int (*visit)(int, const void *);
typedef double (*row)[3];

enum plain_enum { PLAIN_LEFT, PLAIN_RIGHT = 7 };
enum signed_enum { SIGNED_LEFT = -1, SIGNED_RIGHT = 1 };
enum wide_enum { WIDE_LEFT = -1, WIDE_RIGHT = 0x7fffffffffffL };
enum __attribute__((packed)) byte_enum { BYTE_LEFT, BYTE_RIGHT = 200 };
enum __attribute__((packed)) short_enum { SHORT_LEFT, SHORT_RIGHT = 2000 };

#ifdef __clang__
typedef __float128 quad;
#else
typedef _Float128 quad;
#endif

typedef char char_8 __attribute__((vector_size(8)));
typedef short short_8 __attribute__((vector_size(8)));
typedef int int_8 __attribute__((vector_size(8)));
typedef float float_8 __attribute__((vector_size(8)));
typedef char char_16 __attribute__((vector_size(16)));
typedef int int_16 __attribute__((vector_size(16)));
typedef long long_16 __attribute__((vector_size(16)));
typedef float float_16 __attribute__((vector_size(16)));
typedef double double_16 __attribute__((vector_size(16)));
typedef char char_32 __attribute__((vector_size(32)));
typedef long long_32 __attribute__((vector_size(32)));
typedef float float_32 __attribute__((vector_size(32)));
typedef double double_32 __attribute__((vector_size(32)));
typedef int int_64 __attribute__((vector_size(64)));
typedef double double_64 __attribute__((vector_size(64)));
typedef char char_2 __attribute__((vector_size(2)));
typedef char char_4 __attribute__((vector_size(4)));
typedef short short_4 __attribute__((vector_size(4)));
typedef float float_4 __attribute__((vector_size(4)));
typedef long long_8 __attribute__((vector_size(8)));
typedef double double_8 __attribute__((vector_size(8)));
typedef __int128 int128_16 __attribute__((vector_size(16)));
typedef __int128 int128_32 __attribute__((vector_size(32)));

#endif
