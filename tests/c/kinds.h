/* Types of every kind. kinds.awk reads them after preprocessing: each member, enumerator, function and variable has a line of its
   own, parameters have no names, and only the rest of its declarator and its attributes follow a name. */
#ifdef __clang__
#define QUAD __float128
#else
#define QUAD _Float128
#endif
#define ALIGNED(bytes) __attribute__((aligned(bytes)))
#define VECTOR(bytes) __attribute__((vector_size(bytes)))

/* ---- what is only declared */
struct opaque;
union hidden;

/* ---- typedefs, and chains of them */
typedef unsigned int word_1;
typedef word_1 word_2;
typedef const word_2 word_3;
typedef word_3 *word_pointer;
typedef int row[6];
typedef row rows[2];
typedef int ints_4 VECTOR(16);
typedef float floats_2 VECTOR(8);
typedef double doubles_4 VECTOR(32);
typedef unsigned char bytes_16 VECTOR(16);
typedef long long longs_8 VECTOR(64);
typedef int callback(int, void *);
typedef void (*handler)(const struct opaque *);
typedef int wide_int ALIGNED(16);
typedef double loose_double ALIGNED(4);

/* ---- enumerations of each size */
enum color {
    RED,
    GREEN = 5,
    BLUE = -3,
    AFTER_BLUE,
};
enum tiny {
    TINY_LAST = 255,
    TINY_MIDDLE = 128,
    TINY_HALF = 127,
} __attribute__((packed));
enum tiny_signed {
    TINY_LOWEST = -128,
    TINY_MINUS_ONE = -1,
    TINY_HIGHEST = 127,
} __attribute__((packed));
enum half {
    HALF_ONE = 1,
    HALF_BYTE = 255,
    HALF_MORE = 256,
    HALF_LAST = 65535,
} __attribute__((packed));
enum unsigned_int {
    INT_MIDDLE = 0x80000000u,
    INT_HALF = 0x7fffffff,
    INT_LAST = 0xffffffffu,
};
enum wide {
    WIDE_LOWEST = -0x7fffffffffffffffll - 1,
    WIDE_MINUS_ONE = -1,
    WIDE_INT = 0x80000000ll,
    WIDE_BIT = 0x10000000000ll,
    WIDE_HIGHEST = 0x7fffffffffffffffll,
};
enum unsigned_wide {
    WIDE_ZERO,
    WIDE_MIDDLE = 0x8000000000000000ull,
    WIDE_LAST = 0xffffffffffffffffull,
};

/* ---- base types */
struct base_types {
    _Bool truth;
    char letter;
    signed char small;
    unsigned char byte;
    short half;
    unsigned short positive_half;
    int whole;
    unsigned int positive;
    long wide;
    unsigned long positive_wide;
    long long wider;
    unsigned long long positive_wider;
    __int128 widest;
    unsigned __int128 positive_widest;
    float real;
    double precise;
    long double extended;
    QUAD quad;
    _Complex float pair;
    _Complex double precise_pair;
    _Complex long double extended_pair;
    _Complex QUAD quad_pair;
};
#ifndef __clang__
struct gnu_types {
    _Float16 short_real;
    _Float32 real;
    _Float64 precise;
    _Float32x more;
    _Float64x extended;
    __float128 quad;
    _Decimal32 decimal;
    _Decimal64 precise_decimal;
    _Decimal128 quad_decimal;
};
#endif
struct texts {
    unsigned short units_16;
    __CHAR16_TYPE__ text_16[3];
    __CHAR32_TYPE__ text_32[3];
    __WCHAR_TYPE__ wide_text[3];
};

/* ---- bit fields */
struct bits {
    unsigned int one : 1;
    unsigned int three : 3;
    int negative : 5;
    unsigned int : 4;
    unsigned int across : 30;
    _Bool flag : 1;
    unsigned int : 0;
    char letter : 7;
    signed char small : 3;
    unsigned short half : 11;
    long long wide : 40;
    unsigned long long wider : 63;
    unsigned char byte;
};
#ifndef __clang__
/* clang does not describe a bit field with all bits of its type as a bit field */
struct full_bits {
    int whole : 32;
    unsigned long long wide : 64;
    enum tiny little : 8;
    _Bool flag : 1;
    char letter : 8;
};
#endif
struct packed_bits {
    unsigned char first : 5;
    unsigned int second : 20;
    unsigned short third : 7;
    char fourth;
    long fifth : 13;
    int sixth : 11;
    unsigned short seventh;
    unsigned int last : 3;
} __attribute__((packed));
#ifdef CROSSING
/* bit fields that lie in more bytes than their types have */
struct crossing_bits {
    unsigned char first : 5;
    unsigned long long second : 62;
    int third : 31;
    unsigned short fourth;
    unsigned int last : 32;
    long : 3;
} __attribute__((packed));
#endif
struct mixed_bits {
    char first;
    enum color shade : 4;
    enum tiny little : 7;
    word_2 word : 17;
    const unsigned int fixed;
    volatile int moving : 9;
    int : 5;
    short behind : 6;
    short : 0;
    int after : 2;
};
struct wide_bits {
    __int128 low : 70;
    unsigned __int128 high : 41;
    unsigned __int128 rest : 100;
};
union bit_union {
    unsigned int low : 4;
    int middle : 9;
    long long high : 33;
    unsigned char byte;
};

/* ---- structures and unions, and nested ones */
struct empty {
};
struct point {
    int x;
    int y;
};
struct three_bytes {
    char bytes[3];
};
union number {
    int whole;
    double real;
    char text[11];
    struct point point;
};
struct nested {
    char first;
    struct {
        short a;
        union {
            int b;
            float c;
            struct {
                char d;
                double e;
            };
        };
        unsigned int f : 5;
        unsigned int g : 6;
    };
    struct {
        int x;
        struct {
            char y;
            long z;
        } deeper;
        union {
            int p;
            char q;
        };
    } inner;
    union {
        long whole;
        char bytes[8];
    } list[3];
    struct {
        int none;
        struct {
            short u;
            short v;
        } pairs[2][2];
    };
    enum {
        OPEN,
        CLOSED = 70000,
    } state;
    enum {
        SHORT_STATE = 1,
    } __attribute__((packed)) short_states[4];
    char last;
};
union nested_union {
    struct {
        char tag;
        int value;
    };
    struct {
        char same_tag;
        char text[12];
    };
    long long whole;
};
struct packed {
    char a;
    int b;
    double c;
    struct point d;
    short e;
} __attribute__((packed));

/* ---- arrays and vectors */
struct arrays {
    int one[5];
    char grid[3][4];
    double cube[2][3][5];
    struct point points[2][2];
    row of_rows[4];
    rows of_arrays;
    const char *names[7];
    row *to_row;
    struct point (*to_points)[3];
    union number numbers[2];
    enum color colors[3];
    ints_4 vectors[2];
    void *none[1];
};
struct flexible {
    int count;
    double tail[];
};
struct flexible_grid {
    short count;
    char tail[][5];
};
struct zero {
    short count;
    int none[0];
    char after;
};
struct vectors {
    ints_4 ints;
    floats_2 floats;
    doubles_4 doubles;
    bytes_16 bytes;
    longs_8 longs;
};

/* ---- qualified and atomic types */
struct qualified {
    const int fixed;
    volatile long moving;
    int *restrict alone;
    const volatile char *both;
    word_3 word;
    char *const *const words;
    const row fixed_row;
};
struct atomics {
    _Atomic int whole;
    _Atomic unsigned char byte;
    _Atomic(int *) pointer;
    _Atomic struct point point;
    _Atomic _Bool flag;
    volatile _Atomic long moving;
};

/* ---- pointers */
struct list {
    struct list *next;
    struct list **back;
    int value;
};
struct leaf;
struct tree {
    struct tree *left;
    struct tree *right;
    struct leaf *leaf;
};
struct leaf {
    struct tree *above;
    union number value;
};
struct pointers {
    void *any;
    const void *fixed;
    int ***thrice;
    struct opaque *opaque;
    union hidden *hidden;
    struct pointers *self;
    enum wide *wide;
    word_pointer word;
    int (*call)(int, ...);
    void (*call_back)(void *, struct point);
    struct point (*make)(void);
    enum color (*paint)(const enum color *, enum tiny);
    callback *named;
    handler handler;
    callback *list[2];
    struct {
        struct pointers *up;
        long (*count)(struct opaque *const *);
    } *nameless;
};

/* ---- alignments that are asked for */
struct aligned_type {
    char a;
    int b;
} ALIGNED(32);
struct aligned_member {
    char a;
    int b ALIGNED(16);
    char c;
};
struct aligned_keyword {
    char a;
    _Alignas(64) char b;
};
struct aligned_typedef {
    char a;
    wide_int b;
};
struct of_aligned {
    char a;
    struct aligned_type b;
};
struct packed_aligned {
    char a;
    int b;
    double c;
} __attribute__((packed, aligned(2)));
struct nested_aligned {
    char a;
    struct {
        char b;
        _Alignas(32) short c;
    };
};
struct loose {
    char a;
    loose_double b;
};
struct packed_member {
    char a;
    int b __attribute__((packed));
    short c;
};
union aligned_union {
    int a;
    char b ALIGNED(8);
};

/* ---- functions */
void nothing(void);
int sum(int, ...);
struct point move(struct point, double);
unsigned long long mix(char, short, unsigned char, _Bool, float, long double, __int128);
struct list *find(const struct list *restrict, int (*)(const struct list *, void *), void *);
callback *chosen(callback *, handler);
enum color paint(enum color, enum tiny);
ints_4 added(ints_4, floats_2);
_Complex double squared(_Complex double, _Complex float);
union number largest(union number, struct three_bytes, struct empty);
const volatile struct opaque *same(const volatile struct opaque *, union hidden **);
word_3 words(word_2, const word_pointer, ...);
QUAD halved(QUAD, wide_int);
long double *longest(struct flexible *, struct aligned_type, struct bits);

/* ---- variables */
extern _Bool v_truth;
extern char v_letter;
extern signed char v_small;
extern unsigned char v_byte;
extern short v_half;
extern unsigned short v_positive_half;
extern int v_whole;
extern unsigned int v_positive;
extern long v_wide;
extern unsigned long v_positive_wide;
extern long long v_wider;
extern unsigned long long v_positive_wider;
extern __int128 v_widest;
extern unsigned __int128 v_positive_widest;
extern float v_real;
extern double v_precise;
extern long double v_extended;
extern QUAD v_quad;
extern _Complex float v_pair;
extern _Complex double v_precise_pair;
extern _Complex long double v_extended_pair;
extern word_1 v_word_1;
extern word_2 v_word_2;
extern word_3 v_word_3;
extern word_pointer v_word_pointer;
extern int v_grid[3][4];
extern rows v_rows;
extern row v_more_rows[5];
extern const char *v_names[3];
extern ints_4 v_ints;
extern floats_2 v_floats[2];
extern doubles_4 v_doubles;
extern longs_8 v_longs;
extern _Atomic int v_atomic;
extern volatile const int v_both;
extern int v_aligned ALIGNED(64);
extern _Alignas(32) char v_alignas[3];
#ifndef NO_TYPEDEF_ALIGNMENT
extern wide_int v_wide_int;
extern loose_double v_loose_double;
#endif
extern handler v_handler;
extern enum color v_color;
extern enum tiny v_tiny;
extern enum tiny_signed v_tiny_signed;
extern enum half v_half_enum;
extern enum unsigned_int v_unsigned_int;
extern enum wide v_wide_enum;
extern enum unsigned_wide v_unsigned_wide;
extern struct base_types v_base_types;
#ifndef __clang__
extern struct gnu_types v_gnu_types;
#endif
extern struct texts v_texts;
extern struct bits v_bits;
#ifndef __clang__
extern struct full_bits v_full_bits;
#endif
extern struct packed_bits v_packed_bits;
#ifdef CROSSING
extern struct crossing_bits v_crossing_bits;
#endif
extern struct mixed_bits v_mixed_bits;
extern struct wide_bits v_wide_bits;
extern union bit_union v_bit_union;
extern struct three_bytes v_three_bytes;
extern union number v_number;
extern struct nested v_nested;
extern union nested_union v_nested_union;
extern struct packed v_packed;
extern struct arrays v_arrays;
extern struct flexible v_flexible;
extern struct flexible_grid v_flexible_grid;
extern struct zero v_zero;
extern struct vectors v_vectors;
extern struct qualified v_qualified;
extern struct atomics v_atomics;
extern struct list v_list;
extern struct tree v_tree[2];
extern const struct pointers v_pointers;
extern struct aligned_member v_aligned_member;
extern struct aligned_keyword v_aligned_keyword;
extern struct aligned_typedef v_aligned_typedef;
extern struct of_aligned v_of_aligned;
extern struct packed_aligned v_packed_aligned;
extern struct nested_aligned v_nested_aligned;
extern struct loose v_loose;
extern struct packed_member v_packed_member;
extern union aligned_union v_aligned_union;
