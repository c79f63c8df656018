/* Structures whose layouts are compared: plain ones, bit fields, nameless structures and unions, flexible and empty arrays, packed and
   aligned members. Each begins at the start of a line by `struct NAME {`. */
struct nothing {};
struct one { char c; };
struct plain { char c; int i; char d; };
struct tight { int i; short s; char c; char d; };
struct pointers { char c; void *p; char d; int (*call)(int); };
struct numbers { _Bool b; short s; long l; float f; double d; };
struct long_double { char c; long double x; char d; };
struct complex_numbers { char c; float _Complex f; char d; double _Complex x; };
struct wide { char c; __int128 x; int i; };
struct array { char c[3]; int i[2]; char d[5]; };
struct table { char c; short s[2][3]; long l; };
struct texts { const char *name; volatile char c; const long l; };
struct enumeration { char c; enum { first_value, second_value } e; char d; };
struct next { struct next *next; char c; };

struct inner { int i; char c; };
struct outer { char c; struct inner in; char d; };
struct array_of_inner { char c; struct inner in[3]; char d; };
struct function_table { char c; void (*a)(void); int (*b[2])(struct inner *); };

struct bits { unsigned a : 3, b : 5, c : 8; };
struct bits_apart { unsigned a : 3; unsigned : 5; unsigned b : 4; };
struct bits_over { unsigned a : 20, b : 20; };
struct bits_zero { unsigned a : 3; unsigned : 0; unsigned b : 5; };
struct bits_of_long { unsigned long a : 40, b : 30, c : 10; };
struct bits_of_char { unsigned char a : 4, b : 4, c : 3; };
struct bits_of_bool { _Bool a : 1, b : 1; char c; };
struct bits_mixed { char c; int a : 4; short s; int b : 12; };
struct bits_behind { int i; unsigned a : 7; };
struct bits_before { unsigned a : 7; char c; int i; };
struct bits_signed { signed a : 3; signed b : 13; long c : 33; };
struct bits_of_enum { enum { red, green, blue } e : 2; unsigned a : 2; };
struct bits_at_end { long l; unsigned char a : 1; };

struct nameless { char c; struct { char a; int b; }; char d; };
struct nameless_deep { char c; struct { short a; struct { char b; long l; }; char e; }; };
struct nameless_bits { char c; struct { unsigned a : 3, b : 3; }; };
struct nameless_tail { struct { int i; char c; }; };
struct nameless_twice { struct { int i; char c; }; struct { short s; char d; }; };

struct choice { union { int a; char b; }; };
struct choice_named { char c; union { int a; char b; } u; char d; };
struct choice_later { char c; union { int a; char b[8]; }; char d; };
struct choice_of_structures { union { struct { char a; int b; }; struct { short s; long l; }; }; char d; };
struct choice_of_one { char c; union { long l; }; char d; };
struct choice_of_bits { union { unsigned all; struct { unsigned low : 4, high : 28; }; }; };
struct choice_same { union { int a; float f; }; };
struct choice_deep { int kind; union { struct { union { char a; short b; }; int i; }; double d; }; };

struct flexible { int n; double a[]; };
struct flexible_beside { char c; char a[]; };
struct flexible_tight { int n; char c; short a[]; };
struct empty_array { int n; int a[0]; int m; };
struct empty_arrays { char a[0]; int b[0]; long l; };
struct empty_member { struct nothing a; int i; struct nothing b; };
struct empty_in_hole { char c; struct nothing a; int i; };
struct empty_apart { char c; int a[0]; char d; };

struct __attribute__((packed)) packed { char c; int i; short s; };
struct __attribute__((packed)) packed_bits { char c; unsigned a : 3, b : 17; char d; };
struct packed_member { char c; int i __attribute__((packed)); long l; };
struct __attribute__((packed)) packed_nameless { char c; struct { char a; int b; }; char d; };
struct __attribute__((packed, aligned(4))) packed_aligned { char c; int i; char d; };
struct aligned_member { char c; int i __attribute__((aligned(16))); char d; };
struct __attribute__((aligned(32))) aligned { char c; };
struct vector { char c; int v __attribute__((vector_size(16))); char d; };
struct long_one { char c; char pad[100]; int i; char d[63]; long l; char e; };
