/* Observes in compiled code where calls pass their arguments and results. For each function that places.py made it prints
 *
 *   NAME params LIST result PLACE
 *
 * as `abi exports` prints places. Each byte of a register, of the stack and of an object is a mark, which differs in each run,
 * so that its values over all runs identify a byte. The place of an argument is where the function takes it from: the function
 * is called with marks in all argument registers and on the stack, and copies its parameters. The place of a result is where
 * the caller takes it from: the caller calls a function that leaves marks in all result registers, or in memory if the caller
 * passes an address, and copies the result. The other side must agree: the caller must put the bytes of its arguments there,
 * and the function those of its result. Bytes of padding need not be the same on both sides.
 *
 *   places WIDTH      WIDTH is how many bytes of a vector register hold marks: 16, 32 or 64 */
#define _GNU_SOURCE
#include <setjmp.h>
#include <signal.h>
#include <stdbool.h>
#include <stddef.h>
#include <stdint.h>
#include <stdio.h>
#include <stdlib.h>
#include <string.h>
#include <sys/mman.h>
#include "places.h"

byte passed[MOST][ROOM], found[MOST][ROOM], given[ROOM], kept[ROOM];

extern const struct subject *const __start_subjects[], *const __stop_subjects[];

/* ---- calls, in places_call.S */

enum { GENERAL = 8, VECTORS = 8, VECTOR_SIZE = 64, X87S = 2, X87_SIZE = 16 };

struct registers {
    uint64_t general[GENERAL]; /* rdi, rsi, rdx, rcx, r8, r9, rax, and none */
    byte vector[VECTORS][VECTOR_SIZE];
    byte x87[X87S][X87_SIZE];
};

enum { RDI = 0, RAX = 6 };
static const char *const general_names[GENERAL] = {"rdi", "rsi", "rdx", "rcx", "r8", "r9", "rax", "none"};

struct registers entry, left, noted, outcome;
void (*function)(void);
void *stack;
int vector_size;
void enter(void);
void put_noted(void);
void (*volatile put)(void) = put_noted;

/* ---- marks */

enum { RUNS = 32, STACK = 1 << 13, ARENA = 1 << 20, LINE = 8 };

/* the bytes where an argument or a result may be: registers, and then the stack or memory */
struct sites {
    struct registers registers;
    byte memory[STACK];
};

typedef byte object[ROOM];

/* The outcome of the calls of one side: what was at all sites and which objects it took from there, and what it left there of the
 * objects that it passed. */
struct side {
    struct sites marks[RUNS], left[RUNS];
    object took[RUNS][MOST], gave[RUNS][MOST];
};

static struct side caller, callee;
static byte *arena;        /* the memory for calls, with the stack in its middle */
static size_t memory_used; /* how many bytes on the stack, or of a result in memory, hold marks */
static int run;

static uint64_t state = 0x9e3779b97f4a7c15;

static uint64_t next(void)
{
    state ^= state << 13;
    state ^= state >> 7;
    state ^= state << 17;
    return state * 0x2545f4914f6cdd1d;
}

static void mark(void *bytes, size_t size)
{
    for (size_t at = 0; at < size; at += sizeof state) {
        uint64_t value = next();
        memcpy((byte *)bytes + at, &value, size - at < sizeof value ? size - at : sizeof value);
    }
}

/* the size of an object, and which bits of its first byte it keeps */
static size_t size_of(unsigned size) { return size & ~(unsigned)TRUTH; }
static byte mask_of(unsigned size) { return size & TRUTH ? 1 : 0xff; }

static void mark_object(object bytes, unsigned size)
{
    mark(bytes, size_of(size));
    bytes[0] &= mask_of(size);
}

/* ---- where bytes come from */

enum sort { NOWHERE, ASTRAY, IN_GENERAL, IN_VECTOR, IN_X87, IN_MEMORY };

/* a byte of a register or of memory; `number` says which register of its kind */
struct site {
    enum sort sort;
    unsigned number, at;
};

static struct site site_of(size_t at)
{
    size_t vector = offsetof(struct registers, vector), x87 = offsetof(struct registers, x87);
    if (at < vector) return (struct site){IN_GENERAL, at / LINE, at % LINE};
    if (at < x87) return (struct site){IN_VECTOR, (at - vector) / VECTOR_SIZE, (at - vector) % VECTOR_SIZE};
    if (at < sizeof(struct registers)) return (struct site){IN_X87, (at - x87) / X87_SIZE, (at - x87) % X87_SIZE};
    return (struct site){IN_MEMORY, 0, at - sizeof(struct registers)};
}

/* Whether byte `at` of the sites was byte `from` of object `n` in all runs. */
static bool agrees(const struct sites *sites, size_t at, object (*objects)[MOST], unsigned n, size_t from, byte mask)
{
    for (int k = 0; k < RUNS; k++)
        if ((((const byte *)&sites[k])[at] ^ objects[k][n][from]) & mask) return false;
    return true;
}

/* The site that one side took byte `from` of object `n` from in all runs, and where the other side left it in all runs. Padding may
 * come from anywhere, so the first side alone does not say where it is. */
static struct site where(struct side *side, struct side *other, unsigned n, size_t from, byte mask)
{
    size_t end = sizeof(struct registers) + memory_used;
    for (size_t at = 0; at < end; at++)
        if (agrees(side->marks, at, side->took, n, from, mask))
            return agrees(other->left, at, other->gave, n, from, mask) ? site_of(at) : (struct site){ASTRAY, 0, 0};
    return (struct site){NOWHERE, 0, 0};
}

/* ---- places */

static const struct subject *subject;
static bool failed;

static void told(const char *what)
{
    fprintf(stderr, "%s: %s\n", subject->name, what);
    failed = true;
}

/* a place to print, and the site where each eightbyte begins */
struct place {
    char text[256];
    struct site lines[ROOM / LINE];
};

static bool is_behind(struct site a, struct site b, size_t step)
{
    return a.sort == b.sort && a.number == b.number && a.at + step == b.at;
}

/* Where the eightbyte `k` of object `n` begins: nowhere if none of its bytes comes from marks, and astray if one does, but the
 * other side left none of its bytes where it was taken from. */
static struct site line_of(struct side *side, struct side *other, unsigned n, unsigned size, size_t k)
{
    struct site start = {NOWHERE, 0, 0};
    for (size_t b = 0; b < LINE && k * LINE + b < size_of(size); b++) {
        struct site site = where(side, other, n, k * LINE + b, mask_of(size));
        if (start.sort == NOWHERE && site.sort == ASTRAY) start = site;
        if (site.sort <= ASTRAY) continue;
        if (start.sort <= ASTRAY ? site.at < b : !is_behind(start, site, b)) told("an eightbyte is in pieces");
        site.at -= b;
        start = site;
    }
    return start;
}

/* Whether all eightbytes that come from marks lie in one piece of memory; if so, `*start` is where the object begins. */
static bool is_in_memory(const struct place *place, size_t lines, unsigned *start)
{
    bool some = false;
    for (size_t k = 0; k < lines; k++) {
        struct site site = place->lines[k];
        if (site.sort <= ASTRAY) continue;
        if (site.sort != IN_MEMORY || (some && site.at - k * LINE != *start)) return false;
        *start = site.at - k * LINE;
        some = true;
    }
    return some;
}

/* Prints the registers of all eightbytes; `none` if there are none, and `astray` if one side takes the object from where the other
 * does not leave it. It also prints what no valid place has: a part of a register with its offset, or memory besides registers. */
static void join(struct place *place, size_t lines)
{
    char *end = place->text;
    bool astray = false;
    for (size_t k = 0, many; k < lines; k += many) {
        struct site site = place->lines[k];
        many = 1;
        astray = astray || site.sort == ASTRAY;
        if (site.sort <= ASTRAY) continue;
        while (k + many < lines && is_behind(site, place->lines[k + many], many * LINE)) many++;
        if (end != place->text) *end++ = '+';
        switch (site.sort) {
        case IN_GENERAL: end += sprintf(end, "%s", general_names[site.number]); break;
        case IN_VECTOR: end += sprintf(end, many > 1 ? "xmm%u*%zu" : "xmm%u", site.number, many); break;
        case IN_X87: end += sprintf(end, "st%u", site.number); break;
        default: end += sprintf(end, "stack+%u:%zu", site.at, many * LINE); continue;
        }
        if (site.at != 0) end += sprintf(end, "@%u", site.at);
    }
    if (end == place->text) strcpy(end, astray ? "astray" : "none");
}

/* Finds the place of object `n`. An object in memory is on the stack or, for a result, at the address that was passed. */
static void find_place(struct place *place, struct side *side, struct side *other, unsigned n, unsigned size)
{
    size_t lines = (size_of(size) + LINE - 1) / LINE;
    unsigned start = 0;
    for (size_t k = 0; k < lines; k++) place->lines[k] = line_of(side, other, n, size, k);
    if (!is_in_memory(place, lines, &start)) join(place, lines);
    else if (side == &caller) strcpy(place->text, start == 0 ? "memory" : "memory elsewhere");
    else sprintf(place->text, "stack+%u:%zu", start, lines * LINE);
}

/* ---- runs */

static sigjmp_buf back;
static bool hidden; /* the caller passes the address of the result */

static void on_signal(int number) { siglongjmp(back, number); }

/* Calls `function`; false if that ends with a signal. */
static bool entered(void)
{
    if (sigsetjmp(back, 1) != 0) {
        __asm__ volatile("fninit");
        return false;
    }
    enter();
    return true;
}

/* What callers call. The result is in registers or, if its address is passed, there. */
void answer(const void *arguments);
void answer(const void *arguments)
{
    uint64_t address = noted.general[RDI];
    caller.left[run].registers = noted;
    memcpy(caller.left[run].memory, arguments, memory_used);
    outcome = caller.marks[run].registers;
    if (!hidden) return;
    if (address < (uintptr_t)arguments || address >= (uintptr_t)arena + ARENA) siglongjmp(back, SIGSEGV);
    memcpy((void *)address, caller.marks[run].memory, size_of(subject->result));
    outcome.general[RAX] = address;
}

/* Puts marks at all sites, and other marks around them. */
static void prepare(struct side *side)
{
    mark(&side->marks[run].registers, sizeof(struct registers));
    mark(side->marks[run].memory, memory_used);
    for (unsigned n = 0; n < subject->count; n++) mark(found[n], size_of(subject->sizes[n]));
    mark(kept, size_of(subject->result));
    mark((byte *)stack - STACK, STACK + memory_used);
    mark(&entry, sizeof entry);
}

/* Lets the caller call, in all runs. */
static bool called(void)
{
    for (run = 0; run < RUNS; run++) {
        prepare(&caller);
        for (unsigned n = 0; n < subject->count; n++) {
            mark_object(passed[n], subject->sizes[n]);
            memcpy(caller.gave[run][n], passed[n], size_of(subject->sizes[n]));
        }
        function = subject->call;
        if (!entered()) return false;
        memcpy(caller.took[run][0], kept, size_of(subject->result));
    }
    return true;
}

/* Lets the function find its parameters, in all runs. */
static bool taken(void)
{
    byte *result = (byte *)stack + ARENA / 4;
    for (run = 0; run < RUNS; run++) {
        prepare(&callee);
        mark_object(given, subject->result);
        memcpy(callee.gave[run][0], given, size_of(subject->result));
        entry = callee.marks[run].registers;
        if (hidden) entry.general[RDI] = (uintptr_t)result;
        entry.general[RAX] = VECTORS; /* the most that a function with unspecified parameters may use */
        memcpy(stack, callee.marks[run].memory, memory_used);
        function = subject->function;
        if (!entered()) return false;
        if (hidden && left.general[RAX] != (uintptr_t)result) return false;
        callee.left[run].registers = left;
        memcpy(callee.left[run].memory, result, size_of(subject->result));
        for (unsigned n = 0; n < subject->count; n++) memcpy(callee.took[run][n], found[n], size_of(subject->sizes[n]));
    }
    return true;
}

/* Whether the caller took any byte of the result from marks. */
static bool is_taken(void)
{
    for (size_t b = 0; b < size_of(subject->result); b++)
        if (where(&caller, &caller, 0, b, mask_of(subject->result)).sort != NOWHERE) return true;
    return false;
}

/* Lets the caller call with the result in registers and, if it takes nothing from there, with the result in memory. */
static bool called_either_way(void)
{
    hidden = false;
    bool ended = called();
    if (size_of(subject->result) == 0 || (ended && is_taken())) return ended;
    hidden = true;
    if (called() && is_taken()) return true;
    hidden = false;
    return called();
}

static void print_places(void)
{
    static struct place place;
    memory_used = size_of(subject->result) + 64;
    for (unsigned n = 0; n < subject->count; n++) memory_used += size_of(subject->sizes[n]) + 64;
    if (memory_used > STACK) return told("its parameters are too large");
    if (!called_either_way()) return told("its caller ends with a signal");
    if (!taken()) return told("it ends with a signal, or does not give the address of its result");

    printf("%s params ", subject->name);
    for (unsigned n = 0; n < subject->count; n++) {
        find_place(&place, &callee, &caller, n, subject->sizes[n]);
        printf("%s%s", n == 0 ? "" : ",", place.text);
    }
    find_place(&place, &caller, &callee, 0, subject->result);
    printf("%s result %s\n", subject->count == 0 ? "-" : "", place.text);
}

int main(int count, char **words)
{
    vector_size = count == 2 ? atoi(words[1]) : 0;
    if (vector_size != 16 && vector_size != 32 && vector_size != 64) return 2;
    arena = mmap(NULL, ARENA, PROT_READ | PROT_WRITE, MAP_PRIVATE | MAP_ANONYMOUS, -1, 0);
    if (arena == MAP_FAILED) return 2;
    stack = arena + ARENA / 2;

    static byte signal_stack[1 << 16];
    sigaltstack(&(stack_t){.ss_sp = signal_stack, .ss_size = sizeof signal_stack}, NULL);
    struct sigaction action = {.sa_handler = on_signal, .sa_flags = SA_ONSTACK};
    sigaction(SIGSEGV, &action, NULL);
    sigaction(SIGBUS, &action, NULL);
    sigaction(SIGILL, &action, NULL);

    for (const struct subject *const *at = __start_subjects; at < __stop_subjects; at++) {
        subject = *at;
        print_places();
    }
    return failed;
}
