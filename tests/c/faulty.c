// Replaces functions of the C library (by LD_PRELOAD) with ones that can fail. Environment variables say how:
//   READ_FAILS, WRITE_FAILS, ALLOC_FAILS   the number of the call that fails, from 1 on, among those that read, that write to standard
//                                          output, that ask for memory
//   READ_MOST, WRITE_MOST                  the most bytes that one call moves
//   INTERRUPTED                            each call to read or write is interrupted once before it is made
//   SHRINKS                                the name of a file that has no bytes left after the first read
//   COUNTS                                 the name of a file to which the numbers of calls are written at the end
#include <errno.h>
#include <stddef.h>
#include <stdio.h>
#include <stdlib.h>
#include <sys/syscall.h>
#include <unistd.h>

extern void *__libc_malloc(size_t size);
extern void *__libc_realloc(void *at, size_t size);

static long reads, writes, allocations, interrupted;

static long number(const char *name, long otherwise) {
    const char *word = getenv(name);
    return word ? atol(word) : otherwise;
}

/* Whether the call is interrupted: every other one is, from the first on. */
static int is_interrupted(void) {
    if (!getenv("INTERRUPTED") || interrupted++ % 2) return 0;
    errno = EINTR;
    return 1;
}

static size_t least(size_t size, const char *name) {
    size_t most = (size_t)number(name, (long)size);
    return size < most ? size : most;
}

ssize_t read(int file, void *into, size_t size) {
    ssize_t count;
    if (is_interrupted()) return -1;
    if (++reads == number("READ_FAILS", 0)) {
        errno = EIO;
        return -1;
    }
    count = syscall(SYS_read, file, into, least(size, "READ_MOST"));
    if (reads == 1 && getenv("SHRINKS") && truncate(getenv("SHRINKS"), 0) != 0) abort();
    return count;
}

ssize_t write(int file, const void *from, size_t size) {
    if (file != 1) return syscall(SYS_write, file, from, size);
    if (is_interrupted()) return -1;
    if (++writes == number("WRITE_FAILS", 0)) {
        errno = ENOSPC;
        return -1;
    }
    return syscall(SYS_write, file, from, least(size, "WRITE_MOST"));
}

static int is_refused(void) {
    if (++allocations != number("ALLOC_FAILS", 0)) return 0;
    errno = ENOMEM;
    return 1;
}

void *malloc(size_t size) { return is_refused() ? NULL : __libc_malloc(size); }

void *realloc(void *at, size_t size) { return is_refused() ? NULL : __libc_realloc(at, size); }

__attribute__((destructor)) static void tell(void) {
    char text[96];
    int length;
    const char *name = getenv("COUNTS");
    FILE *file;
    if (!name) return;
    length = snprintf(text, sizeof text, "%ld %ld %ld\n", reads, writes, allocations);
    file = fopen(name, "w");
    if (!file || fwrite(text, 1, (size_t)length, file) != (size_t)length || fclose(file) != 0) abort();
}
