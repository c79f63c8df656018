/* Preloaded into a program (LD_PRELOAD), it calls the program's main again and again, since starting a process costs more than most
   answers do. Before each call it runs the constructors of the program, one of which keeps the arguments.

   Commands come in batches. The shared file REQUESTS has the arguments, each ended by a zero byte, and a further zero byte at the end
   of a command; a number of four bytes on the pipe GO says how many commands there are. The shared file RECORDS begins with the number
   of calls that returned, and has for each of them the status, and how long the program's files 1 and 2 were then. A byte on the pipe
   DONE says that the batch is done. A call that takes more than 20 seconds of processor time ends the process with SIGPROF. The
   process ends where no more batches come. */
#define _GNU_SOURCE
#include <dlfcn.h>
#include <link.h>
#include <malloc.h>
#include <stdint.h>
#include <string.h>
#include <sys/mman.h>
#include <sys/time.h>
#include <unistd.h>

enum { GO = 100, DONE = 101, REQUESTS = 102, RECORDS = 103, SECONDS = 20, MOST_BYTES = 1 << 20, MOST_WORDS = 64 };
enum { LARGE = 32 << 20, KEPT = 64 << 20 };

struct record {
    int32_t status;
    uint32_t output;
    uint32_t errors;
};

struct records {
    volatile uint32_t count;
    struct record of[];
};

typedef int main_function(int, char **, char **);
typedef int start_function(main_function *, int, char **, void (*)(void), void (*)(void), void (*)(void), void *);
typedef void constructor(int, char **, char **);

static main_function *program;
static constructor **constructors;
static size_t constructor_count;

/* Finds the constructors of the program, which is the first object that is loaded. */
static int find_constructors(struct dl_phdr_info *object, size_t size, void *nothing)
{
    (void)size;
    (void)nothing;
    for (int i = 0; i < object->dlpi_phnum; i++) {
        if (object->dlpi_phdr[i].p_type != PT_DYNAMIC)
            continue;
        for (const ElfW(Dyn) *it = (void *)(object->dlpi_addr + object->dlpi_phdr[i].p_vaddr); it->d_tag != DT_NULL; it++) {
            if (it->d_tag == DT_INIT_ARRAY)
                constructors = (constructor **)(object->dlpi_addr + it->d_un.d_ptr);
            if (it->d_tag == DT_INIT_ARRAYSZ)
                constructor_count = it->d_un.d_val / sizeof *constructors;
        }
    }
    return 1;
}

static void limit_to(time_t seconds)
{
    struct itimerval limit = {.it_value = {.tv_sec = seconds}};
    setitimer(ITIMER_PROF, &limit, NULL);
}

static uint32_t written(int file)
{
    return (uint32_t)lseek(file, 0, SEEK_CUR);
}

/* Answers the command at a place of the requests, and returns the place of the next one. */
static char *answer(char *at, char *name, char **environment, struct record *record)
{
    char *words[MOST_WORDS + 1] = {name};
    int count = 1;
    for (; *at != 0 && count < MOST_WORDS; at += strlen(at) + 1)
        words[count++] = at;
    words[count] = NULL;
    for (size_t i = 0; i < constructor_count; i++)
        constructors[i](count, words, environment);
    limit_to(SECONDS);
    record->status = program(count, words, environment) & 0xff;
    record->output = written(1);
    record->errors = written(2);
    return at + 1;
}

static int serve(int argc, char **argv, char **environment)
{
    char *requests = mmap(NULL, MOST_BYTES, PROT_READ | PROT_WRITE, MAP_SHARED, REQUESTS, 0);
    struct records *records = mmap(NULL, MOST_BYTES, PROT_READ | PROT_WRITE, MAP_SHARED, RECORDS, 0);
    uint32_t count;
    (void)argc;
    if (requests == MAP_FAILED || records == MAP_FAILED)
        return 1;
    dl_iterate_phdr(find_constructors, NULL);
    /* Memory that a call gave back is kept for the next one, since new pages cost more than most answers do. */
    mallopt(M_MMAP_THRESHOLD, LARGE);
    mallopt(M_TRIM_THRESHOLD, KEPT);
    while (read(GO, &count, sizeof count) == sizeof count) {
        char *at = requests;
        for (uint32_t i = 0; i < count; i++) {
            at = answer(at, argv[0], environment, &records->of[i]);
            records->count = i + 1;
        }
        limit_to(0);
        if (write(DONE, "", 1) != 1)
            return 1;
    }
    return 0;
}

int __libc_start_main(main_function *main, int argc, char **argv, void (*init)(void), void (*fini)(void), void (*ended)(void), void *stack)
{
    start_function *start = (start_function *)dlsym(RTLD_NEXT, "__libc_start_main");
    program = main;
    return start(serve, argc, argv, init, fini, ended, stack);
}
