/* Refuses one request for memory and one start of a thread: of the requests, by malloc, calloc, realloc or
 * aligned_alloc, that of number REFUSE_AT, and of the starts, by pthread_create, that of number REFUSE_START, each from
 * 1. How many there were stands in the file REFUSE_COUNT, where that is set, as two 64-bit numbers, requests and starts.
 * The file is mapped, so they stand there whatever way the process ends.
 * Build: cc -O2 -shared -fPIC refuse.c -o refuse.so -ldl. Use: LD_PRELOAD=./refuse.so REFUSE_AT=3 PROGRAM. */
#define _GNU_SOURCE
#include <dlfcn.h>
#include <errno.h>
#include <fcntl.h>
#include <pthread.h>
#include <stddef.h>
#include <stdint.h>
#include <stdlib.h>
#include <sys/mman.h>
#include <unistd.h>

enum { REQUESTS, STARTS, KINDS };

/* The number that is refused of each kind, and how many there were. */
static int64_t refused[KINDS];
static int64_t untold[KINDS];
static int64_t *seen = untold;

static int refuses(int kind) {
    return __atomic_add_fetch(&seen[kind], 1, __ATOMIC_SEQ_CST) == refused[kind];
}

static int64_t number(const char *name) {
    const char *text = getenv(name);
    return text ? atoll(text) : 0;
}

/* Maps the file of the counts. What ran before this, while there is one thread, goes on in it. */
__attribute__((constructor)) static void begin(void) {
    const char *name = getenv("REFUSE_COUNT");
    refused[REQUESTS] = number("REFUSE_AT");
    refused[STARTS] = number("REFUSE_START");
    if (name) {
        int file = open(name, O_RDWR | O_CREAT | O_TRUNC, 0600);
        if (file < 0 || ftruncate(file, sizeof untold) != 0) _exit(99);
        int64_t *shared = mmap(NULL, sizeof untold, PROT_READ | PROT_WRITE, MAP_SHARED, file, 0);
        if (shared == MAP_FAILED) _exit(99);
        close(file);
        shared[REQUESTS] = untold[REQUESTS];
        seen = shared;
    }
}

#define REPLACE(kind, result, refusal, name, parameters, arguments)      \
    result name parameters {                                             \
        static result(*real) parameters;                                 \
        if (!real) real = (result(*) parameters)dlsym(RTLD_NEXT, #name); \
        if (refuses(kind)) return refusal;                               \
        return real arguments;                                           \
    }

static void *no_memory(void) {
    errno = ENOMEM;
    return NULL;
}

REPLACE(REQUESTS, void *, no_memory(), malloc, (size_t size), (size))
REPLACE(REQUESTS, void *, no_memory(), realloc, (void *block, size_t size), (block, size))
REPLACE(REQUESTS, void *, no_memory(), aligned_alloc, (size_t align, size_t size), (align, size))
REPLACE(STARTS, int, EAGAIN, pthread_create,
        (pthread_t * thread, const pthread_attr_t *attributes, void *(*run)(void *), void *argument),
        (thread, attributes, run, argument))

/* dlsym itself may call calloc, and gets its few bytes from here. */
static char spare[4096];
static size_t spare_used;

void *calloc(size_t count, size_t size) {
    static void *(*real)(size_t, size_t);
    static int looking;
    if (!real && !looking) {
        looking = 1;
        real = (void *(*)(size_t, size_t))dlsym(RTLD_NEXT, "calloc");
        looking = 0;
    }
    if (!real) {
        size_t whole = (count * size + 15) / 16 * 16;
        if (whole > sizeof spare - spare_used) return NULL;
        spare_used += whole;
        return spare + spare_used - whole;
    }
    return refuses(REQUESTS) ? no_memory() : real(count, size);
}
