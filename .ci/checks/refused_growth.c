/* Preloaded into a program, this library refuses one of its growths: of the calls of malloc and
 * realloc that ask for memory, the one whose number, from 1, is in REFUSED_GROWTH (none, if that is
 * not set). At the program's end it writes into the file REFUSED_GROWTH_REPORT how many growths were
 * asked for, how many blocks were not given back, and how many bytes were held at most. A program
 * may ask it, by memory_calls, for the number of calls of malloc, realloc and free so far. */
#define _GNU_SOURCE
#include <dlfcn.h>
#include <errno.h>
#include <malloc.h>
#include <stdatomic.h>
#include <stddef.h>
#include <stdio.h>
#include <stdlib.h>
#include <sys/syscall.h>
#include <unistd.h>

static void *(*real_malloc)(size_t);
static void *(*real_realloc)(void *, size_t);
static void (*real_free)(void *);

static atomic_long asked;
static atomic_long calls;
static atomic_long held;
static atomic_long bytes;
static atomic_long most;
static long refused;

__attribute__((constructor)) static void begin(void) {
    const char *number = getenv("REFUSED_GROWTH");
    real_malloc = (void *(*)(size_t))dlsym(RTLD_NEXT, "malloc");
    real_realloc = (void *(*)(void *, size_t))dlsym(RTLD_NEXT, "realloc");
    real_free = (void (*)(void *))dlsym(RTLD_NEXT, "free");
    asked = 0;
    held = 0;
    bytes = 0;
    most = 0;
    refused = number ? atol(number) : 0;
}

__attribute__((destructor)) static void end(void) {
    const char *path = getenv("REFUSED_GROWTH_REPORT");
    long growths = asked, blocks = held, peak = most;
    FILE *report;
    refused = 0;
    report = path ? fopen(path, "w") : NULL;
    if (report) {
        fprintf(report, "%ld %ld %ld\n", growths, blocks, peak);
        fclose(report);
    }
}

/* A program that may start threads ends by this call, which runs no destructor. */
void _exit(int status) {
    end();
    for (;;)
        syscall(SYS_exit_group, status);
}

long memory_calls(void) {
    return calls;
}

static int is_refused(void) {
    atomic_fetch_add(&calls, 1);
    if (atomic_fetch_add(&asked, 1) + 1 != refused)
        return 0;
    errno = ENOMEM;
    return 1;
}

static void grow(long by) {
    long now = atomic_fetch_add(&bytes, by) + by, before = most;
    while (now > before && !atomic_compare_exchange_weak(&most, &before, now))
        ;
}

/* What is asked for before `begin` comes from the loader itself, and is not counted. */
void *malloc(size_t size) {
    void *block;
    if (!real_malloc)
        real_malloc = (void *(*)(size_t))dlsym(RTLD_NEXT, "malloc");
    if (is_refused())
        return NULL;
    block = real_malloc(size);
    if (block) {
        atomic_fetch_add(&held, 1);
        grow((long)malloc_usable_size(block));
    }
    return block;
}

void *realloc(void *old, size_t size) {
    void *block;
    long before = old ? (long)malloc_usable_size(old) : 0;
    if (!real_realloc)
        real_realloc = (void *(*)(void *, size_t))dlsym(RTLD_NEXT, "realloc");
    if (is_refused())
        return NULL;
    block = real_realloc(old, size);
    if (block && !old)
        atomic_fetch_add(&held, 1);
    if (block)
        grow((long)malloc_usable_size(block) - before);
    return block;
}

void free(void *block) {
    atomic_fetch_add(&calls, 1);
    if (!real_free)
        real_free = (void (*)(void *))dlsym(RTLD_NEXT, "free");
    if (block) {
        atomic_fetch_add(&held, -1);
        atomic_fetch_sub(&bytes, (long)malloc_usable_size(block));
    }
    real_free(block);
}
