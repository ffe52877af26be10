/* Loaded before a program: refuses one growth of its memory, the one whose number REFUSE_GROWTH says, and counts them all in the
   file that COUNT_GROWTHS names, which has room for a long. */
#define _GNU_SOURCE
#include <dlfcn.h>
#include <errno.h>
#include <fcntl.h>
#include <stdatomic.h>
#include <stdlib.h>
#include <sys/mman.h>
#include <unistd.h>

static atomic_long uncounted;
static atomic_long *count = &uncounted;
static long refused;

/* Runs before main, and so before any other thread. */
__attribute__((constructor)) static void begin(void)
{
    const char *said = getenv("REFUSE_GROWTH"), *name = getenv("COUNT_GROWTHS");
    int file = name ? open(name, O_RDWR | O_CLOEXEC) : -1;
    refused = said ? atol(said) : 0;
    if (file >= 0) {
        void *shared = mmap(NULL, sizeof *count, PROT_READ | PROT_WRITE, MAP_SHARED, file, 0);
        if (shared != MAP_FAILED)
            count = shared;
        close(file);
    }
}

static int is_refused(void)
{
    return atomic_fetch_add(count, 1) + 1 == refused;
}

void *malloc(size_t size)
{
    static void *(*next)(size_t);
    if (!next)
        next = (void *(*)(size_t))dlsym(RTLD_NEXT, "malloc");
    return is_refused() ? NULL : next(size);
}

void *realloc(void *at, size_t size)
{
    static void *(*next)(void *, size_t);
    if (!next)
        next = (void *(*)(void *, size_t))dlsym(RTLD_NEXT, "realloc");
    return is_refused() ? NULL : next(at, size);
}

void *aligned_alloc(size_t alignment, size_t size)
{
    static void *(*next)(size_t, size_t);
    if (!next)
        next = (void *(*)(size_t, size_t))dlsym(RTLD_NEXT, "aligned_alloc");
    return is_refused() ? NULL : next(alignment, size);
}

int posix_memalign(void **at, size_t alignment, size_t size)
{
    static int (*next)(void **, size_t, size_t);
    if (!next)
        next = (int (*)(void **, size_t, size_t))dlsym(RTLD_NEXT, "posix_memalign");
    return is_refused() ? ENOMEM : next(at, alignment, size);
}
