/* Preloaded before a program, refuses its Nth allocation, N being the environment's REFUSE,
   and leaves the file that REFUSED names if it did. The allocations of all threads are counted. */
#define _GNU_SOURCE
#include <dlfcn.h>
#include <errno.h>
#include <fcntl.h>
#include <stdatomic.h>
#include <stdlib.h>
#include <unistd.h>

static atomic_long growths;

static int is_refused(void) {
    const char *number = getenv("REFUSE"), *mark = getenv("REFUSED");
    if (!number || !mark || atomic_fetch_add(&growths, 1) + 1 != atol(number))
        return 0;
    int file = open(mark, O_CREAT | O_WRONLY, 0600);
    if (file >= 0)
        close(file);
    errno = ENOMEM;
    return 1;
}

void *malloc(size_t size) {
    static void *(*next)(size_t);
    if (!next)
        next = (void *(*)(size_t))dlsym(RTLD_NEXT, "malloc");
    return is_refused() ? NULL : next(size);
}

void *realloc(void *block, size_t size) {
    static void *(*next)(void *, size_t);
    if (!next)
        next = (void *(*)(void *, size_t))dlsym(RTLD_NEXT, "realloc");
    return is_refused() ? NULL : next(block, size);
}
