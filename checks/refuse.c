/* Refuses one request for memory: the one whose number stands in REFUSE, counted from 1. When it comes, the file that TOLD names is made.
   Loaded before the C library by LD_PRELOAD. */
#define _GNU_SOURCE
#include <dlfcn.h>
#include <errno.h>
#include <fcntl.h>
#include <stdatomic.h>
#include <stdlib.h>
#include <unistd.h>

static void *(*next_malloc)(size_t);
static void *(*next_realloc)(void *, size_t);
static atomic_long asked;
static long refused;

__attribute__((constructor)) static void begin(void) {
    const char *number = getenv("REFUSE");
    next_malloc = dlsym(RTLD_NEXT, "malloc");
    next_realloc = dlsym(RTLD_NEXT, "realloc");
    refused = number ? atol(number) : 0;
    atomic_store(&asked, 0);
}

static int refuses(void) {
    const char *name;
    if (atomic_fetch_add(&asked, 1) + 1 != refused) return 0;
    name = getenv("TOLD");
    if (name) close(open(name, O_CREAT | O_WRONLY, 0600));
    errno = ENOMEM;
    return 1;
}

void *malloc(size_t size) {
    if (!next_malloc) begin();
    return refuses() ? NULL : next_malloc(size);
}

void *realloc(void *old, size_t size) {
    if (!next_realloc) begin();
    return refuses() ? NULL : next_realloc(old, size);
}
