// Loaded in front of the C library (LD_PRELOAD), refuses one allocation of a program: the one whose number the environment gives as
// REFUSE. Where the program comes to it, the file that REFUSED names is made.
#define _GNU_SOURCE
#include <dlfcn.h>
#include <errno.h>
#include <fcntl.h>
#include <stdatomic.h>
#include <stddef.h>
#include <stdlib.h>
#include <unistd.h>

extern void *__libc_malloc(size_t);
extern void *__libc_calloc(size_t, size_t);
extern void *__libc_realloc(void *, size_t);
extern void *__libc_memalign(size_t, size_t);

static atomic_long count;
static long refused = -1;

__attribute__((constructor)) static void begin(void) {
    const char *number = getenv("REFUSE");
    refused = number ? atol(number) : 0;
    atomic_store(&count, 0);
}

static int refuses(void) {
    if (refused < 1 || atomic_fetch_add(&count, 1) + 1 != refused) {
        return 0;
    }
    const char *path = getenv("REFUSED");
    int file = path ? open(path, O_CREAT | O_WRONLY, 0600) : -1;
    if (file >= 0) {
        close(file);
    }
    errno = ENOMEM;
    return 1;
}

void *malloc(size_t size) { return refuses() ? NULL : __libc_malloc(size); }

void *calloc(size_t number, size_t size) { return refuses() ? NULL : __libc_calloc(number, size); }

void *realloc(void *old, size_t size) { return refuses() ? NULL : __libc_realloc(old, size); }

void *aligned_alloc(size_t alignment, size_t size) {
    return refuses() ? NULL : __libc_memalign(alignment, size);
}

int posix_memalign(void **out, size_t alignment, size_t size) {
    void *made = refuses() ? NULL : __libc_memalign(alignment, size);
    if (!made) {
        return ENOMEM;
    }
    *out = made;
    return 0;
}
