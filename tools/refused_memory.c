// Refuses allocations of a program that is run with this as LD_PRELOAD: the one of the number REFUSED alone, or, with REFUSED_ON, all from it on.
// The file REFUSED_COUNT, of eight bytes, counts the allocations, since a program may end without a word to its libraries.
#include <errno.h>
#include <fcntl.h>
#include <stdatomic.h>
#include <stddef.h>
#include <stdlib.h>
#include <sys/mman.h>

extern void *__libc_malloc(size_t);
extern void *__libc_calloc(size_t, size_t);
extern void *__libc_realloc(void *, size_t);

static atomic_ulong own, *count = &own;
static unsigned long refused;
static int on;

__attribute__((constructor)) static void begin(void) {
    const char *number = getenv("REFUSED"), *name = getenv("REFUSED_COUNT");
    refused = number ? strtoul(number, NULL, 10) : 0;
    on = getenv("REFUSED_ON") != NULL;
    int file = name ? open(name, O_RDWR) : -1;
    void *shared = file < 0 ? MAP_FAILED : mmap(NULL, sizeof *count, PROT_READ | PROT_WRITE, MAP_SHARED, file, 0);
    if (shared != MAP_FAILED) {
        count = shared;
    }
    atomic_store(count, 0);
}

static int is_refused(void) {
    unsigned long number = atomic_fetch_add(count, 1) + 1;
    return refused && (number == refused || (on && number > refused));
}

void *malloc(size_t size) {
    if (is_refused()) {
        errno = ENOMEM;
        return NULL;
    }
    return __libc_malloc(size);
}

void *calloc(size_t many, size_t size) {
    if (is_refused()) {
        errno = ENOMEM;
        return NULL;
    }
    return __libc_calloc(many, size);
}

void *realloc(void *old, size_t size) {
    if (is_refused()) {
        errno = ENOMEM;
        return NULL;
    }
    return __libc_realloc(old, size);
}
