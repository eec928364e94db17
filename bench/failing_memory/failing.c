// Lets one allocation of a program fail, by its number in FAIL_ALLOC, and counts what is still held when the program ends.
// The last bytes on the standard error are then "memory: failed F held H": whether one failed, and how many allocations are held.
#define _GNU_SOURCE
#include <stdio.h>
#include <stdlib.h>
#include <string.h>
#include <unistd.h>

extern void *__libc_malloc(size_t);
extern void *__libc_realloc(void *, size_t);
extern void __libc_free(void *);

static long left = -1, held = 0;
static int started = 0, failed = 0;

static int fails(void) {
    if (!started) {
        const char *wanted = getenv("FAIL_ALLOC");
        started = 1;
        left = wanted ? atol(wanted) : -1;
    }
    if (left > 0 && --left == 0) {
        failed = 1;
        return 1;
    }
    return 0;
}

void *malloc(size_t size) {
    void *made = fails() ? NULL : __libc_malloc(size);
    held += made != NULL;
    return made;
}

void *realloc(void *old, size_t size) {
    void *made = fails() ? NULL : __libc_realloc(old, size);
    held += old == NULL && made != NULL;
    return made;
}

void free(void *old) {
    held -= old != NULL;
    __libc_free(old);
}

__attribute__((destructor)) static void tell(void) {
    char line[80];
    int length = snprintf(line, sizeof line, "\nmemory: failed %d held %ld\n", failed, held);
    if (write(2, line, length) < 0) _exit(9);
}
