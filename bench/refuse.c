/* Refuses one growth of a run: of the blocks of memory that a program asks for once it runs, the one whose number stands in REFUSE,
 * from 1, isn't given. If it was reached, an octet goes to the descriptor in REFUSED. With COUNTED the number of blocks that were asked
 * for goes to the descriptor there, in decimal digits, as the program ends. To be preloaded: bench/refuse_growths.py does so. */
#include <errno.h>
#include <stddef.h>
#include <stdio.h>
#include <stdlib.h>
#include <unistd.h>

extern void *__libc_malloc(size_t);
extern void *__libc_calloc(size_t, size_t);
extern void *__libc_realloc(void *, size_t);
extern void *__libc_memalign(size_t, size_t);

static long left;
static long asked;
static int told;

__attribute__((constructor)) static void arm(void) {
    const char *number = getenv("REFUSE");
    const char *descriptor = getenv("REFUSED");
    left = number && descriptor ? atol(number) : 0;
    told = left ? atoi(descriptor) : -1;
}

__attribute__((destructor)) static void count(void) {
    const char *descriptor = getenv("COUNTED");
    if (descriptor)
        dprintf(atoi(descriptor), "%ld", asked);
}

static int is_refused(void) {
    asked++;
    if (left == 0 || --left != 0)
        return 0;
    if (write(told, "r", 1) != 1)
        abort();
    errno = ENOMEM;
    return 1;
}

void *malloc(size_t size) { return is_refused() ? NULL : __libc_malloc(size); }

void *calloc(size_t count, size_t size) { return is_refused() ? NULL : __libc_calloc(count, size); }

void *realloc(void *block, size_t size) { return is_refused() ? NULL : __libc_realloc(block, size); }

void *memalign(size_t align, size_t size) { return is_refused() ? NULL : __libc_memalign(align, size); }

void *aligned_alloc(size_t align, size_t size) { return memalign(align, size); }

int posix_memalign(void **block, size_t align, size_t size) {
    *block = memalign(align, size);
    return *block ? 0 : ENOMEM;
}
