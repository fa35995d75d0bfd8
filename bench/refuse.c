// Preloaded into a program: the allocation whose number ROOMS_REFUSE gives, counted from 1, is refused, and a byte written to
// the descriptor in ROOMS_TELL says so. A program that ends with no such byte took less memory than that.
#include <errno.h>
#include <stddef.h>
#include <stdlib.h>
#include <unistd.h>

extern void *__libc_malloc(size_t);
extern void *__libc_calloc(size_t, size_t);
extern void *__libc_realloc(void *, size_t);
extern void *__libc_memalign(size_t, size_t);

static long left;
static int tell;

__attribute__((constructor)) static void begin(void) {
    const char *number = getenv("ROOMS_REFUSE"), *descriptor = getenv("ROOMS_TELL");
    if (number && descriptor) {
        left = atol(number);
        tell = atoi(descriptor);
    }
}

static int is_refused(void) {
    return left > 0 && --left == 0 && write(tell, "x", 1) == 1;
}

void *malloc(size_t size) {
    return is_refused() ? NULL : __libc_malloc(size);
}

void *calloc(size_t count, size_t size) {
    return is_refused() ? NULL : __libc_calloc(count, size);
}

void *aligned_alloc(size_t alignment, size_t size) {
    return is_refused() ? NULL : __libc_memalign(alignment, size);
}

int posix_memalign(void **block, size_t alignment, size_t size) {
    void *found = is_refused() ? NULL : __libc_memalign(alignment, size);
    if (!found)
        return ENOMEM;
    *block = found;
    return 0;
}

void *realloc(void *block, size_t size) {
    return is_refused() ? NULL : __libc_realloc(block, size);
}
