/* Loaded before the C library, it makes the Nth allocation answer none. N is in the variable REFUSED. As that allocation comes,
   a byte is written to the open file whose number is in the variable NOTED_IN. */
#include <errno.h>
#include <stdlib.h>
#include <unistd.h>

extern void *__libc_malloc(size_t);
extern void *__libc_calloc(size_t, size_t);
extern void *__libc_realloc(void *, size_t);
extern void *__libc_memalign(size_t, size_t);

static long left;
static int noted_in;

__attribute__((constructor)) static void begin(void) {
    const char *number = getenv("REFUSED"), *file = getenv("NOTED_IN");
    left = number ? atol(number) : 0;
    noted_in = file ? atoi(file) : -1;
}

static int is_refused(void) {
    if (left <= 0 || --left > 0) return 0;
    if (write(noted_in, "!", 1) != 1) abort();
    errno = ENOMEM;
    return 1;
}

void *malloc(size_t size) { return is_refused() ? NULL : __libc_malloc(size); }

void *calloc(size_t count, size_t size) { return is_refused() ? NULL : __libc_calloc(count, size); }

void *realloc(void *old, size_t size) { return is_refused() ? NULL : __libc_realloc(old, size); }

void *aligned_alloc(size_t alignment, size_t size) { return is_refused() ? NULL : __libc_memalign(alignment, size); }

int posix_memalign(void **place, size_t alignment, size_t size) {
    void *block = is_refused() ? NULL : __libc_memalign(alignment, size);
    if (block) *place = block;
    return block ? 0 : ENOMEM;
}
