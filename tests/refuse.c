/* Stands before the allocator, by LD_PRELOAD, and refuses the call with the number REFUSE, counted
   from 1. It writes the line 'refused' to standard error when it does. */
#include <errno.h>
#include <stdlib.h>
#include <unistd.h>

extern void *__libc_malloc(size_t), *__libc_calloc(size_t, size_t);
extern void *__libc_realloc(void *, size_t), *__libc_memalign(size_t, size_t);

static long calls;

static int refused(void) {
    const char *number = getenv("REFUSE");
    if (!number || ++calls != atol(number)) return 0;
    if (write(2, "refused\n", 8) != 8) _exit(9);
    errno = ENOMEM;
    return 1;
}

void *malloc(size_t n) { return refused() ? 0 : __libc_malloc(n); }
void *calloc(size_t k, size_t n) { return refused() ? 0 : __libc_calloc(k, n); }
void *realloc(void *p, size_t n) { return refused() ? 0 : __libc_realloc(p, n); }
void *aligned_alloc(size_t a, size_t n) { return refused() ? 0 : __libc_memalign(a, n); }
int posix_memalign(void **p, size_t a, size_t n) {
    return refused() || !(*p = __libc_memalign(a, n)) ? ENOMEM : 0;
}
