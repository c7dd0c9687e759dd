/* An allocator that refuses one call: of the calls of malloc, calloc, realloc, aligned_alloc and posix_memalign that the
   program makes, the one whose number, from 1, stands in the environment variable REFUSE. It then makes the empty file
   that REFUSED names. What the program starts has neither this allocator nor these variables. Built by
   `cc -shared -fPIC -o refuse.so refuse.c`, and put in front by LD_PRELOAD. */
#include <errno.h>
#include <fcntl.h>
#include <stddef.h>
#include <stdlib.h>
#include <unistd.h>

extern void *__libc_malloc(size_t);
extern void *__libc_calloc(size_t, size_t);
extern void *__libc_realloc(void *, size_t);
extern void *__libc_memalign(size_t, size_t);

static unsigned long wanted, calls;
static char mark[4096];

__attribute__((constructor)) static void begin(void) {
    const char *number = getenv("REFUSE"), *file = getenv("REFUSED");
    for (size_t i = 0; file && file[i] && i + 1 < sizeof mark; i++) mark[i] = file[i];
    wanted = number ? strtoul(number, 0, 10) : 0;
    calls = 0;
    unsetenv("LD_PRELOAD");
    unsetenv("REFUSE");
    unsetenv("REFUSED");
}

static int refused(void) {
    if (++calls != wanted) return 0;
    if (mark[0]) close(open(mark, O_WRONLY | O_CREAT, 0600));
    errno = ENOMEM;
    return 1;
}

void *malloc(size_t size) { return refused() ? 0 : __libc_malloc(size); }
void *calloc(size_t count, size_t size) { return refused() ? 0 : __libc_calloc(count, size); }
void *realloc(void *old, size_t size) { return refused() ? 0 : __libc_realloc(old, size); }
void *aligned_alloc(size_t align, size_t size) { return refused() ? 0 : __libc_memalign(align, size); }

int posix_memalign(void **out, size_t align, size_t size) {
    void *memory = refused() ? 0 : __libc_memalign(align, size);
    if (memory) *out = memory;
    return memory ? 0 : ENOMEM;
}
