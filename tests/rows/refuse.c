/* Refuses a program one call for memory: the one whose number, counted from 1, is in REFUSED. It then makes the file
 * that REFUSED_MARK names. Loaded before the C library (LD_PRELOAD), whose own functions do the other calls. */
#include <errno.h>
#include <fcntl.h>
#include <stdatomic.h>
#include <stddef.h>
#include <stdlib.h>
#include <unistd.h>

void *__libc_malloc(size_t);
void *__libc_calloc(size_t, size_t);
void *__libc_realloc(void *, size_t);
void *__libc_memalign(size_t, size_t);

static long wanted;
static atomic_long asked;

__attribute__((constructor)) static void begin(void) {
    const char *number = getenv("REFUSED");
    wanted = number ? atol(number) : 0;
}

static int is_refused(void) {
    if (!wanted || atomic_fetch_add(&asked, 1) + 1 != wanted)
        return 0;
    const char *mark = getenv("REFUSED_MARK");
    int file = mark ? open(mark, O_WRONLY | O_CREAT, 0600) : -1;
    if (file >= 0)
        close(file);
    errno = ENOMEM;
    return 1;
}

void *malloc(size_t size) { return is_refused() ? NULL : __libc_malloc(size); }

void *calloc(size_t count, size_t size) { return is_refused() ? NULL : __libc_calloc(count, size); }

void *realloc(void *block, size_t size) { return is_refused() ? NULL : __libc_realloc(block, size); }

void *memalign(size_t alignment, size_t size) { return is_refused() ? NULL : __libc_memalign(alignment, size); }

void *aligned_alloc(size_t alignment, size_t size) { return memalign(alignment, size); }

int posix_memalign(void **block, size_t alignment, size_t size) {
    void *found = memalign(alignment, size);
    if (!found)
        return ENOMEM;
    *block = found;
    return 0;
}
