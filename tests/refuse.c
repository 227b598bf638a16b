/* refuse.c: a library to be loaded before the C library's, which refuses one request for memory.
 *
 * NJ_REFUSED=N      the Nth request finds no memory (none: 0, or no such variable)
 * NJ_REFUSED=N..    the Nth and all behind it
 * NJ_REQUESTS=FILE  a file of at least 8 bytes, in which the number of requests so far stands
 *
 * A request is a call of malloc, calloc, realloc or one of the aligned ones, from any thread. `tests/refused-memory`
 * builds and uses it.
 */
#define _GNU_SOURCE
#include <errno.h>
#include <fcntl.h>
#include <stddef.h>
#include <stdlib.h>
#include <sys/mman.h>
#include <unistd.h>

void *__libc_malloc(size_t);
void *__libc_calloc(size_t, size_t);
void *__libc_realloc(void *, size_t);
void *__libc_memalign(size_t, size_t);

static unsigned long first, last;
static unsigned long own;
static unsigned long *requests = &own;

__attribute__((constructor)) static void begin(void)
{
    const char *said = getenv("NJ_REFUSED"), *file = getenv("NJ_REQUESTS");
    int told = file ? open(file, O_RDWR) : -1;
    void *there;

    if (said) {
        char *end;
        first = strtoul(said, &end, 10);
        last = *end == '.' ? ~0ul : first;
    }
    if (told >= 0) {
        there = mmap(NULL, sizeof own, PROT_READ | PROT_WRITE, MAP_SHARED, told, 0);
        close(told);
        if (there != MAP_FAILED)
            requests = there;
    }
    __atomic_store_n(requests, 0, __ATOMIC_SEQ_CST);
}

static int is_refused(void)
{
    unsigned long number = __atomic_add_fetch(requests, 1, __ATOMIC_SEQ_CST);

    if (!first || number < first || number > last)
        return 0;
    errno = ENOMEM;
    return 1;
}

void *malloc(size_t size)
{
    return is_refused() ? NULL : __libc_malloc(size);
}

void *calloc(size_t many, size_t size)
{
    return is_refused() ? NULL : __libc_calloc(many, size);
}

void *realloc(void *old, size_t size)
{
    return is_refused() ? NULL : __libc_realloc(old, size);
}

void *memalign(size_t align, size_t size)
{
    return is_refused() ? NULL : __libc_memalign(align, size);
}

void *aligned_alloc(size_t align, size_t size)
{
    return is_refused() ? NULL : __libc_memalign(align, size);
}

int posix_memalign(void **into, size_t align, size_t size)
{
    void *there = is_refused() ? NULL : __libc_memalign(align, size);

    if (!there)
        return ENOMEM;
    *into = there;
    return 0;
}
