/* An allocator to be preloaded, which counts what is asked for, and refuses some of it. bench/refusals.py compiles it.
 *
 * The file that REFUSING_COUNT names has 8 bytes, the count so far. The allocation of the number REFUSING_FIRST is
 * refused, and where REFUSING_ON is set, each later one too. Of no bytes none is counted. It wants glibc. */

#include <errno.h>
#include <fcntl.h>
#include <stdatomic.h>
#include <stddef.h>
#include <stdint.h>
#include <stdlib.h>
#include <sys/mman.h>
#include <unistd.h>

extern void *__libc_malloc(size_t size);
extern void *__libc_calloc(size_t count, size_t size);
extern void *__libc_realloc(void *old, size_t size);
extern void *__libc_memalign(size_t alignment, size_t size);

static _Atomic uint64_t *counted;
static uint64_t first;
static int on;

__attribute__((constructor)) static void begin(void)
{
    const char *name = getenv("REFUSING_COUNT"), *number = getenv("REFUSING_FIRST");
    int file = name ? open(name, O_RDWR) : -1;
    if (file < 0 || !number)
        return;
    void *mapped = mmap(NULL, sizeof *counted, PROT_READ | PROT_WRITE, MAP_SHARED, file, 0);
    close(file);
    if (mapped == MAP_FAILED)
        return;
    first = strtoull(number, NULL, 10);
    on = getenv("REFUSING_ON") != NULL;
    counted = mapped;
}

/* Whether an allocation is refused. */
static int is_refused(size_t size)
{
    if (!counted || !size)
        return 0;
    uint64_t number = atomic_fetch_add(counted, 1) + 1;
    if (number != first && !(on && number > first))
        return 0;
    errno = ENOMEM;
    return 1;
}

void *malloc(size_t size)
{
    return is_refused(size) ? NULL : __libc_malloc(size);
}

void *calloc(size_t count, size_t size)
{
    return is_refused(count && size) ? NULL : __libc_calloc(count, size);
}

void *realloc(void *old, size_t size)
{
    return is_refused(size) ? NULL : __libc_realloc(old, size);
}

void *memalign(size_t alignment, size_t size)
{
    return is_refused(size) ? NULL : __libc_memalign(alignment, size);
}

void *aligned_alloc(size_t alignment, size_t size)
{
    return memalign(alignment, size);
}

int posix_memalign(void **made, size_t alignment, size_t size)
{
    void *given = memalign(alignment, size);
    if (!given && size)
        return ENOMEM;
    *made = given;
    return 0;
}
