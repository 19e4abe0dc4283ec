/* Put before the C library: the call of its allocator that REFUSE_AT names, counted from 1, is refused; where REFUSE_ON is set, each call
   behind it too. Whether one was refused is told by a byte on the descriptor that REFUSE_TOLD names. */
#define _GNU_SOURCE
#include <errno.h>
#include <stdatomic.h>
#include <stddef.h>
#include <stdlib.h>
#include <unistd.h>

extern void *__libc_malloc(size_t);
extern void *__libc_calloc(size_t, size_t);
extern void *__libc_realloc(void *, size_t);
extern void *__libc_memalign(size_t, size_t);

static atomic_ulong calls;
static unsigned long at;
static int on, told = -1;

__attribute__((constructor)) static void begin(void)
{
    const char *text = getenv("REFUSE_AT");
    at = text ? strtoul(text, NULL, 10) : 0;
    on = getenv("REFUSE_ON") != NULL;
    text = getenv("REFUSE_TOLD");
    told = text ? atoi(text) : -1;
    atomic_store(&calls, 0);
}

static int refuses(void)
{
    unsigned long call = atomic_fetch_add(&calls, 1) + 1;
    if (at == 0 || call < at || (call > at && !on))
        return 0;
    if (call == at && told >= 0 && write(told, "r", 1) < 0)
        _exit(99);
    errno = ENOMEM;
    return 1;
}

void *malloc(size_t size) { return refuses() ? NULL : __libc_malloc(size); }

void *calloc(size_t count, size_t size) { return refuses() ? NULL : __libc_calloc(count, size); }

void *realloc(void *old, size_t size) { return refuses() ? NULL : __libc_realloc(old, size); }

void *memalign(size_t align, size_t size) { return refuses() ? NULL : __libc_memalign(align, size); }

void *aligned_alloc(size_t align, size_t size) { return memalign(align, size); }

int posix_memalign(void **place, size_t align, size_t size)
{
    void *found = memalign(align, size);
    if (found == NULL)
        return ENOMEM;
    *place = found;
    return 0;
}
