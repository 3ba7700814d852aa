/* Preloaded by tools/gate/refuse_memory: the allocation with the number REFUSE, counted from 1 when the program has begun, gets no memory,
   and then the file REFUSED is made. With no such allocation nothing happens. */
#include <errno.h>
#include <fcntl.h>
#include <stdatomic.h>
#include <stddef.h>
#include <stdlib.h>
#include <unistd.h>

void *__libc_malloc(size_t size);
void *__libc_calloc(size_t count, size_t size);
void *__libc_realloc(void *old, size_t size);
void *__libc_memalign(size_t align, size_t size);

static unsigned long refuse;
static atomic_ulong calls;

__attribute__((constructor)) static void begin(void)
{
    const char *number = getenv("REFUSE");
    refuse = number ? strtoul(number, NULL, 10) : 0;
}

static int is_refused(void)
{
    if (refuse == 0 || atomic_fetch_add(&calls, 1) + 1 != refuse)
        return 0;
    const char *name = getenv("REFUSED");
    if (name)
        close(open(name, O_CREAT | O_WRONLY, 0600));
    errno = ENOMEM;
    return 1;
}

void *malloc(size_t size) { return is_refused() ? NULL : __libc_malloc(size); }

void *calloc(size_t count, size_t size) { return is_refused() ? NULL : __libc_calloc(count, size); }

void *realloc(void *old, size_t size) { return is_refused() ? NULL : __libc_realloc(old, size); }

void *aligned_alloc(size_t align, size_t size) { return is_refused() ? NULL : __libc_memalign(align, size); }

int posix_memalign(void **at, size_t align, size_t size)
{
    void *got = is_refused() ? NULL : __libc_memalign(align, size);
    if (got == NULL)
        return ENOMEM;
    *at = got;
    return 0;
}
