/* Stands before the allocator of the C library: refuses the calls from REFUSE_FROM to REFUSE_TO, counted from 1 over
   all threads, and makes the file REFUSE_MARK where it does. Outside the gate: tests/refuse-each.sh and tests/refuse-in-test.sh. */
#define _GNU_SOURCE
#include <dlfcn.h>
#include <errno.h>
#include <fcntl.h>
#include <stdatomic.h>
#include <stdlib.h>
#include <unistd.h>

static atomic_ulong calls;
static unsigned long from = -1UL, to;
static const char *mark;

__attribute__((constructor)) static void begin(void)
{
    const char *first = getenv("REFUSE_FROM"), *last = getenv("REFUSE_TO");
    mark = getenv("REFUSE_MARK");
    if (first && last && mark) {
        to = strtoul(last, 0, 10);
        from = strtoul(first, 0, 10);
    }
    atomic_store(&calls, 0);
}

static int refused(void)
{
    unsigned long call = atomic_fetch_add(&calls, 1) + 1;
    if (call < from || call > to)
        return 0;
    if (call == from)
        close(open(mark, O_CREAT | O_WRONLY, 0600));
    errno = ENOMEM;
    return 1;
}

#define NEXT(name) static __typeof__(&name) next; if (!next) next = (__typeof__(&name))dlsym(RTLD_NEXT, #name)

void *malloc(size_t size)
{
    NEXT(malloc);
    return refused() ? 0 : next(size);
}

void *realloc(void *old, size_t size)
{
    NEXT(realloc);
    return refused() ? 0 : next(old, size);
}

void *aligned_alloc(size_t alignment, size_t size)
{
    NEXT(aligned_alloc);
    return refused() ? 0 : next(alignment, size);
}

int posix_memalign(void **block, size_t alignment, size_t size)
{
    NEXT(posix_memalign);
    return refused() ? ENOMEM : next(block, alignment, size);
}
