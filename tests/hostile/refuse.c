/* Refuses one call for memory of the program that it is loaded into (LD_PRELOAD); `memory` compiles and uses it.
 *
 * REFUSE=N names the call: of all calls for memory from the beginning of main on, counted from 1, the Nth gets none. A byte on
 * descriptor 9 shows that the program came to that call. The C library's own calls stay inside it, so that each call for memory that
 * the program makes counts once. */
#define _GNU_SOURCE
#include <errno.h>
#include <stddef.h>
#include <stdlib.h>
#include <sys/mman.h>
#include <sys/syscall.h>
#include <unistd.h>

extern void *__libc_malloc(size_t size);
extern void *__libc_calloc(size_t count, size_t size);
extern void *__libc_realloc(void *block, size_t size);
extern void *__libc_memalign(size_t alignment, size_t size);

enum { TOLD = 9 };

static unsigned long refused_call;
static unsigned long calls;

__attribute__((constructor)) static void begin(void)
{
    const char *number = getenv("REFUSE");
    refused_call = number ? strtoul(number, NULL, 10) : 0;
}

/* Whether this call is the one that is refused. */
static int refuse(void)
{
    if (refused_call == 0 || ++calls != refused_call)
        return 0;
    if (write(TOLD, "r", 1) != 1)
        abort();
    errno = ENOMEM;
    return 1;
}

void *malloc(size_t size)
{
    return refuse() ? NULL : __libc_malloc(size);
}

void *calloc(size_t count, size_t size)
{
    return refuse() ? NULL : __libc_calloc(count, size);
}

void *realloc(void *block, size_t size)
{
    return refuse() ? NULL : __libc_realloc(block, size);
}

void *memalign(size_t alignment, size_t size)
{
    return refuse() ? NULL : __libc_memalign(alignment, size);
}

void *aligned_alloc(size_t alignment, size_t size)
{
    return refuse() ? NULL : __libc_memalign(alignment, size);
}

int posix_memalign(void **block, size_t alignment, size_t size)
{
    if (refuse() || (*block = __libc_memalign(alignment, size)) == NULL)
        return ENOMEM;
    return 0;
}

void *mmap(void *start, size_t size, int access, int flags, int file, off_t at)
{
    return refuse() ? MAP_FAILED : (void *)syscall(SYS_mmap, start, size, access, flags, file, at);
}
