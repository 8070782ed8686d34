/* Refuses one allocation of a process, for tests/refused_allocations.py, which loads it before the C library.

   REFUSED is the number of that allocation, counted from 1; 0 refuses none. At the end the number of allocations is
   written to the file COUNTED, if there is one. */
#include <errno.h>
#include <stdio.h>
#include <stdlib.h>

void *__libc_malloc(size_t size);
void *__libc_calloc(size_t count, size_t size);
void *__libc_realloc(void *old, size_t size);
void *__libc_memalign(size_t align, size_t size);

static long refused = -1, made;

static int refuses(void)
{
    if (refused < 0) {
        const char *text = getenv("REFUSED");
        refused = text ? atol(text) : 0;
    }
    if (++made != refused)
        return 0;
    errno = ENOMEM;
    return 1;
}

void *malloc(size_t size)
{
    return refuses() ? NULL : __libc_malloc(size);
}

void *calloc(size_t count, size_t size)
{
    return refuses() ? NULL : __libc_calloc(count, size);
}

void *realloc(void *old, size_t size)
{
    return refuses() ? NULL : __libc_realloc(old, size);
}

void *aligned_alloc(size_t align, size_t size)
{
    return refuses() ? NULL : __libc_memalign(align, size);
}

int posix_memalign(void **place, size_t align, size_t size)
{
    void *new = refuses() ? NULL : __libc_memalign(align, size);
    if (!new)
        return ENOMEM;
    *place = new;
    return 0;
}

__attribute__((destructor)) static void tell(void)
{
    const char *path = getenv("COUNTED");
    long count = made;
    FILE *file = path ? fopen(path, "w") : NULL;
    if (file) {
        fprintf(file, "%ld\n", count);
        fclose(file);
    }
}
