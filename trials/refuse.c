/* Refuses the request for memory of the number that REFUSE has, of those within a call: from a line `> ..` on that is
   written to standard output, until a line `< ..`. How many each call made it adds to the file that COUNTS names. */
#include <errno.h>
#include <stddef.h>
#include <stdio.h>
#include <stdlib.h>
#include <string.h>
#include <sys/types.h>

void *__libc_malloc(size_t);
void *__libc_calloc(size_t, size_t);
void *__libc_realloc(void *, size_t);
void *__libc_memalign(size_t, size_t);
ssize_t __write(int, const void *, size_t);

static int within;
static long made, made_before, refused_at;

__attribute__((constructor)) static void begin(void)
{
    const char *number = getenv("REFUSE");
    refused_at = number ? atol(number) : 0;
}

/* Whether the request is the one that is refused. */
static int is_refused(void)
{
    if (!within || ++made != refused_at)
        return 0;
    errno = ENOMEM;
    return 1;
}

/* How many requests the call made, as a line of the file COUNTS. */
static void tell(void)
{
    const char *name = getenv("COUNTS");
    FILE *counts = name ? fopen(name, "a") : NULL;
    if (counts) {
        fprintf(counts, "%ld\n", made - made_before);
        fclose(counts);
    }
    made_before = made;
}

ssize_t write(int file, const void *bytes, size_t count)
{
    if (file == 1 && count >= 2 && memcmp(bytes, "< ", 2) == 0 && within) {
        within = 0;
        tell();
    }
    ssize_t done = __write(file, bytes, count);
    if (file == 1 && count >= 2 && memcmp(bytes, "> ", 2) == 0)
        within = 1;
    return done;
}

void *malloc(size_t size)
{
    return is_refused() ? NULL : __libc_malloc(size);
}

void *calloc(size_t count, size_t size)
{
    return is_refused() ? NULL : __libc_calloc(count, size);
}

void *realloc(void *old, size_t size)
{
    return is_refused() ? NULL : __libc_realloc(old, size);
}

void *memalign(size_t alignment, size_t size)
{
    return is_refused() ? NULL : __libc_memalign(alignment, size);
}

void *aligned_alloc(size_t alignment, size_t size)
{
    return memalign(alignment, size);
}

int posix_memalign(void **place, size_t alignment, size_t size)
{
    void *found = memalign(alignment, size);
    if (found == NULL)
        return ENOMEM;
    *place = found;
    return 0;
}
