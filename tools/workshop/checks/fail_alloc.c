/*
 * Lets one request for memory of a program fail, for `tools/fail-alloc`.
 *
 * It is loaded before the C library, by LD_PRELOAD. REFUSED is the number of the request, from 1 on, and REFUSED_IN the
 * name of the program, so that what runs the tests gets its memory.
 */
#define _GNU_SOURCE
#include <errno.h>
#include <stdlib.h>
#include <string.h>

extern void *__libc_malloc(size_t size);
extern void *__libc_realloc(void *old, size_t size);

static long requests_left;

__attribute__((constructor)) static void begin(void)
{
    const char *number = getenv("REFUSED");
    const char *name = getenv("REFUSED_IN");

    if (number != NULL && name != NULL && strcmp(program_invocation_short_name, name) == 0)
        requests_left = atol(number);
}

static int is_refused(void)
{
    return requests_left > 0 && --requests_left == 0;
}

void *malloc(size_t size)
{
    return is_refused() ? NULL : __libc_malloc(size);
}

void *realloc(void *old, size_t size)
{
    return is_refused() ? NULL : __libc_realloc(old, size);
}
