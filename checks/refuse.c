/* Refuses one request for memory: the one whose number stands in REFUSE, counted from 1. Where it does, it makes the file that REFUSED names, so that a refusal
   of which the program tells nothing is seen. To be loaded before the C library. */
#define _GNU_SOURCE
#include <dlfcn.h>
#include <fcntl.h>
#include <stddef.h>
#include <stdlib.h>
#include <unistd.h>

static unsigned long requests;
static unsigned long refused;
static int is_ready;

static void tell(void)
{
    const char *name = getenv("REFUSED");
    int file = name ? open(name, O_WRONLY | O_CREAT, 0600) : -1;
    if (file < 0)
        abort();
    close(file);
}

static int refuses(void)
{
    if (!is_ready) {
        const char *text = getenv("REFUSE");
        refused = text ? strtoul(text, NULL, 10) : 0;
        is_ready = 1;
    }
    if (++requests != refused)
        return 0;
    tell();
    return 1;
}

void *malloc(size_t size)
{
    static void *(*real)(size_t);
    if (!real)
        real = (void *(*)(size_t))dlsym(RTLD_NEXT, "malloc");
    return refuses() ? NULL : real(size);
}

void *calloc(size_t count, size_t size)
{
    static void *(*real)(size_t, size_t);
    if (!real)
        real = (void *(*)(size_t, size_t))dlsym(RTLD_NEXT, "calloc");
    return refuses() ? NULL : real(count, size);
}

void *realloc(void *old, size_t size)
{
    static void *(*real)(void *, size_t);
    if (!real)
        real = (void *(*)(void *, size_t))dlsym(RTLD_NEXT, "realloc");
    return refuses() ? NULL : real(old, size);
}

void *aligned_alloc(size_t alignment, size_t size)
{
    static void *(*real)(size_t, size_t);
    if (!real)
        real = (void *(*)(size_t, size_t))dlsym(RTLD_NEXT, "aligned_alloc");
    return refuses() ? NULL : real(alignment, size);
}
