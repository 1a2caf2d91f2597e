/* Refuses one growth of a program that it is loaded into before the C library: the call of malloc, calloc or realloc with the number REFUSED of
   the environment, counted from 1. Once that was refused, an octet goes to the file descriptor REFUSED_TELLS. */
#define _GNU_SOURCE
#include <dlfcn.h>
#include <errno.h>
#include <stdbool.h>
#include <stdlib.h>
#include <unistd.h>

static long number_in(const char *name)
{
    const char *text = getenv(name);
    return text == NULL ? -1 : atol(text);
}

/* Whether this call is the one. */
static bool is_refused(void)
{
    static long asked;
    if (++asked != number_in("REFUSED")) {
        return false;
    }
    if (write((int)number_in("REFUSED_TELLS"), "", 1) != 1) {
        abort();
    }
    errno = ENOMEM;
    return true;
}

/* The function of this name that the program would have without us. */
static void *other(const char *name)
{
    void *found = dlsym(RTLD_NEXT, name);
    if (found == NULL) {
        abort();
    }
    return found;
}

void *malloc(size_t size)
{
    static void *(*next)(size_t);
    if (next == NULL) {
        *(void **)&next = other("malloc");
    }
    return is_refused() ? NULL : next(size);
}

void *calloc(size_t count, size_t size)
{
    static void *(*next)(size_t, size_t);
    if (next == NULL) {
        *(void **)&next = other("calloc");
    }
    return is_refused() ? NULL : next(count, size);
}

void *realloc(void *at, size_t size)
{
    static void *(*next)(void *, size_t);
    if (next == NULL) {
        *(void **)&next = other("realloc");
    }
    return is_refused() ? NULL : next(at, size);
}
