#include "refuse.h"

#include <errno.h>
#include <stdbool.h>
#include <stdio.h>
#include <stdlib.h>

enum { MOST_BLOCKS = 4096 };

struct block {
    void *at;
    size_t size;
};

static struct block blocks[MOST_BLOCKS];
static size_t count;
static uint64_t first, last, asked, refused, held;
static const char *forbidden;

void *__real_malloc(size_t size);
void *__real_realloc(void *at, size_t size);
void __real_free(void *at);

void memory_refuse(uint64_t from, uint64_t to)
{
    first = from;
    last = to;
    asked = refused = 0;
}

void memory_allow(void)
{
    first = last = 0;
}

void memory_forbid(const char *what)
{
    forbidden = what;
}

uint64_t memory_asked(void)
{
    return asked;
}

uint64_t memory_refused(void)
{
    return refused;
}

uint64_t memory_held(void)
{
    return held;
}

static void end(const char *what)
{
    fprintf(stderr, "memory: %s\n", what);
    exit(1);
}

/* Counts a growth, and tells whether it is refused. */
static bool is_refused(void)
{
    if (forbidden != NULL) {
        fprintf(stderr, "memory: a growth in %s\n", forbidden);
        exit(1);
    }
    asked++;
    if (asked < first || asked > last) {
        return false;
    }
    refused++;
    errno = ENOMEM;
    return true;
}

static void note(void *at, size_t size)
{
    if (at == NULL) {
        end("the system has none");
    }
    if (count == MOST_BLOCKS) {
        end("too many blocks for this program");
    }
    blocks[count++] = (struct block){at, size};
    held += size;
}

/* Takes a block from those that are known. */
static void forget(const void *at)
{
    for (size_t i = count; i-- > 0;) {
        if (blocks[i].at == at) {
            held -= blocks[i].size;
            blocks[i] = blocks[--count];
            return;
        }
    }
    end("a block that was not given");
}

void *__wrap_malloc(size_t size)
{
    if (is_refused()) {
        return NULL;
    }
    void *at = __real_malloc(size);
    note(at, size);
    return at;
}

void *__wrap_realloc(void *at, size_t size)
{
    if (is_refused()) {
        return NULL;
    }
    forget(at);
    void *moved = __real_realloc(at, size);
    note(moved, size);
    return moved;
}

void __wrap_free(void *at)
{
    forget(at);
    __real_free(at);
}
