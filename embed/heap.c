/*
 * What the library calls where it wants memory, over malloc, realloc and free: for the targets for which the kit has no object of it. It is in
 * embed/lib/aarch64/libhostc.a; in that of x86-64 the kit's own object stands in its place. Whoever has another allocator writes these three.
 */
#ifdef __SIZE_TYPE__
typedef __SIZE_TYPE__ size_t; /* GNU C and clang, which then need no header */
#else
#include <stddef.h>
#endif

void *malloc(size_t size);
void *realloc(void *block, size_t size);
void free(void *block);

/* Whether there is memory, and where. Where there is none `block` leads to some octet all the same. */
struct tried {
    _Bool ok;
    void *block;
};

struct tried rattle_alloc(size_t size, size_t align);
struct tried rattle_realloc(void *block, size_t kept, size_t size, size_t align);
void rattle_dealloc(void *block);

static struct tried answer(void *block)
{
    static char none;
    struct tried tried = {block != 0, block != 0 ? block : &none};
    return tried;
}

/* `align` is a power of two up to 16 that divides `size`. A block of no octets is one of `align`, since malloc(0) may answer NULL. */
struct tried rattle_alloc(size_t size, size_t align)
{
    return answer(malloc(size != 0 ? size : align));
}

/* The first `kept` octets stay as they are, and the whole block where there is no memory: as realloc has it. */
struct tried rattle_realloc(void *block, size_t kept, size_t size, size_t align)
{
    (void)kept;
    return answer(realloc(block, size != 0 ? size : align));
}

void rattle_dealloc(void *block)
{
    free(block);
}
