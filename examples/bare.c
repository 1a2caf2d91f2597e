/*
 * Two hosts without a C library below them: the program brings the allocator and the four routines on memory that the library wants, its own stack, and
 * two calls of Linux, to print a line and to end. The hosts are small ones, by the sizes of their config, and joined in memory: a handshake, octets both
 * ways, a datagram and a close. All runs on a stack of 8 kB, as docs/PORTING.md says. It measures what the calls take of it, and ends with status 0 where
 * all was as it should be.
 *
 *     cc -std=c99 -O2 -ffreestanding -fno-stack-protector -static -nostdlib -I embed examples/bare.c embed/lib/x86_64/libhostc.a
 *
 * `embed/build` makes and runs it; with a compiler and qemu for it, that of embed/lib/aarch64 too.
 */
#include "host.h"

/* ---- What stands in the place of a C library -------------------------------------------------------------------------------------------- */

void *malloc(size_t size);
void *realloc(void *block, size_t size);
void free(void *block);
void *memcpy(void *restrict to, const void *restrict from, size_t len);
void *memmove(void *to, const void *from, size_t len);
void *memset(void *to, int octet, size_t len);
int memcmp(const void *one, const void *other, size_t len);

/* Keeps a compiler from making a loop that moves octets into a call of memcpy or memset, and so into a call of itself. */
#define STAY __asm__ volatile("" ::: "memory")

void *memcpy(void *restrict to, const void *restrict from, size_t len)
{
    size_t i;

    for (i = 0; i < len; i++) {
        ((uint8_t *)to)[i] = ((const uint8_t *)from)[i];
        STAY;
    }
    return to;
}

void *memmove(void *to, const void *from, size_t len)
{
    if ((uintptr_t)to - (uintptr_t)from >= len)
        return memcpy(to, from, len);
    while (len-- > 0) {
        ((uint8_t *)to)[len] = ((const uint8_t *)from)[len];
        STAY;
    }
    return to;
}

void *memset(void *to, int octet, size_t len)
{
    size_t i;

    for (i = 0; i < len; i++) {
        ((uint8_t *)to)[i] = (uint8_t)octet;
        STAY;
    }
    return to;
}

int memcmp(const void *one, const void *other, size_t len)
{
    const uint8_t *a = one, *b = other;

    for (; len > 0; len--, a++, b++)
        if (*a != *b)
            return *a - *b;
    return 0;
}

/* The heap: a pile of blocks, each behind its size. What is freed is not used again, but for the block on top. Blocks are aligned to 16. */
static uint8_t heap[512 << 10] __attribute__((aligned(16)));
static size_t top, room = sizeof heap;

struct block {
    size_t size;
    size_t unused;
};

void *malloc(size_t size)
{
    struct block *block = (struct block *)(void *)&heap[top];
    size_t whole = sizeof *block + ((size + 15) & ~(size_t)15);

    if (size > room || whole > room - top)
        return 0;
    top += whole;
    block->size = whole;
    return block + 1;
}

void free(void *block)
{
    struct block *head = (struct block *)block - 1;

    if (block && (uint8_t *)head + head->size == &heap[top])
        top -= head->size;
}

void *realloc(void *block, size_t size)
{
    size_t had = block ? ((struct block *)block - 1)->size - sizeof(struct block) : 0;
    void *made = malloc(size);

    if (made && block)
        memcpy(made, block, had < size ? had : size);
    return made;
}

/* The stack, whose octets are marked so that it can be seen how deep a call went, and the program's first step, onto it. */
#define MARK 0xa5
static uint8_t stack[8192] __attribute__((aligned(16)));
#define STACK_END "stack+8192"

int64_t run(void);

#if defined __x86_64__
__asm__(".globl _start\n"
        "_start: lea " STACK_END "(%rip), %rsp\n"
        "xor %ebp, %ebp\n"
        "call run\n"
        "mov %eax, %edi\n"
        "mov $231, %eax\n" /* exit_group */
        "syscall\n");

static void print(const char *text, size_t len)
{
    int64_t number = 1; /* write */

    __asm__ volatile("syscall" : "+a"(number) : "D"((int64_t)1), "S"(text), "d"(len) : "rcx", "r11", "memory");
}
#elif defined __aarch64__
__asm__(".globl _start\n"
        "_start: adrp x0, " STACK_END "\n"
        "add x0, x0, :lo12:" STACK_END "\n"
        "mov sp, x0\n"
        "mov x29, xzr\n"
        "bl run\n"
        "mov x8, #94\n" /* exit_group */
        "svc #0\n");

static void print(const char *text, size_t len)
{
    register int64_t number __asm__("x8") = 64; /* write */
    register int64_t file __asm__("x0") = 1;
    register const char *from __asm__("x1") = text;
    register size_t size __asm__("x2") = len;

    __asm__ volatile("svc #0" : "+r"(file) : "r"(number), "r"(from), "r"(size) : "memory");
}
#else
#error "the first step and the two calls of Linux of this processor are missing here"
#endif

static void say(const char *text)
{
    size_t len = 0;

    while (text[len])
        len++;
    print(text, len);
}

static void say_number(size_t number)
{
    char digits[20];
    size_t at = sizeof digits;

    do
        digits[--at] = (char)('0' + number % 10);
    while ((number /= 10) > 0);
    print(digits + at, sizeof digits - at);
}

/* Where this call stands on the stack: marks are set and looked for below it, with some room for the call itself. */
__attribute__((noinline)) static uint8_t *here(void)
{
    uint8_t octet;
    uintptr_t at = (uintptr_t)&octet;

    return stack + (at - (uintptr_t)stack) - 256;
}

__attribute__((noinline)) static void mark(void)
{
    uint8_t *at = here();

    while (at > stack) {
        *--at = MARK;
        STAY;
    }
}

/* How deep the stack was since it was marked, below the place of this call; 0 where it ran over its end, or may have. */
__attribute__((noinline)) static size_t depth(void)
{
    uint8_t *at = stack;

    while (*at == MARK)
        at++;
    return at == stack ? 0 : (size_t)(here() + 256 - at);
}

/* ---- Two hosts -------------------------------------------------------------------------------------------------------------------------- */

static struct host a, b;
static uint64_t now = 1000;
static uint32_t isn = 100;

static int moved(struct host *from, struct host *to)
{
    static uint8_t frame[HOST_FRAME_SIZE];
    int64_t len;
    int count = 0;

    for (; (len = host_next_frame(from, now, frame)) > 0; count++)
        if (host_deliver(to, now, isn++, frame, (size_t)len) != 0)
            return 0;
    return count;
}

static void turns(void)
{
    host_tick(&a, now);
    host_tick(&b, now);
    while (moved(&a, &b) + moved(&b, &a) > 0)
        continue;
    now++;
}

/* Sends octets from one end of a connection to the other, more than a segment and a small buffer have, and says whether they came out equal. */
static int passes(struct host *from, uint64_t from_id, struct host *to, uint64_t to_id)
{
    static uint8_t sent[10000], read[10000];
    size_t i, written = 0, count = 0;
    int64_t len;
    int turn;

    for (i = 0; i < sizeof sent; i++)
        sent[i] = (uint8_t)(i % 251);
    for (turn = 0; turn < 1000 && count < sizeof read; turn++) {
        len = written < sizeof sent ? host_send(from, from_id, sent + written, sizeof sent - written) : 0;
        written += len > 0 ? (size_t)len : 0;
        turns();
        len = host_recv(to, to_id, read + count, sizeof read - count);
        count += len > 0 ? (size_t)len : 0;
    }
    return count == sizeof read && memcmp(sent, read, sizeof read) == 0;
}

/* The line of the first step that failed; 0 where all held. */
static int conversation(void)
{
    uint64_t listener = (uint64_t)host_socket(&b, HOST_KIND_TCP);
    uint64_t caller = (uint64_t)host_socket(&a, HOST_KIND_TCP);
    struct host_endpoint from;
    uint8_t octet;
    int64_t accepted;

    if (host_bind(&b, listener, HOST_ADDR_ANY, 80) != 0 || host_listen(&b, listener, 1) != 0)
        return __LINE__;
    if (host_connect(&a, now, isn++, caller, HOST_ADDR(10, 0, 0, 2), 80) != 0)
        return __LINE__;
    turns();
    accepted = host_accept(&b, listener, &from);
    if (accepted <= 0 || host_state(&a, caller) != HOST_STATE_ESTABLISHED)
        return __LINE__;
    if (!passes(&a, caller, &b, (uint64_t)accepted) || !passes(&b, (uint64_t)accepted, &a, caller))
        return __LINE__;
    if (host_shutdown_write(&a, caller) != 0)
        return __LINE__;
    turns();
    if (host_recv(&b, (uint64_t)accepted, &octet, 1) != 0 || host_close(&b, (uint64_t)accepted) != 0)
        return __LINE__;
    turns();
    if (host_recv(&a, caller, &octet, 1) != 0 || host_state(&a, caller) != HOST_STATE_TIME_WAIT)
        return __LINE__;
    return host_errno(host_recv(&a, caller, &octet, 0)) == -HOST_EINVAL ? 0 : __LINE__;
}

/* The same of a datagram of two fragments, from a to b. */
static int datagram(void)
{
    static uint8_t sent[2000], read[2000];
    uint64_t server = (uint64_t)host_socket(&b, HOST_KIND_UDP);
    uint64_t client = (uint64_t)host_socket(&a, HOST_KIND_UDP);
    struct host_endpoint from;

    memset(sent, 7, sizeof sent);
    if (host_bind(&b, server, HOST_ADDR_ANY, 9) != 0)
        return __LINE__;
    if (host_sendto(&a, client, HOST_ADDR(10, 0, 0, 2), 9, sent, sizeof sent) != sizeof sent)
        return __LINE__;
    turns();
    if (host_recvfrom(&b, server, read, sizeof read, &from) != sizeof read || from.addr != HOST_ADDR(10, 0, 0, 1))
        return __LINE__;
    return memcmp(sent, read, sizeof read) == 0 ? 0 : __LINE__;
}

static const struct host_route link = {HOST_ADDR(10, 0, 0, 0), 0, 24};

/* What both hosts want that meet a real network, and how large they are beside. */
#define REPAIRS \
    .routes = &link, .count = 1, .recovery = HOST_RECOVERY_SELECTIVE, .first_segments = 10, .least_timeout = 200, \
    .first_threshold = UINT32_C(1) << 30, .guards = 1

/* Hosts that put fragments together. */
static const struct host_config larger = {.size = sizeof larger, REPAIRS, .no_window_scale = 1, .replies = 4, .reassemblies = 1, .entries = 8,
                                          .buffer = 16384, .neighbours = 8, .reassembly_octets = 2960};

/* The smallest ones that are of use, and the memory that two of them have with a connection: a host takes some 12 kB, a socket twice its buffer. */
static const struct host_config small = {.size = sizeof small, REPAIRS, .no_window_scale = 1, .replies = 1, .no_reassembly = 1, .entries = 4,
                                         .buffer = 4096, .neighbours = 8};
#define SMALL_ROOM (48 << 10)

static int both_made(struct host_config config)
{
    const uint8_t mac[6] = {2, 0, 0, 0, 0, 1};

    memcpy(config.mac, mac, sizeof mac);
    config.addr = HOST_ADDR(10, 0, 0, 1);
    if (host_new_with(&a, &config) != 0)
        return 0;
    config.mac[5] = 2;
    config.addr = HOST_ADDR(10, 0, 0, 2);
    return host_new_with(&b, &config) == 0;
}

/* The same conversation of small hosts, which leaves the heap as it was. Answers how much memory a host took; 0 where it failed. */
static size_t of_small_ones(void)
{
    size_t memory = 0;

    room = SMALL_ROOM;
    if (both_made(small)) {
        memory = top / 2;
        if (conversation() != 0)
            memory = 0;
    }
    host_free(&a);
    host_free(&b);
    top = 0;
    room = sizeof heap;
    return memory;
}

/* Answers the program's status. */
int64_t run(void)
{
    size_t making, calls, ending, memory, least;
    int failed;

    mark();
    least = of_small_ones();
    if (least == 0 || depth() == 0) {
        say("bare: small hosts can't be made, or don't converse\n");
        return 1;
    }
    mark();
    if (!both_made(larger)) {
        say("bare: the hosts can't be made\n");
        return 1;
    }
    making = depth();
    memory = top / 2;
    mark();
    failed = conversation();
    if (!failed)
        failed = datagram();
    calls = depth();
    mark();
    host_free(&a);
    host_free(&b);
    ending = depth();
    if (failed) {
        say("bare: line ");
        say_number((size_t)failed);
        say(": not so\n");
        return 1;
    }
    say("bare: two hosts, a connection and octets both ways, a datagram; a host took ");
    say_number(memory);
    say(" octets of memory, a small one ");
    say_number(least);
    say(", its making ");
    say_number(making);
    say(" of the stack, its end ");
    say_number(ending);
    say(", other calls ");
    say_number(calls);
    say("\n");
    return making == 0 || ending == 0 || calls == 0;
}
