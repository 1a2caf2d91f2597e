/* Small hosts, many in one process: the time that making them takes, and the memory of one and of a TCP socket of it. `bench/small` runs it. */
#include "host.h"

#include <stdio.h>
#include <stdlib.h>
#include <time.h>

enum { HOSTS = 1000, RUNS = 9 };

static struct host hosts[HOSTS];
static size_t taken, blocks;

void *__real_malloc(size_t size);
void *__wrap_malloc(size_t size);

/* Each block that the library takes passes here. */
void *__wrap_malloc(size_t size)
{
    taken += size;
    blocks++;
    return __real_malloc(size);
}

static void done(int64_t answer, const char *what)
{
    if (answer < 0) {
        fprintf(stderr, "small: %s\n", what);
        exit(1);
    }
}

static double milliseconds(void)
{
    struct timespec at;
    clock_gettime(CLOCK_MONOTONIC, &at);
    return (double)at.tv_sec * 1e3 + (double)at.tv_nsec / 1e6;
}

/* How long it takes to make all, in milliseconds. */
static double made(void)
{
    const struct host_route link = {HOST_ADDR(10, 0, 0, 0), 0, 8};
    struct host_config config = {.size = sizeof config, .routes = &link, .count = 1, .mac = {2, 0, 0, 0, 0, 1}, .guards = 1};
    config.entries = 4;
    config.buffer = 4096;
    config.no_reassembly = 1;
    config.replies = 1;
    config.neighbours = 8;
    const double begun = milliseconds();
    for (uint32_t i = 0; i < HOSTS; i++) {
        config.addr = HOST_ADDR(10, 0, 0, 0) + 1 + i;
        done(host_new_with(&hosts[i], &config), "a host can't be made");
    }
    return milliseconds() - begun;
}

int main(void)
{
    const double first = made();
    double least = first;
    printf("a small host takes %zu octets in %zu blocks\n", taken / HOSTS, blocks / HOSTS);
    for (int run = 1; run < RUNS; run++) {
        for (int i = 0; i < HOSTS; i++) {
            host_free(&hosts[i]);
        }
        const double time = made();
        least = time < least ? time : least;
    }
    printf("%d of them are made in %.1f ms at first, and in %.1f ms at the least\n", HOSTS, first, least);
    taken = blocks = 0;
    done(host_socket(&hosts[0], HOST_KIND_TCP), "a socket can't be made");
    printf("a TCP socket of one takes %zu octets in %zu blocks\n", taken, blocks);
    return 0;
}
