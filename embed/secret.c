/* What `tap` draws of the system's random source: a secret of the run, and of it the numbers of isn.h. */
#include "tap.h"

#include "isn.h"

#include <stdlib.h>
#include <sys/random.h>
#include <time.h>

/* What nobody else knows. */
static struct {
    uint8_t secret[ISN_SECRET_SIZE];
    struct isn_ports ports;
} hidden;

static void draw_once(void)
{
    static bool is_drawn;
    if (is_drawn) {
        return;
    }
    if (getrandom(&hidden, sizeof hidden, 0) != (ssize_t)sizeof hidden) {
        perror("tap: getrandom");
        exit(1);
    }
    is_drawn = true;
}

uint32_t fresh_isn(const struct host_endpoint pair[2])
{
    struct timespec at;
    draw_once();
    clock_gettime(CLOCK_MONOTONIC, &at);
    return isn_of(hidden.secret, pair, (uint64_t)at.tv_sec * 1000000 + (uint64_t)at.tv_nsec / 1000);
}

int64_t bind_dynamic(struct host *host, uint64_t id, uint32_t local, const struct host_endpoint *peer)
{
    int64_t done = HOST_EADDRINUSE;
    draw_once();
    for (int tries = 0; tries < HOST_ENTRIES && done == HOST_EADDRINUSE; tries++) {
        done = host_bind(host, id, HOST_ADDR_ANY, isn_port(hidden.secret, local, peer, &hidden.ports));
    }
    return done;
}
