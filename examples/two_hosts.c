/*
 * Two hosts in one program, joined in memory: a handshake, octets both ways, a transfer of which a frame is lost, a datagram there and back, and
 * a close; once with the window scale option, and once without; and both again between hosts that repair losses by NewReno, and by that with
 * selective acknowledgements. It checks what it reads, and ends with status 0 where all of it was as it should be. `embed/build` makes it.
 */
#include "host.h"

#include <stdio.h>
#include <stdlib.h>
#include <string.h>

/* Ends the program where an answer is not the one that is due. */
#define CHECK(holds)                                                                    \
    do {                                                                                \
        if (!(holds)) {                                                                 \
            fprintf(stderr, "two_hosts: line %d: not so: %s\n", __LINE__, #holds);      \
            exit(1);                                                                    \
        }                                                                               \
    } while (0)

/* Both hosts, and what is the program's own: the clock, and the source of initial numbers (a counter is good for tests alone). */
static struct host a, b;
static uint64_t now = 1000;
static uint32_t isn = 100;

/* How many frames, and octets, were delivered. */
static int64_t carried, carried_octets;

/* Moves every frame that `from` has due to `to`, and answers how many those were. */
static int carry(struct host *from, struct host *to)
{
    uint8_t frame[HOST_FRAME_SIZE];
    int64_t len;
    int moved = 0;

    while ((len = host_next_frame(from, now, frame)) > 0) {
        int64_t dropped = host_deliver(to, now, isn++, frame, (size_t)len);
        if (dropped < 0)
            fprintf(stderr, "two_hosts: a frame of %d octets was dropped: %s\n", (int)len, host_drop_name(dropped));
        moved++;
        carried_octets += len;
    }
    carried += moved;
    return moved;
}

/* Lets the hosts talk until both are silent, and then a millisecond pass. */
static void turns(void)
{
    host_tick(&a, now);
    host_tick(&b, now);
    while (carry(&a, &b) + carry(&b, &a) > 0)
        continue;
    now++;
}

/* Sends a text from one end of a connection to the other, and reads it there. */
static void say(struct host *from, uint64_t from_id, struct host *to, uint64_t to_id, const char *text)
{
    uint8_t buffer[100];
    int64_t len = (int64_t)strlen(text);

    CHECK(host_recv(to, to_id, buffer, sizeof buffer) == HOST_EAGAIN);
    CHECK(host_ready(to, to_id) == HOST_READY_WRITE && host_recv_len(to, to_id) == 0);
    CHECK(host_send(from, from_id, (const uint8_t *)text, (size_t)len) == len);
    turns();
    CHECK(host_ready(to, to_id) == (HOST_READY_READ | HOST_READY_WRITE) && host_recv_len(to, to_id) == len);
    CHECK(host_recv(to, to_id, buffer, sizeof buffer) == len);
    CHECK(memcmp(buffer, text, (size_t)len) == 0);
}

/* Lets time pass until the earlier deadline of the hosts. As long as octets wait to be acknowledged there is one, or a frame goes out. */
static void wait_for_deadline(void)
{
    uint64_t moment, other;

    if (host_next_deadline(&a, &moment) == 0)
        CHECK(host_next_deadline(&b, &moment) == 1);
    else if (host_next_deadline(&b, &other) == 1 && other < moment)
        moment = other;
    CHECK(moment > now);
    now = moment;
    host_tick(&a, now);
    host_tick(&b, now);
}

/* Gives a connection 20,000 octets, of whose frames the first is lost, and reads them at its other end. Time goes by the deadlines alone. The usual
 * host waits for a timeout, which is a second at least: too few segments go out behind the lost one. The others tell by duplicate ACKs. */
static void transfer_with_loss(struct host *from, uint64_t from_id, struct host *to, uint64_t to_id, int repairs)
{
    static uint8_t octets[20000], buffer[20000];
    uint8_t lost[HOST_FRAME_SIZE];
    const uint64_t before = now;
    size_t i, read = 0;

    for (i = 0; i < sizeof octets; i++)
        octets[i] = (uint8_t)(i % 251);
    CHECK(host_send(from, from_id, octets, sizeof octets) == sizeof octets);
    CHECK(host_next_frame(from, now, lost) == HOST_FRAME_SIZE);
    while (read < sizeof octets) {
        int64_t len = host_recv(to, to_id, buffer + read, sizeof buffer - read);
        if (len > 0)
            read += (size_t)len;
        else if (carry(from, to) + carry(to, from) == 0)
            wait_for_deadline();
    }
    CHECK(memcmp(buffer, octets, sizeof octets) == 0 && (repairs ? now < before + 1000 : now >= before + 1000));
    turns();
}

/* Gives a connection more octets than it has room for, and reads those at its other end that it took. */
static void fill(struct host *from, uint64_t from_id, struct host *to, uint64_t to_id, int64_t room)
{
    static uint8_t octets[1 << 21], buffer[1 << 21];
    int64_t read = 0, len;
    size_t i;

    for (i = 0; i < sizeof octets; i++)
        octets[i] = (uint8_t)(i % 251);
    CHECK(host_send(from, from_id, octets, sizeof octets) == room);
    CHECK(host_send(from, from_id, octets, 1) == HOST_EAGAIN);
    while (read < room) {
        turns();
        now += 200; /* an ACK may wait for so long */
        len = host_recv(to, to_id, buffer + read, sizeof buffer - (size_t)read);
        CHECK(len > 0 || len == HOST_EAGAIN);
        read += len > 0 ? len : 0;
    }
    CHECK(read == room && memcmp(buffer, octets, (size_t)room) == 0);
}

/* A connection from a to b: opened, used both ways, and closed by both ends in turn. */
static void connection(int64_t room, int repairs)
{
    const uint32_t peer = HOST_ADDR(10, 0, 0, 2);
    uint64_t listener = (uint64_t)host_socket(&b, HOST_KIND_TCP);
    uint64_t caller = (uint64_t)host_socket(&a, HOST_KIND_TCP);
    struct host_endpoint from, pair[2];
    struct host_info info = {.size = sizeof info};
    uint8_t buffer[1];
    int64_t accepted;
    uint64_t moment;
    uint32_t bits;

    CHECK(host_bind(&b, listener, HOST_ADDR_ANY, 80) == 0);
    CHECK(host_sockname(&b, listener, &from) == 0 && from.addr == HOST_ADDR_ANY && from.port == 80);
    CHECK(host_listen(&b, listener, 1) == 0);
    CHECK(host_would_connect(&a, caller, peer, 80, pair) == 1 && pair[0].port == 49152 && pair[1].port == 80);
    CHECK(host_connect(&a, now, isn++, caller, peer, 80) == 0);
    CHECK(host_state(&a, caller) == HOST_STATE_SYN_SENT);
    turns();
    CHECK(host_state(&a, caller) == HOST_STATE_ESTABLISHED);

    CHECK(host_next_ready(&b, 0, HOST_READY_ACCEPT | HOST_READY_READ, &bits) == (int64_t)listener && bits == HOST_READY_ACCEPT);
    accepted = host_accept(&b, listener, &from);
    CHECK(accepted > 0 && from.addr == HOST_ADDR(10, 0, 0, 1) && from.port == 49152);
    CHECK(host_peername(&a, caller, &from) == 0 && from.addr == peer && from.port == 80);
    CHECK(host_accept(&b, listener, &from) == HOST_EAGAIN);
    say(&a, caller, &b, (uint64_t)accepted, "hello");
    say(&b, (uint64_t)accepted, &a, caller, "welcome");
    transfer_with_loss(&a, caller, &b, (uint64_t)accepted, repairs);
    fill(&a, caller, &b, (uint64_t)accepted, room);
    CHECK(host_info(&a, caller, &info) == 0 && info.state == HOST_STATE_ESTABLISHED && info.held == info.in_flight + info.unsent);
    CHECK(info.smss == 1460 && info.rto >= (repairs ? 200 : 1000) && info.ends == -1 && info.error == 0);
    CHECK(host_info(&b, listener, &info) == HOST_EOPNOTSUPP && host_set_nodelay(&b, listener, 1) == HOST_EOPNOTSUPP);
    CHECK(host_set_nodelay(&a, caller, 1) == 0);
    CHECK(host_set_keepalive(&b, listener, 10000) == HOST_EOPNOTSUPP && host_set_keepalive(&a, caller, 9999) == HOST_EINVAL);
    CHECK(host_set_keepalive(&a, caller, 7200000) == 0); /* two hours */

    CHECK(host_shutdown_write(&a, caller) == 0);
    turns();
    CHECK(host_ready(&b, (uint64_t)accepted) == (HOST_READY_WRITE | HOST_READY_ENDED));
    CHECK(host_recv(&b, (uint64_t)accepted, buffer, sizeof buffer) == 0);
    CHECK(host_close(&b, (uint64_t)accepted) == 0);
    turns();
    CHECK(host_recv(&a, caller, buffer, sizeof buffer) == 0);
    CHECK(host_state(&a, caller) == HOST_STATE_TIME_WAIT);
    CHECK(host_next_deadline(&a, &moment) == 1 && moment > now);
    now = moment;
    turns();
    CHECK(host_state(&a, caller) == HOST_STATE_CLOSED);
    CHECK(host_close(&a, caller) == 0 && host_state(&a, caller) == HOST_EBADF);
    CHECK(host_close(&b, listener) == 0);
}

/* A datagram of 3,000 octets from a to b, which goes out in fragments, and one back to where it came from. */
static void datagrams(void)
{
    static uint8_t large[3000], buffer[4000];
    uint64_t server = (uint64_t)host_socket(&b, HOST_KIND_UDP);
    uint64_t client = (uint64_t)host_socket(&a, HOST_KIND_UDP);
    struct host_endpoint from;
    size_t i;

    for (i = 0; i < sizeof large; i++)
        large[i] = (uint8_t)(i % 251);
    CHECK(host_bind(&b, server, HOST_ADDR(10, 0, 0, 2), 5001) == 0);
    CHECK(host_sendto(&a, client, HOST_ADDR(10, 0, 0, 2), 5001, large, sizeof large) == sizeof large);
    turns();
    CHECK(host_recvfrom(&b, server, buffer, sizeof buffer, &from) == sizeof large);
    CHECK(memcmp(buffer, large, sizeof large) == 0 && from.addr == HOST_ADDR(10, 0, 0, 1));
    CHECK(host_sendto(&b, server, from.addr, from.port, buffer, 5) == 5);
    turns();
    CHECK(host_recvfrom(&a, client, buffer, sizeof buffer, &from) == 5 && memcmp(buffer, large, 5) == 0);
    CHECK(from.addr == HOST_ADDR(10, 0, 0, 2) && from.port == 5001);
    CHECK(host_recvfrom(&a, client, buffer, sizeof buffer, &from) == HOST_EAGAIN);
}

/* Both hosts counted what was carried from one to the other, and besides the frame that was lost; and none was dropped. */
static void counts(void)
{
    struct host_counters of_a = {.size = sizeof of_a}, of_b = {.size = sizeof of_b};

    CHECK(host_counters(&a, &of_a) == 0 && host_counters(&b, &of_b) == 0);
    CHECK(of_a.frames_in + of_b.frames_in == carried && of_a.octets_in + of_b.octets_in == carried_octets);
    CHECK(of_a.frames_out + of_b.frames_out == carried + 1 && of_a.octets_out + of_b.octets_out == carried_octets + HOST_FRAME_SIZE);
    CHECK(of_a.other_mac == 0 && of_a.upper_sum == 0 && of_b.backlog == 0 && of_b.replies == 0);
    carried = carried_octets = 0;
}

/* What a config must be. Those that aren't are refused. */
static void configs(struct host_config config)
{
    struct {
        struct host_config config;
        uint64_t later; /* an option of a later header */
    } larger = {config, 0};

    config.no_window_scale = 2;
    CHECK(host_new_with(&b, &config) == HOST_EINVAL);
    config.no_window_scale = 0;
    config.minshall = 2;
    CHECK(host_new_with(&b, &config) == HOST_EINVAL);
    config.minshall = 0;
    config.recovery = 3;
    CHECK(host_new_with(&b, &config) == HOST_EINVAL);
    config.recovery = 0;
    config.guards = 2;
    CHECK(host_new_with(&b, &config) == HOST_EINVAL);
    config.guards = 0;
    config.zero[2] = 1;
    CHECK(host_new_with(&b, &config) == HOST_EINVAL);
    config.zero[2] = 0;
    config.size = 39;
    CHECK(host_new_with(&b, &config) == HOST_EINVAL);
    CHECK(host_new_from(&b, (const uint8_t *)&config, sizeof config, config.routes, config.count) == HOST_EINVAL);
    larger.config.size = sizeof larger;
    larger.later = 1;
    CHECK(host_new_with(&b, &larger.config) == HOST_EINVAL);
    larger.later = 0;
    CHECK(host_new_with(&b, &larger.config) == 0);
    CHECK(host_new_with(&b, &larger.config) == HOST_EINVAL);
    host_free(&b);
    config.size = 40; /* as a program of an older header has it */
    CHECK(host_new_with(&b, &config) == 0);
    host_free(&b);
    config.size = sizeof config;
    config.first_segments = UINT8_MAX; /* no number of these is refused */
    config.least_timeout = 1;
    config.first_threshold = UINT32_MAX;
    CHECK(host_new_with(&b, &config) == 0);
    host_free(&b);
}

/* What host_new_with answers of a config. */
static int64_t made(struct host_config config)
{
    const int64_t answer = host_new_with(&b, &config);

    host_free(&b);
    return answer;
}

/* How large a host is. A size out of its range is refused. */
static void sizes(const struct host_config config)
{
    struct host_config least = config, most = config, other = config;

    least.entries = least.reassemblies = least.replies = 1;
    least.buffer = 2048;
    least.reassembly_octets = 1480;
    least.neighbours = 8;
    CHECK(made(least) == 0);
    most.entries = 16384;
    most.buffer = 1048576;
    most.reassemblies = 16;
    most.reassembly_octets = 65515;
    most.replies = 64;
    most.neighbours = 4096;
    CHECK(made(most) == 0);
    other.entries = 16385;
    CHECK(made(other) == HOST_EINVAL);
    other = config;
    other.buffer = 2047;
    CHECK(made(other) == HOST_EINVAL);
    other = config;
    other.reassemblies = 17;
    CHECK(made(other) == HOST_EINVAL);
    other.no_reassembly = 1; /* it has none then, whatever their number */
    CHECK(made(other) == 0);
    other.no_reassembly = 2;
    CHECK(made(other) == HOST_EINVAL);
    other = config;
    other.reassembly_octets = 65516;
    CHECK(made(other) == HOST_EINVAL);
    other = config;
    other.replies = 65;
    CHECK(made(other) == HOST_EINVAL);
    other = config;
    other.neighbours = 7;
    CHECK(made(other) == HOST_EINVAL);
    other = config;
    other.size = 48; /* as an older header has it, without sizes */
    CHECK(made(other) == 0);
    other.entries = 1; /* behind its end */
    CHECK(made(other) == 0);
    other.replies = 1;
    CHECK(made(other) == HOST_EINVAL);
    CHECK(host_new_with(&b, &least) == 0);
    CHECK(host_socket(&b, HOST_KIND_TCP) > 0);
    CHECK(host_socket(&b, HOST_KIND_UDP) == HOST_EMFILE);
    host_free(&b);
}

/* What a host wants that meets a real network. */
static void repair_losses(struct host_config *config, uint8_t recovery)
{
    config->recovery = recovery;
    config->first_segments = 10;
    config->least_timeout = 200;
    config->first_threshold = UINT32_C(1) << 30;
    config->guards = 1;
}

int main(void)
{
    const uint8_t mac_a[6] = {2, 0, 0, 0, 0, 1};
    const struct host_route route = {HOST_ADDR(10, 0, 0, 0), 0, 24};
    struct host_config config = {.size = sizeof config, .routes = &route, .count = 1, .addr = HOST_ADDR(10, 0, 0, 2), .mac = {2, 0, 0, 0, 0, 2}};
    struct host_config of_a = {.size = sizeof of_a, .routes = &route, .count = 1, .addr = HOST_ADDR(10, 0, 0, 1), .mac = {2, 0, 0, 0, 0, 1}};
    int64_t refusal;
    uint8_t recovery;

    refusal = host_new(&a, mac_a, HOST_ADDR(255, 0, 0, 1), &route, 1);
    CHECK(refusal == HOST_EINVAL && host_errno(refusal) == EINVAL && strcmp(host_refusal_name(refusal), "EINVAL") == 0);
    configs(config);
    sizes(config);

    for (recovery = HOST_RECOVERY_PLAIN; recovery <= HOST_RECOVERY_SELECTIVE; recovery++) {
        if (recovery != HOST_RECOVERY_PLAIN) {
            repair_losses(&of_a, recovery);
            repair_losses(&config, recovery);
        }
        for (config.no_window_scale = 0; config.no_window_scale < 2; config.no_window_scale++) {
            CHECK((recovery ? host_new_with(&a, &of_a) : host_new(&a, mac_a, HOST_ADDR(10, 0, 0, 1), &route, 1)) == 0);
            CHECK(host_new_with(&b, &config) == 0);
            connection(config.no_window_scale ? 65535 : 1048576, recovery != HOST_RECOVERY_PLAIN);
            datagrams();
            counts();
            host_free(&a);
            host_free(&b);
        }
    }
    host_free(&b);
    CHECK(a.at == NULL && b.at == NULL && host_socket(&a, HOST_KIND_TCP) == HOST_EBADF);
    CHECK(host_counters_into(&a, &carried, 1) == HOST_EBADF);
    puts("two hosts: a connection, octets both ways, a lost frame, datagrams and a close; with the window scale option, and without; by NewReno, without and with selective acknowledgements, and by RFC 5681 alone");
    return 0;
}
