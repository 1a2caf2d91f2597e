/* Two hosts of this stack, over the library for C programs. */
#include "flows.h"

#include "host.h"

enum { BUFFER = 16384 };

static struct host hosts[ENDS];
static uint64_t ids[FLOWS_MOST][ENDS], listener, now;
static uint32_t isn;

static uint64_t done(int64_t answer, const char *what)
{
    if (answer < 0) {
        fail(what);
    }
    return (uint64_t)answer;
}

static void open_host(enum end end, uint8_t last, uint32_t entries)
{
    const struct host_route link = {HOST_ADDR(10, 0, 0, 0), 0, 24};
    struct host_config config = {.size = sizeof config, .routes = &link, .count = 1, .mac = {2, 0, 0, 0, 0, last}};
    config.addr = HOST_ADDR(10, 0, 0, last);
    config.entries = entries;
    config.buffer = BUFFER;
    done(host_new_with(&hosts[end], &config), "a host can't be made");
}

static void begin(size_t flows)
{
    now = 1;
    isn = 7;
    open_host(NEAR, 1, (uint32_t)flows + 1);
    open_host(FAR, 2, (uint32_t)flows + 1);
    listener = done(host_socket(&hosts[FAR], HOST_KIND_TCP), "a socket can't be made");
    done(host_bind(&hosts[FAR], listener, HOST_ADDR_ANY, PORT), "bind");
    done(host_listen(&hosts[FAR], listener, 1), "listen");
}

static void end_both(void)
{
    host_free(&hosts[NEAR]);
    host_free(&hosts[FAR]);
}

static void emit(enum end end)
{
    for (int64_t len; (len = host_next_frame(&hosts[end], now, line_place(end))) > 0;) {
        line_push(end, (size_t)len);
    }
}

static void deliver(enum end end, const uint8_t *frame, size_t len)
{
    done(host_deliver(&hosts[end], now, isn++, frame, len), "a frame is dropped");
}

static void pass_time(uint64_t milliseconds)
{
    now += milliseconds;
    host_tick(&hosts[NEAR], now);
    host_tick(&hosts[FAR], now);
}

static void connect_near(size_t flow)
{
    ids[flow][NEAR] = done(host_socket(&hosts[NEAR], HOST_KIND_TCP), "a socket can't be made");
    done(host_connect(&hosts[NEAR], now, isn++, ids[flow][NEAR], HOST_ADDR(10, 0, 0, 2), PORT), "connect");
}

static void accept_far(size_t flow)
{
    struct host_endpoint peer;
    ids[flow][FAR] = done(host_accept(&hosts[FAR], listener, &peer), "accept");
}

static void send_octets(enum end end, size_t flow, const uint8_t *octets, size_t len)
{
    if (host_send(&hosts[end], ids[flow][end], octets, len) != (int64_t)len) {
        fail("octets can't be sent");
    }
}

static size_t recv_octets(enum end end, size_t flow, uint8_t *buffer, size_t len)
{
    const int64_t count = host_recv(&hosts[end], ids[flow][end], buffer, len);
    return count > 0 ? (size_t)count : 0;
}

static void shut(enum end end, size_t flow)
{
    done(host_shutdown_write(&hosts[end], ids[flow][end]), "shutdown_write");
}

static bool is_over(enum end end, size_t flow)
{
    uint8_t octet;
    return host_recv(&hosts[end], ids[flow][end], &octet, 1) == 0;
}

static void close_end(enum end end, size_t flow)
{
    done(host_close(&hosts[end], ids[flow][end]), "close");
}

const struct stack ours = {
    .name = "this stack", .begin = begin, .end = end_both, .emit = emit, .deliver = deliver, .pass_time = pass_time, .connect = connect_near,
    .accept = accept_far, .send = send_octets, .recv = recv_octets, .shut = shut, .is_over = is_over, .close = close_end
};
