/* Two hosts of this stack, over the library for C programs. */
#include "pair.h"

#include "host.h"

static struct host hosts[ENDS];
static uint64_t connection[ENDS], listener, moment;

static uint64_t done(int64_t answer, const char *what)
{
    if (answer < 0) {
        fail(what);
    }
    return (uint64_t)answer;
}

static void open_host(enum end end, uint8_t last, bool scale)
{
    const struct host_route link = {HOST_ADDR(10, 0, 0, 0), 0, 24};
    const struct host_config config = {.size = sizeof config, .routes = &link, .count = 1, .addr = HOST_ADDR(10, 0, 0, last),
                                       .mac = {2, 0, 0, 0, 0, last}, .no_window_scale = !scale};
    done(host_new_with(&hosts[end], &config), "new");
}

static void begin_with(bool scale)
{
    moment = 1;
    open_host(NEAR, 1, scale);
    open_host(FAR, 2, scale);
    listener = done(host_socket(&hosts[FAR], HOST_KIND_TCP), "socket");
    done(host_bind(&hosts[FAR], listener, HOST_ADDR_ANY, PORT), "bind");
    done(host_listen(&hosts[FAR], listener, 1), "listen");
    connection[NEAR] = done(host_socket(&hosts[NEAR], HOST_KIND_TCP), "socket");
    connection[FAR] = 0;
    done(host_connect(&hosts[NEAR], moment, 1, connection[NEAR], HOST_ADDR(10, 0, 0, 2), PORT), "connect");
}

static void begin(void)
{
    begin_with(false);
}

static void begin_scaled(void)
{
    begin_with(true);
}

static bool is_open(void)
{
    struct host_endpoint peer;
    if (connection[FAR] == 0) {
        const int64_t accepted = host_accept(&hosts[FAR], listener, &peer);
        connection[FAR] = accepted > 0 ? (uint64_t)accepted : 0;
    }
    return connection[FAR] != 0 && host_state(&hosts[NEAR], connection[NEAR]) == HOST_STATE_ESTABLISHED &&
           host_state(&hosts[FAR], connection[FAR]) == HOST_STATE_ESTABLISHED;
}

static void end_both(void)
{
    host_free(&hosts[NEAR]);
    host_free(&hosts[FAR]);
}

static void emit(enum end end)
{
    for (int64_t len; (len = host_next_frame(&hosts[end], moment, line_place(end))) != 0;) {
        line_push(end, (size_t)done(len, "next_frame"));
    }
}

static void deliver(enum end end, const uint8_t *frame, size_t len)
{
    done(host_deliver(&hosts[end], moment, 7, frame, len), "deliver");
}

/* How many octets a call moved. */
static size_t moved(int64_t answer, const char *what)
{
    return answer == HOST_EAGAIN ? 0 : (size_t)done(answer, what);
}

static size_t send_octets(const uint8_t *octets, size_t len)
{
    return moved(host_send(&hosts[NEAR], connection[NEAR], octets, len), "send");
}

static size_t recv_octets(uint8_t *buffer, size_t len)
{
    return moved(host_recv(&hosts[FAR], connection[FAR], buffer, len), "recv");
}

static void wait_for_timer(void)
{
    uint64_t next = UINT64_MAX;
    for (int end = NEAR; end < ENDS; end++) {
        uint64_t deadline;
        if (done(host_next_deadline(&hosts[end], &deadline), "next_deadline") == 1 && deadline < next) {
            next = deadline;
        }
    }
    if (next == UINT64_MAX) {
        fail("nothing moves, and no timer runs");
    }
    moment = next > moment ? next : moment;
    host_tick(&hosts[NEAR], moment);
    host_tick(&hosts[FAR], moment);
}

const struct stack ours = {"this stack", SMALL, begin, is_open, end_both, emit, deliver, send_octets, recv_octets, wait_for_timer};
const struct stack ours_scaled = {"this stack, scaled", LARGE, begin_scaled, is_open, end_both, emit, deliver, send_octets, recv_octets,
                                  wait_for_timer};
