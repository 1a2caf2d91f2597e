/* A host of this stack, over the library for C programs, in each of the set-ups that are tried. */
#include "wire.h"

#include "host.h"

enum { BACKLOG = 8 };

static struct host hosts[ENDS];
static uint64_t listeners[ENDS], datagrams[ENDS];

static uint32_t addr_of(enum end end)
{
    return HOST_ADDR(10, 0, 0, end == NEAR ? 1 : 2);
}

static uint64_t done(int64_t answer, const char *what)
{
    if (answer < 0) {
        fail(what);
    }
    return (uint64_t)answer;
}

/* Initial numbers go on, so that a connection's are past those of the one before. */
static uint32_t fresh_isn(void)
{
    static uint32_t isn;
    return isn += 64000;
}

/* All but `plain` have what docs/EMBEDDING.md says for a real network. */
static void make_with(enum end end, uint8_t recovery, bool scale)
{
    const bool usual = recovery == HOST_RECOVERY_PLAIN;
    const struct host_route link = {HOST_ADDR(10, 0, 0, 0), 0, 24};
    const struct host_config config = {.size = sizeof config, .routes = &link, .count = 1, .addr = addr_of(end),
                                       .mac = {2, 0, 0, 0, 0, (uint8_t)(1 + end)}, .no_window_scale = !scale, .recovery = recovery,
                                       .first_segments = usual ? 0 : 10, .least_timeout = usual ? 0 : 200,
                                       .first_threshold = usual ? 0 : 1 << 30};
    done(host_new_with(&hosts[end], &config), "new");
}

static void make_plain(enum end end)
{
    make_with(end, HOST_RECOVERY_PLAIN, true);
}

static void make_newreno(enum end end)
{
    make_with(end, HOST_RECOVERY_NEW_RENO, true);
}

static void make_selective(enum end end)
{
    make_with(end, HOST_RECOVERY_SELECTIVE, true);
}

static void make_selective_small(enum end end)
{
    make_with(end, HOST_RECOVERY_SELECTIVE, false);
}

/* A frame without room is as one that was lost; any other that is dropped has a fault, which no frame here has. */
static void deliver(enum end end, const uint8_t *frame, size_t len)
{
    const int64_t answer = host_deliver(&hosts[end], moment, fresh_isn(), frame, len);
    if (answer != HOST_DROP_NO_ROOM && answer != HOST_DROP_OTHER_MAC) {
        done(answer, host_drop_name(answer));
    }
}

static void emit(enum end end)
{
    for (int64_t len; (len = host_next_frame(&hosts[end], moment, wire_place())) != 0;) {
        wire_push(end, (size_t)done(len, "next_frame"));
    }
}

static uint64_t next(enum end end)
{
    uint64_t deadline;
    return done(host_next_deadline(&hosts[end], &deadline), "next_deadline") == 1 ? deadline : UINT64_MAX;
}

static void tick(enum end end)
{
    host_tick(&hosts[end], moment);
}

static uint16_t listen_at(enum end end, uint16_t port)
{
    listeners[end] = done(host_socket(&hosts[end], HOST_KIND_TCP), "socket");
    done(host_bind(&hosts[end], listeners[end], HOST_ADDR_ANY, port), "bind");
    done(host_listen(&hosts[end], listeners[end], BACKLOG), "listen");
    return port;
}

static uint64_t accept_one(enum end end)
{
    struct host_endpoint peer;
    const int64_t id = host_accept(&hosts[end], listeners[end], &peer);
    return id == HOST_EAGAIN ? 0 : done(id, "accept");
}

static uint64_t connect_to(enum end end, uint16_t from, uint16_t to)
{
    const int64_t id = host_socket(&hosts[end], HOST_KIND_TCP);
    if (id == HOST_EMFILE) {
        return 0;
    }
    done(id, "socket");
    done(host_bind(&hosts[end], (uint64_t)id, HOST_ADDR_ANY, from), "bind");
    done(host_connect(&hosts[end], moment, fresh_isn(), (uint64_t)id, addr_of(end == NEAR ? FAR : NEAR), to), "connect");
    return (uint64_t)id;
}

static enum standing standing(enum end end, uint64_t id)
{
    struct host_info info = {.size = sizeof info};
    const uint64_t ready = done(host_ready(&hosts[end], id), "ready");
    if ((ready & HOST_READY_FAILED) == 0) {
        return (ready & HOST_READY_OPENING) != 0 ? OPENING : OPEN;
    }
    done(host_info(&hosts[end], id, &info), "info");
    return info.error == HOST_ECONNREFUSED ? REFUSED : info.error == HOST_ECONNRESET ? RESET : SILENT;
}

/* How many octets a call moved. */
static size_t moved(int64_t answer, const char *what)
{
    return answer == HOST_EAGAIN || answer == HOST_ECONNRESET ? 0 : (size_t)done(answer, what);
}

static size_t send_octets(enum end end, uint64_t id, const uint8_t *octets, size_t len)
{
    return moved(host_send(&hosts[end], id, octets, len), "send");
}

static size_t read_octets(enum end end, uint64_t id, uint8_t *buffer, size_t len)
{
    return moved(host_recv(&hosts[end], id, buffer, len), "recv");
}

static bool has_ended(enum end end, uint64_t id)
{
    return (done(host_ready(&hosts[end], id), "ready") & HOST_READY_ENDED) != 0;
}

static void shut(enum end end, uint64_t id)
{
    done(host_shutdown_write(&hosts[end], id), "shutdown");
}

static void give_back(enum end end, uint64_t id)
{
    done(host_close(&hosts[end], id), "close");
}

static void reset(enum end end, uint64_t id)
{
    done(host_abort(&hosts[end], id), "abort");
}

static uint16_t bind_datagrams(enum end end, uint16_t port)
{
    datagrams[end] = done(host_socket(&hosts[end], HOST_KIND_UDP), "socket");
    done(host_bind(&hosts[end], datagrams[end], HOST_ADDR_ANY, port), "bind");
    return port;
}

static bool send_datagram(enum end end, uint16_t port, const uint8_t *octets, size_t len)
{
    const uint32_t addr = addr_of(end == NEAR ? FAR : NEAR);
    const int64_t answer = host_sendto(&hosts[end], datagrams[end], addr, port, octets, len);
    return answer != HOST_EAGAIN && done(answer, "sendto") == len;
}

static int64_t read_datagram(enum end end, uint8_t *buffer, size_t len)
{
    struct host_endpoint from;
    const int64_t answer = host_recvfrom(&hosts[end], datagrams[end], buffer, len, &from);
    return answer == HOST_EAGAIN ? -1 : (int64_t)done(answer, "recvfrom");
}

#define STACK(title, maker)                                                                                                                          \
    {                                                                                                                                                \
        .name = (title), .largest = HOST_DATAGRAM_SIZE, .make = (maker), .deliver = deliver, .emit = emit, .next = next, .tick = tick,               \
        .listen = listen_at, .accept = accept_one, .connect = connect_to, .standing = standing, .send = send_octets, .recv = read_octets,            \
        .ended = has_ended, .shutdown = shut, .close = give_back, .abort = reset, .bind = bind_datagrams, .send_datagram = send_datagram,            \
        .recv_datagram = read_datagram                                                                                                               \
    }

const struct stack plain = STACK("plain", make_plain);
const struct stack newreno = STACK("newreno", make_newreno);
const struct stack selective = STACK("selective", make_selective);
const struct stack selective_small = STACK("selective, 65,535", make_selective_small);
