/* The network of libslirp, which stands between a guest, the other end, and the sockets of this machine: a connection of the guest's goes on to a
   socket on the loopback device, and one to that device is passed to the guest. So the program at this end has plain sockets, while libslirp's TCP is
   the guest's peer, by the simulated clock. */
#define _GNU_SOURCE 1

#include "wire.h"

#include <arpa/inet.h>
#include <errno.h>
#include <libslirp.h>
#include <netinet/in.h>
#include <poll.h>
#include <sys/socket.h>
#include <unistd.h>

enum {
    POLLED = 256,
    SOCKETS = 1024,       /* descriptors are below */
    TURNS = 64,           /* how often it is asked at one moment at most */
    BUFFER = 65536,       /* octets of the program's buffers in the system */
    NANOSECONDS = 1000000 /* of a millisecond */
};

static Slirp *network;
static enum end here;
static struct pollfd polled[POLLED];
static int polled_count;
static enum standing standings[SOCKETS];
static int listener, datagrams;
static struct sockaddr_in asker; /* where the last datagram was from */

static int done(int answer, const char *what)
{
    if (answer < 0 || answer >= SOCKETS) {
        fail(what);
    }
    return answer;
}

static struct sockaddr_in loopback(uint16_t port)
{
    return (struct sockaddr_in){.sin_family = AF_INET, .sin_port = htons(port), .sin_addr = {htonl(INADDR_LOOPBACK)}};
}

static struct in_addr addr_of(uint8_t last)
{
    return (struct in_addr){htonl(0x0A000000u + last)};
}

/* ---- What libslirp calls ------------------------------------------------------------------------------------------------------------------- */

static ssize_t put_on_wire(const void *octets, size_t len, void *opaque)
{
    uint8_t *place = wire_place();
    (void)opaque;
    for (size_t i = 0; i < len; i++) {
        place[i] = ((const uint8_t *)octets)[i];
    }
    wire_push(here, len);
    return (ssize_t)len;
}

static void hear_error(const char *text, void *opaque)
{
    (void)opaque;
    fail(text);
}

static int64_t clock_now(void *opaque)
{
    (void)opaque;
    return (int64_t)moment * NANOSECONDS;
}

/* Timers are for IPv6 alone, which is off. */
static void *make_timer(SlirpTimerCb call, void *argument, void *opaque)
{
    (void)call;
    (void)argument;
    return opaque;
}

static void free_timer(void *timer, void *opaque)
{
    (void)timer;
    (void)opaque;
}

static void set_timer(void *timer, int64_t expires, void *opaque)
{
    (void)timer;
    (void)expires;
    (void)opaque;
}

static void take_descriptor(int descriptor, void *opaque)
{
    (void)descriptor;
    (void)opaque;
}

static void be_told(void *opaque)
{
    (void)opaque;
}

static const SlirpCb calls = {.send_packet = put_on_wire, .guest_error = hear_error, .clock_get_ns = clock_now, .timer_new = make_timer,
                              .timer_free = free_timer, .timer_mod = set_timer, .register_poll_fd = take_descriptor,
                              .unregister_poll_fd = take_descriptor, .notify = be_told};

/* Its events have other numbers than the system's. */
static const struct {
    int theirs;
    short ours;
} events[] = {{SLIRP_POLL_IN, POLLIN}, {SLIRP_POLL_OUT, POLLOUT}, {SLIRP_POLL_PRI, POLLPRI}, {SLIRP_POLL_ERR, POLLERR}, {SLIRP_POLL_HUP, POLLHUP}};

static int add_polled(int descriptor, int wanted, void *opaque)
{
    (void)opaque;
    if (polled_count == POLLED) {
        fail("more sockets than there is room for");
    }
    polled[polled_count] = (struct pollfd){.fd = descriptor};
    for (size_t i = 0; i < sizeof events / sizeof events[0]; i++) {
        polled[polled_count].events |= (wanted & events[i].theirs) != 0 ? events[i].ours : 0;
    }
    return polled_count++;
}

static int events_of(int place, void *opaque)
{
    int found = 0;
    (void)opaque;
    for (size_t i = 0; i < sizeof events / sizeof events[0]; i++) {
        found |= (polled[place].revents & events[i].ours) != 0 ? events[i].theirs : 0;
    }
    return found;
}

/* ---- The network --------------------------------------------------------------------------------------------------------------------------- */

static void make(enum end end)
{
    const SlirpConfig config = {.version = 1, .in_enabled = true, .vnetwork = addr_of(0), .vnetmask = {htonl(0xFFFFFF00u)},
                                .vhost = addr_of(end == NEAR ? 1 : 2), .vdhcp_start = addr_of(end == NEAR ? 2 : 1), .vnameserver = addr_of(3)};
    here = end;
    network = slirp_new(&config, &calls, &network);
    if (network == NULL) {
        fail("slirp_new");
    }
}

static void deliver(enum end end, const uint8_t *frame, size_t len)
{
    (void)end;
    slirp_input(network, frame, (int)len);
}

/* How many of its sockets are ready, so many milliseconds of the real clock from now at most. */
static int ask_sockets(uint32_t *timeout, int wait)
{
    polled_count = 0;
    slirp_pollfds_fill(network, timeout, add_polled, NULL);
    return poll(polled, (nfds_t)polled_count, wait);
}

/* Its timers act, and its sockets are read and written until none is ready. */
static void emit(enum end end)
{
    int ready = 1;
    (void)end;
    for (int turn = 0; ready > 0 && turn < TURNS; turn++) {
        uint32_t timeout = UINT32_MAX;
        ready = ask_sockets(&timeout, 0);
        slirp_pollfds_poll(network, ready < 0, events_of, NULL);
    }
}

/* The clock waits while the system is at work: a millisecond of the real one. */
static uint64_t next(enum end end)
{
    uint32_t timeout = UINT32_MAX;
    (void)end;
    if (ask_sockets(&timeout, 1) > 0) {
        return moment;
    }
    return timeout == UINT32_MAX ? UINT64_MAX : moment + timeout;
}

static void tick(enum end end)
{
    emit(end);
}

/* ---- The program's sockets ----------------------------------------------------------------------------------------------------------------- */

static uint16_t port_of(int descriptor)
{
    struct sockaddr_in at;
    socklen_t len = sizeof at;
    done(getsockname(descriptor, (struct sockaddr *)&at, &len), "getsockname");
    return ntohs(at.sin_port);
}

static int socket_at(int type, uint16_t port)
{
    const struct sockaddr_in at = loopback(port);
    const int descriptor = done(socket(AF_INET, type | SOCK_NONBLOCK, 0), "socket"), size = BUFFER;
    done(bind(descriptor, (const struct sockaddr *)&at, sizeof at), "bind");
    if (type == SOCK_STREAM) {
        done(setsockopt(descriptor, SOL_SOCKET, SO_RCVBUF, &size, sizeof size), "SO_RCVBUF");
        done(setsockopt(descriptor, SOL_SOCKET, SO_SNDBUF, &size, sizeof size), "SO_SNDBUF");
    }
    return descriptor;
}

/* The port is the system's choice, as another program may have any that is asked for. */
static uint16_t listen_at(enum end end, uint16_t port)
{
    (void)end;
    (void)port;
    listener = socket_at(SOCK_STREAM, 0);
    done(listen(listener, SOMAXCONN), "listen");
    return port_of(listener);
}

static uint64_t accept_one(enum end end)
{
    (void)end;
    const int descriptor = accept4(listener, NULL, NULL, SOCK_NONBLOCK);
    if (descriptor < 0 && errno == EAGAIN) {
        return 0;
    }
    standings[done(descriptor, "accept")] = OPEN;
    return (uint64_t)descriptor;
}

/* A port of the loopback device that libslirp passes to the guest's; it stays so for the next connection. */
static uint16_t passed_to(uint16_t to)
{
    static uint16_t passed, passes_to;
    if (passes_to != to) {
        const int taken = socket_at(SOCK_STREAM, 0);
        passed = port_of(taken);
        passes_to = to;
        close(taken);
        done(slirp_add_hostfwd(network, 0, loopback(0).sin_addr, passed, addr_of(here == NEAR ? 2 : 1), to), "slirp_add_hostfwd");
    }
    return passed;
}

/* It is open at once: libslirp takes it before it asks the guest. */
static uint64_t connect_to(enum end end, uint16_t from, uint16_t to)
{
    const struct sockaddr_in at = loopback(passed_to(to));
    const int descriptor = socket_at(SOCK_STREAM, from);
    (void)end;
    if (connect(descriptor, (const struct sockaddr *)&at, sizeof at) != 0 && errno != EINPROGRESS) {
        fail("connect");
    }
    standings[descriptor] = OPENING;
    return (uint64_t)descriptor;
}

/* What the system tells of a call that moved nothing. */
static size_t moved(int descriptor, ssize_t answer)
{
    if (answer < 0 && (errno == ECONNRESET || errno == EPIPE)) {
        standings[descriptor] = RESET;
    } else if (answer < 0 && errno != EAGAIN) {
        fail("a socket of this machine");
    }
    return answer < 0 ? 0 : (size_t)answer;
}

static enum standing standing(enum end end, uint64_t id)
{
    struct pollfd asked = {.fd = (int)id, .events = POLLOUT};
    uint8_t octet;
    (void)end;
    if (standings[id] == OPENING && poll(&asked, 1, 0) == 1) {
        standings[id] = OPEN;
    }
    if (standings[id] == OPEN) {
        moved((int)id, recv((int)id, &octet, 1, MSG_PEEK));
    }
    return standings[id];
}

static size_t send_octets(enum end end, uint64_t id, const uint8_t *octets, size_t len)
{
    (void)end;
    return moved((int)id, send((int)id, octets, len, MSG_NOSIGNAL));
}

static size_t read_octets(enum end end, uint64_t id, uint8_t *buffer, size_t len)
{
    (void)end;
    return moved((int)id, recv((int)id, buffer, len, 0));
}

static bool has_ended(enum end end, uint64_t id)
{
    uint8_t octet;
    (void)end;
    return recv((int)id, &octet, 1, MSG_PEEK) == 0;
}

static void shut(enum end end, uint64_t id)
{
    (void)end;
    done(shutdown((int)id, SHUT_WR), "shutdown");
}

static void give_back(enum end end, uint64_t id)
{
    (void)end;
    done(close((int)id), "close");
}

static void reset(enum end end, uint64_t id)
{
    const struct linger at_once = {1, 0};
    done(setsockopt((int)id, SOL_SOCKET, SO_LINGER, &at_once, sizeof at_once), "SO_LINGER");
    give_back(end, id);
}

/* ---- Datagrams ----------------------------------------------------------------------------------------------------------------------------- */

static uint16_t bind_datagrams(enum end end, uint16_t port)
{
    (void)end;
    (void)port;
    datagrams = socket_at(SOCK_DGRAM, 0);
    return port_of(datagrams);
}

/* To who asked last, whatever the port: so libslirp knows the guest's. */
static bool send_datagram(enum end end, uint16_t port, const uint8_t *octets, size_t len)
{
    (void)end;
    (void)port;
    return sendto(datagrams, octets, len, 0, (const struct sockaddr *)&asker, sizeof asker) == (ssize_t)len;
}

static int64_t read_datagram(enum end end, uint8_t *buffer, size_t len)
{
    socklen_t asker_len = sizeof asker;
    (void)end;
    return recvfrom(datagrams, buffer, len, 0, (struct sockaddr *)&asker, &asker_len);
}

const struct stack slirp = {
    .name = "libslirp", .lacks = OPENS_AT_ONCE | TELLS_RESETS | JOINS_ITSELF | JOINS_ANY, .largest = 65507, .make = make, .deliver = deliver,
    .emit = emit, .next = next, .tick = tick, .listen = listen_at, .accept = accept_one, .connect = connect_to, .standing = standing,
    .send = send_octets, .recv = read_octets, .ended = has_ended, .shutdown = shut, .close = give_back, .abort = reset, .bind = bind_datagrams,
    .send_datagram = send_datagram, .recv_datagram = read_datagram
};
