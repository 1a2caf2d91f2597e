/* Plays two hosts over the library, with each growth of memory refused in turn: a connection with octets both ways, a datagram in fragments, an echo
   request, a silence, a close by each side, a connection that is aborted. A refused call changes nothing, and is made again; from then on all is to the
   octet what it is without the refusal. */
#include "host.h"
#include "refuse.h"

#include <inttypes.h>
#include <stdbool.h>
#include <stdio.h>
#include <stdlib.h>
#include <string.h>

enum {
    HOSTS = 2,
    IDS = 5,                 /* a host of this program has fewer */
    NEW = -1,                /* of a call of host_new: it takes memory as often as it likes */
    OF_TCP = 2, OF_UDP = 5,  /* how often one of host_socket does */
    OF_SYN = 2,              /* and one of host_deliver that opens a connection */
    LARGE = 3000,
    MOST_TOLD = 1 << 20
};

static struct host hosts[HOSTS], *const a = &hosts[0], *const b = &hosts[1];
static uint64_t now;
static uint64_t growth;    /* the one that this run refuses, or the first of them */
static uint64_t patience;  /* how many calls are refused in this run */
static bool scales;        /* whether its hosts use the window scale option */
static uint64_t calls_refused, of_new;
static const char *doing;

static void fail(const char *what)
{
    fprintf(stderr, "play: growth %" PRIu64 " refused, %s: %s\n", growth, doing, what);
    exit(1);
}

static void want(bool holds, const char *what)
{
    if (!holds) {
        fail(what);
    }
}

/* ---- All that is told: kept of the run without refusal, and compared with it in the others ------------------------------------------- */

static uint8_t told[MOST_TOLD];
static size_t kept, place;

static void tell(const void *octets, size_t len)
{
    if (growth == 0) {
        want(kept + len <= MOST_TOLD, "it tells too much for this program");
        memcpy(told + kept, octets, len);
        kept += len;
    }
    want(place + len <= kept && memcmp(told + place, octets, len) == 0, "it tells otherwise than without the refusal");
    place += len;
}

/* What can be asked of a host, and how much memory is held. */
struct view {
    int64_t waits[HOSTS], states[HOSTS][IDS], names[HOSTS][IDS][3], peers[HOSTS][IDS][3];
    uint64_t moments[HOSTS], held;
};

static void look_at_end(int64_t into[3], int64_t answer, const struct host_endpoint *end)
{
    into[0] = answer;
    if (answer == 0) {
        into[1] = end->addr;
        into[2] = end->port;
    }
}

static struct view look(void)
{
    struct view view;
    memset(&view, 0, sizeof view);
    memory_forbid("a question");
    for (int i = 0; i < HOSTS; i++) {
        view.waits[i] = host_next_deadline(&hosts[i], &view.moments[i]);
        for (uint64_t id = 0; id < IDS; id++) {
            struct host_endpoint end = {0, 0};
            view.states[i][id] = host_state(&hosts[i], id);
            look_at_end(view.names[i][id], host_sockname(&hosts[i], id, &end), &end);
            look_at_end(view.peers[i][id], host_peername(&hosts[i], id, &end), &end);
        }
    }
    memory_forbid(NULL);
    view.held = memory_held();
    return view;
}

/* ---- Calls --------------------------------------------------------------------------------------------------------------------------- */

static int64_t end_plain(int64_t answer)
{
    memory_forbid(NULL);
    const struct view view = look();
    tell(&answer, sizeof answer);
    tell(&view, sizeof view);
    return answer;
}

/* Makes a call that takes no memory. */
#define PLAIN(call) (doing = #call, memory_forbid(doing), end_plain(call))

/* What was before a call that takes memory. */
static struct view before;
static uint64_t asked_before, refused_before;

static void begin_growing(const char *call)
{
    doing = call;
    before = look();
    asked_before = memory_asked();
    refused_before = memory_refused();
}

/* Tells whether a call was refused memory: then it answered `refusal` and left all as it was. Else it took memory so often. */
static bool was_refused(int64_t answer, int times, int64_t refusal)
{
    const struct view view = look();
    if (memory_refused() == refused_before) {
        want(times == NEW || memory_asked() - asked_before == (uint64_t)times, "it takes memory so many times as it should not");
        tell(&answer, sizeof answer);
        tell(&view, sizeof view);
        return false;
    }
    want(answer == refusal, "it is refused memory and answers otherwise");
    want(memcmp(&view, &before, sizeof view) == 0, "it is refused memory and changes something");
    calls_refused++;
    if (calls_refused == patience) {
        memory_allow();
    }
    return true;
}

/* Makes a call that takes memory so often, and again while it is refused. */
#define GROWING(answer, call, times, refusal)               \
    do {                                                    \
        begin_growing(#call);                               \
        (answer) = (call);                                  \
    } while (was_refused((answer), (times), (refusal)))

static uint64_t done(int64_t answer)
{
    want(answer >= 0, "it is refused");
    return (uint64_t)answer;
}

/* ---- The two hosts ------------------------------------------------------------------------------------------------------------------- */

static const uint8_t macs[HOSTS][6] = {{2, 0, 0, 0, 0, 1}, {2, 0, 0, 0, 0, 2}};
static const uint32_t addrs[HOSTS] = {HOST_ADDR(10, 0, 0, 1), HOST_ADDR(10, 0, 0, 2)};
static const struct host_route routes[] = {{HOST_ADDR(10, 0, 0, 0), 0, 24}, {0, HOST_ADDR(10, 0, 0, 254), 0}};

static int64_t make(int which)
{
    enum { ROUTES = sizeof routes / sizeof routes[0] };
    struct host_config config = {.size = sizeof config, .routes = routes, .count = ROUTES, .addr = addrs[which], .no_window_scale = 1};
    memcpy(config.mac, macs[which], sizeof config.mac);
    const int64_t answer =
        scales ? host_new(&hosts[which], macs[which], addrs[which], routes, ROUTES) : host_new_with(&hosts[which], &config);
    want(answer == 0 || hosts[which].at == NULL, "it is refused, and the handle isn't all zero");
    return answer;
}

static void make_hosts(void)
{
    for (int i = 0; i < HOSTS; i++) {
        int64_t answer;
        GROWING(answer, make(i), NEW, HOST_ENOMEM);
        done(answer);
    }
    of_new = memory_asked();
}

static void end_hosts(void)
{
    for (int i = 0; i < HOSTS; i++) {
        PLAIN((host_free(&hosts[i]), 0));
        want(hosts[i].at == NULL, "the handle isn't all zero");
    }
    want(memory_held() == 0, "memory is held on");
}

static uint64_t socket_of(struct host *host, uint32_t kind)
{
    int64_t answer;
    GROWING(answer, host_socket(host, kind), kind == HOST_KIND_TCP ? OF_TCP : OF_UDP, HOST_ENOMEM);
    return done(answer);
}

/* Hands in a frame that opens a connection between these ends. */
static int64_t open_by(struct host *to, const uint8_t *frame, size_t len, const struct host_endpoint ends[2])
{
    struct host_endpoint pair[2];
    const int64_t answer = host_deliver(to, now, 7, frame, len);
    if (answer != 0) {
        want(host_would_open(to, frame, len, pair) == 1, "the frame would open no connection any more");
        for (int i = 0; i < 2; i++) {
            want(pair[i].addr == ends[i].addr && pair[i].port == ends[i].port, "the frame would open another connection");
        }
    }
    return answer;
}

static void deliver(struct host *to, const uint8_t *frame, size_t len)
{
    struct host_endpoint pair[2];
    int64_t answer;
    done(PLAIN(host_concerns(to, frame, len)));
    if (PLAIN(host_would_open(to, frame, len, pair)) == 1) {
        GROWING(answer, open_by(to, frame, len, pair), OF_SYN, HOST_DROP_NO_ROOM);
    } else {
        answer = PLAIN(host_deliver(to, now, 7, frame, len));
    }
    want(answer == 0, "the frame is dropped");
}

static bool carry(struct host *from, struct host *to)
{
    uint8_t frame[HOST_FRAME_SIZE];
    bool moved = false;
    for (int64_t len; (len = PLAIN(host_next_frame(from, now, frame))) > 0; moved = true) {
        tell(frame, (size_t)len);
        deliver(to, frame, (size_t)len);
    }
    return moved;
}

/* The hosts talk until both are silent, and then a millisecond passes. */
static void turns(void)
{
    PLAIN((host_tick(a, now), 0));
    PLAIN((host_tick(b, now), 0));
    bool moved;
    do {
        moved = carry(a, b);
        moved = carry(b, a) || moved;
    } while (moved);
    now++;
}

/* ---- What they do -------------------------------------------------------------------------------------------------------------------- */

/* One end of the connection at each host, and the listener. */
static uint64_t caller, called, listener;

static void listen_at_b(void)
{
    listener = socket_of(b, HOST_KIND_TCP);
    done(PLAIN(host_bind(b, listener, HOST_ADDR_ANY, 80)));
    done(PLAIN(host_listen(b, listener, 1)));
}

static void open_connection(void)
{
    struct host_endpoint peer, pair[2];
    uint32_t bits;
    caller = socket_of(a, HOST_KIND_TCP);
    want(PLAIN(host_would_connect(a, caller, addrs[1], 80, pair)) == 1, "it would open no connection");
    done(PLAIN(host_connect(a, now, 100, caller, addrs[1], 80)));
    turns();
    want(PLAIN(host_next_ready(b, 0, HOST_READY_ACCEPT, &bits)) == (int64_t)listener && bits == HOST_READY_ACCEPT, "the listener isn't ready");
    called = done(PLAIN(host_accept(b, listener, &peer)));
    want(peer.addr == pair[0].addr && peer.port == pair[0].port, "another peer");
}

static void say(struct host *from, uint64_t from_id, struct host *to, uint64_t to_id, const char *text)
{
    uint8_t buffer[100];
    struct host_info info = {.size = sizeof info};
    struct host_counters counters = {.size = sizeof counters};
    const size_t len = strlen(text);
    done(PLAIN(host_set_nodelay(from, from_id, 1)));
    want(PLAIN(host_send_room(from, from_id)) >= (int64_t)len, "it has no room");
    want(PLAIN(host_send(from, from_id, (const uint8_t *)text, len)) == (int64_t)len, "not all octets are taken");
    done(PLAIN(host_info(from, from_id, &info)));
    want(info.state == HOST_STATE_ESTABLISHED && info.held == (int64_t)len, "other things are told of the connection");
    done(PLAIN(host_counters(from, &counters)));
    turns();
    want(PLAIN(host_ready(to, to_id)) == (HOST_READY_READ | HOST_READY_WRITE), "it isn't ready");
    want(PLAIN(host_recv_len(to, to_id)) == (int64_t)len, "another number of octets is told");
    want(PLAIN(host_recv(to, to_id, buffer, sizeof buffer)) == (int64_t)len, "not all octets are read");
    want(memcmp(buffer, text, len) == 0, "other octets are read");
}

static void send_large(void)
{
    static uint8_t large[LARGE], buffer[LARGE + 1];
    struct host_endpoint from;
    for (size_t i = 0; i < LARGE; i++) {
        large[i] = (uint8_t)(i % 251);
    }
    const uint64_t server = socket_of(b, HOST_KIND_UDP), client = socket_of(a, HOST_KIND_UDP);
    done(PLAIN(host_bind(b, server, addrs[1], 5001)));
    want(PLAIN(host_send_room(a, client)) >= LARGE, "it has no room");
    want(PLAIN(host_sendto(a, client, addrs[1], 5001, large, LARGE)) == LARGE, "not all octets are taken");
    turns();
    want(PLAIN(host_ready(b, server)) == (HOST_READY_READ | HOST_READY_WRITE), "it isn't ready");
    want(PLAIN(host_recv_len(b, server)) == LARGE, "another number of octets is told");
    want(PLAIN(host_recvfrom(b, server, buffer, sizeof buffer, &from)) == LARGE, "not all octets are read");
    want(memcmp(buffer, large, LARGE) == 0 && from.addr == addrs[0], "other octets are read");
    done(PLAIN(host_close(a, client)));
    done(PLAIN(host_close(b, server)));
}

/* a's echo request, and b's answer: type 0 in place of 8, and the checksum higher by that (RFC 792, RFC 1624). */
static void echo(void)
{
    static const uint8_t request[] = {
        2, 0, 0, 0, 0, 2, 2, 0, 0, 0, 0, 1, 8, 0,                                               /* Ethernet */
        0x45, 0, 0, 32, 0, 1, 0x40, 0, 64, 1, 0x26, 0xda, 10, 0, 0, 1, 10, 0, 0, 2,             /* IPv4 */
        8, 0, 0x17, 0xf8, 0x12, 0x34, 0, 1, 'e', 'c', 'h', 'o'                                  /* ICMP */
    };
    static const uint8_t reply[] = {0, 0, 0x1f, 0xf8, 0x12, 0x34, 0, 1, 'e', 'c', 'h', 'o'};
    enum { BEHIND_IPV4 = 34 };
    uint8_t frame[HOST_FRAME_SIZE];
    deliver(b, request, sizeof request);
    const int64_t len = PLAIN(host_next_frame(b, now, frame));
    want(len == 60 && memcmp(frame + BEHIND_IPV4, reply, sizeof reply) == 0, "another reply");
    tell(frame, (size_t)len);
    deliver(a, frame, (size_t)len);
    turns();
}

/* b says nothing for ten seconds, a asks whether it is there, and it answers. */
static void fall_silent(void)
{
    enum { DELAYED_ACK = 200, EVERY = 10000 };
    uint64_t moment;
    now += DELAYED_ACK;
    turns();
    done(PLAIN(host_set_keepalive(a, caller, EVERY)));
    want(PLAIN(host_next_deadline(a, &moment)) == 1 && moment == now - 1 + EVERY, "it waits for another moment");
    now = moment;
    turns();
    want(PLAIN(host_next_deadline(a, &moment)) == 1 && moment == now - 1 + EVERY, "it wasn't answered");
    done(PLAIN(host_set_keepalive(a, caller, 0)));
    want(PLAIN(host_next_deadline(a, &moment)) == 0, "it waits on");
}

/* Both sides close, and the one that did so first waits until no old segment can come. */
static void close_connection(void)
{
    uint8_t octet;
    uint64_t moment;
    done(PLAIN(host_shutdown_write(a, caller)));
    turns();
    want(PLAIN(host_recv(b, called, &octet, 1)) == 0, "no end is read");
    done(PLAIN(host_close(b, called)));
    turns();
    want(PLAIN(host_recv(a, caller, &octet, 1)) == 0, "no end is read");
    want(PLAIN(host_state(a, caller)) == HOST_STATE_TIME_WAIT, "another state");
    want(PLAIN(host_next_deadline(a, &moment)) == 1, "it waits for nothing");
    now = moment;
    turns();
    done(PLAIN(host_close(a, caller)));
}

/* A second connection ends by a reset. */
static void abort_connection(void)
{
    uint8_t octet;
    open_connection();
    done(PLAIN(host_abort(a, caller)));
    turns();
    want(PLAIN(host_recv(b, called, &octet, 1)) == HOST_ECONNRESET, "it isn't reset");
    done(PLAIN(host_close(b, called)));
    done(PLAIN(host_close(b, listener)));
}

/* Plays the hosts; all growths from the first of them to the last are refused, until so many calls were. */
static void play(uint64_t first, uint64_t last, uint64_t calls)
{
    growth = first;
    patience = calls;
    calls_refused = 0;
    place = 0;
    now = 1000;
    memory_refuse(first, last);
    want(PLAIN(host_version()) == HOST_VERSION, "another version");
    make_hosts();
    listen_at_b();
    open_connection();
    say(a, caller, b, called, "hello");
    say(b, called, a, caller, "welcome");
    send_large();
    echo();
    fall_silent();
    close_connection();
    abort_connection();
    end_hosts();
    want(place == kept, "it tells less than without the refusal");
    want(calls_refused == calls, "another number of calls is refused");
}

/* All of it with the window scale option, or without. */
static void play_each(bool with_scale)
{
    enum { TIMES = 5 };
    scales = with_scale;
    kept = 0;
    play(0, 0, 0);
    const uint64_t asked = memory_asked(), asked_by_new = of_new;
    for (uint64_t n = 1; n <= asked; n++) {
        play(n, n, 1);
        play(n, UINT64_MAX, TIMES);
    }
    printf("play: %s: %" PRIu64 " growths, %" PRIu64 " of them in the two that make a host: each refused alone, and with all behind it until a call was "
           "refused %d times\n",
           with_scale ? "windows scaled" : "not scaled", asked, asked_by_new, TIMES);
}

int main(void)
{
    play_each(true);
    play_each(false);
    return 0;
}
