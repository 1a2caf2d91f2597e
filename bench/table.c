/* What calls cost beside idle entries of a host's table: two hosts joined in memory, the far one with a table that is full of idle entries but for a
   listener and one connection, the near one with a table of two entries. `bench/table` has callgrind count the instructions of each load. */
#include "host.h"

#include <stdio.h>
#include <stdlib.h>
#include <string.h>
#include <valgrind/callgrind.h>

enum {
    PORT = 80,
    BUFFER = 4096,
    ACK_WAITS = 200,       /* milliseconds */
    KEEPALIVE = 7200000,   /* milliseconds: two hours, longer than any run */
    FIRST_PORT = 1024      /* of the peers of idle connections, none of which is dynamic */
};

struct end {
    struct host host;
    uint64_t listener, connection;
};

static struct end near_one, far_one;
static uint64_t now = 1;
static int times;

static void fail(const char *what)
{
    fprintf(stderr, "table: %s\n", what);
    exit(1);
}

static uint64_t done(int64_t answer, const char *what)
{
    if (answer < 0) {
        fail(what);
    }
    return (uint64_t)answer;
}

/* All frames that are due go from one host to the other. Answers how many. */
static int pass(struct end *from, struct end *to)
{
    uint8_t frame[HOST_FRAME_SIZE];
    int count = 0;
    for (int64_t len; (len = host_next_frame(&from->host, now, frame)) > 0; count++) {
        done(host_deliver(&to->host, now, 7, frame, (size_t)len), "deliver");
    }
    return count;
}

/* A host that listens. One that the end had is gone, and no peer hears of it. */
static void open_host(struct end *end, uint8_t last, uint32_t entries)
{
    const struct host_route link = {HOST_ADDR(10, 0, 0, 0), 0, 24};
    struct host_config config = {.size = sizeof config, .routes = &link, .count = 1, .mac = {2, 0, 0, 0, 0, last}};
    config.addr = HOST_ADDR(10, 0, 0, last);
    config.entries = entries;
    config.buffer = BUFFER;
    host_free(&end->host);
    done(host_new_with(&end->host, &config), "new");
    end->listener = done(host_socket(&end->host, HOST_KIND_TCP), "socket");
    done(host_bind(&end->host, end->listener, HOST_ADDR_ANY, PORT), "bind");
    done(host_listen(&end->host, end->listener, HOST_BACKLOG), "listen");
}

/* One host begins to open a connection to the other, from this port or, where that is 0, from a dynamic one. */
static void begin_connection(struct end *from, const struct end *to, uint16_t port)
{
    from->connection = done(host_socket(&from->host, HOST_KIND_TCP), "socket");
    if (port != 0) {
        done(host_bind(&from->host, from->connection, HOST_ADDR_ANY, port), "bind");
    }
    done(host_connect(&from->host, now, 1, from->connection, HOST_ADDR(10, 0, 0, to == &far_one ? 2 : 1), PORT), "connect");
}

static void accept_connection(struct end *end)
{
    struct host_endpoint peer;
    end->connection = done(host_accept(&end->host, end->listener, &peer), "accept");
}

static void pass_all(struct end *from, struct end *to)
{
    while (pass(from, to) + pass(to, from) > 0) {
    }
}

static void connect_ends(struct end *from, struct end *to)
{
    begin_connection(from, to, 0);
    pass_all(from, to);
    accept_connection(to);
}

static void keep_alive(void)
{
    done(host_set_keepalive(&far_one.host, far_one.connection, KEEPALIVE), "set_keepalive");
}

/* The one host resets the connection, and the other closes its socket: both tables are as they were before. */
static void disconnect_ends(struct end *from, struct end *to)
{
    done(host_abort(&from->host, from->connection), "abort");
    pass(from, to);
    done(host_close(&to->host, to->connection), "close");
}

static void add_sockets(int idle)
{
    for (int i = 0; i < idle; i++) {
        done(host_socket(&far_one.host, HOST_KIND_UDP), "socket");
    }
}

/* Idle connections, each with a deadline: that of its keep-alive. Their peers, of as many as a backlog takes each, had the near host's address. */
static void add_connections(int idle)
{
    for (int opened = 0, accepted = 0; accepted < idle;) {
        open_host(&near_one, 1, 1 + HOST_BACKLOG);
        for (; opened < idle && opened < accepted + HOST_BACKLOG; opened++) {
            begin_connection(&near_one, &far_one, (uint16_t)(FIRST_PORT + opened));
        }
        pass_all(&near_one, &far_one);
        for (; accepted < opened; accepted++) {
            accept_connection(&far_one);
            keep_alive();
        }
        now++;
    }
}

/* ---- Loads --------------------------------------------------------------------------------------------------------------------------- */

/* One octet goes over, is read and, at a tick, is acknowledged: what the far host does for it is what the idle entries make dearer. */
static void exchange(void)
{
    uint8_t octet = 'x';
    done(host_send(&near_one.host, near_one.connection, &octet, 1), "send");
    pass(&near_one, &far_one);
    done(host_recv(&far_one.host, far_one.connection, &octet, 1), "recv");
    now += ACK_WAITS;
    host_tick(&far_one.host, now);
    pass(&far_one, &near_one);
}

/* A millisecond passes, and no timer acts. */
static void tick(void)
{
    now++;
    host_tick(&far_one.host, now);
}

static void deadline(void)
{
    uint64_t moment;
    if (done(host_next_deadline(&far_one.host, &moment), "next_deadline") != 1 || moment <= now) {
        fail("no timer runs, or one is late");
    }
}

static void make_socket(void)
{
    done(host_close(&far_one.host, done(host_socket(&far_one.host, HOST_KIND_TCP), "socket")), "close");
}

/* A connection is opened, from its socket on until it is accepted. That it ends again isn't counted. */
static void open_once(struct end *from, struct end *to)
{
    connect_ends(from, to);
    CALLGRIND_TOGGLE_COLLECT;
    disconnect_ends(from, to);
    CALLGRIND_TOGGLE_COLLECT;
}

static void accept_one(void)
{
    open_once(&near_one, &far_one);
}

static void connect_one(void)
{
    open_once(&far_one, &near_one);
}

/* One ends that the peer opened, which isn't counted. */
static void end_one(void)
{
    CALLGRIND_TOGGLE_COLLECT;
    connect_ends(&near_one, &far_one);
    CALLGRIND_TOGGLE_COLLECT;
    disconnect_ends(&near_one, &far_one);
}

/* ---- The program --------------------------------------------------------------------------------------------------------------------- */

/* Callgrind writes what so many times of a load take, under its name, behind a first time that isn't counted. */
static void count(const char *name, void (*load)(void))
{
    char title[64];
    snprintf(title, sizeof title, "%s %d", name, times);
    load();
    CALLGRIND_START_INSTRUMENTATION;
    CALLGRIND_ZERO_STATS;
    for (int i = 0; i < times; i++) {
        load();
    }
    CALLGRIND_STOP_INSTRUMENTATION;
    CALLGRIND_DUMP_STATS_AT(title);
}

int main(int argc, char **argv)
{
    if (argc != 4) {
        fail("sockets|connections ENTRIES TIMES");
    }
    const int entries = atoi(argv[2]);
    times = atoi(argv[3]);
    open_host(&far_one, 2, (uint32_t)entries);
    if (strcmp(argv[1], "sockets") == 0) {
        add_sockets(entries - 2);
    } else {
        add_connections(entries - 2);
    }
    open_host(&near_one, 1, 2);
    connect_ends(&near_one, &far_one);
    keep_alive();
    count("exchange", exchange);
    count("tick", tick);
    count("deadline", deadline);
    disconnect_ends(&near_one, &far_one);
    count("socket", make_socket);
    count("accept", accept_one);
    count("connect", connect_one);
    count("reset", end_one);
    host_free(&near_one.host);
    host_free(&far_one.host);
    return 0;
}
