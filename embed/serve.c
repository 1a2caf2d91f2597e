/* The services of a host: echo (port 7, TCP and UDP), discard (9), and a source of a given length (19). */
#include "tap.h"

#include <errno.h>
#include <stdlib.h>
#include <string.h>

enum { ECHO_PORT = 7, DISCARD_PORT = 9, SOURCE_PORT = 19, ROUNDS = 16 };

enum service { ECHO, DISCARD, SOURCE, SERVICES };

/* A connection that is served; id 0: none. The octets from `from` up to `to` are to be sent. */
struct served {
    uint64_t id;
    enum service service;
    uint8_t octets[8192];
    size_t from, to;
    uint64_t given;       /* octets that the source made */
    bool ended, shut;     /* the peer's side, and ours */
    uint64_t moved;
};

static struct {
    uint64_t listeners[SERVICES], datagrams;
    struct served *all;                 /* a place for each entry of the host */
    size_t used;                        /* how many of them were ever in use; no other is looked at */
    uint8_t datagram[HOST_DATAGRAM_SIZE];
    size_t waits;                       /* octets of a datagram that goes back later */
    bool is_waiting;
    struct host_endpoint from;
} at;

static void begin(struct tap *tap)
{
    at.all = calloc(tap->options.entries, sizeof *at.all);
    if (at.all == NULL) {
        fail(tap, "the connections", strerror(ENOMEM));
        return;
    }
    at.listeners[ECHO] = listen_at(tap, ECHO_PORT);
    at.listeners[DISCARD] = listen_at(tap, DISCARD_PORT);
    at.listeners[SOURCE] = tap->options.source == 0 ? 0 : listen_at(tap, SOURCE_PORT);
    const int64_t id = host_socket(&tap->host, HOST_KIND_UDP);
    const int64_t done = id < 0 ? id : host_bind(&tap->host, (uint64_t)id, 0, ECHO_PORT);
    if (done < 0) {
        fail(tap, "UDP port 7", host_refusal_name(done));
    }
    at.datagrams = (uint64_t)id;
}

static size_t wants(struct tap *tap, struct pollfd *polled)
{
    (void)tap;
    (void)polled;
    return 0;
}

/* Sends a datagram back to where it came from; one that finds no room waits. */
static bool datagram_step(struct tap *tap)
{
    if (!at.is_waiting) {
        const int64_t len = tap_recvfrom(tap, at.datagrams, at.datagram, sizeof at.datagram, &at.from);
        if (len < 0) {
            return false;
        }
        at.waits = (size_t)len;
    }
    at.is_waiting = tap_sendto(tap, at.datagrams, &at.from, at.datagram, at.waits) == HOST_EAGAIN;
    return !at.is_waiting;
}

/* The octet of the source behind `count` others. */
static uint8_t source_octet(uint64_t count)
{
    return (uint8_t)(count % 251);
}

static void fill(struct served *served, uint64_t length)
{
    served->from = served->to = 0;
    while (served->to < sizeof served->octets && served->given < length) {
        served->octets[served->to++] = source_octet(served->given++);
    }
}

/* Takes what came: how many octets, HOST_EAGAIN, or another refusal. */
static int64_t take(struct served *served, struct tap *tap)
{
    static uint8_t thrown[8192];
    uint8_t *room = served->service == ECHO ? served->octets : thrown;
    if (served->ended || (served->service == ECHO && served->from < served->to)) {
        return HOST_EAGAIN;
    }
    const int64_t len = tap_recv(tap, served->id, room, sizeof thrown);
    served->ended = len == 0;
    if (len >= 0 && served->service == ECHO) {
        served->from = 0;
        served->to = (size_t)len;
    }
    return len;
}

/* Gives what waits, and then the end, as `take`. */
static int64_t give(struct served *served, struct tap *tap)
{
    if (served->service == SOURCE && served->from == served->to) {
        fill(served, tap->options.source);
    }
    if (served->from < served->to) {
        const int64_t len = tap_send(tap, served->id, served->octets + served->from, served->to - served->from);
        served->from += len > 0 ? (size_t)len : 0;
        return len;
    }
    if (!served->shut && (served->ended || served->service == SOURCE)) {
        served->shut = true;
        return tap_shutdown_write(tap, served->id);
    }
    return HOST_EAGAIN;
}

/* Closes a connection, or resets it, which gives its place in the table back at once. */
static void end_one(struct served *served, struct tap *tap, const char *why, bool is_reset)
{
    tell(tap, "ended", served->id, why);
    (is_reset ? tap_abort : tap_close)(tap, served->id);
    served->id = 0;
}

static void served_step(struct served *served, struct tap *tap)
{
    for (int round = 0; round < ROUNDS; round++) {
        const int64_t taken = take(served, tap);
        const int64_t given = taken < 0 && taken != HOST_EAGAIN ? taken : give(served, tap);
        if (given < 0 && given != HOST_EAGAIN) {
            end_one(served, tap, host_refusal_name(given), false);
            return;
        }
        if (served->ended && served->shut) {
            end_one(served, tap, "", false);
            return;
        }
        if (taken < 0 && given < 0) {
            break;
        }
        served->moved = tap->now;
    }
}

/* The connection of this id that is served, and of id 0 a place that is free again. NULL where there is none. */
static struct served *served_as(uint64_t id)
{
    for (size_t i = 0; i < at.used; i++) {
        if (at.all[i].id == id) {
            return &at.all[i];
        }
    }
    return NULL;
}

/* A free place, or NULL. */
static struct served *free_place(const struct tap *tap)
{
    struct served *place = served_as(0);
    return place != NULL ? place : at.used < tap->options.entries ? &at.all[at.used++] : NULL;
}

static bool accept_step(struct tap *tap, enum service service)
{
    static const char *const names[SERVICES] = {"echo", "discard", "source"};
    struct served *place = free_place(tap);
    const int64_t id = at.listeners[service] == 0 || place == NULL ? HOST_EAGAIN : tap_accept(tap, at.listeners[service]);
    if (id < 0) {
        return false;
    }
    memset(place, 0, sizeof *place);
    place->id = (uint64_t)id;
    place->service = service;
    place->moved = tap->now;
    tell(tap, "accepted", place->id, names[service]);
    return true;
}

/* A socket that is ready: the one of datagrams, a listener, or a connection. */
static void ready_step(struct tap *tap, uint64_t id)
{
    struct served *served = served_as(id);
    for (int round = 0; id == at.datagrams && round < ROUNDS && datagram_step(tap); round++) {
    }
    for (int service = 0; service < SERVICES; service++) {
        for (int round = 0; id == at.listeners[service] && round < ROUNDS && accept_step(tap, (enum service)service); round++) {
        }
    }
    if (served != NULL) {
        served_step(served, tap);
    }
}

/* Whether octets wait, or the source has more of them, and the connection takes some. */
static bool may_give(const struct served *served, struct tap *tap)
{
    const bool gives = served->from < served->to || (served->service == SOURCE && !served->shut);
    return gives && (ready_for(tap, served->id) & HOST_READY_WRITE) != 0;
}

static void step(struct tap *tap)
{
    uint32_t bits;
    for (uint64_t id = 0; next_ready(tap, &id, &bits);) {
        ready_step(tap, id);
    }
    if (at.is_waiting) {
        datagram_step(tap);
    }
    for (size_t i = 0; i < at.used; i++) {
        struct served *served = &at.all[i];
        if (served->id != 0 && may_give(served, tap)) {
            served_step(served, tap);
        }
        if (served->id != 0 && later(served->moved, tap->options.idle) <= tap->now) {
            end_one(served, tap, "idle", true);
        }
    }
}

static uint64_t deadline(struct tap *tap)
{
    uint64_t least = NEVER;
    for (size_t i = 0; i < at.used; i++) {
        const uint64_t due = at.all[i].id == 0 ? NEVER : later(at.all[i].moved, tap->options.idle);
        least = due < least ? due : least;
    }
    return least;
}

static void end(struct tap *tap)
{
    for (size_t i = 0; i < at.used; i++) {
        if (at.all[i].id != 0) {
            end_one(&at.all[i], tap, "the program ends", false);
        }
    }
    free(at.all);
    at.all = NULL;
    at.used = 0;
}

static uint64_t connection(size_t place)
{
    return place < at.used ? at.all[place].id : 0;
}

const struct work serving = {begin, wants, step, deadline, end, connection};
