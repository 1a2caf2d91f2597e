/* Connections of the host joined to sockets of the system: each that is accepted at a port, to one to an address of the system's. */
#include "tap.h"

#include <arpa/inet.h>
#include <errno.h>
#include <stdlib.h>
#include <string.h>
#include <sys/socket.h>
#include <unistd.h>

static uint64_t listeners[FORWARDS];
static struct joint *joints;                  /* a place for each entry of the host; id 0: none */
static size_t used;                           /* how many of them were ever in use; no other is looked at */

static void begin(struct tap *tap)
{
    joints = calloc(tap->options.entries, sizeof *joints);
    if (joints == NULL) {
        fail(tap, "the connections", strerror(ENOMEM));
    }
    for (size_t i = 0; i < tap->options.forward_count && tap->status < 0; i++) {
        listeners[i] = listen_at(tap, tap->options.forwards[i].port);
    }
}

static size_t wants(struct tap *tap, struct pollfd *polled)
{
    size_t count = 0;
    (void)tap;
    for (size_t i = 0; i < used; i++) {
        if (joints[i].id != 0) {
            count = joint_wants(&joints[i], polled, count);
        }
    }
    return count;
}

/* A socket of the system that opens a connection there: its descriptor, or -1 and errno. */
static int open_there(struct host_endpoint there)
{
    const struct sockaddr_in to = {.sin_family = AF_INET, .sin_port = htons(there.port), .sin_addr = {htonl(there.addr)}};
    const int opened = socket(AF_INET, SOCK_STREAM | SOCK_NONBLOCK | SOCK_CLOEXEC, 0);
    if (opened < 0) {
        return -1;
    }
    if (connect(opened, (const struct sockaddr *)&to, sizeof to) != 0 && errno != EINPROGRESS) {
        const int error = errno;
        close(opened);
        errno = error;
        return -1;
    }
    return opened;
}

/* The joint of this connection, and of id 0 a place that is free again. NULL where there is none. */
static struct joint *joint_of(uint64_t id)
{
    for (size_t i = 0; i < used; i++) {
        if (joints[i].id == id) {
            return &joints[i];
        }
    }
    return NULL;
}

/* A free place, or NULL. */
static struct joint *free_place(const struct tap *tap)
{
    struct joint *place = joint_of(0);
    return place != NULL ? place : used < tap->options.entries ? &joints[used++] : NULL;
}

static bool accept_step(struct tap *tap, size_t i)
{
    struct joint *place = free_place(tap);
    const int64_t id = place == NULL ? HOST_EAGAIN : tap_accept(tap, listeners[i]);
    if (id < 0) {
        return false;
    }
    const int opened = open_there(tap->options.forwards[i].to);
    if (opened < 0) {
        tell(tap, "refused", (uint64_t)id, strerror(errno));
        tap_close(tap, (uint64_t)id);
        return true;
    }
    tell(tap, "accepted", (uint64_t)id, "");
    joint_begin(place, (uint64_t)id, opened, opened, tap->now);
    place->connects = true;
    return true;
}

/* Where one side ended by a reset, so does the other. */
static void joint_end(struct joint *joint, struct tap *tap, bool resets, const char *why)
{
    const struct linger at_once = {1, 0};
    if (resets) {
        setsockopt(joint->from, SOL_SOCKET, SO_LINGER, &at_once, sizeof at_once);
    }
    close(joint->from);
    tell(tap, "ended", joint->id, why);
    if (resets) {
        tap_abort(tap, joint->id);
    } else {
        tap_close(tap, joint->id);
    }
    joint->id = 0;
}

static void one_step(struct joint *joint, struct tap *tap)
{
    switch (joint_step(joint, tap)) {
    case JOINT_HOST_FAILED:
        joint_end(joint, tap, true, host_refusal_name(joint->refusal));
        break;
    case JOINT_SYSTEM_FAILED:
        joint_end(joint, tap, true, strerror(joint->error));
        break;
    case JOINT_ENDED:
        joint_end(joint, tap, false, "");
        break;
    case JOINT_GOES_ON:
        break;
    }
}

/* A socket of the host's that is ready: a listener, or a connection that is joined and waits for this. */
static void ready_step(struct tap *tap, uint64_t id, uint32_t bits)
{
    struct joint *joint = joint_of(id);
    for (size_t i = 0; i < tap->options.forward_count; i++) {
        while (id == listeners[i] && accept_step(tap, i)) {
        }
    }
    if (joint != NULL && joint_awaits(joint, bits)) {
        one_step(joint, tap);
    }
}

static void step(struct tap *tap)
{
    uint32_t bits;
    for (size_t i = 0; i < used; i++) {
        if (joints[i].id != 0) {
            joint_answer(&joints[i], tap->polled);
            if (joint_is_due(&joints[i], tap)) {
                one_step(&joints[i], tap);
            }
        }
    }
    for (uint64_t id = 0; next_ready(tap, &id, &bits);) {
        ready_step(tap, id, bits);
    }
    for (size_t i = 0; i < used; i++) {
        if (joints[i].id != 0 && later(joints[i].moved, tap->options.idle) <= tap->now) {
            joint_end(&joints[i], tap, true, "idle");
        }
    }
}

static uint64_t deadline(struct tap *tap)
{
    uint64_t least = NEVER;
    for (size_t i = 0; i < used; i++) {
        const uint64_t due = joints[i].id == 0 ? NEVER : later(joints[i].moved, tap->options.idle);
        least = due < least ? due : least;
    }
    return least;
}

static void end(struct tap *tap)
{
    for (size_t i = 0; i < used; i++) {
        if (joints[i].id != 0) {
            joint_end(&joints[i], tap, true, "the program ends");
        }
    }
    free(joints);
    joints = NULL;
    used = 0;
}

static uint64_t connection(size_t place)
{
    return place < used ? joints[place].id : 0;
}

const struct work forwarding = {begin, wants, step, deadline, end, connection};
