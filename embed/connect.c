/* One connection of the host to a peer: standard input goes to the peer, and what comes of it to standard output. */
#include "tap.h"

#include <errno.h>
#include <string.h>
#include <unistd.h>

enum { LINGER = 500 };        /* milliseconds in TIME-WAIT in which a FIN that comes again is still answered */

static struct joint joint;
static bool is_joined;        /* both ways ended, and only the ends are to be acknowledged */
static uint64_t lingers;      /* when the run may end, or 0 */

static void begin(struct tap *tap)
{
    const struct host_endpoint peer = tap->options.peer;
    struct host_endpoint pair[2];
    const int64_t id = host_socket(&tap->host, HOST_KIND_TCP);
    int64_t done = id < 0 ? id : bind_dynamic(&tap->host, (uint64_t)id, tap->options.addr, &peer);
    if (done >= 0) {
        const bool opens = host_would_connect(&tap->host, (uint64_t)id, peer.addr, peer.port, pair) == 1;
        done = tap_connect(tap, opens ? fresh_isn(pair) : 0, (uint64_t)id, &peer);
    }
    if (done < 0) {
        fail(tap, "connect", host_refusal_name(done));
        return;
    }
    joint_begin(&joint, (uint64_t)id, STDIN_FILENO, STDOUT_FILENO, tap->now);
}

static int64_t state(struct tap *tap)
{
    return host_state(&tap->host, joint.id);
}

static bool is_opening(struct tap *tap)
{
    return (ready_for(tap, joint.id) & HOST_READY_OPENING) != 0;
}

static size_t wants(struct tap *tap, struct pollfd *polled)
{
    if (is_opening(tap) || is_joined) {
        joint.from_place = joint.to_place = 0;
        return 0;
    }
    return joint_wants(&joint, polled, 0);
}

static void give_up(struct tap *tap, const char *what, const char *why)
{
    tap_close(tap, joint.id);
    fail(tap, what, why);
}

/* Since when the peer is silent: nothing of it was heard, and no octet moved. */
static uint64_t silent_since(const struct tap *tap)
{
    return tap->heard > joint.moved ? tap->heard : joint.moved;
}

/* Whether something of ours waits for the peer: an opening, octets, or an end. */
static bool waits_for_peer(struct tap *tap)
{
    return is_opening(tap) || joint.up.from < joint.up.to || is_joined;
}

/* Both sides are closed: the run ends once the peer has said so, and a little later in TIME-WAIT. */
static void ending_step(struct tap *tap)
{
    const int64_t now = state(tap);
    if (now == HOST_STATE_TIME_WAIT && lingers == 0) {
        lingers = later(tap->now, LINGER);
    }
    if (now == HOST_STATE_CLOSED || (lingers != 0 && lingers <= tap->now)) {
        const int64_t last = tap_shutdown_write(tap, joint.id);
        if (last == HOST_ECONNRESET || last == HOST_ETIMEDOUT) {
            fail(tap, "connection", host_refusal_name(last));
        } else {
            tap->status = 0;
        }
    }
}

static void joint_steps(struct tap *tap)
{
    joint_answer(&joint, tap->polled);
    if (!joint_is_due(&joint, tap) && !joint_awaits(&joint, ready_for(tap, joint.id))) {
        return;
    }
    switch (joint_step(&joint, tap)) {
    case JOINT_HOST_FAILED:
        give_up(tap, "connection", host_refusal_name(joint.refusal));
        break;
    case JOINT_SYSTEM_FAILED:
        give_up(tap, "standard input or output", strerror(joint.error));
        break;
    case JOINT_ENDED:
        is_joined = true;
        joint.moved = tap->now;
        ending_step(tap);
        break;
    case JOINT_GOES_ON:
        break;
    }
}

static void step(struct tap *tap)
{
    if (is_joined) {
        ending_step(tap);
    } else if (!is_opening(tap)) {
        joint_steps(tap);
    }
    if (tap->status < 0 && waits_for_peer(tap) && later(silent_since(tap), tap->options.patience) <= tap->now) {
        give_up(tap, "connection", "the peer is silent");
    }
}

static uint64_t deadline(struct tap *tap)
{
    if (lingers != 0) {
        return lingers;
    }
    return waits_for_peer(tap) ? later(silent_since(tap), tap->options.patience) : NEVER;
}

/* The peer is told that the run ends; where the connection is over already, nothing is. */
static void end(struct tap *tap)
{
    tap_close(tap, joint.id);
}

static uint64_t connection(size_t place)
{
    return place == 0 ? joint.id : 0;
}

const struct work connecting = {begin, wants, step, deadline, end, connection};
