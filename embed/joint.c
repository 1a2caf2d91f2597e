/* A connection of the host joined to descriptors of the system: what comes of one goes to the other, both ways, and so do ends.

   Descriptors are read and written once after each answer of poll, so that none needs to be made non-blocking. */
#include "tap.h"

#include <errno.h>
#include <sys/socket.h>
#include <unistd.h>

enum { PIPE_TAKES = 4096 };   /* octets that a pipe takes without blocking, once poll says that it can be written */

void joint_begin(struct joint *joint, uint64_t id, int from, int to, uint64_t now)
{
    *joint = (struct joint){.id = id, .from = from, .to = to, .is_socket = from == to, .moved = now};
}

static bool has_room(const struct passage *passage)
{
    return !passage->ended && passage->from == passage->to;
}

static bool has_octets(const struct passage *passage)
{
    return passage->from < passage->to;
}

static size_t ask(struct pollfd *polled, size_t *count, int descriptor, short events)
{
    polled[*count] = (struct pollfd){.fd = descriptor, .events = events};
    return ++*count;
}

size_t joint_wants(struct joint *joint, struct pollfd *polled, size_t count)
{
    const short in = has_room(&joint->up) && !joint->connects ? POLLIN : 0;
    const short out = has_octets(&joint->down) || joint->connects ? POLLOUT : 0;
    joint->from_place = joint->to_place = 0;
    if (joint->is_socket) {
        if ((in | out) != 0) {
            joint->from_place = joint->to_place = ask(polled, &count, joint->from, (short)(in | out));
        }
        return count;
    }
    if (in != 0) {
        joint->from_place = ask(polled, &count, joint->from, in);
    }
    if (out != 0) {
        joint->to_place = ask(polled, &count, joint->to, out);
    }
    return count;
}

static short *answer_at(size_t place, struct pollfd *polled)
{
    static short none;
    none = 0;
    return place == 0 ? &none : &polled[place - 1].revents;
}

void joint_answer(struct joint *joint, struct pollfd *polled)
{
    short *from = answer_at(joint->from_place, polled), *to = answer_at(joint->to_place, polled);
    joint->from_events = *from;
    joint->to_events = *to;
    *from = *to = 0;
}

static enum joint_state host_failed(struct joint *joint, int64_t refusal)
{
    joint->refusal = refusal;
    return JOINT_HOST_FAILED;
}

static enum joint_state system_failed(struct joint *joint, int error)
{
    joint->error = error;
    return JOINT_SYSTEM_FAILED;
}

/* A socket of the system whose opening goes on: done, refused, or not yet. */
static enum joint_state opening_step(struct joint *joint)
{
    int error = 0;
    socklen_t size = sizeof error;
    if ((joint->to_events & (POLLOUT | POLLERR | POLLHUP)) == 0) {
        return JOINT_GOES_ON;
    }
    if (getsockopt(joint->to, SOL_SOCKET, SO_ERROR, &error, &size) != 0) {
        error = errno;
    }
    joint->connects = false;
    joint->from_events = 0;
    return error == 0 ? JOINT_GOES_ON : system_failed(joint, error);
}

/* From the system's descriptor into the passage up. */
static enum joint_state read_step(struct joint *joint)
{
    if ((joint->from_events & (POLLIN | POLLHUP | POLLERR | POLLNVAL)) == 0 || !has_room(&joint->up)) {
        return JOINT_GOES_ON;
    }
    joint->from_events = 0;
    const ssize_t len = read(joint->from, joint->up.octets, sizeof joint->up.octets);
    if (len < 0) {
        return errno == EAGAIN || errno == EINTR ? JOINT_GOES_ON : system_failed(joint, errno);
    }
    joint->up.ended = len == 0;
    joint->up.from = 0;
    joint->up.to = (size_t)len;
    return JOINT_GOES_ON;
}

/* From the passage up to the host, and then the end. */
static enum joint_state send_step(struct joint *joint, struct tap *tap)
{
    struct passage *up = &joint->up;
    if (has_octets(up)) {
        const int64_t taken = tap_send(tap, joint->id, up->octets + up->from, up->to - up->from);
        if (taken < 0) {
            return taken == HOST_EAGAIN ? JOINT_GOES_ON : host_failed(joint, taken);
        }
        up->from += (size_t)taken;
        joint->moved = tap->now;
    }
    if (up->ended && !has_octets(up) && !up->told) {
        const int64_t done = tap_shutdown_write(tap, joint->id);
        up->told = done == 0;
        return done == 0 ? JOINT_GOES_ON : host_failed(joint, done);
    }
    return JOINT_GOES_ON;
}

/* From the host into the passage down. */
static enum joint_state recv_step(struct joint *joint, struct tap *tap)
{
    struct passage *down = &joint->down;
    if (!has_room(down)) {
        return JOINT_GOES_ON;
    }
    const int64_t len = tap_recv(tap, joint->id, down->octets, sizeof down->octets);
    if (len < 0) {
        return len == HOST_EAGAIN ? JOINT_GOES_ON : host_failed(joint, len);
    }
    joint->moved = tap->now;
    down->ended = len == 0;
    down->from = 0;
    down->to = (size_t)len;
    return JOINT_GOES_ON;
}

/* From the passage down to the system's descriptor. */
static enum joint_state write_step(struct joint *joint)
{
    struct passage *down = &joint->down;
    if (!has_octets(down) || (joint->to_events & (POLLOUT | POLLERR | POLLHUP | POLLNVAL)) == 0) {
        return JOINT_GOES_ON;
    }
    const size_t waits = down->to - down->from;
    const ssize_t taken = write(joint->to, down->octets + down->from, waits > PIPE_TAKES && !joint->is_socket ? PIPE_TAKES : waits);
    joint->to_events = 0;
    if (taken < 0) {
        return errno == EAGAIN || errno == EINTR ? JOINT_GOES_ON : system_failed(joint, errno);
    }
    down->from += (size_t)taken;
    return JOINT_GOES_ON;
}

/* The end of what the peer sends, once all before it is written. */
static enum joint_state end_step(struct joint *joint)
{
    struct passage *down = &joint->down;
    if (!down->ended || has_octets(down) || down->told || joint->connects) {
        return JOINT_GOES_ON;
    }
    down->told = true;
    return joint->is_socket && shutdown(joint->to, SHUT_WR) != 0 ? system_failed(joint, errno) : JOINT_GOES_ON;
}

/* What the system's descriptors are ready for. */
static enum joint_state system_step(struct joint *joint)
{
    enum joint_state state = joint->connects ? opening_step(joint) : JOINT_GOES_ON;
    if (state == JOINT_GOES_ON && !joint->connects) {
        state = read_step(joint);
    }
    if (state == JOINT_GOES_ON && !joint->connects) {
        state = write_step(joint);
    }
    return state;
}

/* What the host is ready for. It comes last, so that what it gave and what was read of it is waited for next. */
static enum joint_state host_step(struct joint *joint, struct tap *tap)
{
    enum joint_state state = send_step(joint, tap);
    if (state == JOINT_GOES_ON) {
        state = recv_step(joint, tap);
    }
    return state == JOINT_GOES_ON ? end_step(joint) : state;
}

bool joint_awaits(const struct joint *joint, uint32_t bits)
{
    const uint32_t taken = has_room(&joint->down) ? HOST_READY_READ | HOST_READY_ENDED : 0;
    return (bits & (taken | HOST_READY_FAILED)) != 0;
}

bool joint_is_due(const struct joint *joint, struct tap *tap)
{
    if (has_octets(&joint->up)) {
        return (ready_for(tap, joint->id) & (HOST_READY_WRITE | HOST_READY_FAILED)) != 0 || joint->to_events != 0;
    }
    return joint->from_events != 0 || joint->to_events != 0 || (joint->up.ended && !joint->up.told);
}

enum joint_state joint_step(struct joint *joint, struct tap *tap)
{
    enum joint_state state = system_step(joint);
    if (state == JOINT_GOES_ON) {
        state = host_step(joint, tap);
    }
    return state == JOINT_GOES_ON && joint->up.told && joint->down.told ? JOINT_ENDED : state;
}
