/* A host of gVisor's netstack, over the functions of gvisor.go. */
#include "wire.h"

#include <gvisor.h>

static void make(enum end end)
{
    gvisor_make(end);
}

static void deliver(enum end end, const uint8_t *frame, size_t len)
{
    gvisor_deliver(end, (uint8_t *)frame, len);
}

static void emit(enum end end)
{
    for (size_t len; (len = gvisor_next_frame(end, wire_place())) != 0;) {
        wire_push(end, len);
    }
}

static uint64_t next(enum end end)
{
    return gvisor_next(end);
}

static void tick(enum end end)
{
    gvisor_tick(end, moment);
}

static uint16_t listen_at(enum end end, uint16_t port)
{
    gvisor_listen(end, port);
    return port;
}

static uint64_t accept_one(enum end end)
{
    return gvisor_accept(end);
}

static uint64_t connect_to(enum end end, uint16_t from, uint16_t to)
{
    return gvisor_connect(end, from, to);
}

static enum standing standing(enum end end, uint64_t id)
{
    return (enum standing)gvisor_standing(end, id);
}

static size_t send_octets(enum end end, uint64_t id, const uint8_t *octets, size_t len)
{
    return gvisor_send(end, id, (uint8_t *)octets, len);
}

static size_t read_octets(enum end end, uint64_t id, uint8_t *buffer, size_t len)
{
    return gvisor_recv(end, id, buffer, len);
}

static bool has_ended(enum end end, uint64_t id)
{
    return gvisor_ended(end, id) == 1;
}

static void shut(enum end end, uint64_t id)
{
    gvisor_shutdown(end, id);
}

static void give_back(enum end end, uint64_t id)
{
    gvisor_close(end, id);
}

static void reset(enum end end, uint64_t id)
{
    gvisor_abort(end, id);
}

static uint16_t bind_datagrams(enum end end, uint16_t port)
{
    gvisor_bind(end, port);
    return port;
}

static bool send_datagram(enum end end, uint16_t port, const uint8_t *octets, size_t len)
{
    return gvisor_send_datagram(end, port, (uint8_t *)octets, len) == 1;
}

static int64_t read_datagram(enum end end, uint8_t *buffer, size_t len)
{
    return gvisor_recv_datagram(end, buffer, len);
}

const struct stack gvisor = {
    .name = "gVisor", .largest = 65507, .make = make, .deliver = deliver, .emit = emit, .next = next, .tick = tick, .listen = listen_at,
    .accept = accept_one, .connect = connect_to, .standing = standing, .send = send_octets, .recv = read_octets, .ended = has_ended, .shutdown = shut,
    .close = give_back, .abort = reset, .bind = bind_datagrams, .send_datagram = send_datagram, .recv_datagram = read_datagram
};
