#include "wire.h"

#include "pcap.h"

#include <stdio.h>
#include <stdlib.h>
#include <string.h>

enum {
    WIRE_SIZE = 16384, /* frames: more than the largest windows of them, and all that acknowledge these */
    LATE = 20,         /* milliseconds at most by which others overtake a frame */
    ETHERNET_SIZE = 14,
    IPV4_TYPE = 0x0800,
    IPV4_SIZE = 20,    /* without options */
    TCP = 6,
    FIN = 1,
    SYN = 2
};

struct frame {
    enum end from;
    uint64_t arrives;
    size_t len;
    uint8_t octets[FRAME_SIZE];
};

uint64_t moment;
const struct stack *stacks[ENDS];
struct traffic traffic[ENDS];

static struct faults faults;
static uint64_t chance[ENDS];
static uint32_t top[ENDS];                               /* the sequence number behind all that this host has sent of its connection */
static struct frame places[WIRE_SIZE];
static struct frame *order[WIRE_SIZE];                   /* a ring of them: first those on the wire, by the moment of arrival, then the free ones */
static size_t first, count;
static FILE *capture;

uint64_t drawn(uint64_t *state)
{
    *state ^= *state << 13;
    *state ^= *state >> 7;
    *state ^= *state << 17;
    return *state;
}

void wire_set(const struct faults *given)
{
    faults = *given;
    for (int end = NEAR; end < ENDS; end++) {
        chance[end] = (2 * faults.seed + (uint64_t)end + 1) * 0x9E3779B97F4A7C15;
    }
}

void wire_capture(const char *path)
{
    capture = pcap_begin(path);
    if (capture == NULL) {
        fail("no capture can be made");
    }
}

/* ---- Segments that go out again -------------------------------------------------------------------------------------------------------- */

static uint32_t number_at(const uint8_t *at, size_t len)
{
    uint32_t number = 0;
    for (size_t i = 0; i < len; i++) {
        number = number << 8 | at[i];
    }
    return number;
}

/* Compares the numbers of a packet's segment with those before. */
static void count_resent(enum end end, const uint8_t *frame)
{
    const uint8_t *ip = frame + ETHERNET_SIZE, *tcp = ip + IPV4_SIZE;
    if (ip[9] != TCP) {
        return;
    }
    const uint32_t seq = number_at(tcp + 4, 4);
    if ((tcp[13] & SYN) != 0) {
        top[end] = seq + 1;
        return;
    }
    const uint32_t data = number_at(ip + 2, 2) - IPV4_SIZE - (uint32_t)(tcp[12] >> 4) * 4;
    const uint32_t len = data + ((tcp[13] & FIN) != 0);
    if (len != 0 && (int32_t)(seq + len - top[end]) > 0) {
        top[end] = seq + len;
    } else if (len != 0) {
        traffic[end].resent++;
    }
}

/* ---- Frames ---------------------------------------------------------------------------------------------------------------------------- */

static struct frame **order_at(size_t place)
{
    return &order[(first + place) % WIRE_SIZE];
}

static struct frame *free_frame(void)
{
    if (order[0] == NULL) {
        for (size_t i = 0; i < WIRE_SIZE; i++) {
            order[i] = &places[i];
        }
    }
    if (count == WIRE_SIZE) {
        fail("the wire is full");
    }
    return *order_at(count);
}

uint8_t *wire_place(void)
{
    return free_frame()->octets;
}

/* The free frame is on its way, behind all that arrive no later. */
static void put(enum end end, size_t len, uint64_t arrives)
{
    struct frame *frame = free_frame();
    size_t place = count++;
    frame->from = end;
    frame->len = len;
    frame->arrives = arrives;
    for (; place > 0 && (*order_at(place - 1))->arrives > arrives; place--) {
        *order_at(place) = *order_at(place - 1);
    }
    *order_at(place) = frame;
}

/* Whether a fault befalls the next frame of a host. What a run doesn't have draws no number. */
static bool befalls(enum end end, uint64_t in_100)
{
    return in_100 != 0 && (drawn(&chance[end]) >> 32) % 100 < in_100;
}

/* When a frame of a host arrives that goes out now. */
static uint64_t arrival(enum end end)
{
    const uint64_t late = befalls(end, faults.reorder) ? 1 + (drawn(&chance[end]) >> 32) % LATE : 0;
    return moment + faults.delay + late;
}

void wire_push(enum end end, size_t len)
{
    const uint8_t *octets = wire_place();
    const bool is_lost = befalls(end, faults.loss), comes_twice = befalls(end, faults.repeat);
    const uint64_t arrives = arrival(end);
    const bool is_packet = number_at(octets + 12, 2) == IPV4_TYPE;
    const bool is_first = is_packet && traffic[end].packets < faults.first;
    traffic[end].frames++;
    traffic[end].packets += is_packet;
    if (is_packet) {
        count_resent(end, octets);
    }
    if (capture != NULL) {
        pcap_add(capture, moment * 1000, octets, len);
    }
    if (is_first || is_lost) {
        return;
    }
    put(end, len, arrives);
    if (comes_twice) {
        memcpy(wire_place(), octets, len);
        put(end, len, arrival(end));
    }
}

/* ---- The hosts ------------------------------------------------------------------------------------------------------------------------- */

void let_work(enum end end, void (*work)(enum end end))
{
    work(end);
    stacks[end]->emit(end);
}

/* The first frame arrives. Its place stays free until the host has heard it. */
static void hear(void (*work)(enum end end))
{
    static uint8_t octets[FRAME_SIZE];
    const struct frame *frame = *order_at(0);
    const enum end end = frame->from == NEAR ? FAR : NEAR;
    const size_t len = frame->len;
    memcpy(octets, frame->octets, len);
    first = (first + 1) % WIRE_SIZE;
    count--;
    stacks[end]->deliver(end, octets, len);
    let_work(end, work);
}

static void pass_time(uint64_t until, void (*work)(enum end end))
{
    uint64_t next = count == 0 ? until : (*order_at(0))->arrives;
    for (int end = NEAR; end < ENDS; end++) {
        const uint64_t timer = stacks[end]->next((enum end)end);
        next = timer < next ? timer : next;
    }
    next = next < until ? next : until;
    moment = next > moment ? next : moment + 1;
    for (int end = NEAR; end < ENDS; end++) {
        stacks[end]->tick((enum end)end);
        let_work((enum end)end, work);
    }
}

void go_on(uint64_t until, void (*work)(enum end end))
{
    if (count != 0 && (*order_at(0))->arrives <= moment) {
        hear(work);
    } else {
        pass_time(until, work);
    }
}
