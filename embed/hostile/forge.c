#include "forge.h"

#include <string.h>

enum { KEPT = 256 };

static struct frame kept[KEPT];
static size_t count, next;
static uint64_t state;

void chance_begin(uint64_t seed)
{
    state = seed;
}

/* The generator splitmix64. */
uint64_t chance(void)
{
    uint64_t z = state += 0x9e3779b97f4a7c15;
    z = (z ^ z >> 30) * 0xbf58476d1ce4e5b9;
    z = (z ^ z >> 27) * 0x94d049bb133111eb;
    return z ^ z >> 31;
}

uint64_t below(uint64_t most)
{
    return chance() % most;
}

bool one_of(uint64_t most)
{
    return below(most) == 0;
}

uint64_t any_number(unsigned bits)
{
    const uint64_t last = bits == 64 ? UINT64_MAX : ((uint64_t)1 << bits) - 1;
    const uint64_t bounds[6] = {0, 1, last, last - 1, last / 2, last / 2 + 1};
    return one_of(2) ? bounds[below(6)] : chance() & last;
}

void forge_begin(void)
{
    count = next = 0;
}

void forge_keep(const uint8_t *octets, size_t len)
{
    memcpy(kept[next].octets, octets, len);
    kept[next].len = len;
    next = (next + 1) % KEPT;
    count = count < KEPT ? count + 1 : KEPT;
}

/* A field of a frame: where it begins, and its octets. */
struct field {
    size_t at, len;
};

static const struct field of_all[] = {{0, 6}, {6, 6}, {12, 2}};
static const struct field of_arp[] = {{14, 2}, {16, 2}, {18, 1}, {19, 1}, {20, 2}, {22, 4}, {28, 4}, {32, 4}, {38, 4}};
static const struct field of_ip[] = {{14, 1}, {15, 1}, {16, 2}, {18, 2}, {20, 2}, {22, 1}, {23, 1}, {24, 2}, {26, 4}, {30, 4}};
/* Behind a header without options. */
static const struct field of_icmp[] = {{34, 1}, {35, 1}, {36, 2}, {38, 4}, {42, 1}, {44, 2}, {48, 2}, {51, 1}, {54, 4}, {58, 4}, {62, 4}, {66, 4}};
static const struct field of_udp[] = {{34, 2}, {36, 2}, {38, 2}, {40, 2}};
static const struct field of_tcp[] = {{34, 2}, {36, 2}, {38, 4}, {42, 4}, {46, 1}, {47, 1}, {48, 2}, {50, 2}, {52, 2}, {54, 1}, {55, 1}, {56, 2}, {58, 1}, {59, 1}, {61, 1}};

#define ANY_OF(fields) (fields)[below(sizeof(fields) / sizeof *(fields))]

static struct field any_field(const struct frame *frame)
{
    if (one_of(12)) {
        return ANY_OF(of_all);
    }
    if (read16(frame->octets + 12) == 0x0806) {
        return ANY_OF(of_arp);
    }
    if (one_of(3)) {
        return ANY_OF(of_ip);
    }
    switch (frame->octets[23]) {
    case ICMP: return ANY_OF(of_icmp);
    case UDP: return ANY_OF(of_udp);
    default: return ANY_OF(of_tcp);
    }
}

static uint64_t read_field(const uint8_t *at, size_t len)
{
    uint64_t value = 0;
    for (size_t i = 0; i < len; i++) {
        value = value << 8 | at[i];
    }
    return value;
}

static void write_field(uint8_t *at, size_t len, uint64_t value)
{
    for (size_t i = len; i-- > 0; value >>= 8) {
        at[i] = (uint8_t)value;
    }
}

static void change_field(struct frame *frame)
{
    const struct field field = any_field(frame);
    if (field.at + field.len > frame->len) {
        return;
    }
    uint8_t *at = frame->octets + field.at;
    const uint64_t value = read_field(at, field.len);
    const uint64_t near[4] = {value + 1, value - 1, value + below(65536), value - below(65536)};
    write_field(at, field.len, one_of(2) ? near[below(4)] : any_number((unsigned)(8 * field.len)));
}

static void cut(struct frame *frame)
{
    frame->len = below(frame->len + 1);
}

static void lengthen(struct frame *frame)
{
    const size_t len = frame->len + 1 + below(one_of(4) ? 600 : 24);
    for (size_t i = frame->len; i < len && i < FRAME_ROOM; i++) {
        frame->octets[i] = (uint8_t)chance();
    }
    frame->len = len < FRAME_ROOM ? len : FRAME_ROOM;
}

/* The front of one frame, and the rest of another. */
static void splice(struct frame *frame)
{
    const struct frame *other = &kept[below(count)];
    const size_t most = frame->len < other->len ? frame->len : other->len;
    const size_t at = below(most + 1);
    memcpy(frame->octets + at, other->octets + at, other->len - at);
    frame->len = other->len;
}

/* Another pair: the ports and addresses of another frame. */
static void move_pair(struct frame *frame)
{
    const struct frame *other = &kept[below(count)];
    if (frame->len >= 38 && other->len >= 38) {
        memcpy(frame->octets + 26, other->octets + 26, one_of(2) ? 8 : 12);
    }
}

/* Another initial number: both numbers of a segment are moved alike, or one. */
static void move_numbers(struct frame *frame)
{
    const uint32_t by = one_of(2) ? (uint32_t)chance() : (uint32_t)below(70000);
    if (frame->len >= 46) {
        write32(frame->octets + 38, read32(frame->octets + 38) + by);
        write32(frame->octets + 42, read32(frame->octets + 42) + (one_of(2) ? by : (uint32_t)below(3000)));
    }
}

static void change(struct frame *frame)
{
    switch (below(9)) {
    case 0:
        if (frame->len != 0) {
            frame->octets[below(frame->len)] ^= (uint8_t)(1 << below(8));
        }
        break;
    case 1:
        if (frame->len != 0) {
            frame->octets[below(frame->len)] = (uint8_t)any_number(8);
        }
        break;
    case 2:
        cut(frame);
        break;
    case 3:
        lengthen(frame);
        break;
    case 4:
        splice(frame);
        break;
    case 5:
        move_pair(frame);
        break;
    case 6:
        move_numbers(frame);
        break;
    default:
        change_field(frame);
    }
}

static void make_own(struct frame *frame, const uint8_t mac[6], uint32_t addr)
{
    const uint32_t from = one_of(3) ? (uint32_t)any_number(32) : addr + 1 + 3 * (uint32_t)below(60);
    switch (below(3)) {
    case 0:
        make_echo(frame, mac, from, addr, below(1473), chance());
        break;
    case 1:
        make_error(frame, mac, from, addr, &kept[below(count)], chance());
        break;
    default:
        make_segment(frame, mac, from, addr, chance());
    }
}

void forge(struct frame *frame, const uint8_t mac[6], uint32_t addr)
{
    *frame = kept[below(count)];
    if (one_of(6)) {
        make_own(frame, mac, addr);
    }
    for (uint64_t changes = below(5); changes > 0; changes--) {
        change(frame);
    }
    if (one_of(2)) {
        if (frame->len >= 34 && !one_of(8)) {
            memcpy(frame->octets, mac, 6);
            write32(frame->octets + (read16(frame->octets + 12) == 0x0806 ? 38 : 30), addr);
        }
        repair(frame);
    }
}
