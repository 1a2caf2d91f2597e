/* Reads each frame of captures by embed/codec.h and writes it again: the octets must be the same. Each frame is also cut and damaged, and each emit given
 * too little room or what it can't write: that must be refused, and change nothing. Buffers are blocks of the heap, as long as they are said to be, so that
 * valgrind sees a step outside. */
#include <stdarg.h>
#include <stdio.h>
#include <stdlib.h>
#include <string.h>

#include "codec.h"

enum { OTHER = 1, WIPED = 0xa5 };

/* What a frame says, layer by layer, as far as it has them. */
struct packet {
    struct codec_ether ether;
    struct codec_arp arp;
    struct codec_ipv4 ip;
    struct codec_icmp icmp;
    struct codec_udp udp;
    struct codec_tcp tcp;
    int has_arp, has_ip, has_upper;
};

static struct {
    unsigned long frames, arp, ip, fragments, icmp, udp, tcp, options, cut, damaged, refused;
} count;

static const char *name;

static void fail(const char *what, ...)
{
    va_list rest;
    va_start(rest, what);
    fprintf(stderr, "play: %s: frame %lu: ", name, count.frames);
    vfprintf(stderr, what, rest);
    fputc('\n', stderr);
    va_end(rest);
    exit(1);
}

static void *block(const void *from, size_t len)
{
    void *made = malloc(len > 0 ? len : 1);
    if (made == NULL)
        fail("no memory");
    if (len > 0)
        memcpy(made, from, len);
    return made;
}

/* A parse of a layer into a struct that is filled before: a fault must leave it. */
#define PARSE(parsed, answer, call)                                  \
    do {                                                             \
        unsigned char before[sizeof(parsed)];                        \
        memset(&(parsed), WIPED, sizeof(parsed));                    \
        memcpy(before, &(parsed), sizeof(parsed));                   \
        (answer) = (call);                                           \
        if ((answer) > 0)                                            \
            fail("a parse answers %ld", (long)(answer));             \
        if ((answer) != 0 && memcmp(before, &(parsed), sizeof(parsed)) != 0) \
            fail("a fault, %ld, and the struct is another", (long)(answer)); \
    } while (0)

static int64_t read_upper(const uint8_t *octets, struct packet *packet)
{
    const struct codec_ipv4 *ip = &packet->ip;
    uint8_t *payload = block(octets, ip->payload_len);
    int64_t answer = OTHER;
    if (ip->protocol == CODEC_ICMP)
        PARSE(packet->icmp, answer, codec_icmp_parse(payload, ip->payload_len, &packet->icmp));
    else if (ip->protocol == CODEC_UDP)
        PARSE(packet->udp, answer, codec_udp_parse(ip->source, ip->destination, payload, ip->payload_len, &packet->udp));
    else if (ip->protocol == CODEC_TCP)
        PARSE(packet->tcp, answer, codec_tcp_parse(ip->source, ip->destination, payload, ip->payload_len, &packet->tcp));
    packet->has_upper = answer == 0;
    free(payload);
    return answer;
}

/* 0, the first fault, or OTHER where a layer is none that the library reads. */
static int64_t read_frame(const uint8_t *frame, size_t len, struct packet *packet)
{
    int64_t answer;
    packet->has_arp = packet->has_ip = packet->has_upper = 0;
    PARSE(packet->ether, answer, codec_ether_parse(frame, len, &packet->ether));
    if (answer != 0)
        return answer;
    const uint8_t *octets = frame + CODEC_ETHER_LEN;
    if (packet->ether.payload_len != len - CODEC_ETHER_LEN)
        fail("a payload of %lu octets in a frame of %lu", (unsigned long)packet->ether.payload_len, (unsigned long)len);
    if (packet->ether.kind == CODEC_KIND_ARP) {
        PARSE(packet->arp, answer, codec_arp_parse(octets, packet->ether.payload_len, &packet->arp));
        packet->has_arp = answer == 0;
        return answer;
    }
    if (packet->ether.kind != CODEC_KIND_IPV4)
        return OTHER;
    PARSE(packet->ip, answer, codec_ipv4_parse(octets, packet->ether.payload_len, &packet->ip));
    packet->has_ip = answer == 0;
    if (answer != 0)
        return answer;
    if ((size_t)packet->ip.header_len + packet->ip.payload_len > packet->ether.payload_len)
        fail("the lengths of the datagram are over that of the frame");
    if (codec_sum(octets, packet->ip.header_len) != 0xffff)
        fail("a header is taken whose sum is wrong");
    return CODEC_IS_WHOLE(packet->ip) ? read_upper(octets + packet->ip.header_len, packet) : OTHER;
}

/* An emit with too little room refuses and writes nothing; with enough of it the answer is as it ought to be. */
#define EMIT(wanted, size, call)                                                                                 \
    do {                                                                                                         \
        const size_t sizes[] = {0, 1, (size_t)(wanted) / 2, (size_t)(wanted) - 1};                               \
        for (size_t at = 0; at < sizeof sizes / sizeof sizes[0]; at++) {                                         \
            const size_t room = sizes[at];                                                                       \
            uint8_t *out = block(place, room), *kept = block(place, room);                                       \
            if ((call) != CODEC_NO_ROOM || memcmp(out, kept, room) != 0)                                         \
                fail("an emit of %lu octets into %lu isn't refused", (unsigned long)(wanted), (unsigned long)room); \
            free(kept);                                                                                          \
            free(out);                                                                                           \
            count.refused++;                                                                                     \
        }                                                                                                        \
        const size_t room = (size);                                                                              \
        uint8_t *out = place;                                                                                    \
        const int64_t answer = (call);                                                                           \
        if (answer != (int64_t)(wanted))                                                                         \
            fail("an emit answers %ld and not %lu", (long)answer, (unsigned long)(wanted));                      \
    } while (0)

/* An emit of what can't be written refuses, and writes nothing. */
#define UNFIT(size, call)                                                            \
    do {                                                                             \
        uint8_t *out = block(place, (size)), *kept = block(place, (size));           \
        const size_t room = (size);                                                  \
        if ((call) != CODEC_UNFIT || memcmp(out, kept, (size)) != 0)                 \
            fail("line %d: what can't be written isn't refused", __LINE__);          \
        free(kept);                                                                  \
        free(out);                                                                   \
        count.refused++;                                                             \
    } while (0)

static void write_upper(const struct packet *packet, uint8_t *place, size_t size)
{
    const struct codec_ipv4 *ip = &packet->ip;
    if (ip->protocol == CODEC_ICMP) {
        memset(place, WIPED, CODEC_ICMP_LEN);
        EMIT(ip->payload_len, size, codec_icmp_emit(&packet->icmp, out, room));
    } else if (ip->protocol == CODEC_UDP) {
        struct codec_udp bad = packet->udp;
        memset(place, WIPED, CODEC_UDP_LEN);
        bad.payload_len = 65528;
        UNFIT(size, codec_udp_emit(ip->source, ip->destination, &bad, out, room));
        EMIT(CODEC_UDP_LEN + packet->udp.payload_len, size, codec_udp_emit(ip->source, ip->destination, &packet->udp, out, room));
    } else {
        memset(place, WIPED, CODEC_TCP_LEN);
        for (unsigned len = 0; len < 80; len++) {
            struct codec_tcp bad = packet->tcp;
            bad.header_len = (uint16_t)len;
            if (len < 20 || len > 60 || len % 4 != 0)
                UNFIT(size, codec_tcp_emit(ip->source, ip->destination, &bad, out, room));
        }
        EMIT(ip->payload_len, size, codec_tcp_emit(ip->source, ip->destination, &packet->tcp, out, room));
    }
}

static void write_ip(const struct packet *packet, uint8_t *place, size_t size)
{
    const struct codec_ipv4 *ip = &packet->ip;
    struct codec_ipv4 bad = *ip;
    memset(place, WIPED, CODEC_IPV4_LEN);
    bad.header_len = (uint16_t)(ip->header_len + 2);
    UNFIT(size, codec_ipv4_emit(&bad, out, room));
    bad = *ip, bad.flags = 8;
    UNFIT(size, codec_ipv4_emit(&bad, out, room));
    bad = *ip, bad.offset = 8192;
    UNFIT(size, codec_ipv4_emit(&bad, out, room));
    bad = *ip, bad.payload_len = 65535;
    UNFIT(size, codec_ipv4_emit(&bad, out, room));
    bad = *ip, bad.flags = CODEC_MORE_FRAGMENTS, bad.payload_len = 15;
    UNFIT(size, codec_ipv4_emit(&bad, out, room));
    EMIT(ip->header_len + ip->payload_len, size, codec_ipv4_emit(ip, out, room));
}

/* The frame that is written of what was read, before what stands behind each header, has the same octets. */
static void write_frame(const uint8_t *frame, size_t len, const struct packet *packet)
{
    uint8_t *copy = block(frame, len), *inner = copy + CODEC_ETHER_LEN;
    const size_t size = len - CODEC_ETHER_LEN;
    if (packet->has_upper)
        write_upper(packet, inner + packet->ip.header_len, size - packet->ip.header_len);
    if (packet->has_ip)
        write_ip(packet, inner, size);
    if (packet->has_arp) {
        uint8_t *place = inner;
        struct codec_arp bad = packet->arp;
        memset(place, WIPED, CODEC_ARP_LEN);
        bad.operation = 3;
        UNFIT(size, codec_arp_emit(&bad, out, room));
        EMIT(CODEC_ARP_LEN, size, codec_arp_emit(&packet->arp, out, room));
    }
    uint8_t *place = copy;
    memset(place, WIPED, CODEC_ETHER_LEN);
    EMIT(len, len, codec_ether_emit(&packet->ether, out, room));
    for (size_t at = 0; at < len; at++)
        if (copy[at] != frame[at])
            fail("octet %lu is written as %02x, and was %02x", (unsigned long)at, copy[at], frame[at]);
    free(copy);
}

/* Cut anywhere before the end of its packet, a frame has a fault. */
static void cut_frame(const uint8_t *frame, size_t end)
{
    struct packet packet;
    for (size_t len = 0; len < end; len++) {
        uint8_t *part = block(frame, len);
        if (read_frame(part, len, &packet) >= 0)
            fail("cut to %lu octets it has no fault", (unsigned long)len);
        free(part);
        count.cut++;
    }
}

/* With one bit turned round a datagram has a fault, wherever a checksum covers it. */
static void damage_frame(const uint8_t *frame, size_t len, size_t from, size_t end)
{
    struct packet packet;
    uint8_t *copy = block(frame, len);
    for (size_t at = from; at < end; at++) {
        const uint8_t bit = (uint8_t)(1u << (at * 5 + count.frames) % 8);
        copy[at] ^= bit;
        if (read_frame(copy, len, &packet) >= 0)
            fail("with octet %lu damaged it has no fault", (unsigned long)at);
        copy[at] ^= bit;
        count.damaged++;
    }
    free(copy);
}

static void try_frame(const uint8_t *octets, size_t len)
{
    struct packet packet;
    uint8_t *frame = block(octets, len);
    count.frames++;
    const int64_t answer = read_frame(frame, len, &packet);
    if (answer < 0)
        fail("it has a fault, %ld", (long)answer);
    write_frame(frame, len, &packet);
    if (packet.has_arp) {
        count.arp++;
        cut_frame(frame, CODEC_ETHER_LEN + CODEC_ARP_LEN);
        damage_frame(frame, len, CODEC_ETHER_LEN, CODEC_ETHER_LEN + 6);
    }
    if (packet.has_ip) {
        const struct codec_ipv4 *ip = &packet.ip;
        const size_t header = CODEC_ETHER_LEN + (size_t)ip->header_len;
        const int is_summed = packet.has_upper && (ip->protocol != CODEC_UDP || !packet.udp.unsummed);
        count.ip++;
        count.fragments += !CODEC_IS_WHOLE(*ip);
        count.icmp += packet.has_upper && ip->protocol == CODEC_ICMP;
        count.udp += packet.has_upper && ip->protocol == CODEC_UDP;
        count.tcp += packet.has_upper && ip->protocol == CODEC_TCP;
        count.options += packet.has_upper && ip->protocol == CODEC_TCP && packet.tcp.header_len > CODEC_TCP_LEN;
        cut_frame(frame, header + ip->payload_len);
        damage_frame(frame, len, CODEC_ETHER_LEN, is_summed ? header + ip->payload_len : header);
    }
    free(frame);
}

/* Plays at most so many frames of a capture in the classic format, of this machine's byte order. */
static void play(const char *path, unsigned long most)
{
    static uint8_t frame[262144];
    uint32_t head[6], record[4];
    FILE *capture = fopen(path, "rb");
    if (capture == NULL || fread(head, sizeof head, 1, capture) != 1 || head[0] != 0xa1b2c3d4u || head[5] != 1) {
        fprintf(stderr, "play: %s is no capture of Ethernet\n", path);
        exit(2);
    }
    memset(&count, 0, sizeof count);
    name = path;
    while (count.frames < most && fread(record, sizeof record, 1, capture) == 1) {
        if (record[2] > sizeof frame || record[2] != record[3] || fread(frame, 1, record[2], capture) != record[2])
            fail("the record behind it isn't whole");
        try_frame(frame, record[2]);
    }
    fclose(capture);
    printf("%lu frames: %lu ARP, %lu IPv4, %lu of them fragments, %lu ICMP, %lu UDP, %lu TCP, %lu of them with options; %lu cut, %lu damaged, %lu emits refused\n",
           count.frames, count.arp, count.ip, count.fragments, count.icmp, count.udp, count.tcp, count.options, count.cut, count.damaged, count.refused);
}

int main(int words, char **word)
{
    if (words < 3) {
        fprintf(stderr, "Usage: play MOST CAPTURE..\n");
        return 2;
    }
    for (int at = 2; at < words; at++)
        play(word[at], strtoul(word[1], NULL, 10));
    return 0;
}
