/*
 * An address by DHCP (RFC 2131): the program takes a lease by frames of its own, as there is no host yet, and makes the host of it, which answers ping. It
 * renews the lease by a UDP socket of that host. As root, where br0 is a bridge to a network that has a DHCP server:
 *
 *     cc -std=c99 -I embed examples/dhcp.c embed/isn.c embed/lib/x86_64/libhostc.a -o dhcp
 *     ip tuntap add dev tap0 mode tap && ip link set tap0 up master br0 && ./dhcp --tap tap0
 *
 * An address that somebody has is declined. Not here: rebinding by another server (where the lease ends the host does, and all begins anew), a lease of the
 * run before, and options that stand in the fields of names (option 52). `embed/try-examples` tries it.
 */
#include "wire.h"

#include <stdbool.h>

enum {
    DISCOVER = 1, OFFER = 2, REQUEST = 3, DECLINE = 4, ACK = 5, NAK = 6, /* types of messages (RFC 2132 section 9.6) */
    CLIENT_PORT = 68,
    SERVER_PORT = 67,
    OPTIONS_AT = 240,   /* in a message: behind its fields and the cookie (RFC 2131 section 3) */
    MESSAGE_SIZE = 300, /* of ours */
    FRAME_SIZE = 14 + 20 + 8 + MESSAGE_SIZE,
    TRIES = 4
};

static const uint8_t cookie[4] = {99, 130, 83, 99};

/* What a server leases, or offers. */
struct lease {
    uint32_t addr, mask, router, server;
    uint32_t seconds;
    uint64_t since;     /* when it was asked for */
};

/* ---- Messages --------------------------------------------------------------------------------------------------------------------------- */

static uint32_t number_at(const uint8_t *octets, size_t count)
{
    uint32_t number = 0;

    while (count-- > 0)
        number = number << 8 | *octets++;
    return number;
}

static void put(uint8_t *octets, uint32_t number, size_t count)
{
    while (count-- > 0)
        *octets++ = (uint8_t)(number >> (8 * count));
}

/* Puts an option behind others, of a number, and answers where it ends (RFC 2132 section 2). */
static uint8_t *put_option(uint8_t *at, uint8_t code, uint32_t number, uint8_t count)
{
    *at++ = code;
    *at++ = count;
    put(at, number, count);
    return at + count;
}

/* Writes a message of ours: of a lease that is held `held` is the address, else 0, and then the server and the address that was offered are named, if any
 * (RFC 2131 section 4.4.1, table 5). */
static void make_message(const struct wire *wire, uint8_t type, uint32_t xid, uint32_t held, const struct lease *lease, uint8_t message[MESSAGE_SIZE])
{
    uint8_t *at = message + OPTIONS_AT;

    memset(message, 0, MESSAGE_SIZE);
    message[0] = 1; /* a request, by Ethernet and its six octets */
    message[1] = 1;
    message[2] = 6;
    put(message + 4, xid, 4);
    if (held == 0 && type != DECLINE)
        message[10] = 0x80; /* be answered by broadcast */
    put(message + 12, held, 4);
    memcpy(message + 28, wire->mac, 6);
    memcpy(message + OPTIONS_AT - 4, cookie, 4);
    at = put_option(at, 53, type, 1);
    if (held == 0 && lease->addr != 0) {
        at = put_option(at, 50, lease->addr, 4);
        at = put_option(at, 54, lease->server, 4);
    }
    if (type != DECLINE)
        at = put_option(at, 55, 0x0103, 2); /* the mask and the router are asked for */
    *at = 255;
}

/* Reads a message to us: its type, and what it leases; 0 of any that isn't of a server, for this MAC and this exchange, or isn't whole. */
static uint8_t read_message(const struct wire *wire, const uint8_t *message, size_t len, uint32_t xid, struct lease *lease)
{
    uint8_t type = 0;
    size_t at = OPTIONS_AT;

    if (len < OPTIONS_AT || message[0] != 2 || message[1] != 1 || message[2] != 6 || number_at(message + 4, 4) != xid)
        return 0;
    if (memcmp(message + 28, wire->mac, 6) != 0 || memcmp(message + OPTIONS_AT - 4, cookie, 4) != 0)
        return 0;
    memset(lease, 0, sizeof *lease);
    lease->addr = number_at(message + 16, 4);
    while (at < len && message[at] != 255) {
        const uint8_t code = message[at++], *data;
        size_t count;

        if (code == 0)
            continue; /* a filler, which has no length */
        if (at == len || len - at < (size_t)1 + message[at])
            return 0;
        count = message[at];
        data = message + at + 1;
        at += 1 + count;
        if (code == 53 && count == 1)
            type = *data;
        else if (code == 1 && count == 4)
            lease->mask = number_at(data, 4);
        else if (code == 3 && count >= 4)
            lease->router = number_at(data, 4); /* the first of them */
        else if (code == 51 && count == 4)
            lease->seconds = number_at(data, 4);
        else if (code == 54 && count == 4)
            lease->server = number_at(data, 4);
    }
    return lease->server == 0 ? 0 : type;
}

/* ---- Frames ----------------------------------------------------------------------------------------------------------------------------- */

/* The sum of two octets each, in ones' complement, on top of another one (RFC 1071). */
static uint32_t sum_of(const uint8_t *octets, size_t len, uint32_t sum)
{
    size_t i;

    for (i = 0; i < len; i++)
        sum += i % 2 == 0 ? (uint32_t)octets[i] << 8 : octets[i];
    while (sum > 0xffff)
        sum = (sum & 0xffff) + (sum >> 16);
    return sum;
}

/* The sum of a UDP datagram and its pseudo header (RFC 768), `ip` being the header before it. */
static uint32_t udp_sum(const uint8_t *ip, const uint8_t *udp, size_t len)
{
    return sum_of(udp, len, sum_of(ip + 12, 8, 17 + (uint32_t)len));
}

/* Broadcasts a message, from no address (RFC 2131 section 4.1). */
static void send_message(const struct wire *wire, const uint8_t message[MESSAGE_SIZE])
{
    uint8_t frame[FRAME_SIZE] = {0}, *ip = frame + 14, *udp = ip + 20;
    uint32_t sum;

    memset(frame, 0xff, 6);
    memcpy(frame + 6, wire->mac, 6);
    put(frame + 12, 0x0800, 2);
    ip[0] = 0x45;
    put(ip + 2, FRAME_SIZE - 14, 2);
    ip[8] = 64;
    ip[9] = 17;
    memset(ip + 16, 0xff, 4);
    put(ip + 10, ~sum_of(ip, 20, 0), 2);
    put(udp, CLIENT_PORT, 2);
    put(udp + 2, SERVER_PORT, 2);
    put(udp + 4, 8 + MESSAGE_SIZE, 2);
    memcpy(udp + 8, message, MESSAGE_SIZE);
    sum = udp_sum(ip, udp, 8 + MESSAGE_SIZE);
    put(udp + 6, sum == 0xffff ? sum : ~sum, 2); /* 0 would say that there is none */
    wire_write(wire, frame, sizeof frame);
}

/* The message that a frame brings to a client of DHCP here, and its length; NULL of any other frame, and of one that isn't whole. */
static const uint8_t *message_of(const struct wire *wire, const uint8_t *frame, size_t len, size_t *size)
{
    static const uint8_t all[6] = {0xff, 0xff, 0xff, 0xff, 0xff, 0xff};
    const uint8_t *ip = frame + 14, *udp;
    size_t header, whole;

    if (len < 14 + 20 || (memcmp(frame, all, 6) != 0 && memcmp(frame, wire->mac, 6) != 0) || number_at(frame + 12, 2) != 0x0800)
        return NULL;
    header = 4 * (size_t)(ip[0] & 15);
    whole = number_at(ip + 2, 2);
    if (ip[0] >> 4 != 4 || header < 20 || whole > len - 14 || whole < header + 8 || sum_of(ip, header, 0) != 0xffff)
        return NULL;
    udp = ip + header;
    *size = number_at(udp + 4, 2);
    if ((number_at(ip + 6, 2) & 0x3fff) != 0 || ip[9] != 17 || number_at(udp, 2) != SERVER_PORT || number_at(udp + 2, 2) != CLIENT_PORT)
        return NULL;
    if (*size < 8 || *size > whole - header || (number_at(udp + 6, 2) != 0 && udp_sum(ip, udp, *size) != 0xffff))
        return NULL;
    *size -= 8;
    return udp + 8;
}

/* Whether somebody on the link answers that he has this address: it is asked for by an ARP probe (RFC 5227 section 2.1.1), and waited for a second. */
static bool is_taken(const struct wire *wire, uint32_t addr)
{
    static const uint8_t head[10] = {0x08, 0x06, 0, 1, 0x08, 0, 6, 4, 0, 1};
    const uint64_t until = wire_now() + 1000;
    uint8_t frame[WIRE_FRAME_SIZE] = {0};

    memset(frame, 0xff, 6);
    memcpy(frame + 6, wire->mac, 6);
    memcpy(frame + 12, head, sizeof head);
    memcpy(frame + 22, wire->mac, 6);
    put(frame + 38, addr, 4);
    wire_write(wire, frame, 60);
    while (wire_now() < until) {
        const size_t len = wire_read(wire, until, frame);

        if (len >= 42 && memcmp(frame + 12, head, 8) == 0 && number_at(frame + 28, 4) == addr && memcmp(frame + 22, wire->mac, 6) != 0)
            return true;
    }
    return false;
}

/* ---- A lease ---------------------------------------------------------------------------------------------------------------------------- */

/* Sends a message until it is answered, and tells by which type, and what is leased; 0 where nothing came. Of a lease that was asked for only its own
 * server's word counts. The waits are those of RFC 2131 section 4.1: 4 seconds, and twice as long each time, give or take one. */
static uint8_t exchange(const struct wire *wire, uint8_t type, uint32_t xid, struct lease *lease)
{
    uint8_t message[MESSAGE_SIZE], frame[WIRE_FRAME_SIZE];
    const uint64_t since = wire_now();
    int tries;

    make_message(wire, type, xid, 0, lease, message);
    for (tries = 0; tries < TRIES; tries++) {
        uint64_t until;
        uint16_t chance;

        wire_draw(&chance, sizeof chance);
        until = wire_now() + (UINT64_C(4000) << tries) - 1000 + chance % 2001;
        send_message(wire, message);
        while (wire_now() < until) {
            struct lease told;
            size_t size;
            const size_t len = wire_read(wire, until, frame);
            const uint8_t *came = message_of(wire, frame, len, &size);
            const uint8_t answer = came == NULL ? 0 : read_message(wire, came, size, xid, &told);

            if (type == DISCOVER ? answer != OFFER : answer != NAK && (answer != ACK || told.addr != lease->addr))
                continue;
            if (type != DISCOVER && told.server != lease->server)
                continue;
            *lease = told;
            lease->since = since;
            return answer;
        }
    }
    return 0;
}

/* How many bits of a mask are set, from the first on; -1 where others are, or none. */
static int length_of(uint32_t mask)
{
    int length = 0;

    while (length < 32 && (mask >> (31 - length) & 1) != 0)
        length++;
    return length == 0 || (length < 32 && mask << length != 0) ? -1 : length;
}

/* Takes a lease, however long it takes. After what failed it waits for ten seconds (RFC 2131 section 3.1, step 5). */
static struct lease acquire(const struct wire *wire)
{
    uint8_t message[MESSAGE_SIZE], frame[WIRE_FRAME_SIZE];
    char text[INET_ADDRSTRLEN];

    for (;;) {
        struct lease lease = {0};
        uint64_t until;
        uint32_t xid;

        wire_draw(&xid, sizeof xid);
        if (exchange(wire, DISCOVER, xid, &lease) == OFFER && exchange(wire, REQUEST, xid, &lease) == ACK) {
            if (length_of(lease.mask) > 0 && lease.seconds > 0 && !is_taken(wire, lease.addr))
                return lease;
            fprintf(stderr, "dhcp: %s can't be used\n", wire_text(lease.addr, text));
            make_message(wire, DECLINE, xid, 0, &lease, message);
            send_message(wire, message);
        }
        for (until = wire_now() + 10000; wire_now() < until;)
            wire_read(wire, until, frame);
    }
}

/* Makes the host of a lease. */
static bool make_host(const struct wire *wire, const struct lease *lease, struct host *host)
{
    const struct host_route routes[2] = {{lease->addr & lease->mask, 0, (uint8_t)length_of(lease->mask)}, {0, lease->router, 0}};
    const struct host_config config = {.size = sizeof config, .routes = routes, .count = lease->router == 0 ? 1 : 2, .addr = lease->addr,
                                       .mac = {wire->mac[0], wire->mac[1], wire->mac[2], wire->mac[3], wire->mac[4], wire->mac[5]},
                                       .recovery = HOST_RECOVERY_SELECTIVE, .first_segments = 10, .least_timeout = 200, .first_threshold = 1 << 30,
                                       .guards = 1};

    return host_new_with(host, &config) == 0;
}

static uint64_t end_of(const struct lease *lease)
{
    return lease->since + (uint64_t)lease->seconds * 1000;
}

/* Reads what came to the socket: an ACK of this exchange renews the lease, from when it was asked for; false of a NAK. */
static bool hear_renewal(const struct wire *wire, struct host *host, uint64_t id, uint32_t xid, uint64_t asked, struct lease *lease)
{
    uint8_t message[HOST_FRAME_SIZE];
    struct host_endpoint from;
    struct lease told;
    int64_t len;

    while ((len = host_recvfrom(host, id, message, sizeof message, &from)) >= 0) {
        const uint8_t type = from.port == SERVER_PORT ? read_message(wire, message, (size_t)len, xid, &told) : 0;

        if (type == 0 || asked == 0 || told.server != lease->server)
            continue;
        if (type == NAK)
            return false;
        if (type == ACK && told.addr == lease->addr && told.seconds > 0) {
            lease->seconds = told.seconds;
            lease->since = asked;
            printf("renewed for %u s\n", (unsigned)lease->seconds);
            fflush(stdout);
        }
    }
    return true;
}

/* Lets the host run as long as the lease: from half of it on it is asked for again, and then at half of what is left, a minute apart at least (RFC 2131
 * section 4.4.5). A program of your own makes its calls here, in each turn. */
static void run(const struct wire *wire, struct host *host, struct lease *lease)
{
    const uint64_t id = (uint64_t)host_socket(host, HOST_KIND_UDP);
    uint8_t message[MESSAGE_SIZE];
    uint64_t asked = 0, next = lease->since + (uint64_t)lease->seconds * 500, since = lease->since;
    uint32_t xid;

    host_tick(host, wire_now());
    wire_draw(&xid, sizeof xid);
    host_bind(host, id, HOST_ADDR_ANY, CLIENT_PORT);
    while (wire_now() < end_of(lease) && hear_renewal(wire, host, id, xid, asked, lease)) {
        const uint64_t now = wire_now();

        if (lease->since != since) {
            since = lease->since;
            next = since + (uint64_t)lease->seconds * 500;
        }
        if (next <= now) {
            make_message(wire, REQUEST, xid, lease->addr, lease, message);
            host_sendto(host, id, lease->server, SERVER_PORT, message, sizeof message);
            asked = now;
            next = now + ((end_of(lease) - now) / 2 > 60000 ? (end_of(lease) - now) / 2 : 60000);
        }
        wire_turn(wire, host, next < end_of(lease) ? next : end_of(lease));
    }
}

int main(int argc, char **argv)
{
    char text[INET_ADDRSTRLEN];
    struct wire wire;

    if (argc != 3) {
        fputs("Usage: dhcp (--tap NAME | --fd NUMBER)\n", stderr);
        return 2;
    }
    wire_open(&wire, argv[1], argv[2]);
    for (;;) {
        struct host host = {0};
        struct lease lease = acquire(&wire);

        if (!make_host(&wire, &lease, &host)) {
            fputs("dhcp: no host can have what was leased\n", stderr);
            return 1;
        }
        printf("%s/%d", wire_text(lease.addr, text), length_of(lease.mask));
        if (lease.router != 0)
            printf(" router %s", wire_text(lease.router, text));
        printf(" for %u s\n", (unsigned)lease.seconds);
        fflush(stdout);
        run(&wire, &host, &lease);
        host_free(&host);
    }
}
