/*
 * A DNS query (RFC 1035) of type A: it prints the addresses of a name. As root, with Linux for a router and a server at 10.0.0.1:
 *
 *     cc -std=c99 -I embed examples/dns.c embed/isn.c embed/lib/x86_64/libhostc.a -o dns
 *     ip tuntap add dev tap0 mode tap && ip addr add 10.0.0.1/24 dev tap0 && ip link set tap0 up && ./dns --tap tap0 10.0.0.2 10.0.0.1 10.0.0.1 a.example
 *
 * Each try has a port and an id at random (RFC 5452 section 9.2), and takes an answer of that server to that port alone, with that id and that question.
 * An alias is followed, in the answer and by another query where it has no address. Not here: names of other letters than ASCII, and queries by TCP, which
 * an answer asks for that was cut. `embed/try-examples` tries it.
 */
#include "wire.h"

#include <stdbool.h>

enum {
    MESSAGE_SIZE = 512, /* of a query or an answer by UDP (RFC 1035 section 2.3.4) */
    TYPE_A = 1,
    TYPE_CNAME = 5,
    CLASS_IN = 1,
    TRIES = 3,          /* with 1, 2 and 4 seconds for each */
    ALIASES = 8,        /* that are followed */
    ADDRESSES = 16      /* that are printed of one answer */
};

/* A name as it goes over the link: labels behind their lengths, the last one empty (RFC 1035 section 3.1). */
struct name {
    uint8_t octets[255];
    size_t len;
};

/* What an answer says of a name, or that there was none. */
enum outcome { FOUND, ALIAS, NOTHING, NO_SUCH_NAME, FAILED, CUT, SILENT };

static const char *const outcomes[] = {
    [NOTHING] = "it has no address", [NO_SUCH_NAME] = "there is no such name", [FAILED] = "the server can't tell",
    [CUT] = "the answer was cut",    [SILENT] = "no answer came",
};

struct found {
    uint32_t addrs[ADDRESSES];
    size_t count;
};

/* ---- Names and messages ----------------------------------------------------------------------------------------------------------------- */

/* Makes a name of text, as www.example: false where it can't be one. */
static bool name_of(const char *text, struct name *name)
{
    name->len = 0;
    while (*text != '\0') {
        const size_t count = strcspn(text, ".");

        if (count == 0 || count > 63 || name->len + 1 + count + 1 > sizeof name->octets)
            return false;
        name->octets[name->len++] = (uint8_t)count;
        memcpy(name->octets + name->len, text, count);
        name->len += count;
        text += text[count] == '.' ? count + 1 : count;
    }
    name->octets[name->len++] = 0;
    return name->len > 1;
}

/* Names are equal without regard to case (RFC 4343). A length, 63 at most, is no letter. */
static bool is_same(const struct name *one, const struct name *other)
{
    size_t i;

    for (i = 0; i < one->len && one->len == other->len; i++) {
        const uint8_t a = one->octets[i], b = other->octets[i];

        if (a != b && ((a | 32) != (b | 32) || (a | 32) < 'a' || (a | 32) > 'z'))
            return false;
    }
    return one->len == other->len;
}

/* The number of two octets at a place that the message has. */
static uint16_t number_at(const uint8_t *message, size_t at)
{
    return (uint16_t)(message[at] << 8 | message[at + 1]);
}

/* Reads the name at a place of a message: where it ends there, or 0 where it is none. A pointer leads to other labels (RFC 1035 section 4.1.4): they must
 * begin before all that were read so far, so that there is an end. */
static size_t read_name(const uint8_t *message, size_t len, size_t at, struct name *name)
{
    size_t end = 0, first = at;

    name->len = 0;
    while (at < len) {
        const size_t count = message[at];

        if (count >= 0xc0) {
            if (len - at < 2 || (number_at(message, at) & 0x3fffU) >= first)
                return 0;
            end = end == 0 ? at + 2 : end;
            at = first = number_at(message, at) & 0x3fff;
            continue;
        }
        if (count > 63 || len - at < 1 + count || sizeof name->octets - name->len < 1 + count)
            return 0;
        memcpy(name->octets + name->len, message + at, 1 + count);
        name->len += 1 + count;
        at += 1 + count;
        if (count == 0)
            return end == 0 ? at : end;
    }
    return 0;
}

/* Writes a query, one question with recursion desired (RFC 1035 section 4.1): its length. */
static size_t make_query(const struct name *name, uint16_t id, uint8_t message[MESSAGE_SIZE])
{
    const uint8_t head[12] = {(uint8_t)(id >> 8), (uint8_t)id, 1, 0, 0, 1}, tail[4] = {0, TYPE_A, 0, CLASS_IN};

    memcpy(message, head, sizeof head);
    memcpy(message + sizeof head, name->octets, name->len);
    memcpy(message + sizeof head + name->len, tail, sizeof tail);
    return sizeof head + name->len + sizeof tail;
}

/* Whether this is an answer with that id to that question, and then where its records begin. */
static bool is_answer(const uint8_t *message, size_t len, uint16_t id, const struct name *name, size_t *at)
{
    struct name asked;

    /* QR is set, OPCODE is 0. */
    if (len < 12 || number_at(message, 0) != id || (message[2] & 0xf8) != 0x80 || number_at(message, 4) != 1)
        return false;
    *at = read_name(message, len, 12, &asked);
    if (*at == 0 || len - *at < 4 || !is_same(&asked, name) || number_at(message, *at) != TYPE_A || number_at(message, *at + 2) != CLASS_IN)
        return false;
    *at += 4;
    return true;
}

/* Goes over the records of an answer: takes the addresses of `name`, and where it is an alias writes what for to `alias`. False where one isn't whole. */
static bool read_records(const uint8_t *message, size_t len, size_t at, const struct name *name, struct found *found, struct name *alias)
{
    size_t left;

    for (left = number_at(message, 6); left > 0; left--) {
        struct name owner;
        size_t data, size;

        at = read_name(message, len, at, &owner);
        if (at == 0 || len - at < 10 || len - at - 10 < number_at(message, at + 8))
            return false;
        data = at + 10;
        size = number_at(message, at + 8);
        if (number_at(message, at + 2) == CLASS_IN && is_same(&owner, name)) {
            if (number_at(message, at) == TYPE_A && size == 4 && found->count < ADDRESSES)
                found->addrs[found->count++] = (uint32_t)number_at(message, data) << 16 | number_at(message, data + 2);
            if (number_at(message, at) == TYPE_CNAME && read_name(message, len, data, alias) != data + size)
                return false;
        }
        at = data + size;
    }
    return true;
}

/* What an answer says of a name: FOUND, and its addresses, or ALIAS, and the name that it stands for is in its place. */
static enum outcome read_answer(const uint8_t *message, size_t len, size_t at, struct name *name, struct found *found)
{
    const uint8_t code = message[3] & 15;
    bool is_alias = false;
    int follow;

    if ((message[2] & 2) != 0)
        return CUT;
    if (code != 0)
        return code == 3 ? NO_SUCH_NAME : FAILED;
    for (follow = 0; follow < ALIASES; follow++) {
        struct name alias = {.len = 0};

        found->count = 0;
        if (!read_records(message, len, at, name, found, &alias))
            return FAILED;
        if (found->count > 0)
            return FOUND;
        if (alias.len == 0)
            return is_alias ? ALIAS : NOTHING;
        *name = alias;
        is_alias = true;
    }
    return FAILED;
}

/* ---- Queries ---------------------------------------------------------------------------------------------------------------------------- */

/* A UDP socket at a dynamic port that nobody can foretell: its id, or a refusal. */
static int64_t open_socket(struct host *host)
{
    const int64_t id = host_socket(host, HOST_KIND_UDP);
    int64_t done = HOST_EADDRINUSE;
    uint16_t port;

    while (id > 0 && done == HOST_EADDRINUSE) {
        wire_draw(&port, sizeof port);
        done = host_bind(host, (uint64_t)id, HOST_ADDR_ANY, (uint16_t)(ISN_PORT_FIRST | port));
    }
    return done < 0 && id > 0 ? done : id;
}

/* Asks once, and waits for so many milliseconds. What isn't the answer is passed over, and the wait goes on. */
static enum outcome ask_once(const struct wire *wire, struct host *host, uint32_t server, struct name *name, uint64_t wait, struct found *found)
{
    uint8_t message[MESSAGE_SIZE];
    struct host_endpoint from;
    const uint64_t until = wire_now() + wait;
    const int64_t id = open_socket(host);
    enum outcome outcome = SILENT;
    uint16_t number;
    int64_t len;
    size_t at;

    host_tick(host, wire_now()); /* host_sendto takes no moment: that of the last tick counts */
    wire_draw(&number, sizeof number);
    if (id < 0 || host_sendto(host, (uint64_t)id, server, 53, message, make_query(name, number, message)) < 0)
        return FAILED;
    while (outcome == SILENT && wire_now() < until) {
        wire_turn(wire, host, until);
        while (outcome == SILENT && (len = host_recvfrom(host, (uint64_t)id, message, sizeof message, &from)) >= 0)
            if (from.addr == server && from.port == 53 && is_answer(message, (size_t)len, number, name, &at))
                outcome = read_answer(message, (size_t)len, at, name, found);
    }
    host_close(host, (uint64_t)id);
    return outcome;
}

static enum outcome ask(const struct wire *wire, struct host *host, uint32_t server, struct name *name, struct found *found)
{
    enum outcome outcome = SILENT;
    int i;

    for (i = 0; i < TRIES && outcome == SILENT; i++)
        outcome = ask_once(wire, host, server, name, UINT64_C(1000) << i, found);
    return outcome;
}

int main(int argc, char **argv)
{
    struct host host = {0};
    struct host_route routes[2] = {{0, 0, 24}, {0, 0, 0}};
    struct wire wire;
    struct name name;
    struct found found = {.count = 0};
    enum outcome outcome = ALIAS;
    char text[INET_ADDRSTRLEN];
    uint32_t addr;
    size_t i;

    if (argc != 7 || !name_of(argv[6], &name)) {
        fputs("Usage: dns (--tap NAME | --fd NUMBER) ADDR GATEWAY SERVER NAME\n", stderr);
        return 2;
    }
    addr = wire_addr(argv[3]);
    routes[0].prefix = addr & 0xffffff00;
    routes[1].gateway = wire_addr(argv[4]);
    wire_open(&wire, argv[1], argv[2]);
    if (host_new(&host, wire.mac, addr, routes, 2) < 0) {
        fputs("dns: there is no such host\n", stderr);
        return 1;
    }
    for (i = 0; i < ALIASES && outcome == ALIAS; i++)
        outcome = ask(&wire, &host, wire_addr(argv[5]), &name, &found);
    host_free(&host);
    if (outcome != FOUND) {
        fprintf(stderr, "dns: %s: %s\n", argv[6], outcome == ALIAS ? "too many aliases" : outcomes[outcome]);
        return 1;
    }
    for (i = 0; i < found.count; i++)
        puts(wire_text(found.addrs[i], text));
    return 0;
}
