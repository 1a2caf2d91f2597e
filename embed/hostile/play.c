/* Plays a host of the library on a link whose frames are forged. What must hold, with no model of the stack:

   - A twin gets the same calls and frames, but those that the host refused or dropped: both answer and emit the same, to the octet. (An ARP request that
     finds no room for its reply is learnt and dropped, so the twin gets it too.)
   - Each frame that goes out is well formed; none goes to all but an ARP request, or where a neighbour claimed that MAC; no reset answers a reset, and no
     error an error.
   - A host without a socket sends at most one frame for one that came, with at most 7/6 of its octets and the options of its datagram once more, which an
     error quotes, and beside it an ARP request a second for 3,000 ms.
   - A connection to a third host that no forged frame speaks for carries its octets unharmed.
   - No call takes memory but host_new, host_socket and a host_deliver that opens a connection, and host_free gives all of it back. */
#include "../memory/refuse.h"
#include "forge.h"
#include "host.h"

#include <inttypes.h>
#include <stdio.h>
#include <stdlib.h>
#include <string.h>

enum {
    EPISODE = 2000,       /* forged frames between new hosts */
    WILD = 500,           /* of these the last ones come with moments of every kind */
    KNOWN = 64,           /* ids that are used again, and MACs of groups */
    LARGEST = 70000,
    PEER_IDS = 6,
    LOG = 24,
    PORT = 80, THIRD_PORT = 81, DATAGRAM_PORT = 5001, CLOSED_PORT = 6000
};

#define NET HOST_ADDR(10, 0, 0, 0)
#define GATEWAY HOST_ADDR(10, 0, 0, 254)

/* The host that is attacked and its twin, the same without a socket, the peer whose frames are forged, and the third host. */
enum who { VICTIM, TWIN, BARE, PEER, THIRD, HOSTS };

static struct host hosts[HOSTS];
static const uint8_t macs[HOSTS][6] = {{2, 0, 0, 0, 0, 1}, {2, 0, 0, 0, 0, 1}, {2, 0, 0, 0, 0, 1}, {2, 0, 0, 0, 0, 2}, {2, 0, 0, 0, 0, 3}};
static const uint32_t addresses[HOSTS] = {NET + 1, NET + 1, NET + 1, NET + 2, NET + 3};
static const struct host_route routes[2] = {{NET, 0, 24}, {0, GATEWAY, 0}};

static uint64_t seed, now;
static uint64_t frames, forged;   /* that the host heard, and those of them that are forged */
static bool is_wild;
static uint64_t counts[12];   /* taken, and dropped by cause */
static uint64_t calls, refused, sent;

/* ---- What failed ----------------------------------------------------------------------------------------------------------------------- */

static struct heard {
    uint64_t moment;
    int64_t answer;
    struct frame frame;
} heard[LOG];

static void fail(const char *what)
{
    fprintf(stderr, "try-hostile: seed %" PRIu64 ", frame %" PRIu64 ", moment %" PRIu64 ": %s\n", seed, frames, now, what);
    for (uint64_t i = frames < LOG ? 0 : frames - LOG; i < frames; i++) {
        fprintf(stderr, "%" PRIu64 " at %" PRIu64 " answers %" PRId64 ": ", i + 1, heard[i % LOG].moment, heard[i % LOG].answer);
        for (size_t at = 0; at < heard[i % LOG].frame.len; at++) {
            fprintf(stderr, "%02x", heard[i % LOG].frame.octets[at]);
        }
        fputc('\n', stderr);
    }
    exit(1);
}

static void want(bool holds, const char *what)
{
    if (!holds) {
        fail(what);
    }
}

/* ---- Calls, each with memory forbidden where it takes none ------------------------------------------------------------------------------- */

enum kind {
    SOCKET, BIND, LISTEN, ACCEPT, CONNECT, SEND, RECV, SHUTDOWN, CLOSE, SENDTO, RECVFROM, STATE, SOCKNAME, PEERNAME, DEADLINE, WOULD_CONNECT, KINDS
};

struct call {
    enum kind kind;
    uint64_t moment, id;
    uint32_t addr, number;
    uint16_t port;
    size_t len;
    const uint8_t *octets;
};

/* All that a call may write. */
struct answer {
    int64_t value;
    uint64_t moment;
    struct host_endpoint ends[2];
    uint8_t octets[LARGEST];
};

static int64_t made(struct host *host, const struct call *call, struct answer *answer)
{
    switch (call->kind) {
    case SOCKET: return host_socket(host, call->number);
    case BIND: return host_bind(host, call->id, call->addr, call->port);
    case LISTEN: return host_listen(host, call->id, call->len);
    case ACCEPT: return host_accept(host, call->id, &answer->ends[0]);
    case CONNECT: return host_connect(host, call->moment, call->number, call->id, call->addr, call->port);
    case SEND: return host_send(host, call->id, call->octets, call->len);
    case RECV: return host_recv(host, call->id, answer->octets, call->len);
    case SHUTDOWN: return host_shutdown_write(host, call->id);
    case CLOSE: return host_close(host, call->id);
    case SENDTO: return host_sendto(host, call->id, call->addr, call->port, call->octets, call->len);
    case RECVFROM: return host_recvfrom(host, call->id, answer->octets, call->len, &answer->ends[0]);
    case STATE: return host_state(host, call->id);
    case SOCKNAME: return host_sockname(host, call->id, &answer->ends[0]);
    case PEERNAME: return host_peername(host, call->id, &answer->ends[0]);
    case DEADLINE: return host_next_deadline(host, &answer->moment);
    default: return host_would_connect(host, call->id, call->addr, call->port, answer->ends);
    }
}

static void make_call(struct host *host, const struct call *call, struct answer *answer)
{
    memory_forbid(call->kind == SOCKET ? NULL : "a call that takes none");
    answer->value = made(host, call, answer);
    memory_forbid(NULL);
}

static bool is_question(enum kind kind)
{
    return kind >= STATE;
}

static struct answer first, second, blank;

/* What a call wrote behind what it answers is as it was. */
static void look_at_written(const struct call *call)
{
    const bool reads = call->kind == RECV || call->kind == RECVFROM;
    const size_t count = reads && first.value > 0 ? (size_t)first.value : 0;
    want(count <= (reads ? call->len : 0), "more is read than was asked for");
    want(memcmp(first.octets + count, blank.octets + count, LARGEST - count) == 0, "a call writes where it may not");
    if (first.value < 0) {
        want(memcmp(first.ends, blank.ends, sizeof first.ends) == 0 && first.moment == blank.moment, "a refused call writes");
    }
}

/* Makes a call of the host, and of its twin where it isn't refused. */
static int64_t call_both(const struct call *call)
{
    first = second = blank;
    make_call(&hosts[VICTIM], call, &first);
    calls++;
    refused += first.value < 0;
    look_at_written(call);
    if (first.value >= 0 || is_question(call->kind)) {
        make_call(&hosts[TWIN], call, &second);
        want(first.value == second.value, "the twin answers otherwise");
        want(memcmp(first.ends, second.ends, sizeof first.ends) == 0 && first.moment == second.moment, "the twin writes otherwise");
        want(memcmp(first.octets, second.octets, LARGEST) == 0, "the twin reads otherwise");
    }
    return first.value;
}

static void begin_host(enum who who)
{
    want(host_new(&hosts[who], macs[who], addresses[who], routes, 2) == 0, "host_new");
}

/* ---- The connection to the third host ---------------------------------------------------------------------------------------------------- */

struct way {
    uint64_t given, taken;   /* octets that were sent, and read at the other end */
};

static struct way to_third, from_third;
static uint64_t listener, third_id, victim_id;   /* sockets: the victim's listener, the third host's, the victim's */

static uint8_t stream_octet(uint64_t at)
{
    return (uint8_t)((at + seed) * 0x9e3779b97f4a7c15 >> 56);
}

static size_t fill(uint8_t *octets, uint64_t from, size_t most)
{
    for (size_t i = 0; i < most; i++) {
        octets[i] = stream_octet(from + i);
    }
    return most;
}

static void read_way(struct way *way, const uint8_t *octets, int64_t count)
{
    for (int64_t i = 0; i < count; i++) {
        want(octets[i] == stream_octet(way->taken++), "an octet of the third host's connection is another one");
    }
    want(way->taken <= way->given, "the third host's connection gives more than was sent");
}

/* Both ends read, and write so many octets at most. */
static void use_third(size_t most)
{
    static uint8_t octets[4096];
    static struct answer got;
    const size_t there = most == 0 ? 0 : below(most);
    const int64_t to = call_both(&(struct call){.kind = SEND, .id = victim_id, .octets = octets, .len = fill(octets, to_third.given, there)});
    want(to >= 0 || to == HOST_EAGAIN || is_wild, "the third host's connection takes no octet");
    to_third.given += to > 0 ? (uint64_t)to : 0;
    const int64_t from = call_both(&(struct call){.kind = RECV, .id = victim_id, .len = 4096});
    want(from > 0 || from == HOST_EAGAIN || is_wild, "the third host's connection gives no octet");
    read_way(&from_third, first.octets, from);
    make_call(&hosts[THIRD], &(struct call){.kind = SEND, .id = third_id, .octets = octets, .len = fill(octets, from_third.given, there)}, &got);
    want(got.value >= 0 || got.value == HOST_EAGAIN || is_wild, "the third host takes no octet");
    from_third.given += got.value > 0 ? (uint64_t)got.value : 0;
    make_call(&hosts[THIRD], &(struct call){.kind = RECV, .id = third_id, .len = 4096}, &got);
    want(got.value > 0 || got.value == HOST_EAGAIN || is_wild, "the third host gives no octet");
    read_way(&to_third, got.octets, got.value);
}

/* ---- Frames ------------------------------------------------------------------------------------------------------------------------------ */

/* A moment for a call: the present one, or any where the program's clock is wild. */
static uint64_t any_moment(void)
{
    return is_wild && one_of(2) ? any_number(64) : now;
}

/* MACs of groups that a neighbour claimed as its own. */
static uint8_t claimed[KNOWN][6];
static size_t claimed_count;

static bool is_claimed(const uint8_t mac[6])
{
    for (size_t i = 0; i < KNOWN && i < claimed_count; i++) {
        if (memcmp(claimed[i], mac, 6) == 0) {
            return true;
        }
    }
    return false;
}

static void note_claim(const uint8_t *octets, size_t len)
{
    if (len >= 42 && read16(octets + 12) == 0x0806 && (octets[22] & 1) != 0 && !is_claimed(octets + 22)) {
        memcpy(claimed[claimed_count++ % KNOWN], octets + 22, 6);
    }
}

static int64_t deliver(enum who who, uint64_t moment, const uint8_t *octets, size_t len)
{
    struct host_endpoint pair[2];
    note_claim(octets, len);
    memory_forbid("host_would_open");
    const int64_t opens = host_would_open(&hosts[who], octets, len, pair);
    memory_forbid(opens == 0 ? "a host_deliver that opens no connection" : NULL);
    const int64_t answer = host_deliver(&hosts[who], moment, (uint32_t)(frames * 64021), octets, len);
    memory_forbid(NULL);
    want(answer <= 0 && answer > HOST_DROP_NO_HOST, "host_deliver answers no drop");
    return answer;
}

static size_t next_frame(enum who who, uint64_t moment, uint8_t octets[HOST_FRAME_SIZE])
{
    memset(octets, 0x5a, HOST_FRAME_SIZE);
    memory_forbid("host_next_frame");
    const int64_t len = host_next_frame(&hosts[who], moment, octets);
    memory_forbid(NULL);
    want(len >= 0 && len <= HOST_FRAME_SIZE, "a frame's length");
    for (size_t i = (size_t)len; i < HOST_FRAME_SIZE; i++) {
        want(octets[i] == 0x5a, "host_next_frame writes behind its frame");
    }
    if (len > 0) {
        const char *fault = fault_of(octets, (size_t)len, macs[who], addresses[who], is_claimed(octets));
        if (fault != NULL) {
            for (size_t i = 0; i < (size_t)len; i++) {
                fprintf(stderr, "%02x", octets[i]);
            }
            fputc('\n', stderr);
            fail(fault);
        }
    }
    return (size_t)len;
}

static void hear(const uint8_t *octets, size_t len, bool is_real);

/* Whether a frame of the victim's may not answer the last one that came: a reset a reset of the same two ends, an error an error. */
static bool is_forbidden_answer(const struct reading *came, const struct reading *goes)
{
    if (goes->format != IP) {
        return false;
    }
    const bool same = goes->to == came->from && goes->to_port == came->from_port && goes->from_port == came->to_port;
    return (came->is_reset && goes->is_reset && same) || (came->is_error && goes->is_error);
}

/* The victim and its twin emit the same, and those for whom it is hear it. `came` is the frame behind which they had nothing more to emit, or NULL. */
static void drain(const struct reading *came)
{
    uint8_t octets[HOST_FRAME_SIZE], again[HOST_FRAME_SIZE];
    for (;;) {
        const uint64_t moment = any_moment();
        const size_t len = next_frame(VICTIM, moment, octets);
        const size_t other = next_frame(TWIN, moment, again);
        want(len == other && memcmp(octets, again, HOST_FRAME_SIZE) == 0, "the twin emits otherwise");
        if (len == 0) {
            return;
        }
        sent++;
        const struct reading reading = read_frame(octets, len);
        want(came == NULL || !is_forbidden_answer(came, &reading), "a reset answers a reset, or an error an error");
        for (enum who who = PEER; who <= THIRD; who++) {
            if (reading.is_broadcast || memcmp(octets, macs[who], 6) == 0) {
                (void)deliver(who, now, octets, len);
            }
        }
    }
}

/* The frames of another host reach the victim. Those of the peer are kept to be forged, and some are lost. */
static void drain_other(enum who who)
{
    uint8_t octets[HOST_FRAME_SIZE];
    size_t len;
    while ((len = next_frame(who, now, octets)) > 0) {
        if (who == PEER) {
            forge_keep(octets, len);
        }
        if (who == THIRD || !one_of(5)) {
            hear(octets, len, true);
        }
    }
}

/* What a forged frame may not say: that it is of the third host. */
static bool speaks_for_third(const struct frame *frame)
{
    return read_frame(frame->octets, frame->len).from == addresses[THIRD];
}

/* ---- The host without a socket ------------------------------------------------------------------------------------------------------------ */

static uint64_t bare_came, bare_went, bare_octets;   /* what may still go out, six for each octet */

static uint64_t room_of(const uint8_t *octets, size_t len)
{
    return 7 * (uint64_t)(len < 60 ? 60 : len) + 6 * (uint64_t)options_len(octets, len);
}

/* When a hop was asked for: the first time and the last one. */
struct asks {
    bool any;
    uint64_t first, last;
};

static void ask(struct asks *asks)
{
    want(!asks->any || now - asks->last >= 1000, "a hop is asked for twice in a second");
    asks->first = asks->any ? asks->first : now;
    asks->last = now;
    asks->any = true;
    want(now - asks->first < 3000, "a hop is asked for past 3,000 ms");
}

/* Takes what is due at the host without a socket: how many frames that are no ARP requests, whose octets it adds. Where one hop alone can be asked for, it
 * is seen how often it is. */
static uint64_t bare_drain(const struct reading *came, uint64_t *octets_out, struct asks *asks)
{
    uint8_t octets[HOST_FRAME_SIZE];
    uint64_t count = 0;
    size_t len;
    while ((len = next_frame(BARE, now, octets)) > 0) {
        const struct reading reading = read_frame(octets, len);
        if (reading.format == ARP && reading.is_request) {
            if (asks != NULL) {
                ask(asks);
            }
            continue;
        }
        want(came == NULL || !is_forbidden_answer(came, &reading), "without a socket a reset answers a reset, or an error an error");
        want(!(reading.is_reset && came != NULL && came->is_reset), "without a socket a reset answers a reset");
        count++;
        *octets_out += len;
    }
    return count;
}

/* The host without a socket that lives as long as the victim: in all no more goes out than came. */
static void bare_hears(const uint8_t *octets, size_t len)
{
    uint64_t out = 0;
    const int64_t answer = deliver(BARE, now, octets, len);
    if (answer == 0) {
        bare_came++;
        bare_octets += room_of(octets, len);
    }
    bare_went += bare_drain(NULL, &out, NULL);
    want(bare_went <= bare_came, "without a socket more frames go out than came");
    want(6 * out <= bare_octets, "without a socket more octets go out than may");
    bare_octets -= 6 * out;
}

/* A fresh host hears one frame, and knows the way to its source or not: what goes out for it in all, while time passes. Its hop is asked for when the
 * answer is there, and then a second apart, for 3,000 ms. */
static void bare_alone(const struct frame *frame)
{
    static struct host kept;
    const uint64_t held = memory_held(), kept_now = now;
    const struct reading came = read_frame(frame->octets, frame->len);
    struct frame teaches = {.len = 60};
    struct asks asks = {.any = false};
    uint64_t count = 0, octets = 0;
    kept = hosts[BARE];
    hosts[BARE] = (struct host){0};
    now = 0;
    begin_host(BARE);
    if (one_of(2)) {
        const uint32_t hop = came.from >> 8 == NET >> 8 ? came.from : GATEWAY;
        static const uint8_t start[10] = {8, 6, 0, 1, 8, 0, 6, 4, 0, 2};
        memcpy(teaches.octets, macs[BARE], 6);
        memcpy(teaches.octets + 6, macs[PEER], 6);
        memcpy(teaches.octets + 12, start, 10);
        memcpy(teaches.octets + 22, macs[PEER], 6);
        write32(teaches.octets + 28, hop);
        memcpy(teaches.octets + 32, macs[BARE], 6);
        write32(teaches.octets + 38, addresses[BARE]);
        (void)deliver(BARE, now, teaches.octets, teaches.len);
        want(bare_drain(NULL, &octets, &asks) == 0, "an ARP reply is answered");
    }
    (void)deliver(BARE, now, frame->octets, frame->len);
    count += bare_drain(&came, &octets, &asks);
    for (; now <= 70000; now += 250) {
        host_tick(&hosts[BARE], now);
        count += bare_drain(&came, &octets, &asks);
    }
    want(count <= 1, "without a socket two frames go out for one");
    want(6 * octets <= room_of(frame->octets, frame->len), "without a socket more octets go out for one frame than may");
    host_free(&hosts[BARE]);
    hosts[BARE] = kept;
    now = kept_now;
    want(memory_held() == held, "host_free keeps memory");
}

/* ---- Frames for the victim ---------------------------------------------------------------------------------------------------------------- */

static bool is_drained;   /* the victim had nothing more to emit at this moment */

/* The host hears a frame, and its twin what it took. */
static void hear(const uint8_t *octets, size_t len, bool is_real)
{
    const struct reading came = read_frame(octets, len);
    const uint64_t moment = is_real ? now : any_moment();
    struct heard *note = &heard[frames++ % LOG];
    note->moment = moment;
    note->answer = 0;
    note->frame.len = len;
    memcpy(note->frame.octets, octets, len);
    const int64_t answer = note->answer = deliver(VICTIM, moment, octets, len);
    counts[-answer]++;
    const bool learns = answer == HOST_DROP_NO_ROOM && came.format == ARP;
    if (answer == 0 || learns) {
        want(deliver(TWIN, moment, octets, len) == answer, "the twin drops what the host took");
    }
    if (is_drained && !is_wild) {
        drain(&came);
    }
    if (!is_wild) {
        bare_hears(octets, len);
    }
}

/* ---- Calls of all kinds -------------------------------------------------------------------------------------------------------------------- */

static uint64_t known[KNOWN];
static size_t known_count;

static void know(int64_t id)
{
    if (id > 0) {
        known[known_count++ % KNOWN] = (uint64_t)id;
    }
}

/* An id: one of those that were given, or any other but those of the third host's connection. */
static uint64_t any_id(void)
{
    const size_t most = known_count < KNOWN ? known_count : KNOWN;
    const uint64_t id = most > 0 && !one_of(6) ? known[below(most)] : one_of(2) ? any_number(64) : below(200);
    return id == listener || id == victim_id ? 0 : id;
}

static uint16_t any_port(void)
{
    static const uint16_t ports[6] = {PORT, THIRD_PORT, DATAGRAM_PORT, CLOSED_PORT, 49152, 0};
    return one_of(3) ? (uint16_t)any_number(16) : ports[below(6)];
}

static uint32_t any_addr(void)
{
    const uint32_t addrs[6] = {0, addresses[VICTIM], addresses[PEER], addresses[PEER], NET + 77, HOST_ADDR(192, 0, 2, 1)};
    return one_of(4) ? (uint32_t)any_number(32) : addrs[below(6)];
}

static void call_any(void)
{
    static uint8_t octets[LARGEST];
    static const enum kind often[12] = {ACCEPT, RECV, SEND, RECV, SEND, RECVFROM, SENDTO, CONNECT, ACCEPT, RECV, SHUTDOWN, CLOSE};
    struct call call = {.kind = one_of(2) ? often[below(12)] : (enum kind)below(KINDS), .moment = any_moment(), .id = any_id(), .addr = any_addr(), .port = any_port()};
    call.octets = octets;
    call.number = call.kind == SOCKET ? (one_of(5) ? (uint32_t)any_number(32) : 1 + (uint32_t)below(2)) : (uint32_t)chance();
    call.len = one_of(8) ? LARGEST - below(5000) : one_of(8) ? 0 : below(3000);
    if (call.kind == LISTEN) {
        call.len = one_of(3) ? any_number(64) : below(12);
    }
    const int64_t answer = call_both(&call);
    if (call.kind == SOCKET || call.kind == ACCEPT) {
        know(answer);
    }
}

/* Arguments with which no host is made, and a handle that holds one. */
static void refuse_new(void)
{
    struct host other = {0};
    const struct host_route wrong[2] = {{NET, 0, one_of(2) ? 33 : 23}, {NET + 1, 0, 24}};
    const uint8_t group[6] = {1, 0, 0, 0, 0, 1};
    want(host_new(&hosts[VICTIM], macs[VICTIM], addresses[VICTIM], routes, 2) == HOST_EINVAL, "a handle takes a second host");
    want(host_new(&other, group, addresses[PEER], routes, 2) == HOST_EINVAL && other.at == NULL, "a host has the MAC of a group");
    want(host_new(&other, macs[PEER], HOST_ADDR(127, 0, 0, 1), routes, 2) == HOST_EINVAL && other.at == NULL, "a host has no unicast address");
    want(host_new(&other, macs[PEER], addresses[PEER], wrong, 2) == HOST_EINVAL && other.at == NULL, "a host has a wrong route");
    want(host_socket(&other, 1) == HOST_EBADF && host_deliver(&other, now, 0, macs[0], 6) == HOST_DROP_NO_HOST, "a handle without a host answers");
}

/* ---- The peer: a program that means well ------------------------------------------------------------------------------------------------- */

static uint64_t peer_ids[PEER_IDS], peer_datagrams;

static int64_t peer_call(struct call call)
{
    static struct answer got;
    make_call(&hosts[PEER], &call, &got);
    return got.value;
}

static void use_peer(void)
{
    static uint8_t octets[4096];
    uint64_t *id = &peer_ids[below(PEER_IDS)];
    if (*id == 0) {
        const int64_t made = peer_call((struct call){.kind = SOCKET, .number = HOST_KIND_TCP});
        *id = made > 0 ? (uint64_t)made : 0;
        (void)peer_call((struct call){.kind = CONNECT, .moment = now, .number = (uint32_t)chance(), .id = *id, .addr = addresses[VICTIM], .port = one_of(9) ? CLOSED_PORT : PORT});
    } else if (one_of(12)) {
        (void)peer_call((struct call){.kind = one_of(2) ? CLOSE : SHUTDOWN, .id = *id});
        *id = one_of(2) ? 0 : *id;
    } else {
        (void)peer_call((struct call){.kind = SEND, .id = *id, .octets = octets, .len = below(one_of(3) ? 4096 : 64)});
        (void)peer_call((struct call){.kind = RECV, .id = *id, .len = 1 + below(4096)});
    }
    if (one_of(3)) {
        (void)peer_call((struct call){.kind = SENDTO, .id = peer_datagrams, .addr = addresses[VICTIM], .port = one_of(4) ? CLOSED_PORT : DATAGRAM_PORT, .octets = octets, .len = below(one_of(3) ? 4096 : 300)});
        (void)peer_call((struct call){.kind = RECVFROM, .id = peer_datagrams, .len = 4096});
    }
}

/* ---- Episodes ----------------------------------------------------------------------------------------------------------------------------- */

static void tick_all(void)
{
    for (enum who who = VICTIM; who < HOSTS; who++) {
        memory_forbid("host_tick");
        host_tick(&hosts[who], now);
        memory_forbid(NULL);
    }
}

/* All that is due goes out and is heard, a bounded number of times. */
static void settle(void)
{
    for (int round = 0; round < 8; round++) {
        drain(NULL);
        drain_other(THIRD);
        drain_other(PEER);
    }
    drain(NULL);
}

static int64_t wanted(struct call call)
{
    const int64_t answer = call_both(&call);
    want(answer >= 0, "a call that is in order is refused");
    return answer;
}

static void open_third(void)
{
    static struct answer got;
    listener = (uint64_t)wanted((struct call){.kind = SOCKET, .number = HOST_KIND_TCP});
    (void)wanted((struct call){.kind = BIND, .id = listener, .port = THIRD_PORT});
    (void)wanted((struct call){.kind = LISTEN, .id = listener, .len = 1});
    make_call(&hosts[THIRD], &(struct call){.kind = SOCKET, .number = HOST_KIND_TCP}, &got);
    third_id = (uint64_t)got.value;
    make_call(&hosts[THIRD], &(struct call){.kind = CONNECT, .number = (uint32_t)chance(), .id = third_id, .addr = addresses[VICTIM], .port = THIRD_PORT}, &got);
    want(got.value == 0, "the third host can't connect");
    settle();
    victim_id = (uint64_t)wanted((struct call){.kind = ACCEPT, .id = listener});
}

static void open_services(void)
{
    const int64_t tcp = wanted((struct call){.kind = SOCKET, .number = HOST_KIND_TCP});
    (void)wanted((struct call){.kind = BIND, .id = (uint64_t)tcp, .port = PORT});
    (void)wanted((struct call){.kind = LISTEN, .id = (uint64_t)tcp, .len = HOST_BACKLOG});
    const int64_t udp = wanted((struct call){.kind = SOCKET, .number = HOST_KIND_UDP});
    (void)wanted((struct call){.kind = BIND, .id = (uint64_t)udp, .port = DATAGRAM_PORT});
    know(tcp);
    know(udp);
    peer_datagrams = (uint64_t)peer_call((struct call){.kind = SOCKET, .number = HOST_KIND_UDP});
}

static void begin_episode(void)
{
    now = below(100000);
    is_wild = is_drained = false;
    known_count = claimed_count = 0;
    bare_came = bare_went = bare_octets = 0;
    to_third = from_third = (struct way){0, 0};
    memset(peer_ids, 0, sizeof peer_ids);
    listener = victim_id = UINT64_MAX;
    for (enum who who = VICTIM; who < HOSTS; who++) {
        begin_host(who);
    }
    forge_begin();
    tick_all();
    open_services();
    open_third();
    use_peer();
    settle();
}

/* Once nothing is forged, all octets of the third host's connection come. */
static void end_third(void)
{
    for (int round = 0; round < 2000 && (to_third.taken < to_third.given || from_third.taken < from_third.given); round++) {
        settle();
        use_third(0);
        now += 250;
        tick_all();
    }
    want(to_third.taken == to_third.given && from_third.taken == from_third.given, "octets of the third host's connection are missing");
}

static void pass_time(void)
{
    now += one_of(40) ? below(70000) : one_of(5) ? below(1500) : below(20);
    if (is_wild && one_of(20)) {
        now = any_number(64);
    }
    tick_all();
}

static void step(void)
{
    struct frame frame;
    pass_time();
    if (one_of(3)) {
        use_peer();
        drain_other(PEER);
    }
    use_third(2000);
    drain_other(THIRD);
    drain(NULL);
    is_drained = !one_of(4);
    for (uint64_t burst = is_drained ? 1 : below(40); burst > 0; burst--) {
        forge(&frame, macs[VICTIM], addresses[VICTIM]);
        if (!speaks_for_third(&frame)) {
            forged++;
            hear(frame.octets, frame.len, false);
            if (frame.len > 0 && one_of(16)) {
                bare_alone(&frame);
            }
        }
    }
    is_drained = false;
    for (uint64_t count = below(4); count > 0; count--) {
        call_any();
    }
    if (one_of(50)) {
        refuse_new();
    }
    drain(NULL);
    drain_other(PEER);
    drain_other(THIRD);
}

static void play_episode(uint64_t most)
{
    begin_episode();
    const uint64_t calm = forged + most * (EPISODE - WILD) / EPISODE, last = forged + most;
    while (forged < calm) {
        step();
    }
    end_third();
    is_wild = true;
    while (forged < last) {
        step();
    }
    for (enum who who = VICTIM; who < HOSTS; who++) {
        host_free(&hosts[who]);
    }
    want(memory_held() == 0, "host_free keeps memory");
}

int main(int argc, char **argv)
{
    seed = argc > 1 ? strtoull(argv[1], NULL, 10) : 1;
    const uint64_t most = argc > 2 ? strtoull(argv[2], NULL, 10) : 200000;
    memset(&blank, 0xa5, sizeof blank);
    chance_begin(seed);
    memory_refuse(0, 0);
    while (forged < most) {
        play_episode(most - forged < EPISODE ? most - forged : EPISODE);
    }
    printf("try-hostile: seed %" PRIu64 ", %" PRIu64 " forged frames of %" PRIu64 ":", seed, forged, frames);
    for (int cause = 0; cause <= 10; cause++) {
        printf(" %s %" PRIu64, cause == 0 ? "taken" : host_drop_name(-cause), counts[cause]);
    }
    printf("; %" PRIu64 " calls, %" PRIu64 " of them refused; %" PRIu64 " frames out\n", calls, refused, sent);
    return 0;
}
