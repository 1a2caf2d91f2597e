/* The two hosts of a world, and their applications: what was written and read is known here, and compared. */
#include "worlds.h"

#include <stdio.h>
#include <string.h>

enum {
    SOURCE = 3000017,   /* octets, of which all streams are parts */
    STRIDE = 240007,    /* octets from where one begins in the source to where the next one does */
    READ_SIZE = 1 << 20
};

static uint8_t source[SOURCE];
static struct host hosts[ENDS];
static uint64_t listeners[ENDS], buffers[ENDS];
int connections;
struct side sides[CONNECTIONS][ENDS];

enum end other(enum end end)
{
    return end == NEAR ? FAR : NEAR;
}

char name_of(enum end end)
{
    return end == NEAR ? 'a' : 'b';
}

static uint64_t done(int64_t answer, const char *what)
{
    if (answer < 0) {
        fprintf(stderr, "worlds: %s\n", host_refusal_name(answer));
        fail(what);
    }
    return (uint64_t)answer;
}

/* ---- The applications ----------------------------------------------------------------------------------------------------------------- */

void make_source(void)
{
    uint64_t state = 88172645463325252;
    for (size_t i = 0; i < SOURCE; i++) {
        source[i] = (uint8_t)(drawn(&state) >> 24);
    }
}

/* Where the octet at this position of what a side writes stands in the source. Each stream begins elsewhere, so that octets of another one, or of
   another position, are known as wrong. */
static size_t source_of(int connection, enum end end, uint64_t position)
{
    return (size_t)((position + (uint64_t)(2 * connection + (int)end) * STRIDE) % SOURCE);
}

bool is_cut(int connection)
{
    return sides[connection][NEAR].is_aborted || sides[connection][FAR].is_aborted;
}

/* Whether a call tells that the connection ended by an error. */
static bool has_failed(int64_t answer)
{
    return answer == HOST_ECONNREFUSED || answer == HOST_ECONNRESET || answer == HOST_ETIMEDOUT;
}

static void note_failure(int connection)
{
    if (!is_cut(connection)) {
        judge(ENDED);
    }
}

void write_octets(int connection, enum end end, uint64_t len)
{
    struct side *side = &sides[connection][end];
    const uint64_t before = side->written;
    while (len > 0 && side->id != 0 && !side->is_shut) {
        const size_t at = source_of(connection, end, side->written);
        const size_t most = SOURCE - at < len ? SOURCE - at : (size_t)len;
        const int64_t answer = host_send(&hosts[end], side->id, source + at, most);
        if (has_failed(answer)) {
            note_failure(connection);
            return;
        }
        if (answer == HOST_EAGAIN) {
            break;
        }
        side->written += done(answer, "send");
        len -= (uint64_t)answer;
    }
    if (side->written != before) {
        trace("%c%d writes %" PRIu64, name_of(end), connection, side->written - before);
    }
}

void read_octets(int connection, enum end end, uint64_t len)
{
    static uint8_t buffer[READ_SIZE];
    struct side *side = &sides[connection][end];
    const struct side *peer = &sides[connection][other(end)];
    const uint64_t before = side->read;
    while (len > 0 && side->id != 0) {
        const size_t at = source_of(connection, other(end), side->read);
        size_t most = SOURCE - at < len ? SOURCE - at : (size_t)len;
        most = most < sizeof buffer ? most : sizeof buffer;
        const int64_t answer = host_recv(&hosts[end], side->id, buffer, most);
        if (has_failed(answer)) {
            note_failure(connection);
            break;
        }
        if (answer == HOST_EAGAIN) {
            break;
        }
        if (done(answer, "recv") == 0) {
            side->is_told = true;
            if (!peer->is_shut || side->read != peer->written) {
                judge(WRONG);
            }
            break;
        }
        side->read += (uint64_t)answer;
        if (side->read > peer->written || memcmp(buffer, source + at, (size_t)answer) != 0) {
            judge(WRONG);
            break;
        }
        len -= (uint64_t)answer;
    }
    if (side->read != before) {
        trace("%c%d reads %" PRIu64, name_of(end), connection, side->read - before);
    }
}

uint64_t read_all(void)
{
    uint64_t count = 0;
    for (int c = 0; c < connections; c++) {
        for (int end = NEAR; end < ENDS; end++) {
            const uint64_t before = sides[c][end].read;
            read_octets(c, (enum end)end, UINT64_MAX);
            count += sides[c][end].read - before;
        }
    }
    return count;
}

void shut(int connection, enum end end)
{
    struct side *side = &sides[connection][end];
    if (side->id != 0 && !side->is_shut) {
        const int64_t answer = host_shutdown_write(&hosts[end], side->id);
        if (has_failed(answer)) {
            note_failure(connection);
        }
        side->is_shut = answer == 0;
        if (side->is_shut) {
            trace("%c%d shuts", name_of(end), connection);
        }
    }
}

void abort_one(int connection, enum end end)
{
    struct side *side = &sides[connection][end];
    done(host_abort(&hosts[end], side->id), "abort");
    side->id = 0;
    side->is_aborted = true;
    trace("%c%d aborts", name_of(end), connection);
}

uint64_t some_octets(enum end end)
{
    return befalls(30) ? 2 * buffers[end] : scaled(1, 2 * buffers[end]);
}

/* ---- Hosts and connections ------------------------------------------------------------------------------------------------------------ */

static uint32_t addr_of(enum end end)
{
    return HOST_ADDR(10, 0, 0, end == NEAR ? 1 : 2);
}

/* Of all options that change how TCP speaks. Each is drawn in a statement of its own: in which order the values of one initializer are found C
   doesn't say, and a seed is to give the same world by each compiler. */
static void make_host(enum end end)
{
    static const uint32_t thresholds[] = {0, 65535, 1 << 20, 1 << 30};
    const struct host_route link = {HOST_ADDR(10, 0, 0, 0), 0, 24};
    struct host_config config = {.size = sizeof config, .routes = &link, .count = 1, .addr = addr_of(end),
                                 .mac = {2, 0, 0, 0, 0, (uint8_t)(1 + end)}, .no_reassembly = 1, .entries = 16};
    const uint64_t kind = below(100);
    buffers[end] = kind < 25 ? 65535 : kind < 60 ? scaled(2048, 8192) : kind < 65 ? 1048576 : scaled(2048, 1048576);
    config.buffer = (uint32_t)buffers[end];
    config.no_window_scale = befalls(50);
    config.minshall = befalls(50);
    config.recovery = (uint8_t)below(3);
    config.first_segments = (uint8_t)below(11);
    config.least_timeout = (uint16_t)(200 + below(801));
    config.first_threshold = thresholds[below(4)];
    config.guards = befalls(50);
    done(host_new_with(&hosts[end], &config), "new");
    listeners[end] = done(host_socket(&hosts[end], HOST_KIND_TCP), "socket");
    done(host_bind(&hosts[end], listeners[end], HOST_ADDR_ANY, PORT), "bind");
    done(host_listen(&hosts[end], listeners[end], HOST_BACKLOG), "listen");
    if (traces) {
        printf("%c: scale %d minshall %d recovery %d first_segments %d least_timeout %d first_threshold %" PRIu32 " guards %d buffer %" PRIu32 "\n",
               name_of(end), !config.no_window_scale, config.minshall, config.recovery, config.first_segments, config.least_timeout,
               config.first_threshold, config.guards, config.buffer);
    }
}

void make_hosts(void)
{
    memset(sides, 0, sizeof sides);
    make_host(NEAR);
    make_host(FAR);
}

void free_hosts(void)
{
    host_free(&hosts[NEAR]);
    host_free(&hosts[FAR]);
}

/* How a socket is to be, once it has had a connection. */
static void set_socket(int connection, enum end end)
{
    struct side *side = &sides[connection][end];
    if (befalls(40)) {
        done(host_set_nodelay(&hosts[end], side->id, 1), "nodelay");
    }
    side->asks = befalls(20);
    if (side->asks) {
        done(host_set_keepalive(&hosts[end], side->id, 10000 + below(60000)), "keepalive");
    }
}

void connect_one(int connection)
{
    const enum end end = befalls(50) ? NEAR : FAR;
    struct side *side = &sides[connection][end];
    side->id = done(host_socket(&hosts[end], HOST_KIND_TCP), "socket");
    done(host_bind(&hosts[end], side->id, HOST_ADDR_ANY, (uint16_t)(FIRST_PORT + connection)), "bind");
    done(host_connect(&hosts[end], now, drawn_isn(), side->id, addr_of(other(end)), PORT), "connect");
    set_socket(connection, end);
}

static void accept_all(enum end end)
{
    struct host_endpoint peer;
    for (int64_t id; (id = host_accept(&hosts[end], listeners[end], &peer)) != HOST_EAGAIN;) {
        done(id, "accept");
        const int connection = peer.port - FIRST_PORT;
        if (connection < 0 || connection >= connections || sides[connection][end].id != 0) {
            fail("a connection is accepted that nobody opened");
        }
        sides[connection][end].id = (uint64_t)id;
        set_socket(connection, end);
    }
}

/* ---- Time and frames ------------------------------------------------------------------------------------------------------------------ */

void tick(enum end end)
{
    host_tick(&hosts[end], now);
}

uint64_t deadline(enum end end)
{
    uint64_t moment;
    return done(host_next_deadline(&hosts[end], &moment), "next_deadline") == 1 ? moment : UINT64_MAX;
}

bool emit_one(enum end end, bool lossy, bool *was_bare)
{
    const enum end to = other(end);
    struct segment segment;
    if (queued[to] + 1 >= WIRE_SIZE) {
        /* A full wire loses the later frames, as a queue does: where nothing is to be lost so many are a fault. */
        if (!lossy) {
            judge(WAR);
        }
        queued[to] /= 2;
    }
    struct frame *frame = place_for(to);
    frame->len = (size_t)done(host_next_frame(&hosts[end], now, frame->octets), "next_frame");
    if (frame->len == 0) {
        return false;
    }
    const bool is_segment = reads_segment(frame, &segment);
    if (is_segment && (segment.flags & SYN) != 0) {
        sides[segment.connection][end].has_isn = true;
        sides[segment.connection][end].isn = segment.number;
    }
    *was_bare = is_segment && is_bare(&segment);
    if (lossy && befalls(faults.loss)) {
        trace_frame("lost from", end, frame);
        return true;
    }
    trace_frame("from", end, frame);
    queued[to]++;
    if (lossy && befalls(faults.repeat)) {
        *place_for(to) = *frame;
        queued[to]++;
    }
    return true;
}

/* No frame of these hosts is to be dropped, unless there is no room for what it brings: any other cause is a fault of either. */
void hear(enum end end, const struct frame *frame)
{
    trace_frame("heard of", other(end), frame);
    const int64_t answer = host_deliver(&hosts[end], now, drawn_isn(), frame->octets, frame->len);
    if (answer < 0 && answer != HOST_DROP_NO_ROOM) {
        fail(host_drop_name(answer));
    }
    accept_all(end);
}

/* ---- What the hosts tell of themselves ------------------------------------------------------------------------------------------------ */

bool info_of(int connection, enum end end, struct host_info *info)
{
    info->size = sizeof *info;
    return sides[connection][end].id != 0 && host_info(&hosts[end], sides[connection][end].id, info) == 0;
}

int64_t most_expiries(void)
{
    struct host_info info;
    int64_t most = 0;
    for (int c = 0; c < connections; c++) {
        for (int end = NEAR; end < ENDS; end++) {
            if (info_of(c, (enum end)end, &info) && info.expiries > most) {
                most = info.expiries;
            }
        }
    }
    return most;
}

uint64_t held(void)
{
    struct host_info info;
    uint64_t count = 0;
    for (int c = 0; c < connections; c++) {
        for (int end = NEAR; end < ENDS; end++) {
            count += info_of(c, (enum end)end, &info) ? (uint64_t)info.held : 0;
        }
    }
    return count;
}

/* A FIN takes a sequence number, too, which `written` doesn't count: a side that was closed isn't looked at. */
static void look_at_edge(int connection, enum end end)
{
    struct host_info ours, theirs;
    const struct side *side = &sides[connection][end], *peer = &sides[connection][other(end)];
    if (side->is_shut || !info_of(connection, end, &ours) || !info_of(connection, other(end), &theirs) || ours.state < HOST_STATE_ESTABLISHED ||
        theirs.state < HOST_STATE_ESTABLISHED) {
        return;
    }
    const uint64_t una = side->written - (uint64_t)ours.held, next = peer->read + (uint64_t)theirs.readable;
    if (una + (uint64_t)ours.peer_window > next + (uint64_t)theirs.own_window) {
        if (!findings.passes_edge) {
            trace("%c%d passes the edge: una %" PRIu64 " + window %" PRId64 " over %" PRIu64 " + %" PRId64, name_of(end), connection, una,
                  ours.peer_window, next, theirs.own_window);
        }
        findings.passes_edge = true;
    }
}

void look_at_edges(void)
{
    for (int c = 0; c < connections; c++) {
        for (int end = NEAR; end < ENDS; end++) {
            look_at_edge(c, (enum end)end);
        }
    }
}

static void trace_info(int connection, enum end end)
{
    struct host_info info;
    const struct side *side = &sides[connection][end];
    if (info_of(connection, end, &info)) {
        trace("%c%d is %s: written %" PRIu64 " read %" PRIu64 " in_flight %" PRId64 " held %" PRId64 " unsent %" PRId64 " readable %" PRId64
              " kept %" PRId64 " peer_window %" PRId64 " own_window %" PRId64 " cwnd %" PRId64 " rto %" PRId64 " expiries %" PRId64
              " error %" PRId64 " retransmission %" PRId64 " probe %" PRId64 " delayed_ack %" PRId64 " override %" PRId64,
              name_of(end), connection, host_state_name(info.state), side->written, side->read, info.in_flight, info.held, info.unsent,
              info.readable, info.kept, info.peer_window, info.own_window, info.cwnd, info.rto, info.expiries, info.error, info.retransmission,
              info.probe, info.delayed_ack, info.override);
    }
}

void trace_infos(void)
{
    for (int c = 0; traces && c < connections; c++) {
        trace_info(c, NEAR);
        trace_info(c, FAR);
    }
}
