/* What was counted of the host, and how its connections stand, on standard error. */
#include "tap.h"

#include <inttypes.h>

/* A count, and of what it is. */
struct named {
    const char *name;
    int64_t count;
};

/* Those that aren't 0. */
static void print_named(const char *title, const struct named *counts, size_t many)
{
    bool any = false;
    fprintf(stderr, "; %s:", title);
    for (size_t i = 0; i < many; i++) {
        if (counts[i].count != 0) {
            fprintf(stderr, " %s %" PRId64, counts[i].name, counts[i].count);
            any = true;
        }
    }
    fputs(any ? "" : " none", stderr);
}

void print_counters(struct tap *tap)
{
    struct host_counters of = {.size = sizeof of};
    if (host_counters(&tap->host, &of) < 0) {
        return;
    }
    const struct named drops[] = {
        {"Short", of.short_frame}, {"OtherMac", of.other_mac},          {"OtherType", of.other_type},
        {"IpHeader", of.ip_header}, {"IpSum", of.ip_sum},               {"OtherAddress", of.other_address},
        {"Fragment", of.fragment}, {"UpperHeader", of.upper_header},    {"UpperSum", of.upper_sum},
    };
    const struct named lacks[] = {
        {"backlog", of.backlog}, {"table", of.table}, {"memory", of.memory}, {"replies", of.replies},
        {"queue", of.queue},     {"reassembly", of.reassembly}, {"route", of.route},
    };
    const struct named given_up[] = {
        {"replies", of.replies_given_up}, {"resets", of.resets_given_up}, {"datagrams", of.datagrams_given_up},
    };
    fprintf(stderr, "tap: %" PRId64 " frames in, %" PRId64 " out; octets: %" PRId64 " in, %" PRId64 " out", of.frames_in, of.frames_out,
            of.octets_in, of.octets_out);
    print_named("dropped", drops, sizeof drops / sizeof *drops);
    print_named("no room", lacks, sizeof lacks / sizeof *lacks);
    print_named("given up", given_up, sizeof given_up / sizeof *given_up);
    if (tap->options.openings != 0) {
        fprintf(stderr, "; put off: %" PRIu64, tap->put_off);
    }
    fputc('\n', stderr);
}

/* The other end of a connection, and how that stands. */
static void print_connection(struct tap *tap, uint64_t id)
{
    struct host_info info = {.size = sizeof info};
    struct host_endpoint peer;
    if (host_info(&tap->host, id, &info) < 0 || host_peername(&tap->host, id, &peer) < 0) {
        return;
    }
    fprintf(stderr, "tap: %" PRIu64 " %s %u.%u.%u.%u:%u in_flight %" PRId64 " unsent %" PRId64 " readable %" PRId64 " kept %" PRId64, id,
            host_state_name(info.state), (unsigned)(peer.addr >> 24), (unsigned)(peer.addr >> 16 & 255), (unsigned)(peer.addr >> 8 & 255),
            (unsigned)(peer.addr & 255), (unsigned)peer.port, info.in_flight, info.unsent, info.readable, info.kept);
    fprintf(stderr, " peer_window %" PRId64 " own_window %" PRId64 " cwnd %" PRId64 " srtt %" PRId64 " rto %" PRId64 " expiries %" PRId64
                    " resent %" PRId64 "\n",
            info.peer_window, info.own_window, info.cwnd, info.srtt_8 < 0 ? -1 : info.srtt_8 / 8, info.rto, info.expiries, info.resent);
}

void print_stats(struct tap *tap, const struct work *work)
{
    print_counters(tap);
    for (size_t place = 0; place < tap->options.entries; place++) {
        const uint64_t id = work->connection(place);
        if (id != 0) {
            print_connection(tap, id);
        }
    }
}
