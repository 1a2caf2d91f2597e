/* The socket calls of a run that open, end or move octets. With --log each is noted that wasn't refused, and the capture is taken at the host itself. */
#include "tap.h"

#include <inttypes.h>

enum { PLAIN_BUFFER = 65535 }; /* octets of a buffer that are used at most where not both SYNs had the window scale option (host.h) */

enum { TEXT_MOST = 4096 };    /* digits that are written at once */

static void put_addr(FILE *file, uint32_t addr)
{
    fprintf(file, " %u.%u.%u.%u", (unsigned)(addr >> 24), (unsigned)(addr >> 16 & 255), (unsigned)(addr >> 8 & 255), (unsigned)(addr & 255));
}

static void put_endpoint(FILE *file, uint32_t addr, uint16_t port)
{
    put_addr(file, addr);
    fprintf(file, ":%u", (unsigned)port);
}

/* Octets in hexadecimal digits, or `-` where there are none. */
static void put_octets(FILE *file, const uint8_t *octets, size_t len)
{
    static const char digits[] = "0123456789abcdef";
    char text[TEXT_MOST];
    fputs(len == 0 ? " -" : " ", file);
    for (size_t at = 0; at < len;) {
        size_t to = 0;
        while (to < sizeof text && at < len) {
            text[to++] = digits[octets[at] >> 4];
            text[to++] = digits[octets[at++] & 15];
        }
        fwrite(text, 1, to, file);
    }
}

/* Begins a line: how many frames the capture has so far, the moment, and the call. NULL where there is no log. */
static FILE *begin_line(struct log *log, const char *call)
{
    if (log->calls != NULL) {
        const uint64_t moment = wall_clock();
        fprintf(log->calls, "%" PRIu64 " %" PRIu64 ".%06" PRIu64 " %s", log->frames, moment / 1000000, moment % 1000000, call);
    }
    return log->calls;
}

/* The same of a call of a socket. */
static FILE *begin_call(struct log *log, const char *call, uint64_t id)
{
    FILE *file = begin_line(log, call);
    if (file != NULL) {
        fprintf(file, " %" PRIu64, id);
    }
    return file;
}

static void note(struct log *log, const char *call, uint64_t id)
{
    FILE *file = begin_call(log, call, id);
    if (file != NULL) {
        fputc('\n', file);
    }
}

static void note_octets(struct log *log, const char *call, uint64_t id, const uint8_t *octets, size_t len)
{
    FILE *file = begin_call(log, call, id);
    if (file != NULL) {
        put_octets(file, octets, len);
        fputc('\n', file);
    }
}

static uint16_t port_of(struct tap *tap, uint64_t id)
{
    struct host_endpoint own = {0, 0};
    host_sockname(&tap->host, id, &own);
    return own.port;
}

/* A socket of ours and another end: a connection, or where a datagram goes or is from. The line isn't over. */
static FILE *begin_ends(struct tap *tap, const char *call, uint64_t id, const struct host_endpoint *peer)
{
    FILE *file = begin_call(&tap->log, call, id);
    if (file != NULL) {
        put_endpoint(file, tap->options.addr, port_of(tap, id));
        put_endpoint(file, peer->addr, peer->port);
    }
    return file;
}

static void note_ends(struct tap *tap, const char *call, uint64_t id, const struct host_endpoint *peer)
{
    FILE *file = begin_ends(tap, call, id, peer);
    if (file != NULL) {
        fputc('\n', file);
    }
}

bool log_begin(struct tap *tap, const char *path)
{
    const uint8_t *mac = tap->options.mac;
    const uint32_t buffer = tap->options.buffer;
    tap->log.calls = fopen(path, "w");
    if (tap->log.calls == NULL) {
        return false;
    }
    fprintf(tap->log.calls, "host %02x:%02x:%02x:%02x:%02x:%02x", mac[0], mac[1], mac[2], mac[3], mac[4], mac[5]);
    put_addr(tap->log.calls, tap->options.addr);
    /* octets that host_send takes before the peer has acknowledged some, with window scale and without */
    fprintf(tap->log.calls, " buffers %" PRIu32 " %" PRIu32 "\n", buffer, buffer < PLAIN_BUFFER ? buffer : PLAIN_BUFFER);
    return true;
}

static void count_frame(struct tap *tap, const uint8_t *frame, size_t len)
{
    pcap_add(tap->capture, wall_clock(), frame, len);
    tap->log.frames++;
}

void tap_deliver(struct tap *tap, uint32_t isn, const uint8_t *frame, size_t len)
{
    if (tap->log.calls != NULL) {
        count_frame(tap, frame, len);
    }
    host_deliver(&tap->host, tap->now, isn, frame, len);
}

int64_t tap_next_frame(struct tap *tap, uint8_t frame[HOST_FRAME_SIZE])
{
    const int64_t len = host_next_frame(&tap->host, tap->now, frame);
    if (len > 0 && begin_line(&tap->log, "next_frame") != NULL) {
        fputc('\n', tap->log.calls);
        count_frame(tap, frame, (size_t)len);
    }
    return len;
}

int64_t tap_accept(struct tap *tap, uint64_t listener)
{
    struct host_endpoint peer;
    const int64_t id = host_accept(&tap->host, listener, &peer);
    if (id >= 0) {
        note_ends(tap, "accept", (uint64_t)id, &peer);
    }
    return id;
}

int64_t tap_connect(struct tap *tap, uint32_t isn, uint64_t id, const struct host_endpoint *peer)
{
    const int64_t done = host_connect(&tap->host, tap->now, isn, id, peer->addr, peer->port);
    if (done >= 0) {
        note_ends(tap, "connect", id, peer);
    }
    return done;
}

int64_t tap_send(struct tap *tap, uint64_t id, const uint8_t *octets, size_t len)
{
    const int64_t taken = host_send(&tap->host, id, octets, len);
    if (taken >= 0) {
        note_octets(&tap->log, "send", id, octets, (size_t)taken);
    }
    return taken;
}

int64_t tap_recv(struct tap *tap, uint64_t id, uint8_t *buffer, size_t len)
{
    const int64_t came = host_recv(&tap->host, id, buffer, len);
    if (came == 0) {
        note(&tap->log, "end", id);
    } else if (came > 0) {
        note_octets(&tap->log, "recv", id, buffer, (size_t)came);
    }
    return came;
}

int64_t tap_shutdown_write(struct tap *tap, uint64_t id)
{
    const int64_t done = host_shutdown_write(&tap->host, id);
    if (done >= 0) {
        note(&tap->log, "shutdown", id);
    }
    return done;
}

void tap_close(struct tap *tap, uint64_t id)
{
    if (host_close(&tap->host, id) >= 0) {
        note(&tap->log, "close", id);
    }
}

void tap_abort(struct tap *tap, uint64_t id)
{
    if (host_abort(&tap->host, id) >= 0) {
        note(&tap->log, "abort", id);
    }
}

int64_t tap_sendto(struct tap *tap, uint64_t id, const struct host_endpoint *peer, const uint8_t *octets, size_t len)
{
    const int64_t taken = host_sendto(&tap->host, id, peer->addr, peer->port, octets, len);
    FILE *file = taken < 0 ? NULL : begin_ends(tap, "sendto", id, peer);
    if (file != NULL) {
        put_octets(file, octets, len);
        fputc('\n', file);
    }
    return taken;
}

int64_t tap_recvfrom(struct tap *tap, uint64_t id, uint8_t *buffer, size_t len, struct host_endpoint *from)
{
    const int64_t came = host_recvfrom(&tap->host, id, buffer, len, from);
    FILE *file = came < 0 ? NULL : begin_ends(tap, "recvfrom", id, from);
    if (file != NULL) {
        fprintf(file, " %zu", len);
        put_octets(file, buffer, (size_t)came);
        fputc('\n', file);
    }
    return came;
}
