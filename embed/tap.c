/* One host of the stack on a TAP or TUN device: docs/EMBEDDING.md has the loop, and `tap --help` what it can be asked for. */
#include "tap.h"

#include <errno.h>
#include <fcntl.h>
#include <inttypes.h>
#include <signal.h>
#include <stdlib.h>
#include <string.h>
#include <time.h>
#include <unistd.h>

enum { SENT_MOST = 256 };        /* frames that one drain sends */

static volatile sig_atomic_t is_asked_to_end;

uint64_t later(uint64_t since, uint64_t wait)
{
    return since > NEVER - wait ? NEVER : since + wait;
}

void fail(struct tap *tap, const char *what, const char *why)
{
    if (tap->status < 0) {
        fprintf(stderr, "tap: %s: %s\n", what, why);
    }
    tap->status = 1;
}

void tell(const struct tap *tap, const char *what, uint64_t id, const char *more)
{
    if (tap->options.verbose) {
        fprintf(stderr, "tap: %s %" PRIu64 "%s%s\n", what, id, *more == '\0' ? "" : " ", more);
    }
}

uint64_t listen_at(struct tap *tap, uint16_t port)
{
    const int64_t id = host_socket(&tap->host, HOST_KIND_TCP);
    int64_t done = id < 0 ? id : host_bind(&tap->host, (uint64_t)id, 0, port);
    if (done >= 0) {
        done = host_listen(&tap->host, (uint64_t)id, HOST_BACKLOG);
    }
    if (done < 0) {
        fail(tap, "listen", host_refusal_name(done));
        return 0;
    }
    return (uint64_t)id;
}

uint32_t ready_for(struct tap *tap, uint64_t id)
{
    const int64_t bits = host_ready(&tap->host, id);
    return bits < 0 ? 0 : (uint32_t)bits;
}

bool next_ready(struct tap *tap, uint64_t *id, uint32_t *bits)
{
    const int64_t next = host_next_ready(&tap->host, *id, HOST_READY_ACCEPT | HOST_READY_READ | HOST_READY_ENDED | HOST_READY_FAILED, bits);
    *id = next < 0 ? 0 : (uint64_t)next;
    return *id != 0;
}

static uint64_t clock_now(void)
{
    struct timespec at;
    clock_gettime(CLOCK_MONOTONIC, &at);
    return (uint64_t)at.tv_sec * 1000 + (uint64_t)at.tv_nsec / 1000000;
}

static void heed(int signal)
{
    (void)signal;
    is_asked_to_end = 1;
}

/* SIGINT and SIGTERM are let in only where the program waits: `waiting` is the mask for that. */
static void heed_signals(sigset_t *waiting)
{
    struct sigaction action = {.sa_handler = heed};
    sigset_t blocked;
    sigemptyset(&blocked);
    sigaddset(&blocked, SIGINT);
    sigaddset(&blocked, SIGTERM);
    sigprocmask(SIG_BLOCK, &blocked, waiting);
    sigdelset(waiting, SIGINT);
    sigdelset(waiting, SIGTERM);
    sigaction(SIGINT, &action, NULL);
    sigaction(SIGTERM, &action, NULL);
    action.sa_handler = SIG_IGN;
    sigaction(SIGPIPE, &action, NULL);
}

static uint32_t mask_of(uint8_t length)
{
    return length == 0 ? 0 : UINT32_MAX << (32 - length);
}

static bool open_host(struct tap *tap)
{
    const struct options *options = &tap->options;
    const struct host_route routes[2] = {{options->addr & mask_of(options->length), 0, options->length}, {0, options->gateway, 0}};
    struct host_config config = {.size = sizeof config, .routes = routes, .count = options->gateway == 0 ? 1 : 2, .addr = options->addr};
    memcpy(config.mac, options->mac, sizeof config.mac);
    config.no_window_scale = options->no_scale;
    config.guards = 1;
    config.entries = options->entries;
    config.buffer = options->buffer;
    if (options->recovery != HOST_RECOVERY_PLAIN) {
        config.recovery = options->recovery;
        config.first_segments = 10;
        config.least_timeout = 200;
        config.first_threshold = UINT32_C(1) << 30;
    }
    const int64_t done = host_new_with(&tap->host, &config);
    if (done < 0) {
        fail(tap, "the host", host_refusal_name(done));
    }
    return done >= 0;
}

static int open_device(struct tap *tap)
{
    const struct options *options = &tap->options;
    return options->tun == NULL ? link_open(&tap->link, options->tap) : link_open_tun(&tap->link, options->tun, options->mac);
}

static bool open_capture(struct tap *tap)
{
    const struct options *options = &tap->options;
    if (options->capture != NULL && (tap->capture = pcap_begin(options->capture)) == NULL) {
        fail(tap, options->capture, strerror(errno));
        return false;
    }
    if (options->log != NULL && !log_begin(tap, options->log)) {
        fail(tap, options->log, strerror(errno));
        return false;
    }
    tap->link.capture = options->log == NULL ? tap->capture : NULL;
    return true;
}

static bool open_link(struct tap *tap)
{
    tap->link.in.faults = tap->options.in;
    tap->link.out.faults = tap->options.out;
    if (!open_capture(tap)) {
        return false;
    }
    if (open_device(tap) != 0) {
        fail(tap, tap->options.device, strerror(errno));
        return false;
    }
    return true;
}

/* A frame of the host goes out, or is answered here, before the next is asked for. */
static void send_one(struct tap *tap, const uint8_t *frame, size_t len)
{
    uint8_t reply[ARP_SIZE];
    if (link_answers(&tap->link, frame, len, reply)) {
        tap_deliver(tap, 0, reply, sizeof reply);
    } else {
        link_send(&tap->link, tap->now, frame, len);
    }
}

/* Sends what is due: false where more may be. */
static bool drain(struct tap *tap)
{
    uint8_t frame[HOST_FRAME_SIZE];
    for (int sent = 0; sent < SENT_MOST; sent++) {
        const int64_t len = tap_next_frame(tap, frame);
        if (len <= 0) {
            return true;
        }
        send_one(tap, frame, (size_t)len);
    }
    return false;
}

/* The work's calls, and what they make due. */
static bool act(struct tap *tap, const struct work *work)
{
    work->step(tap);
    return drain(tap);
}

/* Whether a frame has a datagram from this address (RFC 894, RFC 791 section 3.1). */
static bool is_from(const uint8_t *frame, size_t len, uint32_t addr)
{
    return len >= 34 && frame[12] == 0x08 && frame[13] == 0x00 && HOST_ADDR(frame[26], frame[27], frame[28], frame[29]) == addr;
}

/* Whether a connection may be opened now: at most so many are in a second. A SYN that is passed over comes again. */
static bool may_open(struct tap *tap)
{
    if (tap->options.openings == 0) {
        return true;
    }
    if (later(tap->second, 1000) <= tap->now) {
        tap->second = tap->now;
        tap->openings = 0;
    }
    if (tap->openings == tap->options.openings) {
        tap->put_off++;
        return false;
    }
    tap->openings++;
    return true;
}

static void hear_one(struct tap *tap, const uint8_t *frame, size_t len)
{
    struct host_endpoint pair[2];
    const bool opens = host_would_open(&tap->host, frame, len, pair) == 1;
    if (!opens || may_open(tap)) {
        tap_deliver(tap, opens ? fresh_isn(pair) : 0, frame, len);
    }
}

/* Each frame that came is delivered alone, so that what it draws goes out before the next one needs the room. */
static bool hear(struct tap *tap, const struct work *work)
{
    uint8_t frame[FRAME_MOST];
    bool all = true;
    size_t len;
    if (!link_read(&tap->link, tap->now)) {
        fail(tap, tap->options.device, strerror(errno));
    }
    while (tap->status < 0 && (len = link_recv(&tap->link, tap->now, frame)) != 0) {
        if (tap->options.connects && is_from(frame, len, tap->options.peer.addr)) {
            tap->heard = tap->now;
        }
        hear_one(tap, frame, len);
        all = act(tap, work) && all;
    }
    return all;
}

/* Prints the statistics where their moment has come. */
static void tell_stats(struct tap *tap, const struct work *work)
{
    if (tap->options.stats != 0 && tap->stats <= tap->now) {
        print_stats(tap, work);
        tap->stats = later(tap->now, tap->options.stats);
    }
}

static bool turn(struct tap *tap, const struct work *work)
{
    tap->now = clock_now();
    host_tick(&tap->host, tap->now);
    link_flush(&tap->link, tap->now);
    const bool heard = hear(tap, work);
    const bool acted = act(tap, work);
    tell_stats(tap, work);
    return heard && acted;
}

static uint64_t least(uint64_t a, uint64_t b)
{
    return a < b ? a : b;
}

static uint64_t next_moment(struct tap *tap, const struct work *work)
{
    uint64_t moment = NEVER;
    if (host_next_deadline(&tap->host, &moment) != 1) {
        moment = NEVER;
    }
    return least(least(moment, tap->stats), least(link_deadline(&tap->link), work->deadline(tap)));
}

/* Waits until a frame comes, something of the work's is ready, or the moment. */
static void wait_until(struct tap *tap, struct pollfd *polled, size_t count, uint64_t moment, const sigset_t *waiting)
{
    const uint64_t now = clock_now();
    const uint64_t wait = moment <= now ? 0 : moment - now;
    const struct timespec time = {(time_t)(wait / 1000), (long)(wait % 1000) * 1000000};
    if (tap->capture != NULL) {
        fflush(tap->capture);
    }
    if (tap->log.calls != NULL) {
        fflush(tap->log.calls);
    }
    if (ppoll(polled, count, moment == NEVER ? NULL : &time, waiting) < 0) {
        for (size_t i = 0; i < count; i++) {
            polled[i].revents = 0;
        }
    }
}

static void run(struct tap *tap, const struct work *work, const sigset_t *waiting)
{
    /* the device, and of each connection a socket, or of that of --connect both standard descriptors */
    struct pollfd *polled = calloc(1 + (size_t)tap->options.entries + 1, sizeof *polled);
    if (polled == NULL) {
        fail(tap, "what is waited for", strerror(ENOMEM));
        return;
    }
    tap->polled = polled + 1;
    bool is_drained = act(tap, work);
    while (tap->status < 0) {
        polled[0] = (struct pollfd){.fd = tap->link.device, .events = POLLIN};
        const size_t count = 1 + work->wants(tap, tap->polled);
        wait_until(tap, polled, count, is_drained ? next_moment(tap, work) : 0, waiting);
        if (is_asked_to_end) {
            tap->status = tap->options.connects ? 1 : 0;
        } else {
            is_drained = turn(tap, work);
        }
    }
    free(polled);
}

/* Closes a capture or a log, where there is one; tells where it isn't whole. */
static void close_file(struct tap *tap, FILE *file, const char *path, const char *fault)
{
    const bool is_whole = file == NULL || ferror(file) == 0;
    if (file != NULL && (fclose(file) != 0 || !is_whole)) {
        fprintf(stderr, "tap: %s: %s\n", path, fault);
        tap->status = 1;
    }
}

/* A descriptor of the three that is closed would be given to the device or the capture, and then be read or written as the standard one. */
static void take_standard_descriptors(void)
{
    for (int descriptor = 0; descriptor < 3; descriptor++) {
        if (fcntl(descriptor, F_GETFD) < 0 && open("/dev/null", O_RDWR) < 0) {
            _exit(1);
        }
    }
}

int main(int argc, char **argv)
{
    static struct tap tap = {.status = -1, .stats = NEVER, .link = {.device = -1}};
    sigset_t waiting;
    take_standard_descriptors();
    options_read(&tap.options, argc, argv);
    const struct work *work = tap.options.connects ? &connecting : tap.options.forward_count != 0 ? &forwarding : &serving;
    heed_signals(&waiting);
    if (open_host(&tap) && open_link(&tap)) {
        tap.now = clock_now();
        host_tick(&tap.host, tap.now);
        tap.stats = tap.options.stats == 0 ? NEVER : later(tap.now, tap.options.stats);
        work->begin(&tap);
        run(&tap, work, &waiting);
        work->end(&tap);
        drain(&tap);
    }
    if (tap.options.verbose) {
        print_counters(&tap);
    }
    close_file(&tap, tap.capture, tap.options.capture, "the capture isn't whole");
    close_file(&tap, tap.log.calls, tap.options.log, "the log isn't whole");
    link_close(&tap.link);
    host_free(&tap.host);
    return tap.status;
}
