/* The TAP or TUN device of a run, with the faults of a trial on either side. */
#include "tap.h"

#include <errno.h>
#include <fcntl.h>
#include <linux/if.h>
#include <linux/if_tun.h>
#include <stdlib.h>
#include <string.h>
#include <sys/ioctl.h>
#include <sys/socket.h>
#include <time.h>
#include <unistd.h>

enum { READ_MOST = 64 };      /* frames that one turn takes from the device */

struct waiting {
    struct waiting *next;
    uint64_t due;
    size_t len;
    uint8_t frame[];
};

/* Whether a device that is up has no carrier yet: Linux gives it one a moment after the program has it, and loses frames till then. */
static bool is_coming_up(int control, struct ifreq *request)
{
    return ioctl(control, SIOCGIFFLAGS, request) == 0 && (request->ifr_flags & IFF_UP) != 0 && (request->ifr_flags & IFF_RUNNING) == 0;
}

static void await_carrier(struct ifreq *request)
{
    const struct timespec moment = {0, 5000000};
    const int control = socket(AF_INET, SOCK_DGRAM | SOCK_CLOEXEC, 0);
    for (int i = 0; i < 200 && control >= 0 && is_coming_up(control, request); i++) {
        nanosleep(&moment, NULL);
    }
    if (control >= 0) {
        close(control);
    }
}

static int open_device(struct link *link, const char *name, short kind)
{
    struct ifreq request;
    memset(&request, 0, sizeof request);
    request.ifr_flags = (short)(kind | IFF_NO_PI);
    if (strlen(name) >= sizeof request.ifr_name) {
        errno = ENAMETOOLONG;
        return -1;
    }
    memcpy(request.ifr_name, name, strlen(name));
    link->device = open("/dev/net/tun", O_RDWR | O_NONBLOCK | O_CLOEXEC);
    if (link->device < 0) {
        return -1;
    }
    if (ioctl(link->device, TUNSETIFF, &request) != 0) {
        return -1;
    }
    await_carrier(&request);
    return 0;
}

int link_open(struct link *link, const char *name)
{
    return open_device(link, name, IFF_TAP);
}

/* The hop's MAC is the host's but for the last bit, so that it is another one, and no group's (RFC 894 has the header). */
int link_open_tun(struct link *link, const char *name, const uint8_t mac[6])
{
    link->is_tun = true;
    memcpy(link->head, mac, 6);
    memcpy(link->head + 6, mac, 6);
    link->head[11] ^= 1;
    link->head[12] = 0x08;
    link->head[13] = 0x00;
    return open_device(link, name, IFF_TUN);
}

static void queue_free(struct side *side)
{
    while (side->first != NULL) {
        struct waiting *next = side->first->next;
        free(side->first);
        side->first = next;
    }
}

void link_close(struct link *link)
{
    queue_free(&link->in);
    queue_free(&link->out);
    if (link->device >= 0) {
        close(link->device);
    }
}

/* Where memory is refused the frame is lost, as links may do. */
static void queue_put(struct side *side, uint64_t due, const uint8_t *frame, size_t len)
{
    struct waiting *last = malloc(sizeof *last + len);
    if (last == NULL) {
        return;
    }
    last->next = NULL;
    last->due = due;
    last->len = len;
    memcpy(last->frame, frame, len);
    if (side->first == NULL) {
        side->first = last;
    } else {
        side->last->next = last;
    }
    side->last = last;
}

static size_t queue_take(struct side *side, uint64_t now, uint8_t frame[FRAME_MOST])
{
    struct waiting *first = side->first;
    if (first == NULL || first->due > now) {
        return 0;
    }
    const size_t len = first->len;
    memcpy(frame, first->frame, len);
    side->first = first->next;
    free(first);
    return len;
}

static bool is_nth(uint64_t count, uint64_t n)
{
    return n != 0 && count % n == 0;
}

/* Whether this is the one of n that is drawn: the numbers are those of xorshift64 from 1 on, so that a trial can be repeated. */
static bool is_drawn(struct side *side, uint64_t n)
{
    if (n == 0) {
        return false;
    }
    uint64_t x = side->chance == 0 ? 1 : side->chance;
    x ^= x << 13;
    x ^= x >> 7;
    x ^= x << 17;
    side->chance = x;
    return x % n == 0;
}

/* A frame enters a side: its faults decide what becomes of it. */
static void side_put(struct side *side, uint64_t now, const uint8_t *frame, size_t len)
{
    const uint64_t due = later(now, side->faults.delay);
    side->frames++;
    if (is_nth(side->frames, side->faults.lose) || is_drawn(side, side->faults.drop)) {
        return;
    }
    queue_put(side, due, frame, len);
    if (is_nth(side->frames, side->faults.repeat)) {
        queue_put(side, due, frame, len);
    }
}

uint64_t wall_clock(void)
{
    struct timespec at;
    clock_gettime(CLOCK_REALTIME, &at);
    return (uint64_t)at.tv_sec * 1000000 + (uint64_t)at.tv_nsec / 1000;
}

static void record(const struct link *link, const uint8_t *frame, size_t len)
{
    if (link->capture != NULL) {
        pcap_add(link->capture, wall_clock(), frame, len);
    }
}

/* How many octets of each frame the device doesn't have. */
static size_t head_of(const struct link *link)
{
    return link->is_tun ? ETHERNET_HEAD : 0;
}

/* A frame that came, with the header that its device leaves out: its length, or what `read` answers where there is none. */
static ssize_t read_frame(const struct link *link, uint8_t frame[FRAME_MOST])
{
    const size_t head = head_of(link);
    memcpy(frame, link->head, head);
    const ssize_t len = read(link->device, frame + head, FRAME_MOST - head);
    return len <= 0 ? len : len + (ssize_t)head;
}

/* A TUN device has datagrams of IPv6 too. */
static bool is_taken(const struct link *link, const uint8_t *frame)
{
    return !link->is_tun || frame[ETHERNET_HEAD] >> 4 == 4;
}

bool link_read(struct link *link, uint64_t now)
{
    uint8_t frame[FRAME_MOST];
    for (int i = 0; i < READ_MOST; i++) {
        const ssize_t len = read_frame(link, frame);
        if (len <= 0) {
            return len == 0 || errno == EAGAIN || errno == EINTR;
        }
        if (is_taken(link, frame)) {
            record(link, frame, (size_t)len);
            side_put(&link->in, now, frame, (size_t)len);
        }
    }
    return true;
}

size_t link_recv(struct link *link, uint64_t now, uint8_t frame[FRAME_MOST])
{
    return queue_take(&link->in, now, frame);
}

/* What the device doesn't take is lost; whoever misses it sends again. */
void link_flush(struct link *link, uint64_t now)
{
    const size_t head = head_of(link);
    uint8_t frame[FRAME_MOST];
    size_t len;
    while ((len = queue_take(&link->out, now, frame)) != 0) {
        if (write(link->device, frame + head, len - head) == (ssize_t)(len - head)) {
            record(link, frame, len);
        }
    }
}

/* The length of a frame with an IPv4 datagram, without padding (RFC 894, RFC 791 section 3.1); 0 of any other frame. */
static size_t datagram_frame(const uint8_t *frame, size_t len)
{
    if (len < ETHERNET_HEAD + 20 || frame[12] != 0x08 || frame[13] != 0x00) {
        return 0;
    }
    const size_t whole = ETHERNET_HEAD + ((size_t)frame[16] << 8 | frame[17]);
    return whole >= ETHERNET_HEAD + 20 && whole <= len ? whole : 0;
}

/* Any address is at the hop (RFC 826). */
bool link_answers(const struct link *link, const uint8_t *frame, size_t len, uint8_t reply[ARP_SIZE])
{
    static const uint8_t request[10] = {0x08, 0x06, 0, 1, 0x08, 0x00, 6, 4, 0, 1};
    if (!link->is_tun || len < ARP_SIZE || memcmp(frame + 12, request, sizeof request) != 0) {
        return false;
    }
    memcpy(reply, link->head, 12);
    memcpy(reply + 12, request, sizeof request);
    reply[21] = 2;
    memcpy(reply + 22, link->head + 6, 6);
    memcpy(reply + 28, frame + 38, 4);
    memcpy(reply + 32, frame + 22, 10);
    return true;
}

/* Over a TUN device datagrams go alone: any other frame of the host is dropped. */
void link_send(struct link *link, uint64_t now, const uint8_t *frame, size_t len)
{
    const size_t whole = link->is_tun ? datagram_frame(frame, len) : len;
    if (whole != 0) {
        side_put(&link->out, now, frame, whole);
    }
    link_flush(link, now);
}

static uint64_t side_deadline(const struct side *side)
{
    return side->first == NULL ? NEVER : side->first->due;
}

uint64_t link_deadline(const struct link *link)
{
    const uint64_t in = side_deadline(&link->in), out = side_deadline(&link->out);
    return in < out ? in : out;
}
