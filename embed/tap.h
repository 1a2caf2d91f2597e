/* What the parts of `tap` share: the program's state, the link, and what a kind of work is. */
#ifndef TAP_H
#define TAP_H

#define _GNU_SOURCE 1

#include "host.h"
#include "pcap.h"

#include <poll.h>
#include <stdbool.h>
#include <stddef.h>
#include <stdint.h>
#include <stdio.h>

enum {
    FRAME_MOST = 2048,    /* room for a frame of the device; the host drops one of more than 1,514 octets */
    ETHERNET_HEAD = 14,
    ARP_SIZE = 42,        /* of a frame with an ARP packet, without padding */
    FORWARDS = 4          /* how many --forward there may be */
};

#define NEVER UINT64_MAX

/* What is done to the frames of one side for a trial: every lose-th is lost and every repeat-th goes on twice (0: none), and each
   waits for delay milliseconds. */
struct faults {
    uint64_t lose, drop, repeat, delay;
};

/* A frame that waits for its moment. */
struct waiting;

/* One direction of the link. The counts are of frames before any fault. */
struct side {
    struct faults faults;
    uint64_t frames, chance;      /* chance: the last number that was drawn */
    struct waiting *first, *last;
};

/* A TAP or TUN device, with faults on either side of it, and the capture of what crosses it, if any. On a TUN device, which has datagrams
   alone, `head` is what is put in front of each that comes: the Ethernet header of a frame of the one hop to the host. */
struct link {
    int device;
    bool is_tun;
    uint8_t head[ETHERNET_HEAD];
    FILE *capture;
    struct side in, out;
};

/* Opens the TAP device of this name: 0, or -1 and errno. Faults and capture are the caller's to set. */
int link_open(struct link *link, const char *name);
/* The same of a TUN device, for a host with this MAC. */
int link_open_tun(struct link *link, const char *name, const uint8_t mac[6]);
void link_close(struct link *link);
/* Takes what waits at the device, a bounded number of frames: false once the device fails. */
bool link_read(struct link *link, uint64_t now);
/* A frame that the host is to hear now: its length, or 0 where there is none yet. */
size_t link_recv(struct link *link, uint64_t now, uint8_t frame[FRAME_MOST]);
/* Whether a frame of the host is an ARP request that nobody hears but this program, as on a TUN device, and what the hop replies. */
bool link_answers(const struct link *link, const uint8_t *frame, size_t len, uint8_t reply[ARP_SIZE]);
/* A frame of the host: it goes out now, or later, or is lost. */
void link_send(struct link *link, uint64_t now, const uint8_t *frame, size_t len);
/* Sends what has waited for its time. */
void link_flush(struct link *link, uint64_t now);
/* When the first of the frames that wait is due, or NEVER. */
uint64_t link_deadline(const struct link *link);
/* The moment in microseconds, as captures have it. */
uint64_t wall_clock(void);

/* A port of the host, and the endpoint of the system's to which its connections are joined. */
struct forward {
    uint16_t port;
    struct host_endpoint to;
};

struct options {
    const char *tap, *tun;        /* the device by either option; the other is NULL */
    const char *device, *capture, *log;
    uint8_t mac[6];
    bool has_mac, no_scale, verbose;
    uint8_t recovery;             /* HOST_RECOVERY_PLAIN, with timeouts of a second at least, or another */
    uint32_t addr, gateway;
    uint8_t length;
    uint32_t entries, buffer;     /* the host's, and so many connections are served at once */
    struct faults in, out;
    uint64_t source;              /* octets of the service on port 19; 0: there is none */
    uint64_t openings;            /* connections that may be opened to the host in a second; 0: any number */
    uint64_t idle, patience;      /* milliseconds */
    uint64_t stats;               /* milliseconds from one print of the statistics to the next; 0: none */
    bool connects;
    struct host_endpoint peer;
    struct forward forwards[FORWARDS];
    size_t forward_count;
};

/* The words of the command line. A fault ends the program with status 2, --help with 0. */
void options_read(struct options *options, int argc, char **argv);

/* The socket calls of a run, a line each (NULL: they aren't noted), and how many frames the capture has so far. */
struct log {
    FILE *calls;
    uint64_t frames;
};

/* All of a run. `status` is what the program ends with, -1 while it goes on. */
struct tap {
    struct options options;
    struct host host;
    struct link link;
    FILE *capture;                /* or NULL. It is taken at the device, and where calls are noted at the host */
    struct log log;
    uint64_t now;
    int status;
    struct pollfd *polled;        /* what the work waits for, after the device's own place */
    uint64_t heard;               /* when a datagram of the peer of --connect came last */
    uint64_t stats;               /* when the statistics are printed next, or NEVER */
    uint64_t second, openings, put_off; /* openings since this moment, and how many were passed over in all */
};

/* A kind of work: its sockets are made, then in each turn it names what it waits for, and makes its calls once something came. */
struct work {
    void (*begin)(struct tap *tap);
    size_t (*wants)(struct tap *tap, struct pollfd *polled);
    void (*step)(struct tap *tap);
    uint64_t (*deadline)(struct tap *tap);
    void (*end)(struct tap *tap);
    uint64_t (*connection)(size_t place); /* the id of the connection in this place, below the host's entries; 0: none */
};

extern const struct work serving, connecting, forwarding;

/* The initial sequence number of a connection between two ends now (RFC 6528), by a secret of this run; without a random source the program ends. */
uint32_t fresh_isn(const struct host_endpoint pair[2]);
/* Binds a socket to a dynamic port for a connection from our address to this peer (RFC 6056 section 3.3.4), by the same secret: as host_bind. */
int64_t bind_dynamic(struct host *host, uint64_t id, uint32_t local, const struct host_endpoint *peer);
/* Ends the run with status 1, and a line on standard error. */
void fail(struct tap *tap, const char *what, const char *why);
/* A line on standard error, where --verbose asks for it. */
void tell(const struct tap *tap, const char *what, uint64_t id, const char *more);
/* What was counted of the host, in a line on standard error. */
void print_counters(struct tap *tap);
/* The same, and a line for each connection. */
void print_stats(struct tap *tap, const struct work *work);
/* Begins the log in a file of this name: false, and errno, where it can't. A failure behind it shows when the file is closed. */
bool log_begin(struct tap *tap, const char *path);
/* As the calls of the host, each noted where there is a log; so are the frames that it is given and gives. */
void tap_deliver(struct tap *tap, uint32_t isn, const uint8_t *frame, size_t len);
int64_t tap_next_frame(struct tap *tap, uint8_t frame[HOST_FRAME_SIZE]);
int64_t tap_accept(struct tap *tap, uint64_t listener);
int64_t tap_connect(struct tap *tap, uint32_t isn, uint64_t id, const struct host_endpoint *peer);
int64_t tap_send(struct tap *tap, uint64_t id, const uint8_t *octets, size_t len);
int64_t tap_recv(struct tap *tap, uint64_t id, uint8_t *buffer, size_t len);
int64_t tap_shutdown_write(struct tap *tap, uint64_t id);
void tap_close(struct tap *tap, uint64_t id);
void tap_abort(struct tap *tap, uint64_t id);
int64_t tap_sendto(struct tap *tap, uint64_t id, const struct host_endpoint *peer, const uint8_t *octets, size_t len);
int64_t tap_recvfrom(struct tap *tap, uint64_t id, uint8_t *buffer, size_t len, struct host_endpoint *from);
/* A listener of the host at this port: its id; 0 after `fail`. */
uint64_t listen_at(struct tap *tap, uint16_t port);
/* What a socket is ready for: HOST_READY_ bits, none where there is no such socket. */
uint32_t ready_for(struct tap *tap, uint64_t id);
/* Goes on to the next socket behind `*id` with something to be taken of it, and what it is ready for: false where there is none. */
bool next_ready(struct tap *tap, uint64_t *id, uint32_t *bits);
/* The moment `wait` after `since`, or NEVER where there is none. */
uint64_t later(uint64_t since, uint64_t wait);

/* Octets on their way from one side to the other: those from `from` up to `to` wait. */
struct passage {
    uint8_t octets[16384];
    size_t from, to;
    bool ended;                   /* nothing more comes from its source */
    bool told;                    /* the end was passed on */
};

/* What a joint has come to. */
enum joint_state { JOINT_GOES_ON, JOINT_ENDED, JOINT_HOST_FAILED, JOINT_SYSTEM_FAILED };

/* A connection of the host joined to descriptors of the system (one, where it is a socket). */
struct joint {
    uint64_t id;
    int from, to;
    bool is_socket, connects;
    struct passage up, down;      /* to the host's peer, and from it */
    short from_events, to_events; /* what poll answered, until it is used */
    size_t from_place, to_place;  /* where they stand in what is polled, from 1; 0: nowhere */
    uint64_t moved;               /* when octets moved last */
    int64_t refusal;              /* of JOINT_HOST_FAILED */
    int error;                    /* of JOINT_SYSTEM_FAILED: errno */
};

/* `id` is open or opening. */
void joint_begin(struct joint *joint, uint64_t id, int from, int to, uint64_t now);
/* Puts what it waits for behind the `count` others: how many there are then. */
size_t joint_wants(struct joint *joint, struct pollfd *polled, size_t count);
/* Takes what poll answered, so that it is acted upon once. */
void joint_answer(struct joint *joint, struct pollfd *polled);
/* Whether it waits for one of these HOST_READY_ bits of its connection. */
bool joint_awaits(const struct joint *joint, uint32_t bits);
/* Whether a descriptor is ready, or something of the system's is to be passed on that the host takes. */
bool joint_is_due(const struct joint *joint, struct tap *tap);
/* Moves what can be moved now. */
enum joint_state joint_step(struct joint *joint, struct tap *tap);

#endif
