/*
 * An IPv4 host with TCP and UDP sockets, as a library. Frames, socket calls and moments go in; frames, answers and deadlines come out.
 *
 * The library opens no device, reads no clock, has no threads and waits for nothing: each call returns at once. The program has the link,
 * the clock and the source of initial numbers. docs/EMBEDDING.md has the loop of a host on a link, the limits, and how to build and link;
 * docs/SOCKETS.md has the socket calls at length, docs/CODES.md the refusals and drops.
 *
 * One turn of a program:
 *
 *     wait until a frame arrives, there is a call to make, or the moment of host_next_deadline comes; read the clock: now
 *     host_tick(&host, now)
 *     host_deliver(&host, now, isn, frame, len) for a frame that arrived, with a fresh isn
 *     the socket calls of the program
 *     while ((len = host_next_frame(&host, now, frame)) > 0) send these len octets on the link
 *
 * LANGUAGE. It is C99, and C++11. A freestanding program needs stddef.h and stdint.h for it, and no header of a C library. docs/PORTING.md says what
 * the library wants of a machine.
 *
 * ANSWERS. An int64_t that is not negative is a call's answer. A negative one is a refusal (HOST_EBADF ..), and that of host_deliver a drop
 * (HOST_DROP_SHORT ..). Each call's refusals stand below in the order in which they are tested. A refused call changes nothing: neither
 * the host, nor what its pointers lead to.
 *
 * UNITS. Moments are milliseconds from an origin of your choice, in 64 bits, of a clock that never goes back. Lengths are octets. A frame is
 * a whole Ethernet II frame, without the frame check sequence. An address is a plain number with its first octet highest
 * (HOST_ADDR), and a port a plain number: neither wants htonl or htons.
 *
 * POINTERS. What a pointer leads to is yours. The library reads or writes it in the call alone and keeps none. No pointer is NULL, also where
 * its length is 0; there it may lead to anything. No two of a call overlap. A length is at most INT64_MAX.
 *
 * THREADS. A handle is used by one thread at a time. It may be handed to another thread, under a lock, as any memory of malloc; no proof speaks of
 * threads. Handles share nothing, so each may have a thread of its own. Make no call in a signal handler, nor in the forked child of a process with threads.
 *
 * MEMORY. The library takes memory of malloc and realloc and gives it back by free: in host_new and host_new_with (some 660 kB), in host_socket
 * and in a host_deliver that opens a connection (2,097,152 octets for a connection, 134,142 for a UDP socket: its two buffers). No other call takes
 * any. So a host takes some 135 MB at the most. It writes to a page of a connection's buffers only as octets pass through that page: where the system
 * gives memory page by page, an idle connection costs next to none. These are the numbers of a host of the usual sizes: those that struct host_config
 * names may be smaller or larger, and docs/EMBEDDING.md says what each costs. Where malloc gives memory that is there at once, as on a machine
 * without virtual memory, name a smaller `buffer`, of which a connection takes twice as many octets, or have the option off (no_window_scale): then a
 * connection takes 131,070 octets at most, and a host some 9.2 MB; so does a connection whose peer's SYN is without the option, in host_deliver. Of the
 * stack no call wants more than 8 kB. Where memory is refused the call is refused (HOST_ENOMEM, HOST_DROP_NO_ROOM), and the program goes on. host_free
 * gives all of it back. Of the C library the calls use these three and memcpy, memmove, memset and memcmp, and no variable of their own outlives a call.
 */
#ifndef HOST_H
#define HOST_H

#if __STDC_HOSTED__
#include <errno.h>
#endif
#include <stddef.h>
#include <stdint.h>

#ifdef __cplusplus
extern "C" {
#endif

/* The version of this header: as text, and as a number, 65,536 for the first part of it, 256 for the second and 1 for the third. host_version
 * answers the library's. */
#define HOST_VERSION_STRING "0.3.0"
#define HOST_VERSION 0x000300

/* The most octets of a frame that goes out, and of one that arrives; those of one that goes out are 60 at least. */
#define HOST_FRAME_SIZE 1514
/* The most octets of a datagram's data. */
#define HOST_DATAGRAM_SIZE 65507
/* The most routes of a host, the most of its sockets and connections where its config says no other number, and the largest backlog. */
#define HOST_ROUTES 32
#define HOST_ENTRIES 64
#define HOST_BACKLOG 8

/* The address a.b.c.d, as in HOST_ADDR(10, 0, 0, 1), and the address 0.0.0.0. */
#define HOST_ADDR(a, b, c, d) ((uint32_t)(a) << 24 | (uint32_t)(b) << 16 | (uint32_t)(c) << 8 | (uint32_t)(d))
#define HOST_ADDR_ANY ((uint32_t)0)

/* Kinds of sockets. */
#define HOST_KIND_TCP 1
#define HOST_KIND_UDP 2

/* How losses are repaired (`recovery` of struct host_config). Plain is RFC 5681 section 3.2 alone: of several segments that a window loses, one comes
 * again at once, and the others by timeouts. NewReno brings one again in each round trip (RFC 6582), sends on at the first two duplicate acknowledgements
 * (RFC 3042), and has the window grow by the octets that are acknowledged (RFC 3465). Selective is as NewReno where the peer takes no selective
 * acknowledgements; else acknowledgements report what is kept ahead of a gap (RFC 2018), what the peer reports rules what goes out again (RFC 6675), and
 * after two silent round trips the last segment does (RFC 8985 section 7). */
#define HOST_RECOVERY_PLAIN 0
#define HOST_RECOVERY_NEW_RENO 1
#define HOST_RECOVERY_SELECTIVE 2

/* States of a socket: those of RFC 9293 section 3.3.2, and that of every UDP socket. */
#define HOST_STATE_CLOSED 0
#define HOST_STATE_LISTEN 1
#define HOST_STATE_SYN_SENT 2
#define HOST_STATE_SYN_RECEIVED 3
#define HOST_STATE_ESTABLISHED 4
#define HOST_STATE_FIN_WAIT_1 5
#define HOST_STATE_FIN_WAIT_2 6
#define HOST_STATE_CLOSE_WAIT 7
#define HOST_STATE_CLOSING 8
#define HOST_STATE_LAST_ACK 9
#define HOST_STATE_TIME_WAIT 10
#define HOST_STATE_DATAGRAM 11

/* What a socket is ready for: each bit foretells a call, as things stand. */
#define HOST_READY_ACCEPT 1   /* host_accept would answer a connection */
#define HOST_READY_READ 2     /* host_recv would answer octets, or host_recvfrom a datagram */
#define HOST_READY_WRITE 4    /* host_send would take an octet, or host_sendto a datagram of one, for a peer to whom a route leads */
#define HOST_READY_ENDED 8    /* host_recv would answer 0, the end of the stream */
#define HOST_READY_FAILED 16  /* its calls are refused with its connection's error */
#define HOST_READY_OPENING 32 /* its connection is opening */

/* Refusals, with the names of POSIX.1-2017. They are not the system's numbers: host_errno gives those. */
#define HOST_EBADF (-1)         /* the id names no socket, or the handle holds no host */
#define HOST_EINVAL (-2)        /* the arguments or the socket's state don't allow the call */
#define HOST_EADDRINUSE (-3)    /* the port or the pair of endpoints is in use, or no dynamic port is free */
#define HOST_EADDRNOTAVAIL (-4) /* the address is not ours to bind to, or none that a peer may have */
#define HOST_EISCONN (-5)       /* the socket has had a connection */
#define HOST_ENOTCONN (-6)      /* the socket has no connection, or none yet whose side could be closed */
#define HOST_EALREADY (-7)      /* the socket's connection is opening */
#define HOST_EAGAIN (-8)        /* nothing to do now; the same call may succeed later */
#define HOST_ECONNREFUSED (-9)  /* the peer refused the connection, or an error told that its SYN can't be delivered */
#define HOST_ECONNRESET (-10)   /* the peer reset the connection */
#define HOST_ETIMEDOUT (-11)    /* the peer of the connection was silent for too long */
#define HOST_EPIPE (-12)        /* our side of the connection is closed */
#define HOST_EMSGSIZE (-13)     /* a datagram of more than HOST_DATAGRAM_SIZE octets */
#define HOST_ENETUNREACH (-14)  /* no route leads to the address */
#define HOST_EMFILE (-15)       /* the table of sockets is full, or the last id is given */
#define HOST_ENOMEM (-16)       /* memory ran out */
#define HOST_EOPNOTSUPP (-17)   /* the socket is listening, or the call is not one of its kind */
#define HOST_EDESTADDRREQ (-18) /* the socket is not bound; host_send on a UDP socket, which has no peer */

/* Why host_deliver drops a frame. They are tested in the order in which they stand here, but that of an ARP packet the header comes before
 * the address. */
#define HOST_DROP_SHORT (-1)         /* fewer than 14 octets, or more than HOST_FRAME_SIZE */
#define HOST_DROP_OTHER_MAC (-2)     /* the destination is not our MAC; broadcast is ours for ARP alone */
#define HOST_DROP_OTHER_TYPE (-3)    /* neither IPv4 nor ARP */
#define HOST_DROP_IP_HEADER (-4)     /* the IPv4 header has not the form of one */
#define HOST_DROP_IP_SUM (-5)        /* the checksum of the IPv4 header is wrong */
#define HOST_DROP_OTHER_ADDRESS (-6) /* not for our address, or from ours or not unicast; of an ARP packet the sender alone */
#define HOST_DROP_FRAGMENT (-10)     /* a fragment of another protocol than UDP */
#define HOST_DROP_UPPER_HEADER (-7)  /* a malformed ARP packet or header of ICMP, UDP or TCP */
#define HOST_DROP_UPPER_SUM (-8)     /* the checksum of ICMP, UDP or TCP is wrong */
#define HOST_DROP_NO_ROOM (-9)       /* no place in a table or queue, no memory, no id, or no route to the source of a SYN */
#define HOST_DROP_NO_HOST (-11)      /* the handle holds no host */

/* A handle: the host on one link that it holds, or no host where it is all zero (`struct host host = {0};`). `at` is the library's own: never
 * change it. A handle may be moved, but of two copies only one may be used on. On a handle that holds no host host_free and host_tick do
 * nothing, host_deliver answers HOST_DROP_NO_HOST, and all other calls answer HOST_EBADF. */
struct host {
    void *at;
};

/* Where one end of a connection is, or where a datagram is from. */
struct host_endpoint {
    uint32_t addr;
    uint16_t port;
};

/* A route: to the addresses that share the first `length` bits of `prefix`, whose other bits are 0. `gateway` is the address on the link that
 * passes datagrams on, or 0 where the prefix is on the link itself. The longest prefix that an address has counts. */
struct host_route {
    uint32_t prefix;
    uint32_t gateway;
    uint8_t length;
};

/* How a host is set up: `size` is sizeof (struct host_config), `mac`, `addr`, `routes` and `count` are as host_new takes them (where `count` is 0
 * `routes` may be NULL), and what isn't named is 0:
 *
 *     const struct host_config config = {.size = sizeof config, .addr = HOST_ADDR(10, 0, 0, 1), .mac = {2, 0, 0, 0, 0, 1}};
 *
 * On its guard a host drops what comes from the address of a network on its link, or of all its hosts, and ARP packets of such an address, of a
 * group's MAC and of its own; it takes no octets with an acknowledgement older than the largest window of the peer is wide, answers at most ten segments
 * a second of a connection that it doesn't use (RFC 5961), and a SYN that comes again by the SYN-ACK again. Where a SYN or a socket finds no room, a half-
 * open connection whose SYN-ACK nobody answered for a second gives way, or one in TIME-WAIT that was closed here; and such a one to a SYN between its ends
 * that is past all that was heard on it. To a fragment the oldest datagram that is put together gives way, and one of a datagram that was whole within the
 * last second begins none. Of the three members behind `recovery` 0 is the usual, and another number that is out of its range counts as the
 * nearest in it. A host that meets a real network wants
 *
 *     .recovery = HOST_RECOVERY_SELECTIVE, .first_segments = 10, .least_timeout = 200, .first_threshold = 1 << 30, .guards = 1
 *
 * The members behind `guards` are its sizes, which it keeps: how much it has room for, and so how much memory it takes. 0 is the usual, and another
 * number that is out of its range is refused (HOST_EINVAL). A small machine may want
 *
 *     .replies = 4, .no_reassembly = 1, .entries = 8, .buffer = 4096, .neighbours = 8
 *
 * A later header may have more members behind these. By its size a program of today is understood by a later library, and a later program by this one
 * where it leaves them 0. */
struct host_config {
    size_t size;                     /* octets of the struct, as the program knows it */
    const struct host_route *routes;
    size_t count;
    uint32_t addr;
    uint8_t mac[6];
    uint8_t no_window_scale;         /* 1: no window scale option (RFC 7323 section 2): a connection holds 65,535 octets each way at most */
    uint8_t minshall;                /* 1: a small segment waits for a small one only, and the FIN goes with the last octets (RFC 9293 appendix A.3) */
    uint8_t recovery;                /* how losses are repaired: HOST_RECOVERY_PLAIN, HOST_RECOVERY_NEW_RENO or HOST_RECOVERY_SELECTIVE */
    uint8_t first_segments;          /* the first congestion window in segments, 1 to 10 (RFC 6928); 0: two to four, by their size (RFC 5681 section 3.1) */
    uint16_t least_timeout;          /* the least retransmission timeout in milliseconds, 200 to 1,000; 0: 1,000 (RFC 6298 section 2.4) */
    uint32_t first_threshold;        /* the first slow start threshold in octets, 65,535 to 1,073,741,824; 0: 65,535 (RFC 5681 section 3.1) */
    uint8_t guards;                  /* 1: on its guard against what isn't right (RFC 5961, RFC 1122 section 3.2.1.3) */
    uint8_t replies;                 /* how many control replies wait at most (ARP, ICMP, resets), 1 to 64; 0: 16 */
    uint8_t no_reassembly;           /* 1: no datagram that comes in fragments is put together */
    uint8_t reassemblies;            /* how many are put together at a time, 1 to 16; 0: 4 */
    uint32_t entries;                /* sockets and connections at most, those among them that still end, 1 to 16,384; 0: HOST_ENTRIES */
    uint32_t buffer;                 /* octets that a connection holds each way, 2,048 to 1,048,576; 0: 1,048,576. Unscaled windows use 65,535 at most */
    uint16_t neighbours;             /* how many neighbours on the link are known at most, 8 to 4,096; 0: 64 */
    uint16_t reassembly_octets;      /* the longest payload that is put together, in octets, its UDP header among them, 1,480 to 65,515; 0: 65,515 */
    uint8_t zero[4];                 /* 0 */
};

/* A connection as it stands. `size` is sizeof (struct host_info); all others are the library's to write. Lengths are octets; of a timer or a
 * measurement that there isn't, the number is -1. A later header may have more members behind these, which a library that doesn't know them leaves as
 * they were. */
struct host_info {
    size_t size;            /* octets of the struct, as the program knows it */
    int64_t state;          /* HOST_STATE_CLOSED .. */
    int64_t in_flight;      /* sent and not acknowledged, the SYN or FIN among them */
    int64_t held;           /* given to host_send and not acknowledged, sent or not */
    int64_t unsent;         /* of these, not sent yet */
    int64_t readable;       /* came in order, and not read */
    int64_t kept;           /* came ahead of a gap */
    int64_t peer_window;    /* the peer's window, from the oldest octet that it has not acknowledged on */
    int64_t own_window;     /* our window, as it was told and is not used up */
    int64_t smss;           /* most octets of a segment of ours */
    int64_t cwnd;           /* the congestion window (RFC 5681) */
    int64_t ssthresh;       /* the slow start threshold */
    int64_t srtt_8;         /* eight times the smoothed round-trip time, in milliseconds (RFC 6298) */
    int64_t rttvar_4;       /* four times its variation, in milliseconds */
    int64_t rto;            /* the retransmission timeout, in milliseconds */
    int64_t expiries;       /* expiries of a timer since the last progress; the thirteenth ends the connection */
    int64_t resent;         /* segments that brought what was sent before, probes among them */
    int64_t error;          /* what every call tells: HOST_ECONNREFUSED, HOST_ECONNRESET or HOST_ETIMEDOUT, else 0 */
    int64_t retransmission; /* the moments: when what is in flight goes out again, */
    int64_t probe;          /* when the peer's closed window is probed, */
    int64_t delayed_ack;    /* until when an acknowledgement waits for a second segment, */
    int64_t override;       /* until when a small segment waits for more, */
    int64_t ends;           /* and when TIME-WAIT ends, or FIN-WAIT-2 of a closed socket */
};

/* What was counted of a host since it was made. `size` is sizeof (struct host_counters); all others are the library's to write. A count holds still at
 * INT64_MAX. A later header may have more members behind these, which a library that doesn't know them leaves as they were. */
struct host_counters {
    size_t size;                /* octets of the struct, as the program knows it */
    int64_t frames_in;          /* frames that host_deliver was given, dropped ones among them, */
    int64_t octets_in;          /* and their octets */
    int64_t frames_out;         /* frames that host_next_frame wrote, */
    int64_t octets_out;         /* and their octets */
    int64_t short_frame;        /* frames that were dropped, each by its HOST_DROP_: HOST_DROP_SHORT, */
    int64_t other_mac;          /* HOST_DROP_OTHER_MAC, */
    int64_t other_type;         /* HOST_DROP_OTHER_TYPE, */
    int64_t ip_header;          /* HOST_DROP_IP_HEADER, */
    int64_t ip_sum;             /* HOST_DROP_IP_SUM, */
    int64_t other_address;      /* HOST_DROP_OTHER_ADDRESS, */
    int64_t upper_header;       /* HOST_DROP_UPPER_HEADER, */
    int64_t upper_sum;          /* HOST_DROP_UPPER_SUM, */
    int64_t fragment;           /* and HOST_DROP_FRAGMENT; those of HOST_DROP_NO_ROOM by what there was none of: */
    int64_t backlog;            /* a place at the listener, whose backlog waits, */
    int64_t table;              /* a place among the entries, or an id, */
    int64_t memory;             /* memory for a connection, */
    int64_t replies;            /* a place among the control replies, */
    int64_t queue;              /* room in the queue of a UDP socket, */
    int64_t reassembly;         /* a place for the datagram of a fragment, */
    int64_t route;              /* and a route to the source of a SYN; */
    int64_t replies_given_up;   /* what host_tick gave up, since for 3,000 ms the MAC of its next hop wasn't known: control replies, */
    int64_t resets_given_up;    /* resets of aborted connections, */
    int64_t datagrams_given_up; /* and datagrams */
};

/* So the library finds it. */
typedef char host_counters_has_its_form[sizeof(struct host_counters) == 24 * 8 && offsetof(struct host_counters, frames_in) == 8 ? 1 : -1];

/* So the library finds it. */
typedef char host_info_has_its_form[sizeof(struct host_info) == 23 * 8 && offsetof(struct host_info, state) == 8 ? 1 : -1];

/* So the library finds it. */
typedef char host_config_has_its_form[sizeof(struct host_config) == 64 && offsetof(struct host_config, addr) == 24 &&
                                              offsetof(struct host_config, no_window_scale) == 34 && offsetof(struct host_config, minshall) == 35 &&
                                              offsetof(struct host_config, recovery) == 36 && offsetof(struct host_config, first_segments) == 37 &&
                                              offsetof(struct host_config, least_timeout) == 38 && offsetof(struct host_config, first_threshold) == 40 &&
                                              offsetof(struct host_config, guards) == 44 && offsetof(struct host_config, replies) == 45 &&
                                              offsetof(struct host_config, no_reassembly) == 46 && offsetof(struct host_config, reassemblies) == 47 &&
                                              offsetof(struct host_config, entries) == 48 && offsetof(struct host_config, buffer) == 52 &&
                                              offsetof(struct host_config, neighbours) == 56 && offsetof(struct host_config, reassembly_octets) == 58 &&
                                              offsetof(struct host_config, zero) == 60
                                          ? 1
                                          : -1];

/* ---- A host ---------------------------------------------------------------------------------------------------------------------------- */

/* Makes a host at `addr`, whose interface has this MAC, with `count` routes, and puts it into `host`, which held none. It answers 0, and then
 * host_free is owed. Where it is refused the handle stays as it was.
 *
 * HOST_EINVAL: the handle holds a host, the address isn't unicast (its first octet is 1 to 223 other than 127), the MAC is one of a group
 * (the low bit of its first octet is set), a prefix is longer than 32 bits or has bits set past its length, two routes have the same prefix,
 * or there are more than HOST_ROUTES. HOST_ENOMEM. */
int64_t host_new(struct host *host, const uint8_t mac[6], uint32_t addr, const struct host_route *routes, size_t count);

/* What host_new_with calls, and programs in other languages than C: the octets of a config, as many as its `size` says (else HOST_EINVAL), and its
 * routes, which are read here alone. */
int64_t host_new_from(struct host *host, const uint8_t *config, size_t size, const struct host_route *routes, size_t count);

/* Makes a host as host_new does, by a config. host_new makes one whose options are 0.
 *
 * HOST_EINVAL, also where the config's size is less than 40, its no_window_scale, minshall, guards or no_reassembly is over 1, its recovery over 2, a
 * size outside its range, or an octet behind the members that are named, up to its size, isn't 0. A program of a header before this one passes 40 or 48
 * octets: what those lack is 0. HOST_ENOMEM. */
static inline int64_t host_new_with(struct host *host, const struct host_config *config)
{
    const struct host_route none = {0, 0, 0};
    return host_new_from(host, (const uint8_t *)config, config->size, config->count == 0 ? &none : config->routes, config->count);
}

/* Ends a host, with all its sockets and connections, and gives its memory back. Nothing goes out: a peer learns of it as of a host that was
 * switched off. The handle is all zero then. Of a handle that holds no host: nothing. */
void host_free(struct host *host);

/* Answers HOST_VERSION of the library. One of the same first two parts has all that this header names. */
uint32_t host_version(void);

/* ---- Socket calls ---------------------------------------------------------------------------------------------------------------------- *
 * `id` is what host_socket or host_accept answered. Ids count from 1 and are never used again. */

/* Makes a socket, of TCP (HOST_KIND_TCP) or UDP (HOST_KIND_UDP), and answers its id.
 *
 * HOST_EINVAL: another kind. HOST_EMFILE: there are as many sockets and connections as the host has entries. HOST_ENOMEM. */
int64_t host_socket(struct host *host, uint32_t kind);

/* Binds a socket to a local port, at our address or at HOST_ADDR_ANY, which stands for it; port 0 takes a dynamic port, which host_sockname
 * tells. It answers 0.
 *
 * HOST_EBADF. HOST_EINVAL: it is bound already or has had a connection. HOST_EADDRNOTAVAIL: another address. HOST_EADDRINUSE: a socket or
 * connection of the same kind has this local port, or no dynamic port is free. */
int64_t host_bind(struct host *host, uint64_t id, uint32_t addr, uint16_t port);

/* Lets a bound TCP socket take connections, of which `backlog` may wait to be accepted. It answers 0.
 *
 * HOST_EBADF. HOST_EOPNOTSUPP: a UDP socket. HOST_EINVAL: a backlog of 0 or over HOST_BACKLOG, or the socket listens already or has had
 * a connection. HOST_EDESTADDRREQ: it isn't bound. */
int64_t host_listen(struct host *host, uint64_t id, size_t backlog);

/* Takes the connection that was the first to be open of those that wait at a listener: answers its id, and writes its other end to `peer`.
 * One that its peer has reset since is taken too, and tells HOST_ECONNRESET; so is one whose peer was silent, which tells HOST_ETIMEDOUT.
 *
 * HOST_EBADF. HOST_EOPNOTSUPP: a UDP socket. HOST_EINVAL: the socket doesn't listen. HOST_EAGAIN: none waits. */
int64_t host_accept(struct host *host, uint64_t id, struct host_endpoint *peer);

/* Begins to open a connection to `port` of `addr`: answers 0 at once. `isn` is its initial number (docs/EMBEDDING.md says what it should be).
 *
 * The connection is open once host_state is neither HOST_STATE_SYN_SENT nor HOST_STATE_SYN_RECEIVED (it may be HOST_STATE_CLOSE_WAIT at once, or
 * have ended in HOST_STATE_CLOSED); until then host_send and host_recv are HOST_EAGAIN. A socket that isn't bound gets a dynamic port, from 49152
 * on. Once the peer has refused or reset the connection, or was silent up to the thirteenth expiry of a timer, this call, host_send, host_recv and
 * host_shutdown_write tell HOST_ECONNREFUSED, HOST_ECONNRESET or HOST_ETIMEDOUT, whatever is unread, until host_close.
 *
 * HOST_EBADF. HOST_EOPNOTSUPP: UDP, or listening. HOST_ECONNREFUSED, HOST_ECONNRESET, HOST_ETIMEDOUT. HOST_EALREADY: it is opening one.
 * HOST_EISCONN: it has had one. HOST_EADDRNOTAVAIL: port 0, not a unicast address, or our own. HOST_ENETUNREACH: no route leads there.
 * HOST_EADDRINUSE: there is a connection between these two ends, or no dynamic port is free. */
int64_t host_connect(struct host *host, uint64_t now, uint32_t isn, uint64_t id, uint32_t addr, uint16_t port);

/* Gives octets to a connection: answers how many it took, the first that find room. They go out in order behind those before them.
 *
 * HOST_EBADF. HOST_EDESTADDRREQ: UDP. HOST_EOPNOTSUPP: listening. HOST_ECONNREFUSED, HOST_ECONNRESET, HOST_ETIMEDOUT. HOST_ENOTCONN.
 * HOST_EAGAIN: opening. HOST_EPIPE: our side is closed. HOST_EAGAIN: no room, and octets are given. */
int64_t host_send(struct host *host, uint64_t id, const uint8_t *octets, size_t len);

/* Reads octets of a connection, in order: answers how many of them are at the front of `buffer` now, at most `len`. 0 is the end of the stream:
 * all octets were read, and the peer has closed its side.
 *
 * HOST_EBADF. HOST_EOPNOTSUPP: UDP, or listening. HOST_EINVAL: `len` is 0. HOST_ECONNREFUSED, HOST_ECONNRESET, HOST_ETIMEDOUT.
 * HOST_ENOTCONN. HOST_EAGAIN: opening, or nothing to read yet. */
int64_t host_recv(struct host *host, uint64_t id, uint8_t *buffer, size_t len);

/* Closes our side of a connection: the peer reads its end behind all octets that were given. What the peer sends is read on. It answers 0, and
 * again 0.
 *
 * HOST_EBADF. HOST_EOPNOTSUPP: UDP, or listening. HOST_ECONNREFUSED, HOST_ECONNRESET, HOST_ETIMEDOUT. HOST_ENOTCONN: no connection, or it
 * is opening. */
int64_t host_shutdown_write(struct host *host, uint64_t id);

/* Lets small segments of a connection go out at once from now on, and not wait until what went out before is acknowledged (TCP_NODELAY); with `on` 0
 * they wait, as they do at first. It answers 0.
 *
 * HOST_EBADF. HOST_EOPNOTSUPP: UDP, or listening. HOST_ENOTCONN: it has had no connection. */
int64_t host_set_nodelay(struct host *host, uint64_t id, uint32_t on);

/* Asks the peer of a connection whether it is there, from now on, after so many milliseconds each in which it said nothing, while nothing of
 * ours waits to go out or to be acknowledged (SO_KEEPALIVE); with `milliseconds` 0 no more, as at first. Where it doesn't answer it is asked again,
 * twelve times in all; then the connection is over, and its calls tell HOST_ETIMEDOUT. It answers 0.
 *
 * HOST_EBADF. HOST_EINVAL: `milliseconds` is neither 0 nor 10,000 to 86,400,000, which is a day. HOST_EOPNOTSUPP: UDP, or listening.
 * HOST_ENOTCONN: it has had no connection. */
int64_t host_set_keepalive(struct host *host, uint64_t id, uint64_t milliseconds);

/* Takes the socket away: its id is HOST_EBADF from now on. What was given to a connection still goes out, and its end behind it, unless the peer
 * sends octets after this call: then it is reset, and what has not gone out is lost. So use host_shutdown_write and read to the end where the peer
 * may still send. A connection with octets that nobody read is reset at once. What waits at a listener is reset, and what waits in a UDP socket is
 * gone. It answers 0.
 *
 * HOST_EBADF. */
int64_t host_close(struct host *host, uint64_t id);

/* Takes the socket away and ends its connection at once: past SYN-SENT its peer is sent a reset, and what waits to go out or to be read is lost. So a
 * program ends what host_close would leave to a silent peer. All else goes as by host_close. It answers 0.
 *
 * HOST_EBADF. */
int64_t host_abort(struct host *host, uint64_t id);

/* Gives a datagram to a UDP socket, for `port` of `addr`: answers `len`. It may be lost on its way, come twice, and come before an earlier one. A
 * socket that isn't bound is bound to a dynamic port.
 *
 * HOST_EBADF. HOST_EOPNOTSUPP: TCP. HOST_EMSGSIZE: over HOST_DATAGRAM_SIZE. HOST_EADDRNOTAVAIL: port 0, not a unicast address, or our own.
 * HOST_ENETUNREACH: no route leads there. HOST_EADDRINUSE: no dynamic port is free. HOST_EAGAIN: no room. */
int64_t host_sendto(struct host *host, uint64_t id, uint32_t addr, uint16_t port, const uint8_t *octets, size_t len);

/* Reads the first datagram that came to a UDP socket: answers how many of its octets are at the front of `buffer` now, at most `len`, and writes
 * to `from` where it is from. What is left of a longer one is lost. A datagram may have 0 octets.
 *
 * HOST_EBADF. HOST_EOPNOTSUPP: TCP. HOST_EINVAL: `len` is 0. HOST_EAGAIN: none came. */
int64_t host_recvfrom(struct host *host, uint64_t id, uint8_t *buffer, size_t len, struct host_endpoint *from);

/* Answers the state of a socket: HOST_STATE_CLOSED .. HOST_STATE_DATAGRAM; CLOSED where it has no connection, or one that is over.
 *
 * HOST_EBADF. */
int64_t host_state(struct host *host, uint64_t id);

/* Writes to `end` where a socket is: our end of its connection, else where it is bound, else address 0 and port 0. It answers 0.
 *
 * HOST_EBADF. */
int64_t host_sockname(struct host *host, uint64_t id, struct host_endpoint *end);

/* Writes to `end` the other end of a socket's connection, also of one that is over. It answers 0.
 *
 * HOST_EBADF. HOST_ENOTCONN: it has had none. */
int64_t host_peername(struct host *host, uint64_t id, struct host_endpoint *end);

/* ---- Time and frames ------------------------------------------------------------------------------------------------------------------- */

/* Lets time pass: each timer acts whose moment has come. Call it at the start of each turn, and at the latest at the moment of
 * host_next_deadline. A moment before that of an earlier tick counts as that one. */
void host_tick(struct host *host, uint64_t now);

/* Answers 1 and writes to `moment` when host_tick is wanted next, at the latest; or 0, and writes nothing, where nothing waits for a moment. Any
 * call, frame or emission may move it. A program that takes frames until there is none, and ticks at that moment at the latest, never sleeps for
 * ever over octets that a peer to whom a route leads has not acknowledged: they can go out now, or there is such a moment. Where nobody answers
 * the requests for the peer's MAC, there is one each second, until the connection is given up after 483,000 ms. */
int64_t host_next_deadline(struct host *host, uint64_t *moment);

/* Hands a frame that arrived to the host. `isn` is used where the frame opens a connection: hand in a fresh one each time. It answers 0 for a
 * frame that was taken, though it may have changed nothing, and else the first cause to drop it, HOST_DROP_SHORT .. A dropped frame changes at
 * most what the host knows of its neighbours' MACs: count it and go on. */
int64_t host_deliver(struct host *host, uint64_t now, uint32_t isn, const uint8_t *frame, size_t len);

/* Writes the next frame that is due to the front of `out` and answers its length, 60 to HOST_FRAME_SIZE; or answers 0, and writes nothing, where
 * none is due. The host counts it as sent. Call it until it answers 0, after each tick, frame and call. */
int64_t host_next_frame(struct host *host, uint64_t now, uint8_t out[HOST_FRAME_SIZE]);

/* ---- Questions that change nothing ----------------------------------------------------------------------------------------------------- */

/* Answers 1 and writes both ends of the connection that host_connect would open now to `pair`, the one with the lesser address first (of equal
 * ones that with the lesser port), so that an initial number can be made from them; or answers 0, and writes nothing, where it would be refused.
 * Which of them is ours its address tells; the dynamic port of a socket that isn't bound stands there already. */
int64_t host_would_connect(struct host *host, uint64_t id, uint32_t addr, uint16_t port, struct host_endpoint pair[2]);

/* The same of the connection that host_deliver would open by this frame; 0 where it would open none, and any number will do for `isn`. */
int64_t host_would_open(struct host *host, const uint8_t *frame, size_t len, struct host_endpoint pair[2]);

/* What host_info calls, and programs in other languages than C: the numbers of a struct host_info behind its size, the first `count` of them. */
int64_t host_info_into(struct host *host, uint64_t id, int64_t *numbers, size_t count);

/* Tells what is so of a socket's connection, in any state; of one that is over, what it left. It answers 0.
 *
 * HOST_EBADF. HOST_EOPNOTSUPP: UDP, or listening. HOST_ENOTCONN: it has had none. */
static inline int64_t host_info(struct host *host, uint64_t id, struct host_info *info)
{
    return host_info_into(host, id, (int64_t *)info + 1, info->size / 8 - 1);
}

/* What host_counters calls, and programs in other languages than C: the numbers of a struct host_counters behind its size, the first `count` of them. */
int64_t host_counters_into(struct host *host, int64_t *numbers, size_t count);

/* Tells what was counted of the host since it was made. It answers 0.
 *
 * HOST_EBADF: the handle holds no host. */
static inline int64_t host_counters(struct host *host, struct host_counters *counters)
{
    return host_counters_into(host, (int64_t *)counters + 1, counters->size / 8 - 1);
}

/* Answers what a socket is ready for, the sum of the HOST_READY_ bits that hold. None of them waits for anything.
 *
 * HOST_EBADF. */
int64_t host_ready(struct host *host, uint64_t id);

/* Answers the id of the first socket behind `after` in order of id of which one of the bits of `mask` holds, and writes to `bits` all that hold of
 * it; or answers 0, and writes nothing, where there is none. `after` need not name a socket, and 0 stands before all:
 *
 *     for (id = 0; (id = host_next_ready(&host, (uint64_t)id, HOST_READY_ACCEPT | HOST_READY_READ, &bits)) > 0;) .. */
int64_t host_next_ready(struct host *host, uint64_t after, uint32_t mask, uint32_t *bits);

/* Answers how many octets could be read at once: as many as host_recv would give of any number, 0 where it would be HOST_EAGAIN or tell the end; of
 * a UDP socket those of the first datagram, 0 where none came.
 *
 * HOST_EBADF. HOST_EOPNOTSUPP: listening. HOST_ECONNREFUSED, HOST_ECONNRESET, HOST_ETIMEDOUT. HOST_ENOTCONN. */
int64_t host_recv_len(struct host *host, uint64_t id);

/* Answers how many octets could be given: as many as host_send would take of any number, 0 where it would be HOST_EAGAIN; to a UDP socket those
 * that a further datagram may have, 0 where one of a single octet has no room.
 *
 * HOST_EBADF. HOST_EOPNOTSUPP: listening. HOST_ECONNREFUSED, HOST_ECONNRESET, HOST_ETIMEDOUT. HOST_ENOTCONN. HOST_EPIPE: our side is closed. */
int64_t host_send_room(struct host *host, uint64_t id);

/* Answers the id of the socket that a frame is for: that of its connection, or the listener at which that waits or would be opened; the UDP socket
 * at its port; of an error that of the connection which it is about. 0 where it is for none, or is a fragment of a datagram. Ask before
 * host_deliver, and after it host_ready of this id: no other socket is ready for more by this frame, but for a fragment that makes a datagram whole. */
int64_t host_concerns(struct host *host, const uint8_t *frame, size_t len);

/* ---- Numbers and names ----------------------------------------------------------------------------------------------------------------- */

/* The system's own number (errno.h) of a refusal; 0 of an answer that is none, and EINVAL of a number that no call answers. In a freestanding program
 * it is the refusal's own number without its sign, as 8 of HOST_EAGAIN. */
static inline int host_errno(int64_t answer)
{
#if !__STDC_HOSTED__
    return answer >= 0 ? 0 : answer >= HOST_EDESTADDRREQ ? (int)-answer : -HOST_EINVAL;
#else
    switch (answer) {
    case HOST_EBADF: return EBADF;
    case HOST_EINVAL: return EINVAL;
    case HOST_EADDRINUSE: return EADDRINUSE;
    case HOST_EADDRNOTAVAIL: return EADDRNOTAVAIL;
    case HOST_EISCONN: return EISCONN;
    case HOST_ENOTCONN: return ENOTCONN;
    case HOST_EALREADY: return EALREADY;
    case HOST_EAGAIN: return EAGAIN;
    case HOST_ECONNREFUSED: return ECONNREFUSED;
    case HOST_ECONNRESET: return ECONNRESET;
    case HOST_ETIMEDOUT: return ETIMEDOUT;
    case HOST_EPIPE: return EPIPE;
    case HOST_EMSGSIZE: return EMSGSIZE;
    case HOST_ENETUNREACH: return ENETUNREACH;
    case HOST_EMFILE: return EMFILE;
    case HOST_ENOMEM: return ENOMEM;
    case HOST_EOPNOTSUPP: return EOPNOTSUPP;
    case HOST_EDESTADDRREQ: return EDESTADDRREQ;
    default: return answer < 0 ? EINVAL : 0;
    }
#endif
}

/* The name of a refusal, as "EAGAIN"; "?" of any other number. */
static inline const char *host_refusal_name(int64_t answer)
{
    switch (answer) {
    case HOST_EBADF: return "EBADF";
    case HOST_EINVAL: return "EINVAL";
    case HOST_EADDRINUSE: return "EADDRINUSE";
    case HOST_EADDRNOTAVAIL: return "EADDRNOTAVAIL";
    case HOST_EISCONN: return "EISCONN";
    case HOST_ENOTCONN: return "ENOTCONN";
    case HOST_EALREADY: return "EALREADY";
    case HOST_EAGAIN: return "EAGAIN";
    case HOST_ECONNREFUSED: return "ECONNREFUSED";
    case HOST_ECONNRESET: return "ECONNRESET";
    case HOST_ETIMEDOUT: return "ETIMEDOUT";
    case HOST_EPIPE: return "EPIPE";
    case HOST_EMSGSIZE: return "EMSGSIZE";
    case HOST_ENETUNREACH: return "ENETUNREACH";
    case HOST_EMFILE: return "EMFILE";
    case HOST_ENOMEM: return "ENOMEM";
    case HOST_EOPNOTSUPP: return "EOPNOTSUPP";
    case HOST_EDESTADDRREQ: return "EDESTADDRREQ";
    default: return "?";
    }
}

/* The name of a drop, as "OtherMac"; "?" of any other number. */
static inline const char *host_drop_name(int64_t answer)
{
    switch (answer) {
    case HOST_DROP_SHORT: return "Short";
    case HOST_DROP_OTHER_MAC: return "OtherMac";
    case HOST_DROP_OTHER_TYPE: return "OtherType";
    case HOST_DROP_IP_HEADER: return "IpHeader";
    case HOST_DROP_IP_SUM: return "IpSum";
    case HOST_DROP_OTHER_ADDRESS: return "OtherAddress";
    case HOST_DROP_UPPER_HEADER: return "UpperHeader";
    case HOST_DROP_UPPER_SUM: return "UpperSum";
    case HOST_DROP_NO_ROOM: return "NoRoom";
    case HOST_DROP_FRAGMENT: return "Fragment";
    case HOST_DROP_NO_HOST: return "NoHost";
    default: return "?";
    }
}

/* The name of a state, as "ESTABLISHED", with "DATAGRAM" for a UDP socket; "?" of any other number. */
static inline const char *host_state_name(int64_t answer)
{
    switch (answer) {
    case HOST_STATE_CLOSED: return "CLOSED";
    case HOST_STATE_LISTEN: return "LISTEN";
    case HOST_STATE_SYN_SENT: return "SYN-SENT";
    case HOST_STATE_SYN_RECEIVED: return "SYN-RECEIVED";
    case HOST_STATE_ESTABLISHED: return "ESTABLISHED";
    case HOST_STATE_FIN_WAIT_1: return "FIN-WAIT-1";
    case HOST_STATE_FIN_WAIT_2: return "FIN-WAIT-2";
    case HOST_STATE_CLOSE_WAIT: return "CLOSE-WAIT";
    case HOST_STATE_CLOSING: return "CLOSING";
    case HOST_STATE_LAST_ACK: return "LAST-ACK";
    case HOST_STATE_TIME_WAIT: return "TIME-WAIT";
    case HOST_STATE_DATAGRAM: return "DATAGRAM";
    default: return "?";
    }
}

#ifdef __cplusplus
}
#endif

#endif
