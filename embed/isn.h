/*
 * Numbers that nobody who doesn't see the frames can guess: initial sequence numbers (RFC 6528) and dynamic ports (RFC 6056), of a secret.
 *
 * There is no I/O here, and no variable: the program draws a secret once, of a source that nobody foretells (getrandom of Linux), tells it to nobody, and
 * hands it in with the moment. It is C99 and C++11, and wants nothing of a C library: compile isn.c beside host.h. embed/isn.py answers the same.
 *
 * A connection that the program opens, from `addr` to `peer`:
 *
 *     for (tries = 0; tries < HOST_ENTRIES && (done = host_bind(&host, id, 0, isn_port(secret, addr, &peer, &ports))) == HOST_EADDRINUSE; tries++)
 *         continue;
 *     if (host_would_connect(&host, id, peer.addr, peer.port, pair) == 1)
 *         done = host_connect(&host, now, isn_of(secret, pair, microseconds), id, peer.addr, peer.port);
 *
 * One that a frame opens:
 *
 *     isn = host_would_open(&host, frame, len, pair) == 1 ? isn_of(secret, pair, microseconds) : 0;
 *     host_deliver(&host, now, isn, frame, len);
 */
#ifndef ISN_H
#define ISN_H

#include "host.h"

#ifdef __cplusplus
extern "C" {
#endif

/* The octets of a secret. */
#define ISN_SECRET_SIZE 16
/* The dynamic ports are these and all above (RFC 6335 section 6): ISN_PORTS of them. */
#define ISN_PORT_FIRST 49152
#define ISN_PORTS 16384

/* SipHash-2-4 (Aumasson and Bernstein, 2012) of `len` octets, by a secret. Whoever knows its values of other octets, but not the secret, knows nothing of
 * this one. */
uint64_t isn_siphash(const uint8_t secret[ISN_SECRET_SIZE], const uint8_t *octets, size_t len);

/* The initial sequence number of the connection between these two ends at this moment: M + F(both ends, secret) of RFC 6528 section 3. M is a clock that
 * goes on by one every 4 microseconds (RFC 9293 section 3.4.1), F is isn_siphash of the ends' addresses and ports in network order, less its high half.
 *
 * `pair` is as host_would_connect and host_would_open write it. `microseconds` count from any origin, by a clock that doesn't go back as long as the
 * secret is the same: so a pair that is used again gets numbers past those of before, and two pairs have nothing to do with one another. Where a secret
 * or a clock begins anew, as after a restart, wait for two minutes first (RFC 9293 section 3.4.3). */
uint32_t isn_of(const uint8_t secret[ISN_SECRET_SIZE], const struct host_endpoint pair[2], uint64_t microseconds);

/* What isn_port counts: the table of RFC 6056 section 3.3.4. Draw its octets as those of the secret. */
struct isn_ports {
    uint16_t next[16];
};

/* A dynamic port for a connection from our address `local` to `peer`, by RFC 6056 section 3.3.4 (double-hash port selection); each call goes on to the
 * next. Where host_bind answers HOST_EADDRINUSE of it, call again, as often at most as the host has entries: it has no more sockets.
 *
 * Why that: to one peer the ports go up in turn, from a place that only the secret tells, so the same two ends come again after ISN_PORTS calls at the
 * soonest. By section 3.3.3 they do too, but its one counter shows each peer how many connections the program opens; here 16 share them. By ports at
 * random, of sections 3.3.1 and 3.3.2, they may come again at once. A peer foretells its own next port, and none of another's. Who must have each one
 * unforeseen by all, as a resolver (RFC 5452 section 9.2), draws it: ISN_PORT_FIRST | number. */
uint16_t isn_port(const uint8_t secret[ISN_SECRET_SIZE], uint32_t local, const struct host_endpoint *peer, struct isn_ports *ports);

#ifdef __cplusplus
}
#endif

#endif
