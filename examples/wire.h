/*
 * What the stack leaves to its program, for the examples on a link: the link, the clock and the random source of Linux, and one turn of the loop of
 * docs/EMBEDDING.md. It comes before all other headers.
 *
 * The link is a descriptor that gives and takes a frame at a time: a TAP device, or one that the program was started with, as of socketpair.
 */
#ifndef WIRE_H
#define WIRE_H

#define _GNU_SOURCE 1

#include "host.h"
#include "isn.h"

#include <arpa/inet.h>
#include <fcntl.h>
#include <linux/if.h>
#include <linux/if_tun.h>
#include <poll.h>
#include <stdio.h>
#include <stdlib.h>
#include <string.h>
#include <sys/ioctl.h>
#include <sys/random.h>
#include <time.h>
#include <unistd.h>

#define WIRE_FRAME_SIZE 2048 /* room for a frame that arrives; the host drops one of more than 1,514 octets */

/* A program's end of a link. */
struct wire {
    int frames;                      /* the descriptor */
    uint8_t mac[6];                  /* the MAC of the host, drawn at random */
    uint8_t secret[ISN_SECRET_SIZE]; /* of initial numbers */
};

/* Microseconds of a clock that never goes back. */
static inline uint64_t wire_microseconds(void)
{
    struct timespec at;

    clock_gettime(CLOCK_MONOTONIC, &at);
    return (uint64_t)at.tv_sec * 1000000 + (uint64_t)at.tv_nsec / 1000;
}

/* The moment now, in milliseconds. */
static inline uint64_t wire_now(void)
{
    return wire_microseconds() / 1000;
}

/* Octets that nobody can foretell. */
static inline void wire_draw(void *octets, size_t len)
{
    if (getrandom(octets, len, 0) != (ssize_t)len) {
        perror("getrandom");
        exit(1);
    }
}

/* An address of the command line, as 10.0.0.1. */
static inline uint32_t wire_addr(const char *word)
{
    struct in_addr addr;

    if (inet_pton(AF_INET, word, &addr) != 1) {
        fprintf(stderr, "'%s' is no address\n", word);
        exit(2);
    }
    return ntohl(addr.s_addr);
}

/* Writes an address as text, and answers it. */
static inline const char *wire_text(uint32_t addr, char text[INET_ADDRSTRLEN])
{
    const struct in_addr in_order = {htonl(addr)};

    return inet_ntop(AF_INET, &in_order, text, INET_ADDRSTRLEN);
}

/* Opens a link by two words of the command line: `--tap NAME`, a TAP device, or `--fd NUMBER`. What fails ends the program. */
static inline void wire_open(struct wire *wire, const char *kind, const char *word)
{
    struct ifreq request;

    wire_draw(wire->secret, sizeof wire->secret);
    wire_draw(wire->mac, sizeof wire->mac);
    wire->mac[0] = (uint8_t)((wire->mac[0] & 0xfc) | 2); /* of one interface, and given by nobody */
    if (strcmp(kind, "--fd") == 0) {
        wire->frames = atoi(word);
        return;
    }
    if (strcmp(kind, "--tap") != 0 || strlen(word) >= sizeof request.ifr_name) {
        fputs("the link is --tap NAME or --fd NUMBER\n", stderr);
        exit(2);
    }
    memset(&request, 0, sizeof request);
    request.ifr_flags = IFF_TAP | IFF_NO_PI;
    memcpy(request.ifr_name, word, strlen(word));
    wire->frames = open("/dev/net/tun", O_RDWR | O_CLOEXEC);
    if (wire->frames < 0 || ioctl(wire->frames, TUNSETIFF, &request) != 0) {
        perror(word);
        exit(1);
    }
}

/* Waits for a frame until a moment: its length, or 0 where none came. Where the link is gone the program ends. */
static inline size_t wire_read(const struct wire *wire, uint64_t until, uint8_t frame[WIRE_FRAME_SIZE])
{
    struct pollfd ready = {wire->frames, POLLIN, 0};
    const uint64_t now = wire_now(), wait = until > now ? until - now : 0;
    ssize_t len;

    if (poll(&ready, 1, wait < 60000 ? (int)wait : 60000) != 1)
        return 0;
    len = read(wire->frames, frame, WIRE_FRAME_SIZE);
    if (len <= 0) {
        fputs("the link is gone\n", stderr);
        exit(1);
    }
    return (size_t)len;
}

/* Puts a frame onto the link. One that it doesn't take is lost, as links may do. */
static inline void wire_write(const struct wire *wire, const uint8_t *frame, size_t len)
{
    if (write(wire->frames, frame, len) != (ssize_t)len)
        perror("a frame is lost");
}

/* One turn, behind the program's calls: what is due goes out, and then a frame arrives, or a timer acts, or the moment comes. */
static inline void wire_turn(const struct wire *wire, struct host *host, uint64_t until)
{
    uint8_t frame[WIRE_FRAME_SIZE];
    struct host_endpoint pair[2];
    uint64_t moment, now = wire_now();
    uint32_t isn = 0;
    int64_t due;
    size_t len;

    while ((due = host_next_frame(host, now, frame)) > 0)
        wire_write(wire, frame, (size_t)due);
    if (host_next_deadline(host, &moment) == 1 && moment < until)
        until = moment;
    len = wire_read(wire, until, frame);
    now = wire_now();
    host_tick(host, now);
    if (len > 0 && host_would_open(host, frame, len, pair) == 1)
        isn = isn_of(wire->secret, pair, wire_microseconds());
    if (len > 0)
        host_deliver(host, now, isn, frame, len);
}

#endif
