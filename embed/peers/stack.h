/* What a stack is to a program that joins two hosts by memory: the clock, and the calls of a host. Each end of a run is of one stack, of the same or
   not: the near host is 10.0.0.1, the far one 10.0.0.2. */
#ifndef STACK_H
#define STACK_H

#include <stdbool.h>
#include <stddef.h>
#include <stdint.h>

enum end { NEAR, FAR, ENDS };

/* The clock of both, in milliseconds. Who joins them moves it, and nobody else. */
extern uint64_t moment;

/* How a connection stands, as its host tells the program. The last three are of one that is over but for its octets that nobody read. */
enum standing { OPENING, OPEN, REFUSED, RESET, SILENT };

/* What a stack may lack, each a bit. */
enum {
    OPENS_AT_ONCE = 1, /* it opens a connection to a port that is opening one to it */
    TELLS_RESETS = 2,  /* it tells its program of a reset, or that nobody listens */
    JOINS_ITSELF = 4,  /* it has hosts at both ends */
    JOINS_ANY = 8      /* it joins fragments that don't come in order: of such libslirp 4.7.0 loses some, and may read outside of its memory */
};

/* Hosts of one kind. A connection has a number from 1 on. Each call is made of a host that is made, and of a connection that isn't closed. */
struct stack {
    const char *name;
    unsigned lacks;
    size_t largest; /* the most octets of a datagram that it takes in fragments */

    void (*make)(enum end end);
    /* A host hears a frame. */
    void (*deliver)(enum end end, const uint8_t *frame, size_t len);
    /* Puts what is due of a host on the wire. */
    void (*emit)(enum end end);
    /* The next moment at which something of a host acts by itself, or UINT64_MAX. */
    uint64_t (*next)(enum end end);
    /* The clock has moved. */
    void (*tick)(enum end end);

    /* Listens at a port: answers which, where its host can't have that one. */
    uint16_t (*listen)(enum end end, uint16_t port);
    /* Takes the connection that opened first: its number, or 0 where none waits. */
    uint64_t (*accept)(enum end end);
    /* Begins to open a connection to a port of the other end, from a port of its own, or from one of the host's choice where that is 0. 0 where the
       host has no place for one now. */
    uint64_t (*connect)(enum end end, uint16_t from, uint16_t to);
    enum standing (*standing)(enum end end, uint64_t id);
    /* How many of these octets were taken. */
    size_t (*send)(enum end end, uint64_t id, const uint8_t *octets, size_t len);
    /* How many octets were read. */
    size_t (*recv)(enum end end, uint64_t id, uint8_t *buffer, size_t len);
    /* Whether all was read, and the other end has closed its side. */
    bool (*ended)(enum end end, uint64_t id);
    /* Closes the host's side. */
    void (*shutdown)(enum end end, uint64_t id);
    /* Gives the connection back; all that was sent still goes out. */
    void (*close)(enum end end, uint64_t id);
    /* Gives it back, and resets it. */
    void (*abort)(enum end end, uint64_t id);

    /* Makes the host's one socket for datagrams: answers its port likewise. */
    uint16_t (*bind)(enum end end, uint16_t port);
    /* To a port of the other end: whether it was taken. */
    bool (*send_datagram)(enum end end, uint16_t port, const uint8_t *octets, size_t len);
    /* How many octets the datagram had that came first, or -1 where none did. */
    int64_t (*recv_datagram)(enum end end, uint8_t *buffer, size_t len);
};

/* This stack, with recovery `plain`, by NewReno and by reports, the last with windows of 65,535 octets too. */
extern const struct stack plain, newreno, selective, selective_small;
extern const struct stack lwip, gvisor, slirp;

/* Ends the program, with status 1. */
_Noreturn void fail(const char *what);

#endif
