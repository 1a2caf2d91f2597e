/* What the parts of the benchmark `pair` share: what a stack is to the driver. */
#ifndef PAIR_H
#define PAIR_H

#include "ends.h"

enum {
    SEGMENT = 1460,      /* octets of a full one */
    SMALL = 65535,       /* octets of a send buffer, a receive buffer and a window, where windows aren't scaled */
    LARGE = 1048576      /* and where they are */
};

/* Two hosts of one kind, with a connection that is open between them. */
struct stack {
    const char *name;
    /* Octets of a send buffer, a receive buffer and a window. */
    size_t room;
    /* Makes both hosts, and begins to open the connection. */
    void (*begin)(void);
    /* Whether both ends are ESTABLISHED. */
    bool (*is_open)(void);
    /* Gives both back. */
    void (*end)(void);
    /* Puts what is due of a host on its line. */
    void (*emit)(enum end end);
    /* A host hears a frame. */
    void (*deliver)(enum end end, const uint8_t *frame, size_t len);
    /* Writes at the near end: how many octets were taken. */
    size_t (*send)(const uint8_t *octets, size_t len);
    /* Reads at the far end: how many octets there were. */
    size_t (*recv)(uint8_t *buffer, size_t len);
    /* Lets the clock of both go on to the next moment at which a timer acts. */
    void (*wait)(void);
};

extern const struct stack ours, ours_scaled;
#ifdef WITH_LWIP
extern const struct stack lwip;
#endif

#endif
