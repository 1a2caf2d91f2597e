/* What the parts of the benchmark `flows` share: what a stack is to the driver. */
#ifndef FLOWS_H
#define FLOWS_H

#include "ends.h"

enum { FLOWS_MOST = 16383 };     /* a host of this stack has 16,384 entries at most, and its listener is one */

/* Two hosts of one kind, and the connections between them: each has a number, in turn from 0 on, and an end at both. */
struct stack {
    const char *name;
    /* Makes both hosts, for so many connections. */
    void (*begin)(size_t flows);
    /* Gives both back. */
    void (*end)(void);
    /* Puts what is due of a host on its line. */
    void (*emit)(enum end end);
    /* A host hears a frame. */
    void (*deliver)(enum end end, const uint8_t *frame, size_t len);
    /* So many milliseconds pass, and timers act. */
    void (*pass_time)(uint64_t milliseconds);
    /* The near host begins to open a connection. */
    void (*connect)(size_t flow);
    /* The far host takes it: it is open at both ends. */
    void (*accept)(size_t flow);
    /* All octets are given to an end. */
    void (*send)(enum end end, size_t flow, const uint8_t *octets, size_t len);
    /* Reads at an end: how many octets there were. */
    size_t (*recv)(enum end end, size_t flow, uint8_t *buffer, size_t len);
    /* Closes an end's side. */
    void (*shut)(enum end end, size_t flow);
    /* Whether an end's stream is read to its end. */
    bool (*is_over)(enum end end, size_t flow);
    /* Gives an end back, of which both sides are closed. */
    void (*close)(enum end end, size_t flow);
};

extern const struct stack ours;
#ifdef WITH_LWIP
extern const struct stack lwip;
#endif

#endif
