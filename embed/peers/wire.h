/* Two hosts and the wire between them, in memory: it loses, repeats and delays frames by a sequence that is the same each time. */
#ifndef WIRE_H
#define WIRE_H

#include "stack.h"

enum { FRAME_SIZE = 1514 };

/* What befalls frames, either way. Frames are counted from each host by themselves, so that those of a seed are the same whatever the hosts are. */
struct faults {
    uint64_t seed;
    uint64_t delay;                 /* milliseconds that a frame takes */
    uint64_t loss, repeat, reorder; /* frames in 100 that are lost, that come twice, and that others overtake */
    uint64_t first;                 /* the first IPv4 frames of each host that are lost besides */
};

/* What went over the wire from each host. */
struct traffic {
    uint64_t frames, packets; /* packets: those of IPv4 */
    uint64_t resent;          /* segments with octets or a FIN that none before had gone past */
};

/* Of what stack each host is: the driver's to set, before it makes them. */
extern const struct stack *stacks[ENDS];
extern struct traffic traffic[ENDS];

/* Faults from now on. */
void wire_set(const struct faults *faults);
/* Has a capture made of all frames that go out, lost ones too, each once. */
void wire_capture(const char *path);
/* Where the next frame goes that a host emits; the program ends where there is no room. */
uint8_t *wire_place(void);
/* It is there, has so many octets, and this host emitted it. */
void wire_push(enum end end, size_t len);

/* Lets the next thing happen: a frame arrives, or the clock goes on to the next moment at which one does or a host acts, a millisecond at least.
   After it `work` is called for each host that it concerned, and what is due of that host goes out. The clock doesn't pass `until`. */
void go_on(uint64_t until, void (*work)(enum end end));
/* The same at once, for one host. */
void let_work(enum end end, void (*work)(enum end end));

/* Marsaglia's xorshift: the same numbers in each run. */
uint64_t drawn(uint64_t *state);

#endif
