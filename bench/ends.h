/* What the benchmarks `pair` and `flows` share: two hosts that are joined in memory, and frames on their way. */
#ifndef ENDS_H
#define ENDS_H

#include <stdbool.h>
#include <stddef.h>
#include <stdint.h>

enum {
    FRAME_SIZE = 1514,
    PORT = 80
};

/* The hosts, at 10.0.0.1 and 10.0.0.2. The near one opens connections, the far one listens at PORT. */
enum end { NEAR, FAR, ENDS };

/* Frames that one host has emitted and the other hasn't heard yet are on its line, in order. Where the next one goes; the program ends where there is
   no room. */
uint8_t *line_place(enum end end);
/* It is there, and has so many octets. */
void line_push(enum end end, size_t len);

/* Ends the program, with status 1. */
void fail(const char *what);

#endif
