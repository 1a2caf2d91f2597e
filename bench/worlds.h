/* What the parts of `worlds` share: the world that is played, its two hosts, the wire between them, and chance. */
#ifndef WORLDS_H
#define WORLDS_H

#include "host.h"

#include <inttypes.h>
#include <stdbool.h>
#include <stddef.h>
#include <stdint.h>

/* The hosts, at 10.0.0.1 and 10.0.0.2. Either opens connections, to PORT of the other. */
enum end { NEAR, FAR, ENDS };

enum {
    CONNECTIONS = 6,   /* at most */
    WIRE_SIZE = 16384, /* frames on their way to one host, at most */
    PORT = 80,
    FIRST_PORT = 1000, /* of the ends that connect: a connection is known by it in every frame */
    MINUTES = 6        /* without losses, in which all is to be read */
};

/* Bits of a segment. */
enum { FIN = 1, SYN = 2, RST = 4 };

/* What a world came to. */
enum outcome {
    WELL,
    WAR,            /* frames go to and fro at one moment, and it doesn't end */
    DEAD,           /* octets that were written are never read */
    SLOW,           /* they are, but later than in MINUTES */
    WRONG,          /* other octets are read than were written, or the end before the last of them */
    UNTOLD,         /* the end of a stream is never told */
    ENDED,          /* a connection ended by an error */
    UNACKNOWLEDGED, /* all was read, but a host holds octets still, since no acknowledgement of them came */
    OUTCOMES
};

/* One side of a connection. */
struct side {
    uint64_t id; /* 0: not yet, or no longer */
    uint64_t written, read;
    bool is_shut, is_told; /* its writing side is closed; it was told the end of what it reads */
    bool asks;             /* it asks by itself whether the peer is there */
    bool is_aborted;
    bool has_isn;
    uint32_t isn;
};

/* What a segment says. */
struct segment {
    int connection;
    uint32_t number, acknowledgement;
    size_t len;
    uint16_t window;
    uint8_t flags;
};

struct frame {
    size_t len;
    uint8_t octets[HOST_FRAME_SIZE];
};

/* What befalls frames before the lossless part: how many in 100 are lost, come twice, are overtaken, and come again once they were heard. */
struct faults {
    uint64_t loss, repeat, reorder, again;
};

/* What was found of a world. All but the outcome is only counted: it may befall hosts that do as RFC 9293 says. */
struct findings {
    enum outcome outcome;
    bool passes_edge;  /* SND.UNA + SND.WND of a side was past what its peer had told */
    bool has_answered; /* a bare ACK was answered by a bare ACK */
    bool has_unheard;  /* a bare ACK acknowledged something new, and the host that heard it didn't use it */
};

/* What was counted of the parts of all worlds in which nothing is lost. */
struct counts {
    uint64_t minutes[MINUTES + 1];              /* worlds, by the minutes until all was read */
    uint64_t moments, frames, most_frames;      /* frames: of all moments, and the most at one */
    uint64_t bare, answered, unheard;           /* bare ACKs, and those of which has_answered and has_unheard tell */
    uint64_t aborted, told_at_once, told_later; /* connections that one side aborted: those whose other side knew at that moment, and in the end */
};

/* ---- The program: worlds.c ------------------------------------------------------------------------------------------------------------- */

extern bool traces, aborts; /* the words `trace` and `abort` */
extern struct counts counts;

/* Ends the program, with status 1, and names the world. */
void fail(const char *what);
/* With the word `trace`: a line of what happens now. */
void trace(const char *form, ...);

/* ---- The course of a world: worlds_play.c ---------------------------------------------------------------------------------------------- */

extern uint64_t now; /* milliseconds */
extern struct faults faults;
extern struct findings findings;

/* Plays the world of a seed: `findings` and `counts` tell what it did. */
void play(uint64_t seed, bool is_hard);
/* The world did what none may. The first cause counts. */
void judge(enum outcome outcome);

/* ---- The hosts and their applications: worlds_ends.c ----------------------------------------------------------------------------------- */

extern int connections;
extern struct side sides[CONNECTIONS][ENDS];

enum end other(enum end end);
/* 'a' or 'b', as traces call it. */
char name_of(enum end end);
/* Draws the octets that are written in all worlds. */
void make_source(void);
/* Makes both hosts, of drawn kinds, and no connection yet. */
void make_hosts(void);
void free_hosts(void);

void connect_one(int connection);
/* Writes as many octets as are taken, at most so many. */
void write_octets(int connection, enum end end, uint64_t len);
/* Reads at most so many. */
void read_octets(int connection, enum end end, uint64_t len);
/* All read what there is: how many octets that were. */
uint64_t read_all(void);
/* Closes a side's writing side. */
void shut(int connection, enum end end);
void abort_one(int connection, enum end end);
/* Whether one side of it aborted a connection: what the other one reads of it, and how it ends there, is no longer of use. */
bool is_cut(int connection);
/* A number of octets, from one to twice as many as this host's connections hold. */
uint64_t some_octets(enum end end);

/* Timers of a host act. */
void tick(enum end end);
/* When a timer of a host acts next, or UINT64_MAX. */
uint64_t deadline(enum end end);
/* The next frame of a host goes out: answers whether there was one, and whether it was a bare ACK. With `lossy` it may be lost, or come twice. */
bool emit_one(enum end end, bool lossy, bool *was_bare);
/* A host hears a frame, and its application accepts the connections that came of it. */
void hear(enum end end, const struct frame *frame);

/* Whether there is something to tell of this side's connection, and what. */
bool info_of(int connection, enum end end, struct host_info *info);
/* The most expiries of a timer of any connection since it last went on. */
int64_t most_expiries(void);
/* Octets of all connections that were written and are not acknowledged. */
uint64_t held(void);
/* Looks whether what a side may send by the window that it knows is within the window that its peer told. */
void look_at_edges(void);
void trace_infos(void);

/* ---- Chance, and the wire: worlds_wire.c ----------------------------------------------------------------------------------------------- */

/* Marsaglia's xorshift: the same numbers in each run. */
uint64_t drawn(uint64_t *state);
/* What is drawn from now on is of this seed. */
void begin_chance(uint64_t seed);
uint64_t below(uint64_t bound);
bool befalls(uint64_t in_100);
/* From `least` to `most`, small ones as often as large ones. */
uint64_t scaled(uint64_t least, uint64_t most);
uint32_t drawn_isn(void);

extern size_t queued[ENDS]; /* frames on their way to each host, of which the first ones are kept where this is made less */

void empty_wire(void);
/* Where the next frame for a host goes. It is on the wire once `queued` counts it. */
struct frame *place_for(enum end to);
/* Takes a frame off the wire, by its place among those on their way to a host. It stays as it is until WIRE_SIZE - 1 others are on the wire. */
const struct frame *taken_from(enum end to, size_t place);

/* Whether a frame has a segment of a connection of this world, and what that says. */
bool reads_segment(const struct frame *frame, struct segment *segment);
/* Whether a segment is a bare ACK: it has no octets, and no bit that opens or ends something. */
bool is_bare(const struct segment *segment);
void trace_frame(const char *what, enum end from, const struct frame *frame);

#endif
