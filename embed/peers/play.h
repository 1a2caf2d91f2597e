/* The plays: what two programs do with a connection, each at its end. */
#ifndef PLAY_H
#define PLAY_H

#include "stack.h"

/* The steps of a program. Each is done before the next begins. */
enum act {
    STOP,     /* it is at its end */
    CONNECT,  /* opens the connection */
    ACCEPT,   /* takes it */
    REFUSAL,  /* opens a connection, and is told that nobody listens */
    MOVE,     /* writes so many octets and reads so many, at once */
    SHUTDOWN, /* closes its side */
    END,      /* reads the end of the stream */
    CLOSE,    /* gives the connection back */
    ABORT,    /* resets it */
    RESETS,   /* is told of a reset, where its stack tells such; else that the connection is over */
    WAIT,     /* until so many milliseconds after the play began */
    STALL     /* as WAIT; then the other program is still moving octets, since this one reads none */
};

struct step {
    enum act act;
    size_t write, read; /* octets of MOVE; of WAIT and STALL milliseconds, as `write` */
};

enum { STEPS = 10, MOST_OCTETS = 10 << 20 };

/* Where it is played. */
enum kind {
    SMALL, /* on good wires and bad ones */
    FRAIL, /* on good ones alone, as a reset is sent once, and may be lost */
    LARGE  /* by itself */
};

struct play {
    const char *name;
    unsigned wants;                 /* what neither stack may lack */
    enum kind kind;
    struct step parts[ENDS][STEPS]; /* of the near program, and of the far one */
};

/* All of them; the last has no name. */
extern const struct play plays[];

#endif
