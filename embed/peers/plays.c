#include "play.h"

enum {
    LITTLE = 3000, /* octets: some segments */
    MUCH = 200000  /* more than a window that isn't scaled */
};

/* A handshake is over long before. */
enum { SOON = 5000, A_MINUTE = 60000 };

const struct play plays[] = {
    {"the opener closes first", 0, SMALL,
     {{{CONNECT}, {MOVE, LITTLE, LITTLE}, {SHUTDOWN}, {END}, {CLOSE}}, {{ACCEPT}, {MOVE, LITTLE, LITTLE}, {END}, {SHUTDOWN}, {CLOSE}}}},
    {"the listener closes first", 0, SMALL,
     {{{CONNECT}, {MOVE, LITTLE, LITTLE}, {END}, {SHUTDOWN}, {CLOSE}}, {{ACCEPT}, {MOVE, LITTLE, LITTLE}, {SHUTDOWN}, {END}, {CLOSE}}}},
    {"both close at once", 0, SMALL,
     {{{CONNECT}, {MOVE, LITTLE, LITTLE}, {WAIT, SOON}, {SHUTDOWN}, {END}, {CLOSE}},
      {{ACCEPT}, {MOVE, LITTLE, LITTLE}, {WAIT, SOON}, {SHUTDOWN}, {END}, {CLOSE}}}},
    {"both open at once", OPENS_AT_ONCE, FRAIL,
     {{{WAIT, SOON}, {CONNECT}, {MOVE, LITTLE, LITTLE}, {SHUTDOWN}, {END}, {CLOSE}},
      {{WAIT, SOON}, {CONNECT}, {MOVE, LITTLE, LITTLE}, {END}, {SHUTDOWN}, {CLOSE}}}},
    {"the opener half-closes, and octets come after", 0, SMALL,
     {{{CONNECT}, {MOVE, LITTLE, 0}, {SHUTDOWN}, {MOVE, 0, MUCH}, {END}, {CLOSE}},
      {{ACCEPT}, {MOVE, 0, LITTLE}, {END}, {MOVE, MUCH, 0}, {SHUTDOWN}, {CLOSE}}}},
    {"the listener half-closes, and octets come after", 0, SMALL,
     {{{CONNECT}, {MOVE, 0, LITTLE}, {END}, {MOVE, MUCH, 0}, {SHUTDOWN}, {CLOSE}},
      {{ACCEPT}, {MOVE, LITTLE, 0}, {SHUTDOWN}, {MOVE, 0, MUCH}, {END}, {CLOSE}}}},
    {"the opener writes and closes at once", 0, SMALL, {{{CONNECT}, {MOVE, LITTLE, 0}, {CLOSE}}, {{ACCEPT}, {MOVE, 0, LITTLE}, {END}, {CLOSE}}}},
    {"the opener resets", 0, FRAIL,
     {{{CONNECT}, {MOVE, LITTLE, LITTLE}, {WAIT, SOON}, {ABORT}},
      {{ACCEPT}, {MOVE, LITTLE, LITTLE}, {RESETS}, {CLOSE}}}},
    {"the listener resets", 0, FRAIL,
     {{{CONNECT}, {MOVE, LITTLE, LITTLE}, {RESETS}, {CLOSE}},
      {{ACCEPT}, {MOVE, LITTLE, LITTLE}, {WAIT, SOON}, {ABORT}}}},
    {"the listener closes with octets unread", 0, FRAIL, {{{CONNECT}, {MOVE, LITTLE, 0}, {RESETS}, {CLOSE}}, {{ACCEPT}, {WAIT, SOON}, {CLOSE}}}},
    {"nobody listens", 0, SMALL, {{{REFUSAL}, {CLOSE}}, {{STOP}}}},
    {"the listener reads nothing for a minute", 0, LARGE,
     {{{CONNECT}, {MOVE, MOST_OCTETS, 0}, {SHUTDOWN}, {END}, {CLOSE}},
      {{ACCEPT}, {STALL, A_MINUTE}, {MOVE, 0, MOST_OCTETS}, {END}, {SHUTDOWN}, {CLOSE}}}},
    {"10 MB", 0, LARGE,
     {{{CONNECT}, {MOVE, MOST_OCTETS, 0}, {SHUTDOWN}, {END}, {CLOSE}},
      {{ACCEPT}, {MOVE, 0, MOST_OCTETS}, {END}, {SHUTDOWN}, {CLOSE}}}},
    {"10 MB each way at once", 0, LARGE,
     {{{CONNECT}, {MOVE, MOST_OCTETS, MOST_OCTETS}, {SHUTDOWN}, {END}, {CLOSE}},
      {{ACCEPT}, {MOVE, MOST_OCTETS, MOST_OCTETS}, {END}, {SHUTDOWN}, {CLOSE}}}},
    {0}};
