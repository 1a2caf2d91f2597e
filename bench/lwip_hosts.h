/* Both hosts of lwIP, where it is there: two interfaces of one instance without a thread, and its raw calls. It is built over Debian's library, with
   the limits of that: windows and buffers of 65,535 octets, segments of 1,460, and as many connections as there is memory for. */
#ifndef LWIP_HOSTS_H
#define LWIP_HOSTS_H

#include "ends.h"

#include <lwip/tcp.h>

/* Makes both, the first time. */
void lwip_make_hosts(void);
/* A host hears a frame. */
void lwip_deliver(enum end end, const uint8_t *frame, size_t len);
/* The far host listens, and this is called with each connection. */
struct tcp_pcb *lwip_listen(tcp_accept_fn on_accept);
/* The near host begins to open a connection. */
struct tcp_pcb *lwip_connect(void);
/* Ends the program where a call is refused. */
void lwip_done(err_t answer, const char *what);

#endif
