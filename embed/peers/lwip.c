/* A host of lwIP: an interface of one instance without a thread, and its raw calls. It is built over Debian's library, with the limits of that:
   windows and buffers of 65,535 octets, segments of 1,460, no selective acknowledgements, and ten fragments of a datagram. */
#define _DEFAULT_SOURCE 1

#include "wire.h"

#include <string.h>

#include <lwip/etharp.h>
#include <lwip/init.h>
#include <lwip/pbuf.h>
#include <lwip/sys.h>
#include <lwip/tcp.h>
#include <lwip/timeouts.h>
#include <lwip/udp.h>
#include <netif/ethernet.h>

enum { CONNECTIONS = 64, DATAGRAMS = 16, TEN_FRAGMENTS = 10 * 1480 - 8 };

struct connection {
    bool is_used, waits; /* waits to be accepted */
    enum end end;
    struct tcp_pcb *pcb; /* NULL once lwIP has given it up */
    struct pbuf *unread; /* in order; lwIP's window counts them until they are read */
    bool end_came;
    enum standing standing;
};

/* Datagrams that came, in order. */
struct queue {
    struct udp_pcb *pcb;
    struct pbuf *came[DATAGRAMS];
    size_t count;
};

static struct netif hosts[ENDS];
static struct connection connections[CONNECTIONS];
static struct queue queues[ENDS];

/* lwIP's clock. The shared library calls it by name, and so finds this one before its own. */
u32_t sys_now(void)
{
    return (u32_t)moment;
}

static void done(err_t answer, const char *what)
{
    if (answer != ERR_OK) {
        fail(what);
    }
}

static void *made(void *it, const char *what)
{
    if (it == NULL) {
        fail(what);
    }
    return it;
}

/* ---- Frames ---------------------------------------------------------------------------------------------------------------------------- */

static err_t put_on_wire(struct netif *netif, struct pbuf *frame)
{
    wire_push(netif == &hosts[NEAR] ? NEAR : FAR, pbuf_copy_partial(frame, wire_place(), frame->tot_len, 0));
    return ERR_OK;
}

static err_t set_up(struct netif *netif)
{
    const uint8_t mac[6] = {2, 0, 0, 0, 0, netif == &hosts[NEAR] ? 1 : 2};
    memcpy(netif->hwaddr, mac, sizeof mac);
    netif->hwaddr_len = sizeof mac;
    netif->mtu = 1500;
    netif->output = etharp_output;
    netif->linkoutput = put_on_wire;
    netif->flags = NETIF_FLAG_BROADCAST | NETIF_FLAG_ETHARP | NETIF_FLAG_ETHERNET | NETIF_FLAG_LINK_UP;
    return ERR_OK;
}

static void make(enum end end)
{
    static bool made_one;
    ip4_addr_t addr, mask, none = {0};
    if (!made_one) {
        lwip_init();
        made_one = true;
    }
    IP4_ADDR(&mask, 255, 255, 255, 0);
    IP4_ADDR(&addr, 10, 0, 0, end == NEAR ? 1 : 2);
    made(netif_add(&hosts[end], &addr, &mask, &none, NULL, set_up, ethernet_input), "netif_add");
    netif_set_up(&hosts[end]);
}

static void deliver(enum end end, const uint8_t *frame, size_t len)
{
    struct pbuf *heard = made(pbuf_alloc(PBUF_RAW, (u16_t)len, PBUF_RAM), "pbuf_alloc");
    done(pbuf_take(heard, frame, (u16_t)len), "pbuf_take");
    done(hosts[end].input(heard, &hosts[end]), "input");
}

/* What answers a frame or a read goes out at once; what is written waits for this. */
static void emit(enum end end)
{
    for (size_t i = 0; i < CONNECTIONS; i++) {
        const struct connection *connection = &connections[i];
        if (connection->is_used && connection->end == end && connection->pcb != NULL && connection->standing == OPEN) {
            done(tcp_output(connection->pcb), "output");
        }
    }
}

static uint64_t next(enum end end)
{
    (void)end;
    const uint32_t wait = sys_timeouts_sleeptime();
    return wait == SYS_TIMEOUTS_SLEEPTIME_INFINITE ? UINT64_MAX : moment + wait;
}

static void tick(enum end end)
{
    (void)end;
    sys_check_timeouts();
}

/* ---- What lwIP calls of a connection ------------------------------------------------------------------------------------------------------ */

/* Its pcb is gone. After both sides were closed that is its end, and tells nothing. */
static void on_error(void *argument, err_t error)
{
    struct connection *connection = argument;
    connection->pcb = NULL;
    if (error != ERR_CLSD) {
        connection->standing = error == ERR_ABRT ? SILENT : connection->standing == OPENING ? REFUSED : RESET;
    }
}

static err_t on_data(void *argument, struct tcp_pcb *pcb, struct pbuf *data, err_t error)
{
    struct connection *connection = argument;
    (void)pcb;
    done(error, "lwIP's data");
    if (data == NULL) {
        connection->end_came = true;
    } else if (connection->unread == NULL) {
        connection->unread = data;
    } else {
        pbuf_cat(connection->unread, data);
    }
    return ERR_OK;
}

static err_t on_connected(void *argument, struct tcp_pcb *pcb, err_t error)
{
    struct connection *connection = argument;
    (void)pcb;
    connection->standing = OPEN;
    return error;
}

static struct connection *connection_of(enum end end, struct tcp_pcb *pcb)
{
    size_t place = 0;
    while (place < CONNECTIONS && connections[place].is_used) {
        place++;
    }
    if (place == CONNECTIONS) {
        fail("more connections than there is room for");
    }
    connections[place] = (struct connection){.is_used = true, .end = end, .pcb = pcb};
    tcp_arg(pcb, &connections[place]);
    tcp_recv(pcb, on_data);
    tcp_err(pcb, on_error);
    return &connections[place];
}

static err_t on_accept(void *argument, struct tcp_pcb *pcb, err_t error)
{
    done(error, "accept");
    struct connection *connection = connection_of(argument == &hosts[NEAR] ? NEAR : FAR, pcb);
    connection->standing = OPEN;
    connection->waits = true;
    return ERR_OK;
}

/* ---- Connections ------------------------------------------------------------------------------------------------------------------------- */

static struct connection *at(uint64_t id)
{
    return &connections[id - 1];
}

static uint64_t id_of(const struct connection *connection)
{
    return (uint64_t)(connection - connections) + 1;
}

static struct tcp_pcb *bound(enum end end, uint16_t port)
{
    struct tcp_pcb *pcb = made(tcp_new(), "tcp_new");
    tcp_bind_netif(pcb, &hosts[end]);
    done(tcp_bind(pcb, IP_ADDR_ANY, port), "bind");
    return pcb;
}

static uint16_t listen_at(enum end end, uint16_t port)
{
    struct tcp_pcb *listener = made(tcp_listen(bound(end, port)), "listen");
    tcp_arg(listener, &hosts[end]);
    tcp_accept(listener, on_accept);
    return port;
}

static uint64_t accept_one(enum end end)
{
    for (size_t i = 0; i < CONNECTIONS; i++) {
        if (connections[i].is_used && connections[i].waits && connections[i].end == end) {
            connections[i].waits = false;
            return id_of(&connections[i]);
        }
    }
    return 0;
}

static uint64_t connect_to(enum end end, uint16_t from, uint16_t to)
{
    const ip_addr_t peer = IPADDR4_INIT_BYTES(10, 0, 0, end == NEAR ? 2 : 1);
    struct connection *connection = connection_of(end, bound(end, from));
    done(tcp_connect(connection->pcb, &peer, to, on_connected), "connect");
    return id_of(connection);
}

static enum standing standing(enum end end, uint64_t id)
{
    (void)end;
    return at(id)->standing;
}

static size_t send_octets(enum end end, uint64_t id, const uint8_t *octets, size_t len)
{
    struct tcp_pcb *pcb = at(id)->pcb;
    (void)end;
    if (pcb == NULL) {
        return 0;
    }
    const size_t room = tcp_sndbuf(pcb), taken = len < room ? len : room;
    return taken != 0 && tcp_write(pcb, octets, (u16_t)taken, TCP_WRITE_FLAG_COPY) == ERR_OK ? taken : 0;
}

static size_t read_octets(enum end end, uint64_t id, uint8_t *buffer, size_t len)
{
    struct connection *connection = at(id);
    (void)end;
    if (connection->unread == NULL || len == 0) {
        return 0;
    }
    const size_t most = len < UINT16_MAX ? len : UINT16_MAX;
    const u16_t count = pbuf_copy_partial(connection->unread, buffer, (u16_t)most, 0);
    connection->unread = pbuf_free_header(connection->unread, count);
    if (connection->pcb != NULL) {
        tcp_recved(connection->pcb, count);
    }
    return count;
}

static bool has_ended(enum end end, uint64_t id)
{
    (void)end;
    return at(id)->end_came && at(id)->unread == NULL;
}

static void shut(enum end end, uint64_t id)
{
    (void)end;
    done(tcp_shutdown(at(id)->pcb, 0, 1), "shutdown");
}

/* The connection is no longer the program's. */
static struct tcp_pcb *given_back(uint64_t id)
{
    struct connection *connection = at(id);
    struct tcp_pcb *pcb = connection->pcb;
    if (connection->unread != NULL) {
        pbuf_free(connection->unread);
    }
    connection->is_used = false;
    if (pcb != NULL) {
        tcp_arg(pcb, NULL);
        tcp_recv(pcb, NULL);
        tcp_err(pcb, NULL);
    }
    return pcb;
}

static void give_back(enum end end, uint64_t id)
{
    struct tcp_pcb *pcb = given_back(id);
    (void)end;
    if (pcb != NULL) {
        done(tcp_close(pcb), "close");
    }
}

static void reset(enum end end, uint64_t id)
{
    (void)end;
    tcp_abort(given_back(id));
}

/* ---- Datagrams --------------------------------------------------------------------------------------------------------------------------- */

static void on_datagram(void *argument, struct udp_pcb *pcb, struct pbuf *datagram, const ip_addr_t *addr, u16_t port)
{
    struct queue *queue = argument;
    (void)pcb;
    (void)addr;
    (void)port;
    if (queue->count == DATAGRAMS) {
        pbuf_free(datagram);
    } else {
        queue->came[queue->count++] = datagram;
    }
}

static uint16_t bind_datagrams(enum end end, uint16_t port)
{
    struct udp_pcb *pcb = made(udp_new(), "udp_new");
    queues[end].pcb = pcb;
    udp_bind_netif(pcb, &hosts[end]);
    done(udp_bind(pcb, IP_ADDR_ANY, port), "udp_bind");
    udp_recv(pcb, on_datagram, &queues[end]);
    return port;
}

static bool send_datagram(enum end end, uint16_t port, const uint8_t *octets, size_t len)
{
    const ip_addr_t peer = IPADDR4_INIT_BYTES(10, 0, 0, end == NEAR ? 2 : 1);
    struct pbuf *datagram = made(pbuf_alloc(PBUF_TRANSPORT, (u16_t)len, PBUF_RAM), "pbuf_alloc");
    done(pbuf_take(datagram, octets, (u16_t)len), "pbuf_take");
    const err_t answer = udp_sendto_if(queues[end].pcb, datagram, &peer, port, &hosts[end]);
    pbuf_free(datagram);
    return answer == ERR_OK;
}

static int64_t read_datagram(enum end end, uint8_t *buffer, size_t len)
{
    struct queue *queue = &queues[end];
    if (queue->count == 0) {
        return -1;
    }
    struct pbuf *datagram = queue->came[0];
    const u16_t count = pbuf_copy_partial(datagram, buffer, len < UINT16_MAX ? (u16_t)len : UINT16_MAX, 0);
    pbuf_free(datagram);
    memmove(queue->came, queue->came + 1, --queue->count * sizeof queue->came[0]);
    return count;
}

const struct stack lwip = {
    .name = "lwIP", .largest = TEN_FRAGMENTS, .make = make, .deliver = deliver, .emit = emit, .next = next, .tick = tick,
    .listen = listen_at, .accept = accept_one, .connect = connect_to, .standing = standing, .send = send_octets, .recv = read_octets,
    .ended = has_ended, .shutdown = shut, .close = give_back, .abort = reset, .bind = bind_datagrams, .send_datagram = send_datagram,
    .recv_datagram = read_datagram
};
