/* The same two hosts of lwIP, where it is there. */
#define _DEFAULT_SOURCE 1

#include "lwip_hosts.h"
#include "pair.h"

#include <lwip/pbuf.h>
#include <lwip/priv/tcp_priv.h>

enum { UNREAD = 256 };     /* segments */

static struct tcp_pcb *listener, *connection[ENDS];
static struct pbuf *unread[UNREAD];
static size_t unread_first, unread_count;

static void on_error(void *argument, err_t error)
{
    (void)argument;
    (void)error;
    fail("a connection of lwIP ended");
}

static err_t on_data(void *argument, struct tcp_pcb *pcb, struct pbuf *data, err_t error)
{
    (void)argument;
    (void)pcb;
    if (error != ERR_OK || data == NULL || unread_count == UNREAD) {
        fail("lwIP's data");
    }
    unread[(unread_first + unread_count) % UNREAD] = data;
    unread_count++;
    return ERR_OK;
}

static err_t on_accept(void *argument, struct tcp_pcb *pcb, err_t error)
{
    (void)argument;
    lwip_done(error, "accept");
    connection[FAR] = pcb;
    tcp_recv(pcb, on_data);
    tcp_err(pcb, on_error);
    return ERR_OK;
}

static void begin(void)
{
    lwip_make_hosts();
    connection[FAR] = NULL;
    listener = lwip_listen(on_accept);
    connection[NEAR] = lwip_connect();
    tcp_err(connection[NEAR], on_error);
}

static bool is_open(void)
{
    return connection[FAR] != NULL && connection[NEAR]->state == ESTABLISHED && connection[FAR]->state == ESTABLISHED;
}

static void end_both(void)
{
    for (int end = NEAR; end < ENDS; end++) {
        tcp_err(connection[end], NULL);
        tcp_abort(connection[end]);
    }
    tcp_close(listener);
}

/* What answers a frame or a read goes out at once; what is written waits for this. */
static void emit(enum end end)
{
    if (end == NEAR) {
        lwip_done(tcp_output(connection[NEAR]), "output");
    }
}

static size_t send_octets(const uint8_t *octets, size_t len)
{
    const size_t room = tcp_sndbuf(connection[NEAR]);
    const size_t count = len < room ? len : room;
    return count != 0 && tcp_write(connection[NEAR], octets, (u16_t)count, TCP_WRITE_FLAG_COPY) == ERR_OK ? count : 0;
}

/* Segments that fit whole. */
static size_t recv_octets(uint8_t *buffer, size_t len)
{
    size_t count = 0;
    while (unread_count != 0 && count + unread[unread_first]->tot_len <= len) {
        struct pbuf *data = unread[unread_first];
        count += pbuf_copy_partial(data, buffer + count, data->tot_len, 0);
        pbuf_free(data);
        unread_first = (unread_first + 1) % UNREAD;
        unread_count--;
    }
    if (count != 0) {
        tcp_recved(connection[FAR], (u16_t)count);
    }
    return count;
}

/* Its timers are looked at every 250 ms. */
static void wait_for_timer(void)
{
    tcp_tmr();
}

const struct stack lwip = {"lwIP", SMALL, begin, is_open, end_both, emit, lwip_deliver, send_octets, recv_octets, wait_for_timer};
