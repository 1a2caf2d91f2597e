/* The same of lwIP, where it is there. Its two hosts share one instance, and so one list of connections. */
#define _DEFAULT_SOURCE 1

#include "flows.h"
#include "lwip_hosts.h"

#include <lwip/pbuf.h>
#include <lwip/priv/tcp_priv.h>

/* One end of a connection. */
struct flow {
    struct tcp_pcb *pcb;     /* NULL once lwIP has given it up */
    struct pbuf *unread;     /* in order */
    bool end_came;
};

static struct flow ends[FLOWS_MOST][ENDS];
static struct tcp_pcb *listener;
static struct flow *opened;     /* the far end of the connection that is opened */
static uint64_t untimed;        /* milliseconds that passed since its timers acted */

/* After both sides were closed this is its end. */
static void on_error(void *argument, err_t error)
{
    struct flow *flow = argument;
    if (error != ERR_CLSD) {
        fail("a connection of lwIP ended");
    }
    flow->pcb = NULL;
}

static err_t on_data(void *argument, struct tcp_pcb *pcb, struct pbuf *data, err_t error)
{
    struct flow *flow = argument;
    (void)pcb;
    lwip_done(error, "lwIP's data");
    if (data == NULL) {
        flow->end_came = true;
    } else if (flow->unread == NULL) {
        flow->unread = data;
    } else {
        pbuf_cat(flow->unread, data);
    }
    return ERR_OK;
}

static void take(struct flow *flow, struct tcp_pcb *pcb)
{
    flow->pcb = pcb;
    tcp_arg(pcb, flow);
    tcp_recv(pcb, on_data);
    tcp_err(pcb, on_error);
}

static err_t on_accept(void *argument, struct tcp_pcb *pcb, err_t error)
{
    (void)argument;
    lwip_done(error, "accept");
    take(opened, pcb);
    return ERR_OK;
}

static void begin(size_t flows)
{
    (void)flows;
    lwip_make_hosts();
    listener = lwip_listen(on_accept);
}

/* What is left are connections in TIME-WAIT, which lwIP keeps. */
static void end_both(void)
{
    tcp_close(listener);
}

/* What answers a frame, is written or is read goes out at once. */
static void emit(enum end end)
{
    (void)end;
}

static void pass_time(uint64_t milliseconds)
{
    for (untimed += milliseconds; untimed >= TCP_TMR_INTERVAL; untimed -= TCP_TMR_INTERVAL) {
        tcp_tmr();
    }
}

static void connect_near(size_t flow)
{
    opened = &ends[flow][FAR];
    take(&ends[flow][NEAR], lwip_connect());
}

static void accept_far(size_t flow)
{
    for (int end = NEAR; end < ENDS; end++) {
        if (ends[flow][end].pcb == NULL || ends[flow][end].pcb->state != ESTABLISHED) {
            fail("a connection of lwIP doesn't open");
        }
    }
}

static void send_octets(enum end end, size_t flow, const uint8_t *octets, size_t len)
{
    lwip_done(tcp_write(ends[flow][end].pcb, octets, (u16_t)len, TCP_WRITE_FLAG_COPY), "octets can't be sent");
    lwip_done(tcp_output(ends[flow][end].pcb), "output");
}

static size_t recv_octets(enum end end, size_t flow, uint8_t *buffer, size_t len)
{
    struct flow *it = &ends[flow][end];
    if (it->unread == NULL) {
        return 0;
    }
    const u16_t count = pbuf_copy_partial(it->unread, buffer, (u16_t)len, 0);
    it->unread = pbuf_free_header(it->unread, count);
    tcp_recved(it->pcb, count);
    return count;
}

static void shut(enum end end, size_t flow)
{
    lwip_done(tcp_shutdown(ends[flow][end].pcb, 0, 1), "shutdown");
}

static bool is_over(enum end end, size_t flow)
{
    return ends[flow][end].end_came && ends[flow][end].unread == NULL;
}

static void close_end(enum end end, size_t flow)
{
    struct flow *it = &ends[flow][end];
    if (it->pcb != NULL) {
        lwip_done(tcp_close(it->pcb), "close");
    }
}

const struct stack lwip = {
    .name = "lwIP", .begin = begin, .end = end_both, .emit = emit, .deliver = lwip_deliver, .pass_time = pass_time, .connect = connect_near,
    .accept = accept_far, .send = send_octets, .recv = recv_octets, .shut = shut, .is_over = is_over, .close = close_end
};
