/* Both hosts of lwIP. */
#define _DEFAULT_SOURCE 1

#include "lwip_hosts.h"

#include <string.h>

#include <lwip/etharp.h>
#include <lwip/init.h>
#include <lwip/pbuf.h>
#include <netif/ethernet.h>

static struct netif hosts[ENDS];

void lwip_done(err_t answer, const char *what)
{
    if (answer != ERR_OK) {
        fail(what);
    }
}

static err_t put_on_line(struct netif *netif, struct pbuf *frame)
{
    const enum end end = netif == &hosts[NEAR] ? NEAR : FAR;
    line_push(end, pbuf_copy_partial(frame, line_place(end), frame->tot_len, 0));
    return ERR_OK;
}

static err_t set_up(struct netif *netif)
{
    const uint8_t mac[6] = {2, 0, 0, 0, 0, netif == &hosts[NEAR] ? 1 : 2};
    memcpy(netif->hwaddr, mac, sizeof mac);
    netif->hwaddr_len = sizeof mac;
    netif->mtu = 1500;
    netif->output = etharp_output;
    netif->linkoutput = put_on_line;
    netif->flags = NETIF_FLAG_BROADCAST | NETIF_FLAG_ETHARP | NETIF_FLAG_ETHERNET | NETIF_FLAG_LINK_UP;
    return ERR_OK;
}

void lwip_make_hosts(void)
{
    static bool made;
    ip4_addr_t mask, none = {0};
    if (made) {
        return;
    }
    made = true;
    lwip_init();
    IP4_ADDR(&mask, 255, 255, 255, 0);
    for (int end = NEAR; end < ENDS; end++) {
        ip4_addr_t addr;
        IP4_ADDR(&addr, 10, 0, 0, end + 1);
        if (netif_add(&hosts[end], &addr, &mask, &none, NULL, set_up, ethernet_input) == NULL) {
            fail("netif_add");
        }
        netif_set_up(&hosts[end]);
    }
}

void lwip_deliver(enum end end, const uint8_t *frame, size_t len)
{
    struct pbuf *heard = pbuf_alloc(PBUF_RAW, (u16_t)len, PBUF_RAM);
    if (heard == NULL) {
        fail("pbuf_alloc");
    }
    lwip_done(pbuf_take(heard, frame, (u16_t)len), "pbuf_take");
    lwip_done(hosts[end].input(heard, &hosts[end]), "input");
}

static struct tcp_pcb *new_pcb(enum end end)
{
    struct tcp_pcb *pcb = tcp_new();
    if (pcb == NULL) {
        fail("tcp_new");
    }
    tcp_bind_netif(pcb, &hosts[end]);
    return pcb;
}

struct tcp_pcb *lwip_listen(tcp_accept_fn on_accept)
{
    struct tcp_pcb *bound = new_pcb(FAR);
    lwip_done(tcp_bind(bound, IP_ADDR_ANY, PORT), "bind");
    struct tcp_pcb *listener = tcp_listen(bound);
    if (listener == NULL) {
        fail("listen");
    }
    tcp_accept(listener, on_accept);
    return listener;
}

static err_t on_connected(void *argument, struct tcp_pcb *pcb, err_t error)
{
    (void)argument;
    (void)pcb;
    return error;
}

struct tcp_pcb *lwip_connect(void)
{
    const ip_addr_t far_addr = IPADDR4_INIT_BYTES(10, 0, 0, 2);
    struct tcp_pcb *pcb = new_pcb(NEAR);
    lwip_done(tcp_connect(pcb, &far_addr, PORT, on_connected), "connect");
    return pcb;
}
