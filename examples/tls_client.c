/*
 * A TLS client over a connection of the host: OpenSSL by memory BIOs, joined to host_send and host_recv in `move` and `step`. It fetches a page. As root,
 * with a server at 10.0.0.1 (openssl s_server -accept 443 -www -cert cert.pem -key key.pem), whose certificate is for a.example:
 *
 *     cc -std=c99 -I embed examples/tls_client.c embed/isn.c embed/lib/x86_64/libhostc.a -lssl -lcrypto -o tls
 *     ip tuntap add dev tap0 mode tap && ip addr add 10.0.0.1/24 dev tap0 && ip link set tap0 up &&
 *         ./tls --tap tap0 10.0.0.2 10.0.0.1 10.0.0.1 443 a.example cert.pem
 *
 * `embed/build` makes it where OpenSSL's headers are (3.0 or later), and `embed/try-examples` tries it.
 */
#include "wire.h"

#include <openssl/err.h>
#include <openssl/ssl.h>

/* What a step comes to. */
enum outcome { GOES_ON, ENDED, FAILED };

/* A connection of a host, and the TLS on it. */
struct client {
    struct host *host;
    uint64_t id;
    SSL *tls;
    BIO *in, *out; /* what came for TLS, and what it has to send */
    int is_asked;  /* the request was given to TLS */
};

/* Moves octets between TLS and its connection, as far as they go now: 0, or why the connection failed. */
static int64_t move(const struct client *client)
{
    uint8_t octets[16384];
    int64_t len, room;

    while (BIO_pending(client->out) > 0 && (room = host_send_room(client->host, client->id)) > 0) {
        const int count = BIO_read(client->out, octets, room < (int64_t)sizeof octets ? (int)room : (int)sizeof octets);
        if ((len = host_send(client->host, client->id, octets, (size_t)count)) < 0)
            return len;
    }
    while ((len = host_recv(client->host, client->id, octets, sizeof octets)) > 0)
        BIO_write(client->in, octets, (int)len);
    if (len == 0)
        BIO_set_mem_eof_return(client->in, 0); /* from now on its end is that of the stream, and not that nothing came yet */
    return len == HOST_EAGAIN ? 0 : len;
}

/* Shakes hands, asks and reads the answer, as far as that goes now. It has ended only where TLS says so: a stream that was cut fails. */
static enum outcome step(struct client *client, const char *request)
{
    char octets[16384];
    int64_t done = move(client);
    int len = 0, error;

    if (done < 0) {
        fprintf(stderr, "tls_client: %s\n", host_refusal_name(done));
        return FAILED;
    }
    ERR_clear_error();
    if (!client->is_asked && (len = SSL_write(client->tls, request, (int)strlen(request))) > 0) /* after the handshake, which it makes */
        client->is_asked = 1;
    while (client->is_asked && (len = SSL_read(client->tls, octets, sizeof octets)) > 0)
        fwrite(octets, 1, (size_t)len, stdout);
    error = SSL_get_error(client->tls, len);
    move(client); /* what TLS said goes out in this turn; where that fails, the next step tells */
    if (error == SSL_ERROR_ZERO_RETURN)
        return ENDED;
    if (error == SSL_ERROR_WANT_READ)
        return GOES_ON;
    ERR_print_errors_fp(stderr);
    return FAILED;
}

/* Begins TLS: the server's certificate must be for this name, and be of one of the authorities in this file, or of the system's. What fails ends the
 * program. */
static void begin_tls(struct client *client, const char *name, const char *authorities)
{
    SSL_CTX *context = SSL_CTX_new(TLS_client_method());

    client->in = BIO_new(BIO_s_mem());
    client->out = BIO_new(BIO_s_mem());
    if (context != NULL &&
        (authorities == NULL ? SSL_CTX_set_default_verify_paths(context) : SSL_CTX_load_verify_locations(context, authorities, NULL)) == 1)
        client->tls = SSL_new(context);
    SSL_CTX_free(context); /* client->tls keeps it */
    if (client->tls == NULL || client->in == NULL || client->out == NULL || SSL_set1_host(client->tls, name) != 1 ||
        SSL_set_tlsext_host_name(client->tls, name) != 1) {
        ERR_print_errors_fp(stderr);
        exit(1);
    }
    SSL_set_verify(client->tls, SSL_VERIFY_PEER, NULL);
    SSL_set_bio(client->tls, client->in, client->out); /* they are freed with it */
    SSL_set_connect_state(client->tls);
}

/* Begins to open a connection from a port of RFC 6056, with a number of RFC 6528: its id, or a refusal. */
static int64_t begin_connection(const struct wire *wire, struct host *host, uint32_t addr, const struct host_endpoint *peer)
{
    const int64_t id = host_socket(host, HOST_KIND_TCP);
    int64_t done = id < 0 ? id : HOST_EADDRINUSE;
    struct host_endpoint pair[2];
    struct isn_ports ports;
    int tries;

    wire_draw(&ports, sizeof ports);
    for (tries = 0; tries < HOST_ENTRIES && done == HOST_EADDRINUSE; tries++)
        done = host_bind(host, (uint64_t)id, HOST_ADDR_ANY, isn_port(wire->secret, addr, peer, &ports));
    if (done == 0 && host_would_connect(host, (uint64_t)id, peer->addr, peer->port, pair) == 1)
        done = host_connect(host, wire_now(), isn_of(wire->secret, pair, wire_microseconds()), (uint64_t)id, peer->addr, peer->port);
    return done < 0 ? done : id;
}

/* Closes the connection behind what TLS has to send, and gives the peer two seconds to do so too. */
static void end_connection(const struct wire *wire, struct client *client)
{
    const uint64_t until = wire_now() + 2000;
    int64_t state = HOST_STATE_ESTABLISHED;

    move(client);
    host_shutdown_write(client->host, client->id);
    while (wire_now() < until && state != HOST_STATE_TIME_WAIT && state != HOST_STATE_CLOSED) {
        wire_turn(wire, client->host, until);
        state = host_state(client->host, client->id);
    }
}

int main(int argc, char **argv)
{
    struct host host = {0};
    struct host_route routes[2] = {{0, 0, 24}, {0, 0, 0}};
    struct client client = {.host = &host};
    struct wire wire;
    struct host_endpoint peer;
    enum outcome outcome = GOES_ON;
    char request[512];
    uint32_t addr;
    uint64_t until;
    int64_t id;

    if (argc < 8 || argc > 9 || strlen(argv[7]) > 255) {
        fputs("Usage: tls_client (--tap NAME | --fd NUMBER) ADDR GATEWAY PEER PORT NAME [AUTHORITIES]\n", stderr);
        return 2;
    }
    addr = wire_addr(argv[3]);
    routes[0].prefix = addr & 0xffffff00;
    routes[1].gateway = wire_addr(argv[4]);
    peer = (struct host_endpoint){wire_addr(argv[5]), (uint16_t)atoi(argv[6])};
    snprintf(request, sizeof request, "GET / HTTP/1.0\r\nHost: %s\r\n\r\n", argv[7]);
    begin_tls(&client, argv[7], argv[8]);
    wire_open(&wire, argv[1], argv[2]);
    id = host_new(&host, wire.mac, addr, routes, 2);
    if (id == 0) {
        host_tick(&host, wire_now());
        id = begin_connection(&wire, &host, addr, &peer);
    }
    if (id < 0) {
        fprintf(stderr, "tls_client: %s\n", host_refusal_name(id));
        return 1;
    }
    client.id = (uint64_t)id;
    until = wire_now() + 60000;
    while ((outcome = step(&client, request)) == GOES_ON && wire_now() < until)
        wire_turn(&wire, &host, until);
    if (outcome == GOES_ON)
        fputs("tls_client: a minute went by\n", stderr);
    if (outcome == ENDED)
        SSL_shutdown(client.tls);
    end_connection(&wire, &client);
    SSL_free(client.tls);
    host_free(&host);
    return outcome == ENDED ? 0 : 1;
}
