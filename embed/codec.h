/*
 * The formats of an IPv4 host, as a library: the Internet checksum, Ethernet II, ARP, IPv4, ICMP, UDP and TCP, each header read into a struct of
 * plain numbers, and written from one. crates/codecc/README.md says what is proved of it; embed/try-codec builds it and tries it.
 *
 * A frame is read from the outside in; each struct says where the next layer begins:
 *
 *     struct codec_ether ether;
 *     struct codec_ipv4 ip;
 *     struct codec_udp udp;
 *     if (codec_ether_parse(frame, len, &ether) == 0 && ether.kind == CODEC_KIND_IPV4
 *         && codec_ipv4_parse(frame + CODEC_ETHER_LEN, ether.payload_len, &ip) == 0 && ip.protocol == CODEC_UDP && CODEC_IS_WHOLE(ip)) {
 *         const uint8_t *datagram = frame + CODEC_ETHER_LEN + ip.header_len;
 *         if (codec_udp_parse(ip.source, ip.destination, datagram, ip.payload_len, &udp) == 0)
 *             the udp.payload_len octets at datagram + CODEC_UDP_LEN are its data
 *     }
 *
 * It is written from the inside out, into one buffer: the payload stands at its place first, and each emit writes the header before it, with lengths
 * and checksum.
 *
 * ANSWERS. A parse answers 0, or the fault of the octets, which is negative: the first one in the order in which they stand below. An emit answers how many
 * octets of the buffer are the frame, packet, datagram, message or segment then, or a negative number. What is refused changes nothing: neither the
 * struct of a parse, nor the buffer of an emit.
 *
 * UNITS. Lengths are octets. Addresses and ports are plain numbers (CODEC_ADDR), of which neither wants htonl or htons; so are all other fields.
 *
 * POINTERS. What a pointer leads to is yours. The library reads or writes it in the call alone and keeps none. No pointer is NULL, also where its length is 0;
 * there it may lead to anything. No two of a call overlap. A length is at most INT64_MAX.
 *
 * MEMORY, THREADS. The library takes no memory, has no variable and needs no other library: calls may be made anywhere, in as many threads as one likes.
 * It is C99, and C++11, and needs stddef.h and stdint.h alone.
 */
#ifndef CODEC_H
#define CODEC_H

#include <stddef.h>
#include <stdint.h>

#ifdef __cplusplus
extern "C" {
#endif

/* The address a.b.c.d, as in CODEC_ADDR(10, 0, 0, 1). */
#define CODEC_ADDR(a, b, c, d) ((uint32_t)(a) << 24 | (uint32_t)(b) << 16 | (uint32_t)(c) << 8 | (uint32_t)(d))

/* The lengths of headers that have one length alone; of those of IPv4 and TCP this is the least. */
#define CODEC_ETHER_LEN 14
#define CODEC_ARP_LEN 28
#define CODEC_IPV4_LEN 20
#define CODEC_ICMP_LEN 8
#define CODEC_UDP_LEN 8
#define CODEC_TCP_LEN 20

/* Faults of octets, with the numbers of embed/host.h. */
#define CODEC_SHORT (-1)        /* a frame has fewer than 14 octets */
#define CODEC_IP_HEADER (-4)    /* the octets have not the form of an IPv4 datagram */
#define CODEC_IP_SUM (-5)       /* the checksum of the IPv4 header is wrong */
#define CODEC_UPPER_HEADER (-7) /* the octets have not the form of the packet, message, datagram or segment */
#define CODEC_UPPER_SUM (-8)    /* the checksum of ICMP, UDP or TCP is wrong */

/* Why an emit writes nothing. */
#define CODEC_UNFIT (-11)   /* a field has a value that can't be written */
#define CODEC_NO_ROOM (-12) /* the buffer is too short */

/* THE INTERNET CHECKSUM (RFC 1071). */

/* The one's complement sum of the octets, an odd last one padded with zero: 0xFFFF where their checksum stands among them and is right. */
uint16_t codec_sum(const uint8_t *octets, size_t len);

/* The checksum of the octets: the complement of their sum. */
uint16_t codec_checksum(const uint8_t *octets, size_t len);

/* ETHERNET II (RFC 894). */

/* Types of frames. */
#define CODEC_KIND_IPV4 0x0800
#define CODEC_KIND_ARP 0x0806

/* The head of a frame. The payload begins behind its 14 octets, and keeps the padding of a short frame: the packet says where it ends. */
struct codec_ether {
    size_t payload_len;
    uint16_t kind;
    uint8_t destination[6];
    uint8_t source[6];
};

/* Refuses CODEC_SHORT. */
int64_t codec_ether_parse(const uint8_t *frame, size_t len, struct codec_ether *ether);

/* Writes the head before the payload_len octets that stand at out + 14. It doesn't pad: a frame of fewer than 60 octets wants zeros behind it on most
 * links. Refuses CODEC_NO_ROOM. */
int64_t codec_ether_emit(const struct codec_ether *ether, uint8_t *out, size_t size);

/* ARP for IPv4 over Ethernet (RFC 826). */

#define CODEC_ARP_REQUEST 1
#define CODEC_ARP_REPLY 2

struct codec_arp {
    uint32_t sender_addr;
    uint32_t target_addr;
    uint16_t operation; /* CODEC_ARP_REQUEST or CODEC_ARP_REPLY */
    uint8_t sender_mac[6];
    uint8_t target_mac[6];
};

/* What stands behind 28 octets is padding. Refuses CODEC_UPPER_HEADER: fewer octets, other kinds of addresses, another operation. */
int64_t codec_arp_parse(const uint8_t *octets, size_t len, struct codec_arp *arp);

/* Writes all 28 octets. Refuses CODEC_UNFIT for another operation, and then CODEC_NO_ROOM. */
int64_t codec_arp_emit(const struct codec_arp *arp, uint8_t *out, size_t size);

/* IPV4 (RFC 791 section 3.1). */

/* Protocols. */
#define CODEC_ICMP 1
#define CODEC_TCP 6
#define CODEC_UDP 17

/* Flags. */
#define CODEC_MORE_FRAGMENTS 1
#define CODEC_DONT_FRAGMENT 2
#define CODEC_RESERVED_FLAG 4

/* Whether a datagram is whole, and no fragment. */
#define CODEC_IS_WHOLE(ip) (((ip).flags & CODEC_MORE_FRAGMENTS) == 0 && (ip).offset == 0)

/* The header of a datagram. Its options, header_len - 20 octets, stand behind the first 20, and the payload behind header_len. */
struct codec_ipv4 {
    uint32_t source;
    uint32_t destination;
    uint16_t header_len;     /* 20, 24 .. 60 */
    uint16_t payload_len;    /* without any padding */
    uint16_t identification;
    uint16_t offset;         /* of the payload in that of the whole datagram, in units of eight octets: at most 8,191 */
    uint16_t checksum;       /* as it was read; an emit computes its own */
    uint8_t flags;           /* CODEC_MORE_FRAGMENTS .. */
    uint8_t service;         /* type of service, or differentiated services and congestion (RFC 2474, RFC 3168) */
    uint8_t ttl;
    uint8_t protocol;        /* CODEC_ICMP .. */
};

/* What stands behind the total length is padding. Refuses CODEC_IP_HEADER: another version, lengths that don't agree or over len, a fragment with more
 * behind it that is empty or no multiple of eight octets, a payload that ends past octet 65,515 of the whole; and then CODEC_IP_SUM. */
int64_t codec_ipv4_parse(const uint8_t *octets, size_t len, struct codec_ipv4 *ipv4);

/* Writes the first 20 octets before the options and the payload, which stand at out + 20 and out + header_len. Refuses CODEC_UNFIT where codec_ipv4_parse
 * would refuse what is written, or a number has no room in its field; and then CODEC_NO_ROOM. */
int64_t codec_ipv4_emit(const struct codec_ipv4 *ipv4, uint8_t *out, size_t size);

/* ICMP (RFC 792). */

#define CODEC_ECHO_REPLY 0
#define CODEC_UNREACHABLE 3
#define CODEC_ECHO 8
#define CODEC_TIME_EXCEEDED 11

/* What an error's data quote of the datagram that caused it: the first 8 octets of its payload are two ports and a number, as those of TCP are. */
struct codec_quote {
    uint32_t source;
    uint32_t destination;
    uint32_t number;
    uint16_t source_port;
    uint16_t destination_port;
    uint8_t protocol;
    uint8_t is_there; /* 1 where the data begin with a whole header of IPv4 and 8 octets behind it; else 0, and all of it is 0 */
};

/* The header of a message. Its data begin behind 8 octets. */
struct codec_icmp {
    size_t payload_len;
    struct codec_quote quote; /* as it was read, and of use in an error; an emit doesn't look at it: the data stand in the buffer */
    uint16_t checksum;        /* as it was read; an emit computes its own */
    uint16_t identifier;      /* of an echo; of other types the first two of the four octets behind the checksum */
    uint16_t number;          /* of an echo; of other types the last two */
    uint8_t kind;             /* CODEC_ECHO .. */
    uint8_t code;
};

/* Refuses CODEC_UPPER_HEADER for fewer than 8 octets, and then CODEC_UPPER_SUM. */
int64_t codec_icmp_parse(const uint8_t *octets, size_t len, struct codec_icmp *icmp);

/* Writes the header before the payload_len octets that stand at out + 8. Refuses CODEC_NO_ROOM. */
int64_t codec_icmp_emit(const struct codec_icmp *icmp, uint8_t *out, size_t size);

/* UDP (RFC 768). src and dst are the addresses of the datagram of IPv4: the checksum covers them. */

/* The header of a UDP datagram. Its payload begins behind 8 octets. */
struct codec_udp {
    uint16_t source;
    uint16_t destination;
    uint16_t payload_len; /* without any padding; at most 65,527 */
    uint16_t checksum;    /* as it was read; an emit computes its own */
    uint8_t unsummed;     /* 1 where there is no checksum; an emit writes none where it isn't 0 */
};

/* What stands behind its length is padding. Refuses CODEC_UPPER_HEADER: a length under 8 or over len; and then CODEC_UPPER_SUM. */
int64_t codec_udp_parse(uint32_t src, uint32_t dst, const uint8_t *octets, size_t len, struct codec_udp *udp);

/* Writes the header before the payload_len octets that stand at out + 8. Refuses CODEC_UNFIT where the payload is too long, and then CODEC_NO_ROOM. */
int64_t codec_udp_emit(uint32_t src, uint32_t dst, const struct codec_udp *udp, uint8_t *out, size_t size);

/* TCP (RFC 9293 section 3.1). src and dst are the addresses of the datagram of IPv4: the checksum covers them. */

/* Control bits. */
#define CODEC_FIN 1
#define CODEC_SYN 2
#define CODEC_RST 4
#define CODEC_PSH 8
#define CODEC_ACK 16
#define CODEC_URG 32
#define CODEC_ECE 64  /* RFC 3168 */
#define CODEC_CWR 128 /* RFC 3168 */

/* Octets that the sender holds ahead of a gap: from left on, and before right (RFC 2018 section 3). */
struct codec_block {
    uint32_t left;
    uint32_t right;
};

/* The header of a segment. Its options, header_len - 20 octets, stand behind the first 20, and the payload behind header_len. The members that options
 * tell are written by a parse alone; an emit takes the options as they stand in the buffer. Of several options of a kind the last one counts. */
struct codec_tcp {
    uint32_t number;
    uint32_t acknowledgement;
    int32_t mss;                  /* the size in an MSS option of a SYN, and else -1 */
    int32_t shift;                /* the shift in a window scale option of a SYN (RFC 7323 section 2.2), and else -1 */
    struct codec_block blocks[4]; /* the first block_count of them */
    uint16_t source;
    uint16_t destination;
    uint16_t header_len;          /* 20, 24 .. 60 */
    uint16_t payload_len;
    uint16_t window;
    uint16_t checksum;            /* as it was read; an emit computes its own */
    uint16_t urgent;
    uint8_t flags;                /* CODEC_FIN .. */
    uint8_t sacks;                /* 1 where an option of a SYN permits selective acknowledgements (RFC 2018 section 2), and else 0 */
    uint8_t block_count;
};

/* Refuses CODEC_UPPER_HEADER: a length of the header that doesn't agree with len, options that are malformed, over 65,535 octets; and then
 * CODEC_UPPER_SUM. */
int64_t codec_tcp_parse(uint32_t src, uint32_t dst, const uint8_t *octets, size_t len, struct codec_tcp *tcp);

/* Writes the first 20 octets before the options and the payload, which stand at out + 20 and out + header_len. The four bits that are reserved are 0.
 * Refuses CODEC_UNFIT for another header_len, or over 65,535 octets in all; and then CODEC_NO_ROOM. */
int64_t codec_tcp_emit(uint32_t src, uint32_t dst, const struct codec_tcp *tcp, uint8_t *out, size_t size);

#ifdef __cplusplus
}
#endif

#endif
