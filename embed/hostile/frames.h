/* Frames as the harness sees them, by readers of its own: what a frame says, whether one that goes out is well formed, and how one is forged. */
#ifndef FRAMES_H
#define FRAMES_H

#include <stdbool.h>
#include <stddef.h>
#include <stdint.h>

enum { FRAME_ROOM = 2048, ICMP = 1, TCP = 6, UDP = 17 };

struct frame {
    uint8_t octets[FRAME_ROOM];
    size_t len;
};

/* What a frame says as far as it is whole. A fragment behind the first has no ports. */
enum format { OTHER, ARP, IP };

struct reading {
    enum format format;
    bool is_broadcast, is_request;   /* to all; an ARP request */
    uint32_t from, to;               /* addresses; of an ARP packet those of its sender and its target */
    uint8_t protocol;
    bool is_fragment, is_reset, is_error;
    uint16_t from_port, to_port;
};

uint16_t read16(const uint8_t *at);
uint32_t read32(const uint8_t *at);
void write16(uint8_t *at, uint16_t value);
void write32(uint8_t *at, uint32_t value);

struct reading read_frame(const uint8_t *octets, size_t len);

/* How many octets the options of its datagram have (RFC 791 section 3.1). */
size_t options_len(const uint8_t *octets, size_t len);

/* Why a frame that a host with this MAC and address sent isn't well formed; NULL where it is. It may go to the MAC of a group where it is an ARP request,
   which is for all, or where a neighbour claimed that MAC as its own: the host believes whoever speaks (RFC 826). */
const char *fault_of(const uint8_t *octets, size_t len, const uint8_t mac[6], uint32_t addr, bool is_claimed);

/* Sets the lengths and checksums of an IPv4 frame right, as far as its header lets them be found. */
void repair(struct frame *frame);

/* Frames that no host of this program sends, for a host with this MAC and address. */
void make_echo(struct frame *frame, const uint8_t to_mac[6], uint32_t from, uint32_t to, size_t count, uint64_t chance);
void make_error(struct frame *frame, const uint8_t to_mac[6], uint32_t from, uint32_t to, const struct frame *quoted, uint64_t chance);
void make_segment(struct frame *frame, const uint8_t to_mac[6], uint32_t from, uint32_t to, uint64_t chance);

#endif
