#include "frames.h"

#include <string.h>

uint16_t read16(const uint8_t *at)
{
    return (uint16_t)(at[0] << 8 | at[1]);
}

uint32_t read32(const uint8_t *at)
{
    return (uint32_t)read16(at) << 16 | read16(at + 2);
}

void write16(uint8_t *at, uint16_t value)
{
    at[0] = (uint8_t)(value >> 8);
    at[1] = (uint8_t)value;
}

void write32(uint8_t *at, uint32_t value)
{
    write16(at, (uint16_t)(value >> 16));
    write16(at + 2, (uint16_t)value);
}

/* The one's complement sum (RFC 1071) on top of another. */
static uint32_t sum(uint32_t before, const uint8_t *octets, size_t len)
{
    uint32_t all = before;
    for (size_t i = 0; i < len; i++) {
        all += i % 2 == 0 ? (uint32_t)octets[i] << 8 : octets[i];
        all = (all & 0xffff) + (all >> 16);
    }
    return all;
}

/* The sum of the pseudo header (RFC 9293 section 3.1, RFC 768). */
static uint32_t sum_of_ends(const uint8_t *ip, size_t len)
{
    const uint8_t rest[4] = {0, ip[9], (uint8_t)(len >> 8), (uint8_t)len};
    return sum(sum(0, ip + 12, 8), rest, 4);
}

static bool is_error_type(uint8_t type)
{
    return type == 3 || type == 4 || type == 5 || type == 11 || type == 12;
}

static bool is_all(const uint8_t mac[6])
{
    static const uint8_t all[6] = {0xff, 0xff, 0xff, 0xff, 0xff, 0xff};
    return memcmp(mac, all, 6) == 0;
}

static void read_upper(struct reading *reading, const uint8_t *ip, size_t len)
{
    const size_t head = (size_t)(ip[0] & 15) * 4;
    if (head < 20 || len < head + 4) {
        return;
    }
    const uint8_t *upper = ip + head;
    if (reading->protocol == ICMP) {
        reading->is_error = is_error_type(upper[0]);
    } else {
        reading->from_port = read16(upper);
        reading->to_port = read16(upper + 2);
        reading->is_reset = reading->protocol == TCP && len >= head + 14 && (upper[13] & 4) != 0;
    }
}

struct reading read_frame(const uint8_t *octets, size_t len)
{
    struct reading reading = {.format = OTHER};
    if (len < 34) {
        return reading;
    }
    const uint16_t type = read16(octets + 12);
    const uint8_t *at = octets + 14;
    reading.is_broadcast = is_all(octets);
    if (type == 0x0806 && len >= 42) {
        reading.format = ARP;
        reading.is_request = read16(at + 6) == 1;
        reading.from = read32(at + 14);
        reading.to = read32(at + 24);
    } else if (type == 0x0800) {
        reading.format = IP;
        reading.from = read32(at + 12);
        reading.to = read32(at + 16);
        reading.protocol = at[9];
        reading.is_fragment = (read16(at + 6) & 0x3fff) != 0;
        if ((read16(at + 6) & 0x1fff) == 0) {
            read_upper(&reading, at, len - 14);
        }
    }
    return reading;
}

size_t options_len(const uint8_t *octets, size_t len)
{
    const size_t head = len < 34 || read16(octets + 12) != 0x0800 ? 20 : (size_t)(octets[14] & 15) * 4;
    return head <= 20 ? 0 : head - 20;
}

static bool is_zero(const uint8_t *octets, size_t len)
{
    for (size_t i = 0; i < len; i++) {
        if (octets[i] != 0) {
            return false;
        }
    }
    return true;
}

static bool is_unicast(uint32_t addr)
{
    const uint32_t first = addr >> 24;
    return first >= 1 && first <= 223 && first != 127;
}

static const char *fault_of_arp(const uint8_t *octets, size_t len, const uint8_t mac[6], uint32_t addr)
{
    static const uint8_t start[6] = {0, 1, 8, 0, 6, 4};
    const uint8_t *at = octets + 14;
    const uint16_t operation = read16(at + 6);
    if (len != 60 || memcmp(at, start, 6) != 0 || !is_zero(at + 28, len - 42)) {
        return "an ARP packet of another form";
    }
    if (memcmp(at + 8, mac, 6) != 0 || read32(at + 14) != addr) {
        return "an ARP packet of another sender";
    }
    if (operation == 1) {
        return is_all(octets) && is_zero(at + 18, 6) ? NULL : "an ARP request that isn't for all";
    }
    return operation != 2 || memcmp(octets, at + 18, 6) != 0 ? "an ARP reply for another one" : NULL;
}

static const char *fault_of_tcp(const uint8_t *upper, size_t len)
{
    const size_t head = (size_t)(upper[12] >> 4) * 4;
    if (len < 20 || head < 20 || head > len || (upper[12] & 15) != 0 || (upper[13] & 0xc0) != 0 || read16(upper + 18) != 0) {
        return "a TCP header of another form";
    }
    if (len > head && (upper[13] & 6) != 0) {
        return "a SYN or RST with octets";
    }
    return NULL;
}

static const char *fault_of_upper(const uint8_t *ip, const uint8_t *upper, size_t len)
{
    switch (ip[9]) {
    case ICMP:
        return len < 8 || sum(0, upper, len) != 0xffff ? "a wrong ICMP message" : NULL;
    case UDP:
        if (len < 8 || read16(upper + 4) != len || read16(upper + 6) == 0 || sum(sum_of_ends(ip, len), upper, len) != 0xffff) {
            return "a wrong UDP datagram";
        }
        return NULL;
    case TCP:
        if (len < 20 || sum(sum_of_ends(ip, len), upper, len) != 0xffff) {
            return "a wrong TCP checksum";
        }
        return fault_of_tcp(upper, len);
    default:
        return "another protocol";
    }
}

static const char *fault_of_ip(const uint8_t *octets, size_t len, uint32_t addr)
{
    const uint8_t *ip = octets + 14;
    const size_t total = read16(ip + 2);
    const uint16_t part = read16(ip + 6);
    if (ip[0] != 0x45 || total < 20 || len != (total + 14 < 60 ? 60 : total + 14) || sum(0, ip, 20) != 0xffff || ip[8] == 0 || (part & 0x8000) != 0) {
        return "a wrong IPv4 header";
    }
    if (!is_zero(ip + total, len - 14 - total)) {
        return "padding that isn't zero";
    }
    if (read32(ip + 12) != addr || read32(ip + 16) == addr || !is_unicast(read32(ip + 16))) {
        return "a datagram from or for another one";
    }
    if ((part & 0x3fff) != 0) {
        return ip[9] == UDP && (part & 0x4000) == 0 && ((part & 0x2000) == 0 || total % 8 == 20 % 8) ? NULL : "a wrong fragment";
    }
    return fault_of_upper(ip, ip + 20, total - 20);
}

const char *fault_of(const uint8_t *octets, size_t len, const uint8_t mac[6], uint32_t addr, bool is_claimed)
{
    if (len < 60 || len > 1514) {
        return "its length";
    }
    const bool asks = read16(octets + 12) == 0x0806 && read16(octets + 20) == 1;
    if (memcmp(octets + 6, mac, 6) != 0 || ((octets[0] & 1) != 0 && !asks && !is_claimed)) {
        return "its MACs";
    }
    switch (read16(octets + 12)) {
    case 0x0806:
        return fault_of_arp(octets, len, mac, addr);
    case 0x0800:
        return fault_of_ip(octets, len, addr);
    default:
        return "its type";
    }
}

static void set_sum(uint8_t *at, uint32_t before, const uint8_t *octets, size_t len)
{
    write16(at, 0);
    write16(at, (uint16_t)~sum(before, octets, len));
}

static void repair_upper(uint8_t *ip, size_t head, size_t total)
{
    uint8_t *upper = ip + head;
    const size_t len = total - head;
    if (ip[9] == ICMP && len >= 4) {
        set_sum(upper + 2, 0, upper, len);
    } else if (ip[9] == TCP && len >= 18) {
        set_sum(upper + 16, sum_of_ends(ip, len), upper, len);
    } else if (ip[9] == UDP && len >= 8) {
        if ((read16(ip + 6) & 0x3fff) == 0) {
            write16(upper + 4, (uint16_t)len);
        }
        set_sum(upper + 6, sum_of_ends(ip, len), upper, len);
        if (read16(upper + 6) == 0) {
            write16(upper + 6, 0xffff);
        }
    }
}

void repair(struct frame *frame)
{
    uint8_t *ip = frame->octets + 14;
    if (frame->len < 34 || frame->len > 1514 || read16(frame->octets + 12) != 0x0800) {
        return;
    }
    const size_t all = frame->len - 14;
    size_t head = (size_t)(ip[0] & 15) * 4;
    if (head < 20 || head > all) {
        head = 20;
    }
    ip[0] = (uint8_t)(0x40 | head / 4);
    if (read16(ip + 2) < head || read16(ip + 2) > all) {
        write16(ip + 2, (uint16_t)all);
    }
    repair_upper(ip, head, read16(ip + 2));
    set_sum(ip + 10, 0, ip, head);
}

/* The heads of Ethernet and IPv4, in front of so many octets. */
static uint8_t *make_heads(struct frame *frame, const uint8_t to_mac[6], uint32_t from, uint32_t to, uint8_t protocol, size_t len)
{
    static const uint8_t from_mac[6] = {2, 0, 0, 0, 0, 9};
    uint8_t *ip = frame->octets + 14;
    memset(frame->octets, 0, 60);
    memcpy(frame->octets, to_mac, 6);
    memcpy(frame->octets + 6, from_mac, 6);
    write16(frame->octets + 12, 0x0800);
    ip[0] = 0x45;
    ip[8] = 64;
    ip[9] = protocol;
    write16(ip + 2, (uint16_t)(20 + len));
    write32(ip + 12, from);
    write32(ip + 16, to);
    frame->len = 34 + len < 60 ? 60 : 34 + len;
    return ip + 20;
}

void make_echo(struct frame *frame, const uint8_t to_mac[6], uint32_t from, uint32_t to, size_t count, uint64_t chance)
{
    uint8_t *icmp = make_heads(frame, to_mac, from, to, ICMP, 8 + count);
    memset(icmp, (uint8_t)chance, 8 + count);
    icmp[0] = 8;
    icmp[1] = 0;
    repair(frame);
}

void make_error(struct frame *frame, const uint8_t to_mac[6], uint32_t from, uint32_t to, const struct frame *quoted, uint64_t chance)
{
    static const uint8_t types[4] = {3, 11, 12, 4};
    const size_t count = quoted->len - 14 < 28 + chance % 64 ? quoted->len - 14 : 28 + chance % 64;
    uint8_t *icmp = make_heads(frame, to_mac, from, to, ICMP, 8 + count);
    memset(icmp, 0, 8);
    icmp[0] = types[chance >> 8 & 3];
    icmp[1] = (uint8_t)(chance >> 16 & 7);
    memcpy(icmp + 8, quoted->octets + 14, count);
    repair(frame);
}

void make_segment(struct frame *frame, const uint8_t to_mac[6], uint32_t from, uint32_t to, uint64_t chance)
{
    const size_t count = (chance >> 40) % 16;
    uint8_t *tcp = make_heads(frame, to_mac, from, to, TCP, 20 + count);
    memset(tcp, 0, 20 + count);
    write16(tcp, (uint16_t)(1024 + chance % 8));
    write16(tcp + 2, (uint16_t)(78 + (chance >> 8) % 4));
    write32(tcp + 4, (uint32_t)(chance >> 16));
    write32(tcp + 8, (uint32_t)(chance >> 24));
    tcp[12] = 0x50;
    tcp[13] = (uint8_t)(chance >> 56 & 63);
    write16(tcp + 14, (uint16_t)(chance >> 32));
    repair(frame);
}
