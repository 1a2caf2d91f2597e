/* Initial sequence numbers and dynamic ports: isn.h says of what. */
#include "isn.h"

static uint64_t rotated(uint64_t word, int by)
{
    return word << by | word >> (64 - by);
}

static void sip_round(uint64_t v[4])
{
    v[0] += v[1];
    v[1] = rotated(v[1], 13) ^ v[0];
    v[0] = rotated(v[0], 32);
    v[2] += v[3];
    v[3] = rotated(v[3], 16) ^ v[2];
    v[0] += v[3];
    v[3] = rotated(v[3], 21) ^ v[0];
    v[2] += v[1];
    v[1] = rotated(v[1], 17) ^ v[2];
    v[2] = rotated(v[2], 32);
}

static uint64_t little_endian(const uint8_t *octets, size_t count)
{
    uint64_t word = 0;
    for (size_t i = 0; i < count; i++) {
        word |= (uint64_t)octets[i] << (8 * i);
    }
    return word;
}

uint64_t isn_siphash(const uint8_t secret[ISN_SECRET_SIZE], const uint8_t *octets, size_t len)
{
    const uint64_t k0 = little_endian(secret, 8), k1 = little_endian(secret + 8, 8);
    uint64_t v[4] = {k0 ^ 0x736f6d6570736575, k1 ^ 0x646f72616e646f6d, k0 ^ 0x6c7967656e657261, k1 ^ 0x7465646279746573};
    for (size_t at = 0; at <= len; at += 8) {
        const uint64_t word = len - at < 8 ? little_endian(octets + at, len - at) | (uint64_t)len << 56 : little_endian(octets + at, 8);
        v[3] ^= word;
        sip_round(v);
        sip_round(v);
        v[0] ^= word;
    }
    v[2] ^= 0xff;
    for (int round = 0; round < 4; round++) {
        sip_round(v);
    }
    return v[0] ^ v[1] ^ v[2] ^ v[3];
}

/* Puts a number of so many octets behind others, in network order: where it ends. */
static size_t put(uint8_t *octets, size_t at, uint32_t number, size_t count)
{
    while (count-- > 0) {
        octets[at++] = (uint8_t)(number >> (8 * count));
    }
    return at;
}

uint32_t isn_of(const uint8_t secret[ISN_SECRET_SIZE], const struct host_endpoint pair[2], uint64_t microseconds)
{
    uint8_t octets[12];
    size_t at = 0;
    for (int end = 0; end < 2; end++) {
        at = put(octets, at, pair[end].addr, 4);
        at = put(octets, at, pair[end].port, 2);
    }
    return (uint32_t)(microseconds / 4 + isn_siphash(secret, octets, at));
}

/* One hash has both of the RFC, of bits that have nothing to do with one another: the low ones are the offset, the highest four the place in the table. The
   octets are fewer than those of isn_of, so the same secret serves both. */
uint16_t isn_port(const uint8_t secret[ISN_SECRET_SIZE], uint32_t local, const struct host_endpoint *peer, struct isn_ports *ports)
{
    uint8_t octets[10];
    const size_t at = put(octets, put(octets, 0, local, 4), peer->addr, 4);
    const uint64_t hash = isn_siphash(secret, octets, put(octets, at, peer->port, 2));
    return (uint16_t)(ISN_PORT_FIRST + (hash + ports->next[hash >> 60]++) % ISN_PORTS);
}
