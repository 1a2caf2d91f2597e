/*
 * Forged messages for the readers of two examples: answers for that of examples/dns.c where DNS is defined, else frames and messages for those of
 * examples/dhcp.c. Sound ones are changed, cut or lengthened, and stand in blocks of just their length, so that the sanitizers see what is read beside
 * them. Its two words are a seed and a count.
 */
#define main program_of_the_example
#ifdef DNS
#include "../../examples/dns.c"
#else
#include "../../examples/dhcp.c"
#endif
#undef main

static uint64_t chance;

/* A number below `most`, by xorshift64. */
static size_t below(size_t most)
{
    chance ^= chance << 13;
    chance ^= chance >> 7;
    chance ^= chance << 17;
    return (size_t)(chance % most);
}

/* A changed copy of octets, in a block of its length. */
static uint8_t *forged(const uint8_t *octets, size_t *len)
{
    static const uint8_t telling[] = {0, 1, 2, 4, 5, 12, 63, 64, 0x80, 0xc0, 0xff};
    const size_t size = below(4) == 0 ? below(*len + 1) : *len + (below(8) == 0 ? below(20) : 0);
    uint8_t *block = malloc(size == 0 ? 1 : size);
    size_t i;

    if (block == NULL) {
        exit(1);
    }
    memset(block, (int)below(256), size);
    memcpy(block, octets, size < *len ? size : *len);
    for (i = below(6); i > 0 && size > 0; i--) {
        block[below(below(2) == 0 || size < 60 ? size : 60)] = (uint8_t)(below(2) == 0 ? telling[below(sizeof telling)] : below(256));
    }
    *len = size;
    return size == 0 ? realloc(block, 1) : block;
}

#ifdef DNS
/* An answer with an alias, two records of other names, and an address; its names are pointers to one another. */
static size_t sound(const struct name *name, uint8_t message[MESSAGE_SIZE])
{
    static const uint8_t records[] = {
        0xc0, 12, 0, 5, 0, 1, 0, 0, 0, 9, 0, 4, 1, 'b', 0xc0, 16,       /* www.example is b.example, */
        0xc0, 12, 0, 16, 0, 1, 0, 0, 0, 9, 0, 3, 2, 'n', 'o',
        1, 'c', 0xc0, 41, 0, 1, 0, 1, 0, 0, 0, 9, 0, 4, 192, 0, 2, 8,   /* c.b.example is another one, */
        0xc0, 41, 0, 1, 0, 1, 0, 0, 0, 9, 0, 4, 192, 0, 2, 7,           /* and b.example is here */
    };
    const size_t len = make_query(name, 0x1234, message);

    message[2] = 0x81;
    message[3] = 0x80;
    message[7] = 4;
    memcpy(message + len, records, sizeof records);
    return len + sizeof records;
}

/* Reads one: whether an address was found. */
static bool is_read(void)
{
    uint8_t message[MESSAGE_SIZE], *block;
    struct name name;
    struct found found = {.count = 0};
    size_t len, at;
    bool holds;

    name_of("www.example", &name);
    len = sound(&name, message);
    block = forged(message, &len);
    holds = is_answer(block, len, 0x1234, &name, &at) && read_answer(block, len, at, &name, &found) == FOUND;
    free(block);
    if (name.len > sizeof name.octets || found.count > ADDRESSES) {
        abort();
    }
    return holds;
}
#else
/* A frame with an offer, and the message in it. */
static const struct wire wire = {.mac = {2, 0, 0, 0, 0, 9}};

static size_t sound(uint8_t frame[FRAME_SIZE])
{
    static const uint8_t options[] = {53, 1, 2, 0, 54, 4, 10, 0, 0, 1, 51, 4, 0, 0, 14, 16, 1, 4, 255, 255, 255, 0, 3, 8, 10, 0, 0, 1, 10, 0, 0, 2, 255};
    uint8_t *ip = frame + 14, *udp = ip + 20, *message = udp + 8;
    const struct lease none = {0};

    memset(frame, 0, FRAME_SIZE);
    make_message(&wire, DISCOVER, 0x12345678, 0, &none, message);
    message[0] = 2;
    memcpy(message + OPTIONS_AT, options, sizeof options);
    memset(frame, 0xff, 6);
    put(frame + 12, 0x0800, 2);
    ip[0] = 0x45;
    put(ip + 2, FRAME_SIZE - 14, 2);
    ip[9] = 17;
    put(ip + 10, ~sum_of(ip, 20, 0), 2);
    put(udp, SERVER_PORT, 2);
    put(udp + 2, CLIENT_PORT, 2);
    put(udp + 4, 8 + MESSAGE_SIZE, 2);
    return FRAME_SIZE;
}

/* Reads one, as a frame or as a message: whether it is an offer. */
static bool is_read(void)
{
    uint8_t frame[FRAME_SIZE];
    const uint8_t *message;
    size_t len = sound(frame), size;
    const bool is_frame = below(2) == 0;
    struct lease lease;
    uint8_t *block, type = 0;

    if (is_frame) {
        block = forged(frame, &len);
        if (below(2) == 0 && len >= 34 && len - 14 >= 4 * (block[14] & 15U)) { /* its sum is right again, and its length may be another */
            if (below(4) == 0) {
                put(block + 16, (uint32_t)below(len), 2);
            }
            put(block + 24, 0, 2);
            put(block + 24, ~sum_of(block + 14, 4 * (block[14] & 15U), 0), 2);
        }
        message = message_of(&wire, block, len, &size);
    } else {
        size = MESSAGE_SIZE;
        message = block = forged(frame + FRAME_SIZE - MESSAGE_SIZE, &size);
    }
    if (message != NULL) {
        type = read_message(&wire, message, size, 0x12345678, &lease);
    }
    free(block);
    return type == OFFER;
}
#endif

int main(int argc, char **argv)
{
    uint64_t count, i, read = 0;

    if (argc != 3) {
        return 2;
    }
    chance = strtoull(argv[1], NULL, 10) * 2 + 1;
    count = strtoull(argv[2], NULL, 10);
    for (i = 0; i < count; i++) {
        read += is_read();
    }
    printf("messages: of %llu that were forged %llu were read\n", (unsigned long long)count, (unsigned long long)read);
    return count > 1000 && (read == 0 || read == count);
}
