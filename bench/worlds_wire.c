/* Chance, and the frames on their way. */
#include "worlds.h"

enum { TCP_AT = 34 /* where a frame's segment begins: behind Ethernet's header and that of IPv4, in which no host of this stack has options */ };

/* ---- Chance --------------------------------------------------------------------------------------------------------------------------- */

static uint64_t chance;

uint64_t drawn(uint64_t *state)
{
    *state ^= *state << 13;
    *state ^= *state >> 7;
    *state ^= *state << 17;
    return *state;
}

/* Seeds that follow one another are to give worlds that have nothing in common. */
void begin_chance(uint64_t seed)
{
    chance = (seed + 1) * 0x9E3779B97F4A7C15;
    chance ^= chance >> 29;
    chance = chance == 0 ? 1 : chance; /* xorshift never leaves 0 */
    drawn(&chance);
    drawn(&chance);
}

uint64_t below(uint64_t bound)
{
    return (drawn(&chance) >> 16) % bound;
}

bool befalls(uint64_t in_100)
{
    return below(100) < in_100;
}

uint64_t scaled(uint64_t least, uint64_t most)
{
    uint64_t low = least, octaves = 0;
    for (uint64_t at = least; at < most; at *= 2) {
        octaves++;
    }
    low <<= octaves == 0 ? 0 : below(octaves);
    const uint64_t high = low * 2 < most ? low * 2 : most;
    return low + below(high - low + 1);
}

/* Often so near the wrap that sequence numbers pass it. */
uint32_t drawn_isn(void)
{
    return befalls(50) ? (uint32_t)(0 - below(200000)) : (uint32_t)drawn(&chance);
}

/* ---- The wire ------------------------------------------------------------------------------------------------------------------------- */

/* Of each host a ring of places: first those of the frames on the wire, in order, then the free ones. */
static struct frame places[ENDS][WIRE_SIZE];
static struct frame *order[ENDS][WIRE_SIZE];
static size_t first[ENDS];
size_t queued[ENDS];

static struct frame **order_at(enum end to, size_t place)
{
    return &order[to][(first[to] + place) % WIRE_SIZE];
}

void empty_wire(void)
{
    for (int to = NEAR; to < ENDS; to++) {
        for (size_t i = 0; i < WIRE_SIZE; i++) {
            order[to][i] = &places[to][i];
        }
        first[to] = queued[to] = 0;
    }
}

struct frame *place_for(enum end to)
{
    return *order_at(to, queued[to]);
}

/* Its place stands before the first then, as the last of the free ones. */
const struct frame *taken_from(enum end to, size_t place)
{
    struct frame *frame = *order_at(to, place);
    for (; place > 0; place--) {
        *order_at(to, place) = *order_at(to, place - 1);
    }
    *order_at(to, 0) = frame;
    first[to] = (first[to] + 1) % WIRE_SIZE;
    queued[to]--;
    return frame;
}

/* ---- What a frame says ---------------------------------------------------------------------------------------------------------------- */

static uint32_t number_at(const uint8_t *at, size_t len)
{
    uint32_t number = 0;
    for (size_t i = 0; i < len; i++) {
        number = number << 8 | at[i];
    }
    return number;
}

bool reads_segment(const struct frame *frame, struct segment *segment)
{
    const uint8_t *octets = frame->octets, *tcp = octets + TCP_AT;
    if (frame->len < TCP_AT + 20 || number_at(octets + 12, 2) != 0x0800 || octets[23] != 6) {
        return false;
    }
    const uint32_t from = number_at(tcp, 2), to = number_at(tcp + 2, 2);
    segment->connection = (int)(from == PORT ? to : from) - FIRST_PORT;
    segment->number = number_at(tcp + 4, 4);
    segment->acknowledgement = number_at(tcp + 8, 4);
    segment->flags = tcp[13];
    segment->window = (uint16_t)number_at(tcp + 14, 2);
    segment->len = number_at(octets + 16, 2) - 20 - (size_t)(tcp[12] >> 4) * 4;
    return segment->connection >= 0 && segment->connection < connections;
}

bool is_bare(const struct segment *segment)
{
    return segment->len == 0 && (segment->flags & (SYN | FIN | RST)) == 0;
}

/* Numbers are told without the initial ones, as far as these are known. */
void trace_frame(const char *what, enum end from, const struct frame *frame)
{
    struct segment segment;
    if (!traces) {
        return;
    }
    if (!reads_segment(frame, &segment)) {
        trace("%s %c: another frame, %zu octets", what, name_of(from), frame->len);
        return;
    }
    const struct side *ours = &sides[segment.connection][from], *theirs = &sides[segment.connection][other(from)];
    trace("%s %c%d: seq %" PRIu32 " ack %" PRIu32 " len %zu window %u%s%s%s", what, name_of(from), segment.connection, segment.number - ours->isn,
          segment.acknowledgement - theirs->isn, segment.len, (unsigned)segment.window, segment.flags & SYN ? " SYN" : "",
          segment.flags & FIN ? " FIN" : "", segment.flags & RST ? " RST" : "");
}
