/* Plays one of plays.c over two hosts that are joined by memory, and prints what it took: milliseconds of the simulated clock, frames, and segments
   that each host sent again. Every octet that is read is compared. A fault is a line on standard error, and status 1. */
#define _POSIX_C_SOURCE 200809L

#include "play.h"
#include "wire.h"

#include <inttypes.h>
#include <stdio.h>
#include <stdlib.h>
#include <string.h>

enum {
    PORT = 80,
    OTHER_PORT = 8080,           /* of a near program whose connection the far one opens too */
    CLOSED_PORT = 1,             /* where nobody listens */
    CHUNK = 65536,
    LONGEST = 4000000,           /* milliseconds, behind which a play has come to a halt */
    DATAGRAM_WAIT = 3000         /* milliseconds until a datagram is given up */
};

/* A program at one end. */
struct part {
    const struct step *step;
    uint64_t id;                 /* of its connection, or 0 */
    size_t written, read;        /* of the connection */
    size_t step_written, step_read;
};

static const struct stack *const all[] = {
    &plain, &newreno, &selective, &selective_small,
#ifdef WITH_LWIP
    &lwip,
#endif
#ifdef WITH_SLIRP
    &slirp,
#endif
#ifdef WITH_GVISOR
    &gvisor,
#endif
};

static const char *const step_names[] = {"its end", "opening", "taking the connection", "its refusal", "moving octets", "closing its side",
                                         "the end of the stream", "closing", "resetting", "hearing of the reset", "waiting", "reading nothing"};

static const struct play *play;
static struct part parts[ENDS];
static uint16_t ports[ENDS] = {OTHER_PORT, PORT};  /* where each is opened to */
static uint64_t began;                             /* the moment at which the play did */
static uint64_t opened, moved;                     /* and at which the connection was open, and all octets were read */
static uint8_t sources[ENDS][MOST_OCTETS];         /* what each program writes */

_Noreturn void fail(const char *what)
{
    fprintf(stderr, "%s, at %" PRIu64 " ms\n", what, moment);
    exit(1);
}

static void fail_at(enum end end, const char *what)
{
    char text[200];
    snprintf(text, sizeof text, "the %s program: %s, at %s (%zu octets written, %zu read)", end == NEAR ? "near" : "far", what,
             step_names[parts[end].step->act], parts[end].written, parts[end].read);
    fail(text);
}

static enum end other(enum end end)
{
    return end == NEAR ? FAR : NEAR;
}

/* ---- Steps ------------------------------------------------------------------------------------------------------------------------------- */

/* Opens, from a port that the other program knows where that opens too. Whether the connection is open now. */
static bool has_opened(enum end end)
{
    const bool at_once = (play->wants & OPENS_AT_ONCE) != 0;
    struct part *part = &parts[end];
    if (part->id == 0) {
        part->id = stacks[end]->connect(end, at_once ? ports[end] : 0, ports[other(end)]);
    }
    if (part->id != 0 && stacks[end]->standing(end, part->id) > OPEN) {
        fail_at(end, "the connection didn't open");
    }
    return part->id != 0 && stacks[end]->standing(end, part->id) == OPEN;
}

static bool has_accepted(enum end end)
{
    parts[end].id = stacks[end]->accept(end);
    return parts[end].id != 0;
}

static bool is_over(enum end end)
{
    return stacks[end]->standing(end, parts[end].id) > OPEN || stacks[end]->ended(end, parts[end].id);
}

static bool is_refused(enum end end)
{
    struct part *part = &parts[end];
    if (part->id == 0) {
        part->id = stacks[end]->connect(end, 0, CLOSED_PORT);
    }
    const enum standing standing = stacks[end]->standing(end, part->id);
    return standing == REFUSED || ((stacks[end]->lacks & TELLS_RESETS) != 0 && standing != OPENING && is_over(end));
}

static bool is_reset(enum end end)
{
    return stacks[end]->standing(end, parts[end].id) == RESET || ((stacks[end]->lacks & TELLS_RESETS) != 0 && is_over(end));
}

static void read_some(enum end end, size_t most)
{
    static uint8_t buffer[CHUNK];
    struct part *part = &parts[end];
    const size_t count = stacks[end]->recv(end, part->id, buffer, most < CHUNK ? most : CHUNK);
    if (memcmp(buffer, sources[other(end)] + part->read, count) != 0) {
        fail_at(end, "other octets were read than were written");
    }
    part->read += count;
    part->step_read += count;
}

/* Writes and reads as much as goes; whether that is all. */
static bool has_moved(enum end end)
{
    struct part *part = &parts[end];
    const struct step *step = part->step;
    if (stacks[end]->standing(end, part->id) > OPEN) {
        fail_at(end, "the connection is over");
    }
    for (size_t before = SIZE_MAX; part->step_written < step->write && before != part->step_written;) {
        before = part->step_written;
        part->step_written += stacks[end]->send(end, part->id, sources[end] + part->written, step->write - before);
        part->written += part->step_written - before;
    }
    for (size_t before = SIZE_MAX; part->step_read < step->read && before != part->step_read;) {
        before = part->step_read;
        read_some(end, step->read - before);
    }
    return part->step_written == step->write && part->step_read == step->read;
}

static bool has_ended(enum end end)
{
    uint8_t octet;
    if (stacks[end]->standing(end, parts[end].id) > OPEN) {
        fail_at(end, "the connection is over");
    }
    if (stacks[end]->recv(end, parts[end].id, &octet, 1) != 0) {
        fail_at(end, "more was read than was written");
    }
    return stacks[end]->ended(end, parts[end].id);
}

static bool has_stalled(enum end end)
{
    const bool is_over = moment >= began + parts[end].step->write;
    if (is_over && parts[other(end)].step->act != MOVE) {
        fail_at(end, "the other program didn't stall");
    }
    return is_over;
}

/* What ends at once. */
static bool after(void (*call)(enum end end, uint64_t id), enum end end)
{
    call(end, parts[end].id);
    return true;
}

/* Whether a program's step is done; it does what can be done of it. */
static bool is_done(enum end end)
{
    switch (parts[end].step->act) {
    case CONNECT: return has_opened(end);
    case ACCEPT: return has_accepted(end);
    case REFUSAL: return is_refused(end);
    case MOVE: return has_moved(end);
    case SHUTDOWN: return after(stacks[end]->shutdown, end);
    case END: return has_ended(end);
    case CLOSE: return after(stacks[end]->close, end);
    case ABORT: return after(stacks[end]->abort, end);
    case RESETS: return is_reset(end);
    case WAIT: return moment >= began + parts[end].step->write;
    case STALL: return has_stalled(end);
    default: return false;
    }
}

static void work(enum end end)
{
    struct part *part = &parts[end];
    while (is_done(end)) {
        opened = part->step->act == CONNECT ? moment : opened;
        moved = part->step->act == MOVE ? moment : moved;
        part->step++;
        part->step_written = part->step_read = 0;
    }
}

/* ---- Plays ------------------------------------------------------------------------------------------------------------------------------- */

/* The next moment for which a program waits. */
static uint64_t until(void)
{
    uint64_t least = LONGEST + began;
    for (int end = NEAR; end < ENDS; end++) {
        const struct step *step = parts[end].step;
        const uint64_t wait = began + step->write;
        least = (step->act == WAIT || step->act == STALL) && wait < least ? wait : least;
    }
    return least;
}

/* Both programs, once. */
static void perform(void)
{
    began = moment;
    for (int end = NEAR; end < ENDS; end++) {
        parts[end] = (struct part){.step = play->parts[end]};
    }
    for (int end = FAR; end >= NEAR; end--) {
        let_work((enum end)end, work);
    }
    while (parts[NEAR].step->act != STOP || parts[FAR].step->act != STOP) {
        go_on(until(), work);
        if (moment >= began + LONGEST) {
            fail_at(parts[NEAR].step->act != STOP ? NEAR : FAR, "nothing moves");
        }
    }
}

static void print_run(uint64_t milliseconds)
{
    printf("%" PRIu64 " %" PRIu64 " %" PRIu64 " %" PRIu64 "\n", milliseconds, traffic[NEAR].frames + traffic[FAR].frames, traffic[NEAR].resent,
           traffic[FAR].resent);
}

/* A play, so many times over the same hosts. */
static void perform_all(uint64_t times)
{
    if (play->parts[FAR][0].act == ACCEPT) {
        ports[FAR] = stacks[FAR]->listen(FAR, PORT);
    }
    const uint64_t before = moment;
    for (uint64_t i = 0; i < times; i++) {
        perform();
    }
    print_run(times == 1 && moved > opened ? moved - opened : moment - before);
}

/* ---- Datagrams --------------------------------------------------------------------------------------------------------------------------- */

static void idle(enum end end)
{
    (void)end;
}

/* The one that was sent, and the one that came. */
static void compare_datagrams(enum end to, size_t sent, const uint8_t *octets, size_t came, const uint8_t *buffer)
{
    size_t same = 0;
    while (same < sent && same < came && octets[same] == buffer[same]) {
        same++;
    }
    if (came != sent || same != sent) {
        char text[200];
        snprintf(text, sizeof text, "the %s host was sent a datagram of %zu octets, and read %zu, the first %zu of them as they were sent",
                 to == NEAR ? "near" : "far", sent, came, same);
        fail(text);
    }
}

/* One datagram: whether it came, with its octets. */
static bool carries(enum end end, size_t len)
{
    static uint8_t buffer[CHUNK];
    const uint64_t limit = moment + DATAGRAM_WAIT;
    bool was_taken = false;
    while (moment < limit) {
        was_taken = was_taken || stacks[end]->send_datagram(end, ports[other(end)], sources[end], len);
        let_work(end, idle);
        go_on(limit, idle);
        const int64_t came = stacks[other(end)]->recv_datagram(other(end), buffer, sizeof buffer);
        if (came >= 0) {
            compare_datagrams(other(end), len, sources[end], (size_t)came, buffer);
            return true;
        }
    }
    return false;
}

/* Datagrams from the near host to the far one and back: those of one frame, and those in fragments, up to the largest that each takes; it is printed
   in place of what was sent again. */
static void exchange_datagrams(void)
{
    static const size_t lens[] = {1, 100, 1472, 1473, 2953, 9000, 14792, 20000, 32768, 50000, 65507};
    size_t largest[ENDS] = {0};
    for (int end = FAR; end >= NEAR; end--) {
        ports[end] = stacks[end]->bind((enum end)end, PORT);
    }
    const uint64_t before = moment;
    for (size_t i = 0; i < sizeof lens / sizeof lens[0]; i++) {
        for (int end = NEAR; end < ENDS; end++) {
            const enum end to = other((enum end)end);
            if (lens[i] > stacks[to]->largest) {
                continue;
            }
            if (!carries((enum end)end, lens[i])) {
                char text[100];
                snprintf(text, sizeof text, "a datagram of %zu octets didn't come to the %s host", lens[i], to == NEAR ? "near" : "far");
                fail(text);
            }
            largest[to] = lens[i];
        }
    }
    printf("%" PRIu64 " %" PRIu64 " %zu %zu\n", moment - before, traffic[NEAR].frames + traffic[FAR].frames, largest[NEAR], largest[FAR]);
}

/* ---- The program ------------------------------------------------------------------------------------------------------------------------- */

static const struct stack *stack_of(const char *name)
{
    for (size_t i = 0; i < sizeof all / sizeof all[0]; i++) {
        if (strcmp(all[i]->name, name) == 0) {
            return all[i];
        }
    }
    fail("no such stack");
}

static void make_hosts(void)
{
    uint64_t state = 88172645463325252;
    moment = 1;
    for (int end = FAR; end >= NEAR; end--) {
        for (size_t i = 0; i < MOST_OCTETS; i++) {
            sources[end][i] = (uint8_t)drawn(&state);
        }
        stacks[end]->make((enum end)end);
    }
}

/* What there is: the stacks, with what each lacks, and the plays, with what each wants. */
static void list(void)
{
    static const char *const kinds[] = {"small", "frail", "large"};
    for (size_t i = 0; i < sizeof all / sizeof all[0]; i++) {
        printf("stack %u %s\n", all[i]->lacks, all[i]->name);
    }
    for (const struct play *it = plays; it->name != NULL; it++) {
        printf("%s %u %s\n", kinds[it->kind], it->wants, it->name);
    }
}

static uint64_t number(const char *word)
{
    return strtoull(word, NULL, 10);
}

static const struct play *play_of(const char *name)
{
    for (const struct play *it = plays; it->name != NULL; it++) {
        if (strcmp(it->name, name) == 0) {
            return it;
        }
    }
    fail("no such play");
}

/* `play` alone lists what there is. Else its words are the play, or `datagrams`; the near stack and the far one; how often; the faults, in the order
   of struct faults; and where a capture goes, if one is to be made. */
int main(int count, char **words)
{
    enum { NAME = 1, STACKS = 2, TIMES = 4, SEED = 5, DELAY = 6, LOSS = 7, REPEAT = 8, REORDER = 9, FIRST = 10, CAPTURE = 11 };
    if (count <= FIRST) {
        list();
        return 0;
    }
    for (int end = NEAR; end < ENDS; end++) {
        stacks[end] = stack_of(words[STACKS + end]);
    }
    const struct faults faults = {.seed = number(words[SEED]), .delay = number(words[DELAY]), .loss = number(words[LOSS]),
                                  .repeat = number(words[REPEAT]), .reorder = number(words[REORDER]), .first = number(words[FIRST])};
    wire_set(&faults);
    if (count > CAPTURE) {
        wire_capture(words[CAPTURE]);
    }
    make_hosts();
    if (strcmp(words[NAME], "datagrams") == 0) {
        exchange_datagrams();
    } else {
        play = play_of(words[NAME]);
        perform_all(number(words[TIMES]));
    }
    return 0;
}
