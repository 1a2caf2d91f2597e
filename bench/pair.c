/* What a frame costs between two hosts that are joined in memory, and a read of one octet. `bench/pair` counts the instructions of runs
   of this program, and has it print the rest. */
#define _POSIX_C_SOURCE 200809L

#include "pair.h"

#include <inttypes.h>
#include <stdio.h>
#include <stdlib.h>
#include <string.h>
#include <time.h>

enum {
    LINE_SIZE = 1024,                              /* frames: more than the largest window of them, and all that acknowledge one */
    PERIOD = 251,                                  /* of the pattern: no power of two, nor a divisor of a segment's length */
    TOTAL = 27400 * SEGMENT,                       /* octets of a run that is timed */
    ONE_IN = 100,                                  /* frames of data that are lost, where some are */
    RUNS = 9,
    ETHERNET_SIZE = 14,
    IPV4_TYPE = 0x0800,
    IPV4_SIZE = 20,                                /* without options */
    SYN = 2
};

/* What the application does, and how often: `writes` and `full` are loads 1 and 2 of docs/PERFORMANCE.md. */
struct load {
    const char *name;
    size_t write;        /* octets of one write; it may take fewer */
    bool at_each_frame;  /* it writes and reads after each frame, not after each pass */
};

static const struct load loads[] = {{"writes", SEGMENT, false}, {"full", LARGE, true}};

/* What one run did. */
struct run {
    uint64_t frames, lost, resent, taken;
    uint64_t nanoseconds;
};

/* The frames on a line. */
struct line {
    size_t count, lens[LINE_SIZE];
    uint8_t frames[LINE_SIZE][FRAME_SIZE];
};

static struct line lines[ENDS];
static uint8_t pattern[LARGE + PERIOD], buffer[SMALL];

static uint64_t octets, loss;                  /* of a run: how many, and one in how many frames of data is lost (0: none) */
static bool checks;                            /* whether the octets that come are compared */

static uint64_t frames, lost, resent, chance;
static uint64_t written, read_so_far;
static uint64_t came_first;                    /* octets of data that were on the line once at least */
static uint32_t top;                           /* the sequence number behind them */

void fail(const char *what)
{
    fprintf(stderr, "pair: %s\n", what);
    exit(1);
}

/* ---- Memory that is taken: the linker leads the calls here --------------------------------------------------------------------------- */

static uint64_t taken;

void *__real_malloc(size_t size);
void *__real_calloc(size_t count, size_t size);
void *__real_realloc(void *at, size_t size);

void *__wrap_malloc(size_t size)
{
    taken++;
    return __real_malloc(size);
}

void *__wrap_calloc(size_t count, size_t size)
{
    taken++;
    return __real_calloc(count, size);
}

void *__wrap_realloc(void *at, size_t size)
{
    taken++;
    return __real_realloc(at, size);
}

/* ---- The two lines ------------------------------------------------------------------------------------------------------------------- */

uint8_t *line_place(enum end end)
{
    if (lines[end].count == LINE_SIZE) {
        fail("the line is full");
    }
    return lines[end].frames[lines[end].count];
}

void line_push(enum end end, size_t len)
{
    struct line *line = &lines[end];
    line->lens[line->count] = len;
    line->count++;
}

/* Marsaglia's xorshift: the same numbers in each run. */
static uint64_t drawn(void)
{
    chance ^= chance << 13;
    chance ^= chance >> 7;
    chance ^= chance << 17;
    return chance;
}

static uint32_t number_at(const uint8_t *at, size_t len)
{
    uint32_t number = 0;
    for (size_t i = 0; i < len; i++) {
        number = number << 8 | at[i];
    }
    return number;
}

/* The octets of data of a frame of the near host, whose sequence number is compared with those before. */
static size_t data_of(const uint8_t *frame)
{
    const uint8_t *tcp = frame + ETHERNET_SIZE + IPV4_SIZE;
    if (number_at(frame + 12, 2) != IPV4_TYPE) {
        return 0;
    }
    const uint32_t seq = number_at(tcp + 4, 4);
    if ((tcp[13] & SYN) != 0) {
        top = seq + 1;
        return 0;
    }
    const size_t data = number_at(frame + ETHERNET_SIZE + 2, 2) - IPV4_SIZE - (size_t)(tcp[12] >> 4) * 4;
    const uint32_t fresh = seq + (uint32_t)data - top;
    if (fresh != 0 && fresh <= LARGE) {
        top += fresh;
        came_first += fresh;
    } else if (data != 0) {
        resent++;
    }
    return data;
}

/* Whether the link loses a frame of the near host: of those with data, one in `loss`. */
static bool is_lost(const uint8_t *frame)
{
    if (data_of(frame) == 0 || loss == 0 || drawn() % loss != 0) {
        return false;
    }
    lost++;
    return true;
}

/* ---- The application ----------------------------------------------------------------------------------------------------------------- */

static void write_octets(const struct stack *stack, const struct load *load)
{
    const uint64_t window = stack->room / SEGMENT * SEGMENT;
    while (written < octets && written - read_so_far < (load->at_each_frame ? octets : window)) {
        const uint64_t left = octets - written;
        const size_t most = load->write < stack->room ? load->write : stack->room;
        const size_t wanted = left < most ? (size_t)left : most;
        const size_t count = stack->send(pattern + written % PERIOD, wanted);
        written += count;
        if (count < wanted) {
            break;
        }
    }
}

/* All that has come, in parts. */
static void read_octets(const struct stack *stack)
{
    size_t count;
    do {
        count = stack->recv(buffer, sizeof buffer);
        if (checks && memcmp(buffer, pattern + read_so_far % PERIOD, count) != 0) {
            fail("other octets were read than were written");
        }
        read_so_far += count;
    } while (count == sizeof buffer);
}

static void work(const struct stack *stack, const struct load *load, enum end end)
{
    if (end == NEAR) {
        write_octets(stack, load);
    } else {
        read_octets(stack);
    }
}

/* A host hears what is on the other's line, and answers each frame: how many there were. */
static size_t hear(const struct stack *stack, const struct load *load, enum end end)
{
    struct line *line = &lines[end == NEAR ? FAR : NEAR];
    const size_t count = line->count;
    for (size_t i = 0; i < count; i++) {
        if (end == FAR && is_lost(line->frames[i])) {
            continue;
        }
        stack->deliver(end, line->frames[i], line->lens[i]);
        if (load != NULL && load->at_each_frame) {
            work(stack, load, end);
        }
        stack->emit(end);
    }
    line->count = 0;
    frames += count;
    return count;
}

/* All frames that are there go over, those of the near host first; then the clock goes on where there were none. */
static void pass(const struct stack *stack, const struct load *load)
{
    size_t count = 0;
    for (int end = FAR; end >= NEAR; end--) {
        const uint64_t before = read_so_far + written;
        count += hear(stack, load, (enum end)end);
        if (load != NULL) {
            work(stack, load, (enum end)end);
        }
        count += read_so_far + written != before;
        stack->emit((enum end)end);
    }
    if (count == 0) {
        stack->wait();
        stack->emit(NEAR);
        stack->emit(FAR);
    }
}

/* ---- Runs ---------------------------------------------------------------------------------------------------------------------------- */

static void open_pair(const struct stack *stack)
{
    frames = lost = resent = written = read_so_far = came_first = 0;
    chance = 88172645463325252;
    lines[NEAR].count = lines[FAR].count = 0;
    stack->begin();
    stack->emit(NEAR);
    while (!stack->is_open()) {
        pass(stack, NULL);
    }
}

static uint64_t nanoseconds(void)
{
    struct timespec now;
    clock_gettime(CLOCK_PROCESS_CPUTIME_ID, &now);
    return (uint64_t)now.tv_sec * 1000000000 + (uint64_t)now.tv_nsec;
}

static struct run transfer(const struct stack *stack, const struct load *load)
{
    struct run run;
    open_pair(stack);
    frames = 0;
    const uint64_t taken_before = taken, before = nanoseconds();
    while (read_so_far < octets) {
        pass(stack, load);
    }
    run.nanoseconds = nanoseconds() - before;
    run.taken = taken - taken_before;
    run.frames = frames;
    run.lost = lost;
    run.resent = resent;
    stack->end();
    return run;
}

/* Reads of one octet each, out of a buffer that was full. */
static struct run reads(const struct stack *stack, uint64_t times)
{
    struct run run = {0, 0, 0, 0, 0};
    open_pair(stack);
    while (came_first < SMALL) {
        written += stack->send(pattern + written % PERIOD, SMALL - written);
        stack->emit(NEAR);
        pass(stack, NULL);
    }
    const uint64_t taken_before = taken, before = nanoseconds();
    for (; read_so_far < times; read_so_far++) {
        uint8_t octet;
        if (stack->recv(&octet, 1) != 1) {
            fail("the buffer wasn't full");
        }
        if (octet != pattern[read_so_far]) {
            fail("another octet was read than was written");
        }
    }
    run.nanoseconds = nanoseconds() - before;
    run.taken = taken - taken_before;
    stack->end();
    return run;
}

/* The run of RUNS that took the least time. All move the same frames. */
static void keep_least(struct run *least, struct run run)
{
    if (least->nanoseconds == 0 || run.nanoseconds < least->nanoseconds) {
        *least = run;
    }
}

/* ---- The program --------------------------------------------------------------------------------------------------------------------- */

static const struct stack *const stacks[] = {
    &ours,
    &ours_scaled,
#ifdef WITH_LWIP
    &lwip,
#endif
};

enum { STACKS = sizeof stacks / sizeof stacks[0], LOADS = sizeof loads / sizeof loads[0] };

static void print_transfer(const struct stack *stack, const struct load *load, struct run run, uint64_t lossless)
{
    printf("%s, %s, %s lost: %" PRIu64 " frames", stack->name, load->name, loss == 0 ? "none" : "1 in 100", run.frames);
    if (loss != 0) {
        printf(" (%+" PRId64 "; %" PRIu64 " lost, %" PRIu64 " resent)", (int64_t)(run.frames - lossless), run.lost, run.resent);
    }
    printf(", %" PRIu64 " ns a frame, %" PRIu64 " MB/s", run.nanoseconds / run.frames, octets * 1000 / run.nanoseconds);
    if (stack == &ours || stack == &ours_scaled) {
        printf(", memory taken %" PRIu64 " times", run.taken);
    }
    printf("\n");
}

/* Each load over each stack, in turn; before that once with all octets compared. */
static void time_transfers(void)
{
    octets = TOTAL;
    for (int i = 0; i < LOADS; i++) {
        uint64_t lossless[STACKS] = {0};
        for (loss = 0; loss <= ONE_IN; loss += ONE_IN) {
            struct run least[STACKS] = {{0, 0, 0, 0, 0}};
            for (int time = 0; time <= RUNS; time++) {
                checks = time == 0;
                for (int s = 0; s < STACKS; s++) {
                    const struct run run = transfer(stacks[s], &loads[i]);
                    if (!checks) {
                        keep_least(&least[s], run);
                    }
                }
            }
            for (int s = 0; s < STACKS; s++) {
                lossless[s] = loss == 0 ? least[s].frames : lossless[s];
                print_transfer(stacks[s], &loads[i], least[s], lossless[s]);
            }
        }
    }
}

static void time_reads(void)
{
    struct run least = {0, 0, 0, 0, 0};
    loss = 0;
    for (int time = 0; time < RUNS; time++) {
        keep_least(&least, reads(&ours, SMALL));
    }
    printf("%s, reads of one octet: %" PRIu64 " ns each, memory taken %" PRIu64 " times\n", ours.name,
           least.nanoseconds / SMALL, least.taken);
}

static const struct stack *stack_of(const char *name)
{
    for (int i = 0; i < STACKS; i++) {
        if (strcmp(stacks[i]->name, name) == 0) {
            return stacks[i];
        }
    }
    fail("there is no such stack");
    return NULL;
}

/* One run alone, for valgrind, of so many segments or reads: how many frames there were, or reads. */
static uint64_t counted(const struct stack *stack, const char *load, uint64_t times)
{
    for (int i = 0; i < LOADS; i++) {
        if (strcmp(load, loads[i].name) == 0) {
            octets = times * SEGMENT;
            return transfer(stack, &loads[i]).frames;
        }
    }
    reads(stack, times);
    return times;
}

int main(int argc, char **argv)
{
    for (size_t i = 0; i < sizeof pattern; i++) {
        pattern[i] = (uint8_t)(i % PERIOD);
    }
    if (argc == 6 && strcmp(argv[1], "count") == 0) {
        loss = (uint64_t)atoi(argv[4]);
        printf("%" PRIu64 "\n", counted(stack_of(argv[2]), argv[3], (uint64_t)atoi(argv[5])));
    } else if (argc == 1) {
        time_transfers();
        time_reads();
    } else {
        fail("nothing, or: count STACK writes|full|reads LOSS SEGMENTS|READS");
    }
    return 0;
}
