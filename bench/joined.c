/* How long 10 MB take from one host to another, of this stack or of lwIP, over a wire in memory that loses frames both ways. The clock is the
   driver's own: it jumps to the next moment at which a frame arrives or a timer acts, so that seconds here are those of the hosts. */
#define _POSIX_C_SOURCE 200809L

#include "wire.h"

#include <inttypes.h>
#include <stdio.h>
#include <stdlib.h>
#include <string.h>
#include <sys/wait.h>
#include <unistd.h>

enum {
    OCTETS = 10 << 20,
    RUNS = 9,            /* of each kind, each with losses of its own; odd, so that there is a middle one */
    LONGEST = 100000000, /* milliseconds, behind which a run has come to a halt */
    READ_SIZE = 65536,
    PORT = 80
};

/* What a run is to be. */
struct load {
    const struct stack *stacks[ENDS];
    struct faults faults;
};

/* What it did. */
struct run {
    uint64_t milliseconds, resent;
};

static struct load load;
static uint64_t ids[ENDS];
static bool moves;       /* once the connection is open */
static uint8_t source[OCTETS];
static size_t written, read_so_far;

void fail(const char *what)
{
    fprintf(stderr, "joined: %s\n", what);
    exit(1);
}

/* ---- The application ----------------------------------------------------------------------------------------------------------------- */

/* The near host has as much to write as it takes. */
static void write_octets(void)
{
    if (written < OCTETS) {
        written += stacks[NEAR]->send(NEAR, ids[NEAR], source + written, OCTETS - written);
    }
}

/* The far one reads all there is. */
static void read_octets(void)
{
    static uint8_t buffer[READ_SIZE];
    for (size_t len; (len = stacks[FAR]->recv(FAR, ids[FAR], buffer, sizeof buffer)) != 0;) {
        if (len > OCTETS - read_so_far || memcmp(buffer, source + read_so_far, len) != 0) {
            fail("other octets were read than were written");
        }
        read_so_far += len;
    }
}

static void work(enum end end)
{
    if (!moves && end == FAR && ids[FAR] == 0) {
        ids[FAR] = stacks[FAR]->accept(FAR);
    } else if (moves && end == NEAR) {
        write_octets();
    } else if (moves) {
        read_octets();
    }
}

static bool is_open(enum end end)
{
    return ids[end] != 0 && stacks[end]->standing(end, ids[end]) == OPEN;
}

static void go_on_or_fail(void)
{
    go_on(LONGEST, work);
    if (moment >= LONGEST) {
        fail("nothing moves");
    }
}

/* ---- Runs ---------------------------------------------------------------------------------------------------------------------------- */

/* Opens the connection, of which nothing is lost. */
static void open_connection(void)
{
    const struct faults none = {.delay = load.faults.delay};
    moment = 1;
    wire_set(&none);
    memcpy(stacks, load.stacks, sizeof stacks);
    stacks[FAR]->make(FAR);
    stacks[FAR]->listen(FAR, PORT);
    stacks[NEAR]->make(NEAR);
    ids[NEAR] = stacks[NEAR]->connect(NEAR, 0, PORT);
    let_work(NEAR, work);
    while (!is_open(NEAR) || !is_open(FAR)) {
        go_on_or_fail();
    }
}

/* A run begins once the connection is open. */
static struct run transfer(void)
{
    struct run run;
    open_connection();
    const uint64_t before = moment;
    wire_set(&load.faults);
    moves = true;
    let_work(NEAR, work);
    while (read_so_far < OCTETS) {
        go_on_or_fail();
    }
    run.milliseconds = moment - before;
    run.resent = traffic[NEAR].resent;
    return run;
}

/* The same in a process of its own, since lwIP keeps what it knows between runs. */
static struct run transfer_apart(void)
{
    struct run run;
    int ends[2], status;
    fflush(NULL);
    if (pipe(ends) != 0) {
        fail("pipe");
    }
    const pid_t child = fork();
    if (child < 0) {
        fail("fork");
    }
    if (child == 0) {
        run = transfer();
        _exit(write(ends[1], &run, sizeof run) == (ssize_t)sizeof run ? 0 : 1);
    }
    close(ends[1]);
    const bool came = read(ends[0], &run, sizeof run) == (ssize_t)sizeof run;
    close(ends[0]);
    if (waitpid(child, &status, 0) != child || status != 0 || !came) {
        fprintf(stderr, "joined: %s to %s, %" PRIu64 " ms late, %" PRIu64 " %% lost, losses %" PRIu64 "\n", load.stacks[NEAR]->name,
                load.stacks[FAR]->name, load.faults.delay, load.faults.loss, load.faults.seed);
        fail("a run failed");
    }
    return run;
}

/* ---- The program --------------------------------------------------------------------------------------------------------------------- */

static const struct stack *const pairs[][ENDS] = {
    {&lwip, &lwip},
    {&plain, &lwip},     {&newreno, &lwip},    {&selective, &lwip}, {&selective_small, &lwip},
    {&lwip, &plain},     {&lwip, &newreno},    {&lwip, &selective}, {&lwip, &selective_small},
    {&plain, &plain},    {&newreno, &newreno}, {&selective, &selective}, {&selective_small, &selective_small},
};

static const uint64_t losses[] = {0, 1, 5}, delays[] = {0, 10};

enum { PAIRS = sizeof pairs / sizeof pairs[0], LOSSES = sizeof losses / sizeof losses[0], DELAYS = sizeof delays / sizeof delays[0] };

static int compare(const void *one, const void *other)
{
    const uint64_t here = *(const uint64_t *)one, there = *(const uint64_t *)other;
    return (here > there) - (here < there);
}

/* Runs of one kind: the least, the middle and the most of seconds and of segments that were sent again. */
static void print_runs(uint64_t runs)
{
    uint64_t milliseconds[RUNS], again[RUNS];
    for (load.faults.seed = 0; load.faults.seed < runs; load.faults.seed++) {
        const struct run run = transfer_apart();
        milliseconds[load.faults.seed] = run.milliseconds;
        again[load.faults.seed] = run.resent;
    }
    qsort(milliseconds, runs, sizeof milliseconds[0], compare);
    qsort(again, runs, sizeof again[0], compare);
    const uint64_t shown[] = {0, runs / 2, runs - 1};
    printf("%-17s to %-17s |", load.stacks[NEAR]->name, load.stacks[FAR]->name);
    for (int i = 0; i < 3; i++) {
        printf(" %7.1f", (double)milliseconds[shown[i]] / 1000);
    }
    printf(" |");
    for (int i = 0; i < 3; i++) {
        printf(" %6" PRIu64, again[shown[i]]);
    }
    printf("\n");
}

int main(void)
{
    uint64_t state = 88172645463325252;
    for (size_t i = 0; i < OCTETS; i++) {
        source[i] = (uint8_t)drawn(&state);
    }
    for (int d = 0; d < DELAYS; d++) {
        for (int l = 0; l < LOSSES; l++) {
            load.faults.delay = delays[d];
            load.faults.loss = losses[l];
            printf("%" PRIu64 " ms late, %" PRIu64 " %% lost: seconds, and segments sent again, each the least, middle and most\n", load.faults.delay,
                   load.faults.loss);
            for (int p = 0; p < PAIRS; p++) {
                memcpy(load.stacks, pairs[p], sizeof load.stacks);
                print_runs(load.faults.loss == 0 ? 1 : RUNS);
            }
        }
    }
    return 0;
}
