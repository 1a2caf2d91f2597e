/* Many connections at once between two hosts in memory, of this stack or of lwIP: how long opening one takes, 10,000 octets one way and 10,000 back
   on each in turn, while all others are idle, and closing one; and the memory of one. `bench/flows` runs it. */
#define _POSIX_C_SOURCE 200809L

#include "flows.h"

#include <malloc.h>
#include <stdio.h>
#include <stdlib.h>
#include <string.h>
#include <time.h>

enum {
    OCTETS = 10000,
    ACK_WAITS = 200,                  /* milliseconds */
    TURNS = 100,                      /* that they take at most, a pass of all frames each */
    LINE_SIZE = FLOWS_MOST + 1024     /* frames: an acknowledgement of each connection, and what is due beside them */
};

static struct {
    size_t count, lens[LINE_SIZE];
    uint8_t frames[LINE_SIZE][FRAME_SIZE];
} lines[ENDS];

static const struct stack *stack;
static size_t frames;

void fail(const char *what)
{
    fprintf(stderr, "flows: %s\n", what);
    exit(1);
}

uint8_t *line_place(enum end end)
{
    if (lines[end].count == LINE_SIZE) {
        fail("the line is full");
    }
    return lines[end].frames[lines[end].count];
}

void line_push(enum end end, size_t len)
{
    lines[end].lens[lines[end].count++] = len;
}

static enum end other(enum end end)
{
    return end == NEAR ? FAR : NEAR;
}

/* The other host hears what is due of this one: how many frames there were. */
static size_t pass(enum end from)
{
    stack->emit(from);
    const size_t count = lines[from].count;
    for (size_t i = 0; i < count; i++) {
        stack->deliver(other(from), lines[from].frames[i], lines[from].lens[i]);
    }
    lines[from].count = 0;
    return count;
}

/* All frames that are due go over, and what answers them. */
static void pass_all(void)
{
    for (size_t count = 1; count > 0; frames += count) {
        count = pass(NEAR);
        count += pass(FAR);
    }
}

static void open_one(size_t flow)
{
    stack->connect(flow);
    pass_all();
    stack->accept(flow);
}

/* Octets go from one end of a connection to the other. */
static void move(enum end from, size_t flow)
{
    static const uint8_t octets[OCTETS];
    static uint8_t buffer[OCTETS];
    size_t count = 0;
    stack->send(from, flow, octets, OCTETS);
    for (int turn = 0; count < OCTETS; turn++) {
        if (turn == TURNS) {
            fail("octets don't come");
        }
        stack->pass_time(turn == 0 ? 0 : ACK_WAITS);
        pass_all();
        count += stack->recv(other(from), flow, buffer, OCTETS);
    }
}

static void exchange(size_t flow)
{
    move(NEAR, flow);
    move(FAR, flow);
}

/* The near end closes its side, then the far one, and each reads to the end. */
static void close_one(size_t flow)
{
    for (int end = NEAR; end < ENDS; end++) {
        stack->shut((enum end)end, flow);
        pass_all();
        if (!stack->is_over(other((enum end)end), flow)) {
            fail("the end of a stream doesn't come");
        }
    }
    stack->close(NEAR, flow);
    stack->close(FAR, flow);
}

/* What is taken of the heap. */
static size_t taken(void)
{
    const struct mallinfo2 info = mallinfo2();
    return info.uordblks + info.hblkhd;
}

static double microseconds(void)
{
    struct timespec at;
    clock_gettime(CLOCK_PROCESS_CPUTIME_ID, &at);
    return (double)at.tv_sec * 1e6 + (double)at.tv_nsec / 1e3;
}

/* How long one takes of so many. */
static double each(size_t flows, void (*act)(size_t flow))
{
    const double begun = microseconds();
    for (size_t flow = 0; flow < flows; flow++) {
        act(flow);
    }
    return (microseconds() - begun) / (double)flows;
}

static const struct stack *const stacks[] = {
    &ours,
#ifdef WITH_LWIP
    &lwip,
#endif
};

static const struct stack *stack_of(const char *name)
{
    for (size_t i = 0; i < sizeof stacks / sizeof stacks[0]; i++) {
        if (strcmp(stacks[i]->name, name) == 0) {
            return stacks[i];
        }
    }
    fail("there is no such stack");
    return NULL;
}

int main(int argc, char **argv)
{
    const size_t flows = argc == 3 ? strtoul(argv[2], NULL, 10) : 0;
    if (flows == 0 || flows > FLOWS_MOST) {
        fail("STACK CONNECTIONS");
    }
    stack = stack_of(argv[1]);
    const size_t before = taken();
    stack->begin(flows);
    const double opening = each(flows, open_one);
    const size_t memory = (taken() - before) / flows;
    frames = 0;
    const double moving = each(flows, exchange);
    const double a_frame = moving * (double)flows / (double)frames * 1e3;
    const double closing = each(flows, close_one);
    printf("%s, %zu connections: %.1f us to open one, %.1f us for %d octets there and back (%.0f ns a frame), %.1f us to close one, "
           "%zu octets of heap each\n",
           stack->name, flows, opening, moving, OCTETS, a_frame, closing, memory);
    stack->end();
    return 0;
}
