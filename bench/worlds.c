/* Plays random worlds of two hosts of this stack, joined in memory: a course of calls and of frames, many of which are lost, then minutes in which
   nothing is lost and everybody reads. A third of the worlds is hard: there the windows of both sides are closed first, and zero-window probes
   cross. A world is drawn from its seed alone, and the clock is the driver's own. It tells of each world that does what none of two honest hosts
   may: it never falls silent, octets that were written are never read, or late, or wrong ones are, an end isn't told, a connection ends by an
   error, or octets are never acknowledged. `bench/worlds` runs it, and tells what its words are. */
#define _POSIX_C_SOURCE 200809L

#include "worlds.h"

#include <signal.h>
#include <stdarg.h>
#include <stdio.h>
#include <stdlib.h>
#include <string.h>
#include <unistd.h>

enum { TOLD = 1000 /* worlds, behind each so many of which it is told that it goes on */ };

static const char *const outcome_names[OUTCOMES] = {"well", "war", "dead", "slow", "wrong", "untold", "ended", "unacknowledged"};

bool traces, aborts;
struct counts counts;

static uint64_t seed; /* of the world that is played */
static uint64_t worlds, hard_worlds, answered_worlds, unheard_worlds, edge_worlds, outcomes[2][OUTCOMES];

void fail(const char *what)
{
    fflush(stdout);
    fprintf(stderr, "worlds: seed %" PRIu64 ": %s\n", seed, what);
    exit(1);
}

void trace(const char *form, ...)
{
    va_list arguments;
    if (traces) {
        va_start(arguments, form);
        printf("%8" PRIu64 " ", now);
        vprintf(form, arguments);
        printf("\n");
        va_end(arguments);
    }
}

static bool is_hard(uint64_t of)
{
    return of % 3 == 0;
}

static void play_and_count(void)
{
    play(seed, is_hard(seed));
    worlds++;
    hard_worlds += is_hard(seed);
    outcomes[is_hard(seed)][findings.outcome]++;
    answered_worlds += findings.has_answered;
    unheard_worlds += findings.has_unheard;
    edge_worlds += findings.passes_edge;
    if (findings.outcome != WELL) {
        printf("bad: seed %" PRIu64 " (%s, %d connections): %s\n", seed, is_hard(seed) ? "hard" : "plain", connections,
               outcome_names[findings.outcome]);
        fflush(stdout);
    }
    if (worlds % TOLD == 0) {
        fprintf(stderr, "%" PRIu64 " worlds\n", worlds);
    }
}

static void print_counts(void)
{
    printf("%" PRIu64 " worlds, %" PRIu64 " of them hard\n", worlds, hard_worlds);
    for (int i = 0; i < OUTCOMES; i++) {
        printf("  %-15s hard %8" PRIu64 "   plain %8" PRIu64 "\n", outcome_names[i], outcomes[true][i], outcomes[false][i]);
    }
    printf("lossless minutes until all was read:");
    for (int i = 0; i <= MINUTES; i++) {
        printf(" %d: %" PRIu64, i, counts.minutes[i]);
    }
    printf("\nlossless moments %" PRIu64 ", frames %" PRIu64 ", at one moment at most %" PRIu64 "\n", counts.moments, counts.frames,
           counts.most_frames);
    printf("of these bare ACKs %" PRIu64 ", answered by a bare ACK %" PRIu64 " (in %" PRIu64 " worlds), unheard %" PRIu64 " (in %" PRIu64
           " worlds)\n",
           counts.bare, counts.answered, answered_worlds, counts.unheard, unheard_worlds);
    if (aborts) {
        printf("connections that one side aborted %" PRIu64 ", of which the other side was told at once %" PRIu64 ", in the end %" PRIu64 "\n",
               counts.aborted, counts.told_at_once, counts.told_later);
    }
    printf("worlds where SND.UNA + SND.WND passed the peer's edge: %" PRIu64 "\n", edge_worlds);
}

/* A library that stops the program is a finding, too. */
static void stopped(int number)
{
    char text[64];
    const int len = snprintf(text, sizeof text, "bad: seed %" PRIu64 ": signal %d\n", seed, number);
    _exit(write(STDOUT_FILENO, text, (size_t)len) == len ? 1 : 2);
}

static void catch_signals(void)
{
    static const int numbers[] = {SIGABRT, SIGBUS, SIGFPE, SIGILL, SIGSEGV, SIGTRAP};
    for (size_t i = 0; i < sizeof numbers / sizeof numbers[0]; i++) {
        signal(numbers[i], stopped);
    }
}

/* Ends the program: these words ask for nothing that it does. */
static void refuse(const char *what, const char *word)
{
    fprintf(stderr, "worlds: %s '%s'; bench/worlds --help tells how\n", what, word);
    exit(2);
}

static uint64_t number_of(const char *word)
{
    if (word[0] == '\0' || word[strspn(word, "0123456789")] != '\0') {
        refuse("no number:", word);
    }
    return strtoull(word, NULL, 10);
}

int main(int count, char **words)
{
    bool hard = true, plain = true;
    if (count < 3) {
        refuse("SEED and COUNT are wanted behind", count < 2 ? "worlds" : words[1]);
    }
    const uint64_t first = number_of(words[1]), seeds = number_of(words[2]);
    for (int i = 3; i < count; i++) {
        if (strcmp(words[i], "hard") == 0) {
            plain = false;
        } else if (strcmp(words[i], "plain") == 0) {
            hard = false;
        } else if (strcmp(words[i], "abort") == 0) {
            aborts = true;
        } else if (strcmp(words[i], "trace") == 0) {
            traces = true;
        } else {
            refuse("no such word:", words[i]);
        }
    }
    if (!hard && !plain) {
        refuse("no world is both hard and", "plain");
    }
    if (traces) {
        setvbuf(stdout, NULL, _IOLBF, BUFSIZ); /* so that all is told of a world that stops the program */
    }
    catch_signals();
    make_source();
    for (uint64_t i = 0; i < seeds; i++) {
        seed = first + i;
        if (is_hard(seed) ? hard : plain) {
            play_and_count();
        }
    }
    print_counts();
    return outcomes[true][WELL] + outcomes[false][WELL] == worlds ? 0 : 1;
}
