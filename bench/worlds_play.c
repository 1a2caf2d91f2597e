/* The course of a world: how it gets into a state that is hard to leave, and what comes of it once nothing is lost any more. */
#include "worlds.h"

enum {
    CAP = 20000,           /* frames at one moment, behind which a world isn't silent; more where much is held */
    MANY = 100000,         /* frames: all there are */
    MINUTE = 60000,        /* milliseconds */
    MORE_MINUTES = 60,     /* behind MINUTES, in which a slow world is told from a dead one */
    MOST_EXPIRIES = 8,     /* of a connection before the lossless part: the thirteenth would end it */
    LOSSY_TIME = 100000    /* milliseconds of the lossy course, at most */
};

uint64_t now;
struct faults faults;
struct findings findings;

static bool at_once;      /* a host answers each frame before the next one is heard, rather than all that came at a time */
static bool is_coarse;    /* the clock goes on by whole minutes: the program seldom has timers act */
static bool writes_on;    /* in the first minute without losses more is written */
static bool counts_acks;  /* not in the opening, in which bare ACKs are answered as they are to be */

void judge(enum outcome outcome)
{
    if (findings.outcome == WELL) {
        findings.outcome = outcome;
    }
}

static bool is_well(void)
{
    return findings.outcome == WELL;
}

static void tick_both(void)
{
    tick(NEAR);
    tick(FAR);
}

/* ---- The lossy course ----------------------------------------------------------------------------------------------------------------- */

static void emit_some(enum end end, uint64_t most)
{
    bool was_bare;
    for (uint64_t i = 0; i < most && emit_one(end, true, &was_bare); i++) {
    }
}

static void deliver_some(enum end end, uint64_t most)
{
    for (uint64_t i = 0; i < most && queued[end] > 0; i++) {
        const struct frame *frame = taken_from(end, befalls(faults.reorder) ? (size_t)below(queued[end]) : 0);
        hear(end, frame);
        if (befalls(faults.again)) {
            *place_for(end) = *frame;
            queued[end] += queued[end] + 1 < WIRE_SIZE;
        }
    }
}

/* A moment that is past is that of a timer which is late. Now and then one host has no timer act. */
static void pass_time(uint64_t moment)
{
    now = moment > now ? moment : now;
    if (befalls(70)) {
        tick_both();
    } else {
        tick(befalls(50) ? NEAR : FAR);
    }
}

/* What may befall at any moment. Time passes only with `ticks`. */
static void befall(uint64_t until, bool ticks, bool shuts)
{
    const enum end end = befalls(50) ? NEAR : FAR;
    const int connection = (int)below((uint64_t)connections);
    const uint64_t most = befalls(40) ? MANY : 1 + below(5), next = deadline(end);
    uint64_t moment = now;
    switch (below(ticks ? 16 : 12)) {
    case 0: case 1: case 2: case 3: emit_some(end, most); break;
    case 4: case 5: case 6: case 7: deliver_some(end, most); break;
    case 8: case 9: write_octets(connection, end, some_octets(end)); break;
    case 10: read_octets(connection, end, some_octets(other(end))); break;
    case 11:
        if (shuts && befalls(4)) {
            shut(connection, end);
        } else {
            read_octets(connection, end, befalls(50) ? UINT64_MAX : some_octets(end));
        }
        break;
    case 12: moment += 1 + below(50); break;
    case 13: moment += 1 + below(1500); break;
    case 14: moment = next == UINT64_MAX ? now : next; break;
    default: moment += befalls(10) ? below(MINUTE) : below(500); break;
    }
    if (moment != now && moment <= until) {
        pass_time(moment);
    }
    look_at_edges();
}

static void play_lossy(uint64_t steps, bool shuts)
{
    const uint64_t until = now + LOSSY_TIME;
    for (uint64_t i = 0; i < steps && is_well() && most_expiries() < MOST_EXPIRIES; i++) {
        befall(until, true, shuts);
    }
}

/* ---- Nothing is lost ------------------------------------------------------------------------------------------------------------------ */

/* All that is due of a host goes out: answers whether a bare ACK was among it. */
static bool emit_all(enum end end)
{
    bool had_bare = false, was_bare;
    for (uint64_t i = 0; i < 2 * CAP && emit_one(end, false, &was_bare); i++) {
        had_bare = had_bare || was_bare;
    }
    return had_bare;
}

/* Whether a host that heard an acknowledgement holds nothing of what its number acknowledges. */
static bool is_used(enum end end, const struct segment *segment)
{
    struct host_info info;
    const struct side *side = &sides[segment->connection][end];
    if (!side->has_isn || !info_of(segment->connection, end, &info)) {
        return true;
    }
    const int64_t ahead = (int32_t)(segment->acknowledgement - side->isn - 1 - (uint32_t)(side->written - (uint64_t)info.held));
    return ahead <= 0 || (side->is_shut && ahead == 1); /* 1: the FIN, which isn't among what is held */
}

/* The first frame for a host arrives. A side that asks whether its peer is there does so by a bare ACK that is to be answered: it isn't counted. */
static void hear_first(enum end end)
{
    const struct frame *frame = taken_from(end, 0);
    struct segment segment;
    const bool counted = counts_acks && reads_segment(frame, &segment) && is_bare(&segment) && !sides[segment.connection][other(end)].asks;
    hear(end, frame);
    counts.bare += counted;
    if (counted && !is_used(end, &segment)) {
        counts.unheard++;
        findings.has_unheard = true;
        trace("%c didn't hear it", name_of(end));
    }
    if (at_once && emit_all(end) && counted) {
        counts.answered++;
        findings.has_answered = true;
        trace("%c answers it", name_of(end));
    }
}

/* Both hosts hear what is on its way to them, and then answer it. */
static uint64_t hear_in_turn(void)
{
    const size_t each[ENDS] = {queued[NEAR], queued[FAR]};
    for (int end = NEAR; end < ENDS; end++) {
        for (size_t i = 0; i < each[end]; i++) {
            hear_first((enum end)end);
        }
    }
    emit_all(NEAR);
    emit_all(FAR);
    return each[NEAR] + each[FAR];
}

/* All goes out and arrives, in order, until nothing is on its way, at this moment. */
static void fall_silent(void)
{
    const uint64_t cap = CAP + held() / 50;
    uint64_t count = 0;
    emit_all(NEAR);
    emit_all(FAR);
    while (queued[NEAR] + queued[FAR] > 0 && is_well()) {
        if (at_once) {
            hear_first(queued[NEAR] == 0 || (queued[FAR] != 0 && befalls(50)) ? FAR : NEAR);
            count++;
        } else {
            count += hear_in_turn();
        }
        if (count > cap) {
            judge(WAR);
        }
    }
    counts.frames += count;
    counts.moments++;
    counts.most_frames = count > counts.most_frames && is_well() ? count : counts.most_frames;
}

/* Everybody reads what there is, as long as more comes of that at this moment. */
static void read_until_silent(void)
{
    do {
        fall_silent();
    } while (is_well() && read_all() != 0);
    if (is_well()) {
        fall_silent();
    }
    look_at_edges();
}

static bool is_all_read(void)
{
    for (int c = 0; c < connections; c++) {
        for (int end = NEAR; end < ENDS; end++) {
            if (!is_cut(c) && sides[c][other((enum end)end)].read != sides[c][end].written) {
                return false;
            }
        }
    }
    return true;
}

static bool are_ends_told(void)
{
    for (int c = 0; c < connections; c++) {
        for (int end = NEAR; end < ENDS; end++) {
            if (!is_cut(c) && sides[c][end].is_shut && !sides[c][other((enum end)end)].is_told) {
                return false;
            }
        }
    }
    return true;
}

static void write_some(void)
{
    const enum end end = befalls(50) ? NEAR : FAR;
    const uint64_t len = some_octets(end);
    write_octets((int)below((uint64_t)connections), end, len);
}

static void pass_a_minute(void)
{
    const uint64_t until = now + MINUTE;
    while (is_well() && now < until) {
        const uint64_t near = deadline(NEAR), far = deadline(FAR), next = near < far ? near : far;
        now = is_coarse ? until : next <= now ? now + 1 : next < until ? next : until;
        tick_both();
        if (writes_on && befalls(20)) {
            write_some();
        }
        read_until_silent();
    }
}

/* An error counts though no call has told it yet. */
static void look_at_errors(void)
{
    struct host_info info;
    for (int c = 0; c < connections; c++) {
        for (int end = NEAR; end < ENDS; end++) {
            if (!is_cut(c) && info_of(c, (enum end)end, &info) && info.error != 0) {
                judge(ENDED);
            }
        }
    }
}

/* One side ends some connections at once, without a word to the other application. */
static void abort_some(void)
{
    for (int c = 0; c < connections; c++) {
        const enum end end = befalls(50) ? NEAR : FAR;
        if (sides[c][end].id != 0 && befalls(60)) {
            abort_one(c, end);
            counts.aborted++;
        }
    }
}

/* How many other sides of connections that were aborted know of it. */
static uint64_t count_told(void)
{
    struct host_info info;
    uint64_t count = 0;
    for (int c = 0; c < connections; c++) {
        for (int end = NEAR; end < ENDS; end++) {
            if (sides[c][other((enum end)end)].is_aborted) {
                const bool is_told = !info_of(c, (enum end)end, &info) || info.state == HOST_STATE_CLOSED || info.state == HOST_STATE_TIME_WAIT;
                count += is_told;
                if (!is_told) {
                    trace("%c%d is not told", name_of((enum end)end), c);
                }
            }
        }
    }
    return count;
}

/* What is found once all had the time to be read. */
static void judge_reading(uint64_t minutes)
{
    look_at_errors();
    if (!is_all_read()) {
        judge(DEAD);
    } else if (!are_ends_told()) {
        judge(UNTOLD);
    } else if (minutes > MINUTES) {
        judge(SLOW);
    }
    if (is_well()) {
        counts.minutes[minutes]++;
    }
}

static void play_lossless(void)
{
    uint64_t minutes = 0;
    if (aborts) {
        abort_some();
    }
    fall_silent();
    counts.told_at_once += count_told();
    trace_infos();
    if (is_well()) {
        read_until_silent();
    }
    for (; minutes < MINUTES + MORE_MINUTES && is_well() && (writes_on || !is_all_read() || !are_ends_told()); minutes++) {
        pass_a_minute();
        writes_on = false;
        trace_infos();
    }
    judge_reading(minutes);
    for (int i = 0; i < (aborts ? 6 : 3) && is_well() && (aborts || held() != 0); i++) {
        pass_a_minute();
    }
    look_at_errors();
    counts.told_later += count_told();
    if (!aborts && held() != 0) {
        judge(UNACKNOWLEDGED);
    }
}

/* ---- Worlds --------------------------------------------------------------------------------------------------------------------------- */

/* Both hosts send and hear until the wire is empty, or for so long that it won't be. */
static void exchange(void)
{
    for (int turns = 0; turns < 200; turns++) {
        emit_some(NEAR, MANY);
        emit_some(FAR, MANY);
        if (queued[NEAR] + queued[FAR] == 0) {
            return;
        }
        deliver_some(NEAR, queued[NEAR]);
        deliver_some(FAR, queued[FAR]);
    }
}

/* Both sides write until both windows are closed, and nobody reads. Little is lost, or timers would expire too often. */
static void close_windows(void)
{
    const uint64_t loss = faults.loss, until = now + LOSSY_TIME / 2;
    uint64_t before, after = held();
    faults.loss = befalls(50) ? 0 : below(8);
    do {
        before = after;
        for (int c = 0; c < connections; c++) {
            write_octets(c, NEAR, UINT64_MAX / 2);
            write_octets(c, FAR, UINT64_MAX / 2);
        }
        for (int i = 0; i < 4 && is_well(); i++) {
            exchange();
            now += 60;
            tick_both();
        }
        after = held();
    } while (before != after && now < until && is_well() && most_expiries() < MOST_EXPIRIES);
    faults.loss = loss;
}

/* The moment at which all sides have probed their peer's closed window that wait for it now, or a later one where none does. */
static uint64_t probes_due(void)
{
    struct host_info info;
    uint64_t last = now;
    for (int c = 0; c < connections; c++) {
        for (int end = NEAR; end < ENDS; end++) {
            if (info_of(c, (enum end)end, &info) && info.probe > (int64_t)last) {
                last = (uint64_t)info.probe;
            }
        }
    }
    return last > now ? last : now + below(2000);
}

/* The probes of both sides cross, and both sides read: all that comes of that is heard in any order. */
static void cross_probes(void)
{
    const uint64_t rounds = 1 + below(4), until = now + LOSSY_TIME;
    for (uint64_t round = 0; round < rounds && is_well() && most_expiries() < MOST_EXPIRIES; round++) {
        const uint64_t next = probes_due();
        if (next > until) {
            break;
        }
        now = next;
        tick_both();
        if (befalls(70)) {
            emit_some(NEAR, MANY);
            emit_some(FAR, MANY);
        }
        const uint64_t steps = 5 + below(40);
        for (uint64_t i = 0; i < steps && is_well(); i++) {
            befall(until, befalls(3), false);
        }
    }
}

static bool are_open(void)
{
    for (int c = 0; c < connections; c++) {
        if (sides[c][NEAR].id == 0 || sides[c][FAR].id == 0) {
            return false;
        }
    }
    return true;
}

/* With `lossless` all are open then, else handshakes are part of the lossy course. */
static void open_all(bool lossless)
{
    for (int c = 0; c < connections; c++) {
        connect_one(c);
    }
    if (lossless) {
        const uint64_t until = now + MINUTE;
        fall_silent();
        while (!are_open() && is_well()) {
            if (now >= until) {
                fail("connections don't open");
            }
            now += 100;
            tick_both();
            fall_silent();
        }
    }
}

static void draw_faults(bool are_mild)
{
    faults.loss = are_mild ? below(30) : 5 + below(86);
    faults.repeat = befalls(50) ? 0 : below(20);
    faults.reorder = befalls(30) ? 0 : befalls(50) ? 100 : below(100);
    faults.again = befalls(60) ? 0 : befalls(20) ? 60 + below(30) : below(15);
}

/* Random calls and losses seldom close the windows of both sides, which is where a stack may lock up: a hard world begins so. */
static void play_hard(void)
{
    draw_faults(true);
    open_all(true);
    close_windows();
    cross_probes();
    if (befalls(30)) {
        play_lossy(below(60), true);
    }
}

static void play_plain(void)
{
    draw_faults(false);
    open_all(befalls(75));
    const bool shuts = befalls(50);
    play_lossy(20 + below(280), shuts);
}

/* Where two numbers are drawn for one call each has a statement of its own, here and above: C doesn't say which argument is found first. */
void play(uint64_t seed, bool is_hard)
{
    begin_chance(seed);
    findings = (struct findings){.outcome = WELL};
    counts_acks = false;
    empty_wire();
    now = 1 + below(100000);
    at_once = befalls(60);
    is_coarse = befalls(10);
    writes_on = befalls(25);
    connections = befalls(45) ? 1 : befalls(50) ? 2 : (int)(1 + below(CONNECTIONS));
    make_hosts();
    if (is_hard) {
        play_hard();
    } else {
        play_plain();
    }
    if (befalls(50)) {
        queued[NEAR] = queued[FAR] = 0;
    }
    trace("nothing is lost from now on");
    trace_infos();
    counts_acks = true;
    if (is_well()) {
        play_lossless();
    }
    trace_infos();
    free_hosts();
}
