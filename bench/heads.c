/* How long a turn takes: sam47_dispatch with eight heads, in turns of 1, 10 and 1,000 steps; beside it separate calls of sam47_table_run with the same budgets in
 * the same order, each of which tests its table and trace; and one long run of each head over all its steps. What a turn takes beyond its steps is the
 * dispatch less the long runs, which make the same steps, divided by the turns. The ways take turns, and the best of the rounds is printed.
 *
 *   tools/archive.sh
 *   cc -O2 -Iinclude bench/heads.c target/staticlib/libsam47.a -o target/heads && target/heads
 */
#include "programs.h"

#include <stdio.h>

enum { HEADS = SAM47_HEADS_MOST, ROUNDS = 9, STEPS = 200000 /* of each head */, LOG_PART = 1 << 17, SEPARATE_MOST = 4000 /* turns, for each takes long */ };

enum way { DISPATCHED, SEPARATE, LONG_RUNS, WAYS };

static uint8_t states[HEADS * SAM47_STATE_BYTES], traces[HEADS * TRACE_BYTES], log_bytes[HEADS * LOG_PART];
static uint64_t trace_lens[HEADS], log_starts[HEADS];

static const uint32_t budgets[] = {1, 10, 1000};

static uint32_t least(uint32_t a, uint32_t b) { return a < b ? a : b; }

/* Eight fresh heads, past the hold, each with the trace that was made. */
static void line_up(void)
{
    for (size_t i = 0; i < HEADS; i++) {
        uint8_t *state = states + i * SAM47_STATE_BYTES;
        if (sam47_fresh(rom, sizeof rom, state, SAM47_STATE_BYTES) != SAM47_DONE)
            exit(1);
        memset(state + SAM47_AT_HOLD, 0, 2);
        memcpy(traces + i * trace_len, trace, trace_len);
        trace_lens[i] = trace_len;
        log_starts[i] = 0;
    }
}

static int dispatched(uint32_t q, uint32_t turns)
{
    struct sam47_heads a = sam47_dispatch(HEADS, rom, sizeof rom, table, sizeof table, states, sizeof states, traces, HEADS * trace_len, trace_lens, HEADS,
                                          log_bytes, sizeof log_bytes, log_starts, HEADS, q, turns);
    int is_done = a.number == SAM47_DONE;
    for (size_t i = 0; i < HEADS; i++)
        is_done = is_done && a.head[i].number == SAM47_DONE && a.head[i].steps == q * (turns / HEADS);
    return is_done;
}

/* Heads in turn, a call for each; with one turn each, a call over all of a head's steps. */
static int one_by_one(uint32_t q, uint32_t turns)
{
    for (uint32_t turn = 0; turn < turns; turn++) {
        size_t i = turn % HEADS;
        struct sam47_answer a = sam47_table_run(rom, sizeof rom, table, sizeof table, states + i * SAM47_STATE_BYTES, SAM47_STATE_BYTES, traces + i * trace_len,
                                                trace_len, log_bytes + i * LOG_PART, LOG_PART, log_starts[i], q);
        if (a.number != SAM47_DONE || a.steps != q)
            return 0;
        log_starts[i] = a.log_end;
    }
    return 1;
}

/* Nanoseconds that each turn takes; of the long runs, that each turn's steps take. */
static double taken(enum way way, uint32_t q, uint32_t turns)
{
    line_up();
    uint32_t given = way == SEPARATE ? least(turns, SEPARATE_MOST) : turns;
    double from = seconds();
    int is_done = way == DISPATCHED ? dispatched(q, turns) : way == SEPARATE ? one_by_one(q, given) : one_by_one(q * (turns / HEADS), HEADS);
    double nanoseconds = (seconds() - from) * 1e9;
    if (!is_done) {
        printf("a head did not make its steps\n");
        exit(1);
    }
    return nanoseconds / given;
}

static void measure(const char *name, uint32_t q)
{
    double best[WAYS];
    uint32_t turns = HEADS * (STEPS / q);
    for (int round = 0; round < ROUNDS; round++)
        for (enum way way = DISPATCHED; way < WAYS; way++) {
            double now = taken(way, q, turns);
            best[way] = round == 0 || now < best[way] ? now : best[way];
        }
    printf("%-18s %4u steps a turn: dispatch %10.1f, separate runs %10.1f, its steps in long runs %10.1f, beyond its steps %7.1f\n", name, (unsigned)q,
           best[DISPATCHED], best[SEPARATE], best[LONG_RUNS], best[DISPATCHED] - best[LONG_RUNS]);
}

static void measure_all(const char *name)
{
    for (size_t i = 0; i < sizeof budgets / sizeof budgets[0]; i++)
        measure(name, budgets[i]);
}

int main(void)
{
    printf("%d heads, ns a turn, best of %d rounds\n", HEADS, ROUNDS);
    program(busy, sizeof busy);
    measure_all("busy");
    program(mixed, sizeof mixed);
    measure_all("mixed");
    program(listening, sizeof listening);
    pulses(13000, 20);
    measure_all("interrupts and log");
    program(sleeping, sizeof sleeping);
    pulses(100, 6000);
    measure_all("idle");
    return 0;
}
