/* How much stack a call takes. Each call runs on a stack of its own that is painted first; the deepest byte that is no longer paint tells. Two paints,
 * for a byte that a call wrote may look like one of them.
 *
 *   make -C tests stack
 *   target/tests/stack ROM TRACE STEPS CASES
 *
 * Plays a round of STEPS steps from its two files, and the random cases 1 to CASES of tests/peer, refusals and stops among them, through all seven calls; the
 * dispatcher has eight heads that are all the case's, and gives each a turn; litres are counted of the log that the table-driven run writes, or, where that is
 * empty, of the log's bytes as they are, which few are a log, by 64 marks. Prints the most bytes for each, counted from the frame of the function that
 * makes the call, so with its arguments. The exit status is 1 if that is more than SAM47_STACK_BYTES, or if the round does not answer done. */
#define _XOPEN_SOURCE 700 /* makecontext */
#include "../peer/cases.h"

#include <inttypes.h>
#include <stdio.h>
#include <stdlib.h>
#include <string.h>
#include <ucontext.h>

enum call { PREDECODE, FRESH, PLAIN_RUN, TABLE_RUN, TIDY, DISPATCH, LITRES, CALLS };

enum { PAINTED = 16384, PAINTS = 2, HEADS = SAM47_HEADS_MOST, FARMS = SAM47_FARMS_MOST };

static const char *const names[CALLS] = {"sam47_predecode", "sam47_fresh", "sam47_plain_run", "sam47_table_run", "sam47_tidy", "sam47_dispatch",
                                         "sam47_litres"};
static const uint8_t paints[PAINTS] = {0xA5, 0x5A};

static uint8_t painted[PAINTED];
static ucontext_t caller, callee;
static const uint8_t *frame; /* of the function that makes the call */

static struct head_case given, lent; /* as made, and as a call finds and changes it */
static enum call made;
static struct sam47_answer answer;
static struct sam47_written written;
static struct sam47_heads heads_answer;
static struct sam47_lines lines;
static uint8_t tidied[TRACE_MOST];
static uint64_t count[CALLS], most[CALLS];

/* What the dispatcher is lent: as many copies of the case's state, trace and log as there are heads. */
static struct {
    uint8_t states[HEADS * (SAM47_STATE_BYTES + BEYOND)], traces[HEADS * TRACE_MOST], log[HEADS * LOG_MOST];
    uint64_t trace_lens[HEADS], log_starts[HEADS];
} row;

static void line_up(const struct head_case *c)
{
    for (size_t head = 0; head < HEADS; head++) {
        memcpy(row.states + head * c->state_len, c->state, c->state_len);
        memcpy(row.traces + head * c->trace_len, c->trace, c->trace_len);
        memcpy(row.log + head * c->log_len, c->log, c->log_len);
        row.trace_lens[head] = c->trace_len;
        row.log_starts[head] = c->log_start;
    }
}

/* What a count of litres is lent: a part of the case's log, and marks. */
static struct {
    const uint8_t *log;
    size_t log_len;
    uint32_t marks[FARMS];
} slip;

/* A run's records lie between its log start and its log end; the farms begin at the case's clock, as near to its end as there is room for all. */
static void cut_log(struct head_case *c)
{
    static const uint32_t apart = 64, last_start = UINT32_MAX - 64 * FARMS;
    const uint8_t *at = c->state + SAM47_AT_CLOCK;
    uint32_t clock = at[0] | (uint32_t)at[1] << 8 | (uint32_t)at[2] << 16 | (uint32_t)at[3] << 24;
    struct sam47_answer ran = sam47_table_run(c->rom, c->rom_len, c->table, c->table_len, c->state, c->state_len, c->trace, c->trace_len, c->log, c->log_len,
                                              c->log_start, c->budgets[0]);
    int is_empty = ran.log_end == c->log_start;
    slip.log = c->log + (is_empty ? 0 : c->log_start);
    slip.log_len = is_empty ? c->log_len : ran.log_end - c->log_start;
    for (uint32_t farm = 0; farm < FARMS; farm++)
        slip.marks[farm] = (clock < last_start ? clock : last_start) + farm * apart;
}

static void make_call(void)
{
    struct head_case *c = &lent;
    frame = __builtin_frame_address(0);
    if (made == PREDECODE)
        answer.number = sam47_predecode(c->rom, c->rom_len, c->table, c->table_len);
    else if (made == FRESH)
        answer.number = sam47_fresh(c->rom, c->rom_len, c->state, c->state_len);
    else if (made == PLAIN_RUN)
        answer = sam47_plain_run(c->rom, c->rom_len, c->state, c->state_len, c->trace, c->trace_len, c->log, c->log_len, c->log_start, c->budgets[0]);
    else if (made == TABLE_RUN)
        answer = sam47_table_run(c->rom, c->rom_len, c->table, c->table_len, c->state, c->state_len, c->trace, c->trace_len, c->log, c->log_len,
                                 c->log_start, c->budgets[0]);
    else
        written = sam47_tidy(c->trace, c->trace_len, tidied, sizeof tidied);
}

/* By itself, for its large answer stands in the frame of the function that makes the call. */
static void make_dispatch(void)
{
    struct head_case *c = &lent;
    frame = __builtin_frame_address(0);
    heads_answer = sam47_dispatch(HEADS, c->rom, c->rom_len, c->table, c->table_len, row.states, HEADS * c->state_len, row.traces, HEADS * c->trace_len,
                                  row.trace_lens, HEADS, row.log, HEADS * c->log_len, row.log_starts, HEADS, c->budgets[0], HEADS);
}

/* By itself for the same reason. */
static void make_litres(void)
{
    frame = __builtin_frame_address(0);
    lines = sam47_litres(slip.log, slip.log_len, slip.marks, FARMS);
}

/* The bytes between the frame and the deepest byte that lost its paint, by one call on what is given. */
static size_t depth(uint8_t paint)
{
    size_t at = 0;
    lent = given;
    line_up(&given);
    if (made == LITRES)
        cut_log(&lent);
    memset(painted, paint, PAINTED);
    getcontext(&callee);
    callee.uc_stack.ss_sp = painted;
    callee.uc_stack.ss_size = PAINTED;
    callee.uc_link = &caller;
    makecontext(&callee, made == DISPATCH ? make_dispatch : made == LITRES ? make_litres : make_call, 0);
    swapcontext(&caller, &callee);
    while (painted[at] == paint)
        at++;
    return (size_t)(frame - (painted + at));
}

static void measure(void)
{
    for (made = PREDECODE; made < CALLS; made++) {
        count[made]++;
        for (size_t i = 0; i < PAINTS; i++) {
            size_t bytes = depth(paints[i]);
            if (bytes > most[made])
                most[made] = bytes;
        }
    }
}

static size_t read_file(const char *path, uint8_t *bytes, size_t room)
{
    FILE *file = fopen(path, "rb");
    if (!file) {
        perror(path);
        exit(2);
    }
    size_t len = fread(bytes, 1, room, file);
    fclose(file);
    return len;
}

static int is_done(struct sam47_answer a, uint32_t steps) { return a.number == SAM47_DONE && a.steps == steps && a.log_end > 0; }

/* The round from fresh, in one call of each run and of the dispatcher. Its trace is tidy as it is, and its log has litres. */
static int round_is_done(const char *rom, const char *trace, uint32_t steps)
{
    given.rom_len = read_file(rom, given.rom, ROM_MOST);
    given.trace_len = read_file(trace, given.trace, TRACE_MOST);
    given.table_len = SAM47_TABLE_BYTES_PER_ADDRESS * given.rom_len;
    given.state_len = SAM47_STATE_BYTES;
    given.log_len = LOG_MOST;
    given.budgets[0] = steps;
    if (sam47_predecode(given.rom, given.rom_len, given.table, given.table_len) != SAM47_DONE ||
        sam47_fresh(given.rom, given.rom_len, given.state, given.state_len) != SAM47_DONE)
        return 0;
    measure();
    if (written.number != SAM47_DONE || written.length != given.trace_len)
        return 0;
    int are_done = is_done(answer, steps) && lines.number == SAM47_DONE && lines.farm[FARMS - 1] > 0;
    for (size_t head = 0; head < HEADS; head++)
        are_done = are_done && is_done(heads_answer.head[head], steps);
    return are_done;
}

int main(int argc, char **argv)
{
    if (argc != 5) {
        fprintf(stderr, "stack ROM TRACE STEPS CASES\n");
        return 2;
    }
    if (!round_is_done(argv[1], argv[2], (uint32_t)strtoul(argv[3], NULL, 10))) {
        printf("stack: the round is not done\n");
        return 1;
    }
    uint64_t cases = strtoul(argv[4], NULL, 10);
    int fits = 1;
    for (uint64_t number = 1; number <= cases; number++) {
        make_case(number, &given);
        measure();
    }
    for (size_t call = 0; call < CALLS; call++) {
        printf("stack: %s takes %" PRIu64 " bytes at most, in %" PRIu64 " calls\n", names[call], most[call], count[call]);
        fits = fits && most[call] <= SAM47_STACK_BYTES;
    }
    if (!fits)
        printf("stack: more than SAM47_STACK_BYTES, %d\n", SAM47_STACK_BYTES);
    return !fits;
}
