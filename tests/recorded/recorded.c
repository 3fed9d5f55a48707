/* Plays the recorded cases through the library's plain run and table-driven run, and counts those that fail. A case is played with the budgets that
 * were recorded, then, once for each seed, with the sum of these budgets cut anew at random: how a round is cut into calls may not matter.
 *
 *   tools/archive.sh
 *   make -C tests recorded SEEDS=20
 *
 * The cases are packed in cases.bin.xz and undefined.bin.xz (tools/pack_vectors.py; packed.h reads it). Numbers have four bytes, low byte first. The file is the mark "SAM47VEC", the number 1,
 * how many cases there are, and the cases. A case's head is nine numbers:
 *   0 the case's own number
 *   1 the ROM's length
 *   2 the table's length, or FFFFFFFFH for the table that predecode makes of the ROM, whose bytes are left out
 *   3 the state's length
 *   4 the trace's length
 *   5 the log's length
 *   6 the log start of the first call
 *   7 how many calls there are
 *   8 the length of the table-driven run's own results, 0 if they are the plain run's
 * Then stand
 *   the bytes of the ROM, the table, the state, the trace and the log;
 *   for each call its budget, and the number, steps, address and log end of the plain run's answer;
 *   the state and the log that the plain run left after the last call;
 *   the table-driven run's own results: the number, steps, address and log end of each answer, and the state and the log left;
 *   the mark "DONE".
 * The first call is made on the state, log and log start given, each later one on what the last left and from its log end.
 *
 * Each failing case prints a line, and the last line counts. The exit status is 0 if as many cases as wanted were played and none failed, 1 if one
 * failed, and 2 if the file has fewer or more cases, is cut short, or has another form. */
#include "../random.h"
#include "packed.h"
#include "runs.h"
#include "sam47.h"

#include <inttypes.h>

enum { RECORDED_CALLS_MOST = 64, CUT_CALLS_MOST = 12, CALLS_MOST = RECORDED_CALLS_MOST + CUT_CALLS_MOST, REFUSALS = 8 };

enum run { PLAIN, TABLE_DRIVEN, RUNS };

static const char *const run_names[RUNS] = {"plain run", "table-driven run"};

struct budgets {
    size_t calls;
    uint32_t of[CALLS_MOST];
};

/* What a run answered, call by call, and what it left. */
struct results {
    struct sam47_answer answers[RECORDED_CALLS_MOST];
    struct part state, log;
};

struct recorded {
    uint32_t id;
    struct part rom, table, state, trace, log;
    size_t log_start;
    struct budgets budgets;
    struct results results[RUNS];
};

struct played {
    struct sam47_answer answers[CALLS_MOST];
    uint8_t *state, *log;
};

/* What a list of calls comes to, however it is cut: the first number that is not done with its address, all steps, and the log's end. */
struct outcome {
    uint32_t number, address;
    uint64_t steps, log_end;
};

/* What the lists that were cut met; `again` counts calls behind a stop that gave it again, `idle` those that had budget 0. */
static struct {
    unsigned long lists, calls, done, stopped, refused, again, idle;
} met;

/* ---- the packed file -------------------------------------------------------------------------------------- */

static void take_left(const struct recorded *c, struct results *r)
{
    r->state = take(c->state.len);
    r->log = take(c->log.len);
}

static void take_case(struct recorded *c)
{
    uint32_t head[9];
    for (int k = 0; k < 9; k++)
        head[k] = take_number();
    c->id = head[0];
    c->log_start = head[6];
    c->budgets.calls = head[7];
    if (head[7] > RECORDED_CALLS_MOST)
        give_up("a case has too many calls");
    c->rom = take(head[1]);
    c->table = take_table(c->rom, head[2]);
    c->state = take(head[3]);
    c->trace = take(head[4]);
    c->log = take(head[5]);
    for (uint32_t k = 0; k < head[7]; k++) {
        c->budgets.of[k] = take_number();
        c->results[PLAIN].answers[k] = take_answer();
    }
    take_left(c, &c->results[PLAIN]);
    c->results[TABLE_DRIVEN] = c->results[PLAIN];
    if (head[8] != 0) {
        for (uint32_t k = 0; k < head[7]; k++)
            c->results[TABLE_DRIVEN].answers[k] = take_answer();
        take_left(c, &c->results[TABLE_DRIVEN]);
    }
    take_mark("DONE");
}

/* ---- playing ---------------------------------------------------------------------------------------------- */

/* The first call on what the case gives, each later one on what the last left and from its log end. */
static struct played play(const struct recorded *c, enum run run, const struct budgets *list)
{
    struct played p = {.state = copy_of(c->state), .log = copy_of(c->log)};
    size_t start = c->log_start;
    for (size_t k = 0; k < list->calls; k++) {
        p.answers[k] = run == PLAIN ? sam47_plain_run(c->rom.bytes, c->rom.len, p.state, c->state.len, c->trace.bytes, c->trace.len, p.log,
                                                      c->log.len, start, list->of[k])
                                    : sam47_table_run(c->rom.bytes, c->rom.len, c->table.bytes, c->table.len, p.state, c->state.len,
                                                      c->trace.bytes, c->trace.len, p.log, c->log.len, start, list->of[k]);
        start = p.answers[k].log_end;
    }
    return p;
}

static void forget(struct played *p)
{
    free(p->state);
    free(p->log);
}

static const char *fault_in_left(const struct results *r, const struct played *p)
{
    if (memcmp(r->state.bytes, p->state, r->state.len) != 0)
        return "the state left";
    if (memcmp(r->log.bytes, p->log, r->log.len) != 0)
        return "the log left";
    return NULL;
}

/* What is not as recorded when a case is played with its own budgets, NULL if all is. */
static const char *fault_as_recorded(const struct recorded *c, enum run run)
{
    struct played p = play(c, run, &c->budgets);
    const char *fault = fault_in_left(&c->results[run], &p);
    for (size_t k = 0; k < c->budgets.calls; k++)
        if (!alike(p.answers[k], c->results[run].answers[k]))
            fault = "an answer";
    forget(&p);
    return fault;
}

/* ---- the same steps in other calls ------------------------------------------------------------------------ */

static uint32_t least(uint64_t a, uint64_t b) { return (uint32_t)(a < b ? a : b); }

/* A budget of 0, of 1, small, near the steps that are made, or large; no more than is left. */
static uint32_t piece_of(uint64_t left, uint64_t made)
{
    uint64_t kinds[] = {0, 1, any() % 8, any() % (made + 2), any() % (left + 1)};
    return least(kinds[any() % 5], least(left, UINT32_MAX));
}

static void shuffle(struct budgets *list)
{
    for (size_t k = list->calls; k > 1; k--) {
        size_t other = any() % k;
        uint32_t kept = list->of[k - 1];
        list->of[k - 1] = list->of[other];
        list->of[other] = kept;
    }
}

/* Budgets of the same sum, at least one. */
static struct budgets cut_anew(const struct budgets *given, uint64_t made)
{
    struct budgets list = {0};
    uint64_t left = 0;
    for (size_t k = 0; k < given->calls; k++)
        left += given->of[k];
    for (uint32_t pieces = any() % CUT_CALLS_MOST; pieces > 0; pieces--) {
        list.of[list.calls] = piece_of(left, made);
        left -= list.of[list.calls++];
    }
    do {
        list.of[list.calls] = least(left, UINT32_MAX);
        left -= list.of[list.calls++];
    } while (left > 0);
    shuffle(&list);
    return list;
}

static int is_refusal(uint32_t number) { return 1 <= number && number <= REFUSALS; }

static struct outcome outcome_of(const struct recorded *c, enum run run)
{
    struct outcome o = {0, 0, 0, c->log_start};
    for (size_t k = 0; k < c->budgets.calls; k++) {
        struct sam47_answer a = c->results[run].answers[k];
        if (o.number == 0) {
            o.number = a.number;
            o.address = a.address;
        }
        o.steps += a.steps;
        o.log_end = a.log_end;
    }
    return o;
}

/* The answer that is wanted of a call, but for the log's end, when `left` of the steps are still to be made. */
static struct sam47_answer wanted_of(const struct outcome *o, uint32_t budget, uint64_t left, uint64_t log_end)
{
    if (is_refusal(o->number))
        return (struct sam47_answer){o->number, 0, o->address, o->log_end};
    if (budget <= left)
        return (struct sam47_answer){0, budget, 0, log_end};
    return (struct sam47_answer){o->number, (uint32_t)left, o->address, log_end};
}

static void count_behind_stop(const struct outcome *o, uint32_t budget, int stopped)
{
    met.again += stopped && budget > 0 && !is_refusal(o->number);
    met.idle += stopped && budget == 0 && !is_refusal(o->number);
}

/* Demand 3: the calls are done while their steps are made, the first that is not gives the stop, each later one again, or done for budget 0; or all are
 * refused alike. The log's end never falls and comes to the recorded one. */
static const char *fault_in_answers(const struct outcome *o, const struct budgets *list, const struct played *p, uint64_t log_start)
{
    uint64_t left = o->steps, end = log_start;
    int stopped = 0;
    for (size_t k = 0; k < list->calls; k++) {
        struct sam47_answer a = p->answers[k];
        if (!alike(a, wanted_of(o, list->of[k], left, a.log_end)))
            return "an answer";
        if (a.log_end < end)
            return "a log end that falls";
        count_behind_stop(o, list->of[k], stopped);
        stopped |= a.number != 0;
        left -= a.steps;
        end = a.log_end;
    }
    if (left != 0)
        return "the total of steps";
    return end == o->log_end ? NULL : "the log's end";
}

static void count_list(uint32_t number, size_t calls)
{
    met.lists++;
    met.calls += calls;
    met.done += number == 0;
    met.refused += is_refusal(number);
    met.stopped += number > REFUSALS;
}

/* What is not as demand 3 says when the case's steps are cut into other budgets, NULL if all is. */
static const char *fault_as_cut(const struct recorded *c, enum run run)
{
    struct outcome o = outcome_of(c, run);
    struct budgets list = cut_anew(&c->budgets, o.steps);
    struct played p = play(c, run, &list);
    if (c->budgets.calls == 0) { /* nothing was called, so whether it is refused is not recorded: alike at every call */
        o.number = p.answers[0].number;
        o.address = p.answers[0].address;
    }
    const char *fault = fault_in_answers(&o, &list, &p, c->log_start);
    if (!fault)
        fault = fault_in_left(&c->results[run], &p);
    count_list(o.number, list.calls);
    forget(&p);
    return fault;
}

/* Plays a case in every way; says the first way in which it fails. */
static int passes(const struct recorded *c, unsigned long seeds)
{
    for (int run = PLAIN; run < RUNS; run++) {
        const char *fault = fault_as_recorded(c, run);
        if (fault) {
            printf("case %" PRIu32 " fails: %s, recorded budgets: %s\n", c->id, run_names[run], fault);
            return 0;
        }
        for (unsigned long k = 0; k < seeds; k++) {
            seed_from(c->id * (uint64_t)1000003 + k);
            fault = fault_as_cut(c, run);
            if (fault) {
                printf("case %" PRIu32 " fails: %s, budgets cut by seed %lu: %s\n", c->id, run_names[run], k, fault);
                return 0;
            }
        }
    }
    return 1;
}

int main(int count, char **words)
{
    static struct recorded c;
    if (count != 4)
        give_up("give the packed file, how many cases it must have, and how many seeds");
    unsigned long cases = open_packed(words[1], "SAM47VEC", words[2]), seeds = strtoul(words[3], NULL, 10), fail = 0;
    for (unsigned long k = 0; k < cases; k++) {
        take_case(&c);
        fail += !passes(&c, seeds);
    }
    close_packed();
    printf("%lu cases, %lu fail; %lu seeds cut %lu lists of %lu calls: %lu lists done, %lu stopped (%lu calls gave the stop again, %lu were done for "
           "budget 0 behind it), %lu refused\n",
           cases, fail, seeds, met.lists, met.calls, met.done, met.stopped, met.again, met.idle, met.refused);
    return fail != 0;
}
