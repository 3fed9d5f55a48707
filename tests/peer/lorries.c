/* Gives turns to random and damaged heads by the library's dispatcher and by the plain C of heads.c, and counts the cases that end unlike.
 *
 *   make -C tests peer                   many, beside the other cases
 *   target/tests/lorries FIRST LAST      the cases of these numbers; the library is built by `tools/archive.sh`
 *
 * A case is a lorry with one to eight heads of cases.c, a ROM and a log. It is dispatched some times, each call on what the last left: answer, states and log
 * are compared whole, with the bytes behind them and what was lent to be read only, and each head by itself is held to one plain run over the steps of the
 * turns that it had. One case in four is damaged at random. One in 64 is refused on purpose as well, for each fault alone and for each pair of faults, in
 * one head and in two: number and address are known without the other side, and nothing may be written.
 * The exit status is 1 if a case differs, or if two thousand cases or more leave an event, a number or a pair of faults unmet. */
#include "../random.h"
#include "cases.h"
#include "peer.h"
#include "tally.h"

#include <string.h>

enum { HEADS_MOST = SAM47_HEADS_MOST, LIST_ROOM = HEADS_MOST + 2, STATES_ROOM = (HEADS_MOST + 1) * SAM47_STATE_BYTES };
enum { LOG_ROOM = HEADS_MOST * (LOG_MOST + 1), TRACES_ROOM = HEADS_MOST * TRACE_MOST + 1 };
enum { DISPATCHES_MOST = 4, STEPS_MOST = 20000, MANY_STEPS = 1000, LATE_CYCLES = 200, FAULTS_ONE_IN = 64, DAMAGED_ONE_IN = 4, ENOUGH_FOR_ALL = 2000 };

/* What a dispatch is given. The traces stand last, for of these only as many bytes as there are get copied. */
struct lorry {
    uint32_t heads, q, turns;
    int is_late; /* every head's clock is near its end, so that all stop soon, whatever the budgets */
    size_t rom_len, table_len, states_len, traces_len, trace_lens_len, log_len, log_starts_len;
    uint64_t trace_lens[LIST_ROOM], log_starts[LIST_ROOM];
    uint8_t rom[ROM_MOST + BEYOND], table[TABLE_MOST + BEYOND], states[STATES_ROOM + BEYOND], log[LOG_ROOM + BEYOND], traces[TRACES_ROOM];
};

enum event {
    ONE_HEAD, EIGHT_HEADS, NO_TURNS, FEW_TURNS, OF_ONE_STEP, OF_MANY_STEPS, OF_ANY_STEPS, NO_PARTS, REMAINDER, LONGEST, STOPPED_AND_ON, FULL_AND_ON, ALL_STOPPED,
    STOPPED_AGAIN, FREED, LOGGED_ON, EVENTS
};

static const char *const event_names[EVENTS] = {"one head", "eight", "no turns", "fewer turns than heads", "turns of one step", "of more than 1,000",
                                                "of 4,294,967,294 or more", "no bytes of log", "bytes behind the last part", "a trace of 65,536 bytes",
                                                "a head stopped and others had turns", "one with a full log", "all stopped before the turns were given",
                                                "stopped again at the next call", "on with its log begun anew", "log gone on with"};

/* The faults in the order of the tests; the first six are all 14. From FIELD on they are a head's own, but the table's, which is tested with head 0. */
enum kind {
    NO_HEADS, MANY_HEADS, LENGTHS_LIST, STARTS_LIST, SUM, SUM_WRAPS, NO_STEPS, ROM_LENGTH, TABLE_LENGTH, STATES_LENGTH,
    FIELD, STALE, RECORD, CURSOR, LOG_START, KINDS
};

static const char *const kind_names[KINDS] = {"no heads", "nine or more", "list of trace lengths", "of log starts", "lengths that don't add up",
                                              "or only modulo 2^64", "turns of no steps", "ROM's length", "table's length", "states' length", "field",
                                              "stale table", "record", "cursor", "log start"};

static const uint32_t kind_numbers[KINDS] = {SAM47_HEADS, SAM47_HEADS, SAM47_HEADS, SAM47_HEADS, SAM47_HEADS, SAM47_HEADS, SAM47_TURN, SAM47_ROM,
                                             SAM47_TABLE, SAM47_IMAGE, SAM47_FIELD, SAM47_STALE, SAM47_TRACE, SAM47_CURSOR, SAM47_LOG};

struct fault {
    enum kind kind;
    uint32_t head;
};

enum { HEAD_KINDS = KINDS - FIELD, FAULTS_MOST = FIELD + HEADS_MOST * HEAD_KINDS };

/* The numbers that a dispatch answers, and those of a head. */
enum { NUMBERS = 11, HEAD_NUMBERS = 7 };

static const char *const number_names[NUMBERS] = {"done", "ROM", "table", "image", "field", "stale", "trace", "cursor", "log", "heads", "turn"};
static const uint32_t head_numbers[HEAD_NUMBERS] = {SAM47_DONE, SAM47_CODE, SAM47_REFERENCE, SAM47_CLOCK, SAM47_FULL, SAM47_REGISTER, SAM47_BANK};
static const char *const head_number_names[HEAD_NUMBERS] = {"done", "code", "reference", "clock", "full", "register", "bank"};

/* What the cases met; pairs of faults in one head, or outside of any, and in two, the lower head's first. */
static struct {
    uint64_t calls, turns, steps, events[EVENTS], numbers[NUMBERS], head_numbers[HEAD_NUMBERS], alone[KINDS], pairs[KINDS][KINDS], in_two[KINDS][KINDS];
} met;

/* ---- making a lorry ----------------------------------------------------------------------------------------- */

static int one_in(uint32_t n) { return any() % n == 0; }

static void fill(uint8_t *bytes, size_t len)
{
    for (size_t i = 0; i < len; i++)
        bytes[i] = (uint8_t)any();
}

static void put(uint8_t *at, size_t bytes, uint32_t number)
{
    for (size_t i = 0; i < bytes; i++)
        at[i] = (uint8_t)(number >> 8 * i);
}

static uint32_t number_at(const uint8_t *at, size_t bytes)
{
    uint32_t number = 0;
    while (bytes-- > 0)
        number = number << 8 | at[bytes];
    return number;
}

static size_t used_bytes(const struct lorry *l) { return offsetof(struct lorry, traces) + l->traces_len; }

static void copy_lorry(struct lorry *to, const struct lorry *from) { memcpy(to, from, used_bytes(from)); }

static size_t part_of(const struct lorry *l) { return l->log_len / l->heads; }

static uint8_t *state_of(struct lorry *l, uint32_t head) { return l->states + head * SAM47_STATE_BYTES; }

static size_t trace_at(const struct lorry *l, uint32_t head)
{
    size_t at = 0;
    for (uint32_t i = 0; i < head; i++)
        at += l->trace_lens[i];
    return at;
}

/* A head of a case goes on the lorry, behind the others; its log start as far as its part goes. */
static void put_head(struct lorry *l, uint32_t head, const struct head_case *c)
{
    uint8_t *state = state_of(l, head);
    memcpy(state, c->state, SAM47_STATE_BYTES);
    if (l->is_late)
        put(state + SAM47_AT_CLOCK, 4, UINT32_MAX - any() % LATE_CYCLES);
    memcpy(l->traces + l->traces_len, c->trace, c->trace_len);
    l->trace_lens[head] = c->trace_len;
    l->traces_len += c->trace_len;
    l->log_starts[head] = c->log_start % (part_of(l) + 1);
}

static uint32_t some_steps(int is_late)
{
    switch (any() % 5) {
    case 0: return 1;
    case 1: return 2;
    case 2: return 1 + any() % 12;
    case 3: return 1 + any() % 4000;
    default: return is_late ? UINT32_MAX - any() % 2 : 1 + any() % 100;
    }
}

static uint32_t some_turns(uint32_t heads, int is_late)
{
    switch (any() % 6) {
    case 0: return 0;
    case 1: return 1 + any() % heads;
    case 2: return heads;
    case 3: return any() % (3 * heads);
    case 4: return any() % 100;
    default: return is_late ? UINT32_MAX - any() % 2 : any() % 300;
    }
}

/* Steps of a turn, and turns: of both none or one, few, and many. Only where all heads stop soon both may be as large as they can. */
static void plan_turns(struct lorry *l)
{
    l->q = one_in(30) ? 0 : some_steps(l->is_late);
    l->turns = some_turns(l->heads, l->is_late);
    if (!l->is_late && l->q > 0 && l->turns > STEPS_MOST / l->q)
        l->turns = STEPS_MOST / l->q;
}

/* One to eight heads, in one lorry of six all near the clock's end. A head's part of the log is as long as a case's, or has no bytes; some are left over. */
static void make_lorry(struct lorry *l, uint32_t number)
{
    static struct head_case c;
    uint64_t first = (uint64_t)number * HEADS_MOST;
    seed_from(number);
    make_sound_case(first, &c);
    l->heads = 1 + any() % HEADS_MOST;
    l->is_late = one_in(6);
    l->rom_len = c.rom_len;
    l->table_len = c.table_len;
    l->states_len = l->heads * SAM47_STATE_BYTES;
    l->log_len = one_in(8) ? 0 : l->heads * c.log_len;
    l->log_len += any() % l->heads;
    l->trace_lens_len = l->log_starts_len = l->heads;
    memcpy(l->rom, c.rom, sizeof l->rom);
    memcpy(l->table, c.table, sizeof l->table);
    fill(l->states, sizeof l->states);
    fill(l->log, sizeof l->log);
    l->traces_len = 0;
    put_head(l, 0, &c);
    for (uint32_t head = 1; head < l->heads; head++) {
        make_other_head(first + head, &c);
        put_head(l, head, &c);
    }
    plan_turns(l);
}

static void turn_bit(uint8_t *bytes, size_t len)
{
    size_t at = len > 0 ? any() % len : 0;
    bytes[at] ^= (uint8_t)(1u << any() % 8);
}

/* A bit of the states, the traces or the table, a log start, or the end of one trace and start of the next, which then are cut elsewhere. */
static void damage_once(struct lorry *l)
{
    uint32_t head = any() % l->heads, kind = any() % 5;
    if (kind == 0)
        turn_bit(l->states, l->states_len);
    else if (kind == 1)
        turn_bit(l->traces, l->traces_len);
    else if (kind == 2)
        turn_bit(l->table, l->table_len);
    else if (kind == 3)
        l->log_starts[head] = any() % (l->log_len + 2);
    else if (head > 0 && l->trace_lens[head] > 0) {
        l->trace_lens[head]--;
        l->trace_lens[head - 1]++;
    }
}

/* Up to three times. A clock that was near its end may be far from it then, so that turns must be few again. */
static void damage(struct lorry *l)
{
    for (uint32_t k = 1 + any() % 3; k > 0; k--)
        damage_once(l);
    l->is_late = 0;
    plan_turns(l);
}

/* ---- comparing: each answers what differs, or NULL ---------------------------------------------------------- */

static struct sam47_heads by_library(struct lorry *l)
{
    return sam47_dispatch(l->heads, l->rom, l->rom_len, l->table, l->table_len, l->states, l->states_len, l->traces, l->traces_len, l->trace_lens,
                          l->trace_lens_len, l->log, l->log_len, l->log_starts, l->log_starts_len, l->q, l->turns);
}

static struct peer_heads by_peer(struct lorry *l)
{
    return peer_dispatch(l->heads, l->rom, l->rom_len, l->table, l->table_len, l->states, l->states_len, l->traces, l->traces_len, l->trace_lens,
                         l->trace_lens_len, l->log, l->log_len, l->log_starts, l->log_starts_len, l->q, l->turns);
}

static const char *left_unlike(const struct lorry *a, const struct lorry *b)
{
    if (memcmp(a->states, b->states, sizeof a->states) != 0)
        return "states";
    if (memcmp(a->log, b->log, sizeof a->log) != 0)
        return "log";
    return memcmp(a, b, used_bytes(b)) != 0 ? "a buffer that was lent to be read only" : NULL;
}

static const char *head_answer_unlike(struct sam47_answer a, uint32_t number, uint32_t steps, uint32_t address, uint64_t log_end)
{
    if (a.number != number)
        return "a head's number";
    if (a.steps != steps)
        return "a head's steps";
    if (a.address != address)
        return "a head's address";
    return a.log_end != log_end ? "a head's log end" : NULL;
}

static const char *answer_unlike(const struct sam47_heads *a, const struct peer_heads *b)
{
    const char *unlike = a->turns != b->turns ? "turns" : NULL;
    if (a->address != b->address)
        unlike = "address";
    if (a->number != b->number)
        unlike = "number";
    for (int i = 0; i < HEADS_MOST && !unlike; i++)
        unlike = head_answer_unlike(a->head[i], b->head[i].number, b->head[i].steps, b->head[i].address, b->head[i].log_end);
    return unlike;
}

/* One head beside the plain run, from what it was given, over the steps of all the turns that it had. */
static const char *head_unlike(struct lorry *given, struct lorry *left, struct sam47_answer a, uint32_t head, uint32_t had)
{
    static uint8_t log[LOG_ROOM];
    uint8_t state[SAM47_STATE_BYTES];
    size_t part = part_of(given);
    uint64_t steps = (uint64_t)had * given->q;
    memcpy(state, state_of(given, head), sizeof state);
    memcpy(log, given->log + head * part, part);
    struct sam47_answer plain =
        sam47_plain_run(given->rom, given->rom_len, state, sizeof state, given->traces + trace_at(given, head), given->trace_lens[head], log, part,
                        given->log_starts[head], steps < UINT32_MAX ? (uint32_t)steps : UINT32_MAX); /* a larger sum passes the clock's end */
    if (head_answer_unlike(a, plain.number, plain.steps, plain.address, plain.log_end))
        return "a head's answer and the plain run's";
    if (memcmp(state, state_of(left, head), sizeof state) != 0)
        return "a head's state and the plain run's";
    return memcmp(log, left->log + head * part, part) != 0 ? "a head's log and the plain run's" : NULL;
}

static const char *heads_unlike(struct lorry *given, struct lorry *left, const struct sam47_heads *a, const struct peer_heads *p)
{
    const char *unlike = NULL;
    size_t parts = given->heads * part_of(given);
    for (uint32_t head = 0; head < given->heads && !unlike; head++)
        unlike = head_unlike(given, left, a->head[head], head, p->had[head]);
    return !unlike && memcmp(given->log + parts, left->log + parts, sizeof given->log - parts) != 0 ? "the log behind the last part" : unlike;
}

/* ---- what was met ------------------------------------------------------------------------------------------- */

static uint64_t *of_number(uint32_t number) { return &met.numbers[number <= SAM47_LOG ? number : number - SAM47_HEADS + SAM47_LOG + 1]; }

static void count_head_number(uint32_t number)
{
    for (int k = 0; k < HEAD_NUMBERS; k++)
        met.head_numbers[k] += number == head_numbers[k];
}

static uint32_t most_of(const uint32_t *numbers, uint32_t count)
{
    uint32_t most = 0;
    for (uint32_t i = 0; i < count; i++)
        most = numbers[i] > most ? numbers[i] : most;
    return most;
}

static void note_given(const struct lorry *l)
{
    met.events[ONE_HEAD] += l->heads == 1;
    met.events[EIGHT_HEADS] += l->heads == HEADS_MOST;
    met.events[NO_TURNS] += l->turns == 0;
    met.events[FEW_TURNS] += l->turns > 0 && l->turns < l->heads;
    met.events[OF_ONE_STEP] += l->q == 1;
    met.events[OF_MANY_STEPS] += l->q > MANY_STEPS;
    met.events[OF_ANY_STEPS] += l->q >= UINT32_MAX - 1;
    met.events[NO_PARTS] += part_of(l) == 0;
    met.events[REMAINDER] += l->log_len % l->heads > 0;
    for (uint32_t i = 0; i < l->heads; i++)
        met.events[LONGEST] += l->trace_lens[i] == SAM47_TRACE_BYTES_MOST;
}

/* `before` is the answer of the call before, or of none. */
static void note_accepted(const struct lorry *l, const struct sam47_heads *before, const struct sam47_heads *a, const struct peer_heads *p)
{
    uint32_t going = 0, most = most_of(p->had, l->heads);
    uint64_t turns = 0;
    note_given(l);
    for (uint32_t i = 0; i < l->heads; i++) {
        uint32_t number = a->head[i].number, was = before->head[i].number;
        count_head_number(number);
        turns += p->had[i];
        met.steps += a->head[i].steps;
        going += number == SAM47_DONE;
        met.events[STOPPED_AND_ON] += number != SAM47_DONE && p->had[i] + 1 < most;
        met.events[FULL_AND_ON] += number == SAM47_FULL && p->had[i] + 1 < most;
        met.events[STOPPED_AGAIN] += was != SAM47_DONE && number == was && a->head[i].steps == 0;
        met.events[FREED] += was == SAM47_FULL && a->head[i].steps > 0;
        met.events[LOGGED_ON] += before->head[i].log_end > 0 && l->log_starts[i] == before->head[i].log_end && a->head[i].log_end > l->log_starts[i];
    }
    met.turns += turns;
    met.events[ALL_STOPPED] += going == 0 && turns < l->turns;
}

/* ---- cases -------------------------------------------------------------------------------------------------- */

/* One call by both, from what the lorry holds; it then holds what the library left. */
static const char *call_unlike(struct lorry *l, struct sam47_heads *a)
{
    static struct lorry given, peers;
    struct sam47_heads before = *a;
    copy_lorry(&given, l);
    copy_lorry(&peers, l);
    struct peer_heads p = by_peer(&peers);
    *a = by_library(l);
    met.calls++;
    const char *unlike = answer_unlike(a, &p);
    if (!unlike)
        unlike = left_unlike(l, &peers);
    if (unlike)
        return unlike;
    ++*of_number(a->number);
    if (a->number != SAM47_DONE)
        return left_unlike(l, &given) ? "a refused call writes" : NULL;
    note_accepted(&given, &before, a, &p);
    return heads_unlike(&given, l, a, &p);
}

/* Goes on from each head's log end, or for a full log from its start again; with other turns. A refusal leaves the starts as they are. */
static void go_on(struct lorry *l, const struct sam47_heads *a)
{
    for (uint32_t i = 0; i < l->heads && a->number == SAM47_DONE; i++)
        l->log_starts[i] = a->head[i].number == SAM47_FULL && one_in(2) ? 0 : a->head[i].log_end;
    plan_turns(l);
}

static const char *dispatches_unlike(struct lorry *l)
{
    struct sam47_heads a = {0};
    const char *unlike = NULL;
    uint32_t calls = 1 + any() % DISPATCHES_MOST;
    for (uint32_t k = 0; k < calls && !unlike; k++) {
        unlike = call_unlike(l, &a);
        go_on(l, &a);
    }
    return unlike;
}

/* ---- refusals ----------------------------------------------------------------------------------------------- */

/* Nine heads with all that nine need, or another count above eight. */
static void put_many_heads(struct lorry *l)
{
    static const uint32_t counts[] = {HEADS_MOST + 1, 16, 256, 65537, UINT32_MAX};
    l->heads = counts[any() % (sizeof counts / sizeof *counts)];
    if (one_in(2))
        return;
    l->heads = HEADS_MOST + 1;
    for (uint32_t head = (uint32_t)l->trace_lens_len; head < l->heads; head++) {
        l->trace_lens[head] = l->log_starts[head] = 0;
        memcpy(state_of(l, head), l->states, SAM47_STATE_BYTES);
    }
    l->trace_lens_len = l->log_starts_len = l->heads;
    l->states_len = STATES_ROOM;
}

/* No heads, and in one of two nothing that heads need. */
static void put_no_heads(struct lorry *l)
{
    l->heads = 0;
    if (one_in(2))
        l->states_len = l->traces_len = l->trace_lens_len = l->log_starts_len = 0;
}

/* A list one longer, by a 0, or one shorter; none, too. */
static void misfit_list(uint64_t *list, size_t *len)
{
    size_t others[] = {*len + 1, *len - (*len > 0), 0};
    list[*len] = 0;
    *len = others[any() % (sizeof others / sizeof *others)];
}

static void misfit_sum(struct lorry *l, uint32_t head)
{
    switch (any() % 4) {
    case 0: l->traces[l->traces_len++] = 0; break;
    case 1: l->trace_lens[head]++; break;
    case 2: l->trace_lens[head] += (uint64_t)1 << 32; break;
    default:
        if (l->trace_lens[head] > 0)
            l->trace_lens[head]--;
        else
            l->trace_lens[head]++;
    }
}

/* Two lengths that together are 2^64 too long; one alone can't be. */
static int wrap_sum(struct lorry *l, uint32_t heads)
{
    uint32_t head = any() % heads, other = (head + 1) % heads;
    uint64_t most = UINT64_MAX, add = one_in(2) ? (most >> 1) + 1 : most - l->trace_lens[head] - any() % 50;
    l->trace_lens[head] += add;
    l->trace_lens[other] += most - add + 1;
    return heads > 1;
}

/* The faults of the call's own numbers and lists; answers 0 where it has no such place. */
static int misfit_lists(struct lorry *l, enum kind kind, uint32_t heads)
{
    switch (kind) {
    case NO_HEADS: put_no_heads(l); return 1;
    case MANY_HEADS: put_many_heads(l); return 1;
    case LENGTHS_LIST: misfit_list(l->trace_lens, &l->trace_lens_len); return 1;
    case STARTS_LIST: misfit_list(l->log_starts, &l->log_starts_len); return 1;
    case SUM: misfit_sum(l, any() % heads); return 1;
    default: return wrap_sum(l, heads);
    }
}

static void misfit_lengths(const struct lorry *sound, struct lorry *l, enum kind kind)
{
    static const size_t roms[] = {0, 1024, 2047, 2049, 3072, 4095, 4097};
    size_t table = sound->table_len, tables[] = {0, table - 1, table + 1, table == TABLE_MOST ? TABLE_MOST / 2 : TABLE_MOST};
    size_t state = sound->states_len, states[] = {state - 1, state + 1, state - SAM47_STATE_BYTES, state + SAM47_STATE_BYTES};
    if (kind == NO_STEPS)
        l->q = 0;
    else if (kind == ROM_LENGTH)
        l->rom_len = roms[any() % (sizeof roms / sizeof *roms)];
    else if (kind == TABLE_LENGTH)
        l->table_len = tables[any() % (sizeof tables / sizeof *tables)];
    else
        l->states_len = states[any() % (sizeof states / sizeof *states)];
}

/* A field of a head's state out of range by as little as can be; answers where. */
static uint32_t spoil_field(uint8_t *state)
{
    static const struct {
        uint16_t at, bytes, value;
    } fields[] = {{SAM47_AT_RAM, 1, 16},    {SAM47_AT_BANK15, 1, 1}, {SAM47_AT_PC - 1, 1, 16},  {SAM47_AT_PC, 2, SAM47_ROM_BYTES_C0504}, {SAM47_AT_SMB, 1, 16},
                  {SAM47_AT_SRB, 1, 4},     {SAM47_AT_MODE, 1, 3},   {SAM47_AT_EFFECT, 1, 4},   {SAM47_AT_RELEASE, 1, 3},                {SAM47_AT_PINS, 1, 8},
                  {SAM47_AT_PINS + 6, 1, 16}, {SAM47_AT_BASIC_TIMER, 2, 0x8000}, {SAM47_AT_HOLD, 2, SAM47_HOLD_CYCLES + 1}};
    uint32_t k = any() % (sizeof fields / sizeof *fields);
    put(state + fields[k].at, fields[k].bytes, fields[k].value);
    return fields[k].at;
}

/* The faults of the table and of a head's own bytes; answers 0 where it has no such place, as an empty trace has no record. */
static int spoil_head(const struct lorry *sound, struct lorry *l, struct fault f, uint32_t *address)
{
    uint8_t *state = state_of(l, f.head), *trace = l->traces + trace_at(sound, f.head);
    uint32_t trace_len = (uint32_t)sound->trace_lens[f.head], cursor = number_at(state + SAM47_AT_CURSOR, 4);
    uint64_t part = part_of(sound), starts[] = {part + 1, part + 1 + any() % 5, part + ((uint64_t)1 << 32), UINT64_MAX};
    switch (f.kind) {
    case FIELD: *address = spoil_field(state); return 1;
    case STALE:
        *address = any() % (uint32_t)sound->table_len;
        l->table[*address] ^= (uint8_t)(1u << any() % 8);
        return 1;
    case RECORD: /* the record at the cursor or the first one: a map of 0, or a bit that no map has */
        *address = cursor < trace_len ? cursor : 0;
        if (trace_len == 0)
            return 0;
        put(trace + *address, 2, one_in(2) ? 0 : 0x8001);
        return 1;
    case CURSOR: put(state + SAM47_AT_CURSOR, 4, cursor < trace_len && one_in(2) ? cursor + 1 : trace_len + 1); return 1;
    default: l->log_starts[f.head] = starts[any() % (sizeof starts / sizeof *starts)]; return 1;
    }
}

/* Puts a fault into a copy of the lorry; answers 0 if it has no such place. */
static int spoil(const struct lorry *sound, struct lorry *l, struct fault f, uint32_t *address)
{
    *address = 0;
    if (f.kind < NO_STEPS)
        return misfit_lists(l, f.kind, sound->heads);
    if (f.kind >= FIELD)
        return spoil_head(sound, l, f, address);
    misfit_lengths(sound, l, f.kind);
    return 1;
}

/* Both refuse with this number and address and 0 in all else, and write nothing. */
static const char *refusal_unlike(const struct lorry *l, uint32_t number, uint32_t address)
{
    static struct lorry mine, peers;
    struct peer_heads wanted = {.number = number, .address = address};
    copy_lorry(&mine, l);
    copy_lorry(&peers, l);
    struct peer_heads p = by_peer(&peers);
    struct sam47_heads a = by_library(&mine);
    met.calls++;
    ++*of_number(number);
    const char *unlike = answer_unlike(&a, &wanted);
    if (!unlike && (p.number != number || p.address != address))
        unlike = "the refusal by heads.c";
    if (!unlike && (left_unlike(&mine, l) || left_unlike(&peers, l)))
        unlike = "a refused call writes";
    return unlike;
}

/* The first of two faults is told; of one alone both are the same. */
static const char *faults_unlike(const struct lorry *sound, struct fault first, struct fault second)
{
    static struct lorry l;
    uint32_t address, other;
    int is_alone = first.kind == second.kind && first.head == second.head;
    copy_lorry(&l, sound);
    if (!spoil(sound, &l, first, &address) || (!is_alone && !spoil(sound, &l, second, &other)))
        return NULL;
    const char *unlike = refusal_unlike(&l, kind_numbers[first.kind], address);
    if (is_alone)
        met.alone[first.kind]++;
    else if (first.kind < FIELD || first.head == second.head)
        met.pairs[first.kind][second.kind]++;
    else
        met.in_two[first.kind][second.kind]++;
    return unlike;
}

/* All faults that so many heads can have, in the order of the tests. */
static size_t list_faults(uint32_t heads, struct fault *faults)
{
    size_t count = 0;
    for (enum kind kind = NO_HEADS; kind < FIELD; kind++)
        faults[count++] = (struct fault){kind, 0};
    for (uint32_t head = 0; head < heads; head++)
        for (enum kind kind = FIELD; kind < KINDS; kind++)
            if (kind != STALE || head == 0)
                faults[count++] = (struct fault){kind, head};
    return count;
}

/* A lorry as it is made has two faults of its own now and then: a turn of no steps, which is mended here, and a trace that is too long. */
static int is_sound(struct lorry *l)
{
    int is = 1;
    l->q += l->q == 0;
    for (uint32_t i = 0; i < l->heads; i++)
        is = is && l->trace_lens[i] <= SAM47_TRACE_BYTES_MOST;
    return is;
}

/* Each fault alone, and each with each behind it. */
static const char *refusals_unlike(struct lorry *l)
{
    static struct fault faults[FAULTS_MOST];
    size_t count = is_sound(l) ? list_faults(l->heads, faults) : 0;
    const char *unlike = NULL;
    for (size_t i = 0; i < count && !unlike; i++)
        for (size_t k = i; k < count && !unlike; k++)
            unlike = faults_unlike(l, faults[i], faults[k]);
    return unlike;
}

static const char *case_unlike(uint32_t number)
{
    static struct lorry l, refused;
    make_lorry(&l, number);
    copy_lorry(&refused, &l);
    if (one_in(DAMAGED_ONE_IN))
        damage(&l);
    const char *unlike = dispatches_unlike(&l);
    return unlike || number % FAULTS_ONE_IN != 1 ? unlike : refusals_unlike(&refused);
}

/* ---- the report --------------------------------------------------------------------------------------------- */

/* How many kinds of pairs there are, how many were never met, and how often the seldomest was. */
struct pairs {
    int kinds, unmet;
    uint64_t least;
};

static void note_pair(struct pairs *of, uint64_t count)
{
    of->least = of->kinds == 0 || count < of->least ? count : of->least;
    of->kinds++;
    of->unmet += count == 0;
}

static int report_pairs(void)
{
    struct pairs one = {0}, two = {0};
    for (int i = 0; i < KINDS; i++)
        for (int k = 0; k < KINDS; k++) {
            if (i < k)
                note_pair(&one, met.pairs[i][k]);
            if (i >= FIELD && k >= FIELD && k != STALE) /* the table's is head 0's, so never that of the higher head */
                note_pair(&two, met.in_two[i][k]);
        }
    printf("pairs of faults: %d, each met %" PRIu64 " times or more; %d in two heads, %" PRIu64 " times or more\n", one.kinds, one.least, two.kinds, two.least);
    return one.unmet + two.unmet;
}

static int report_all(void)
{
    int none = report("lorries", event_names, met.events, EVENTS) + report("answers", number_names, met.numbers, NUMBERS);
    none += report("heads", head_number_names, met.head_numbers, HEAD_NUMBERS) + report("faults alone", kind_names, met.alone, KINDS);
    return none + report_pairs();
}

int main(int count, char **words)
{
    struct range wanted = cases_of("lorries", count, words);
    uint64_t cases = 0, unlike = 0;
    for (uint32_t number = wanted.first; number <= wanted.last; number++, cases++) {
        const char *what = case_unlike(number);
        if (what && unlike++ < 5)
            printf("case %" PRIu32 " differs: %s\n", number, what);
    }
    int unmet = report_all();
    printf("lorries: %" PRIu64 " cases, %" PRIu64 " unlike; %" PRIu64 " calls, %" PRIu64 " turns, %" PRIu64 " steps\n", cases, unlike, met.calls, met.turns,
           met.steps);
    if (cases >= ENOUGH_FOR_ALL && unmet > 0)
        printf("lorries: %d kinds were never met\n", unmet);
    return unlike > 0 || (cases >= ENOUGH_FOR_ALL && unmet > 0);
}
