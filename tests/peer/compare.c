/* Plays random and damaged cases through the library and through the plain C emulator, and counts those that end unlike.
 *
 *   make -C tests peer                     a million steps and more, in less than a minute
 *   target/tests/compare FIRST LAST        the cases of these numbers; the library is built by `tools/archive.sh`
 *
 * A case has a ROM, a table, a state, a trace, a log and a list of budgets (cases.c). Predecode and fresh are held to the emulator's. The plain run and
 * the table-driven run are called once per budget and held to the emulator's after each call: answer, state and log, whole buffers with the bytes behind
 * them. After the list, each is held to one plain run over the sum of the budgets (demand 3); and what was lent to be read only must be as it was.
 * The exit status is 1 if a case differs, or if two thousand cases or more leave a number of a run unanswered or an event of the timer, of the hold or at an
 * undefined code unseen. */
#include "cases.h"
#include "peer.h"
#include "tally.h"

#include <string.h>

enum run { PLAIN, PEER_PLAIN, TABLE_DRIVEN, PEER_TABLE_DRIVEN, RUNS };

enum { ENOUGH_FOR_ALL = 2000, WALKED = 80 };

/* The numbers that a run answers. */
static const uint32_t numbers[] = {SAM47_DONE,   SAM47_ROM, SAM47_TABLE, SAM47_IMAGE,     SAM47_FIELD, SAM47_STALE, SAM47_TRACE,   SAM47_CURSOR,
                                   SAM47_LOG,    SAM47_CODE, SAM47_REFERENCE, SAM47_CLOCK, SAM47_FULL, SAM47_REGISTER, SAM47_BANK};

enum { NUMBERS = sizeof numbers / sizeof *numbers };

/* What the steps that were walked one by one may show. A step is held where it begins in the hold; a code is told where it is undefined for a register or a
 * number alone. */
enum event {
    OVERFLOWS, BITES, HELD, HELD_IDLE, HELD_STOP, HELD_UNDEFINED, HELD_EDGES, HELD_RESETS, HELD_BITES, HELD_CLOCK, HELD_FULL, ENTRIES,
    RUN_CODE, RUN_REGISTER, RUN_BANK, SKIPPED_CODE, SKIPPED_REGISTER, SKIPPED_BANK, TOLD_AT_END, TOLD_BEHIND_ADC, TOLD_BY_REF, TOLD_BY_SKIPPED_REF, EVENTS
};

static const char *const event_names[EVENTS] = {"overflows of BCNT", "watchdog's resets", "steps held", "in idle mode", "in stop mode", "at an undefined code",
                                                "edges taken", "resets by a record", "by the watchdog", "stops by the clock", "by the log",
                                                "interrupts entered right behind the hold", "codes run that stop with 9", "with 17", "with 18",
                                                "codes skipped that stop with 9", "with 17", "with 18", "told codes over the ROM's end", "behind ADC or SBC",
                                                "in the reference area, named by a REF", "by a REF that is skipped"};

/* Where a run stands after some calls. */
struct standing {
    struct sam47_answer last;
    uint32_t number, address; /* of the first call that was not done */
    uint64_t steps;           /* of all calls */
    uint8_t state[SAM47_STATE_BYTES + BEYOND], log[LOG_MOST + BEYOND];
};

/* What the cases met. */
static struct {
    uint64_t calls, steps[RUNS], numbers[NUMBERS], events[EVENTS];
    uint8_t code[65536]; /* by its first two bytes, the second 0 for a code of one byte: 1 if it was run */
} met;

/* ---- calls -------------------------------------------------------------------------------------------------- */

static struct sam47_answer same_shape(struct peer_answer a) { return (struct sam47_answer){a.number, a.steps, a.address, a.log_end}; }

static struct sam47_answer call(enum run run, const struct head_case *c, struct standing *s, uint32_t budget)
{
    size_t start = s->last.log_end, len = c->state_len;
    switch (run) {
    case PLAIN:
        return sam47_plain_run(c->rom, c->rom_len, s->state, len, c->trace, c->trace_len, s->log, c->log_len, start, budget);
    case PEER_PLAIN:
        return same_shape(peer_plain_run(c->rom, c->rom_len, s->state, len, c->trace, c->trace_len, s->log, c->log_len, start, budget));
    case TABLE_DRIVEN:
        return sam47_table_run(c->rom, c->rom_len, c->table, c->table_len, s->state, len, c->trace, c->trace_len, s->log, c->log_len, start, budget);
    default:
        return same_shape(
            peer_table_run(c->rom, c->rom_len, c->table, c->table_len, s->state, len, c->trace, c->trace_len, s->log, c->log_len, start, budget));
    }
}

static struct standing first_standing(const struct head_case *c)
{
    struct standing s = {.last = {.log_end = c->log_start}};
    memcpy(s.state, c->state, sizeof s.state);
    memcpy(s.log, c->log, sizeof s.log);
    return s;
}

static void advance(enum run run, const struct head_case *c, struct standing *s, uint32_t budget)
{
    s->last = call(run, c, s, budget);
    if (s->number == SAM47_DONE) {
        s->number = s->last.number;
        s->address = s->last.address;
    }
    s->steps += s->last.steps;
}

/* ---- comparing: each answers what differs, or NULL ---------------------------------------------------------- */

static const char *left_unlike(const struct standing *a, const struct standing *b)
{
    if (a->last.log_end != b->last.log_end)
        return "log end";
    if (memcmp(a->state, b->state, sizeof a->state) != 0)
        return "state";
    return memcmp(a->log, b->log, sizeof a->log) != 0 ? "log" : NULL;
}

static const char *call_unlike(const struct standing *a, const struct standing *b)
{
    if (a->last.number != b->last.number)
        return "number";
    if (a->last.steps != b->last.steps)
        return "steps";
    return a->last.address != b->last.address ? "address" : left_unlike(a, b);
}

static const char *list_unlike(const struct standing *a, const struct standing *b)
{
    if (a->number != b->number)
        return "first number that is not done, after the list";
    if (a->address != b->address)
        return "address, after the list";
    return a->steps != b->steps ? "steps of the list" : left_unlike(a, b);
}

/* Predecode and fresh have one form: of a ROM they make bytes, or refuse it. */
typedef uint32_t making(const uint8_t *rom, size_t rom_len, uint8_t *made, size_t made_len);

static int made_unlike(making *by_library, making *by_peer, const struct head_case *c, size_t len)
{
    static uint8_t made[TABLE_MOST + BEYOND], peer_made[TABLE_MOST + BEYOND];
    memset(made, 0xEE, sizeof made);
    memset(peer_made, 0xEE, sizeof peer_made);
    return by_library(c->rom, c->rom_len, made, len) != by_peer(c->rom, c->rom_len, peer_made, len) || memcmp(made, peer_made, sizeof made) != 0;
}

/* ---- one case ----------------------------------------------------------------------------------------------- */

static void count_call(const struct standing at[RUNS])
{
    met.calls++;
    for (int run = 0; run < RUNS; run++)
        met.steps[run] += at[run].last.steps;
    for (int k = 0; k < NUMBERS; k++)
        met.numbers[k] += at[TABLE_DRIVEN].last.number == numbers[k];
}

/* The list of calls through every run, then one plain run over the sum of its budgets. */
static const char *runs_unlike(const struct head_case *c)
{
    static struct standing at[RUNS], whole;
    const char *unlike = NULL;
    uint64_t sum = 0;
    for (int run = 0; run < RUNS; run++)
        at[run] = first_standing(c);
    for (uint32_t k = 0; k < c->calls && !unlike; k++) {
        for (int run = 0; run < RUNS; run++)
            advance(run, c, &at[run], c->budgets[k]);
        count_call(at);
        unlike = call_unlike(&at[PLAIN], &at[PEER_PLAIN]);
        if (!unlike)
            unlike = call_unlike(&at[TABLE_DRIVEN], &at[PEER_TABLE_DRIVEN]);
        sum += c->budgets[k];
    }
    whole = first_standing(c);
    advance(PLAIN, c, &whole, sum < UINT32_MAX ? (uint32_t)sum : UINT32_MAX); /* a larger sum passes the clock's end */
    if (!unlike)
        unlike = list_unlike(&at[PLAIN], &whole);
    if (!unlike && c->table_is_roms && c->table_len == SAM47_TABLE_BYTES_PER_ADDRESS * c->rom_len)
        unlike = list_unlike(&at[TABLE_DRIVEN], &whole);
    return unlike;
}

/* ---- what a step showed: the state before it and after it ---------------------------------------------------- */

static const uint8_t *bank15(const uint8_t *state, unsigned address) { return state + SAM47_AT_BANK15 + (address - 0xF80); }

static unsigned two_bytes(const uint8_t *at) { return at[0] | (unsigned)at[1] << 8; }

static unsigned two_nibbles(const uint8_t *at) { return at[0] | (unsigned)at[1] << 4; }

static unsigned remains(const uint8_t *state) { return two_bytes(state + SAM47_AT_HOLD); }

/* The code at the PC, by its first two bytes, the second 0 for a code of one byte; its length is 0 if it is undefined. */
static unsigned code_at_pc(const struct head_case *c, const uint8_t *state, unsigned *length)
{
    size_t pc = two_bytes(state + SAM47_AT_PC);
    uint8_t first = c->rom[pc], second = c->rom[(pc + 1) % c->rom_len];
    *length = code_length(first, second);
    return 256u * first + (*length > 1 ? second : 0);
}

/* BCNT falls with IRQB set, in a step without records; a step leaves the hold whole only by the watchdog's reset. */
static void note_timer(const uint8_t *before, const uint8_t *after, int records)
{
    int fell = two_nibbles(bank15(after, 0xF86)) < two_nibbles(bank15(before, 0xF86)), bitten = remains(after) == SAM47_HOLD_CYCLES;
    met.events[BITES] += bitten;
    met.events[OVERFLOWS] += bitten || (!records && fell && *bank15(after, 0xFB8) & 1);
}

/* IRQ0 and IRQ1 in FBEH, IRQ2 in FBFH. */
static unsigned requests(const uint8_t *state) { return two_nibbles(bank15(state, 0xFBE)) & 0x15; }

static void note_held(const struct head_case *c, const uint8_t *before, const uint8_t *after, int records)
{
    unsigned length, left = remains(after);
    code_at_pc(c, before, &length);
    met.events[HELD]++;
    met.events[HELD_IDLE] += before[SAM47_AT_MODE] == 1;
    met.events[HELD_STOP] += before[SAM47_AT_MODE] == 2;
    met.events[HELD_UNDEFINED] += length == 0;
    met.events[HELD_EDGES] += records && requests(after) & ~requests(before);
    met.events[HELD_RESETS] += records && left == SAM47_HOLD_CYCLES - 1 && remains(before) < SAM47_HOLD_CYCLES;
    met.events[HELD_BITES] += left == SAM47_HOLD_CYCLES;
}

/* An entry raises IS1 and IS0 by one and lowers SP by 6. */
static int is_entry(const uint8_t *before, const uint8_t *after)
{
    unsigned sp = two_nibbles(bank15(before, 0xF80)), sp_after = two_nibbles(bank15(after, 0xF80));
    return *bank15(after, 0xFB0) >> 2 == (*bank15(before, 0xFB0) >> 2) + 1 && sp_after == ((sp - 6) & 0xFF);
}

/* ---- undefined codes, told or not ----------------------------------------------------------------------------- */

static int is_told(const struct head_case *c, size_t at)
{
    uint8_t first = c->rom[at % c->rom_len], second = c->rom[(at + 1) % c->rom_len];
    return is_register_code(first, second) || is_bank_code(first, second);
}

static int is_ref(uint8_t byte) { return byte >= 0x20 && byte < 0x80 && byte % 16 < 8; }

/* The code that a REF at the address names is undefined and told. */
static int refers_to_told(const struct head_case *c, size_t at)
{
    uint8_t ref = c->rom[at % c->rom_len];
    return is_ref(ref) && is_told(c, (ref & 0xF0u) + 2 * (ref & 7u));
}

static void note_undefined(const struct head_case *c, const uint8_t *before, struct sam47_answer answer)
{
    int skipped = answer.address != two_bytes(before + SAM47_AT_PC);
    met.events[skipped ? SKIPPED_CODE : RUN_CODE] += answer.number == SAM47_CODE;
    met.events[skipped ? SKIPPED_REGISTER : RUN_REGISTER] += answer.number == SAM47_REGISTER;
    met.events[skipped ? SKIPPED_BANK : RUN_BANK] += answer.number == SAM47_BANK;
    met.events[TOLD_AT_END] += (answer.number == SAM47_REGISTER || answer.number == SAM47_BANK) && answer.address == c->rom_len - 1;
    met.events[TOLD_BY_REF] += answer.number == SAM47_REFERENCE && refers_to_told(c, answer.address);
}

/* A step that ran the code at the PC: the codes told that it looked at or skipped, and did not stop at. */
static void note_passed(const struct head_case *c, const uint8_t *before, const uint8_t *after)
{
    size_t pc = two_bytes(before + SAM47_AT_PC), next = two_bytes(after + SAM47_AT_PC);
    uint8_t first = c->rom[pc], second = c->rom[(pc + 1) % c->rom_len];
    met.events[TOLD_BEHIND_ADC] += (first == 0x3E || first == 0x3C) && is_told(c, pc + 1);
    met.events[TOLD_BY_SKIPPED_REF] += first == 0xDD && second == 0x68 && next == (pc + 3) % c->rom_len && refers_to_told(c, pc + 2);
}

static void note_stop(const struct head_case *c, const uint8_t *before, struct sam47_answer answer)
{
    met.events[HELD_CLOCK] += remains(before) > 0 && answer.number == SAM47_CLOCK;
    met.events[HELD_FULL] += remains(before) > 0 && answer.number == SAM47_FULL;
    note_undefined(c, before, answer);
}

/* Walks some steps of the plain run one by one and notes the events, and the codes that were run: those at the PC in a step of running mode, past the
 * hold, that has no record and enters no interrupt. */
static void note_steps(const struct head_case *c)
{
    static struct standing s, before;
    int was_held = 0;
    s = first_standing(c);
    for (int k = 0; k < WALKED; k++) {
        unsigned length;
        before = s;
        advance(PLAIN, c, &s, 1);
        if (s.last.steps == 0) {
            note_stop(c, before.state, s.last);
            return;
        }
        int records = memcmp(before.state + SAM47_AT_CURSOR, s.state + SAM47_AT_CURSOR, 4) != 0, is_held = remains(before.state) > 0;
        note_timer(before.state, s.state, records);
        if (is_held)
            note_held(c, before.state, s.state, records);
        int enters = is_entry(before.state, s.state);
        met.events[ENTRIES] += was_held && !is_held && enters;
        was_held = is_held;
        if (!records && !is_held && !enters && before.state[SAM47_AT_MODE] == 0) {
            met.code[code_at_pc(c, before.state, &length)] = 1;
            note_passed(c, before.state, s.state);
        }
    }
}

static const char *case_unlike(const struct head_case *c)
{
    static struct head_case kept;
    kept = *c;
    const char *unlike = made_unlike(sam47_predecode, peer_predecode, c, c->table_len) ? "predecode's number or table" : NULL;
    if (!unlike)
        unlike = made_unlike(sam47_fresh, peer_fresh, c, c->state_len) ? "fresh's number or state" : NULL;
    if (!unlike)
        unlike = runs_unlike(c);
    if (!unlike && memcmp(&kept, c, sizeof kept) != 0)
        unlike = "a buffer that was lent to be read only";
    note_steps(c);
    return unlike;
}

/* ---- the report --------------------------------------------------------------------------------------------- */

static void report_codes(void)
{
    unsigned one = 0, more = 0, of_one = 0, of_more = 0;
    for (int first = 0; first < 256; first++)
        for (int second = 0; second < 256; second++) {
            unsigned length = code_length((uint8_t)first, (uint8_t)second);
            of_one += length == 1 && second == 0;
            one += length == 1 && second == 0 && met.code[256 * first];
            of_more += length > 1;
            more += length > 1 && met.code[256 * first + second];
        }
    printf("codes noted as run: %u of %u of one byte, %u of %u by their first two bytes\n", one, of_one, more, of_more);
}

/* Answers how many numbers no call answered. */
static int report_numbers(void)
{
    const char *words[NUMBERS];
    for (int k = 0; k < NUMBERS; k++)
        words[k] = sam47_word(numbers[k]);
    return report("answers of the table-driven run", words, met.numbers, NUMBERS);
}

/* Answers how many kinds of event were never seen. */
static int report_events(void)
{
    return report("in the steps walked", event_names, met.events, EVENTS);
}

int main(int count, char **words)
{
    static struct head_case c;
    struct range wanted = cases_of("compare", count, words);
    uint64_t cases = 0, unlike = 0;
    for (uint32_t number = wanted.first; number <= wanted.last; number++, cases++) {
        make_case(number, &c);
        const char *what = case_unlike(&c);
        if (what && unlike++ < 5)
            printf("case %" PRIu32 " differs: %s\n", number, what);
    }
    int unanswered = report_numbers(), unseen = report_events();
    report_codes();
    printf("peer: %" PRIu64 " cases, %" PRIu64 " unlike; %" PRIu64 " calls of each run; steps: plain %" PRIu64 ", table-driven %" PRIu64 "\n", cases, unlike,
           met.calls, met.steps[PLAIN], met.steps[TABLE_DRIVEN]);
    if (cases >= ENOUGH_FOR_ALL && unanswered > 0)
        printf("peer: %d numbers were never answered\n", unanswered);
    if (cases >= ENOUGH_FOR_ALL && unseen > 0)
        printf("peer: %d events of the timer, of the hold or at undefined codes were never seen\n", unseen);
    return unlike > 0 || (cases >= ENOUGH_FOR_ALL && unanswered + unseen > 0);
}
