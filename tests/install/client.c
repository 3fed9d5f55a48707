/* A program that knows the installed library by its header alone; it is compiled as C99, C11 and C++11.
 *
 *   client VERSION
 *
 * Holds every name of the header to documents 01 and 02, the version to the one given, plays two of the printed sessions, those of budgets 2,050 and 2,051,
 * through four calls, tidies a trace, gives two heads a turn each, and counts two litres.
 * Each check that fails prints a line; the exit status is 1 if any fails. */
#include <sam47.h>

#include <stdio.h>
#include <string.h>

static const struct {
    const char *name;
    long is, wanted;
} names[] = {
    {"state", SAM47_STATE_BYTES, 666},
    {"log record", SAM47_LOG_RECORD_BYTES, 6},
    {"table bytes", SAM47_TABLE_BYTES_PER_ADDRESS, 4},
    {"KS57C0502", SAM47_ROM_BYTES_C0502, 2048},
    {"KS57C0504", SAM47_ROM_BYTES_C0504, 4096},
    {"trace", SAM47_TRACE_BYTES_MOST, 65536},
    {"hold", SAM47_HOLD_CYCLES, 2048},
    {"heads", SAM47_HEADS_MOST, 8},
    {"farms", SAM47_FARMS_MOST, 64},
    {"RAM", SAM47_AT_RAM, 0},
    {"bank 15", SAM47_AT_BANK15, 512},
    {"PC", SAM47_AT_PC, 640},
    {"SMB", SAM47_AT_SMB, 642},
    {"SRB", SAM47_AT_SRB, 643},
    {"mode", SAM47_AT_MODE, 644},
    {"effect", SAM47_AT_EFFECT, 645},
    {"release", SAM47_AT_RELEASE, 646},
    {"pins", SAM47_AT_PINS, 647},
    {"clock", SAM47_AT_CLOCK, 654},
    {"cursor", SAM47_AT_CURSOR, 658},
    {"basic timer", SAM47_AT_BASIC_TIMER, 662},
    {"what remains of the hold", SAM47_AT_HOLD, 664},
    {"log clock", SAM47_LOG_AT_CLOCK, 0},
    {"log port", SAM47_LOG_AT_PORT, 4},
    {"log nibble", SAM47_LOG_AT_NIBBLE, 5},
};

static const struct {
    long number;
    const char *word;
} words[] = {
    {SAM47_DONE, "done"},   {SAM47_ROM, "ROM"},       {SAM47_TABLE, "table"}, {SAM47_IMAGE, "image"}, {SAM47_FIELD, "field"},
    {SAM47_STALE, "stale"}, {SAM47_TRACE, "trace"},   {SAM47_CURSOR, "cursor"}, {SAM47_LOG, "log"},   {SAM47_CODE, "code"},
    {SAM47_REFERENCE, "reference"}, {SAM47_CLOCK, "clock"}, {SAM47_FULL, "full"},   {SAM47_SHORT, "short"}, {SAM47_HEADS, "heads"},
    {SAM47_TURN, "turn"},   {SAM47_LITRES, "litres"}, {SAM47_REGISTER, "register"}, {SAM47_BANK, "bank"},
};

enum { NAMES = sizeof names / sizeof names[0], WORDS = sizeof words / sizeof words[0] };

static uint8_t rom[SAM47_ROM_BYTES_C0502], table[SAM47_TABLE_BYTES_PER_ADDRESS * SAM47_ROM_BYTES_C0502];
static uint8_t state[SAM47_STATE_BYTES], trace[1], log_bytes[SAM47_LOG_RECORD_BYTES];
static int failed;

static void expect(int holds, const char *what)
{
    if (!holds) {
        failed = 1;
        printf("client: %s is not as it should be\n", what);
    }
}

static void check_version(const char *wanted)
{
    char numbers[32];
    sprintf(numbers, "%d.%d.%d", SAM47_VERSION_MAJOR, SAM47_VERSION_MINOR, SAM47_VERSION_PATCH);
    expect(strcmp(SAM47_VERSION, wanted) == 0, "the version's text");
    expect(strcmp(numbers, wanted) == 0, "the version in numbers");
}

static void check_words(void)
{
    const char *other = sam47_meaning(WORDS);
    expect(strcmp(sam47_word(WORDS), "unknown") == 0, "the word of another number");
    for (long i = 0; i < WORDS; i++) {
        expect(words[i].number == i, words[i].word);
        expect(strcmp(sam47_word((uint32_t)i), words[i].word) == 0, words[i].word);
        expect(strcmp(sam47_meaning((uint32_t)i), other) != 0, words[i].word);
    }
}

/* Document 01's program: LD A,#1; LD A,#2 at 0100H, then an undefined code. The reset's hold and two steps are done; the next stops with 9 at 0102H. */
static void check_sessions(void)
{
    static const uint32_t held_and_two = SAM47_HOLD_CYCLES + 2;
    struct sam47_answer done, more;
    uint32_t clock;
    rom[0] = 0x01;
    rom[0x100] = 0xB1;
    rom[0x101] = 0xB2;
    expect(sam47_predecode(rom, sizeof rom, table, sizeof table) == SAM47_DONE, "sam47_predecode");
    expect(sam47_fresh(rom, sizeof rom, state, sizeof state) == SAM47_DONE, "sam47_fresh");
    done = sam47_plain_run(rom, sizeof rom, state, sizeof state, trace, 0, log_bytes, sizeof log_bytes, 0, held_and_two);
    expect(done.number == SAM47_DONE && done.steps == held_and_two && done.address == 0 && done.log_end == 0, "sam47_plain_run");
    more = sam47_table_run(rom, sizeof rom, table, sizeof table, state, sizeof state, trace, 0, log_bytes, sizeof log_bytes, 0, 1);
    expect(more.number == SAM47_CODE && more.steps == 0 && more.address == 0x102 && more.log_end == 0, "sam47_table_run");
    clock = state[SAM47_AT_CLOCK] | (uint32_t)state[SAM47_AT_CLOCK + 1] << 8;
    expect(clock == held_and_two && state[SAM47_AT_PC] == 2 && state[SAM47_AT_PC + 1] == 1, "the state at the stop");
}

/* A reset at 2, written as a wait of 1 and another: 3 bytes do not hold the tidy form's 4; 6 do, and the last two are kept. */
static void check_tidy(void)
{
    static const uint8_t untidy[] = {0x00, 0x01, 0x01, 0x00, 0x80, 0x01, 0x01, 0x00}, tidy[] = {0x80, 0x01, 0x02, 0x00, 0xEE, 0xEE};
    uint8_t out[sizeof tidy];
    struct sam47_written written, refused;
    memset(out, 0xEE, sizeof out);
    refused = sam47_tidy(untidy, sizeof untidy, out, 3);
    expect(refused.number == SAM47_SHORT && refused.address == 0 && refused.length == 0, "sam47_tidy's refusal");
    written = sam47_tidy(untidy, sizeof untidy, out, sizeof out);
    expect(written.number == SAM47_DONE && written.address == 0 && written.length == 4 && memcmp(out, tidy, sizeof out) == 0, "sam47_tidy");
}

/* The same program on two heads, one of them past the hold: a turn of three steps each, and no log. */
static void check_dispatch(void)
{
    static const uint64_t trace_lens[2] = {0, 0}, log_starts[2] = {0, 0};
    uint8_t states[2 * SAM47_STATE_BYTES];
    struct sam47_heads given, refused;
    expect(sam47_fresh(rom, sizeof rom, states, SAM47_STATE_BYTES) == SAM47_DONE, "the first head's state");
    memcpy(states + SAM47_STATE_BYTES, states, SAM47_STATE_BYTES);
    memset(states + SAM47_STATE_BYTES + SAM47_AT_HOLD, 0, 2);
    refused = sam47_dispatch(2, rom, sizeof rom, table, sizeof table, states, sizeof states, trace, 0, trace_lens, 1, log_bytes, 0, log_starts, 2, 3, 2);
    expect(refused.number == SAM47_HEADS && refused.address == 0 && refused.turns == 0, "sam47_dispatch's refusal");
    given = sam47_dispatch(2, rom, sizeof rom, table, sizeof table, states, sizeof states, trace, 0, trace_lens, 2, log_bytes, 0, log_starts, 2, 3, 2);
    expect(given.number == SAM47_DONE && given.address == 0, "sam47_dispatch");
    expect(given.head[0].number == SAM47_DONE && given.head[0].steps == 3 && given.head[0].address == 0, "the held head");
    expect(given.head[1].number == SAM47_CODE && given.head[1].steps == 2 && given.head[1].address == 0x102, "the head that stops");
}

/* P4 goes from 1 to 2 and 3: a litre at 5 and one at 7, where a farm begins. Two marks that are equal are refused. */
static void check_litres(void)
{
    static const uint8_t log_of_three[] = {5, 0, 0, 0, 4, 1, 6, 0, 0, 0, 4, 2, 7, 0, 0, 0, 4, 3};
    static const uint32_t marks[] = {7, 8}, equal[] = {7, 7};
    struct sam47_lines lines, refused;
    refused = sam47_litres(log_of_three, sizeof log_of_three, equal, 2);
    expect(refused.number == SAM47_LITRES && refused.unplaced == 0 && refused.farm[0] == 0, "sam47_litres's refusal");
    lines = sam47_litres(log_of_three, sizeof log_of_three, marks, 2);
    expect(lines.number == SAM47_DONE && lines.unplaced == 1 && lines.farm[0] == 1 && lines.farm[1] == 0, "sam47_litres");
}

int main(int argc, char **argv)
{
    if (argc != 2)
        return 2;
    for (int i = 0; i < NAMES; i++)
        expect(names[i].is == names[i].wanted, names[i].name);
    expect(SAM47_STACK_BYTES > 0, "the stack");
    check_version(argv[1]);
    check_words();
    check_sessions();
    check_tidy();
    check_dispatch();
    check_litres();
    return failed;
}
