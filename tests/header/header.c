/* Holds the names of include/sam47.h against the library: each named field of the state is accepted at its largest value and refused, at its own
 * offset, above it; PC, clock, cursor, timer and hold move where they are named; wrong lengths and stops give the named numbers; a trace is tidied, heads
 * take turns, and litres are counted, as the header says.
 *
 *   tools/archive.sh
 *   make -C tests header
 *
 * Each check that fails prints a line, and the last line counts; the exit status is 1 if any fails. */
#include "sam47.h"

#include <inttypes.h>
#include <stdio.h>
#include <string.h>

enum { LOG_ROOM = 64, PORTS = 7 };

static uint8_t rom[SAM47_ROM_BYTES_C0504 + 1], table[SAM47_TABLE_BYTES_PER_ADDRESS * (SAM47_ROM_BYTES_C0504 + 1)];
static uint8_t state[SAM47_STATE_BYTES + 1], log_bytes[LOG_ROOM], trace[SAM47_TRACE_BYTES_MOST + 1];
static size_t rom_len;
static unsigned long checks, failed;

static void expect(int holds, const char *what, uint32_t at)
{
    checks++;
    if (!holds) {
        failed++;
        printf("%s, at %" PRIu32 "\n", what, at);
    }
}

static uint32_t number_at(const uint8_t *bytes, size_t len)
{
    uint32_t number = 0;
    while (len-- > 0)
        number = number << 8 | bytes[len];
    return number;
}

static void put(uint8_t *bytes, size_t len, uint32_t number)
{
    for (size_t i = 0; i < len; i++)
        bytes[i] = (uint8_t)(number >> 8 * i);
}

static uint32_t remains(void) { return number_at(state + SAM47_AT_HOLD, 2); }

/* A ROM with the codes at 0100H and EMB set by its reset vector, its table, and its fresh state, which is held. */
static void begin_held(size_t len, const uint8_t *codes, size_t codes_len)
{
    rom_len = len;
    memset(rom, 0, sizeof rom);
    rom[0] = 0x81;
    memcpy(rom + 0x100, codes, codes_len);
    expect(sam47_predecode(rom, len, table, SAM47_TABLE_BYTES_PER_ADDRESS * len) == SAM47_DONE, "predecode refuses", (uint32_t)len);
    expect(sam47_fresh(rom, len, state, SAM47_STATE_BYTES) == SAM47_DONE, "fresh refuses", (uint32_t)len);
    expect(remains() == SAM47_HOLD_CYCLES, "a fresh state is not held", SAM47_AT_HOLD);
}

/* The same past the hold: the next step runs the first code. */
static void begin(size_t len, const uint8_t *codes, size_t codes_len)
{
    begin_held(len, codes, codes_len);
    put(state + SAM47_AT_HOLD, 2, 0);
}

static struct sam47_answer plain(size_t trace_len, size_t log_len, size_t log_start, uint32_t budget)
{
    return sam47_plain_run(rom, rom_len, state, SAM47_STATE_BYTES, trace, trace_len, log_bytes, log_len, log_start, budget);
}

static struct sam47_answer driven(size_t trace_len, size_t log_len, size_t log_start, uint32_t budget)
{
    return sam47_table_run(rom, rom_len, table, SAM47_TABLE_BYTES_PER_ADDRESS * rom_len, state, SAM47_STATE_BYTES, trace, trace_len, log_bytes,
                           log_len, log_start, budget);
}

static int same(struct sam47_answer answer, uint32_t number, uint32_t steps, uint32_t address, uint64_t log_end)
{
    return answer.number == number && answer.steps == steps && answer.address == address && answer.log_end == log_end;
}

/* Both runs, each from the state as it is now, give this answer. The state left is the table-driven run's. */
static void answers(const char *what, size_t trace_len, size_t log_len, size_t log_start, uint32_t budget, struct sam47_answer wanted)
{
    uint8_t before[SAM47_STATE_BYTES];
    memcpy(before, state, sizeof before);
    struct sam47_answer by_rom = plain(trace_len, log_len, log_start, budget);
    memcpy(state, before, sizeof before);
    struct sam47_answer by_table = driven(trace_len, log_len, log_start, budget);
    expect(same(by_rom, wanted.number, wanted.steps, wanted.address, wanted.log_end), what, by_rom.address);
    expect(same(by_table, wanted.number, wanted.steps, wanted.address, wanted.log_end), what, by_table.address);
}

static void accepted(size_t at)
{
    expect(same(plain(0, LOG_ROOM, 0, 0), SAM47_DONE, 0, 0, 0) && same(driven(0, LOG_ROOM, 0, 0), SAM47_DONE, 0, 0, 0),
           "a value in range is refused", (uint32_t)at);
}

static void refused(size_t at)
{
    uint32_t place = (uint32_t)at;
    expect(same(plain(0, LOG_ROOM, 0, 0), SAM47_FIELD, 0, place, 0) && same(driven(0, LOG_ROOM, 0, 0), SAM47_FIELD, 0, place, 0),
           "a value out of range is not refused with 4 at its offset", place);
}

/* Every value of the byte at an offset of a fresh state: up to `most` accepted in steps of `step`, all others refused. */
static void field(size_t at, unsigned most, unsigned step)
{
    uint8_t kept = state[at];
    for (unsigned value = 0; value <= 255; value++) {
        state[at] = (uint8_t)value;
        if (value <= most && value % step == 0)
            accepted(at);
        else
            refused(at);
    }
    state[at] = kept;
}

/* Every value of the two bytes at an offset: up to `most` accepted, all others refused at the first of them. */
static void field_of_two_bytes(size_t at, uint32_t most)
{
    uint32_t kept = number_at(state + at, 2);
    for (uint32_t value = 0; value <= 0xFFFF; value++) {
        put(state + at, 2, value);
        if (value <= most)
            accepted(at);
        else
            refused(at);
    }
    put(state + at, 2, kept);
}

static void fields_of(size_t len)
{
    static const uint8_t pins[PORTS] = {7, 3, 15, 7, 15, 15, 15};
    begin(len, (const uint8_t *)"", 0);
    for (size_t at = SAM47_AT_RAM; at < SAM47_AT_BANK15; at++)
        field(at, 15, 1);
    field(SAM47_AT_BANK15, 15, 2);
    for (size_t at = SAM47_AT_BANK15 + 1; at < SAM47_AT_PC; at++)
        field(at, 15, 1);
    field(SAM47_AT_SMB, 15, 1);
    field(SAM47_AT_SRB, 3, 1);
    field(SAM47_AT_MODE, 2, 1);
    field(SAM47_AT_EFFECT, 3, 1);
    field(SAM47_AT_RELEASE, 2, 1);
    for (size_t port = 0; port < PORTS; port++)
        field(SAM47_AT_PINS + port, pins[port], 1);
    for (size_t at = SAM47_AT_CLOCK; at < SAM47_AT_CURSOR; at++)
        field(at, 255, 1);
    field_of_two_bytes(SAM47_AT_PC, (uint32_t)len - 1);
    field_of_two_bytes(SAM47_AT_BASIC_TIMER, 0x7FFF);
    field_of_two_bytes(SAM47_AT_HOLD, SAM47_HOLD_CYCLES);
}

/* The fields leave no gap: each starts where the one before it ends, and the last ends the state. */
static void no_gap(void)
{
    static const struct {
        size_t at, bytes;
    } fields[] = {{SAM47_AT_RAM, 512}, {SAM47_AT_BANK15, 128}, {SAM47_AT_PC, 2},     {SAM47_AT_SMB, 1},      {SAM47_AT_SRB, 1},   {SAM47_AT_MODE, 1},
                  {SAM47_AT_EFFECT, 1}, {SAM47_AT_RELEASE, 1}, {SAM47_AT_PINS, PORTS}, {SAM47_AT_CLOCK, 4}, {SAM47_AT_CURSOR, 4},
                  {SAM47_AT_BASIC_TIMER, 2}, {SAM47_AT_HOLD, 2}};
    size_t end = 0;
    for (size_t i = 0; i < sizeof fields / sizeof fields[0]; i++) {
        expect(fields[i].at == end, "a field does not start where the one before it ends", (uint32_t)fields[i].at);
        end = fields[i].at + fields[i].bytes;
    }
    expect(end == SAM47_STATE_BYTES, "the fields do not end with the state", (uint32_t)end);
}

/* SMB 15; SRB 3; LD EA,#0FH; LD PMG2,EA; LD A,#5; LD P4,A; then an undefined code. The record sets P1 to 2 at once. */
static const uint8_t drives[] = {0xDD, 0x4F, 0xDD, 0x53, 0x81, 0x0F, 0xCD, 0xEA, 0xB5, 0x89, 0xF4};
static const uint8_t pins_now[] = {0x02, 0x00, 0x02};

static void scalars_move(void)
{
    begin(SAM47_ROM_BYTES_C0502, drives, sizeof drives);
    memcpy(trace, pins_now, sizeof pins_now);
    expect(number_at(state + SAM47_AT_PC, 2) == 0x100, "PC is not at its offset", SAM47_AT_PC);
    put(state + SAM47_AT_CLOCK, 4, 0xFEDCBA00);
    answers("five steps are not made", sizeof pins_now, LOG_ROOM, 0, 5, (struct sam47_answer){SAM47_DONE, 5, 0, 0});
    expect(number_at(state + SAM47_AT_PC, 2) == 0x109, "PC does not move at its offset", SAM47_AT_PC);
    expect(number_at(state + SAM47_AT_CLOCK, 4) == 0xFEDCBA09, "the clock does not move at its offset", SAM47_AT_CLOCK);
    expect(number_at(state + SAM47_AT_CURSOR, 4) == sizeof pins_now, "the cursor does not move at its offset", SAM47_AT_CURSOR);
    expect(number_at(state + SAM47_AT_BASIC_TIMER, 2) == 9 * 64, "the phase does not move at its offset", SAM47_AT_BASIC_TIMER);
    expect(state[SAM47_AT_PINS + 1] == 2, "P1's pins are not at their offset", SAM47_AT_PINS + 1);
    expect(state[SAM47_AT_SMB] == 15 && state[SAM47_AT_SRB] == 3, "SMB and SRB are not at their offsets", SAM47_AT_SMB);
    expect(state[SAM47_AT_EFFECT] == 1, "LD A,#im leaves no effect at its offset", SAM47_AT_EFFECT);
    expect(state[SAM47_AT_RAM] == 5, "A is not at RAM's offset", SAM47_AT_RAM);
    expect(state[SAM47_AT_BANK15 + 0xFEA - 0xF80] == 15, "PMG2 is not at its place in bank 15", SAM47_AT_BANK15);
}

/* Goes on from scalars_move: the step that drives P4 logs, and without room for its record it stops. */
static void log_records(void)
{
    answers("full is not told", sizeof pins_now, SAM47_LOG_RECORD_BYTES - 1, 0, 1, (struct sam47_answer){SAM47_FULL, 0, 0, 0});
    answers("the record is not written", sizeof pins_now, LOG_ROOM, SAM47_LOG_RECORD_BYTES, 1,
            (struct sam47_answer){SAM47_DONE, 1, 0, 2 * SAM47_LOG_RECORD_BYTES});
    const uint8_t *record = log_bytes + SAM47_LOG_RECORD_BYTES;
    expect(number_at(record + SAM47_LOG_AT_CLOCK, 4) == 0xFEDCBA0B, "the record's clock is not at its offset", SAM47_LOG_AT_CLOCK);
    expect(record[SAM47_LOG_AT_PORT] == 4, "the record's port is not at its offset", SAM47_LOG_AT_PORT);
    expect(record[SAM47_LOG_AT_NIBBLE] == 5, "the record's nibble is not at its offset", SAM47_LOG_AT_NIBBLE);
    answers("an undefined code is no stop", sizeof pins_now, LOG_ROOM, 0, 1, (struct sam47_answer){SAM47_CODE, 0, 0x10B, 0});
}

/* The number of an undefined code: 17 with A in Ra's place or EA in RRb's, 18 for SMB 2 to 14 and SRB 4 to 15, 9 for all others. */
static uint32_t undefined_number(uint8_t first, uint8_t second)
{
    static const uint8_t with_ea[] = {0x10, 0x20, 0x30, 0x90, 0xA0, 0xB0, 0xC0, 0xE0, 0xF0, 0xF8};
    switch (first) {
    case 0x68:
    case 0x80:
        return SAM47_REGISTER;
    case 0xD9:
        return second % 16 == 8 ? SAM47_REGISTER : SAM47_CODE;
    case 0xDC:
        return memchr(with_ea, second, sizeof with_ea) ? SAM47_REGISTER : SAM47_CODE;
    case 0xDD:
        if (second == 0x00 || second == 0x08)
            return SAM47_REGISTER;
        return (second >= 0x42 && second <= 0x4E) || (second >= 0x54 && second <= 0x5F) ? SAM47_BANK : SAM47_CODE;
    default:
        return SAM47_CODE;
    }
}

/* Every undefined code, run and behind CPSE A,A, which skips it: its number and its address, and the state as it was. */
static void undefined_codes(void)
{
    uint8_t codes[4] = {0xDD, 0x68}, before[SAM47_STATE_BYTES]; /* CPSE A,A */
    for (uint32_t pair = 0; pair < 65536; pair++) {
        uint8_t first = (uint8_t)(pair >> 8), second = (uint8_t)pair;
        codes[2] = first;
        codes[3] = second;
        begin(SAM47_ROM_BYTES_C0502, codes, sizeof codes);
        if (table[SAM47_TABLE_BYTES_PER_ADDRESS * 0x102 + 3] != 0)
            continue;
        memcpy(before, state, sizeof before);
        answers("an undefined code that is skipped has another number", 0, LOG_ROOM, 0, 1, (struct sam47_answer){undefined_number(first, second), 0, 0x102, 0});
        expect(memcmp(before, state, sizeof before) == 0, "a stop at a skipped code changes the state", pair);
        put(state + SAM47_AT_PC, 2, 0x102);
        answers("an undefined code has another number", 0, LOG_ROOM, 0, 1, (struct sam47_answer){undefined_number(first, second), 0, 0x102, 0});
    }
}

/* Byte by byte: with one record, the cursor may be 0 or 3. */
static void cursors(void)
{
    begin(SAM47_ROM_BYTES_C0502, drives, sizeof drives);
    for (size_t i = 0; i < 4; i++) {
        for (uint8_t value = 1; value <= 4; value++) {
            uint32_t number = i == 0 && value == sizeof pins_now ? SAM47_DONE : SAM47_CURSOR;
            state[SAM47_AT_CURSOR + i] = value;
            answers("a cursor is misjudged", sizeof pins_now, LOG_ROOM, 0, 0, (struct sam47_answer){number, 0, 0, 0});
        }
        state[SAM47_AT_CURSOR + i] = 0;
    }
}

/* STOP and IDLE set their modes; INT1 asking (BITS IE1; EI before the IDLE) makes the mode running, with a release count of 2. */
static void modes(void)
{
    static const uint8_t sleeps[] = {0xFF, 0xBE, 0xFF, 0xB2, 0xFF, 0xA3}, stops[] = {0xFF, 0xB3};
    begin(SAM47_ROM_BYTES_C0502, stops, sizeof stops);
    answers("STOP is not run", 0, LOG_ROOM, 0, 1, (struct sam47_answer){SAM47_DONE, 1, 0, 0});
    expect(state[SAM47_AT_MODE] == 2, "stop is not at the mode's offset", SAM47_AT_MODE);
    begin(SAM47_ROM_BYTES_C0502, sleeps, sizeof sleeps);
    answers("IDLE is not run", 0, LOG_ROOM, 0, 3, (struct sam47_answer){SAM47_DONE, 3, 0, 0});
    expect(state[SAM47_AT_MODE] == 1, "idle is not at the mode's offset", SAM47_AT_MODE);
    memcpy(trace, pins_now, sizeof pins_now);
    answers("the release is not a step", sizeof pins_now, LOG_ROOM, 0, 1, (struct sam47_answer){SAM47_DONE, 1, 0, 0});
    expect(state[SAM47_AT_MODE] == 0 && state[SAM47_AT_RELEASE] == 2, "the release count is not at its offset", SAM47_AT_RELEASE);
}

/* Two NOPs, each of one cycle and 64 oscillator clocks, the first with BCNT about to go from FFH to 00H: the phase moves in bits 0 to 11, the
 * watchdog's count in bits 12 to 14, IRQB is set. From count 7 it is a reset, and the field 0; the step behind it is the first that is held. */
static void timer_moves(void)
{
    static const uint8_t two_nops[] = {0xA0, 0xA0};
    uint8_t *bank15 = state + SAM47_AT_BANK15;
    enum { BCNT = 0xF86 - 0xF80, INTB = 0xFB8 - 0xF80 };
    for (uint32_t count = 0; count < 8; count++) {
        begin(SAM47_ROM_BYTES_C0502, two_nops, sizeof two_nops);
        bank15[BCNT] = bank15[BCNT + 1] = 15;
        put(state + SAM47_AT_BASIC_TIMER, 2, count << 12 | 0xFFF);
        answers("a NOP is not run", 0, LOG_ROOM, 0, 1, (struct sam47_answer){SAM47_DONE, 1, 0, 0});
        int is_reset = count == 7;
        expect(number_at(state + SAM47_AT_BASIC_TIMER, 2) == (is_reset ? 0 : (count + 1) << 12 | 63), "the timer does not move at its offset", count);
        expect(number_at(state + SAM47_AT_PC, 2) == (is_reset ? 0x100u : 0x101u), "the watchdog does not reset from 7 alone", count);
        expect(bank15[BCNT] == 0 && bank15[BCNT + 1] == 0 && bank15[INTB] == !is_reset, "BCNT or IRQB is not at its place in bank 15", count);
    }
    expect(remains() == SAM47_HOLD_CYCLES, "the watchdog's reset does not hold", SAM47_AT_HOLD);
    answers("no step after the reset", 0, LOG_ROOM, 0, 1, (struct sam47_answer){SAM47_DONE, 1, 0, 0});
    expect(number_at(state + SAM47_AT_BASIC_TIMER, 2) == 64, "the phase does not begin anew after the reset", SAM47_AT_BASIC_TIMER);
    expect(remains() == SAM47_HOLD_CYCLES - 1, "the hold does not fall after the watchdog's reset", SAM47_AT_HOLD);
}

/* A held head makes steps of a cycle each, and its PC stands; the step behind the last runs the first code, a NOP. The step behind that has a reset record,
 * and is held itself. */
static void hold_moves(void)
{
    static const uint8_t two_nops[] = {0xA0, 0xA0}, reset_later[] = {0x80, 0x01, (SAM47_HOLD_CYCLES + 1) & 0xFF, (SAM47_HOLD_CYCLES + 1) >> 8};
    begin_held(SAM47_ROM_BYTES_C0502, two_nops, sizeof two_nops);
    memcpy(trace, reset_later, sizeof reset_later);
    for (uint32_t held = 1; held <= SAM47_HOLD_CYCLES; held++) {
        answers("a held step is not made", sizeof reset_later, LOG_ROOM, 0, 1, (struct sam47_answer){SAM47_DONE, 1, 0, 0});
        expect(remains() == SAM47_HOLD_CYCLES - held, "the hold does not fall at its offset", held);
        expect(number_at(state + SAM47_AT_CLOCK, 4) == held, "a held step is not a cycle", held);
        expect(number_at(state + SAM47_AT_PC, 2) == 0x100, "the PC moves in the hold", held);
    }
    answers("the NOP behind the hold is not run", sizeof reset_later, LOG_ROOM, 0, 1, (struct sam47_answer){SAM47_DONE, 1, 0, 0});
    expect(remains() == 0 && number_at(state + SAM47_AT_PC, 2) == 0x101, "the first code is not run behind the hold", SAM47_AT_PC);
    answers("the reset is not a step", sizeof reset_later, LOG_ROOM, 0, 1, (struct sam47_answer){SAM47_DONE, 1, 0, 0});
    expect(remains() == SAM47_HOLD_CYCLES - 1, "a reset record's own step is not held", SAM47_AT_HOLD);
    expect(number_at(state + SAM47_AT_PC, 2) == 0x100, "the reset does not move the PC", SAM47_AT_PC);
}

/* The other stops, and a stale table: REF 0020H, where two NOPs are no pair of Table 5-1, and a clock at its end. */
static void stops(void)
{
    static const uint8_t refers[] = {0x20};
    begin(SAM47_ROM_BYTES_C0504, refers, sizeof refers);
    rom[0x20] = rom[0x21] = 0xA0;
    expect(sam47_predecode(rom, rom_len, table, SAM47_TABLE_BYTES_PER_ADDRESS * rom_len) == SAM47_DONE, "predecode refuses", 0x20);
    answers("a wrong reference is no stop", 0, LOG_ROOM, 0, 1, (struct sam47_answer){SAM47_REFERENCE, 0, 0x100, 0});
    rom[0x100] = 0xA0;
    expect(same(driven(0, LOG_ROOM, 0, 1), SAM47_STALE, 0, SAM47_TABLE_BYTES_PER_ADDRESS * 0xFE + 2, 0), "a stale table is accepted", 0xFE);
    expect(sam47_predecode(rom, rom_len, table, SAM47_TABLE_BYTES_PER_ADDRESS * rom_len) == SAM47_DONE, "predecode refuses", 0x100);
    put(state + SAM47_AT_CLOCK, 4, UINT32_MAX);
    answers("the clock passes its end", 0, LOG_ROOM, 0, 1, (struct sam47_answer){SAM47_CLOCK, 0, 0, 0});
    answers("a log start past the end is accepted", 0, LOG_ROOM, LOG_ROOM + 1, 0, (struct sam47_answer){SAM47_LOG, 0, 0, LOG_ROOM + 1});
}

/* The four calls with a ROM of `len` bytes, a table of `table_len` and a state of `state_len`. */
static void lengths(size_t len, size_t table_len, size_t state_len)
{
    int is_rom = len == SAM47_ROM_BYTES_C0502 || len == SAM47_ROM_BYTES_C0504;
    uint32_t no_table = !is_rom ? SAM47_ROM : table_len != SAM47_TABLE_BYTES_PER_ADDRESS * len ? SAM47_TABLE : SAM47_DONE;
    uint32_t no_state = !is_rom ? SAM47_ROM : state_len != SAM47_STATE_BYTES ? SAM47_IMAGE : SAM47_DONE;
    memset(rom, 0, sizeof rom);
    expect(sam47_predecode(rom, len, table, table_len) == no_table, "predecode misjudges a table of this length", (uint32_t)table_len);
    expect(sam47_fresh(rom, len, state, state_len) == no_state, "fresh misjudges a state of this length", (uint32_t)state_len);
    struct sam47_answer by_rom = sam47_plain_run(rom, len, state, state_len, trace, 0, log_bytes, LOG_ROOM, 0, 0);
    struct sam47_answer by_table = sam47_table_run(rom, len, table, table_len, state, state_len, trace, 0, log_bytes, LOG_ROOM, 0, 0);
    expect(same(by_rom, no_state, 0, 0, 0), "the plain run misjudges a length", (uint32_t)len);
    expect(same(by_table, no_table ? no_table : no_state, 0, 0, 0), "the table-driven run misjudges a length", (uint32_t)len);
}

static void all_lengths(void)
{
    static const size_t roms[] = {SAM47_ROM_BYTES_C0502, SAM47_ROM_BYTES_C0504};
    for (size_t len = 0; len < sizeof rom; len++)
        lengths(len, SAM47_TABLE_BYTES_PER_ADDRESS * len, SAM47_STATE_BYTES);
    for (size_t i = 0; i < 2; i++) {
        size_t table_len = SAM47_TABLE_BYTES_PER_ADDRESS * roms[i];
        lengths(roms[i], table_len - 1, SAM47_STATE_BYTES);
        lengths(roms[i], table_len + 1, SAM47_STATE_BYTES);
        lengths(roms[i], 0, 0);
        for (size_t state_len = 0; state_len <= SAM47_STATE_BYTES + 1; state_len++)
            lengths(roms[i], table_len, state_len);
    }
}

/* Reset pulses as far as a trace may go, one byte more, and a map that is cut. */
static void traces(void)
{
    begin(SAM47_ROM_BYTES_C0502, drives, sizeof drives);
    for (size_t at = 0; at < SAM47_TRACE_BYTES_MOST; at += 2)
        put(trace + at, 2, 0x0080);
    answers("the longest trace is refused", SAM47_TRACE_BYTES_MOST, LOG_ROOM, 0, 0, (struct sam47_answer){SAM47_DONE, 0, 0, 0});
    answers("a longer trace is accepted", SAM47_TRACE_BYTES_MOST + 1, LOG_ROOM, 0, 0, (struct sam47_answer){SAM47_TRACE, 0, 65536, 0});
    answers("a record cut short is accepted", 5, LOG_ROOM, 0, 0, (struct sam47_answer){SAM47_TRACE, 0, 4, 0});
}

static uint8_t tidied[SAM47_TRACE_BYTES_MOST + 1];

/* Tidies so many bytes of `trace` into so many of a buffer that holds 0xEE: the answer, the bytes written, and 0xEE behind them. */
static void tidies(const char *what, size_t trace_len, size_t out_len, struct sam47_written wanted, const uint8_t *bytes)
{
    memset(tidied, 0xEE, sizeof tidied);
    struct sam47_written a = sam47_tidy(trace, trace_len, tidied, out_len);
    expect(a.number == wanted.number && a.address == wanted.address && a.length == wanted.length, what, (uint32_t)out_len);
    expect(memcmp(tidied, bytes, wanted.length) == 0, what, (uint32_t)out_len);
    size_t kept = wanted.length;
    while (kept < sizeof tidied && tidied[kept] == 0xEE)
        kept++;
    expect(kept == sizeof tidied, "a byte behind the tidy form is written", (uint32_t)kept);
}

/* Every length of the buffer up to the trace's: 13 below the tidy form's. */
static void tidies_to(const char *what, const uint8_t *given, size_t given_len, const uint8_t *form, size_t length)
{
    memcpy(trace, given, given_len);
    for (size_t out_len = 0; out_len <= given_len; out_len++) {
        struct sam47_written wanted = out_len < length ? (struct sam47_written){SAM47_SHORT, 0, 0} : (struct sam47_written){SAM47_DONE, 0, length};
        tidies(what, given_len, out_len, wanted, form);
    }
}

/* Waits of 1, 65,534 and 1 before the pins, which add up to 65,536; a reset in the same cycle; a wait behind all. */
static void tidy_forms(void)
{
    static const uint8_t untidy[] = {0x00, 0x01, 0x01, 0x00, 0x00, 0x01, 0xFE, 0xFF, 0x02, 0x01, 0x01, 0x00, 0x02, 0x80, 0x00, 0x00, 0x01, 0x07, 0x00};
    static const uint8_t tidy[] = {0x00, 0x01, 0xFF, 0xFF, 0x02, 0x01, 0x01, 0x00, 0x02, 0x80, 0x00};
    tidies_to("a trace is not tidied", untidy, sizeof untidy, tidy, sizeof tidy);
    tidies_to("a tidy trace is changed", tidy, sizeof tidy, tidy, sizeof tidy);
    tidies_to("a trace of waits alone is not empty", untidy, 8, tidy, 0);
    tidies_to("an empty trace is not tidy", untidy, 0, tidy, 0);
}

/* 6 comes before 13, and its place is the record's; the longest trace, of reset pulses, is accepted and tidy. */
static void tidy_refusals(void)
{
    static const uint8_t cut[] = {0x80, 0x00, 0x02, 0x00};
    memcpy(trace, cut, sizeof cut);
    for (size_t out_len = 0; out_len <= sizeof cut; out_len++)
        tidies("a record cut short is tidied", sizeof cut, out_len, (struct sam47_written){SAM47_TRACE, 2, 0}, cut);
    for (size_t at = 0; at < SAM47_TRACE_BYTES_MOST; at += 2)
        put(trace + at, 2, 0x0080);
    tidies("the longest trace is not tidied", SAM47_TRACE_BYTES_MOST, SAM47_TRACE_BYTES_MOST, (struct sam47_written){SAM47_DONE, 0, SAM47_TRACE_BYTES_MOST}, trace);
    tidies("a buffer one byte short is taken", SAM47_TRACE_BYTES_MOST, SAM47_TRACE_BYTES_MOST - 1, (struct sam47_written){SAM47_SHORT, 0, 0}, trace);
    tidies("a longer trace is tidied", SAM47_TRACE_BYTES_MOST + 1, 0, (struct sam47_written){SAM47_TRACE, SAM47_TRACE_BYTES_MOST, 0}, trace);
}

/* ---- several heads ------------------------------------------------------------------------------------------ */

enum { THREE = 3, PART = SAM47_LOG_RECORD_BYTES + 2, REMAINDER = THREE - 1, PARTS = THREE * PART + REMAINDER, COUNT_MOST = SAM47_HEADS_MOST + 1 };

/* What a dispatch is given beside ROM and table. The lists have room for a head too many. */
static struct lorry {
    uint32_t heads, q, turns;
    size_t rom_len, table_len, states_len, traces_len, trace_lens_len, log_len, log_starts_len;
    uint64_t trace_lens[COUNT_MOST], log_starts[COUNT_MOST];
    uint8_t states[COUNT_MOST * SAM47_STATE_BYTES + 1], log[COUNT_MOST * PART];
} lorry;

/* So many heads like the one that `begin` made, with no trace, and a log that holds 0xEE. */
static void line_up(uint32_t heads)
{
    memset(&lorry, 0, sizeof lorry);
    memset(lorry.log, 0xEE, sizeof lorry.log);
    lorry.heads = heads;
    lorry.q = lorry.turns = 1;
    lorry.rom_len = rom_len;
    lorry.table_len = SAM47_TABLE_BYTES_PER_ADDRESS * rom_len;
    lorry.states_len = (size_t)heads * SAM47_STATE_BYTES;
    lorry.trace_lens_len = lorry.log_starts_len = heads;
    lorry.log_len = PARTS;
    for (size_t head = 0; head < COUNT_MOST; head++)
        memcpy(lorry.states + head * SAM47_STATE_BYTES, state, SAM47_STATE_BYTES);
}

static struct sam47_heads dispatch(void)
{
    return sam47_dispatch(lorry.heads, rom, lorry.rom_len, table, lorry.table_len, lorry.states, lorry.states_len, trace, lorry.traces_len, lorry.trace_lens,
                          lorry.trace_lens_len, lorry.log, lorry.log_len, lorry.log_starts, lorry.log_starts_len, lorry.q, lorry.turns);
}

/* The call is accepted and each of three heads answers so; the others' answers are 0, and so are the turns. */
static void heads_answer(const char *what, uint32_t q, uint32_t turns, const struct sam47_answer *wanted)
{
    static const struct sam47_answer none;
    lorry.q = q;
    lorry.turns = turns;
    struct sam47_heads a = dispatch();
    expect(a.number == SAM47_DONE && a.address == 0 && a.turns == 0, what, a.number);
    for (uint32_t head = 0; head < SAM47_HEADS_MOST; head++) {
        struct sam47_answer one = head < THREE ? wanted[head] : none;
        expect(same(a.head[head], one.number, one.steps, one.address, one.log_end), what, head);
        lorry.log_starts[head] = a.head[head].log_end;
    }
}

/* The call is refused with number and address, with 0 in all else, and writes nothing. */
static void lorry_refused(const char *what, uint32_t number, uint32_t address)
{
    static struct lorry before;
    before = lorry;
    struct sam47_heads a = dispatch();
    expect(a.number == number && a.address == address && a.turns == 0, what, address);
    for (uint32_t head = 0; head < SAM47_HEADS_MOST; head++)
        expect(same(a.head[head], 0, 0, 0, 0), "a refusal answers for a head", head);
    expect(memcmp(&before, &lorry, sizeof before) == 0, "a refused dispatch writes", number);
}

/* Three heads that make six steps, the last of which logs, and then stop: four turns of four steps, three turns, more turns than they can take, and none. */
static void turns_go_round(void)
{
    static const struct sam47_answer going = {SAM47_DONE, 4, 0, 0}, stopped = {SAM47_CODE, 6, 0x10B, SAM47_LOG_RECORD_BYTES};
    static const struct sam47_answer later = {SAM47_CODE, 2, 0x10B, SAM47_LOG_RECORD_BYTES}, again = {SAM47_CODE, 0, 0x10B, SAM47_LOG_RECORD_BYTES};
    static const struct sam47_answer idle = {SAM47_DONE, 0, 0, SAM47_LOG_RECORD_BYTES};
    begin(SAM47_ROM_BYTES_C0502, drives, sizeof drives);
    line_up(THREE);
    heads_answer("four turns are not given from the lowest head on", 4, 4, (struct sam47_answer[]){stopped, going, going});
    heads_answer("three turns are not given from the lowest head on", 4, 3, (struct sam47_answer[]){again, later, later});
    heads_answer("a stop is not given again", 4, UINT32_MAX, (struct sam47_answer[]){again, again, again});
    heads_answer("heads without a turn answer otherwise", UINT32_MAX, 0, (struct sam47_answer[]){idle, idle, idle});
    for (size_t head = 0; head < THREE; head++) {
        const uint8_t *record = lorry.log + head * PART;
        expect(record[SAM47_LOG_AT_PORT] == 4 && record[SAM47_LOG_AT_NIBBLE] == 5, "a head's record is not in its part", (uint32_t)head);
        expect(record[SAM47_LOG_RECORD_BYTES] == 0xEE && record[PART - 1] == 0xEE, "a byte behind a head's record is written", (uint32_t)head);
    }
    for (size_t at = THREE * PART; at < sizeof lorry.log; at++)
        expect(lorry.log[at] == 0xEE, "a byte behind the last part is written", (uint32_t)at);
}

/* A head whose part is full stops and the others go on; a part of a byte more holds the record. */
static void parts_fill(void)
{
    static const struct sam47_answer full = {SAM47_FULL, 5, 0, 1}, stopped = {SAM47_CODE, 6, 0x10B, SAM47_LOG_RECORD_BYTES};
    begin(SAM47_ROM_BYTES_C0502, drives, sizeof drives);
    line_up(THREE);
    lorry.log_len = THREE * SAM47_LOG_RECORD_BYTES;
    lorry.log_starts[1] = 1;
    heads_answer("a full part does not stop its head alone", 3, 9, (struct sam47_answer[]){stopped, full, stopped});
}

/* Every head count up to one too many, every size of either list, lengths that do not add up, or only modulo 2^64; and a turn of no steps. */
static void counts_and_lists(void)
{
    static const struct sam47_answer one_step = {SAM47_DONE, 1, 0, 0}, none = {SAM47_DONE, 0, 0, 0};
    begin(SAM47_ROM_BYTES_C0502, drives, sizeof drives);
    for (uint32_t heads = 0; heads <= COUNT_MOST; heads++) {
        line_up(heads);
        uint32_t number = heads == 0 || heads > SAM47_HEADS_MOST ? SAM47_HEADS : SAM47_DONE;
        expect(dispatch().number == number, "a head count is misjudged", heads);
    }
    for (size_t len = 0; len <= COUNT_MOST; len++) {
        line_up(THREE);
        lorry.trace_lens_len = len;
        expect(dispatch().number == (len == THREE ? SAM47_DONE : SAM47_HEADS), "a list of trace lengths is misjudged", (uint32_t)len);
        line_up(THREE);
        lorry.log_starts_len = len;
        expect(dispatch().number == (len == THREE ? SAM47_DONE : SAM47_HEADS), "a list of log starts is misjudged", (uint32_t)len);
    }
    line_up(THREE);
    heads_answer("three heads are refused", 1, 1, (struct sam47_answer[]){one_step, none, none});
    lorry.trace_lens[1] = 1;
    lorry_refused("a length more than the traces have is accepted", SAM47_HEADS, 0);
    lorry.trace_lens[0] = UINT64_MAX;
    lorry_refused("lengths that add up modulo 2^64 are accepted", SAM47_HEADS, 0);
    lorry.q = 0;
    lorry_refused("15 comes before 14", SAM47_HEADS, 0);
    lorry.trace_lens[0] = lorry.trace_lens[1] = 0;
    lorry_refused("a turn of no steps is accepted", SAM47_TURN, 0);
}

/* 1, 2 and 3, each with those behind it; every length of the states. */
static void lorry_lengths(void)
{
    begin(SAM47_ROM_BYTES_C0502, drives, sizeof drives);
    for (size_t len = 0; len < sizeof lorry.states; len++) {
        line_up(THREE);
        lorry.states_len = len;
        if (len != THREE * SAM47_STATE_BYTES)
            lorry_refused("states of another length are accepted", SAM47_IMAGE, 0);
    }
    lorry.table_len--;
    lorry_refused("a table of another length is accepted", SAM47_TABLE, 0);
    lorry.rom_len--;
    lorry_refused("a ROM of another length is accepted", SAM47_ROM, 0);
}

/* Of each of three heads 8, 7, 6, 4, each before the one that is there already, and before all those of the heads behind it; 5 with head 0. */
static void heads_refused(void)
{
    begin(SAM47_ROM_BYTES_C0502, drives, sizeof drives);
    line_up(THREE);
    for (size_t head = THREE; head-- > 0;) {
        uint8_t *own = lorry.states + head * SAM47_STATE_BYTES;
        lorry.log_starts[head] = PART + 1;
        lorry_refused("a log start past the head's part is accepted", SAM47_LOG, 0);
        put(own + SAM47_AT_CURSOR, 4, 1);
        lorry_refused("a cursor past the head's trace is accepted", SAM47_CURSOR, 0);
        lorry.trace_lens[head] = lorry.traces_len = sizeof pins_now + 1; /* the record and a byte; no other head has a trace */
        memcpy(trace, pins_now, sizeof pins_now);
        lorry_refused("a malformed trace is accepted, or its place is not the head's own", SAM47_TRACE, sizeof pins_now);
        table[SAM47_AT_SRB] ^= head == 0;
        if (head == 0)
            lorry_refused("a stale table is accepted", SAM47_STALE, SAM47_AT_SRB);
        own[SAM47_AT_SRB] = 4;
        lorry_refused("a field is accepted, or its place is not the head's own", SAM47_FIELD, SAM47_AT_SRB);
        lorry.trace_lens[head] = lorry.traces_len = 0;
    }
}

/* As the library returns them: three numbers of four bytes and four of padding, then eight answers, each of three numbers of four bytes, padding, and
 * one of eight. */
static void heads_layout(void)
{
    expect(sizeof(struct sam47_answer) == 24, "the size of a head's answer", (uint32_t)sizeof(struct sam47_answer));
    expect(offsetof(struct sam47_answer, number) == 0, "the number's place in a head's answer", 0);
    expect(offsetof(struct sam47_answer, steps) == 4, "the steps' place in a head's answer", 4);
    expect(offsetof(struct sam47_answer, address) == 8, "the address's place in a head's answer", 8);
    expect(offsetof(struct sam47_answer, log_end) == 16, "the log end's place in a head's answer", 16);
    expect(sizeof(struct sam47_heads) == 16 + SAM47_HEADS_MOST * 24, "the size of the heads' answer", (uint32_t)sizeof(struct sam47_heads));
    expect(offsetof(struct sam47_heads, number) == 0, "the number's place in the heads' answer", 0);
    expect(offsetof(struct sam47_heads, address) == 4, "the address's place in the heads' answer", 4);
    expect(offsetof(struct sam47_heads, turns) == 8, "the turns' place in the heads' answer", 8);
    expect(offsetof(struct sam47_heads, head) == 16, "the first head's place in the heads' answer", 16);
}

/* ---- litres by farm ----------------------------------------------------------------------------------------- */

enum { FARMS = SAM47_FARMS_MOST, RECORD = SAM47_LOG_RECORD_BYTES, P4 = 4, NIBBLE_MOST = 15, LITRES_MOST = (FARMS + 1) * (FARMS + 2) / 2 };

static struct {
    uint32_t marks[FARMS + 2];
    size_t log_len;
    uint8_t log[2 * LITRES_MOST * RECORD];
} slip;

static void add_record(uint32_t clock, unsigned port, unsigned nibble)
{
    uint8_t *record = slip.log + slip.log_len;
    put(record + SAM47_LOG_AT_CLOCK, 4, clock);
    record[SAM47_LOG_AT_PORT] = (uint8_t)port;
    record[SAM47_LOG_AT_NIBBLE] = (uint8_t)nibble;
    slip.log_len += RECORD;
}

/* So many bytes of a log, with so many of the slip's marks, answer this number and these lines. */
static void counts(const char *what, const uint8_t *log, size_t log_len, size_t marks_len, struct sam47_lines wanted, uint32_t at)
{
    struct sam47_lines a = sam47_litres(log, log_len, slip.marks, marks_len);
    expect(a.number == wanted.number && a.unplaced == wanted.unplaced && memcmp(a.farm, wanted.farm, sizeof a.farm) == 0, what, at);
}

/* One litre before the first mark, then two, three and so on at the marks' own clocks, and any number of marks up to two too many: where these end, the last
 * farm has all that follow. */
static void every_line(void)
{
    slip.log_len = 0;
    for (uint32_t line = 0; line <= FARMS; line++)
        for (uint32_t litre = 0; litre <= line; litre++) {
            add_record(10 * line + 9 * (line == 0), P4, 1);
            add_record(10 * line + 9 * (line == 0), P4, 0);
        }
    for (uint32_t farm = 0; farm < FARMS + 2; farm++)
        slip.marks[farm] = 10 * (farm + 1);
    for (size_t count = 0; count <= FARMS + 2; count++) {
        struct sam47_lines wanted = {.number = count > FARMS ? SAM47_LITRES : SAM47_DONE};
        uint64_t placed = 0;
        for (size_t farm = 0; farm + 1 < count && count <= FARMS; farm++)
            placed += wanted.farm[farm] = farm + 2;
        if (count > 0 && count <= FARMS)
            wanted.farm[count - 1] = LITRES_MOST - 1 - placed;
        wanted.unplaced = count == 0 ? LITRES_MOST : count <= FARMS;
        counts("a list of marks is misjudged, or a line is not at its place", slip.log, slip.log_len, count, wanted, (uint32_t)count);
    }
}

/* Every port and nibble of a record, and every length of a log of four. */
static void every_record(void)
{
    for (unsigned port = 0; port < 256; port++)
        for (unsigned nibble = 0; nibble < 256; nibble++) {
            int is_driven = port == 0 || port == 3 || port == P4 || port == 5 || port == 6, is_good = is_driven && nibble <= NIBBLE_MOST;
            slip.log_len = 0;
            add_record(0, port, nibble);
            struct sam47_lines wanted = {.number = is_good ? SAM47_DONE : SAM47_LITRES, .unplaced = is_good && port == P4 && nibble % 2 == 1};
            counts("a record is misjudged", slip.log, slip.log_len, 0, wanted, 256 * port + nibble);
        }
    slip.log_len = 0;
    for (unsigned k = 0; k < 4; k++)
        add_record(k, P4, (k + 1) % 2);
    for (size_t len = 0; len <= slip.log_len; len++) {
        struct sam47_lines wanted = {.number = len % RECORD == 0 ? SAM47_DONE : SAM47_LITRES, .unplaced = len % RECORD == 0 ? (len / RECORD + 1) / 2 : 0};
        counts("a log's length is misjudged", slip.log, len, 0, wanted, (uint32_t)len);
    }
}

/* Any two of these as the clocks of two records, as marks, and as a litre's clock and a mark. */
static void clocks_and_marks(void)
{
    static const uint32_t of[] = {0, 1, 255, 256, 65535, 65536, 0xFFFFFF, 0x1000000, 0x7FFFFFFF, 0x80000000, UINT32_MAX - 1, UINT32_MAX};
    for (size_t i = 0; i < sizeof of / sizeof of[0]; i++)
        for (size_t k = 0; k < sizeof of / sizeof of[0]; k++) {
            struct sam47_lines none = {.number = SAM47_LITRES}, one = {.unplaced = 1}, placed = {.farm = {1}};
            slip.log_len = 0;
            add_record(of[i], P4, 1);
            add_record(of[k], 0, 0);
            counts("two clocks are misjudged", slip.log, slip.log_len, 0, of[k] < of[i] ? none : one, of[k]);
            slip.marks[0] = of[k];
            counts("a litre is not at its side of a mark", slip.log, RECORD, 1, of[i] < of[k] ? one : placed, of[k]);
            slip.marks[0] = of[i];
            slip.marks[1] = of[k];
            counts("two marks are misjudged", slip.log, 0, 2, (struct sam47_lines){.number = of[k] <= of[i] ? SAM47_LITRES : SAM47_DONE}, of[k]);
        }
}

/* Only a change of bit 0 is a litre, and only of P4; the halves of a log that is cut where bit 0 is set have one more than the whole. */
static void changes(void)
{
    static const struct sam47_lines none = {.number = SAM47_DONE}, one = {.unplaced = 1}, two = {.unplaced = 2};
    slip.log_len = 0;
    add_record(7, P4, 14);
    add_record(7, 5, 1);
    counts("another bit or another port is a litre", slip.log, slip.log_len, 0, none, 2);
    add_record(7, P4, 5);
    counts("bit 0 is no litre where it rises", slip.log, slip.log_len, 0, one, 3);
    add_record(8, 6, 0);
    add_record(8, P4, 7);
    counts("bit 0 is a litre where it stays", slip.log, slip.log_len, 0, one, 5);
    counts("P4 does not count as 0 before the log", slip.log + 3 * RECORD, 2 * RECORD, 0, one, 3);
    add_record(9, P4, 8);
    counts("bit 0 is a litre where it falls", slip.log, slip.log_len, 0, one, 6);
    add_record(9, P4, 9);
    counts("bit 0 is no litre where it rises again", slip.log, slip.log_len, 0, two, 7);
}

/* The log of a run that drives P4 with 5, from its start to its end; its clock is the record's. */
static void litre_of_a_run(void)
{
    struct sam47_lines placed = {.farm = {1}}, unplaced = {.unplaced = 1};
    begin(SAM47_ROM_BYTES_C0502, drives, sizeof drives);
    struct sam47_answer ran = driven(0, LOG_ROOM, 1, 6);
    expect(same(ran, SAM47_DONE, 6, 0, 1 + RECORD), "the record is not written", 1);
    slip.marks[0] = number_at(state + SAM47_AT_CLOCK, 4);
    counts("the litre is not its farm's", log_bytes + 1, ran.log_end - 1, 1, placed, slip.marks[0]);
    slip.marks[0]++;
    counts("the litre is not unplaced", log_bytes + 1, ran.log_end - 1, 1, unplaced, slip.marks[0]);
}

/* As the library returns them: a number of four bytes and four of padding, then 65 of eight. */
static void lines_layout(void)
{
    expect(sizeof(struct sam47_lines) == 16 + FARMS * 8, "the size of the lines", (uint32_t)sizeof(struct sam47_lines));
    expect(offsetof(struct sam47_lines, number) == 0, "the number's place before the lines", 0);
    expect(offsetof(struct sam47_lines, unplaced) == 8, "the place of the unplaced", 8);
    expect(offsetof(struct sam47_lines, farm) == 16, "the first farm's place", 16);
}

/* As the library returns it: two numbers of four bytes, then one of eight. */
static void written_layout(void)
{
    expect(sizeof(struct sam47_written) == 16, "the answer's size", (uint32_t)sizeof(struct sam47_written));
    expect(offsetof(struct sam47_written, number) == 0, "the number's place in the answer", 0);
    expect(offsetof(struct sam47_written, address) == 4, "the address's place in the answer", 4);
    expect(offsetof(struct sam47_written, length) == 8, "the length's place in the answer", 8);
}

int main(void)
{
    fields_of(SAM47_ROM_BYTES_C0502);
    fields_of(SAM47_ROM_BYTES_C0504);
    no_gap();
    scalars_move();
    log_records();
    undefined_codes();
    cursors();
    modes();
    timer_moves();
    hold_moves();
    stops();
    all_lengths();
    traces();
    tidy_forms();
    tidy_refusals();
    written_layout();
    turns_go_round();
    parts_fill();
    counts_and_lists();
    lorry_lengths();
    heads_refused();
    heads_layout();
    every_line();
    every_record();
    clocks_and_marks();
    changes();
    litre_of_a_run();
    lines_layout();
    printf("header: %lu checks, %lu failed\n", checks, failed);
    return failed != 0;
}
