#include "cases.h"
#include "../random.h"

#include <stdio.h>
#include <stdlib.h>
#include <string.h>

static int one_in(uint32_t n) { return any() % n == 0; }

static uint32_t below(uint32_t n) { return any() % n; }

static void put16(uint8_t *to, uint32_t v)
{
    to[0] = (uint8_t)v;
    to[1] = (uint8_t)(v >> 8);
}

static void put32(uint8_t *to, uint32_t v)
{
    put16(to, v);
    put16(to + 2, v >> 16);
}

static void fill(uint8_t *bytes, size_t len)
{
    for (size_t k = 0; k < len; k++)
        bytes[k] = (uint8_t)any();
}

/* ---- codes -------------------------------------------------------------------------------------------------- */

static uint8_t told[65536]; /* the fourth byte of the table for every two bytes */

/* Each ROM holds 2,048 pairs of bytes; predecode tells their lengths and cycles. */
static void learn_codes(void)
{
    static uint8_t rom[ROM_MOST], table[TABLE_MOST];
    for (uint32_t first = 0; first < 65536; first += ROM_MOST / 2) {
        for (uint32_t k = 0; k < ROM_MOST / 2; k++) {
            rom[2 * k] = (uint8_t)((first + k) >> 8);
            rom[2 * k + 1] = (uint8_t)(first + k);
        }
        if (sam47_predecode(rom, sizeof rom, table, sizeof table) != SAM47_DONE) {
            printf("cases: predecode refuses a ROM of 4,096 bytes\n");
            exit(1);
        }
        for (uint32_t k = 0; k < ROM_MOST / 2; k++)
            told[first + k] = table[8 * k + 3];
    }
}

static uint8_t told_of(uint8_t first, uint8_t second)
{
    static int learnt;
    if (!learnt)
        learn_codes();
    learnt = 1;
    return told[256 * first + second];
}

unsigned code_length(uint8_t first, uint8_t second) { return told_of(first, second) & 3; }

unsigned code_cycles(uint8_t first, uint8_t second) { return told_of(first, second) >> 2; }

/* ---- undefined codes ---------------------------------------------------------------------------------------- */

/* The second bytes behind DCH that have EA in RRb's place. */
static const uint8_t pair_codes[] = {0x10, 0x20, 0x30, 0x90, 0xA0, 0xB0, 0xC0, 0xE0, 0xF0, 0xF8};

/* With A in Ra's place, or EA in RRb's. */
static void put_register_code(uint8_t *to)
{
    static const uint8_t codes[][2] = {{0x68, 0}, {0x80, 0}, {0xD9, 0x08}, {0xDC, 0}, {0xDC, 0}, {0xDD, 0x00}, {0xDD, 0x08}};
    memcpy(to, codes[below(sizeof codes / sizeof *codes)], 2);
    if (to[0] == 0xDC)
        to[1] = pair_codes[below(sizeof pair_codes)];
    else if (to[0] == 0xD9)
        to[1] |= below(16) << 4;
    else if (to[0] != 0xDD)
        to[1] = (uint8_t)any();
}

/* SMB 2 to 14, or SRB 4 to 15 by its low four bits. */
static void put_bank_code(uint8_t *to)
{
    to[0] = 0xDD;
    to[1] = one_in(2) ? 0x42 + below(13) : 0x54 + below(12);
}

/* Of no such kind: those that chance gives, and those beside the other two. */
static void put_unknown_code(uint8_t *to)
{
    static const uint8_t codes[][2] = {{0x00, 0x08}, {0x10, 0x68}, {0x78, 0x08}, {0x7C, 0x08}, {0xD8, 0x08}, {0xDA, 0x08}, {0xDB, 0x80}, {0xDC, 0x02},
                                       {0xDC, 0x11}, {0xDC, 0x40}, {0xDC, 0x80}, {0xDC, 0xD0}, {0xDC, 0xE1}, {0xDD, 0x61}, {0xDD, 0x63}, {0xDD, 0x65},
                                       {0xDD, 0x80}, {0xDE, 0x42}, {0xDF, 0x54}, {0xF4, 0x50}, {0xFE, 0x7F}, {0xC6, 0x10}, {0xE4, 0x00}};
    if (one_in(2))
        memcpy(to, codes[below(sizeof codes / sizeof *codes)], 2);
    else
        do
            fill(to, 2);
        while (code_length(to[0], to[1]));
}

static void put_undefined_code(uint8_t *to)
{
    switch (below(3)) {
    case 0:
        put_register_code(to);
        break;
    case 1:
        put_bank_code(to);
        break;
    default:
        put_unknown_code(to);
    }
}

int is_register_code(uint8_t first, uint8_t second)
{
    if (first == 0xDC)
        return memchr(pair_codes, second, sizeof pair_codes) != NULL;
    return first == 0x68 || first == 0x80 || (first == 0xD9 && second % 16 == 8) || (first == 0xDD && (second == 0 || second == 8));
}

int is_bank_code(uint8_t first, uint8_t second)
{
    return first == 0xDD && ((second >= 0x42 && second <= 0x4E) || (second >= 0x54 && second <= 0x5F));
}

/* ---- the ROM ------------------------------------------------------------------------------------------------ */

/* A defined code that takes as many bytes and cycles, or, with 0, any number of them. Answers its length; a third byte is any. In one of four the first
 * byte is one of those whose second byte says the instruction: they have most of chapter 5's rows. */
static unsigned put_code(uint8_t *to, unsigned length, unsigned cycles)
{
    static const uint8_t openers[] = {0xDC, 0xDC, 0xDD, 0xDD, 0xD9, 0xF4, 0xF5, 0xF6, 0xF7, 0xF8, 0xF9, 0xFC, 0xFD, 0xFE, 0xFF};
    do {
        to[0] = one_in(4) ? openers[below(sizeof openers)] : (uint8_t)any();
        to[1] = (uint8_t)any();
    } while (!code_length(to[0], to[1]) || (length && (code_length(to[0], to[1]) != length || code_cycles(to[0], to[1]) != cycles)));
    return code_length(to[0], to[1]);
}

/* IDLE, STOP, EI, DI, BITS and BITR of port bits, EMB and ERB, SMB 15 and 0, LD of PMG1 to PMG3, P4 and P6: codes that chance alone would seldom give. */
static unsigned put_seldom_code(uint8_t *to)
{
    static const uint8_t codes[][2] = {{0xFF, 0xA3}, {0xFF, 0xA3}, {0xFF, 0xB3}, {0xFF, 0xB2}, {0xFF, 0xB2}, {0xFE, 0xB2}, {0xFF, 0xF4},
                                       {0xFE, 0xE4}, {0xFF, 0xC3}, {0xFE, 0xD0}, {0xFF, 0xF6}, {0xFE, 0xC5}, {0xFF, 0x90}, {0xFF, 0x80},
                                       {0xDD, 0x4F}, {0xDD, 0x40}, {0xCD, 0xE8}, {0xCD, 0xEA}, {0xCD, 0xEC}, {0x89, 0xF4}, {0x89, 0xF6}};
    memcpy(to, codes[below(sizeof codes / sizeof *codes)], 2);
    return 2;
}

/* A code that names one of Table 4-1's locations directly: LD, XCH, INCS of 4 and 8 bits, BITR, BITS, BTSF, BTST. */
static unsigned put_direct_code(uint8_t *to)
{
    static const uint8_t openers[] = {0x79, 0x89, 0x8C, 0xCA, 0xCD, 0xCD, 0xCE, 0xCE, 0xCF, 0xC0, 0xC0, 0xC0, 0xC0, 0xC0, 0xC0};
    static const uint8_t locations[] = {0x80, 0x81, 0x85, 0x86, 0x87, 0x88, 0x89, 0x90, 0x91, 0x92, 0x94, 0x95, 0x96, 0x97, 0x98, 0x99, 0x9A,
                                        0xB0, 0xB1, 0xB2, 0xB3, 0xB4, 0xB5, 0xB6, 0xB8, 0xBA, 0xBC, 0xBD, 0xBE, 0xBF, 0xC0, 0xC1, 0xC2, 0xC3,
                                        0xD0, 0xD4, 0xD6, 0xD7, 0xDA, 0xDB, 0xDC, 0xDD, 0xE0, 0xE1, 0xE2, 0xE4, 0xE5, 0xE8, 0xE9, 0xEA, 0xEB,
                                        0xEC, 0xED, 0xF0, 0xF1, 0xF2, 0xF3, 0xF4, 0xF5, 0xF6};
    to[0] = openers[below(sizeof openers)];
    if (to[0] == 0xC0) {
        to[0] |= below(4) << 4;
        to[0] |= below(4);
    }
    to[1] = one_in(8) ? 0x80 | below(128) : locations[below(sizeof locations)];
    return 2;
}

/* What sets up or reads the basic timer: a value to BMOD, PCON or WDMOD (5AH, the reset's A5H, or any), BITS and BITR of BMOD.3 and WDTCF, BITS of IEB
 * and IRQB, LD EA,BCNT, BTSTZ IRQB, INCS BMOD, STOP, IDLE. Answers the length, SEQUENCE_MOST at most. */
enum { SEQUENCE_MOST = 4 };

static unsigned put_timer_code(uint8_t *to)
{
    static const uint8_t codes[][2] = {{0xF1, 0x85}, {0xF1, 0x85}, {0xF1, 0x9A}, {0xF1, 0x9A}, {0xFF, 0x98}, {0xFF, 0x88}, {0xCE, 0x86},
                                       {0xFD, 0x88}, {0xFF, 0xA3}, {0xFF, 0xB3}, {0x89, 0x85}, {0x89, 0xB3}, {0xCD, 0x98}, {0xCA, 0x85},
                                       {0xF0, 0x85}, {0xF0, 0x9A}};
    static const uint8_t modes[] = {0x5A, 0x5A, 0xA5, 0x5B, 0x4A};
    switch (below(5)) {
    case 0: /* LD A,#im; LD BMOD,A, or LD PCON,A */
        to[0] = 0xB0 | below(16);
        to[1] = 0x89;
        to[2] = one_in(2) ? 0x85 : 0xB3;
        return 3;
    case 1: /* LD EA,#imm; LD WDMOD,EA */
        to[0] = 0x81;
        to[1] = one_in(4) ? (uint8_t)any() : modes[below(sizeof modes)];
        to[2] = 0xCD;
        to[3] = 0x98;
        return 4;
    default:
        memcpy(to, codes[below(sizeof codes / sizeof *codes)], 2);
        return 2;
    }
}

/* An entry of the reference area: TJP or TCALL, a pair of Table 5-1, a code of two bytes and two cycles; in one of 24 anything. */
static void put_reference(uint8_t *to)
{
    static const uint8_t pairs[][2] = {{0x8D, 0x5A}, {0x8D, 0x4A}, {0x8D, 0x5B}, {0x8D, 0x4B}, {0x8D, 0x82}, {0x8E, 0x5C}, {0x8E, 0x4C},
                                       {0x8E, 0x5D}, {0x8E, 0x4D}, {0x8E, 0x84}, {0x8F, 0x5A}, {0x8F, 0x4A}, {0x8F, 0x5D}, {0x8F, 0x4D},
                                       {0xC4, 0x5A}, {0xC4, 0x4A}, {0xC4, 0x5B}, {0xC4, 0x4B}, {0xC4, 0x82}};
    fill(to, 2);
    if (one_in(24))
        return;
    if (one_in(6))
        to[0] &= 0x7F;
    else if (one_in(2))
        memcpy(to, pairs[below(sizeof pairs / sizeof *pairs)], 2);
    else
        put_code(to, 2, 2);
}

static unsigned put_any_code(uint8_t *to)
{
    if (one_in(12))
        return put_seldom_code(to);
    if (one_in(16))
        return put_timer_code(to);
    return one_in(5) ? put_direct_code(to) : put_code(to, 0, 0);
}

/* A program of defined codes, with vectors before it and a reference area in its first page. */
static void make_program(struct head_case *c)
{
    uint8_t code[SEQUENCE_MOST];
    for (size_t at = 0; at < c->rom_len;) {
        fill(code, sizeof code);
        size_t room = c->rom_len - at, len = put_any_code(code);
        memcpy(c->rom + at, code, len < room ? len : room);
        at += len;
    }
    for (size_t at = 0x20; at < 0x80; at += 2)
        put_reference(c->rom + at);
    fill(c->rom, 12);
}

/* Bytes of which many are the first of a two-byte code (1), additions and loads (2), or counts (3). */
static void make_bytes(struct head_case *c, uint32_t kind)
{
    static const uint8_t openers[] = {0xDD, 0xDC, 0xFF, 0xFE, 0xF4, 0xF9, 0xFC, 0xF8, 0xCD, 0xCC, 0xD9,
                                      0xDB, 0x3E, 0x3C, 0xA5, 0xB3, 0x83, 0xC5, 0xD5, 0xE5, 0x8A, 0x7B};
    fill(c->rom, c->rom_len);
    for (size_t k = 0; k < c->rom_len; k++) {
        if (kind == 1 && one_in(3))
            c->rom[k] = openers[below(sizeof openers)];
        if (kind == 2 && one_in(2))
            c->rom[k] = 0xA0 | below(32);
        if (kind == 3 && !one_in(4))
            c->rom[k] = 0x40 | below(32);
    }
}

static void make_rom(struct head_case *c)
{
    c->rom_len = one_in(2) ? SAM47_ROM_BYTES_C0502 : SAM47_ROM_BYTES_C0504;
    if (one_in(3))
        make_bytes(c, below(4));
    else
        make_program(c);
}

static void make_table(struct head_case *c)
{
    c->table_len = SAM47_TABLE_BYTES_PER_ADDRESS * c->rom_len;
    c->table_is_roms = 1;
    sam47_predecode(c->rom, c->rom_len, c->table, c->table_len);
}

/* ---- the state ---------------------------------------------------------------------------------------------- */

static const uint8_t pins[7] = {7, 3, 15, 7, 15, 15, 15}; /* that each port has */

static uint8_t *bank15(struct head_case *c, uint32_t address) { return c->state + SAM47_AT_BANK15 + (address - 0xF80); }

/* Interrupts allowed (IME), no or one level of them served, any sources enabled and requested. */
static void ask_interrupts(struct head_case *c)
{
    *bank15(c, 0xFB2) |= 8;
    *bank15(c, 0xFB0) &= one_in(3) ? 7 : 3;
    for (uint32_t at = 0xFB8; at <= 0xFBF; at++)
        *bank15(c, at) = below(16);
}

/* The two bytes of the basic timer: the divider's phase and the watchdog's count of BCNT overflows. */
static void put_timing(struct head_case *c, uint32_t phase, uint32_t count)
{
    put16(c->state + SAM47_AT_BASIC_TIMER, phase | count << 12);
}

/* The basic timer near its events: any tap and rate, the phase a little before a count of that tap or of another, BCNT at FFH or near, the watchdog's
 * count at 7 or near, the watchdog on, off, or but a bit away from off. */
static void near_timer_event(struct head_case *c)
{
    static const uint8_t taps[8] = {12, 12, 12, 9, 12, 7, 12, 5}; /* by BMOD.2-0 */
    uint32_t mode = below(16), tap = taps[one_in(4) ? below(8) : mode & 7], bcnt = one_in(2) ? 0xFF : one_in(2) ? 0xFF - below(16) : below(256);
    uint32_t off = 0x5A, watchdog = one_in(3) ? off : one_in(3) ? off ^ 1u << below(8) : one_in(2) ? 0xA5 : below(256);
    uint32_t ends = (1u + below(4096u >> tap)) << tap; /* where the tap counts next */
    uint32_t before = below(one_in(2) ? 4 : 700), count = one_in(2) ? 7 : below(8);
    *bank15(c, 0xF85) = mode;
    *bank15(c, 0xF86) = bcnt & 15;
    *bank15(c, 0xF87) = bcnt >> 4;
    *bank15(c, 0xF98) = watchdog & 15;
    *bank15(c, 0xF99) = watchdog >> 4;
    *bank15(c, 0xFB3) = below(16);
    *bank15(c, 0xFB8) = below(4);
    put_timing(c, (ends - before) & 4095, count);
}

/* In idle mode with nothing enabled but, in one of two, INTB: the timer's events alone end the stretch, and the watchdog's reset. */
static void sleep_by_timer(struct head_case *c)
{
    for (uint32_t at = 0xFB8; at <= 0xFBF; at++)
        *bank15(c, at) = 0;
    *bank15(c, 0xFB8) = one_in(2) ? 2 : 0;
    c->state[SAM47_AT_MODE] = one_in(8) ? 2 : 1;
}

/* For how many cycles a reset still holds the CPU. */
static void put_hold(struct head_case *c, uint32_t remains) { put16(c->state + SAM47_AT_HOLD, remains); }

static int is_held(const struct head_case *c) { return (c->state[SAM47_AT_HOLD] | c->state[SAM47_AT_HOLD + 1]) != 0; }

/* A remainder at an end of its range, one that some steps use up, or any. */
static uint32_t any_remainder(void)
{
    static const uint16_t ends[] = {1, 2, SAM47_HOLD_CYCLES - 1, SAM47_HOLD_CYCLES};
    return one_in(3) ? ends[below(sizeof ends / sizeof *ends)] : 1 + below(one_in(2) ? 40 : SAM47_HOLD_CYCLES);
}

/* Held in one of six, some of these asleep; past the hold in the others, for every code and most interrupts come there. */
static void make_hold(struct head_case *c)
{
    put_hold(c, one_in(6) ? any_remainder() : 0);
    if (is_held(c) && one_in(3))
        c->state[SAM47_AT_MODE] = 1 + below(2);
}

static void make_scalars(struct head_case *c)
{
    uint8_t *s = c->state;
    uint32_t pc = below((uint32_t)c->rom_len), near_end = 0xFFFFFFFFu - below(one_in(2) ? 16 : 200);
    uint32_t phase = below(4096), count = below(8);
    put16(s + SAM47_AT_PC, pc);
    s[SAM47_AT_SMB] = one_in(2) ? 15 * below(2) : below(16);
    s[SAM47_AT_SRB] = below(4);
    s[SAM47_AT_MODE] = one_in(4) ? below(3) : 0;
    s[SAM47_AT_EFFECT] = below(4);
    s[SAM47_AT_RELEASE] = one_in(2) ? below(3) : 0;
    for (int port = 0; port < 7; port++)
        s[SAM47_AT_PINS + port] = any() & pins[port];
    put32(s + SAM47_AT_CLOCK, !one_in(4) ? below(64) : one_in(3) ? near_end : any());
    put_timing(c, phase, count);
}

/* Sums and differences that just reach a carry are seldom by chance: with `ends` 1 and 2, half or most nibbles are 0, 1, 8 or 15. */
static uint8_t any_nibble(uint32_t ends)
{
    static const uint8_t end[4] = {0, 1, 8, 15};
    return below(4) < 2 * ends - (ends == 2) ? end[below(4)] : below(16);
}

/* Any accepted state, half of them with most of bank 15 clear, half with interrupts asked for. */
static void make_any_state(struct head_case *c)
{
    uint32_t ends = below(3);
    for (int k = 0; k < SAM47_AT_PC; k++)
        c->state[k] = any_nibble(ends);
    *bank15(c, 0xF80) &= 14;
    if (one_in(2))
        for (uint32_t at = 0xF90; at <= 0xFFF; at++)
            *bank15(c, at) = one_in(3) ? *bank15(c, at) : 0;
    if (one_in(2))
        ask_interrupts(c);
    make_scalars(c);
}

/* A fresh head or any state; half of them with the timer near an event, one of eight asleep. Of the fresh heads one of six is left as it is, held. */
static void make_state(struct head_case *c)
{
    int fresh = one_in(4);
    c->state_len = SAM47_STATE_BYTES;
    if (fresh)
        sam47_fresh(c->rom, c->rom_len, c->state, c->state_len);
    else
        make_any_state(c);
    if (one_in(2))
        near_timer_event(c);
    if (one_in(8))
        sleep_by_timer(c);
    if (!fresh || !one_in(6))
        make_hold(c);
}

/* ---- the trace ---------------------------------------------------------------------------------------------- */

/* P1 and P6 wake a head, so they change often; a reset comes now and then, in a trace that has some. `patience` is the longest wait. */
static void put_record(struct head_case *c, uint32_t patience)
{
    uint32_t map = below(256), wait = 1 + below(patience);
    if (one_in(2))
        map &= 0x42;
    if (!c->resets || !one_in(3))
        map &= 0x7F;
    if (!one_in(8))
        map |= 0x100;
    if (map == 0)
        map = 0x40;
    put16(c->trace + c->trace_len, map);
    c->trace_len += 2;
    if (map & 0x100) {
        put16(c->trace + c->trace_len, wait);
        c->trace_len += 2;
    }
    for (int port = 0; port < 7; port++)
        if (map >> port & 1)
            c->trace[c->trace_len++] = any() & pins[port];
}

/* The longest trace, of records with a wait and no port; or one byte longer, by a record with a port before its last. */
static void fill_trace(struct head_case *c)
{
    static const uint8_t wait[4] = {0, 1, 5, 0}, end[9] = {1, 1, 5, 0, 1, 0, 1, 5, 0};
    for (c->trace_len = 0; c->trace_len < SAM47_TRACE_BYTES_MOST; c->trace_len += sizeof wait)
        memcpy(c->trace + c->trace_len, wait, sizeof wait);
    if (one_in(2)) {
        c->trace_len = TRACE_MOST;
        memcpy(c->trace + TRACE_MOST - sizeof end, end, sizeof end);
    }
    put32(c->state + SAM47_AT_CURSOR, 4 * below(1000));
}

/* A trace, with the cursor at its start or at some record. Only one of six has resets, for the head is held behind each and runs nothing; but one of two
 * where it is held anyway. A hold takes in many records, or few. */
static void make_trace(struct head_case *c)
{
    enum { RECORDS_MOST = 40 };
    size_t starts[RECORDS_MOST + 1];
    c->resets = one_in(is_held(c) ? 2 : 6);
    uint32_t records = below(RECORDS_MOST), patience = !one_in(c->resets || is_held(c) ? 2 : 8) ? 12 : !one_in(4) ? 400 : 65535;
    if (one_in(300)) {
        fill_trace(c);
        return;
    }
    c->trace_len = 0;
    for (uint32_t k = 0; k < records; k++) {
        starts[k] = c->trace_len;
        put_record(c, patience);
    }
    starts[records] = c->trace_len;
    put32(c->state + SAM47_AT_CURSOR, (uint32_t)(one_in(2) ? starts[below(records + 1)] : starts[0]));
}

/* ---- the log and the budgets -------------------------------------------------------------------------------- */

/* Often short, most often where the trace has resets: of all steps these log most. */
static void make_log(struct head_case *c)
{
    fill(c->log, LOG_MOST + BEYOND);
    c->log_len = one_in(c->resets ? 2 : 3) ? below(c->resets ? 20 : 40) : LOG_MOST;
    c->log_start = one_in(4) ? below((uint32_t)c->log_len + 1) : 0;
}

/* Near the clock's end even the largest budget is soon spent. A head that is held, or will be, gets budgets that cut the hold near its end and that go
 * past it. A head asleep gets a long one now and then, for the timer's slow taps: at fx/4 and fx/2^12 BCNT goes round in 262,144 cycles. */
static uint32_t any_budget(int clock_ends, int holds, int sleeps)
{
    if (clock_ends && one_in(3))
        return UINT32_MAX - below(2);
    if (holds && one_in(3))
        return one_in(2) ? SAM47_HOLD_CYCLES - 3 + below(6) : below(2 * SAM47_HOLD_CYCLES);
    if (sleeps && one_in(8))
        return one_in(40) ? below(2400000) : below(20000);
    return one_in(6) ? below(2) : one_in(12) ? below(4000) : one_in(200) ? below(100000) : below(120);
}

static void make_budgets(struct head_case *c)
{
    static const uint8_t late[3] = {0xFF, 0xFF, 0xFF};
    int clock_ends = memcmp(c->state + SAM47_AT_CLOCK + 1, late, sizeof late) == 0, sleeps = c->state[SAM47_AT_MODE] == 1;
    c->calls = 1 + below(CALLS_MOST);
    for (uint32_t k = 0; k < c->calls; k++)
        c->budgets[k] = any_budget(clock_ends, c->resets || is_held(c), sleeps);
}

/* ---- damage: every refusal's reason ------------------------------------------------------------------------- */

/* The ends of a buffer are where a loop goes wrong, so one bit in four is turned there. */
static void turn_bit(uint8_t *bytes, size_t len)
{
    if (len == 0)
        return;
    size_t at = !one_in(4) ? any() % len : one_in(2) ? 0 : len - 1;
    bytes[at] ^= (uint8_t)(1u << below(8));
}

/* One more or less than a length, or any up to the most. */
static size_t other_length(size_t len, uint32_t most)
{
    size_t other = one_in(3) ? below(most) : one_in(2) ? len + 1 : len - (len > 0);
    return other < most ? other : most;
}

static size_t other_rom(size_t len) { return len == SAM47_ROM_BYTES_C0502 ? SAM47_ROM_BYTES_C0504 : SAM47_ROM_BYTES_C0502; }

/* A start past the log's end: a little, by 2 to the power 32, or by as much as there is. */
static size_t past_log(size_t len)
{
    if (one_in(4))
        return SIZE_MAX - below(3);
    return one_in(3) ? ((size_t)1 << 32) + below((uint32_t)len + 1) : len + 1 + below(3);
}

enum fault { ROM_LENGTH, TABLE_LENGTH, STATE_LENGTH, NIBBLES, SCALARS, TABLE_BYTES, TRACE_RECORDS, CURSOR, TIMER, HOLD, LOG_START, FAULTS };

/* Mostly a field out of range. */
static void damage_state(struct head_case *c, enum fault fault)
{
    switch (fault) {
    case NIBBLES:
        turn_bit(c->state, SAM47_AT_CLOCK);
        break;
    case SCALARS: /* the first PC that is too large, too */
        turn_bit(c->state + SAM47_AT_PC, SAM47_AT_CLOCK - SAM47_AT_PC);
        if (one_in(8))
            put16(c->state + SAM47_AT_PC, (uint32_t)c->rom_len);
        break;
    case CURSOR:
        put32(c->state + SAM47_AT_CURSOR, one_in(2) ? below((uint32_t)c->trace_len + 2) : any());
        break;
    case TIMER: /* bit 15, or any other */
        if (one_in(2))
            c->state[SAM47_AT_BASIC_TIMER + 1] |= 0x80;
        else
            turn_bit(c->state + SAM47_AT_BASIC_TIMER, 2);
        break;
    default: /* a remainder just above the largest, or mostly far above it */
        put_hold(c, one_in(2) ? SAM47_HOLD_CYCLES + 1 + below(2) : below(65536));
    }
}

static void damage(struct head_case *c)
{
    enum fault fault = below(FAULTS);
    switch (fault) {
    case ROM_LENGTH:
        c->rom_len = other_length(c->rom_len, ROM_MOST + BEYOND);
        c->table_is_roms = 0; /* two such changes can make a ROM of 4,096 bytes one of 2,048, with another end */
        break;
    case TABLE_LENGTH: /* the other chip's length too */
        c->table_len = one_in(4) ? SAM47_TABLE_BYTES_PER_ADDRESS * other_rom(c->rom_len) : other_length(c->table_len, TABLE_MOST + BEYOND);
        break;
    case STATE_LENGTH:
        c->state_len = other_length(c->state_len, SAM47_STATE_BYTES + BEYOND);
        break;
    case TABLE_BYTES:
        turn_bit(c->table, c->table_len);
        c->table_is_roms = 0;
        break;
    case TRACE_RECORDS:
        if (one_in(2))
            turn_bit(c->trace, c->trace_len);
        else
            c->trace_len -= c->trace_len > 0;
        break;
    case LOG_START:
        c->log_start = past_log(c->log_len);
        break;
    default:
        damage_state(c, fault);
    }
}

/* ---- at an undefined code ----------------------------------------------------------------------------------- */

static void put_in_rom(struct head_case *c, size_t at, const uint8_t *bytes, size_t len)
{
    for (size_t k = 0; k < len; k++)
        c->rom[(at + k) % c->rom_len] = bytes[k];
}

/* A REF to an entry of the reference area, with the code in it. */
static uint8_t ref_to(struct head_case *c, const uint8_t *code)
{
    uint32_t entry = 0x20 + 2 * below(48);
    put_in_rom(c, entry, code, 2);
    return (uint8_t)((entry & 0xF0) | (entry >> 1 & 7));
}

/* Puts an undefined code where the head meets it next: runs it, skips it, has it behind ADC or SBC, which look at it, or finds it by a REF that is run or
 * skipped. In one of three near the ROM's end, where a code goes on at its start. */
static void meet_undefined(struct head_case *c)
{
    static const uint8_t always_skips[2] = {0xDD, 0x68}, adds[2] = {0x3E, 0x3C}; /* CPSE A,A; ADC A,@HL, SBC A,@HL */
    enum { RUNS, SKIPS, ADDS, REFERS, SKIPS_REF, MEETINGS };
    uint8_t code[2], ref;
    size_t pc = one_in(3) ? c->rom_len - 1 - below(4) : below((uint32_t)c->rom_len), at = pc;
    uint32_t meeting = below(MEETINGS);
    put_undefined_code(code);
    if (meeting == SKIPS || meeting == SKIPS_REF) {
        put_in_rom(c, at, always_skips, sizeof always_skips);
        at += sizeof always_skips;
    } else if (meeting == ADDS) {
        put_in_rom(c, at, &adds[below(2)], 1);
        at++;
    }
    if (meeting == REFERS || meeting == SKIPS_REF) {
        ref = ref_to(c, code);
        put_in_rom(c, at, &ref, 1);
    } else
        put_in_rom(c, at, code, sizeof code);
    put16(c->state + SAM47_AT_PC, (uint32_t)pc);
    c->state[SAM47_AT_MODE] = 0;
    put_hold(c, 0);
    make_table(c);
}

static void make_head(struct head_case *c)
{
    make_state(c);
    make_trace(c);
    make_log(c);
    make_budgets(c);
}

void make_other_head(uint64_t number, struct head_case *c)
{
    seed_from(number);
    make_head(c);
}

void make_sound_case(uint64_t number, struct head_case *c)
{
    seed_from(number);
    fill(c->rom + ROM_MOST, BEYOND);
    fill(c->table + TABLE_MOST, BEYOND);
    fill(c->state + SAM47_STATE_BYTES, BEYOND);
    make_rom(c);
    make_table(c);
    make_head(c);
    if (one_in(5))
        meet_undefined(c);
}

void make_case(uint64_t number, struct head_case *c)
{
    make_sound_case(number, c);
    for (uint32_t k = one_in(4) ? 1 + below(3) : 0; k > 0; k--)
        damage(c);
}
