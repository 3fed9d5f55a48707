/* The machine of document 01 with the basic timer, the hold and the undefined codes of document 02's No. 1, 2 and 7, stepped in place on the 666 bytes of its state. */
#include "peer.h"
#include <string.h>

enum { A, E, L, H, X, W, Z, Y };              /* Table 5-7 */
enum { PC = 640, SMB = 642, SRB, MODE, EFFECT, RELEASE, PINS = 647, CLOCK = 654, CURSOR = 658, TIMER = 662, HOLD = 664, IMAGE = 666 };
enum { HELD_CYCLES = 2048 };                  /* after a reset: 131,072 oscillator clocks at fx/64 */
#define AT(a) ((a) - 0xF80 + 512)             /* the state byte of an address of bank 15 */
enum { BMOD = AT(0xF85), BCNT = AT(0xF86), WDMOD = AT(0xF98), PCON = AT(0xFB3), INTB = AT(0xFB8) };

typedef struct {
    const uint8_t *code;                      /* the ROM, or the table where `entry` is 4 */
    unsigned n, entry;
    uint8_t *m;                               /* the state's bytes */
    const uint8_t *trace;
    size_t trace_len;
    uint64_t due;                             /* of the record at the cursor */
    uint8_t *log;
    size_t log_len, end;
    uint32_t pc, clock, cursor;
    uint32_t phase, overflows;                /* the timer: the divider's phase, the watchdog's count of BCNT overflows */
    uint32_t hold;                            /* cycles that a reset still holds the CPU */
    int noisy;                                /* a port's latch or mode was written, or a reset was made */
    uint8_t drives[5];                        /* the ports' driven values after the last step */
} M;

/* ---- chapter 4: Table 4-1 ------------------------------------------------------------------------------- */

typedef struct { uint16_t at; uint8_t bits, read, write, one, four, eight; } Loc;
#define R 1, 0
#define WR 0, 1
#define RW 1, 1
static const Loc map[] = {
    /* address, bits that exist, access, bits of 1-bit access, 4-bit, 8-bit */
    {0xF80, 14, RW, 0, 0, 1}, {0xF81, 15, RW, 0, 0, 1}, {0xF85, 15, WR, 8, 1, 0},
    {0xF86, 15, R, 0, 0, 1},  {0xF87, 15, R, 0, 0, 1},  {0xF88, 6, WR, 0, 0, 1},
    {0xF89, 11, WR, 0, 0, 1}, {0xF90, 12, WR, 8, 0, 1}, {0xF91, 7, WR, 0, 0, 1},
    {0xF92, 4, RW, 4, 1, 0},  {0xF94, 15, R, 0, 0, 1},  {0xF95, 15, R, 0, 0, 1},
    {0xF96, 15, WR, 0, 0, 1}, {0xF97, 15, WR, 0, 0, 1}, {0xF98, 15, WR, 0, 0, 1},
    {0xF99, 15, WR, 0, 0, 1}, {0xF9A, 8, WR, 8, 0, 0},  {0xFB0, 15, RW, 15, 1, 1},
    {0xFB1, 15, R, 0, 0, 1},  {0xFB2, 15, WR, 8, 1, 0}, {0xFB3, 3, WR, 0, 1, 0},
    {0xFB4, 11, WR, 0, 1, 0}, {0xFB5, 1, WR, 0, 1, 0},  {0xFB6, 7, WR, 0, 1, 0},
    {0xFB8, 3, RW, 3, 1, 0},  {0xFBA, 3, RW, 3, 1, 0},  {0xFBC, 3, RW, 3, 1, 0},
    {0xFBD, 3, RW, 3, 1, 0},  {0xFBE, 15, RW, 15, 1, 0},{0xFBF, 3, RW, 3, 1, 0},
    {0xFC0, 15, RW, 15, 1, 1},{0xFC1, 15, RW, 15, 1, 1},{0xFC2, 15, RW, 15, 1, 1},
    {0xFC3, 15, RW, 15, 1, 1},{0xFD0, 11, WR, 0, 1, 0}, {0xFD4, 15, R, 0, 1, 0},
    {0xFD6, 15, RW, 0, 0, 1}, {0xFD7, 14, RW, 0, 0, 1}, {0xFDA, 15, WR, 0, 0, 1},
    {0xFDB, 15, WR, 0, 0, 1}, {0xFDC, 11, WR, 0, 0, 1}, {0xFDD, 7, WR, 0, 0, 1},
    {0xFE0, 15, WR, 8, 0, 1}, {0xFE1, 14, WR, 0, 0, 1}, {0xFE2, 15, WR, 0, 1, 0},
    {0xFE4, 15, RW, 0, 0, 1}, {0xFE5, 15, RW, 0, 0, 1}, {0xFE8, 7, WR, 0, 0, 1},
    {0xFE9, 7, WR, 0, 0, 1},  {0xFEA, 15, WR, 0, 0, 1}, {0xFEB, 0, WR, 0, 0, 1},
    {0xFEC, 15, WR, 0, 0, 1}, {0xFED, 15, WR, 0, 0, 1}, {0xFF0, 7, RW, 7, 1, 0},
    {0xFF1, 3, R, 3, 1, 0},   {0xFF2, 15, R, 15, 1, 0}, {0xFF3, 7, RW, 7, 1, 0},
    {0xFF4, 15, RW, 15, 1, 1},{0xFF5, 15, RW, 15, 1, 1},{0xFF6, 15, RW, 15, 1, 0},
};
#undef R
#undef WR
#undef RW
/* masks by bank 15 offset: bits that a read gives, bits that a write stores and whether it may, for 1, 4 and 8 bits */
static struct { uint8_t r[3], w[3], may[3]; } rights[128];
static int ready;

static void prepare(void)
{
    for (size_t i = 0; i < sizeof map / sizeof *map; i++) {
        const Loc *l = &map[i];
        const uint8_t mask[3] = {l->one, (uint8_t)(l->four ? l->bits : 0), (uint8_t)(l->eight ? l->bits : 0)};
        const uint8_t may[3] = {l->one != 0, l->four, l->eight};
        for (int k = 0; k < 3; k++) {
            rights[l->at - 0xF80].r[k] = l->read ? mask[k] : 0;
            rights[l->at - 0xF80].w[k] = l->write ? mask[k] : 0;
            rights[l->at - 0xF80].may[k] = l->write && may[k];
        }
    }
    ready = 1;
}

/* ---- data memory and ports ------------------------------------------------------------------------------ */

static const uint8_t pinned[7] = {7, 3, 15, 7, 15, 15, 15};
static const uint16_t mode_at[7] = {AT(0xFE8), 0, 0, AT(0xFE9), AT(0xFEA), AT(0xFEC), AT(0xFED)};
static const uint8_t shown[5] = {0, 3, 4, 5, 6};

static unsigned output(const uint8_t *m, unsigned p) { return mode_at[p] ? m[mode_at[p]] & pinned[p] : 0; }
static unsigned driven(const uint8_t *m, unsigned p) { return m[AT(0xFF0) + p] & output(m, p); }

enum { ONE, FOUR, EIGHT };

static unsigned rd(const M *s, unsigned a, int width)
{
    if (a < 512) return s->m[a];
    if (a < 0xF80) return 0;
    if (a >= 0xFF0 && a <= 0xFF6) {
        unsigned p = a - 0xFF0, out = output(s->m, p);
        return ((s->m[AT(a)] & out) | (s->m[PINS + p] & ~out)) & rights[a - 0xF80].r[width] & pinned[p];
    }
    return s->m[AT(a)] & rights[a - 0xF80].r[width];
}

static void set_bcnt(M *s, unsigned v) { s->m[BCNT] = v & 15; s->m[BCNT + 1] = v >> 4 & 15; }

/* a 1 that a write leaves in BMOD.3 starts BCNT again, and does not stay; one in WDTCF clears the watchdog's count */
static void strobe(M *s, unsigned a)
{
    if (a == 0xF85 && s->m[BMOD] & 8) { s->m[BMOD] &= 7; set_bcnt(s, 0); s->m[INTB] &= 14; }
    if (a == 0xF9A && s->m[AT(a)] & 8) s->overflows = 0;
}

static void wr(M *s, unsigned a, int width, unsigned v)
{
    if (a < 512) { s->m[a] = v & 15; return; }
    if (a < 0xF80 || !rights[a - 0xF80].may[width]) return;
    s->m[AT(a)] = v & rights[a - 0xF80].w[width];
    if (a >= 0xFE8) s->noisy = 1;
    if (a < 0xFB0) strobe(s, a);
}

static unsigned rd_bit(const M *s, unsigned a, unsigned b) { return rd(s, a, ONE) >> b & 1; }

static void wr_bit(M *s, unsigned a, unsigned b, unsigned v)
{
    if (a < 512) { s->m[a] = (s->m[a] & ~(1u << b)) | v << b; return; }
    if (a < 0xF80 || !(rights[a - 0xF80].w[ONE] >> b & 1)) return;
    s->m[AT(a)] = (s->m[AT(a)] & ~(1u << b)) | v << b;
    if (a >= 0xFE8) s->noisy = 1;
    if (a < 0xFB0) strobe(s, a);
}

static unsigned rd8(const M *s, unsigned a) { a &= ~1u; return rd(s, a, EIGHT) | rd(s, a + 1, EIGHT) << 4; }
static void wr8(M *s, unsigned a, unsigned v) { a &= ~1u; wr(s, a, EIGHT, v & 15); wr(s, a + 1, EIGHT, v >> 4); }

#define FB0 s->m[AT(0xFB0)]
#define FB1 s->m[AT(0xFB1)]
static unsigned bank(const M *s) { return FB0 & 1 ? s->m[SRB] * 8 : 0; }
static unsigned carry(const M *s) { return FB1 >> 3 & 1; }
static void set_carry(M *s, unsigned c) { FB1 = (FB1 & 7) | c << 3; }
static unsigned direct(const M *s, unsigned da) { return FB0 & 2 ? s->m[SMB] * 256 + da : da < 128 ? da : 0xF00 + da; }
static unsigned indirect(const M *s, unsigned v) { return (FB0 & 2 ? s->m[SMB] * 256 : 0) + v; }

/* ---- codes ---------------------------------------------------------------------------------------------- */

/* length + 4 * cycles of a code, 0 if undefined */
static unsigned info(unsigned b0, unsigned b1)
{
    unsigned hi = b0 >> 4, lo = b0 & 15;
    switch (hi) {
    case 0: case 1: return lo ? 9 : 0;                                        /* JR #im */
    case 2: case 3: case 4: case 5: return lo < 8 ? 13 : 5;
    case 6: return lo < 8 ? 13 : lo == 8 ? 0 : 5;
    case 7:
        if (lo < 8) return 13;
        return lo == 9 ? 10 : lo == 10 || lo == 11 ? 9 : lo >= 13 ? 5 : 0;
    case 8:
        if (lo == 0) return 0;
        if (lo < 8) return lo & 1 ? 10 : 5;
        return lo == 8 || lo >= 13 ? 5 : lo == 9 || lo == 12 ? 10 : 9;
    case 9: return 10;
    case 10: case 11: return 5;
    }
    if (lo < 4) return 10;                                                    /* BITR, BITS, BTSF, BTST DA.b */
    switch (b0) {
    case 0xC4: case 0xD6: case 0xD7: case 0xE6: case 0xE7: return 5;
    case 0xC5: case 0xD5: case 0xE5: case 0xC8: case 0xCC: return 13;
    case 0xC9: case 0xCA: case 0xCD: case 0xCE: case 0xCF: return 10;
    case 0xE8: case 0xE9: case 0xEA: case 0xEB: case 0xEC: case 0xED: case 0xEE: case 0xEF: return 14;
    case 0xD9: return (b1 & 15) == 8 ? 0 : 10;
    case 0xDB: return b1 < 0x40 ? 15 : b1 < 0x80 ? 19 : 0;
    case 0xDC:
        if (b1 == 0 || b1 == 1 || b1 == 8 || b1 == 9) return 10;
        if (b1 & 1) return 0;
        switch (b1 >> 4) {
        case 1: case 2: case 3: case 9: case 10: case 11: case 12: case 14: return (b1 & 15) ? 10 : 0;
        case 13: return b1 & 8 ? 10 : 0;
        case 15: return b1 & 6 ? 10 : 0;
        }
        return 0;
    case 0xDD:
        if (b1 < 0x10) return b1 & 7 ? 10 : 0;
        if (b1 < 0x40) return 10;
        if (b1 < 0x50) return b1 == 0x40 || b1 == 0x41 || b1 == 0x4F ? 10 : 0;
        if (b1 < 0x60) return b1 < 0x54 ? 10 : 0;
        if (b1 < 0x68) return b1 == 0x60 || b1 == 0x64 ? 14 : b1 == 0x62 || b1 >= 0x66 ? 10 : 0;
        return b1 < 0x80 ? 10 : 0;
    case 0xF4: case 0xF5: case 0xF6: case 0xF7: case 0xF8: case 0xF9:
    case 0xFC: case 0xFD: case 0xFE: case 0xFF: return b1 >= 0x50 && b1 < 0x80 ? 0 : 10;
    }
    return 0;
}

typedef struct { unsigned b0, b1, b2, len, cycles; } Code;

/* where an undefined code stops: 17 with the register number 0, A or EA, in a row that has Ra or RRb; 18 with an SMB or SRB that is not printed; 9 else */
static uint32_t undefined(Code c)
{
    unsigned row = c.b1 >> 3, number = c.b1 & 7;                              /* of a second byte that ends with a register */
    switch (c.b0) {
    case 0x68: case 0x80: return 17;                                          /* XCH A,Ra; INCS RRb */
    case 0xD9: return 17;                                                     /* LD Ra,#im: CPSE R,#im takes every register */
    case 0xDC:
        if (number) return 9;
        switch (row) {
        case 0x02: case 0x04: case 0x06: return 17;                           /* AND, OR, XOR RRb,EA */
        case 0x12: case 0x14: case 0x16: case 0x18: return 17;                /* ADS, ADC, SBS, SBC RRb,EA */
        case 0x1C: case 0x1E: case 0x1F: return 17;                           /* XCH EA,RRb; LD RRb,EA; LD EA,RRb */
        }
        return 9;
    case 0xDD:
        if (row < 2) return 17;                                               /* LD Ra,A; LD A,Ra */
        return c.b1 >> 4 == 4 || c.b1 >> 4 == 5 ? 18 : 9;
    }
    return 9;
}

static Code fetch(const M *s, unsigned p)
{
    Code c;
    if (s->entry == 4) {
        const uint8_t *e = s->code + 4 * p;
        c.b0 = e[0]; c.b1 = e[1]; c.b2 = e[2]; c.len = e[3] & 3; c.cycles = e[3] >> 2;
    } else {
        c.b0 = s->code[p]; c.b1 = s->code[(p + 1) & (s->n - 1)]; c.b2 = s->code[(p + 2) & (s->n - 1)];
        unsigned i = info(c.b0, c.b1);
        c.len = i & 3; c.cycles = i >> 2;
    }
    return c;
}

/* ---- reset, records ------------------------------------------------------------------------------------- */

static void vector(M *s, unsigned at)
{
    unsigned b0 = s->code[s->entry * at], b1 = s->code[s->entry * (at + 1)];
    FB0 = (FB0 & 12) | b0 >> 7 << 1 | (b0 >> 6 & 1);
    s->pc = ((b0 & 15) << 8 | b1) & (s->n - 1);
}

static void reset(M *s)
{
    static const uint16_t zero[] = {
        0xF85, 0xF88, 0xF89, 0xF90, 0xF91, 0xF92, 0xF94, 0xF95, 0xF9A, 0xFB0, 0xFB2, 0xFB3, 0xFB4, 0xFB5, 0xFB6, 0xFB8,
        0xFBA, 0xFBC, 0xFBD, 0xFBE, 0xFBF, 0xFC0, 0xFC1, 0xFC2, 0xFC3, 0xFD0, 0xFD6, 0xFD7, 0xFDA, 0xFDB, 0xFDC, 0xFDD,
        0xFE0, 0xFE1, 0xFE2, 0xFE8, 0xFE9, 0xFEA, 0xFEB, 0xFEC, 0xFED, 0xFF0, 0xFF3, 0xFF4, 0xFF5, 0xFF6};
    for (size_t i = 0; i < sizeof zero / sizeof *zero; i++) s->m[AT(zero[i])] = 0;
    memset(s->m + 0xF8, 0, 6);
    s->m[AT(0xF96)] = s->m[AT(0xF97)] = 15;
    s->m[AT(0xF98)] = 5;
    s->m[AT(0xF99)] = 10;
    FB1 &= 8;
    s->m[SMB] = s->m[SRB] = s->m[MODE] = s->m[EFFECT] = s->m[RELEASE] = 0;
    s->phase = s->overflows = 0;
    s->hold = HELD_CYCLES;
    vector(s, 0);
    s->noisy = 1;
}

/* the length of a record at the start of t, 0 if malformed */
static size_t record(const uint8_t *t, size_t n, unsigned *wait)
{
    *wait = 0;
    if (n < 2 || t[1] > 1 || (t[0] | t[1]) == 0) return 0;
    size_t at = 2;
    if (t[1]) {
        if (n < 4) return 0;
        *wait = t[2] | t[3] << 8;
        if (*wait == 0) return 0;
        at = 4;
    }
    for (int p = 0; p < 7; p++)
        if (t[0] >> p & 1) {
            if (at >= n || t[at] & ~pinned[p]) return 0;
            at++;
        }
    return at;
}

#define NEVER 0x100000000u
static uint64_t due_of(const M *s, uint64_t passed)
{
    unsigned wait;
    if (s->cursor == s->trace_len) return NEVER;
    record(s->trace + s->cursor, s->trace_len - s->cursor, &wait);
    return passed + wait;
}

static void apply(M *s)
{
    unsigned wait;
    const uint8_t *t = s->trace + s->cursor;
    size_t n = record(t, s->trace_len - s->cursor, &wait), at = t[1] ? 4 : 2;
    uint8_t old[7];
    memcpy(old, s->m + PINS, 7);
    for (int p = 0; p < 7; p++)
        if (t[0] >> p & 1) s->m[PINS + p] = t[at++];
    const uint8_t *now = s->m + PINS;
    unsigned up1 = now[1] & ~old[1], down1 = old[1] & ~now[1];
    unsigned mode0 = s->m[AT(0xFB4)] & 3, mode1 = s->m[AT(0xFB5)] & 1;
    if ((mode0 == 0 && up1 & 1) || (mode0 == 1 && down1 & 1) || (mode0 == 2 && (up1 | down1) & 1)) s->m[AT(0xFBE)] |= 1;
    if ((mode1 ? down1 : up1) & 2) s->m[AT(0xFBE)] |= 4;
    if (old[6] & ~now[6] & s->m[AT(0xFB6)] & 7) s->m[AT(0xFBF)] |= 1;
    if (t[0] & 128) reset(s);
    s->cursor += n;
    s->due = due_of(s, s->due);
}

/* ---- interrupts ----------------------------------------------------------------------------------------- */

/* INTB, INT0, INT1, INTS, INTT0, then INTW, INTK: the location and IRQ's bit; IE's is the next */
static const struct { uint16_t at; uint8_t bit; } source[7] = {
    {AT(0xFB8), 0}, {AT(0xFBE), 0}, {AT(0xFBE), 2}, {AT(0xFBD), 0}, {AT(0xFBC), 0}, {AT(0xFBA), 0}, {AT(0xFBF), 0}};
static int asks(const M *s, int k) { return (s->m[source[k].at] >> source[k].bit & 3) == 3; }

/* the source that is served, -1 if none */
static int served(const M *s)
{
    unsigned is = FB0 >> 2, ipr = s->m[AT(0xFB2)];
    if (!(ipr & 8) || is > 1) return -1;
    int named = (int)(ipr & 7) - 1;
    if (named >= 0 && named < 5 && asks(s, named)) return named;
    if (is == 1) return -1;
    for (int k = 0; k < 5; k++) if (asks(s, k)) return k;
    return -1;
}

static unsigned sp(const M *s) { return s->m[512] | s->m[513] << 4; }
static void set_sp(M *s, unsigned v) { s->m[512] = v & 14; s->m[513] = v >> 4 & 15; }

static void push6(M *s, unsigned high, unsigned pc, unsigned psw0, unsigned psw1)
{
    unsigned p = sp(s) - 6;
    const uint8_t v[6] = {high & 15, 0, pc & 15, pc >> 4 & 15, psw0, psw1};
    for (int i = 0; i < 6; i++) s->m[(p + i) & 255] = v[i];
    set_sp(s, p);
}

static unsigned pop_pc(M *s)
{
    unsigned p = sp(s);
#define ST(k) s->m[(p + (k)) & 255]
    return ((ST(1) & 3) << 12 | ST(0) << 8 | ST(3) << 4 | ST(2)) & (s->n - 1);
}

/* ---- one instruction ------------------------------------------------------------------------------------ */

enum { NO_SKIP, SKIP, SKIP_ADS };
typedef struct { int skip; unsigned effect, next; } Done;

#define r(k) s->m[bank(s) + (k)]
static unsigned pair(const M *s, unsigned k) { return r(k) | r(k + 1) << 4; }
static void set_pair(M *s, unsigned k, unsigned v) { unsigned b = bank(s); s->m[b + k] = v & 15; s->m[b + k + 1] = v >> 4 & 15; }
static unsigned hl(const M *s) { return indirect(s, pair(s, L)); }
static unsigned pointed(const M *s, unsigned i) { return i == 5 ? hl(s) : i == 6 ? pair(s, X) : (unsigned)(r(W) << 4 | r(L)); }

static void place(const M *s, unsigned b1, unsigned *a, unsigned *b)
{
    if (b1 & 128) { *a = (b1 & 64 ? 0xFF0 : 0xFB0) + (b1 & 15); *b = b1 >> 4 & 3; }
    else if (b1 & 64) { *a = 0xFC0 + (b1 & 15) * 4 + (r(L) >> 2); *b = r(L) & 3; }
    else { *a = indirect(s, r(H) << 4 | (b1 & 15)); *b = b1 >> 4 & 3; }
}

static int bit_code(M *s, unsigned b0, unsigned a, unsigned b)
{
    unsigned v;
    switch (b0) {
    case 0xF4: set_carry(s, rd_bit(s, a, b)); break;
    case 0xF5: set_carry(s, carry(s) & rd_bit(s, a, b)); break;
    case 0xF6: set_carry(s, carry(s) | rd_bit(s, a, b)); break;
    case 0xF7: set_carry(s, carry(s) ^ rd_bit(s, a, b)); break;
    case 0xF8: return !rd_bit(s, a, b);
    case 0xF9: return rd_bit(s, a, b);
    case 0xFC: wr_bit(s, a, b, carry(s)); break;
    case 0xFD: v = rd_bit(s, a, b); if (v) wr_bit(s, a, b, 0); return v;
    case 0xFE: wr_bit(s, a, b, 0); break;
    case 0xFF: wr_bit(s, a, b, 1); break;
    }
    return 0;
}

/* an 8-bit sum or difference: the second byte's high nibble names it */
static int wide(M *s, unsigned op, unsigned to, unsigned from)
{
    unsigned x = pair(s, to), y = pair(s, from), c = carry(s), v;
    switch (op) {
    case 1: set_pair(s, to, x & y); return 0;
    case 2: set_pair(s, to, x | y); return 0;
    case 3: set_pair(s, to, x ^ y); return 0;
    case 9: v = x + y; set_pair(s, to, v); return v > 255;
    case 10: v = x + y + c; set_pair(s, to, v); set_carry(s, v > 255); return 0;
    case 11: v = x - y; set_pair(s, to, v); return x < y;
    default: v = x - y - c; set_pair(s, to, v); set_carry(s, x < y + c); return 0;
    }
}

static int dc(M *s, unsigned b1)
{
    unsigned a = hl(s) & ~1u, v, k = b1 & 6, t;
    switch (b1) {
    case 0x00: wr8(s, a, pair(s, A)); return 0;
    case 0x01: v = rd8(s, a); t = pair(s, A); set_pair(s, A, v); wr8(s, a, t); return 0;
    case 0x08: set_pair(s, A, rd8(s, a)); return 0;
    case 0x09: return pair(s, A) == rd8(s, a);
    }
    switch (b1 >> 4) {
    case 13: v = pair(s, k); set_pair(s, k, v - 1); return v == 0;
    case 14:
        if (b1 & 8) return pair(s, A) == pair(s, k);
        v = pair(s, A); set_pair(s, A, pair(s, k)); set_pair(s, k, v); return 0;
    case 15: if (b1 & 8) set_pair(s, A, pair(s, k)); else set_pair(s, k, pair(s, A)); return 0;
    }
    return b1 & 8 ? wide(s, b1 >> 4, A, k) : wide(s, b1 >> 4, k, A);
}

static int dd(M *s, unsigned b1, Done *d)
{
    unsigned k = b1 & 7, d4 = b1 & 15, a, v, p;
    switch (b1 >> 4) {
    case 0: if (b1 & 8) r(A) = r(k); else r(k) = r(A); return 0;
    case 1: r(A) &= d4; return 0;
    case 2: r(A) |= d4; return 0;
    case 3: if (d4 == 15) r(A) = 15 - r(A); else r(A) ^= d4; return 0;
    case 4: s->m[SMB] = d4; return 0;
    case 5: s->m[SRB] = d4; return 0;
    case 7: return rd(s, hl(s), FOUR) == d4;
    }
    if (b1 & 8) return r(A) == r(k);
    switch (k) {
    case 0: d->next = (d->next & 0xF00) | pair(s, A); return 0;
    case 4: d->next = (d->next & 0xF00) | pair(s, X); return 0;
    case 2: a = hl(s); v = rd(s, a, FOUR); wr(s, a, FOUR, (v + 1) & 15); return v == 15;
    case 6: p = sp(s); s->m[SRB] = ST(0) & 3; s->m[SMB] = ST(1); set_sp(s, p + 2); return 0;
    default: p = sp(s) - 2; s->m[p & 255] = s->m[SRB]; s->m[(p + 1) & 255] = s->m[SMB]; set_sp(s, p); return 0;
    }
}

static int step_l(M *s, unsigned at, int by) { unsigned v = s->m[at] + by; s->m[at] = v & 15; return v > 15; }

static unsigned code_byte(const M *s, unsigned p) { return s->code[s->entry * (p & (s->n - 1))]; }

/* PUSH and POP of a pair */
static void stack_code(M *s, unsigned b0)
{
    unsigned p = sp(s), k = b0 & 6, v;
    if (b0 & 1) { v = pair(s, k); p -= 2; s->m[p & 255] = v & 15; s->m[(p + 1) & 255] = v >> 4; set_sp(s, p); }
    else { v = ST(0) | ST(1) << 4; set_pair(s, k, v); set_sp(s, p + 2); }
}

/* A with @HL */
static Done memory_code(M *s, unsigned b0, Done d)
{
    unsigned v = rd(s, hl(s), FOUR), x = r(A);
    switch (b0) {
    case 0x38: d.skip = x == v; break;
    case 0x39: r(A) = x & v; break;
    case 0x3A: r(A) = x | v; break;
    case 0x3B: r(A) = x ^ v; break;
    case 0x3C: v += carry(s); r(A) = (x - v) & 15; set_carry(s, x < v); d.effect = 3; if (x >= v) d.skip = SKIP_ADS; break;
    case 0x3D: r(A) = (x - v) & 15; d.skip = x < v; break;
    case 0x3E: v += x + carry(s); r(A) = v & 15; set_carry(s, v > 15); d.effect = 3; if (v > 15) d.skip = SKIP_ADS; break;
    case 0x3F: v += x; r(A) = v & 15; d.skip = v > 15; break;
    }
    return d;
}

static Done exchange_code(M *s, Code c, Done d)
{
    unsigned at_l = bank(s) + L, a, v, x = r(A);
    if (c.b0 == 0x79) a = direct(s, c.b1); else a = c.b0 < 0x7D ? hl(s) : pointed(s, c.b0 & 7);
    v = rd(s, a, FOUR); r(A) = v; wr(s, a, FOUR, x);
    if (c.b0 == 0x7A) d.skip = step_l(s, at_l, 1);
    if (c.b0 == 0x7B) d.skip = step_l(s, at_l, -1);
    return d;
}

/* LD of a pair, where LD EA and LD HL make groups; INCS of a pair */
static Done pair_code(M *s, Code c, Done d, unsigned e)
{
    unsigned k = c.b0 & 6, v, group = k == A ? 1 : k == L ? 2 : 0;
    if (c.b0 & 1) {
        if (!group || group != e) set_pair(s, k, c.b1);
        d.effect = group;
    } else { v = pair(s, k); set_pair(s, k, v + 1); d.skip = v == 255; }
    return d;
}

static Done load_code(M *s, Code c, Done d)
{
    unsigned at_l = bank(s) + L, v;
    switch (c.b0 & 15) {
    case 8: v = r(A); r(A) = v >> 1 | carry(s) << 3; set_carry(s, v & 1); break;
    case 9: wr(s, direct(s, c.b1), FOUR, r(A)); break;
    case 10: r(A) = rd(s, hl(s), FOUR); d.skip = step_l(s, at_l, 1); break;
    case 11: r(A) = rd(s, hl(s), FOUR); d.skip = step_l(s, at_l, -1); break;
    case 12: r(A) = rd(s, direct(s, c.b1), FOUR); break;
    default: r(A) = rd(s, pointed(s, c.b0 & 7), FOUR); break;
    }
    return d;
}

/* BITR, BITS, BTSF and BTST of DA.b */
static Done direct_bit_code(M *s, Code c, Done d)
{
    unsigned lo = c.b0 & 15, a = direct(s, c.b1), b = c.b0 >> 4 & 3;
    if (lo == 0) wr_bit(s, a, b, 0);
    else if (lo == 1) wr_bit(s, a, b, 1);
    else d.skip = rd_bit(s, a, b) == (lo == 3);
    return d;
}

/* C4H to CFH: stores, RET, LDC, sums and loads of EA */
static Done store_code(M *s, Code c, Done d)
{
    unsigned b0 = c.b0, b1 = c.b1, v, a, x;
    switch (b0) {
    case 0xC4: wr(s, hl(s), FOUR, r(A)); break;
    case 0xC8: v = code_byte(s, (d.next & 0xF00) | pair(s, A)); set_pair(s, A, v); break;
    case 0xCC: v = code_byte(s, (d.next & 0xF00) | pair(s, X)); set_pair(s, A, v); break;
    case 0xC9: v = pair(s, A) + b1; set_pair(s, A, v); d.skip = v > 255; break;
    case 0xCA: a = direct(s, b1); v = rd(s, a, FOUR); wr(s, a, FOUR, (v + 1) & 15); d.skip = v == 15; break;
    case 0xCD: wr8(s, direct(s, b1), pair(s, A)); break;
    case 0xCE: set_pair(s, A, rd8(s, direct(s, b1))); break;
    case 0xCF: a = direct(s, b1); v = rd8(s, a); x = pair(s, A); set_pair(s, A, v); wr8(s, a, x); break;
    }
    return d;
}

/* RET, SRET and IRET */
static Done return_code(M *s, unsigned b0, Done d)
{
    unsigned p = sp(s);
    d.next = pop_pc(s);
    if (b0 == 0xD5) { FB0 = ST(4); FB1 = ST(5); } else FB0 = (FB0 & 12) | (ST(4) & 3);
    set_sp(s, p + 6);
    d.skip = b0 == 0xE5;
    return d;
}

/* EI, DI, IDLE, STOP; else a bit that the second byte names */
static Done named_bit_code(M *s, Code c, Done d)
{
    unsigned a, b;
    if (c.b0 == 0xFF && c.b1 == 0xB2) s->m[AT(0xFB2)] |= 8;
    else if (c.b0 == 0xFE && c.b1 == 0xB2) s->m[AT(0xFB2)] &= 7;
    else if (c.b0 == 0xFF && c.b1 == 0xA3) s->m[MODE] = 1;
    else if (c.b0 == 0xFF && c.b1 == 0xB3) { s->m[MODE] = 2; s->overflows = 0; }
    else { place(s, c.b1, &a, &b); d.skip = bit_code(s, c.b0, a, b); }
    return d;
}

/* C4H and what follows it, but for the bits of DA */
static Done upper_code(M *s, Code c, Done d)
{
    unsigned b0 = c.b0, b1 = c.b1;
    switch (b0) {
    case 0xC5: case 0xE5: case 0xD5: return return_code(s, b0, d);
    case 0xD6: set_carry(s, !carry(s)); return d;
    case 0xD7: d.skip = carry(s); return d;
    case 0xD9: if (b1 & 8) r(b1 & 7) = b1 >> 4; else d.skip = r(b1 & 7) == b1 >> 4; return d;
    case 0xDB:
        if (b1 & 64) push6(s, d.next >> 8, d.next, FB0 & 3, 0);
        d.next = (b1 & 63) << 8 | c.b2;
        return d;
    case 0xDC: d.skip = dc(s, b1); return d;
    case 0xDD: d.skip = dd(s, b1, &d); return d;
    case 0xE6: set_carry(s, 0); return d;
    case 0xE7: set_carry(s, 1); return d;
    }
    if (b0 < 0xD0) return store_code(s, c, d);
    if (b0 >= 0xF0) return named_bit_code(s, c, d);
    push6(s, d.next >> 8 & 7, d.next, FB0 & 3, 0);                            /* CALLS */
    d.next = (b0 & 7) << 8 | b1;
    return d;
}

/* the instruction c, whose following address is d.next; the carried effect e is what it meets */
static Done run_code(M *s, Code c, Done d, unsigned e)
{
    unsigned b0 = c.b0, k = b0 & 7, lo = b0 & 15, v;
    d.skip = NO_SKIP; d.effect = 0;
    switch (b0 >> 4) {
    case 0: d.next = s->pc - lo; return d;
    case 1: d.next = s->pc + 1 + lo; return d;
    case 2: stack_code(s, b0); return d;
    case 3: return memory_code(s, b0, d);
    case 4: v = r(k); r(k) = (v - 1) & 15; d.skip = v == 0; return d;
    case 5: v = r(k); r(k) = (v + 1) & 15; d.skip = v == 15; return d;
    case 6: v = r(k); r(k) = r(A); r(A) = v; return d;
    case 7: return exchange_code(s, c, d);
    case 8: return lo < 8 ? pair_code(s, c, d, e) : load_code(s, c, d);
    case 9: d.next = lo << 8 | c.b1; return d;
    case 10:
        if (lo == 0) return d;
        v = r(A) + lo; r(A) = v & 15; d.skip = v > 15 && e != 3;
        return d;
    case 11: if (e != 1) r(A) = lo; d.effect = 1; return d;
    }
    return lo < 4 ? direct_bit_code(s, c, d) : upper_code(s, c, d);
}

/* what may follow the first code of a pair: Table 5-1 */
static int pairs(unsigned b0, unsigned b1)
{
    switch (b0) {
    case 0x8D: case 0xC4: return b1 == 0x5A || b1 == 0x4A || b1 == 0x5B || b1 == 0x4B || b1 == 0x82;
    case 0x8E: return b1 == 0x5C || b1 == 0x4C || b1 == 0x5D || b1 == 0x4D || b1 == 0x84;
    case 0x8F: return b1 == 0x5A || b1 == 0x4A || b1 == 0x5D || b1 == 0x4D;
    }
    return 0;
}

/* the code that a REF names; 0 if it names nothing */
static int refer(M *s, unsigned b, Done *d)
{
    Code c = fetch(s, (b & 0xF0) | (b & 7) << 1);
    unsigned t = (c.b0 & 63) << 8 | c.b1;
    d->effect = 0; d->skip = NO_SKIP;
    if (c.b0 < 0x40) { d->next = t; return 1; }
    if (c.b0 < 0x80) { push6(s, d->next >> 8, d->next, FB0 & 3, 0); d->next = t; return 1; }
    if (pairs(c.b0, c.b1)) {
        Code second = {c.b1, 0, 0, 1, 1};
        run_code(s, c, *d, 0);
        *d = run_code(s, second, *d, 0);
        return 1;
    }
    if (c.len != 2 || c.cycles != 2) return 0;
    *d = run_code(s, c, *d, 0);
    return 1;
}

/* ---- one step ------------------------------------------------------------------------------------------- */

/* what takes the place of rules 2 to 4 while a reset holds the CPU: a cycle passes */
static uint32_t held(M *s, unsigned *cycles)
{
    s->hold--;
    *cycles = 1;
    return 0;
}

/* rules 2 to 4 */
static uint32_t inner(M *s, unsigned *cycles, uint32_t *address)
{
    *address = 0;
    if (s->m[MODE]) {
        static const uint8_t wakes[6] = {0, 2, 3, 4, 5, 6};
        int any = 0, vectored = 0;
        for (int i = 0; i < 6; i++) if (asks(s, wakes[i])) { any = 1; vectored |= wakes[i] < 5; }
        if (any) {
            s->m[MODE] = 0;
            if (vectored && s->m[AT(0xFB2)] & 8) s->m[RELEASE] = 2;
        }
        *cycles = 1;
        return 0;
    }
    int k = s->m[RELEASE] ? -1 : served(s);
    if (k >= 0) {
        unsigned is = FB0 >> 2;
        push6(s, s->pc >> 8, s->pc, FB0, FB1);
        FB0 = (FB0 & 3) | (is + 1) << 2;
        vector(s, 2 + 2 * k);
        s->m[source[k].at] &= ~(1u << source[k].bit);
        s->m[EFFECT] = 0;
        *cycles = 2;
        return 0;
    }
    Code c = fetch(s, s->pc);
    if (!c.len) { *address = s->pc; return undefined(c); }
    Done d = {NO_SKIP, 0, (s->pc + c.len) & (s->n - 1)};
    if (c.len == 1 && c.cycles == 3 && c.b0 < 0x80) {
        if (!refer(s, c.b0, &d)) { *address = s->pc; return 10; }
    } else
        d = run_code(s, c, d, s->m[EFFECT]);
    d.next &= s->n - 1;
    *cycles = c.cycles;
    if (d.skip) {
        Code over = fetch(s, d.next);
        if (d.skip == SKIP) {
            if (!over.len) { *address = d.next; return undefined(over); }
            d.next = (d.next + over.len) & (s->n - 1);
            *cycles += over.len == 3 ? 2 : 1;
        } else if (over.b0 > 0xA0 && over.b0 < 0xB0) {
            d.next = (d.next + 1) & (s->n - 1);
            *cycles += 1;
            d.effect = 0;
        }
    }
    s->m[EFFECT] = d.effect;
    s->pc = d.next;
    if (s->m[RELEASE]) s->m[RELEASE]--;
    return 0;
}

/* the ports' changes since the step before, written to the log; 0 if they do not fit */
static int note(M *s, uint32_t clock)
{
    size_t need = 0;
    for (int i = 0; i < 5; i++) need += 6 * (driven(s->m, shown[i]) != s->drives[i]);
    if (need > s->log_len - s->end) return 0;
    for (int i = 0; i < 5; i++) {
        unsigned v = driven(s->m, shown[i]);
        if (v == s->drives[i]) continue;
        uint8_t *l = s->log + s->end;
        l[0] = clock; l[1] = clock >> 8; l[2] = clock >> 16; l[3] = clock >> 24; l[4] = shown[i]; l[5] = v;
        s->drives[i] = v;
        s->end += 6;
    }
    return 1;
}

/* ---- the basic timer: chapter 11 ------------------------------------------------------------------------ */

/* oscillator clocks of a cycle, by PCON.1-0 (Table 6-1; 01, which it lacks, is 64); none in stop mode */
static unsigned rate(const M *s)
{
    static const uint8_t by_pcon[4] = {64, 64, 8, 4};
    return s->m[MODE] == 2 ? 0 : by_pcon[s->m[PCON] & 3];
}

/* BCNT counts where the selected tap's bits of the phase come to 0. A step counts 10 times at most, so BCNT goes from FFH to 00H once at most. From 7
 * the watchdog's count overflows, which is a reset; the clocks behind it are dropped, so BCNT stays at 00H and the phase at 0. */
static void pass(M *s, unsigned clocks)
{
    static const uint8_t by_bmod[8] = {12, 12, 12, 9, 12, 7, 12, 5};
    unsigned tap = by_bmod[s->m[BMOD] & 7], from = s->phase, to = from + clocks, counts = (to >> tap) - (from >> tap);
    s->phase = to & 4095;
    if (!counts) return;
    unsigned bcnt = (s->m[BCNT] | s->m[BCNT + 1] << 4) + counts;
    set_bcnt(s, bcnt);
    if (bcnt < 256) return;
    s->m[INTB] |= 1;
    if (s->m[WDMOD] == 10 && s->m[WDMOD + 1] == 5) return;
    if (s->overflows < 7) { s->overflows++; return; }
    set_bcnt(s, 0);
    reset(s);
}

/* One step in place. Where it stops, the state may be written half: `steps` goes back to where it last kept it. */
static uint32_t step(M *s, uint32_t *address)
{
    unsigned cycles = 0;
    s->noisy = 0;
    while (s->due <= s->clock) apply(s);
    unsigned per_cycle = rate(s);
    uint32_t stop = s->hold ? held(s, &cycles) : inner(s, &cycles, address);
    if (stop) return stop;
    if (cycles > 0xFFFFFFFFu - s->clock) { *address = 0; return 11; }
    pass(s, cycles * per_cycle);
    if (s->noisy && !note(s, s->clock + cycles)) { *address = 0; return 12; }
    s->clock += cycles;
    return 0;
}

/* At most `budget` steps. The state is kept at the start of each block of steps; after a stop the block is made again up to the step
 * before it, which leaves the state as it was after the last whole step. */
static uint32_t steps(M *s, uint32_t budget, uint32_t *made, uint32_t *address)
{
    enum { BLOCK = 4096 };
    uint8_t kept[IMAGE];
    *made = 0;
    while (*made < budget) {
        M was = *s;
        memcpy(kept, s->m, IMAGE);
        uint32_t n = budget - *made < BLOCK ? budget - *made : BLOCK, i = 0, stop = 0, at;
        while (i < n && !(stop = step(s, address))) i++;
        if (stop) {
            memcpy(s->m, kept, IMAGE);
            *s = was;
            for (uint32_t k = 0; k < i; k++) step(s, &at);
        }
        *made += i;
        if (stop) return stop;
    }
    return 0;
}

/* ---- calls ---------------------------------------------------------------------------------------------- */

static int rom_fits(size_t n) { return n == 2048 || n == 4096; }
static uint32_t le16(const uint8_t *p) { return p[0] | p[1] << 8; }
static uint32_t le32(const uint8_t *p) { return le16(p) | le16(p + 2) << 16; }
static void put16(uint8_t *p, uint32_t v) { p[0] = v; p[1] = v >> 8; }
static void put32(uint8_t *p, uint32_t v) { put16(p, v); put16(p + 2, v >> 16); }

/* what a run keeps beside the state's bytes, put into them */
static void put_scalars(const M *s)
{
    put16(s->m + PC, s->pc);
    put32(s->m + CLOCK, s->clock);
    put32(s->m + CURSOR, s->cursor);
    put16(s->m + TIMER, s->phase | s->overflows << 12);
    put16(s->m + HOLD, s->hold);
}

static void entry_of(const uint8_t *rom, size_t n, size_t p, uint8_t *e)
{
    for (int k = 0; k < 3; k++) e[k] = rom[(p + k) % n];
    e[3] = info(e[0], e[1]);
}

uint32_t peer_predecode(const uint8_t *rom, size_t rom_len, uint8_t *table, size_t table_len)
{
    if (!rom_fits(rom_len)) return 1;
    if (table_len != 4 * rom_len) return 2;
    for (size_t p = 0; p < rom_len; p++) entry_of(rom, rom_len, p, table + 4 * p);
    return 0;
}

uint32_t peer_fresh(const uint8_t *rom, size_t rom_len, uint8_t *state, size_t state_len)
{
    M s = {.code = rom, .n = (unsigned)rom_len, .entry = 1, .m = state};
    if (!rom_fits(rom_len)) return 1;
    if (state_len != IMAGE) return 3;
    memset(state, 0, IMAGE);
    reset(&s);
    put_scalars(&s);
    return 0;
}

/* the first offending offset, IMAGE if none */
static uint32_t field(const uint8_t *m, size_t n)
{
    for (uint32_t i = 0; i < 640; i++) if (m[i] > 15 || (i == 512 && m[i] & 1)) return i;
    if (le16(m + PC) >= n) return PC;
    static const uint8_t most[5] = {15, 3, 2, 3, 2};
    for (uint32_t i = 0; i < 5; i++) if (m[SMB + i] > most[i]) return SMB + i;
    for (uint32_t i = 0; i < 7; i++) if (m[PINS + i] & ~pinned[i]) return PINS + i;
    if (m[TIMER + 1] & 128) return TIMER;
    if (le16(m + HOLD) > HELD_CYCLES) return HOLD;
    return IMAGE;
}

static struct peer_answer run(const uint8_t *rom, size_t n, const uint8_t *table, size_t table_len, int by_table, uint8_t *state,
                              size_t state_len, const uint8_t *trace, size_t trace_len, uint8_t *log, size_t log_len,
                              size_t log_start, uint32_t budget)
{
    struct peer_answer no = {0, 0, 0, log_start};
#define REFUSE(k, a) do { no.number = (k); no.address = (uint32_t)(a); return no; } while (0)
    if (!ready) prepare();
    if (!rom_fits(n)) REFUSE(1, 0);
    if (by_table && table_len != 4 * n) REFUSE(2, 0);
    if (state_len != IMAGE) REFUSE(3, 0);
    uint32_t bad = field(state, n);
    if (bad < IMAGE) REFUSE(4, bad);
    if (by_table)
        for (size_t p = 0; p < n; p++) {
            uint8_t e[4];
            entry_of(rom, n, p, e);
            for (int k = 0; k < 4; k++) if (table[4 * p + k] != e[k]) REFUSE(5, 4 * p + k);
        }
    if (trace_len > 65536) REFUSE(6, 65536);
    uint32_t cursor = le32(state + CURSOR);
    uint64_t sum = 0, due = NEVER;
    int found = cursor == trace_len;
    for (size_t at = 0; at < trace_len;) {
        unsigned wait;
        size_t len = record(trace + at, trace_len - at, &wait);
        if (!len) REFUSE(6, at);
        sum += wait;
        if (at == cursor) { found = 1; due = sum; }
        at += len;
    }
    if (!found) REFUSE(7, 0);
    if (log_start > log_len) REFUSE(8, 0);
    M s = {.code = by_table ? table : rom, .n = (unsigned)n, .entry = by_table ? 4 : 1, .m = state, .trace = trace,
           .trace_len = trace_len, .due = due, .log = log, .log_len = log_len, .end = log_start,
           .pc = le16(state + PC), .clock = le32(state + CLOCK), .cursor = cursor, .phase = le16(state + TIMER) & 4095,
           .overflows = le16(state + TIMER) >> 12, .hold = le16(state + HOLD)};
    struct peer_answer a = {0, 0, 0, 0};
    for (int i = 0; i < 5; i++) s.drives[i] = driven(state, shown[i]);
    a.number = steps(&s, budget, &a.steps, &a.address);
    put_scalars(&s);
    a.log_end = s.end;
    return a;
}

struct peer_answer peer_plain_run(const uint8_t *rom, size_t rom_len, uint8_t *state, size_t state_len, const uint8_t *trace,
                                  size_t trace_len, uint8_t *log, size_t log_len, size_t log_start, uint32_t budget)
{
    return run(rom, rom_len, NULL, 0, 0, state, state_len, trace, trace_len, log, log_len, log_start, budget);
}

struct peer_answer peer_table_run(const uint8_t *rom, size_t rom_len, const uint8_t *table, size_t table_len, uint8_t *state,
                                  size_t state_len, const uint8_t *trace, size_t trace_len, uint8_t *log, size_t log_len,
                                  size_t log_start, uint32_t budget)
{
    return run(rom, rom_len, table, table_len, 1, state, state_len, trace, trace_len, log, log_len, log_start, budget);
}
