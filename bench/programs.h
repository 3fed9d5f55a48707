/* The programs that the benchmarks run, each from 0100H on, with the ROM, table and trace that they make, and the clock. */
#ifndef PROGRAMS_H
#define PROGRAMS_H
#include "sam47.h"

#include <stdlib.h>
#include <string.h>
#include <time.h>

enum { ROM_BYTES = 2048, TRACE_BYTES = 65535 };

static uint8_t rom[ROM_BYTES], table[4 * ROM_BYTES], trace[TRACE_BYTES];
static size_t trace_len;

/* at 01C0H, where a reset goes: LD A,#3; LD PCON,A (fx/4); LD EA,#5AH; LD WDMOD,EA (no watchdog); JPS 0100H. The basic timer counts fx/2^12. */
static const uint8_t begins[] = {0xB3, 0x89, 0xB3, 0x81, 0x5A, 0xCD, 0x98, 0x91, 0x00};

/* INCS L; NOP; JR back to the INCS */
static const uint8_t busy[] = {0x5A, 0xA0, 0x02};

/* CALL 0140H; LD HL,#30H; LD A,@HL; ADC A,@HL; ADS A,#6; LD @HL,A; LD L,#0; LDI A,@HL; BITS and BITR of P4.0, an input; JPS 0100H */
static const uint8_t mixed[] = {0xDB, 0x41, 0x40, 0x83, 0x30, 0x8D, 0x3E, 0xA6, 0xC4, 0xD9, 0x0A, 0x8A, 0xFF, 0xC4, 0xFE, 0xC4, 0x91, 0x00};

/* at 0140H: PUSH EA; LD EA,#55H; POP EA; RET */
static const uint8_t called[] = {0x29, 0x81, 0x55, 0x28, 0xC5};

/* SMB 15; LD EA,#0FH; LD 0EAH,EA (P4 is an output); BITS IE1; EI; then INCS L; NOP; JR back to the INCS */
static const uint8_t listening[] = {0xDD, 0x4F, 0x81, 0x0F, 0xCD, 0xEA, 0xFF, 0xBE, 0xFF, 0xB2, 0x5A, 0xA0, 0x02};

/* the same start, then IDLE; NOP; NOP; JR back to the IDLE */
static const uint8_t sleeping[] = {0xDD, 0x4F, 0x81, 0x0F, 0xCD, 0xEA, 0xFF, 0xBE, 0xFF, 0xB2, 0xFF, 0xA3, 0xA0, 0xA0, 0x04};

/* LD A,#0; LD PCON,A (fx/64); LD A,#7; LD BMOD,A (fx/2^5), and then the same: BCNT counts twice a cycle */
static const uint8_t sleeping_fast[] = {0xB0, 0x89, 0xB3, 0xB7, 0x89, 0x85, 0xDD, 0x4F, 0x81, 0x0F, 0xCD,
                                        0xEA, 0xFF, 0xBE, 0xFF, 0xB2, 0xFF, 0xA3, 0xA0, 0xA0, 0x04};

/* LD A,#0FH; LD BMOD,A (fx/2^5); LD EA,#0FH; LD 0EAH,EA; BITS IEB; EI; IDLE; NOP; NOP; JR back to the IDLE: a display timed by INTB, every 2,048 cycles */
static const uint8_t showing[] = {0xBF, 0x89, 0x85, 0x81, 0x0F, 0xCD, 0xEA, 0xFF, 0x98, 0xFF, 0xB2, 0xFF, 0xA3, 0xA0, 0xA0, 0x04};

/* at 0180H, the interrupt of INT1 and of INTB: BITS P4.0; BITR P4.0; IRET */
static const uint8_t served[] = {0xFF, 0xC4, 0xFE, 0xC4, 0xD5};

static double seconds(void)
{
    struct timespec t;
    clock_gettime(CLOCK_MONOTONIC, &t);
    return (double)t.tv_sec + (double)t.tv_nsec / 1e9;
}

static void program(const uint8_t *code, size_t length)
{
    memset(rom, 0, sizeof rom);
    rom[0] = 0x01; /* the reset vector: 01C0H */
    rom[1] = 0xC0;
    rom[2] = rom[6] = 0x01; /* the vectors of INTB and INT1: 0180H */
    rom[3] = rom[7] = 0x80;
    memcpy(rom + 0x100, code, length);
    memcpy(rom + 0x140, called, sizeof called);
    memcpy(rom + 0x180, served, sizeof served);
    memcpy(rom + 0x1C0, begins, sizeof begins);
    if (sam47_predecode(rom, sizeof rom, table, sizeof table) != 0)
        exit(1);
}

/* Records with a wait, the pin of INT1 (P1.1) going up and down. */
static void pulses(size_t records, unsigned wait)
{
    trace_len = 5 * records;
    for (size_t i = 0; i < records; i++) {
        const uint8_t r[5] = {0x02, 0x01, (uint8_t)wait, (uint8_t)(wait >> 8), i % 2 ? 0 : 2};
        memcpy(trace + 5 * i, r, 5);
    }
}

#endif
