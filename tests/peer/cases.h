/* Random and damaged inputs for the four calls, and heads for the dispatcher. A case is made from its number, with the library's predecode and fresh, so one
 * that differs can be made again by itself. */
#ifndef CASES_H
#define CASES_H
#include "sam47.h"

enum {
    ROM_MOST = SAM47_ROM_BYTES_C0504,
    TABLE_MOST = SAM47_TABLE_BYTES_PER_ADDRESS * ROM_MOST,
    TRACE_MOST = SAM47_TRACE_BYTES_MOST + 1,
    LOG_MOST = 600,
    CALLS_MOST = 6,
    BEYOND = 8 /* bytes behind ROM, table, state and log, for lengths that are too long and for writes that would be */
};

struct head_case {
    size_t rom_len, table_len, state_len, trace_len, log_len, log_start;
    int table_is_roms; /* the table is the one that predecode makes of this ROM */
    int resets;        /* the trace may have resets */
    uint32_t calls, budgets[CALLS_MOST];
    uint8_t rom[ROM_MOST + BEYOND], table[TABLE_MOST + BEYOND], state[SAM47_STATE_BYTES + BEYOND], trace[TRACE_MOST], log[LOG_MOST + BEYOND];
};

void make_case(uint64_t number, struct head_case *c);

/* The same without damage; of its faults only a trace that is one byte too long is left, now and then. */
void make_sound_case(uint64_t number, struct head_case *c);

/* Another state, trace, log and list of budgets for the ROM and table that the case has. */
void make_other_head(uint64_t number, struct head_case *c);

/* The length of the code that two bytes begin, 0 if it is undefined, and its cycles. */
unsigned code_length(uint8_t first, uint8_t second);
unsigned code_cycles(uint8_t first, uint8_t second);

/* Undefined for a register alone that is outside its letter; for a number of SMB or SRB alone that is outside its set. */
int is_register_code(uint8_t first, uint8_t second);
int is_bank_code(uint8_t first, uint8_t second);

#endif
