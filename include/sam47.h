/* The calls of document 01 over byte buffers; the head's basic timer runs and a reset holds its CPU, by document 02, No. 1 and 2; a trace can be tidied, by
 * its No. 3; up to eight heads can take turns, by its No. 5; a log's litres can be counted by farm, by its No. 6; an undefined code is told more exactly, by its No. 7. Build the library with `tools/archive.sh`
 * (target/staticlib/libsam47.a), or install it with `make install PREFIX=...`, for `pkg-config sam47`.
 *
 * Every call takes any buffers and any numbers. A refusal answers its number (1 to 8, and 13 to 16) and leaves table, states, log and output buffer as they
 * are; a stop (9 to 12, 17, 18) leaves state and log after the last whole step. A buffer or list of length 0 still needs a pointer that is not null, and buffers that
 * are written may not overlap others. Numbers of more than one byte stand low byte first in a buffer; lists of numbers are the machine's own.
 *
 * The library has no state of its own and allocates nothing. It calls memcpy and memset, and no other function. Threads may call it at the same
 * time, as long as none writes a buffer that another uses. How much stack a call takes is told at SAM47_STACK_BYTES.
 *
 * `make -C tests gate` holds all this against the library: the names (tests/header), the stack (tests/stack), the symbols (tests/install). */
#ifndef SAM47_H
#define SAM47_H

#if !defined(__x86_64__) || defined(__ILP32__) || !defined(__ELF__)
#error "libsam47.a is machine code for x86-64 with 64-bit pointers, in ELF"
#endif

#include <stddef.h>
#include <stdint.h>

/* The version of header and library, as numbers and as text. CHANGELOG.md tells what each changed. */
#define SAM47_VERSION_MAJOR 1
#define SAM47_VERSION_MINOR 6
#define SAM47_VERSION_PATCH 0
#define SAM47_VERSION "1.6.0"

#ifdef __cplusplus
extern "C" {
#endif

#define SAM47_STATE_BYTES 666
#define SAM47_LOG_RECORD_BYTES 6
#define SAM47_TABLE_BYTES_PER_ADDRESS 4 /* a table has 4 bytes for each byte of its ROM */
#define SAM47_ROM_BYTES_C0502 2048      /* a ROM has one of these two lengths: the KS57C0502's */
#define SAM47_ROM_BYTES_C0504 4096      /* or the KS57C0504's */
#define SAM47_TRACE_BYTES_MOST 65536    /* a trace may be shorter, down to empty */
#define SAM47_HOLD_CYCLES 2048          /* a reset holds the CPU so long, a cycle each step; a fresh state is one after a reset */
#define SAM47_HEADS_MOST 8              /* a dispatch has 1 to 8 heads */
#define SAM47_FARMS_MOST 64             /* a count of litres has 0 to 64 farms */

/* No call takes more of its caller's stack, its arguments with it. `make -C tests stack` measures it, on a painted stack; docs/TESTING.md has the
 * figures. What the dynamic linker takes when it first binds memcpy or memset is not in it. */
#define SAM47_STACK_BYTES 4096

/* What a call answers: done, the refusals (1 to 8, tested in this order), the stops (9 to 12), the refusal of calls that write to an output buffer, tested
 * last (13), the dispatcher's own refusals, tested before 1 (14, then 15), the only one of a count of litres (16), and two more stops (17 and 18). */
enum sam47_number {
    SAM47_DONE = 0,       /* budget spent */
    SAM47_ROM = 1,        /* ROM length not 2,048 or 4,096 */
    SAM47_TABLE = 2,      /* table length not 4 times the ROM's */
    SAM47_IMAGE = 3,      /* state not 666 bytes, or states not 666 for each head */
    SAM47_FIELD = 4,      /* a field of the state out of range; address: the field's first byte */
    SAM47_STALE = 5,      /* table not the ROM's; address: the first differing byte */
    SAM47_TRACE = 6,      /* trace malformed; address: the record's first byte, 65,536 for a trace that is too long */
    SAM47_CURSOR = 7,     /* cursor not a record's start or the trace's end */
    SAM47_LOG = 8,        /* log start past the log's end */
    SAM47_CODE = 9,       /* undefined code, run or skipped, that is neither 17 nor 18; address: the code's */
    SAM47_REFERENCE = 10, /* REF names what it may not; address: the REF's own */
    SAM47_CLOCK = 11,     /* the clock would pass 4,294,967,295 */
    SAM47_FULL = 12,      /* the step's log bytes don't fit */
    SAM47_SHORT = 13,     /* output buffer shorter than what it is to hold */
    SAM47_HEADS = 14,     /* head count not 1 to 8, a list of another size, or trace lengths that don't add up to the buffer */
    SAM47_TURN = 15,      /* a turn of no steps */
    SAM47_LITRES = 16,    /* farm marks that don't rise or are more than 64, or a log that isn't whole records of a clock that never falls, a driven port and a nibble */
    SAM47_REGISTER = 17,  /* in 9's place: a code, run or skipped, that is undefined for a register of Table 5-7 alone, A for Ra or EA for RRb; address: the code's */
    SAM47_BANK = 18       /* in 9's place: a code, run or skipped, that is undefined for the number of an SMB or SRB alone; address: the code's */
};

/* The number's word in document 01; document 02 gives 13 to 18 none. */
static inline const char *sam47_word(uint32_t number)
{
    switch (number) {
    case SAM47_DONE: return "done";
    case SAM47_ROM: return "ROM";
    case SAM47_TABLE: return "table";
    case SAM47_IMAGE: return "image";
    case SAM47_FIELD: return "field";
    case SAM47_STALE: return "stale";
    case SAM47_TRACE: return "trace";
    case SAM47_CURSOR: return "cursor";
    case SAM47_LOG: return "log";
    case SAM47_CODE: return "code";
    case SAM47_REFERENCE: return "reference";
    case SAM47_CLOCK: return "clock";
    case SAM47_FULL: return "full";
    case SAM47_SHORT: return "short";
    case SAM47_HEADS: return "heads";
    case SAM47_TURN: return "turn";
    case SAM47_LITRES: return "litres";
    case SAM47_REGISTER: return "register";
    case SAM47_BANK: return "bank";
    default: return "unknown";
    }
}

/* When the number is given, for a message. */
static inline const char *sam47_meaning(uint32_t number)
{
    switch (number) {
    case SAM47_DONE: return "budget spent";
    case SAM47_ROM: return "length not 2,048 or 4,096";
    case SAM47_TABLE: return "length not 4 times the ROM's";
    case SAM47_IMAGE: return "state not 666 bytes";
    case SAM47_FIELD: return "a field of the state out of range";
    case SAM47_STALE: return "table not the ROM's";
    case SAM47_TRACE: return "malformed";
    case SAM47_CURSOR: return "not a record's start or the end";
    case SAM47_LOG: return "start past the end";
    case SAM47_CODE: return "undefined code, run or skipped";
    case SAM47_REFERENCE: return "REF names what it may not";
    case SAM47_CLOCK: return "would pass 4,294,967,295";
    case SAM47_FULL: return "the step's log bytes don't fit";
    case SAM47_SHORT: return "output buffer shorter than what it is to hold";
    case SAM47_HEADS: return "head count, lists or trace lengths that do not fit";
    case SAM47_TURN: return "a turn of no steps";
    case SAM47_LITRES: return "farm marks that do not rise or are more than 64, or a log that is not whole records of a clock that never falls, a driven port and a nibble";
    case SAM47_REGISTER: return "code undefined for its register alone, run or skipped";
    case SAM47_BANK: return "SMB or SRB of a number that it does not take, run or skipped";
    default: return "a number that no call answers";
    }
}

/* The state: the first byte of each field, with the largest value that is accepted. */
enum sam47_state_offset {
    SAM47_AT_RAM = 0,           /* 512 nibbles, a byte each: 000H to 1FFH; 15 */
    SAM47_AT_BANK15 = 512,      /* 128 nibbles, a byte each: F80H to FFFH; 15, F80H (SP's low nibble) even */
    SAM47_AT_PC = 640,          /* 2 bytes; the ROM's length less 1 */
    SAM47_AT_SMB = 642,         /* 15 */
    SAM47_AT_SRB = 643,         /* 3 */
    SAM47_AT_MODE = 644,        /* 0 running, 1 idle, 2 stop */
    SAM47_AT_EFFECT = 645,      /* carried effect; 3 */
    SAM47_AT_RELEASE = 646,     /* release count; 2 */
    SAM47_AT_PINS = 647,        /* P0 to P6, a byte each; 7, 3, 15, 7, 15, 15, 15 */
    SAM47_AT_CLOCK = 654,       /* 4 bytes, in cycles; any */
    SAM47_AT_CURSOR = 658,      /* 4 bytes; a record's start in the trace, or its end */
    SAM47_AT_BASIC_TIMER = 662, /* 2 bytes; bits 0 to 11 the divider's phase, 12 to 14 the watchdog's count of BCNT overflows; 32,767 */
    SAM47_AT_HOLD = 664         /* 2 bytes; what remains of the hold after a reset, in cycles; 2,048 */
};

/* A record of the log: a port's driven nibble, from the clock after the step that changed it. */
enum sam47_log_offset {
    SAM47_LOG_AT_CLOCK = 0, /* 4 bytes */
    SAM47_LOG_AT_PORT = 4,  /* 0, 3, 4, 5 or 6 */
    SAM47_LOG_AT_NIBBLE = 5
};

struct sam47_answer {
    uint32_t number;  /* 0 done; 1 to 8 refused; 9 to 12, 17 and 18 stopped */
    uint32_t steps;   /* whole steps made */
    uint32_t address; /* the place of a refusal or a stop, else 0 */
    uint64_t log_end; /* the log's end: the start and 6 for each record written */
};

struct sam47_written {
    uint32_t number;  /* 0 written; else refused */
    uint32_t address; /* the place of a refusal, else 0 */
    uint64_t length;  /* bytes written, from the output buffer's start on; 0 if refused */
};

/* What a dispatch answers. Refused, it has its number and address, and 0 in all else. */
struct sam47_heads {
    uint32_t number;                            /* 0 done, also if heads stopped; else refused */
    uint32_t address;                           /* the place of a refusal: of 4 and 6 in that head's own bytes, of 5 in the table, else 0 */
    uint32_t turns;                             /* 0; a later version counts here the turns that were given */
    struct sam47_answer head[SAM47_HEADS_MOST]; /* a run's answer for each head, over all its turns; 0 past the head count */
};

/* What a count of litres answers. Refused, it has its number, and 0 in all else. */
struct sam47_lines {
    uint32_t number;                 /* 0 counted; else refused */
    uint64_t unplaced;               /* litres before the first mark; all of them where there is none */
    uint64_t farm[SAM47_FARMS_MOST]; /* each farm's litres, in the order of the marks; 0 past these */
};

/* Writes the table of a ROM of 2,048 or 4,096 bytes. Answers 0, or refuses with 1 (ROM) or 2 (table length). */
uint32_t sam47_predecode(const uint8_t *rom, size_t rom_len, uint8_t *table, size_t table_len);

/* Writes the fresh state of a ROM of 2,048 or 4,096 bytes. Answers 0, or refuses with 1 (ROM) or 3 (state length). */
uint32_t sam47_fresh(const uint8_t *rom, size_t rom_len, uint8_t *state, size_t state_len);

/* Makes at most `budget` steps that read the ROM; log records are written from log_start on. Refuses with 1, 3, 4, 6, 7 or 8. */
struct sam47_answer sam47_plain_run(const uint8_t *rom, size_t rom_len, uint8_t *state, size_t state_len, const uint8_t *trace,
                                    size_t trace_len, uint8_t *log, size_t log_len, size_t log_start, uint32_t budget);

/* Makes the same steps from the table that sam47_predecode made of that ROM. Refuses with 1 to 8: with 2 for the table's length, and with 5 and the
 * place of the first byte that differs where the table is not the ROM's. Called again with the state, the log and the log end that the last call left,
 * it goes on: however the steps are cut into budgets, state, log, log end and the total of steps are the plain run's over the sum of the budgets. */
struct sam47_answer sam47_table_run(const uint8_t *rom, size_t rom_len, const uint8_t *table, size_t table_len, uint8_t *state,
                                    size_t state_len, const uint8_t *trace, size_t trace_len, uint8_t *log, size_t log_len,
                                    size_t log_start, uint32_t budget);

/* Writes a trace's tidy form from the start of `out` on and answers its length; the bytes behind it are kept. Two traces have the same tidy form exactly
 * where they mean the same, which is their port fields and resets with the due times, in order; the waits between may be written in many ways. Refuses with
 * 6, then with 13 where `out` is shorter than the tidy form. That is never longer than the trace, so a buffer as long as the trace always suffices.
 * No cursor is looked at or moved: a saved state's cursor belongs to the trace that it ran with, and its round goes on with that trace, not with the tidy
 * one. */
struct sam47_written sam47_tidy(const uint8_t *trace, size_t trace_len, uint8_t *out, size_t out_len);

/* Gives `turns` turns to 1 to 8 heads that have one ROM and table. A turn is what sam47_table_run does for one head with a budget of `q` steps.
 * The turns go round from head 0 on in rising number, anew at every call; a head that stops (9 to 12, 17, 18) has had that turn and is left out for the rest of the
 * call. Fewer turns are given only where every head has stopped. With fewer turns than heads, the last heads get none.
 *
 * `states` has 666 bytes for each head, and `traces` the heads' traces, one behind another, as long as `trace_lens` says. Each head has a part of the log,
 * log_len / heads bytes, rounded down, in the heads' order; what remains behind the last part is kept. A head's number in `log_starts` and its log_end count
 * from its own part's first byte. Both lists have one number for each head; their lengths count numbers, not bytes.
 *
 * A head's answer has the number and address of its last turn, the sum of its steps, and its last log end; without a turn it is done, with 0 steps and its
 * log start. Called again with the states and the log that the last call left, and each head's log_end as its log start, it goes on. Stops do not carry over
 * to the next call: a head that stopped is tried again there, and stops again unless its cause is gone, as a full log's is once the log starts anew.
 * For each head by itself, state, log and answer are those of one sam47_plain_run over `q` steps for each turn that it had.
 *
 * Refuses with 14; 15 (a `q` of 0); 1; 2; 3; and then head by head from the lowest on: 4, 5, 6, 7, 8 of head 0, then 4, 6, 7, 8 of head 1, and so on. All
 * are tested before the first turn, for 0 turns too, and of heads that get no turn as well. A refusal of one head refuses the call: its number and address
 * are answered, with 0 in all else, and nothing is written. */
struct sam47_heads sam47_dispatch(uint32_t heads, const uint8_t *rom, size_t rom_len, const uint8_t *table, size_t table_len, uint8_t *states,
                                  size_t states_len, const uint8_t *traces, size_t traces_len, const uint64_t *trace_lens,
                                  size_t trace_lens_len, uint8_t *log, size_t log_len, const uint64_t *log_starts, size_t log_starts_len,
                                  uint32_t q, uint32_t turns);

/* Counts the litres of a log by farm. A litre is a rising change of P4 bit 0: a record of port 4 with bit 0 set where the record of port 4 before it, if there
 * is one, has it clear; P4 counts as 0 before the log. `marks` has the clock where each farm begins, strictly rising, 64 at most, and `marks_len` counts marks,
 * not bytes. A litre belongs to the last farm whose mark is not past the litre's clock, so one at a mark's own clock to that farm; those before the first mark
 * are unplaced. The lines and `unplaced` add up to all the litres of the log.
 *
 * The log is exactly the bytes handed over, from the log's start to its end: the caller cuts. Of a run that is `log + log_start`, log_end - log_start bytes, and
 * of a head in a dispatch the same in its own part, where the call's number is 0: refused, a dispatch answers log ends of 0. Table-driven runs that went on, each
 * from the state and the log end that the last one left, have one log from the first start to the last end. None of these is refused. Count it whole: a log cut in
 * two is not the sum of its halves, since P4 counts as 0 before each, and a bit 0 that is set across the cut may count again. An empty log has no litres, and no
 * marks leave all unplaced; neither is refused, but the pointers of both may not be null.
 *
 * Refuses with 16: more than 64 marks, marks that do not rise strictly; a log whose length is not a multiple of 6, with a clock that falls (equal ones are
 * good), a port other than 0, 3, 4, 5 and 6, or a nibble above 15. Pins that a port does not have are not looked at. Nothing is written. */
struct sam47_lines sam47_litres(const uint8_t *log, size_t log_len, const uint32_t *marks, size_t marks_len);

#ifdef __cplusplus
}
#endif

#endif
