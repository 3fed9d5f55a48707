/* A plain C emulator of the meter head, written from the papers alone and apart from the proved one; tidy.c has the tidy form of a trace, heads.c the
 * turns of several heads, litres.c the litres of a log by farm. It serves as the other side of the differential tests and of the benchmarks. */
#ifndef PEER_H
#define PEER_H
#include <stddef.h>
#include <stdint.h>

struct peer_answer {
    uint32_t number, steps, address;
    uint64_t log_end;
};

struct peer_written {
    uint32_t number, address;
    uint64_t length;
};

enum { PEER_HEADS_MOST = 8 };

struct peer_heads {
    uint32_t number, address, turns;
    struct peer_answer head[PEER_HEADS_MOST];
    uint32_t had[PEER_HEADS_MOST]; /* how many turns each head had, for the tests: no call of the library tells */
};

enum { PEER_FARMS_MOST = 64 };

struct peer_lines {
    uint32_t number;
    uint64_t unplaced, farm[PEER_FARMS_MOST];
};

uint32_t peer_predecode(const uint8_t *rom, size_t rom_len, uint8_t *table, size_t table_len);
uint32_t peer_fresh(const uint8_t *rom, size_t rom_len, uint8_t *state, size_t state_len);
struct peer_answer peer_plain_run(const uint8_t *rom, size_t rom_len, uint8_t *state, size_t state_len,
                                  const uint8_t *trace, size_t trace_len, uint8_t *log, size_t log_len,
                                  size_t log_start, uint32_t budget);
struct peer_answer peer_table_run(const uint8_t *rom, size_t rom_len, const uint8_t *table, size_t table_len,
                                  uint8_t *state, size_t state_len, const uint8_t *trace, size_t trace_len,
                                  uint8_t *log, size_t log_len, size_t log_start, uint32_t budget);
struct peer_written peer_tidy(const uint8_t *trace, size_t trace_len, uint8_t *out, size_t out_len);
struct peer_heads peer_dispatch(uint32_t heads, const uint8_t *rom, size_t rom_len, const uint8_t *table, size_t table_len,
                                uint8_t *states, size_t states_len, const uint8_t *traces, size_t traces_len,
                                const uint64_t *trace_lens, size_t trace_lens_len, uint8_t *log, size_t log_len,
                                const uint64_t *log_starts, size_t log_starts_len, uint32_t q, uint32_t turns);
struct peer_lines peer_litres(const uint8_t *log, size_t log_len, const uint32_t *marks, size_t marks_len);
#endif
