/* How long a step takes: the library's table-driven run and plain run beside the plain C emulator of tests/peer, on seven programs and on a head that is
 * held after one reset upon another. Each begins as a head's would behind the hold, with the fastest CPU clock and with the watchdog off, which would reset
 * it. The runs of a program take turns, and the best and the median of the rounds are printed, with the ratios of the bests.
 *
 *   tools/archive.sh
 *   cc -O2 -Iinclude -Itests/peer bench/speed.c tests/peer/peer.c target/staticlib/libsam47.a -o target/speed && target/speed
 *
 * With three words, a way (0 C, 1 table, 2 plain), a program (busy, mixed, interrupts or held) and a number of steps, it makes one round of that alone and
 * prints nothing: bench/instructions.sh counts the machine instructions of two such rounds.
 */
#include "peer.h"
#include "programs.h"

#include <stdio.h>

enum { ROUNDS = 9, WAYS = 3, LOG_BYTES = 1 << 20, HOLDS = 2880 };

static uint8_t state[SAM47_STATE_BYTES], log_bytes[LOG_BYTES];

/* A reset at once, and more, each at the hold's end: the head is always held. */
static void resets(size_t records)
{
    static const uint8_t at_once[2] = {0x80, 0x00}, behind_hold[4] = {0x80, 0x01, SAM47_HOLD_CYCLES & 0xFF, SAM47_HOLD_CYCLES >> 8};
    memcpy(trace, at_once, sizeof at_once);
    trace_len = sizeof at_once;
    for (size_t i = 1; i < records; i++, trace_len += sizeof behind_hold)
        memcpy(trace + trace_len, behind_hold, sizeof behind_hold);
}

/* One round from a fresh state that is past the hold, for a held step costs less than a code; the steps made, or 0 if a call did not answer done. */
static uint64_t round_of(int way, uint32_t budget, uint32_t calls)
{
    uint64_t steps = 0, end = 0;
    if (sam47_fresh(rom, sizeof rom, state, sizeof state) != 0)
        return 0;
    memset(state + SAM47_AT_HOLD, 0, 2);
    for (uint32_t i = 0; i < calls; i++) {
        uint32_t number, made;
        if (way == 0) {
            struct peer_answer a = peer_table_run(rom, sizeof rom, table, sizeof table, state, sizeof state, trace, trace_len, log_bytes, LOG_BYTES, end, budget);
            number = a.number; made = a.steps; end = a.log_end;
        } else if (way == 1) {
            struct sam47_answer a = sam47_table_run(rom, sizeof rom, table, sizeof table, state, sizeof state, trace, trace_len, log_bytes, LOG_BYTES, end, budget);
            number = a.number; made = a.steps; end = a.log_end;
        } else {
            struct sam47_answer a = sam47_plain_run(rom, sizeof rom, state, sizeof state, trace, trace_len, log_bytes, LOG_BYTES, end, budget);
            number = a.number; made = a.steps; end = a.log_end;
        }
        if (number != 0)
            return 0;
        steps += made;
    }
    return steps;
}

static int by_size(const void *a, const void *b)
{
    double x = *(const double *)a, y = *(const double *)b;
    return (x > y) - (x < y);
}

static void measure(const char *name, uint32_t budget, uint32_t calls)
{
    double taken[WAYS][ROUNDS];
    for (int round = 0; round < ROUNDS; round++)
        for (int way = 0; way < WAYS; way++) {
            double from = seconds();
            uint64_t steps = round_of(way, budget, calls);
            if (steps == 0) {
                printf("%s: a call did not answer done\n", name);
                exit(1);
            }
            taken[way][round] = (seconds() - from) / (double)steps * 1e9;
        }
    for (int way = 0; way < WAYS; way++)
        qsort(taken[way], ROUNDS, sizeof(double), by_size);
    printf("%-20s C %9.3f (%9.3f)   table %9.3f (%9.3f)   plain %9.3f (%9.3f)   table/C %.2f   plain/table %.1f\n", name, taken[0][0],
           taken[0][ROUNDS / 2], taken[1][0], taken[1][ROUNDS / 2], taken[2][0], taken[2][ROUNDS / 2], taken[1][0] / taken[0][0],
           taken[2][0] / taken[1][0]);
}

static int one_round(char **words)
{
    int way = atoi(words[0]);
    if (strcmp(words[1], "busy") == 0) {
        program(busy, sizeof busy);
    } else if (strcmp(words[1], "mixed") == 0) {
        program(mixed, sizeof mixed);
    } else if (strcmp(words[1], "held") == 0) {
        program(mixed, sizeof mixed);
        resets(HOLDS);
    } else {
        program(listening, sizeof listening);
        pulses(13000, 20);
    }
    return round_of(way, (uint32_t)atol(words[2]), 1) != 0 ? 0 : 1;
}

int main(int argc, char **argv)
{
    if (argc == 4)
        return one_round(argv + 1);
    printf("ns a step: best (median) of %d rounds\n", ROUNDS);
    trace_len = 0;
    program(busy, sizeof busy);
    measure("busy", 10000000, 1);
    program(mixed, sizeof mixed);
    measure("mixed", 10000000, 1);
    program(listening, sizeof listening);
    pulses(13000, 20);
    measure("interrupts and log", 160000, 1);
    program(sleeping, sizeof sleeping);
    pulses(100, 60000);
    measure("idle", 5900000, 1);
    program(sleeping_fast, sizeof sleeping_fast);
    measure("idle, fast timer", 5900000, 1);
    trace_len = 0;
    program(showing, sizeof showing);
    measure("display by INTB", 5900000, 1);
    program(mixed, sizeof mixed);
    measure("one step a call", 1, 2000);
    resets(HOLDS);
    measure("held", HOLDS * SAM47_HOLD_CYCLES, 1);
    return 0;
}
