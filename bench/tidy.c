/* How long a trace of 65,536 bytes takes to tidy: the library beside the plain C of tests/peer/tidy.c, on the kinds of trace that take longest for their
 * length, and on records at random, of every kind and of the shortest. Both take turns, and the best and the median of the rounds are printed, with the
 * ratio of the bests.
 *
 *   tools/archive.sh
 *   cc -O2 -Iinclude -Itests/peer bench/tidy.c tests/peer/tidy.c target/staticlib/libsam47.a -o target/tidy && target/tidy
 *
 * With two words, a way (0 C, 1 the library, 2 neither) and the number of a kind, it makes one such trace, tidies it once that way and prints nothing:
 * bench/instructions.sh counts the machine instructions.
 */
#include "../tests/random.h"
#include "peer.h"
#include "sam47.h"

#include <stdio.h>
#include <stdlib.h>
#include <string.h>
#include <time.h>

enum { ROUNDS = 101, WAYS = 2, UNIT_MOST = 12, PORTS = 7, RESET_BIT = PORTS, WAIT_MOST = 65535 };

static size_t any_record(uint8_t *record);
static size_t any_short_record(uint8_t *record);

/* Bytes that are repeated as often as they fit, or what makes a record at random and answers its length. */
static const struct {
    const char *name;
    size_t len;
    uint8_t bytes[UNIT_MOST];
    size_t (*make)(uint8_t *record);
} kinds[] = {
    {"resets", 2, {0x80, 0x00}, NULL},
    {"one port", 3, {0x02, 0x00, 0x02}, NULL},
    {"wait and one port", 5, {0x02, 0x01, 0x5A, 0x00, 0x02}, NULL},
    {"wait and all ports", 11, {0x7F, 0x01, 0x5A, 0x00, 7, 3, 15, 7, 15, 15, 15}, NULL},
    {"wait and reset", 4, {0x80, 0x01, 0x5A, 0x00}, NULL},
    {"only waits", 4, {0x00, 0x01, 0x5A, 0x00}, NULL},
    {"waits of 1, one port", 11, {0x00, 0x01, 0x01, 0x00, 0x00, 0x01, 0x01, 0x00, 0x02, 0x00, 0x02}, NULL},
    {"gaps of 131,071", 12, {0x00, 0x01, 0xFF, 0xFF, 0x00, 0x01, 0xFF, 0xFF, 0x80, 0x01, 0x01, 0x00}, NULL},
    {"at random", 0, {0}, any_record},
    {"short, at random", 0, {0}, any_short_record},
};

enum { KINDS = sizeof kinds / sizeof kinds[0] };

static uint8_t trace[SAM47_TRACE_BYTES_MOST], out[SAM47_TRACE_BYTES_MOST];
static size_t trace_len;

static double microseconds(void)
{
    struct timespec t;
    clock_gettime(CLOCK_MONOTONIC, &t);
    return (double)t.tv_sec * 1e6 + (double)t.tv_nsec / 1e3;
}

/* A record with this map's low byte, any fields, and any wait if it has one. */
static size_t any_fields(uint8_t *record, unsigned low, unsigned high)
{
    static const uint8_t pins_most[PORTS] = {7, 3, 15, 7, 15, 15, 15};
    unsigned wait = 1 + any() % WAIT_MOST;
    size_t len = 0;
    record[len++] = (uint8_t)low;
    record[len++] = (uint8_t)high;
    if (high) {
        record[len++] = (uint8_t)(wait & 0xFF);
        record[len++] = (uint8_t)(wait >> 8);
    }
    for (unsigned port = 0; port < PORTS; port++)
        if (low >> port & 1)
            record[len++] = any() & pins_most[port];
    return len;
}

/* Any map. */
static size_t any_record(uint8_t *record)
{
    unsigned low = any() & 0xFF;
    return any_fields(record, low, low == 0 || any() % 2 == 0);
}

/* A reset in half of the records, in the others one field of any port: two or three bytes, and which of them can't be foreseen. */
static size_t any_short_record(uint8_t *record)
{
    unsigned bit = any() % 2 == 0 ? RESET_BIT : any() % PORTS;
    return any_fields(record, 1u << bit, 0);
}

static void fill_at_random(size_t (*make)(uint8_t *record))
{
    seed_from(1);
    for (trace_len = 0; trace_len + UNIT_MOST <= sizeof trace;)
        trace_len += make(trace + trace_len);
}

static void fill(size_t kind)
{
    if (kinds[kind].make) {
        fill_at_random(kinds[kind].make);
        return;
    }
    for (trace_len = 0; trace_len + kinds[kind].len <= sizeof trace; trace_len += kinds[kind].len)
        memcpy(trace + trace_len, kinds[kind].bytes, kinds[kind].len);
}

static int tidies(int way)
{
    switch (way) {
    case 0: return peer_tidy(trace, trace_len, out, sizeof out).number == SAM47_DONE;
    case 1: return sam47_tidy(trace, trace_len, out, sizeof out).number == SAM47_DONE;
    default: return 1;
    }
}

static int by_size(const void *a, const void *b)
{
    double x = *(const double *)a, y = *(const double *)b;
    return (x > y) - (x < y);
}

static void measure(size_t kind)
{
    double taken[WAYS][ROUNDS];
    fill(kind);
    for (int round = 0; round < ROUNDS; round++)
        for (int way = 0; way < WAYS; way++) {
            double from = microseconds();
            if (!tidies(way)) {
                printf("%s: a call did not answer done\n", kinds[kind].name);
                exit(1);
            }
            taken[way][round] = microseconds() - from;
        }
    for (int way = 0; way < WAYS; way++)
        qsort(taken[way], ROUNDS, sizeof(double), by_size);
    printf("%-20s C %6.0f (%6.0f)   library %6.0f (%6.0f)   library/C %.2f\n", kinds[kind].name, taken[0][0], taken[0][ROUNDS / 2], taken[1][0],
           taken[1][ROUNDS / 2], taken[1][0] / taken[0][0]);
}

static int one_call(char **words)
{
    size_t kind = strtoul(words[1], NULL, 10);
    if (kind >= KINDS)
        return 2;
    fill(kind);
    return tidies(atoi(words[0])) ? 0 : 1;
}

int main(int argc, char **argv)
{
    if (argc == 3)
        return one_call(argv + 1);
    printf("microseconds a trace of 65,536 bytes: best (median) of %d rounds\n", ROUNDS);
    for (size_t kind = 0; kind < KINDS; kind++)
        measure(kind);
    return 0;
}
