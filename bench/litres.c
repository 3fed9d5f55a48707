/* How long the litres of a log of 60,000 bytes take to count: the library beside the plain C of tests/peer/litres.c, on logs whose records are mostly changes
 * of P4, with 64 marks. Both take turns, each round on another log, so that no branch is foreseen from the round before. The best and the median of the rounds
 * are printed, with nanoseconds a record and the ratio of the bests.
 *
 *   tools/archive.sh
 *   cc -O2 -Iinclude -Itests/peer bench/litres.c tests/peer/litres.c target/staticlib/libsam47.a -o target/litres_bench && target/litres_bench
 */
#include "../tests/random.h"
#include "peer.h"
#include "sam47.h"

#include <inttypes.h>
#include <stdio.h>
#include <stdlib.h>
#include <string.h>
#include <time.h>

enum { ROUNDS = 1001, WAYS = 2, LOG_BYTES = 60000, RECORD = SAM47_LOG_RECORD_BYTES, RECORDS = LOG_BYTES / RECORD, FARMS = SAM47_FARMS_MOST };
enum { P4 = 4, PORTS = 5, NIBBLE_MOST = 15, APART = 40 /* cycles from record to record */ };

static const uint8_t ports[PORTS] = {0, 3, P4, 5, 6};

/* Of every four records so many are P4's, the others any port's; P4.0 changes in each, or P4 is any nibble. The marks lie so many cycles apart. */
static const struct {
    const char *name;
    unsigned of_p4, changes;
    uint32_t marks_apart;
} kinds[] = {
    {"P4.0 up and down", 4, 1, APART * RECORDS / FARMS},
    {"P4 at random", 4, 0, APART * RECORDS / FARMS},
    {"three of four P4", 3, 0, APART * RECORDS / FARMS},
    {"any port", 0, 0, APART * RECORDS / FARMS},
    {"marks at its start", 4, 1, 1},
    {"marks behind it", 4, 1, 50000000},
};

enum { KINDS = sizeof kinds / sizeof kinds[0] };

static uint8_t log_bytes[LOG_BYTES];
static uint32_t marks[FARMS];
static uint64_t litres[WAYS];

static double microseconds(void)
{
    struct timespec t;
    clock_gettime(CLOCK_MONOTONIC, &t);
    return (double)t.tv_sec * 1e6 + (double)t.tv_nsec / 1e3;
}

static void put_record(size_t i, unsigned port, unsigned nibble)
{
    uint8_t *record = log_bytes + i * RECORD;
    for (int byte = 0; byte < 4; byte++)
        record[SAM47_LOG_AT_CLOCK + byte] = (uint8_t)((i + 1) * APART >> 8 * byte);
    record[SAM47_LOG_AT_PORT] = (uint8_t)port;
    record[SAM47_LOG_AT_NIBBLE] = (uint8_t)nibble;
}

static void fill(size_t kind, int round)
{
    seed_from((uint64_t)round);
    for (size_t i = 0; i < RECORDS; i++) {
        unsigned port = any() % 4 < kinds[kind].of_p4 ? P4 : ports[any() % PORTS];
        put_record(i, port, kinds[kind].changes ? (i + 1) % 2 : any() & NIBBLE_MOST);
    }
    for (uint32_t farm = 0; farm < FARMS; farm++)
        marks[farm] = (farm + 1) * kinds[kind].marks_apart;
}

static uint64_t sum(uint64_t unplaced, const uint64_t *farm)
{
    for (int i = 0; i < FARMS; i++)
        unplaced += farm[i];
    return unplaced;
}

/* Whether that way counts; how many is kept. */
static int counts(int way)
{
    if (way == 0) {
        struct peer_lines a = peer_litres(log_bytes, LOG_BYTES, marks, FARMS);
        litres[way] = sum(a.unplaced, a.farm);
        return a.number == SAM47_DONE;
    }
    struct sam47_lines a = sam47_litres(log_bytes, LOG_BYTES, marks, FARMS);
    litres[way] = sum(a.unplaced, a.farm);
    return a.number == SAM47_DONE;
}

static int by_size(const void *a, const void *b)
{
    double x = *(const double *)a, y = *(const double *)b;
    return (x > y) - (x < y);
}

static void measure(size_t kind)
{
    static double taken[WAYS][ROUNDS];
    for (int round = 0; round < ROUNDS; round++) {
        fill(kind, round);
        for (int way = 0; way < WAYS; way++) {
            double from = microseconds();
            int is_done = counts(way);
            taken[way][round] = microseconds() - from;
            if (!is_done || litres[way] != litres[0]) {
                printf("%s: a call did not answer done, or other litres\n", kinds[kind].name);
                exit(1);
            }
        }
    }
    for (int way = 0; way < WAYS; way++)
        qsort(taken[way], ROUNDS, sizeof(double), by_size);
    printf("%-19s %5" PRIu64 " litres, C %6.1f (%6.1f), %5.2f ns   library %6.1f (%6.1f), %5.2f ns   library/C %.2f\n", kinds[kind].name, litres[1],
           taken[0][0], taken[0][ROUNDS / 2], taken[0][0] * 1e3 / RECORDS, taken[1][0], taken[1][ROUNDS / 2], taken[1][0] * 1e3 / RECORDS,
           taken[1][0] / taken[0][0]);
}

int main(void)
{
    printf("microseconds a log of %d bytes, %d marks: best (median) of %d rounds; nanoseconds a record, of the best; litres of the last log\n", LOG_BYTES, FARMS,
           ROUNDS);
    for (size_t kind = 0; kind < KINDS; kind++)
        measure(kind);
    return 0;
}
