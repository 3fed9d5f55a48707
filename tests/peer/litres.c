/* The litres of a log by farm in plain C, written from document 01 (the log's records) and document 02 (No. 6) alone and apart from the proved count. Marks and
 * log are tested; then the log is read once, a line at a time: each line's litres are those up to the next farm's mark. */
#include "peer.h"

enum { RECORD_BYTES = 6, PORT_AT = 4, NIBBLE_AT = 5, P4 = 4, NIBBLE_MOST = 15, LITRES = 16 };

static const uint64_t past_every_clock = (uint64_t)UINT32_MAX + 1;

/* How far the log is read, and P4 as the last of its records left it. */
struct reader {
    const uint8_t *next, *end;
    unsigned p4;
};

static uint32_t clock_of(const uint8_t *record)
{
    return record[0] | (uint32_t)record[1] << 8 | (uint32_t)record[2] << 16 | (uint32_t)record[3] << 24;
}

static int rise(const uint32_t *marks, size_t count)
{
    for (size_t i = 1; i < count; i++)
        if (marks[i] <= marks[i - 1])
            return 0;
    return 1;
}

/* P0, P3, P4, P5 and P6 drive; P1 and P2 are inputs. */
static int is_driven(unsigned port) { return port == 0 || (port >= 3 && port <= 6); }

static int is_log(const uint8_t *log, size_t len)
{
    uint32_t before = 0;
    if (len % RECORD_BYTES != 0)
        return 0;
    for (const uint8_t *record = log; record < log + len; record += RECORD_BYTES) {
        if (clock_of(record) < before || !is_driven(record[PORT_AT]) || record[NIBBLE_AT] > NIBBLE_MOST)
            return 0;
        before = clock_of(record);
    }
    return 1;
}

/* Reads on, up to the first record at this clock or past it, and answers the litres on the way. */
static uint64_t litres_before(struct reader *r, uint64_t clock)
{
    uint64_t litres = 0;
    for (; r->next < r->end && clock_of(r->next) < clock; r->next += RECORD_BYTES)
        if (r->next[PORT_AT] == P4) {
            unsigned p4 = r->next[NIBBLE_AT];
            litres += (p4 & 1) > (r->p4 & 1);
            r->p4 = p4;
        }
    return litres;
}

/* Where the farm of this number begins; the one behind the last never does. */
static uint64_t begins(size_t farm, const uint32_t *marks, size_t count) { return farm < count ? marks[farm] : past_every_clock; }

struct peer_lines peer_litres(const uint8_t *log, size_t log_len, const uint32_t *marks, size_t marks_len)
{
    struct peer_lines lines = {0};
    struct reader r = {log, log + log_len, 0};
    if (marks_len > PEER_FARMS_MOST || !rise(marks, marks_len) || !is_log(log, log_len)) {
        lines.number = LITRES;
        return lines;
    }
    lines.unplaced = litres_before(&r, begins(0, marks, marks_len));
    for (size_t farm = 0; farm < marks_len; farm++)
        lines.farm[farm] = litres_before(&r, begins(farm + 1, marks, marks_len));
    return lines;
}
