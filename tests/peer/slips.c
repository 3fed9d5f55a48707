/* Counts the litres of random and damaged logs by farm, by the library and by the plain C of litres.c, and counts those that end unlike.
 *
 *   make -C tests peer                  many, beside the other cases
 *   target/tests/slips FIRST LAST       the cases of these numbers; the library is built by `tools/archive.sh`
 *
 * A case is a log and a list of marks, most of these at a litre's clock or a cycle beside it; in one case of three one fault is put into the log, the marks or
 * both, so the refusal is known without the other side. Number and lines are compared whole, with what was lent to be read only. Of an accepted case the lines
 * add up to the rises of P4.0 and to the answer without marks, a mark alone parts the litres as it does in its list, and a log cut in two gives one litre more
 * than the whole where P4.0 is set at the cut and set again behind it, else as many. Some logs are those that the library's own calls wrote for heads of
 * cases.c, as they are or with a program that counts on P4: table-driven runs, one behind another, and dispatches of three heads. None may be refused.
 * Before the cases a log with more litres than 16 bits hold is counted.
 * The exit status is 1 if a case differs, or if two thousand cases or more leave a kind of log, litre, marks or fault unmet. */
#include "../random.h"
#include "cases.h"
#include "peer.h"
#include "tally.h"

#include <string.h>

enum { RECORD = SAM47_LOG_RECORD_BYTES, FARMS = SAM47_FARMS_MOST, P4 = 4, NIBBLE_MOST = 15, PORTS = 5 };
enum { RECORDS_MOST = 10000, FEW_RECORDS = 12, MORE_RECORDS = 60, LONG_RECORDS = 1000, MARKS_MOST = 1000, ENOUGH_FOR_ALL = 2000 };
enum { LONG_ONE_IN = 512, FAULT_ONE_IN = 3, RUNS_ONE_IN = 16, DISPATCH_ONE_IN = 64 };
enum { HEADS = 3, DISPATCHES = 2, STEPS_MOST = 100, TURNS_MOST = 40 };

static const uint8_t ports[PORTS] = {0, 3, P4, 5, 6};

enum log_kind { EMPTY, ONE_RECORD, LONG, EQUAL_CLOCKS, LAST_CLOCK, SET_AT_FIRST, OTHER_BITS, FALLS, OTHER_PORTS, LOG_KINDS };

static const char *const log_names[LOG_KINDS] = {"empty", "of one record", "of 1,000 or more", "two records at one clock", "one at 4,294,967,295",
                                                 "P4.0 set by P4's first", "P4.0 kept", "P4.0 cleared", "bit 0 of another port set"};

enum litre_kind { AT_MARK, BEFORE_MARK, BEHIND_MARK, TWO_AT_ONE_CLOCK, AT_FIRST_CLOCK, AT_LAST_CLOCK, UNPLACED, OF_LAST_FARM, OF_FARM_64, LITRE_KINDS };

static const char *const litre_names[LITRE_KINDS] = {"at a mark's own clock", "a cycle before a mark", "a cycle behind one", "two at one clock", "at 0",
                                                     "at 4,294,967,295", "unplaced", "of the last farm", "of the 64th"};

enum marks_kind { NONE, ONE, SIXTY_THREE, SIXTY_FOUR, FIRST_AT_0, LAST_AT_END, A_CYCLE_APART, ALL_BEFORE, ALL_BEHIND, NO_LITRE_BETWEEN, MARKS_KINDS };

static const char *const marks_names[MARKS_KINDS] = {"none", "one", "63", "64", "the first at 0", "the last at 4,294,967,295", "two a cycle apart",
                                                     "all before the log", "all behind it", "a farm without litres"};

/* Those up to LAST_FALLS are the marks', the others the log's. */
enum fault {
    MARKS_65, MARKS_66, MORE_MARKS, EQUAL, FALLING, LAST_EQUAL, LAST_FALLS, CLOCK_BY_1, CLOCK_BY_MORE, PORT_1, PORT_2, PORT_7, PORT_8, OTHER_PORT, NIBBLE_16,
    LARGER_NIBBLE, CUT, TOO_LONG, FAULTS
};

enum { MARKS_FAULTS = LAST_FALLS + 1, LOG_FAULTS = FAULTS - MARKS_FAULTS };

static const char *const fault_names[FAULTS] = {"65 marks", "66", "more", "equal marks", "falling ones", "the last two equal", "the last falls",
                                                "a clock that falls by 1", "by more", "port 1", "2", "7", "8", "above 8", "nibble 16", "above 16",
                                                "a record cut off", "bytes behind the last"};

enum source { AT_RANDOM, BY_RUNS, BY_DISPATCH, SOURCES };

static const char *const source_names[SOURCES] = {"made at random", "of table-driven runs", "of dispatches"};

struct slip {
    size_t log_len, marks_len;
    int is_refused;
    uint8_t log[RECORDS_MOST * RECORD + BEYOND];
    uint32_t marks[MARKS_MOST];
};

/* Where P4.0 rises, by a pass of its own. */
static struct {
    size_t count;
    uint32_t clocks[RECORDS_MOST];
} rises;

/* What the cases met; logs, litres and marks are those of accepted cases. */
static struct {
    uint64_t calls, refused, logs[LOG_KINDS], litres[LITRE_KINDS], marks[MARKS_KINDS], faults[FAULTS], sources[SOURCES], litres_of[SOURCES], set_at_cut;
} met;

/* ---- logs --------------------------------------------------------------------------------------------------- */

static int one_in(uint32_t n) { return any() % n == 0; }

static size_t records_of(const struct slip *s) { return s->log_len / RECORD; }

static uint32_t clock_of(const uint8_t *record)
{
    uint32_t clock = 0;
    for (int i = 3; i >= 0; i--)
        clock = clock << 8 | record[SAM47_LOG_AT_CLOCK + i];
    return clock;
}

static void put_four_bytes(uint8_t *at, uint32_t number)
{
    for (int i = 0; i < 4; i++)
        at[i] = (uint8_t)(number >> 8 * i);
}

static void put_record(uint8_t *record, uint32_t clock, unsigned port, unsigned nibble)
{
    put_four_bytes(record + SAM47_LOG_AT_CLOCK, clock);
    record[SAM47_LOG_AT_PORT] = (uint8_t)port;
    record[SAM47_LOG_AT_NIBBLE] = (uint8_t)nibble;
}

static uint32_t first_clock(const struct slip *s) { return clock_of(s->log); }

static uint32_t last_clock(const struct slip *s) { return clock_of(s->log + s->log_len - RECORD); }

/* No later than the clock's end. */
static uint32_t later(uint32_t clock, uint32_t by) { return by < UINT32_MAX - clock ? clock + by : UINT32_MAX; }

static uint32_t some_start(void)
{
    switch (any() % 4) {
    case 0: return 0;
    case 1: return any() % 1000;
    case 2: return UINT32_MAX - any() % 200;
    default: return any();
    }
}

/* The larger gaps have so many bits at most. */
static uint32_t some_gap(unsigned bits)
{
    switch (any() % 8) {
    case 0:
    case 1:
    case 2: return 0;
    case 3:
    case 4: return 1;
    case 5: return 2;
    case 6: return any() % 50;
    default: return any() >> (32 - bits);
    }
}

/* Of P4 half of the records change bit 0 alone, the others other bits, or any. */
static unsigned some_nibble(unsigned before)
{
    switch (any() % 4) {
    case 0: return any() & NIBBLE_MOST;
    case 1: return before ^ (any() & NIBBLE_MOST & ~1u);
    default: return before ^ 1;
    }
}

static size_t some_records(int is_long)
{
    switch (any() % 8) {
    case 0: return any() % 2;
    case 1: return any() % MORE_RECORDS;
    default: return is_long ? RECORDS_MOST - any() % LONG_RECORDS : any() % FEW_RECORDS;
    }
}

/* Behind the last stands what would be a litre. */
static void make_log(struct slip *s, int is_long)
{
    uint32_t clock = some_start();
    unsigned p4 = 0, bits = 1 + any() % (is_long ? 20 : 32);
    size_t count = some_records(is_long);
    s->log_len = count * RECORD;
    for (uint8_t *record = s->log; record < s->log + s->log_len; record += RECORD) {
        unsigned port = one_in(3) ? ports[any() % PORTS] : P4, nibble = port == P4 ? some_nibble(p4) : any() & NIBBLE_MOST;
        put_record(record, clock, port, nibble);
        p4 = port == P4 ? nibble : p4;
        clock = later(clock, some_gap(bits));
    }
    put_record(s->log + s->log_len, clock, P4, p4 ^ 1);
}

static void find_rises(const struct slip *s)
{
    unsigned was = 0;
    rises.count = 0;
    for (const uint8_t *record = s->log; record < s->log + s->log_len; record += RECORD)
        if (record[SAM47_LOG_AT_PORT] == P4) {
            unsigned now = record[SAM47_LOG_AT_NIBBLE] % 2;
            if (now == 1 && was == 0)
                rises.clocks[rises.count++] = clock_of(record);
            was = now;
        }
}

/* ---- marks -------------------------------------------------------------------------------------------------- */

enum spread { NEAR_LITRES, BEFORE_LOG, BEHIND_LOG };

/* At a litre, at a record, or beside another mark; there, a cycle before or a cycle behind. */
static uint32_t some_near_mark(const struct slip *s)
{
    uint32_t near = any(), by = any() % 3;
    size_t records = records_of(s);
    if (rises.count > 0 && !one_in(4))
        near = rises.clocks[any() % rises.count];
    else if (records > 0 && !one_in(4))
        near = clock_of(s->log + any() % records * RECORD);
    else if (s->marks_len > 0)
        near = s->marks[any() % s->marks_len];
    return by < 2 ? later(near, by) : near - (near > 0);
}

static uint32_t some_mark(const struct slip *s, enum spread spread)
{
    if (spread == BEFORE_LOG)
        return first_clock(s) - 1 - (one_in(4) ? 0 : any() % first_clock(s));
    if (spread == BEHIND_LOG)
        return last_clock(s) + 1 + (one_in(4) ? 0 : any() % (UINT32_MAX - last_clock(s)));
    if (one_in(12))
        return one_in(2) ? 0 : UINT32_MAX;
    return one_in(6) ? any() : some_near_mark(s);
}

/* Into its place; one that is there already is not put in again. */
static void put_mark(struct slip *s, uint32_t mark)
{
    size_t at = s->marks_len;
    while (at > 0 && s->marks[at - 1] >= mark)
        at--;
    if (at < s->marks_len && s->marks[at] == mark)
        return;
    memmove(s->marks + at + 1, s->marks + at, (s->marks_len - at) * sizeof s->marks[0]);
    s->marks[at] = mark;
    s->marks_len++;
}

static size_t some_count(void)
{
    static const size_t counts[] = {0, 1, 2, 63, 64};
    return one_in(2) ? counts[any() % (sizeof counts / sizeof *counts)] : any() % 12;
}

/* Before or behind the log there may be room for fewer than wanted, or for none. */
static enum spread some_spread(const struct slip *s)
{
    enum spread spread = any() % 16;
    if (spread == BEFORE_LOG && s->log_len > 0 && first_clock(s) > 0)
        return BEFORE_LOG;
    return spread == BEHIND_LOG && s->log_len > 0 && last_clock(s) < UINT32_MAX ? BEHIND_LOG : NEAR_LITRES;
}

static void make_marks(struct slip *s, size_t count)
{
    enum spread spread = count > FARMS ? NEAR_LITRES : some_spread(s);
    s->marks_len = 0;
    find_rises(s);
    for (size_t tries = 0; s->marks_len < count && tries < 3 * count; tries++)
        put_mark(s, some_mark(s, spread));
    while (s->marks_len < count && spread == NEAR_LITRES)
        put_mark(s, any());
}

/* ---- faults: each answers 0 where the case has no such place -------------------------------------------------- */

/* The mark falls to the one before it, or below. */
static int lower_mark(struct slip *s, size_t at, int is_equal)
{
    uint32_t before = s->marks[at - 1];
    if (!is_equal && before == 0)
        return 0;
    s->marks[at] = is_equal ? before : before - 1 - (one_in(2) ? 0 : any() % before);
    return 1;
}

static int spoil_marks(struct slip *s, enum fault fault)
{
    if (fault <= MORE_MARKS) {
        make_marks(s, fault == MARKS_65 ? FARMS + 1 : fault == MARKS_66 ? FARMS + 2 : FARMS + 3 + any() % (MARKS_MOST - FARMS - 2));
        return 1;
    }
    if (s->marks_len < 2)
        return 0;
    int is_last = fault == LAST_EQUAL || fault == LAST_FALLS;
    return lower_mark(s, is_last ? s->marks_len - 1 : 1 + any() % (s->marks_len - 1), fault == EQUAL || fault == LAST_EQUAL);
}

/* The first record, the last or any; from the second on where it is to have one before it. */
static size_t some_place(size_t first, size_t count)
{
    switch (any() % 3) {
    case 0: return first;
    case 1: return count - 1;
    default: return first + any() % (count - first);
    }
}

static int lower_clock(struct slip *s, int by_1)
{
    size_t count = records_of(s), at = count > 1 ? some_place(1, count) : 0;
    if (at == 0)
        return 0;
    uint8_t *record = s->log + at * RECORD;
    uint32_t before = clock_of(record - RECORD);
    if (before == 0)
        return 0;
    put_four_bytes(record + SAM47_LOG_AT_CLOCK, by_1 ? before - 1 : any() % before);
    return 1;
}

static unsigned wrong_port(enum fault fault)
{
    static const uint8_t wrong[] = {[PORT_1] = 1, [PORT_2] = 2, [PORT_7] = 7, [PORT_8] = 8};
    return fault < OTHER_PORT ? wrong[fault] : 9 + any() % (256 - 9);
}

/* The record that is cut off, or that bytes begin behind the last, is not always one that would be refused by itself. */
static int spoil_length(struct slip *s, enum fault fault)
{
    size_t bytes = 1 + any() % (RECORD - 1);
    if (fault == CUT && s->log_len == 0)
        return 0;
    s->log_len = fault == CUT ? s->log_len - bytes : s->log_len + bytes;
    return 1;
}

static int spoil_log(struct slip *s, enum fault fault)
{
    if (fault == CUT || fault == TOO_LONG)
        return spoil_length(s, fault);
    if (fault == CLOCK_BY_1 || fault == CLOCK_BY_MORE)
        return lower_clock(s, fault == CLOCK_BY_1);
    if (s->log_len == 0)
        return 0;
    uint8_t *record = s->log + some_place(0, records_of(s)) * RECORD;
    if (fault >= PORT_1 && fault <= OTHER_PORT)
        record[SAM47_LOG_AT_PORT] = (uint8_t)wrong_port(fault);
    else
        record[SAM47_LOG_AT_NIBBLE] = (uint8_t)(fault == NIBBLE_16 ? NIBBLE_MOST + 1 : NIBBLE_MOST + 2 + any() % (256 - NIBBLE_MOST - 2));
    return 1;
}

static void spoil(struct slip *s)
{
    uint32_t which = any() % 8; /* the marks, the log, or of one in eight both */
    enum fault of_marks = any() % MARKS_FAULTS, of_log = MARKS_FAULTS + any() % LOG_FAULTS;
    if (which < 4 && spoil_marks(s, of_marks)) {
        s->is_refused = 1;
        met.faults[of_marks]++;
    }
    if (which > 2 && spoil_log(s, of_log)) {
        s->is_refused = 1;
        met.faults[of_log]++;
    }
}

/* ---- comparing: each answers what differs, or NULL ---------------------------------------------------------- */

static struct sam47_lines counted(const uint8_t *log, size_t log_len, const uint32_t *marks, size_t marks_len)
{
    met.calls++;
    return sam47_litres(log, log_len, marks, marks_len);
}

/* Both count; the answer is the library's. */
static const char *calls_unlike(const struct slip *s, struct sam47_lines *a)
{
    static uint8_t log[sizeof s->log];
    static uint32_t marks[MARKS_MOST];
    memcpy(log, s->log, s->log_len);
    memcpy(marks, s->marks, s->marks_len * sizeof marks[0]);
    struct peer_lines wanted = peer_litres(s->log, s->log_len, s->marks, s->marks_len);
    *a = counted(s->log, s->log_len, s->marks, s->marks_len);
    if (a->number != wanted.number)
        return "number";
    if (a->unplaced != wanted.unplaced)
        return "unplaced";
    if (memcmp(a->farm, wanted.farm, sizeof a->farm) != 0)
        return "a farm's line";
    int are_kept = memcmp(log, s->log, s->log_len) == 0 && memcmp(marks, s->marks, s->marks_len * sizeof marks[0]) == 0;
    return are_kept ? NULL : "a buffer that was lent to be read only";
}

/* Litres of the farms before this one, the unplaced with them. */
static uint64_t litres_before(const struct sam47_lines *a, size_t farm)
{
    uint64_t litres = a->unplaced;
    for (size_t i = 0; i < farm; i++)
        litres += a->farm[i];
    return litres;
}

static const char *refusal_unlike(const struct slip *s, const struct sam47_lines *a)
{
    static const struct sam47_lines none;
    if (!s->is_refused)
        return a->number != SAM47_DONE ? "a good log with good marks is refused" : NULL;
    if (a->number != SAM47_LITRES)
        return "a fault is not refused with 16";
    return a->unplaced != 0 || memcmp(a->farm, none.farm, sizeof none.farm) != 0 ? "a refusal has litres" : NULL;
}

static const char *sum_unlike(const struct slip *s, const struct sam47_lines *a)
{
    struct sam47_lines whole = counted(s->log, s->log_len, s->marks, 0);
    if (litres_before(a, s->marks_len) != rises.count || litres_before(a, FARMS) != rises.count)
        return "the sum of the lines";
    return whole.number != SAM47_DONE || whole.unplaced != rises.count || litres_before(&whole, FARMS) != rises.count ? "the sum without marks" : NULL;
}

/* A mark of the list by itself: before it lie the litres of all farms before its own. */
static const char *one_mark_unlike(const struct slip *s, const struct sam47_lines *a)
{
    size_t farm = any() % s->marks_len;
    struct sam47_lines parted = counted(s->log, s->log_len, s->marks + farm, 1);
    int is_like = parted.number == SAM47_DONE && parted.unplaced == litres_before(a, farm) && parted.unplaced + parted.farm[0] == rises.count;
    return is_like ? NULL : "a mark by itself";
}

/* P4.0 as the records from here on have it first, or from the end back last; 0 where none is P4's. */
static unsigned first_bit(const uint8_t *record, const uint8_t *end)
{
    while (record < end && record[SAM47_LOG_AT_PORT] != P4)
        record += RECORD;
    return record < end ? record[SAM47_LOG_AT_NIBBLE] & 1 : 0;
}

static unsigned last_bit(const uint8_t *start, const uint8_t *end)
{
    while (end > start && end[SAM47_LOG_AT_PORT - RECORD] != P4)
        end -= RECORD;
    return end > start ? end[SAM47_LOG_AT_NIBBLE - RECORD] & 1 : 0;
}

static const char *halves_unlike(const struct slip *s)
{
    const uint8_t *end = s->log + s->log_len, *cut = s->log + any() % (records_of(s) + 1) * RECORD;
    struct sam47_lines first = counted(s->log, (size_t)(cut - s->log), s->marks, 0), second = counted(cut, (size_t)(end - cut), s->marks, 0);
    unsigned again = last_bit(s->log, cut) & first_bit(cut, end);
    met.set_at_cut += again;
    int are_like = first.number == SAM47_DONE && second.number == SAM47_DONE && first.unplaced + second.unplaced == rises.count + again;
    return are_like ? NULL : "the halves of the log";
}

/* ---- what was met ------------------------------------------------------------------------------------------- */

static void note_log(const struct slip *s)
{
    unsigned p4 = 0, of_port[P4 + 3] = {0};
    int is_first = 1;
    met.logs[EMPTY] += s->log_len == 0;
    met.logs[ONE_RECORD] += s->log_len == RECORD;
    met.logs[LONG] += records_of(s) >= LONG_RECORDS;
    for (const uint8_t *record = s->log; record < s->log + s->log_len; record += RECORD) {
        unsigned port = record[SAM47_LOG_AT_PORT], bit = record[SAM47_LOG_AT_NIBBLE] & 1;
        met.logs[EQUAL_CLOCKS] += record > s->log && clock_of(record) == clock_of(record - RECORD);
        met.logs[LAST_CLOCK] += clock_of(record) == UINT32_MAX;
        met.logs[SET_AT_FIRST] += port == P4 && is_first && bit;
        met.logs[OTHER_BITS] += port == P4 && !is_first && (p4 & 1) == bit;
        met.logs[FALLS] += port == P4 && (p4 & 1) > bit;
        met.logs[OTHER_PORTS] += port != P4 && bit > of_port[port];
        of_port[port] = bit;
        is_first = is_first && port != P4;
        p4 = port == P4 ? bit : p4;
    }
}

static void note_litre(const struct slip *s, size_t litre)
{
    uint32_t clock = rises.clocks[litre];
    for (size_t i = 0; i < s->marks_len; i++) {
        met.litres[AT_MARK] += s->marks[i] == clock;
        met.litres[BEFORE_MARK] += clock < UINT32_MAX && s->marks[i] == clock + 1;
        met.litres[BEHIND_MARK] += clock > 0 && s->marks[i] == clock - 1;
    }
    met.litres[TWO_AT_ONE_CLOCK] += litre > 0 && rises.clocks[litre - 1] == clock;
    met.litres[AT_FIRST_CLOCK] += clock == 0;
    met.litres[AT_LAST_CLOCK] += clock == UINT32_MAX;
}

static void note_marks(const struct slip *s, const struct sam47_lines *a)
{
    size_t count = s->marks_len;
    met.marks[NONE] += count == 0;
    met.marks[ONE] += count == 1;
    met.marks[SIXTY_THREE] += count == FARMS - 1;
    met.marks[SIXTY_FOUR] += count == FARMS;
    met.litres[UNPLACED] += a->unplaced;
    if (count == 0)
        return;
    met.marks[FIRST_AT_0] += s->marks[0] == 0;
    met.marks[LAST_AT_END] += s->marks[count - 1] == UINT32_MAX;
    met.marks[ALL_BEFORE] += s->log_len > 0 && s->marks[count - 1] < first_clock(s);
    met.marks[ALL_BEHIND] += s->log_len > 0 && s->marks[0] > last_clock(s);
    for (size_t i = 0; i < count; i++) {
        met.marks[A_CYCLE_APART] += i > 0 && s->marks[i] - s->marks[i - 1] == 1;
        met.marks[NO_LITRE_BETWEEN] += a->farm[i] == 0;
    }
    met.litres[OF_LAST_FARM] += a->farm[count - 1];
    met.litres[OF_FARM_64] += a->farm[FARMS - 1];
}

/* ---- cases -------------------------------------------------------------------------------------------------- */

static const char *slip_unlike(const struct slip *s, enum source source)
{
    struct sam47_lines a;
    const char *unlike = calls_unlike(s, &a);
    if (!unlike)
        unlike = refusal_unlike(s, &a);
    met.sources[source]++;
    met.refused += s->is_refused;
    if (unlike || s->is_refused)
        return unlike;
    note_log(s);
    note_marks(s, &a);
    for (size_t i = 0; i < rises.count; i++)
        note_litre(s, i);
    met.litres_of[source] += rises.count;
    unlike = sum_unlike(s, &a);
    if (!unlike && s->marks_len > 0)
        unlike = one_mark_unlike(s, &a);
    return unlike ? unlike : halves_unlike(s);
}

/* The log that a head wrote, with marks for it. */
static const char *own_log_unlike(const uint8_t *log, size_t len, enum source source)
{
    static struct slip s;
    memcpy(s.log, log, len);
    s.log_len = len;
    make_marks(&s, some_count());
    return slip_unlike(&s, source);
}

/* Gives the case a program that counts on P4, from 0100H on: SMB 15; LD EA,#0FH; LD PMG2,EA; then LD P4,A; INCS A; NOP, which is skipped behind 15; JR back. */
static void put_counter(struct head_case *c)
{
    static const uint8_t counts[] = {0xDD, 0x4F, 0x81, 0x0F, 0xCD, 0xEA, 0x89, 0xF4, 0x58, 0xA0, 0x04};
    memset(c->rom, 0, c->rom_len);
    c->rom[0] = 0x81; /* the reset vector, EMB set */
    memcpy(c->rom + 0x100, counts, sizeof counts);
    if (sam47_predecode(c->rom, c->rom_len, c->table, c->table_len) != SAM47_DONE) {
        printf("slips: predecode refuses the program that counts\n");
        exit(1);
    }
}

/* Its fresh state, at any clock and past the hold but for some cycles. */
static void put_fresh_counter(struct head_case *c)
{
    if (sam47_fresh(c->rom, c->rom_len, c->state, c->state_len) != SAM47_DONE) {
        printf("slips: fresh refuses the program that counts\n");
        exit(1);
    }
    put_four_bytes(c->state + SAM47_AT_CLOCK, some_start());
    c->state[SAM47_AT_HOLD] = (uint8_t)(any() % 8);
    c->state[SAM47_AT_HOLD + 1] = 0;
}

/* The calls of a case, each from the last one's log end; one that is refused leaves the log as it was. */
static const char *runs_unlike(uint32_t number)
{
    static struct head_case c;
    make_sound_case(number, &c);
    if (one_in(2)) {
        put_counter(&c);
        put_fresh_counter(&c);
    }
    size_t end = c.log_start;
    for (uint32_t k = 0; k < c.calls; k++)
        end = sam47_table_run(c.rom, c.rom_len, c.table, c.table_len, c.state, c.state_len, c.trace, c.trace_len, c.log, c.log_len, end, c.budgets[k]).log_end;
    return own_log_unlike(c.log + c.log_start, end - c.log_start, BY_RUNS);
}

/* Heads of one ROM, each with as long a part of the log as the first one's case has. */
static struct {
    uint8_t states[HEADS * SAM47_STATE_BYTES], traces[HEADS * TRACE_MOST], log[HEADS * LOG_MOST];
    uint64_t trace_lens[HEADS], log_starts[HEADS];
    size_t traces_len, part;
} lorry;

static void line_up(struct head_case *c, uint32_t number)
{
    int counts = one_in(2);
    make_sound_case(number, c);
    if (counts)
        put_counter(c);
    lorry.traces_len = 0;
    lorry.part = c->log_len;
    for (uint32_t head = 0; head < HEADS; head++) {
        if (head > 0)
            make_other_head(number + head, c);
        if (counts)
            put_fresh_counter(c);
        memcpy(lorry.states + head * SAM47_STATE_BYTES, c->state, SAM47_STATE_BYTES);
        memcpy(lorry.traces + lorry.traces_len, c->trace, c->trace_len);
        lorry.trace_lens[head] = c->trace_len;
        lorry.traces_len += c->trace_len;
        lorry.log_starts[head] = 0;
    }
}

/* Two dispatches, the second from each head's log end; one that is refused, for a trace that is too long, has no logs. */
static const char *dispatches_unlike(uint32_t number)
{
    static struct head_case c;
    const char *unlike = NULL;
    line_up(&c, number);
    for (int k = 0; k < DISPATCHES; k++) {
        uint32_t q = 1 + any() % STEPS_MOST, turns = any() % TURNS_MOST;
        struct sam47_heads a =
            sam47_dispatch(HEADS, c.rom, c.rom_len, c.table, c.table_len, lorry.states, sizeof lorry.states, lorry.traces, lorry.traces_len, lorry.trace_lens,
                           HEADS, lorry.log, HEADS * lorry.part, lorry.log_starts, HEADS, q, turns);
        for (uint32_t head = 0; head < HEADS; head++)
            lorry.log_starts[head] = a.head[head].log_end;
    }
    for (uint32_t head = 0; head < HEADS && !unlike; head++)
        unlike = own_log_unlike(lorry.log + head * lorry.part, lorry.log_starts[head], BY_DISPATCH);
    return unlike;
}

static const char *case_unlike(uint32_t number)
{
    static struct slip s;
    seed_from(number);
    make_log(&s, number % LONG_ONE_IN == 0);
    make_marks(&s, some_count());
    s.is_refused = 0;
    if (one_in(FAULT_ONE_IN))
        spoil(&s);
    const char *unlike = slip_unlike(&s, AT_RANDOM);
    if (!unlike && number % RUNS_ONE_IN == 1)
        unlike = runs_unlike(number);
    return unlike || number % DISPATCH_ONE_IN != 2 ? unlike : dispatches_unlike(number);
}

/* More litres than 16 bits hold, at two clocks, and so the farms' counts. */
static const char *a_long_log_unlike(void)
{
    enum { LITRES = 65537, UNPLACED_LITRES = 65536, RECORDS = 2 * (LITRES + UNPLACED_LITRES) };
    static uint8_t log[RECORDS * RECORD];
    static const uint32_t marks[] = {1};
    for (size_t i = 0; i < RECORDS; i++)
        put_record(log + i * RECORD, i >= 2 * UNPLACED_LITRES, P4, (i + 1) % 2);
    struct peer_lines wanted = peer_litres(log, sizeof log, marks, 1);
    struct sam47_lines a = counted(log, sizeof log, marks, 1);
    if (wanted.unplaced != UNPLACED_LITRES || wanted.farm[0] != LITRES)
        return "the lines of litres.c";
    return a.number != SAM47_DONE || a.unplaced != UNPLACED_LITRES || a.farm[0] != LITRES ? "the lines" : NULL;
}

/* ---- the report --------------------------------------------------------------------------------------------- */

static int report_all(void)
{
    int none = report("logs", log_names, met.logs, LOG_KINDS) + report("litres", litre_names, met.litres, LITRE_KINDS);
    none += report("marks", marks_names, met.marks, MARKS_KINDS) + report("faults", fault_names, met.faults, FAULTS);
    none += report("logs by what wrote them", source_names, met.sources, SOURCES) + report("litres of those accepted", source_names, met.litres_of, SOURCES);
    return none + (met.set_at_cut == 0);
}

int main(int count, char **words)
{
    struct range wanted = cases_of("slips", count, words);
    uint64_t cases = 0, unlike = 0;
    const char *of_long_log = a_long_log_unlike();
    if (of_long_log && ++unlike)
        printf("a long log differs: %s\n", of_long_log);
    for (uint32_t number = wanted.first; number <= wanted.last; number++, cases++) {
        const char *what = case_unlike(number);
        if (what && unlike++ < 5)
            printf("case %" PRIu32 " differs: %s\n", number, what);
    }
    int unmet = report_all();
    printf("slips: %" PRIu64 " cases and a long log, %" PRIu64 " unlike; %" PRIu64 " calls; %" PRIu64 " logs refused, %" PRIu64 " with one more in halves\n",
           cases, unlike, met.calls, met.refused, met.set_at_cut);
    if (cases >= ENOUGH_FOR_ALL && unmet > 0)
        printf("slips: %d kinds were never met\n", unmet);
    return unlike > 0 || (cases >= ENOUGH_FOR_ALL && unmet > 0);
}
