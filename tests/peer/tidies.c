/* Tidies random and damaged traces by the library and by the plain C of tidy.c, and counts those that end unlike.
 *
 *   make -C tests peer                   many, beside the other cases
 *   target/tests/tidies FIRST LAST       the cases of these numbers; the library is built by `tools/archive.sh`
 *
 * A case is a list of events, written as a trace with its waits cut at random, and in one case of three damaged. It is tidied into buffers of several
 * lengths: answer and buffer are compared whole, with the bytes behind it, and a refusal's number and place are held to the damage. An accepted trace's tidy
 * form may not be longer than the trace, is its own tidy form, is that of the same events with their waits cut otherwise, and is not that of other events.
 * Before the cases every map and every wait is tried, and the longest traces of one record again and again, and of one gap.
 * The exit status is 1 if a case differs, or if two thousand cases or more leave a kind of trace, gap, damage or buffer unmet. */
#include "../random.h"
#include "peer.h"
#include "sam47.h"
#include "tally.h"

#include <string.h>

enum { PORTS = 7, RESET = 1 << 7, WAIT = 1 << 8, FIRST_UNKNOWN_BIT = 9, MAP_BITS = 16, MAPS = 1 << MAP_BITS, BYTE_BITS = 8 };
enum { MAP_BYTES = 2, WAIT_BYTES = 2, WAIT_ONLY_BYTES = MAP_BYTES + WAIT_BYTES, RECORD_MOST = WAIT_ONLY_BYTES + PORTS, WAIT_MOST = 65535 };
enum { EVENTS_MOST = 4096, FEW_EVENTS = 12, LONG_ONE_IN = 256, TRAILING_MOST = 3, BEYOND = 16, ENOUGH_FOR_ALL = 2000 };
enum { EVENT_ROOM = 1024 /* for an event and the waits before it */, TRACE_ROOM = SAM47_TRACE_BYTES_MOST + EVENT_ROOM, OUT_ROOM = TRACE_ROOM + BEYOND };

/* The gaps at which the tidy form changes; cases have others too. */
static const uint32_t gaps[] = {0, 1, 65534, 65535, 65536, 65537, 131069, 131070, 131071, 196605};

enum { GAPS = sizeof gaps / sizeof gaps[0] };

static const uint8_t pins_most[PORTS] = {7, 3, 15, 7, 15, 15, 15};

enum damage { MAP_ZERO, UNKNOWN_BIT, WAIT_ZERO, ABSENT_PIN, CUT, TOO_LONG, DAMAGES };

static const char *const damage_names[DAMAGES] = {"map 0", "a bit of 9 to 15", "a wait of 0", "an absent pin", "cut off", "too long"};

enum shape {
    EMPTY, ONLY_WAITS, AT_ONE_TIME, FIELDS_ALONE, RESET_ALONE, RESET_WITH_FIELDS, WAITS_ADDED, TRAILING, LONGEST, TIDY_ALREADY, SHORTENED,
    TWICE_DAMAGED, SHAPES
};

static const char *const shape_names[SHAPES] = {"empty",         "only waits",     "two at one time", "fields alone", "reset alone", "reset with fields",
                                                "waits added up", "trailing waits", "65,536 bytes",    "tidy already", "shortened",   "damaged twice"};

enum buffer { NONE, ONE_SHORT, EXACT, LONGER, AS_THE_TRACE, BUFFERS };

static const char *const buffer_names[BUFFERS] = {"of no bytes", "one byte short", "exact", "longer", "as long as the trace"};

struct event {
    uint32_t gap; /* since the event before it, or 0 */
    unsigned low; /* the map's low byte: fields and reset */
    uint8_t pins[PORTS];
};

struct meaning {
    size_t count;
    struct event events[EVENTS_MOST];
};

struct trace {
    size_t len, records, starts[SAM47_TRACE_BYTES_MOST]; /* where each record starts */
    uint8_t bytes[TRACE_ROOM];
    int is_refused;
    uint32_t place; /* of the first damage */
};

/* What the cases met; the gaps are those of accepted traces. */
static struct {
    uint64_t calls, numbers[SAM47_SHORT + 1], gaps[GAPS], damages[DAMAGES], shapes[SHAPES], buffers[BUFFERS];
} met;

/* ---- traces ------------------------------------------------------------------------------------------------- */

static void put_byte(struct trace *t, unsigned byte) { t->bytes[t->len++] = (uint8_t)byte; }

static void put_two_bytes(struct trace *t, unsigned number)
{
    put_byte(t, number & 0xFF);
    put_byte(t, number >> BYTE_BITS);
}

static void put_record(struct trace *t, unsigned low, uint32_t wait, const uint8_t *pins)
{
    t->starts[t->records++] = t->len;
    put_two_bytes(t, low | (wait > 0 ? WAIT : 0));
    if (wait > 0)
        put_two_bytes(t, wait);
    for (unsigned port = 0; port < PORTS; port++)
        if (low >> port & 1)
            put_byte(t, pins[port]);
}

static uint32_t least(uint32_t a, uint32_t b) { return a < b ? a : b; }

/* A wait of at most `most`: often all that fits, or 1. */
static uint32_t some_wait(uint32_t most)
{
    uint32_t fits = least(most, WAIT_MOST);
    switch (any() % 4) {
    case 0: return 1;
    case 1: return 1 + any() % fits;
    default: return fits;
    }
}

/* A gap as waits cut at random: some in records that only wait, the last in the event's own record if it has one. */
static void put_event(struct trace *t, const struct event *e)
{
    uint32_t own = e->gap > 0 && any() % 4 != 0 ? some_wait(e->gap) : 0, left = e->gap - own;
    while (left > 0) {
        uint32_t wait = some_wait(left);
        put_record(t, 0, wait, NULL);
        left -= wait;
    }
    put_record(t, e->low, own, e->pins);
}

/* One trace in four ends in waits. */
static void put_trailing(struct trace *t)
{
    unsigned records = any() % (4 * TRAILING_MOST);
    for (unsigned i = 0; i < records && records <= TRAILING_MOST; i++)
        put_record(t, 0, some_wait(WAIT_MOST), NULL);
}

/* Writes the events as far as they fit; the others are dropped. */
static void put_meaning(struct trace *t, struct meaning *m)
{
    size_t put = 0;
    t->len = t->records = 0;
    t->is_refused = 0;
    while (put < m->count && t->len < SAM47_TRACE_BYTES_MOST - EVENT_ROOM)
        put_event(t, &m->events[put++]);
    m->count = put;
}

/* More records without a field, or with one where the length is odd, until the trace has `len` bytes. */
static void fill_up(struct trace *t, size_t len)
{
    static const uint8_t none[PORTS];
    while (t->len < len) {
        size_t left = len - t->len;
        if (left % 2 == 1)
            put_record(t, 1, 0, none);
        else if (left < WAIT_ONLY_BYTES || any() % 2 == 0)
            put_record(t, RESET, 0, none);
        else
            put_record(t, 0, some_wait(WAIT_MOST), NULL);
    }
}

static uint32_t some_gap(void)
{
    switch (any() % 4) {
    case 0: return any() % 1000;
    case 1: return any() % (4 * WAIT_MOST);
    default: return gaps[any() % GAPS];
    }
}

static void make_event(struct event *e)
{
    e->gap = some_gap();
    do
        e->low = any() % 4 == 0 ? RESET : any() % 256;
    while (e->low == 0);
    for (unsigned port = 0; port < PORTS; port++)
        e->pins[port] = e->low >> port & 1 ? any() & pins_most[port] : 0;
}

static void make_meaning(struct meaning *m, int is_long)
{
    m->count = is_long ? EVENTS_MOST : any() % FEW_EVENTS;
    for (size_t i = 0; i < m->count; i++)
        make_event(&m->events[i]);
}

/* Another meaning: one event less, a reset more or less beside its fields, another pin, or one event a cycle later. */
static void change(struct meaning *m)
{
    struct event *e = &m->events[any() % m->count];
    unsigned kind = any() % 4, port = any() % PORTS;
    if (kind == 0)
        m->count--;
    else if (kind == 1 && (e->low & ~RESET) != 0)
        e->low ^= RESET;
    else if (kind == 2 && e->low >> port & 1)
        e->pins[port] ^= 1;
    else
        e->gap++;
}

/* ---- damage ------------------------------------------------------------------------------------------------- */

static unsigned map_at(const struct trace *t, size_t start) { return t->bytes[start] | (unsigned)t->bytes[start + 1] << BYTE_BITS; }

/* Where the field of a port, or of PORTS the record's end, is in the record that starts there. */
static size_t field_at(const struct trace *t, size_t start, unsigned port)
{
    unsigned map = map_at(t, start);
    size_t at = start + MAP_BYTES + (map & WAIT ? WAIT_BYTES : 0);
    for (unsigned before = 0; before < port; before++)
        at += map >> before & 1;
    return at;
}

static int set_absent_pin(struct trace *t, size_t start)
{
    unsigned port = any() % PORTS, bit = any() % BYTE_BITS, map = map_at(t, start);
    if ((map & (RESET - 1)) == 0)
        return 0;
    while (!(map >> port & 1))
        port = (port + 1) % PORTS;
    while (pins_most[port] >> bit & 1)
        bit = (bit + 1) % BYTE_BITS;
    t->bytes[field_at(t, start, port)] |= (uint8_t)(1u << bit);
    return 1;
}

/* Damages the record that starts there; answers 0 if it has no such place. */
static int damage_record(struct trace *t, enum damage damage, size_t start)
{
    switch (damage) {
    case MAP_ZERO:
        t->bytes[start] = t->bytes[start + 1] = 0;
        return 1;
    case UNKNOWN_BIT:
        t->bytes[start + 1] |= (uint8_t)(1u << (FIRST_UNKNOWN_BIT - BYTE_BITS + any() % (MAP_BITS - FIRST_UNKNOWN_BIT)));
        return 1;
    case WAIT_ZERO:
        if (!(map_at(t, start) & WAIT))
            return 0;
        t->bytes[start + MAP_BYTES] = t->bytes[start + MAP_BYTES + 1] = 0;
        return 1;
    case ABSENT_PIN:
        return set_absent_pin(t, start);
    default:
        t->len = start + 1 + any() % (field_at(t, start, PORTS) - start - 1);
        return 1;
    }
}

static void make_too_long(struct trace *t)
{
    fill_up(t, SAM47_TRACE_BYTES_MOST + 1 + any() % RECORD_MOST);
    t->is_refused = 1;
    t->place = SAM47_TRACE_BYTES_MOST;
    met.damages[TOO_LONG]++;
}

/* One damage; sometimes another behind it, or a trace that is too long as well, which is told before all. */
static void damage_trace(struct trace *t, int is_long)
{
    if (t->records > 0) {
        enum damage damage = any() % TOO_LONG;
        size_t record = any() % t->records, behind = record + any() % (t->records - record);
        if (behind > record)
            met.shapes[TWICE_DAMAGED] += (uint64_t)damage_record(t, MAP_ZERO, t->starts[behind]);
        if (damage_record(t, damage, t->starts[record])) {
            t->is_refused = 1;
            t->place = (uint32_t)t->starts[record];
            met.damages[damage]++;
        } else if (behind > record) {
            t->is_refused = 1;
            t->place = (uint32_t)t->starts[behind];
        }
    }
    if (is_long && any() % 2 == 0)
        make_too_long(t);
}

/* ---- comparing: each answers what differs, or NULL ---------------------------------------------------------- */

/* Both tidy the trace, each into a buffer of its own; the answer is the library's. */
static const char *calls_unlike(const struct trace *t, size_t out_len, struct sam47_written *answer, uint8_t *out)
{
    static uint8_t peer_out[OUT_ROOM], kept[TRACE_ROOM];
    for (size_t i = 0; i < out_len + BEYOND; i++)
        out[i] = peer_out[i] = (uint8_t)any();
    memcpy(kept, t->bytes, t->len);
    struct peer_written wanted = peer_tidy(t->bytes, t->len, peer_out, out_len);
    *answer = sam47_tidy(t->bytes, t->len, out, out_len);
    met.calls++;
    if (answer->number <= SAM47_SHORT)
        met.numbers[answer->number]++;
    if (answer->number != wanted.number)
        return "number";
    if (answer->address != wanted.address)
        return "address";
    if (answer->length != wanted.length)
        return "length";
    if (memcmp(out, peer_out, out_len + BEYOND) != 0)
        return "output buffer";
    return memcmp(kept, t->bytes, t->len) != 0 ? "a trace that was lent to be read only" : NULL;
}

static const char *refusal_unlike(const struct trace *t, struct sam47_written a)
{
    if (!t->is_refused)
        return a.number == SAM47_TRACE ? "a good trace is refused" : NULL;
    return a.number != SAM47_TRACE || a.address != t->place || a.length != 0 ? "the refusal of a damaged trace" : NULL;
}

/* The bytes are a trace that means the same as one with this tidy form. */
static const char *form_unlike(const struct trace *t, const uint8_t *form, size_t length)
{
    static uint8_t out[OUT_ROOM];
    struct sam47_written a;
    const char *unlike = calls_unlike(t, t->len, &a, out);
    if (unlike)
        return unlike;
    return a.number != SAM47_DONE || a.length != length || memcmp(out, form, length) != 0 ? "tidy forms of one meaning" : NULL;
}

static const char *tidied_again_unlike(const uint8_t *form, size_t length)
{
    static struct trace again;
    memcpy(again.bytes, form, length);
    again.len = length;
    return form_unlike(&again, form, length);
}

static const char *other_meaning_unlike(struct meaning *m, const uint8_t *form, size_t length)
{
    static struct trace other;
    static uint8_t out[OUT_ROOM];
    struct sam47_written a;
    change(m);
    put_meaning(&other, m);
    const char *unlike = calls_unlike(&other, other.len, &a, out);
    if (unlike)
        return unlike;
    return a.length == length && memcmp(out, form, length) == 0 ? "tidy forms of two meanings are one" : NULL;
}

/* The same events with their waits cut otherwise, then other events. */
static const char *meanings_unlike(struct meaning *m, const uint8_t *form, size_t length)
{
    static struct trace written_anew;
    put_meaning(&written_anew, m);
    const char *unlike = form_unlike(&written_anew, form, length);
    return unlike || m->count == 0 ? unlike : other_meaning_unlike(m, form, length);
}

static size_t buffer_length(enum buffer buffer, size_t length, size_t trace_len)
{
    switch (buffer) {
    case NONE: return 0;
    case ONE_SHORT: return length > 0 ? length - 1 : 0;
    case EXACT: return length;
    case LONGER: return length + 1 + any() % BEYOND;
    default: return trace_len;
    }
}

static const char *buffers_unlike(const struct trace *t, size_t length)
{
    static uint8_t out[OUT_ROOM];
    const char *unlike = NULL;
    for (enum buffer buffer = NONE; buffer < BUFFERS && !unlike; buffer++) {
        struct sam47_written a;
        size_t out_len = buffer_length(buffer, length, t->len);
        unlike = calls_unlike(t, out_len, &a, out);
        if (!unlike && (a.number == SAM47_SHORT) != (!t->is_refused && out_len < length))
            unlike = "the refusal of a buffer";
        met.buffers[buffer] += !t->is_refused;
    }
    return unlike;
}

static const char *trace_unlike(const struct trace *t, uint8_t *form, size_t *length)
{
    struct sam47_written a;
    const char *unlike = calls_unlike(t, t->len, &a, form);
    *length = a.length;
    if (!unlike)
        unlike = refusal_unlike(t, a);
    if (!unlike && !t->is_refused && a.number != SAM47_DONE)
        unlike = "a tidy form is longer than the trace";
    return unlike;
}

/* ---- what was met ------------------------------------------------------------------------------------------- */

static void note_event(const struct event *e, int is_first)
{
    for (int i = 0; i < GAPS; i++)
        met.gaps[i] += e->gap == gaps[i];
    met.shapes[AT_ONE_TIME] += !is_first && e->gap == 0;
    met.shapes[FIELDS_ALONE] += e->low < RESET;
    met.shapes[RESET_ALONE] += e->low == RESET;
    met.shapes[RESET_WITH_FIELDS] += e->low > RESET;
}

static int is_wait_only(const struct trace *t, size_t record) { return map_at(t, t->starts[record]) == WAIT; }

/* Three or more records in a row that only wait, with an event behind them. */
static int has_added_waits(const struct trace *t)
{
    enum { ROW = 3 };
    size_t row = 0;
    for (size_t i = 0; i < t->records; i++) {
        if (!is_wait_only(t, i) && row >= ROW)
            return 1;
        row = is_wait_only(t, i) ? row + 1 : 0;
    }
    return 0;
}

static void note_accepted(const struct trace *t, const struct meaning *m, const uint8_t *form, size_t length)
{
    for (size_t i = 0; i < m->count; i++)
        note_event(&m->events[i], i == 0);
    int is_empty = t->len == 0, is_same = length == t->len && memcmp(form, t->bytes, length) == 0;
    met.shapes[EMPTY] += is_empty;
    met.shapes[ONLY_WAITS] += !is_empty && length == 0;
    met.shapes[WAITS_ADDED] += has_added_waits(t);
    met.shapes[TRAILING] += length > 0 && is_wait_only(t, t->records - 1);
    met.shapes[LONGEST] += t->len == SAM47_TRACE_BYTES_MOST;
    met.shapes[TIDY_ALREADY] += !is_empty && is_same;
    met.shapes[SHORTENED] += length < t->len;
}

/* ---- cases -------------------------------------------------------------------------------------------------- */

static const char *case_unlike(uint32_t number)
{
    static struct meaning m;
    static struct trace t;
    static uint8_t form[OUT_ROOM];
    size_t length;
    int is_long = number % LONG_ONE_IN == 0;
    seed_from(number);
    make_meaning(&m, is_long);
    put_meaning(&t, &m);
    put_trailing(&t);
    if (is_long && any() % 2 == 0)
        fill_up(&t, SAM47_TRACE_BYTES_MOST);
    if (any() % 3 == 0)
        damage_trace(&t, is_long);
    const char *unlike = trace_unlike(&t, form, &length);
    if (!unlike)
        unlike = buffers_unlike(&t, length);
    if (unlike || t.is_refused)
        return unlike;
    note_accepted(&t, &m, form, length);
    unlike = tidied_again_unlike(form, length);
    return unlike || is_long ? unlike : meanings_unlike(&m, form, length);
}

/* Every map, with the fields it names and, where it has one, a wait; whole, and with a byte less. */
static const char *a_map_unlike(void)
{
    static struct trace t;
    static uint8_t form[OUT_ROOM];
    size_t length;
    const char *unlike = NULL;
    for (unsigned map = 0; map < MAPS && !unlike; map++) {
        t.len = t.records = 0;
        put_record(&t, map & (WAIT - 1), map & WAIT ? WAIT_MOST : 0, pins_most);
        t.bytes[1] = (uint8_t)(map >> BYTE_BITS);
        t.is_refused = map == 0 || map >> FIRST_UNKNOWN_BIT != 0;
        unlike = trace_unlike(&t, form, &length);
        t.len--;
        t.is_refused = 1;
        if (!unlike)
            unlike = trace_unlike(&t, form, &length);
    }
    return unlike;
}

/* Every wait before a reset, behind a record that waits as long as one can. */
static const char *a_wait_unlike(void)
{
    static struct trace t;
    static uint8_t form[OUT_ROOM];
    size_t length;
    const char *unlike = NULL;
    for (unsigned wait = 1; wait <= WAIT_MOST && !unlike; wait++) {
        t.len = t.records = 0;
        put_record(&t, RESET, wait, NULL);
        put_record(&t, 0, WAIT_MOST, NULL);
        put_record(&t, RESET, wait, NULL);
        unlike = trace_unlike(&t, form, &length);
        if (!unlike && (length != t.len || memcmp(form, t.bytes, length) != 0))
            unlike = "a tidy trace is changed";
    }
    return unlike;
}

/* The longest traces of one record again and again, behind a gap or not: resets are the most events that a trace can have. */
static const char *a_row_unlike(void)
{
    static const struct event rows[] = {{0, RESET, {0}}, {0, 1, {7}}, {WAIT_MOST, RESET, {0}}, {1, 0xFF, {7, 3, 15, 7, 15, 15, 15}}, {2 * WAIT_MOST + 1, RESET, {0}}};
    static struct trace t;
    static uint8_t form[OUT_ROOM];
    size_t length;
    const char *unlike = NULL;
    for (size_t row = 0; row < sizeof rows / sizeof rows[0] && !unlike; row++) {
        size_t end = 0;
        t.records = t.len = 0;
        do {
            end = t.len;
            put_event(&t, &rows[row]);
        } while (t.len <= SAM47_TRACE_BYTES_MOST);
        t.len = end; /* the last does not fit */
        unlike = trace_unlike(&t, form, &length);
        if (!unlike)
            unlike = tidied_again_unlike(form, length);
    }
    return unlike;
}

/* The longest gap, and the one with as many waits of 1: records that only wait as far as they go, then a reset. */
static const char *a_long_gap_unlike(void)
{
    static const uint32_t waits[] = {1, WAIT_MOST};
    static struct trace t;
    static uint8_t form[OUT_ROOM];
    size_t length;
    const char *unlike = NULL;
    for (size_t i = 0; i < sizeof waits / sizeof waits[0] && !unlike; i++) {
        t.records = t.len = 0;
        while (t.len < SAM47_TRACE_BYTES_MOST - WAIT_ONLY_BYTES)
            put_record(&t, 0, waits[i], NULL);
        put_record(&t, RESET, waits[i], NULL);
        unlike = trace_unlike(&t, form, &length);
        if (!unlike && (length == t.len) != (waits[i] == WAIT_MOST))
            unlike = "the length of its tidy form";
    }
    return unlike;
}

/* ---- the report --------------------------------------------------------------------------------------------- */

static int report_gaps(void)
{
    int none = 0;
    printf("gaps:");
    for (int i = 0; i < GAPS; i++) {
        printf(" of %" PRIu32 " %" PRIu64 "%s", gaps[i], met.gaps[i], i + 1 < GAPS ? "," : "\n");
        none += met.gaps[i] == 0;
    }
    return none;
}

static int report_all(void)
{
    int none = report("traces", shape_names, met.shapes, SHAPES) + report_gaps();
    none += report("damage", damage_names, met.damages, DAMAGES) + report("output buffers", buffer_names, met.buffers, BUFFERS);
    printf("answers: done %" PRIu64 ", trace %" PRIu64 ", short %" PRIu64 "\n", met.numbers[SAM47_DONE], met.numbers[SAM47_TRACE], met.numbers[SAM47_SHORT]);
    return none;
}

static unsigned tell_unlike(const char *of, const char *what)
{
    if (what)
        printf("%s differs: %s\n", of, what);
    return what != NULL;
}

int main(int count, char **words)
{
    struct range wanted = cases_of("tidies", count, words);
    seed_from(0);
    uint64_t cases = 0, unlike = 0;
    unlike += tell_unlike("a map", a_map_unlike());
    unlike += tell_unlike("a wait", a_wait_unlike());
    unlike += tell_unlike("a row of one record", a_row_unlike());
    unlike += tell_unlike("a long gap", a_long_gap_unlike());
    for (uint32_t number = wanted.first; number <= wanted.last; number++, cases++) {
        const char *what = case_unlike(number);
        if (what && unlike++ < 5)
            printf("case %" PRIu32 " differs: %s\n", number, what);
    }
    int unmet = report_all();
    printf("tidies: %" PRIu64 " cases, every map, wait and row, %" PRIu64 " unlike; %" PRIu64 " calls\n", cases, unlike, met.calls);
    if (cases >= ENOUGH_FOR_ALL && unmet > 0)
        printf("tidies: %d kinds were never met\n", unmet);
    return unlike > 0 || (cases >= ENOUGH_FOR_ALL && unmet > 0);
}
