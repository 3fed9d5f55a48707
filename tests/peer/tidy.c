/* The tidy form of a trace in plain C, written from document 01 ("The trace") and document 02 (No. 3) alone and apart from the proved one. The records are
 * read into a list of events first, and the list is written out. */
#include "peer.h"

#include <string.h>

enum { PORTS = 7, RESET = 1 << 7, WAIT = 1 << 8, FIELDS = RESET - 1, KNOWN_BITS = FIELDS | RESET | WAIT };
enum { WAIT_MOST = 65535, TRACE_MOST = 65536, EVENTS_MOST = TRACE_MOST / 2 /* a record has two bytes or more */ };

static const uint8_t pins_most[PORTS] = {7, 3, 15, 7, 15, 15, 15};

/* A record with ports or a reset, at its due time. */
struct event {
    uint32_t due;
    int is_reset, has_field[PORTS];
    uint8_t pins[PORTS];
};

/* Where the reader stands, in a trace of which so many bytes are left. */
struct reader {
    const uint8_t *next;
    size_t left;
    int is_cut; /* more bytes were asked for than are left */
};

/* The form as far as it is written; what has no room is only counted. */
struct writer {
    uint8_t bytes[TRACE_MOST];
    size_t length;
};

static unsigned byte(struct reader *r)
{
    if (r->left == 0) {
        r->is_cut = 1;
        return 0;
    }
    r->left--;
    return *r->next++;
}

static unsigned two_bytes(struct reader *r)
{
    unsigned low = byte(r);
    return low + 256 * byte(r);
}

/* Reads a record: its wait and what else it has. Answers 0 if it is malformed. */
static int read_record(struct reader *r, uint32_t *wait, struct event *e)
{
    unsigned map = two_bytes(r);
    if (map == 0 || (map & ~(unsigned)KNOWN_BITS) != 0)
        return 0;
    *wait = map & WAIT ? two_bytes(r) : 0;
    if (map & WAIT && *wait == 0)
        return 0;
    e->is_reset = (map & RESET) != 0;
    for (unsigned port = 0; port < PORTS; port++) {
        e->has_field[port] = (map >> port & 1) != 0;
        e->pins[port] = e->has_field[port] ? (uint8_t)byte(r) : 0;
        if (e->pins[port] & ~pins_most[port])
            return 0;
    }
    return !r->is_cut;
}

static int is_event(const struct event *e)
{
    int is = e->is_reset;
    for (unsigned port = 0; port < PORTS; port++)
        is = is || e->has_field[port];
    return is;
}

/* Lists a trace's events, and answers where its records end: at the trace's end, or where a malformed one starts. */
static size_t list_events(const uint8_t *trace, size_t trace_len, struct event *events, size_t *count)
{
    struct reader r = {trace, trace_len, 0};
    uint32_t now = 0;
    *count = 0;
    while (r.left > 0) {
        size_t start = trace_len - r.left;
        struct event *e = &events[*count];
        uint32_t wait;
        if (!read_record(&r, &wait, e))
            return start;
        now += wait;
        e->due = now;
        *count += is_event(e);
    }
    return trace_len;
}

static void put(struct writer *w, unsigned byte)
{
    if (w->length < sizeof w->bytes)
        w->bytes[w->length] = (uint8_t)byte;
    w->length++;
}

static void put_two_bytes(struct writer *w, unsigned number)
{
    put(w, number % 256);
    put(w, number / 256);
}

static void put_event(struct writer *w, const struct event *e, uint32_t wait)
{
    unsigned map = (e->is_reset ? RESET : 0) + (wait > 0 ? WAIT : 0);
    for (unsigned port = 0; port < PORTS; port++)
        map += e->has_field[port] ? 1u << port : 0;
    put_two_bytes(w, map);
    if (wait > 0)
        put_two_bytes(w, wait);
    for (unsigned port = 0; port < PORTS; port++)
        if (e->has_field[port])
            put(w, e->pins[port]);
}

static void put_events(struct writer *w, const struct event *events, size_t count)
{
    uint32_t last = 0;
    w->length = 0;
    for (size_t i = 0; i < count; i++) {
        uint32_t gap = events[i].due - last;
        for (; gap > WAIT_MOST; gap -= WAIT_MOST) {
            put_two_bytes(w, WAIT);
            put_two_bytes(w, WAIT_MOST);
        }
        put_event(w, &events[i], gap);
        last = events[i].due;
    }
}

struct peer_written peer_tidy(const uint8_t *trace, size_t trace_len, uint8_t *out, size_t out_len)
{
    static struct event events[EVENTS_MOST];
    static struct writer form;
    size_t count;
    if (trace_len > TRACE_MOST)
        return (struct peer_written){6, TRACE_MOST, 0};
    size_t end = list_events(trace, trace_len, events, &count);
    if (end < trace_len)
        return (struct peer_written){6, (uint32_t)end, 0};
    put_events(&form, events, count);
    if (out_len < form.length)
        return (struct peer_written){13, 0, 0};
    memcpy(out, form.bytes, form.length);
    return (struct peer_written){0, 0, form.length};
}
