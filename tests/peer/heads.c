/* The turns of several heads in plain C, written from document 02 (No. 5) alone and apart from the proved ones. The lists are read into a row of heads, each
 * with its own bytes; all heads are tested, and then each turn is one run of the plain machine over one head's bytes. */
#include "peer.h"

enum { STATE_BYTES = 666, ROM_C0502 = 2048, ROM_C0504 = 4096, TABLE_BYTES_PER_ADDRESS = 4 };
enum { DONE, ROM, TABLE, IMAGE, HEADS = 14, TURN = 15 };

struct code {
    const uint8_t *rom, *table;
    size_t rom_len, table_len;
};

/* A head's own bytes, and where it stands in the call. */
struct head {
    uint8_t *state, *log;
    const uint8_t *trace;
    size_t trace_len, log_len, log_start;
    struct peer_answer answer;
    uint32_t had;
};

/* The lengths add up to the buffer's, as exact numbers: none is more than what is left of it, and none of it is left. */
static int add_up(const uint64_t *lengths, uint32_t count, size_t whole)
{
    uint64_t left = whole;
    for (uint32_t i = 0; i < count; i++) {
        if (lengths[i] > left)
            return 0;
        left -= lengths[i];
    }
    return left == 0;
}

/* The tests that look at no byte. */
static uint32_t misfit(uint32_t heads, const struct code *c, size_t states_len, size_t traces_len, const uint64_t *trace_lens,
                       size_t trace_lens_len, size_t log_starts_len, uint32_t q)
{
    if (heads == 0 || heads > PEER_HEADS_MOST || trace_lens_len != heads || log_starts_len != heads)
        return HEADS;
    if (!add_up(trace_lens, heads, traces_len))
        return HEADS;
    if (q == 0)
        return TURN;
    if (c->rom_len != ROM_C0502 && c->rom_len != ROM_C0504)
        return ROM;
    if (c->table_len != TABLE_BYTES_PER_ADDRESS * c->rom_len)
        return TABLE;
    return states_len != heads * (size_t)STATE_BYTES ? IMAGE : DONE;
}

static void line_up(struct head *row, uint32_t heads, uint8_t *states, const uint8_t *traces, const uint64_t *trace_lens, uint8_t *log,
                    size_t log_len, const uint64_t *log_starts)
{
    size_t part = log_len / heads;
    for (uint32_t i = 0; i < heads; i++) {
        row[i] = (struct head){.state = states, .log = log, .trace = traces, .trace_len = trace_lens[i], .log_len = part, .log_start = log_starts[i]};
        row[i].answer.log_end = log_starts[i];
        states += STATE_BYTES;
        traces += trace_lens[i];
        log += part;
    }
}

/* What a run of no steps answers: 4 to 8, the table's 5 among them for one head, or done. */
static struct peer_answer tested(const struct head *h, const struct code *c, int with_table)
{
    if (with_table)
        return peer_table_run(c->rom, c->rom_len, c->table, c->table_len, h->state, STATE_BYTES, h->trace, h->trace_len, h->log, h->log_len, h->log_start, 0);
    return peer_plain_run(c->rom, c->rom_len, h->state, STATE_BYTES, h->trace, h->trace_len, h->log, h->log_len, h->log_start, 0);
}

/* A turn: the machine's steps from the ROM, which are those of a table that was found to be the ROM's. */
static void take_turn(struct head *h, const struct code *c, uint32_t q)
{
    struct peer_answer a =
        peer_plain_run(c->rom, c->rom_len, h->state, STATE_BYTES, h->trace, h->trace_len, h->log, h->log_len, h->answer.log_end, q);
    a.steps += h->answer.steps;
    h->answer = a;
    h->had++;
}

static int has_stopped(const struct head *h) { return h->answer.number != DONE; }

/* The next head from this one on that has not stopped; `heads` if there is none. */
static uint32_t next_going(const struct head *row, uint32_t heads, uint32_t from)
{
    uint32_t i = from;
    while (i < heads && has_stopped(&row[i]))
        i++;
    return i;
}

static void take_turns(struct head *row, uint32_t heads, const struct code *c, uint32_t q, uint32_t turns)
{
    uint32_t next = 0;
    for (uint32_t given = 0; given < turns; given++) {
        uint32_t now = next_going(row, heads, next);
        if (now == heads)
            now = next_going(row, heads, 0); /* round again */
        if (now == heads)
            return; /* all have stopped */
        take_turn(&row[now], c, q);
        next = now + 1;
    }
}

struct peer_heads peer_dispatch(uint32_t heads, const uint8_t *rom, size_t rom_len, const uint8_t *table, size_t table_len, uint8_t *states,
                                size_t states_len, const uint8_t *traces, size_t traces_len, const uint64_t *trace_lens,
                                size_t trace_lens_len, uint8_t *log, size_t log_len, const uint64_t *log_starts, size_t log_starts_len,
                                uint32_t q, uint32_t turns)
{
    struct code c = {rom, table, rom_len, table_len};
    struct head row[PEER_HEADS_MOST];
    struct peer_heads answer = {0};
    answer.number = misfit(heads, &c, states_len, traces_len, trace_lens, trace_lens_len, log_starts_len, q);
    if (answer.number != DONE)
        return answer;
    line_up(row, heads, states, traces, trace_lens, log, log_len, log_starts);
    for (uint32_t i = 0; i < heads; i++) {
        struct peer_answer a = tested(&row[i], &c, i == 0);
        if (a.number != DONE)
            return (struct peer_heads){.number = a.number, .address = a.address};
    }
    take_turns(row, heads, &c, q, turns);
    for (uint32_t i = 0; i < heads; i++) {
        answer.head[i] = row[i].answer;
        answer.had[i] = row[i].had;
    }
    return answer;
}
