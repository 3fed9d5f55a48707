/* Gives the recorded turns of several heads by the library, and counts the cases that fail.
 *
 *   tools/archive.sh
 *   make -C tests recorded
 *
 * The cases are packed in dispatch.bin.xz (tools/pack_vectors.py; packed.h reads it). Numbers have four bytes, low byte first. The file is the mark "SAM47DSP",
 * the number 1, how many cases there are, and the cases. A case's head is fourteen numbers:
 *   0 the case's own number
 *   1 the head count
 *   2 the steps of a turn
 *   3 the turns of the call
 *   4 the ROM's length
 *   5 the table's length, or FFFFFFFFH for the table that predecode makes of the ROM, whose bytes are left out
 *   6 the length of the states
 *   7 the length of the traces
 *   8 the log's length
 *   9 how many trace lengths there are
 *   10 how many log starts there are
 *   11 the number answered
 *   12 the address answered
 *   13 how many heads' answers there are: the head count, or 0 if the call is refused
 * Then stand
 *   the bytes of the ROM, the table, the states, the traces and the log;
 *   the trace lengths, then the log starts, each as two numbers, the lower half first;
 *   the number, steps, address and log end of each head's answer;
 *   the states and the log that the call left;
 *   the mark "DONE".
 *
 * Each failing case prints a line, and the last line counts. The exit status is 0 if as many cases as wanted were played and none failed, 1 if one
 * failed, and 2 if the file has fewer or more cases, is cut short, or has another form. */
#include "packed.h"
#include "runs.h"
#include "sam47.h"

#include <inttypes.h>

enum { CASE_HEAD = 14 /* the numbers above */, LIST_MOST = 2 * SAM47_HEADS_MOST /* lists of another size are recorded too */, NUMBERS = SAM47_TURN + 1 };

struct list {
    size_t len;
    uint64_t of[LIST_MOST];
};

struct recorded {
    uint32_t id, heads, steps, turns;
    struct part rom, table, states, traces, log;
    struct list trace_lens, log_starts;
    struct sam47_heads answer;
    struct part states_left, log_left;
};

/* How often each number was answered by the call, and how many heads were done or stopped. */
static struct {
    unsigned long numbers[NUMBERS], done, stopped;
} met;

static void take_list(struct list *list, size_t len)
{
    if (len > LIST_MOST)
        give_up("a list is too long");
    list->len = len;
    for (size_t i = 0; i < len; i++)
        list->of[i] = take_long_number();
}

static void take_case(struct recorded *c)
{
    uint32_t head[CASE_HEAD];
    for (int k = 0; k < CASE_HEAD; k++)
        head[k] = take_number();
    c->id = head[0];
    c->heads = head[1];
    c->steps = head[2];
    c->turns = head[3];
    c->rom = take(head[4]);
    c->table = take_table(c->rom, head[5]);
    c->states = take(head[6]);
    c->traces = take(head[7]);
    c->log = take(head[8]);
    take_list(&c->trace_lens, head[9]);
    take_list(&c->log_starts, head[10]);
    c->answer = (struct sam47_heads){.number = head[11], .address = head[12]};
    if (head[13] > SAM47_HEADS_MOST)
        give_up("a case has too many answers");
    for (uint32_t i = 0; i < head[13]; i++)
        c->answer.head[i] = take_answer();
    c->states_left = take(c->states.len);
    c->log_left = take(c->log.len);
    take_mark("DONE");
}

static int answers_alike(const struct sam47_heads *a, const struct sam47_heads *b)
{
    int is = a->number == b->number && a->address == b->address && a->turns == b->turns;
    for (int i = 0; i < SAM47_HEADS_MOST; i++)
        is = is && alike(a->head[i], b->head[i]);
    return is;
}

static void count(const struct sam47_heads *a, uint32_t heads)
{
    if (a->number < NUMBERS)
        met.numbers[a->number]++;
    for (uint32_t i = 0; i < heads && a->number == SAM47_DONE; i++) {
        met.done += a->head[i].number == SAM47_DONE;
        met.stopped += a->head[i].number != SAM47_DONE;
    }
}

/* What is not as recorded, NULL if all is. */
static const char *fault_in(const struct recorded *c)
{
    uint8_t *states = copy_of(c->states), *log = copy_of(c->log);
    struct sam47_heads a =
        sam47_dispatch(c->heads, c->rom.bytes, c->rom.len, c->table.bytes, c->table.len, states, c->states.len, c->traces.bytes, c->traces.len,
                       c->trace_lens.of, c->trace_lens.len, log, c->log.len, c->log_starts.of, c->log_starts.len, c->steps, c->turns);
    const char *fault = answers_alike(&a, &c->answer) ? NULL : "the answer";
    if (memcmp(states, c->states_left.bytes, c->states.len) != 0)
        fault = "the states left";
    if (memcmp(log, c->log_left.bytes, c->log.len) != 0)
        fault = "the log left";
    count(&a, c->heads);
    free(states);
    free(log);
    return fault;
}

static void report(unsigned long cases, unsigned long failed)
{
    printf("recorded: %lu dispatches, %lu failed; %lu done, with %lu heads done and %lu stopped", cases, failed, met.numbers[SAM47_DONE], met.done,
           met.stopped);
    for (int number = SAM47_ROM; number < NUMBERS; number++)
        if (met.numbers[number] > 0)
            printf("; %lu refused with %d", met.numbers[number], number);
    printf("\n");
}

int main(int argc, char **argv)
{
    static struct recorded c;
    if (argc != 3)
        give_up("give the packed file and how many cases it has");
    unsigned long wanted = open_packed(argv[1], "SAM47DSP", argv[2]), failed = 0;
    for (unsigned long i = 0; i < wanted; i++) {
        take_case(&c);
        failed += !as_recorded(c.id, fault_in(&c));
    }
    close_packed();
    report(wanted, failed);
    return failed != 0;
}
