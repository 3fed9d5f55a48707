/* Tidies the recorded traces by the library, and counts the cases that fail.
 *
 *   tools/archive.sh
 *   make -C tests recorded
 *
 * The cases are packed in tidy.bin.xz (tools/pack_vectors.py; packed.h reads it). Numbers have four bytes, low byte first. The file is the mark "SAM47TDY", the
 * number 1, how many cases there are, and the cases. A case's head is six numbers:
 *   0 the case's own number
 *   1 the trace's length
 *   2 the output buffer's length
 *   3 the number answered
 *   4 the address answered
 *   5 the length answered
 * Then stand
 *   the bytes of the trace;
 *   the output buffer before the call, and after it;
 *   the mark "DONE".
 *
 * Each failing case prints a line, and the last line counts. The exit status is 0 if as many cases as wanted were played and none failed, 1 if one
 * failed, and 2 if the file has fewer or more cases, is cut short, or has another form. */
#include "packed.h"
#include "sam47.h"

#include <inttypes.h>

struct recorded {
    uint32_t id;
    struct part trace, given, left; /* the output buffer before the call and after it */
    struct sam47_written answer;
};

/* How often each number was answered. */
static unsigned long met[SAM47_SHORT + 1];

static void take_case(struct recorded *c)
{
    c->id = take_number();
    size_t trace_len = take_number(), out_len = take_number();
    c->answer.number = take_number();
    c->answer.address = take_number();
    c->answer.length = take_number();
    c->trace = take(trace_len);
    c->given = take(out_len);
    c->left = take(out_len);
    take_mark("DONE");
}

/* What is not as recorded, NULL if all is. */
static const char *fault_in(const struct recorded *c)
{
    uint8_t *out = copy_of(c->given);
    struct sam47_written a = sam47_tidy(c->trace.bytes, c->trace.len, out, c->given.len);
    const char *fault = memcmp(out, c->left.bytes, c->left.len) != 0 ? "the output buffer" : NULL;
    free(out);
    if (a.number <= SAM47_SHORT)
        met[a.number]++;
    if (a.number != c->answer.number || a.address != c->answer.address || a.length != c->answer.length)
        fault = "the answer";
    return fault;
}

int main(int argc, char **argv)
{
    if (argc != 3)
        give_up("give the packed file and how many cases it has");
    unsigned long wanted = open_packed(argv[1], "SAM47TDY", argv[2]), failed = 0;
    for (unsigned long i = 0; i < wanted; i++) {
        struct recorded c;
        take_case(&c);
        failed += !as_recorded(c.id, fault_in(&c));
    }
    close_packed();
    printf("recorded: %lu traces tidied, %lu failed; %lu done, %lu refused with 6 and %lu with 13\n", wanted, failed, met[SAM47_DONE], met[SAM47_TRACE],
           met[SAM47_SHORT]);
    return failed != 0;
}
