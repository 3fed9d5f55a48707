/* Counts the litres of the recorded logs by the library, and counts the cases that fail.
 *
 *   tools/archive.sh
 *   make -C tests recorded
 *
 * The cases are packed in litres.bin.xz (tools/pack_vectors.py; packed.h reads it). Numbers have four bytes, low byte first. The file is the mark "SAM47LIT",
 * the number 1, how many cases there are, and the cases. A case's head is five numbers:
 *   0 the case's own number
 *   1 the log's length
 *   2 how many marks there are
 *   3 the number answered
 *   4 how many farms' lines there are: as many as marks, or 0 if the call is refused
 * Then stand
 *   the bytes of the log;
 *   the marks;
 *   the unplaced litres, then each farm's, each as two numbers, the lower half first;
 *   the mark "DONE".
 *
 * Each failing case prints a line, and the last line counts. The exit status is 0 if as many cases as wanted were played and none failed, 1 if one
 * failed, and 2 if the file has fewer or more cases, is cut short, or has another form. */
#include "packed.h"
#include "sam47.h"

#include <inttypes.h>

enum { MARKS_MOST = 1000 /* lists that are too long are recorded too */ };

struct recorded {
    uint32_t id;
    struct part log;
    size_t marks_len;
    uint32_t marks[MARKS_MOST];
    struct sam47_lines answer;
};

/* What the library answered. */
static struct {
    unsigned long done, refused;
    uint64_t placed, unplaced;
} met;

static void take_case(struct recorded *c)
{
    c->id = take_number();
    size_t log_len = take_number();
    c->marks_len = take_number();
    c->answer = (struct sam47_lines){.number = take_number()};
    size_t farms = take_number();
    if (c->marks_len > MARKS_MOST || farms > SAM47_FARMS_MOST)
        give_up("a case has too many marks or lines");
    c->log = take(log_len);
    for (size_t i = 0; i < c->marks_len; i++)
        c->marks[i] = take_number();
    c->answer.unplaced = take_long_number();
    for (size_t i = 0; i < farms; i++)
        c->answer.farm[i] = take_long_number();
    take_mark("DONE");
}

static void count(const struct sam47_lines *a)
{
    met.done += a->number == SAM47_DONE;
    met.refused += a->number == SAM47_LITRES;
    met.unplaced += a->unplaced;
    for (int i = 0; i < SAM47_FARMS_MOST; i++)
        met.placed += a->farm[i];
}

/* What is not as recorded, NULL if all is. */
static const char *fault_in(const struct recorded *c)
{
    uint8_t *log = copy_of(c->log);
    struct sam47_lines a = sam47_litres(log, c->log.len, c->marks, c->marks_len);
    const char *fault = memcmp(log, c->log.bytes, c->log.len) != 0 ? "the log, which was lent to be read only" : NULL;
    free(log);
    if (memcmp(a.farm, c->answer.farm, sizeof a.farm) != 0)
        fault = "a farm's line";
    if (a.unplaced != c->answer.unplaced)
        fault = "the unplaced litres";
    if (a.number != c->answer.number)
        fault = "the number";
    count(&a);
    return fault;
}

int main(int argc, char **argv)
{
    static struct recorded c;
    if (argc != 3)
        give_up("give the packed file and how many cases it has");
    unsigned long wanted = open_packed(argv[1], "SAM47LIT", argv[2]), failed = 0;
    for (unsigned long i = 0; i < wanted; i++) {
        take_case(&c);
        failed += !as_recorded(c.id, fault_in(&c));
    }
    close_packed();
    printf("recorded: %lu logs counted, %lu failed; %lu done, with %" PRIu64 " litres of farms and %" PRIu64 " unplaced, %lu refused with 16\n", wanted, failed,
           met.done, met.placed, met.unplaced, met.refused);
    return failed != 0;
}
