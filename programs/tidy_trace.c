/* tidy_trace: writes the tidy form of trace.bin, in the folder that it is run in, to standard output.
 *
 *   cd ROUND && tidy_trace > tidy.bin
 *
 * Where trace.bin can't be read or is refused, nothing is written, and where the tidy form can't be written, some of it may be; why is told on standard
 * error, with a refusal's number and place, and the exit status is 1. A missing file is not an empty trace: an empty tidy file would stand for the round. */
#include "sam47.h"

#include <errno.h>
#include <inttypes.h>
#include <stdio.h>
#include <stdlib.h>
#include <string.h>

/* A byte more than the longest trace, so that a longer file is refused and not cut short. */
enum { TRACE_ROOM = SAM47_TRACE_BYTES_MOST + 1 };

static const char name[] = "trace.bin";

static void give_up(const char *what)
{
    fprintf(stderr, "tidy_trace: %s: %s\n", what, strerror(errno));
    exit(EXIT_FAILURE);
}

static size_t read_trace(uint8_t *bytes)
{
    FILE *file = fopen(name, "rb");
    if (!file)
        give_up(name);
    size_t len = fread(bytes, 1, TRACE_ROOM, file);
    if (ferror(file))
        give_up(name);
    fclose(file);
    return len;
}

static void tell_refusal(struct sam47_written refused)
{
    fprintf(stderr, "tidy_trace: %s is refused with %" PRIu32 " (%s) at %" PRIu32 ": ", name, refused.number, sam47_word(refused.number), refused.address);
    if (refused.number != SAM47_TRACE)
        fprintf(stderr, "%s\n", sam47_meaning(refused.number));
    else if (refused.address == SAM47_TRACE_BYTES_MOST)
        fprintf(stderr, "it is longer than a trace may be\n");
    else
        fprintf(stderr, "the record that starts at this byte is malformed\n");
}

static void write_all(const uint8_t *bytes, size_t len)
{
    if (fwrite(bytes, 1, len, stdout) != len || fflush(stdout) != 0)
        give_up("standard output");
}

int main(int argc, char **argv)
{
    static uint8_t trace[TRACE_ROOM], tidy[TRACE_ROOM];
    (void)argv;
    if (argc > 1) {
        fprintf(stderr, "tidy_trace: takes no words; it reads %s of the folder that it is run in\n", name);
        return EXIT_FAILURE;
    }
    size_t len = read_trace(trace);
    struct sam47_written written = sam47_tidy(trace, len, tidy, sizeof tidy);
    if (written.number != SAM47_DONE) {
        tell_refusal(written);
        return EXIT_FAILURE;
    }
    write_all(tidy, written.length);
    return EXIT_SUCCESS;
}
