/* An example for the recorder: plays a round from a ROM file and a trace file, some calls at each start, and goes on at the next start where it
 * left off.
 *
 *   recorder ROM TRACE SAVED BUDGET CALLS
 *
 * Makes up to CALLS calls of BUDGET steps each. Prints a line for each record of the log, "clock port nibble", and last "number steps address clock
 * pc", the steps those of this start, all in decimal. SAVED keeps the state, the log's end and the ROM's sum, behind a mark, the form's version and the
 * state's size; where there is no such file the round begins fresh. It goes on with the same ROM only; that the trace is the same, or the same with more
 * records behind it, stays with the caller. A file of another version is refused: an older head's state has no timer, or no hold.
 * Exit status: 0 done, 1 a call was refused or stopped (standard error says why), 2 a wrong argument or file. `make -C examples` tries it. */
#define _POSIX_C_SOURCE 200809L /* fileno, fsync */
#include "files.h"

#include <unistd.h>

enum {
    LOG_BYTES = 16 * SAM47_LOG_RECORD_BYTES, /* small, so that the example's round fills it some times; see run_budget */
    WORD_BYTES = 4,
    SAVED_VERSION = 3, /* 2 had 664 bytes of state, without the hold; 1 had 662, without the timer too, and no mark, version or size */
    MARK_AT = 0,
    VERSION_AT = MARK_AT + WORD_BYTES,
    SIZE_AT = VERSION_AT + WORD_BYTES,
    STATE_AT = SIZE_AT + WORD_BYTES,
    SAVED_BYTES = STATE_AT + SAM47_STATE_BYTES + 2 * WORD_BYTES, /* these, the state, the log's end, the ROM's sum */
    ROM_ROOM = SAM47_ROM_BYTES_C0504 + 1, /* one byte more than is accepted: a file that is too long shows, and the library refuses it */
    TRACE_ROOM = SAM47_TRACE_BYTES_MOST + 1,
    SAVED_ROOM = SAVED_BYTES + 1
};

/* A step logs each of the five driven ports at most once, so an empty log holds the records of any step, and emptying it always helps. */
_Static_assert(LOG_BYTES >= 5 * SAM47_LOG_RECORD_BYTES, "the log holds a step's records");

static const char mark[WORD_BYTES + 1] = "SM47";

struct round {
    uint8_t rom[ROM_ROOM], table[SAM47_TABLE_BYTES_PER_ADDRESS * ROM_ROOM], trace[TRACE_ROOM], log[LOG_BYTES];
    uint8_t saved[SAVED_ROOM]; /* as in the file */
    size_t rom_len, trace_len, state_len, log_end;
    uint64_t steps;
};

static void put_word(uint8_t *bytes, uint32_t word)
{
    for (size_t i = 0; i < WORD_BYTES; i++)
        bytes[i] = (uint8_t)(word >> 8 * i);
}

/* FNV-1a: enough to know a ROM again, not to keep a forger out. */
static uint32_t sum_of(const uint8_t *bytes, size_t len)
{
    uint32_t sum = 2166136261u;
    for (size_t i = 0; i < len; i++)
        sum = (sum ^ bytes[i]) * 16777619u;
    return sum;
}

static uint8_t *state_of(struct round *round) { return round->saved + STATE_AT; }

/* The file's mark, version and state size are those that `save` writes; else the program ends, for a fresh start would write over the round. */
static void know_form(const uint8_t *saved, size_t len, const char *path)
{
    if (len < STATE_AT || memcmp(saved + MARK_AT, mark, WORD_BYTES) != 0)
        give_up(path, "no saved round of this recorder; before version 2 it had no mark, and a state of 662 bytes without the timer");
    uint32_t version = number_at(saved + VERSION_AT, WORD_BYTES);
    if (version < SAVED_VERSION)
        give_up(path, "saved by an older recorder, whose head was not held after a reset");
    if (version > SAVED_VERSION)
        give_up(path, "saved by a newer recorder");
    if (number_at(saved + SIZE_AT, WORD_BYTES) != SAM47_STATE_BYTES)
        give_up(path, "saved with a state of another size");
}

/* Takes up the saved round. A file of another length makes a state of another length, which the library refuses; the state itself is the library's
 * to test. What it cannot know is that the round was played by another ROM. */
static void take_up(struct round *round, FILE *file, const char *path)
{
    size_t len = read_all(file, path, round->saved, SAVED_ROOM), others_len = STATE_AT + 2 * WORD_BYTES;
    know_form(round->saved, len, path);
    round->state_len = len < others_len ? 0 : len - others_len;
    const uint8_t *behind = state_of(round) + round->state_len;
    round->log_end = number_at(behind, WORD_BYTES);
    if (len == SAVED_BYTES && number_at(behind + WORD_BYTES, WORD_BYTES) != sum_of(round->rom, round->rom_len))
        give_up(path, "saved with another ROM");
}

/* The state to go on from: the saved one, or a fresh one where nothing is saved. A saved file that is there but cannot be opened ends the program,
 * for a fresh start would write over the round. */
static uint32_t begin(struct round *round, const char *path)
{
    FILE *file = fopen(path, "rb");
    if (file) {
        take_up(round, file, path);
        return SAM47_DONE;
    }
    if (errno != ENOENT)
        give_up(path, strerror(errno));
    round->state_len = SAM47_STATE_BYTES;
    return sam47_fresh(round->rom, round->rom_len, state_of(round), round->state_len);
}

/* Saves under another name first, and on the disk before the name changes: if the power fails, the file holds the round before this call or after it,
 * and never half of each. The records are out by then, so that such a failure prints some of them again and loses none. */
static void save(struct round *round, const char *path)
{
    char new_path[FILENAME_MAX];
    int length = snprintf(new_path, sizeof new_path, "%s.new", path);
    if (length < 0 || (size_t)length >= sizeof new_path)
        give_up(path, "name too long");
    uint8_t *behind = state_of(round) + SAM47_STATE_BYTES;
    memcpy(round->saved + MARK_AT, mark, WORD_BYTES);
    put_word(round->saved + VERSION_AT, SAVED_VERSION);
    put_word(round->saved + SIZE_AT, SAM47_STATE_BYTES);
    put_word(behind, (uint32_t)round->log_end);
    put_word(behind + WORD_BYTES, sum_of(round->rom, round->rom_len));
    flush_records(); /* they must be out before the round is saved as played */
    FILE *file = fopen(new_path, "wb");
    if (!file)
        give_up(new_path, strerror(errno));
    int on_disk = fwrite(round->saved, 1, SAVED_BYTES, file) == SAVED_BYTES && fflush(file) == 0 && fsync(fileno(file)) == 0;
    if (fclose(file) != 0 || !on_disk || rename(new_path, path) != 0)
        give_up(path, "cannot be saved");
}

/* Makes one budget of steps. A full log ends a call and not the round: its records are printed, so it can be written anew from its start, and the
 * rest of the budget follows. */
static struct sam47_answer run_budget(struct round *round, uint32_t budget)
{
    for (;;) {
        struct sam47_answer answer =
            sam47_table_run(round->rom, round->rom_len, round->table, SAM47_TABLE_BYTES_PER_ADDRESS * round->rom_len, state_of(round),
                            round->state_len, round->trace, round->trace_len, round->log, LOG_BYTES, round->log_end, budget);
        print_records(round->log, round->log_end, answer.log_end);
        round->steps += answer.steps;
        round->log_end = (size_t)answer.log_end;
        if (answer.number != SAM47_FULL)
            return answer;
        round->log_end = 0;
        budget -= answer.steps;
    }
}

/* The calls of this start, up to one that is not done. A stop is saved too, for its state is that after the last whole step; a refusal has changed
 * nothing, so nothing is saved. */
static struct sam47_answer run_calls(struct round *round, const char *saved, uint32_t budget, uint32_t calls)
{
    struct sam47_answer answer = {.number = SAM47_DONE};
    while (answer.number == SAM47_DONE && calls-- > 0) {
        answer = run_budget(round, budget);
        if (answer.number == SAM47_DONE || answer.number >= SAM47_CODE)
            save(round, saved);
    }
    return answer;
}

static int report(struct round *round, const char *call, struct sam47_answer answer)
{
    const uint8_t *state = state_of(round);
    printf("%" PRIu32 " %" PRIu64 " %" PRIu32 " %" PRIu32 " %" PRIu32 "\n", answer.number, round->steps, answer.address,
           number_at(state + SAM47_AT_CLOCK, 4), number_at(state + SAM47_AT_PC, 2));
    flush_records();
    if (answer.number == SAM47_DONE)
        return 0;
    fprintf(stderr, "%s: %s answered %" PRIu32 ", %s: %s (address %" PRIu32 ")\n", program, call, answer.number, sam47_word(answer.number),
            sam47_meaning(answer.number), answer.address);
    return 1;
}

int main(int argc, char **argv)
{
    static struct round round; /* too large for a small board's stack */
    program = "recorder";
    if (argc != 6)
        give_up("usage", "recorder ROM TRACE SAVED BUDGET CALLS");
    uint32_t budget = argument(argv[4]), calls = argument(argv[5]);
    if (calls == 0)
        give_up(argv[5], "no calls");
    round.rom_len = read_file(argv[1], round.rom, ROM_ROOM);
    round.trace_len = read_file(argv[2], round.trace, TRACE_ROOM);

    struct sam47_answer answer = {.number = sam47_predecode(round.rom, round.rom_len, round.table, SAM47_TABLE_BYTES_PER_ADDRESS * round.rom_len)};
    if (answer.number != SAM47_DONE)
        return report(&round, "sam47_predecode", answer);
    answer.number = begin(&round, argv[3]);
    if (answer.number != SAM47_DONE)
        return report(&round, "sam47_fresh", answer);
    return report(&round, "sam47_table_run", run_calls(&round, argv[3], budget, calls));
}
