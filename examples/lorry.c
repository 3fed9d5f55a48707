/* An example for a lorry with three heads: plays their three traces with one ROM, the heads taking turns.
 *
 *   lorry ROM TRACE TRACE TRACE Q TURNS STEPS
 *
 * Each head begins fresh and is to make STEPS steps, no more. A call of the dispatcher gives at most TURNS turns of at most Q steps each, and calls are made
 * until every head has made its steps or has stopped. What is printed does not depend on Q and TURNS: for each head a line "head" with its number, a line
 * for each record of its log, "clock port nibble", and last "word steps address", the word that of its answer's number.
 * Exit status: 0 all heads made their steps, 1 one stopped or a call was refused (standard error says why), 2 a wrong argument or file.
 * `make -C examples` tries it. */
#include "files.h"

enum {
    HEADS = 3,
    LOG_PART = 10000 * SAM47_LOG_RECORD_BYTES, /* of each head */
    ROM_ROOM = SAM47_ROM_BYTES_C0504 + 1, /* one byte more than is accepted: a file that is too long shows, and the library refuses it */
    TRACE_ROOM = SAM47_TRACE_BYTES_MOST + 1
};

/* The heads that are still to make steps, as the dispatcher takes them: `states`, `traces` and `log` hold one head's bytes behind another's. */
struct lorry {
    uint8_t rom[ROM_ROOM], table[SAM47_TABLE_BYTES_PER_ADDRESS * ROM_ROOM];
    uint8_t states[HEADS * SAM47_STATE_BYTES], traces[HEADS * TRACE_ROOM], log[HEADS * LOG_PART];
    uint64_t trace_lens[HEADS], log_starts[HEADS];
    size_t rom_len, traces_len;
    uint32_t heads, number_of[HEADS] /* from 0 on, by files */, left[HEADS] /* steps still to make */;
};

/* What a head leaves that is done: its answer, over all calls, and its log. */
struct sheet {
    struct sam47_answer answer;
    uint8_t log[LOG_PART];
};

static uint32_t at_least_one(const char *text)
{
    uint32_t number = argument(text);
    if (number == 0)
        give_up(text, "must be 1 or more");
    return number;
}

static uint32_t least(uint32_t a, uint32_t b) { return a < b ? a : b; }

/* A head more, fresh and with its trace behind the others'. */
static uint32_t board(struct lorry *lorry, const char *trace, uint32_t steps)
{
    uint32_t place = lorry->heads++;
    lorry->trace_lens[place] = read_file(trace, lorry->traces + lorry->traces_len, TRACE_ROOM);
    lorry->traces_len += lorry->trace_lens[place];
    lorry->number_of[place] = place;
    lorry->left[place] = steps;
    return sam47_fresh(lorry->rom, lorry->rom_len, lorry->states + place * SAM47_STATE_BYTES, SAM47_STATE_BYTES);
}

static size_t trace_at(const struct lorry *lorry, uint32_t place)
{
    size_t at = 0;
    for (uint32_t i = 0; i < place; i++)
        at += lorry->trace_lens[i];
    return at;
}

/* Takes a place out of a row of equal items; those behind it move up. */
static void close_up(void *row, size_t item, uint32_t place, uint32_t count)
{
    uint8_t *at = (uint8_t *)row + place * item;
    memmove(at, at + item, (count - 1 - place) * item);
}

/* A head that is done leaves its log on its sheet, and its place: the dispatcher would go on to give it turns. */
static void leave(struct lorry *lorry, uint32_t place, struct sheet *sheets)
{
    size_t at = trace_at(lorry, place), behind = trace_at(lorry, place + 1);
    memcpy(sheets[lorry->number_of[place]].log, lorry->log + (size_t)place * LOG_PART, LOG_PART);
    memmove(lorry->traces + at, lorry->traces + behind, lorry->traces_len - behind);
    lorry->traces_len -= behind - at;
    close_up(lorry->states, SAM47_STATE_BYTES, place, lorry->heads);
    close_up(lorry->log, LOG_PART, place, lorry->heads);
    close_up(lorry->trace_lens, sizeof lorry->trace_lens[0], place, lorry->heads);
    close_up(lorry->log_starts, sizeof lorry->log_starts[0], place, lorry->heads);
    close_up(lorry->number_of, sizeof lorry->number_of[0], place, lorry->heads);
    close_up(lorry->left, sizeof lorry->left[0], place, lorry->heads);
    lorry->heads--;
}

/* One call. A head may get every turn of it where the others stop, so that all its turns together must be no more than it has left. The lengths of states
 * and log go with the heads, so that a head's part of the log is always LOG_PART. */
static struct sam47_heads call(struct lorry *lorry, uint32_t q, uint32_t turns)
{
    uint32_t left = UINT32_MAX;
    for (uint32_t i = 0; i < lorry->heads; i++)
        left = least(left, lorry->left[i]);
    q = least(q, left);
    turns = least(turns, left / q);
    return sam47_dispatch(lorry->heads, lorry->rom, lorry->rom_len, lorry->table, SAM47_TABLE_BYTES_PER_ADDRESS * lorry->rom_len, lorry->states,
                          lorry->heads * SAM47_STATE_BYTES, lorry->traces, lorry->traces_len, lorry->trace_lens, lorry->heads, lorry->log,
                          (size_t)lorry->heads * LOG_PART, lorry->log_starts, lorry->heads, q, turns);
}

/* Takes a call's answers down; from the last place on, for heads that leave move those behind them. */
static void take_down(struct lorry *lorry, const struct sam47_heads *answer, struct sheet *sheets)
{
    for (uint32_t place = lorry->heads; place-- > 0;) {
        struct sam47_answer head = answer->head[place], *sum = &sheets[lorry->number_of[place]].answer;
        lorry->left[place] -= head.steps;
        lorry->log_starts[place] = head.log_end;
        head.steps += sum->steps;
        *sum = head;
        if (head.number != SAM47_DONE || lorry->left[place] == 0)
            leave(lorry, place, sheets);
    }
}

static int refused(const char *call, uint32_t number, uint32_t address)
{
    fprintf(stderr, "%s: %s answered %" PRIu32 ", %s: %s (address %" PRIu32 ")\n", program, call, number, sam47_word(number), sam47_meaning(number), address);
    return 1;
}

/* Every head's log and last line; then, for those that stopped, why. */
static int report(const struct sheet *sheets)
{
    int status = 0;
    for (uint32_t i = 0; i < HEADS; i++) {
        struct sam47_answer a = sheets[i].answer;
        printf("head %" PRIu32 "\n", i);
        print_records(sheets[i].log, 0, a.log_end);
        printf("%s %" PRIu32 " %" PRIu32 "\n", sam47_word(a.number), a.steps, a.address);
    }
    flush_records();
    for (uint32_t i = 0; i < HEADS; i++) {
        struct sam47_answer a = sheets[i].answer;
        if (a.number == SAM47_DONE)
            continue;
        fprintf(stderr, "%s: head %" PRIu32 " stopped: %s (address %" PRIu32 ")\n", program, i, sam47_meaning(a.number), a.address);
        status = 1;
    }
    return status;
}

int main(int argc, char **argv)
{
    static struct lorry lorry; /* too large for a small board's stack */
    static struct sheet sheets[HEADS];
    program = "lorry";
    if (argc != 8)
        give_up("usage", "lorry ROM TRACE TRACE TRACE Q TURNS STEPS");
    uint32_t q = at_least_one(argv[5]), turns = at_least_one(argv[6]), steps = at_least_one(argv[7]);
    lorry.rom_len = read_file(argv[1], lorry.rom, ROM_ROOM);
    uint32_t number = sam47_predecode(lorry.rom, lorry.rom_len, lorry.table, SAM47_TABLE_BYTES_PER_ADDRESS * lorry.rom_len);
    if (number != SAM47_DONE)
        return refused("sam47_predecode", number, 0);
    for (int i = 0; i < HEADS; i++) {
        number = board(&lorry, argv[2 + i], steps);
        if (number != SAM47_DONE)
            return refused("sam47_fresh", number, 0);
    }
    while (lorry.heads > 0) {
        struct sam47_heads answer = call(&lorry, q, turns);
        if (answer.number != SAM47_DONE)
            return refused("sam47_dispatch", answer.number, answer.address);
        take_down(&lorry, &answer, sheets);
    }
    return report(sheets);
}
