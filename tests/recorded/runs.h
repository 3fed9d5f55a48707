/* What packed cases of the runs and of the dispatcher have in common: tables that may be left out, and a run's answers. */
#ifndef RUNS_H
#define RUNS_H
#include "packed.h"
#include "sam47.h"

#define PREDECODED 0xFFFFFFFFu /* in place of a table's length: the table is the one that predecode makes of the ROM, and its bytes are left out */

/* The table that is recorded, or the ROM's own. */
static struct part take_table(struct part rom, uint32_t len)
{
    enum { ROM_MOST = SAM47_ROM_BYTES_C0504 };
    static uint8_t table[SAM47_TABLE_BYTES_PER_ADDRESS * ROM_MOST];
    if (len != PREDECODED)
        return take(len);
    size_t bytes = SAM47_TABLE_BYTES_PER_ADDRESS * rom.len;
    if (rom.len > ROM_MOST || sam47_predecode(rom.bytes, rom.len, table, bytes) != 0)
        give_up("predecode refuses the ROM of a case that asks for its table");
    return (struct part){table, bytes};
}

static struct sam47_answer take_answer(void)
{
    struct sam47_answer a;
    a.number = take_number();
    a.steps = take_number();
    a.address = take_number();
    a.log_end = take_number();
    return a;
}

static int alike(struct sam47_answer a, struct sam47_answer b)
{
    return a.number == b.number && a.steps == b.steps && a.address == b.address && a.log_end == b.log_end;
}

#endif
