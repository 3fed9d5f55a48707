/* Reads a file of packed cases: marks, numbers of four bytes with the low byte first, and bytes. One that is cut short or has another form ends the
 * program with status 2. */
#ifndef PACKED_H
#define PACKED_H
#include <inttypes.h>
#include <stdio.h>
#include <stdlib.h>
#include <string.h>

struct part {
    const uint8_t *bytes;
    size_t len;
};

static struct part rest; /* what is still to be read */

static void give_up(const char *why)
{
    fprintf(stderr, "recorded: %s\n", why);
    exit(2);
}

static void *room_for(size_t len)
{
    void *bytes = malloc(len + 1);
    if (!bytes)
        give_up("no memory");
    return bytes;
}

static struct part read_file(const char *name)
{
    FILE *f = fopen(name, "rb");
    if (!f || fseek(f, 0, SEEK_END) != 0)
        give_up("can't open the packed file");
    long len = ftell(f);
    rewind(f);
    uint8_t *bytes = room_for(len < 0 ? 0 : (size_t)len);
    if (len < 0 || fread(bytes, 1, (size_t)len, f) != (size_t)len)
        give_up("can't read the packed file");
    fclose(f);
    return (struct part){bytes, (size_t)len};
}

static struct part take(size_t len)
{
    struct part p = {rest.bytes, len};
    if (rest.len < len)
        give_up("the packed file is cut short");
    rest.bytes += len;
    rest.len -= len;
    return p;
}

static uint32_t take_number(void)
{
    const uint8_t *b = take(4).bytes;
    return b[0] | (uint32_t)b[1] << 8 | (uint32_t)b[2] << 16 | (uint32_t)b[3] << 24;
}

/* A number of eight bytes: two of four, the lower half first. */
static inline uint64_t take_long_number(void)
{
    uint64_t low = take_number();
    return low | (uint64_t)take_number() << 32;
}

static void take_mark(const char *mark)
{
    if (memcmp(take(strlen(mark)).bytes, mark, strlen(mark)) != 0)
        give_up("the packed file has another form");
}

/* Opens the packed file NAME of version 1 with that mark, which must have as many cases as the text says. */
static unsigned long open_packed(const char *name, const char *mark, const char *cases)
{
    unsigned long wanted = strtoul(cases, NULL, 10);
    rest = read_file(name);
    take_mark(mark);
    if (take_number() != 1 || take_number() != wanted)
        give_up("the packed file has another version, or not as many cases as wanted");
    return wanted;
}

/* Whether the case of that number is as recorded; else says what is not. */
static inline int as_recorded(uint32_t id, const char *fault)
{
    if (fault)
        printf("case %" PRIu32 " is not as recorded: %s\n", id, fault);
    return fault == NULL;
}

static void close_packed(void)
{
    if (rest.len != 0)
        give_up("the packed file goes on behind its last case");
}

static uint8_t *copy_of(struct part p)
{
    uint8_t *bytes = room_for(p.len);
    memcpy(bytes, p.bytes, p.len);
    return bytes;
}

#endif
