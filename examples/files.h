/* What the examples share: numbers as arguments, files, and records of a log. What is wrong with these ends the program with status 2. */
#ifndef FILES_H
#define FILES_H
#include "sam47.h"

#include <errno.h>
#include <inttypes.h>
#include <stdio.h>
#include <stdlib.h>
#include <string.h>

static const char *program; /* its name, for messages */

static void give_up(const char *what, const char *why)
{
    fprintf(stderr, "%s: %s: %s\n", program, what, why);
    exit(2);
}

static uint32_t number_at(const uint8_t *bytes, size_t len)
{
    uint32_t number = 0;
    while (len-- > 0)
        number = number << 8 | bytes[len];
    return number;
}

static uint32_t argument(const char *text)
{
    /* strtoull would take a sign and white space */
    if (*text == '\0' || text[strspn(text, "0123456789")] != '\0')
        give_up(text, "not a decimal number");
    errno = 0;
    unsigned long long number = strtoull(text, NULL, 10);
    if (errno != 0 || number > UINT32_MAX)
        give_up(text, "above 4294967295");
    return (uint32_t)number;
}

/* The file's bytes, as far as there is room; how many they are. */
static size_t read_all(FILE *file, const char *path, uint8_t *bytes, size_t room)
{
    size_t len = fread(bytes, 1, room, file);
    if (ferror(file))
        give_up(path, "cannot be read");
    fclose(file);
    return len;
}

static size_t read_file(const char *path, uint8_t *bytes, size_t room)
{
    FILE *file = fopen(path, "rb");
    if (!file)
        give_up(path, strerror(errno));
    return read_all(file, path, bytes, room);
}

/* A printf that failed shows here at the latest. */
static void flush_records(void)
{
    if (fflush(stdout) != 0 || ferror(stdout))
        give_up("standard output", "cannot be written");
}

static void print_records(const uint8_t *log, uint64_t start, uint64_t end)
{
    for (uint64_t at = start; at < end; at += SAM47_LOG_RECORD_BYTES)
        printf("%" PRIu32 " %d %d\n", number_at(log + at + SAM47_LOG_AT_CLOCK, 4), log[at + SAM47_LOG_AT_PORT], log[at + SAM47_LOG_AT_NIBBLE]);
}

#endif
