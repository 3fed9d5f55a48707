/* What the programs that compare by numbered cases share: the numbers on the command line, and lines of counts. */
#ifndef TALLY_H
#define TALLY_H
#include <inttypes.h>
#include <stdio.h>
#include <stdlib.h>

struct range {
    uint32_t first, last;
};

static uint32_t case_number(const char *program, const char *word)
{
    char *end;
    unsigned long number = strtoul(word, &end, 10);
    if (*word < '0' || *word > '9' || *end != '\0' || number > UINT32_MAX - 1) {
        fprintf(stderr, "%s: %s is no case\n", program, word);
        exit(2);
    }
    return (uint32_t)number;
}

/* The first case and the last, from the words behind the program's own; without these, or where there is no case between, the program ends with status 2. */
static struct range cases_of(const char *program, int count, char **words)
{
    if (count != 3) {
        fprintf(stderr, "%s: give the first case and the last\n", program);
        exit(2);
    }
    struct range cases = {case_number(program, words[1]), case_number(program, words[2])};
    if (cases.first > cases.last) {
        fprintf(stderr, "%s: no case from %s to %s\n", program, words[1], words[2]);
        exit(2);
    }
    return cases;
}

/* A line of names with their counts; answers how many of these are 0. */
static int report(const char *of, const char *const *names, const uint64_t *counts, int length)
{
    int none = 0;
    printf("%s:", of);
    for (int k = 0; k < length; k++) {
        printf(" %s %" PRIu64 "%s", names[k], counts[k], k + 1 < length ? "," : "\n");
        none += counts[k] == 0;
    }
    return none;
}

#endif
