/* Random numbers from a seed, the same on every machine, for the test programs. */
#ifndef RANDOM_H
#define RANDOM_H
#include <stdint.h>

static uint64_t seed;

/* A seed from a small number, by the last steps of splitmix64, so that neighbours have little in common. */
static void seed_from(uint64_t number)
{
    uint64_t z = (number + 1) * 0x9E3779B97F4A7C15u;
    z = (z ^ z >> 30) * 0xBF58476D1CE4E5B9u;
    z = (z ^ z >> 27) * 0x94D049BB133111EBu;
    seed = (z ^ z >> 31) | 1;
}

/* xorshift */
static uint32_t any(void)
{
    seed ^= seed << 13;
    seed ^= seed >> 7;
    seed ^= seed << 17;
    return (uint32_t)(seed >> 16);
}

#endif
