/* What the programs of the benchmark share: input, a clock, and an end with a message. */
#pragma once
#include <stdint.h>
#include <stdio.h>
#include <stdlib.h>
#include <time.h>

static inline void stop(const char *what)
{
    dprintf(2, "bench: %s\n", what);
    exit(1);
}

static inline void fill(uint8_t *bytes, size_t length, uint64_t x)
{
    for (size_t i = 0; i < length; i++) {
        x ^= x >> 12;
        x ^= x << 25;
        x ^= x >> 27;
        bytes[i] = (uint8_t)(x * 0x2545F4914F6CDD1Du >> 56);
    }
}

static inline double now(void)
{
    struct timespec t;
    clock_gettime(CLOCK_MONOTONIC, &t);
    return (double)t.tv_sec + (double)t.tv_nsec / 1e9;
}
