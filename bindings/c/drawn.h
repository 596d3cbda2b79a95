/* The random numbers of fuzz.c: those of a seed, or the bytes that libFuzzer gives, and zeros after these. */
#ifndef DRAWN_H
#define DRAWN_H

#include <stdbool.h>
#include <stddef.h>
#include <stdint.h>

static uint64_t state;
static const uint8_t *given; /* the bytes of libFuzzer, where there are some */
static size_t given_left;
static bool is_given;

static uint64_t drawn(void)
{
    if (is_given) {
        if (given_left == 0)
            return 0;
        given_left--;
        return *given++;
    }
    state = state * 6364136223846793005u + 1442695040888963407u;
    return state >> 33;
}

static uint64_t below(uint64_t n)
{
    return drawn() % n;
}

static bool one_in(uint64_t n)
{
    return below(n) == n - 1;
}

#endif
