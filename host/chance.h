/* Numbers that look like chance and are the same in every run, for the hostile hosts. */
#ifndef CHANCE_H
#define CHANCE_H

#include <stdint.h>

static uint64_t seed = 2647435461u;

/* No two draws where C leaves their order open, as in two arguments of a call: each compiler would make other calls. */
static inline uint64_t draw(void)
{
    seed ^= seed << 13;
    seed ^= seed >> 7;
    seed ^= seed << 17;
    return seed;
}

static inline uint64_t below(uint64_t n)
{
    return (draw() >> 11) % n;
}

static inline int one_in(uint64_t n)
{
    return below(n) == 0;
}

#endif
