/* What class.c, minutes.c and write.c share: numbers that look random, the same in each run. */
#ifndef NURIMKKOT_TESTS_CHANCE_H
#define NURIMKKOT_TESTS_CHANCE_H

#include <stdint.h>

static uint32_t chance(uint32_t below)
{
    static uint64_t state = 88172645463325252u;
    state ^= state << 13;
    state ^= state >> 7;
    state ^= state << 17;
    return (uint32_t)((state >> 16) % below);
}

#endif
