/* What the C tests share: the header, a count of what failed, and putting a number into a sheet. */
#ifndef NURIMKKOT_TESTS_CHECK_H
#define NURIMKKOT_TESTS_CHECK_H

#include "../../c/nurimkkot.h"

#include <stdio.h>
#include <stdlib.h>
#include <string.h>

/* The settings sheet of document 01's board. */
static const uint8_t HOUSE[NURIMKKOT_HOUSE_SETTINGS] = {'L', 'X', 'T', 1, 0, 6, 0x01, 0x05, 0x03, 0x12, 0x0c, 0x18};

static int failures;

static void expect(int holds, const char *what, long at)
{
    if (!holds) {
        printf("FAILED: %s (%ld)\n", what, at);
        failures++;
    }
}

/* A condition that is known when the test is built; one that does not hold is an array of length -1. */
#define HOLDS(name, condition) typedef char name[(condition) ? 1 : -1]

/* Puts a number of so many bytes, low byte first; gives where the next one goes. */
static inline uint8_t *put(uint8_t *at, uint32_t value, int bytes)
{
    for (; bytes > 0; bytes--) {
        *at++ = (uint8_t)(value % 256);
        value /= 256;
    }
    return at;
}

#endif
