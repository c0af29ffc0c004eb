/* What guard.c and forms.c share: the worked listing of document 01, and copies that valgrind watches. */
#ifndef NURIMKKOT_TESTS_SHEETS_H
#define NURIMKKOT_TESTS_SHEETS_H

#include "check.h"

static const uint8_t EXERCISE[57] = {
    'L', 'X', 'E', 1, 0, 4, 0, 2, 0,
    2, 0, 4, 0, 6, 0, 0, 0, 8, 0, 0, 0, 0, 0, 0, 0, 10, 0, 0, 0, 0, 0, 0, 0,
    1, 0, 10, 0, 0, 0, 0, 0, 0, 0, 0, 0, 4, 0, 0, 0, 0, 0, 0, 0, 0, 0, 0, 0,
};
static const uint8_t ANSWER[19] = {
    'L', 'X', 'A', 1, 0, 7, 0, 0, 0, 2, 0, 2, 1, 0, 0, 2, 1, 0, 0,
};

/* A sheet or list of no bytes stands behind a block of this many, which keeps the alignment of every type. */
#define BEHIND 16

/* A block of its own for each sheet and list, so that valgrind sees a read past the end, of one that is empty too. */
static void *copy_of(const void *bytes, size_t length)
{
    uint8_t *copy = malloc(length ? length : BEHIND);
    if (copy == NULL)
        exit(2);
    if (length == 0)
        return copy + BEHIND;
    memcpy(copy, bytes, length);
    return copy;
}

/* Sees that a copy was not written to, and gives its block back. */
static void give_back(void *copy, const void *bytes, size_t length)
{
    expect(length == 0 || memcmp(copy, bytes, length) == 0, "a sheet or list was written to", (long)length);
    free(length ? copy : (uint8_t *)copy - BEHIND);
}

#endif
