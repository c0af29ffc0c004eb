/* What minutes.c, null.c and stack.c share: logs, put together byte by byte. */
#ifndef NURIMKKOT_TESTS_LOGS_H
#define NURIMKKOT_TESTS_LOGS_H

#include "check.h"

struct entry {
    uint32_t apprentice;
    uint16_t verdict, opening, closing;
    uint32_t login;
};

/* Puts a log of these entries together; gives its length. */
static size_t put_log(uint8_t *log_bytes, const struct entry *entries, size_t count)
{
    uint8_t *at = put(put(put(log_bytes, 'L' + 256 * 'X' + 65536 * 'L', 3), 1, 2), (uint32_t)count, 2);
    size_t i;
    for (i = 0; i < count; i++) {
        at = put(put(at, entries[i].apprentice, 4), entries[i].verdict, 2);
        at = put(put(put(at, entries[i].opening, 2), entries[i].closing, 2), entries[i].login, 4);
    }
    return (size_t)(at - log_bytes);
}

#endif
