/* What class.c, null.c and page.c share: class sheets, put together as docs/SHEETS.md lists their bytes. */
#ifndef NURIMKKOT_TESTS_CLASSES_H
#define NURIMKKOT_TESTS_CLASSES_H

#include "check.h"

/* The bytes of a sheet, or of an answer on a class sheet. */
struct sheet {
    const uint8_t *bytes;
    size_t length;
};

/* The low 16 bits of a number, low byte first. */
static void put_word(uint8_t *at, size_t number)
{
    at[0] = (uint8_t)(number % 256);
    at[1] = (uint8_t)(number / 256 % 256);
}

/* Puts a class sheet of these answers together; gives its length. */
static size_t put_class(uint8_t *sheet, const struct sheet *answers, size_t count)
{
    size_t at = 7, i;
    memcpy(sheet, "LXC", 3);
    put_word(sheet + 3, 1);
    put_word(sheet + 5, count);
    for (i = 0; i < count; i++) {
        put_word(sheet + at, answers[i].length);
        if (answers[i].length > 0)
            memcpy(sheet + at + 2, answers[i].bytes, answers[i].length);
        at += 2 + answers[i].length;
    }
    return at;
}

#endif
