/* What guard.c, forms.c, settings.c and class.c share: settings sheets, and the number that refuses one, said plainly. */
#ifndef NURIMKKOT_TESTS_BOARDS_H
#define NURIMKKOT_TESTS_BOARDS_H

#include "sheets.h"

/* The settings sheet of the second board, boards/second.lxt. */
static const uint8_t SECOND[16] = {'L', 'X', 'T', 2, 0, 8, 2, 0, 0x09, 0x11, 0x03, 0x06, 0x02, 0x04, 0x04, 0x00};

/* A settings sheet and what it gets: a number of 70 to 75, or 0. */
struct board {
    const char *what, *bytes;
    size_t length;
    uint8_t number;
};

#define BOARD(number, what, bytes) {what, bytes, sizeof bytes - 1, number}
#define BOARD_COUNT (sizeof BOARDS / sizeof BOARDS[0])

static const struct board BOARDS[] = {
    BOARD(0, "document 01's board", "LXT\x01\x00\x06\x01\x05\x03\x12\x0c\x18"),
    BOARD(0, "no entries", "LXT\x01\x00\x00"),
    BOARD(0, "no entries, board 65535", "LXT\x02\x00\x00\xff\xff"),
    BOARD(0, "an entry that serves nothing", "LXT\x01\x00\x01\x00"),
    BOARD(0, "eight entries", "LXT\x01\x00\x08\x1f\x1f\x1f\x1f\x1f\x1f\x1f\x1f"),
    BOARD(0, "the board's number is no flags", "LXT\x02\x00\x08\x20\xff\x1f\x1f\x1f\x1f\x1f\x1f\x1f\x1f"),
    BOARD(70, "nothing", ""),
    BOARD(70, "one byte", "L"),
    BOARD(70, "5 bytes of version 1", "LXT\x01\x00"),
    BOARD(70, "5 bytes of version 2", "LXT\x02\x00"),
    BOARD(70, "5 bytes with another mark", "LXE\x03\x00"),
    BOARD(71, "the mark's first letter", "KXT\x01\x00\x00"),
    BOARD(71, "the mark's second letter", "LYT\x01\x00\x00"),
    BOARD(71, "the mark's third letter", "LXA\x01\x00\x00"),
    BOARD(71, "the mark in small letters", "lxt\x01\x00\x06\x01\x05\x03\x12\x0c\x18"),
    BOARD(71, "another mark and version 0", "LXE\x00\x00\x00"),
    BOARD(72, "version 0", "LXT\x00\x00\x00"),
    BOARD(72, "version 3", "LXT\x03\x00\x00"),
    BOARD(72, "version 256", "LXT\x00\x01\x00"),
    BOARD(72, "version 257", "LXT\x01\x01\x00"),
    BOARD(72, "version 512", "LXT\x00\x02\x00"),
    BOARD(72, "version 514, in 8 bytes", "LXT\x02\x02\x00\x00\x00"),
    BOARD(72, "version 65535 and nine entries", "LXT\xff\xff\x09"),
    BOARD(73, "nine entries", "LXT\x01\x00\x09\x01\x01\x01\x01\x01\x01\x01\x01\x01"),
    BOARD(73, "nine entries of version 2", "LXT\x02\x00\x09\x00\x00\x01\x01\x01\x01\x01\x01\x01\x01\x01"),
    BOARD(73, "255 entries", "LXT\x01\x00\xff"),
    BOARD(73, "nine entries in 6 bytes of version 2", "LXT\x02\x00\x09"),
    BOARD(73, "nine entries in 7 bytes of version 2", "LXT\x02\x00\x09\x00"),
    BOARD(73, "nine entries and a flag too high", "LXT\x01\x00\x09\xff"),
    BOARD(74, "a byte short", "LXT\x01\x00\x06\x01\x05\x03\x12\x0c"),
    BOARD(74, "a byte over", "LXT\x01\x00\x06\x01\x05\x03\x12\x0c\x18\x00"),
    BOARD(74, "no entries, a byte over", "LXT\x01\x00\x00\x00"),
    BOARD(74, "6 bytes of version 2", "LXT\x02\x00\x00"),
    BOARD(74, "7 bytes of version 2", "LXT\x02\x00\x00\x02"),
    BOARD(74, "version 2 without a board's number", "LXT\x02\x00\x06\x01\x05\x03\x12\x0c\x18"),
    BOARD(74, "version 1 with a board's number", "LXT\x01\x00\x06\x00\x00\x01\x05\x03\x12\x0c\x18"),
    BOARD(74, "eight entries of version 2, a byte short", "LXT\x02\x00\x08\x02\x00\x09\x11\x03\x06\x02\x04\x04"),
    BOARD(74, "eight entries of version 2, a byte over", "LXT\x02\x00\x08\x02\x00\x09\x11\x03\x06\x02\x04\x04\x00\x00"),
    BOARD(74, "a byte short and a flag too high", "LXT\x01\x00\x02\xff"),
    BOARD(75, "flag 32 in the first entry", "LXT\x01\x00\x06\x21\x05\x03\x12\x0c\x18"),
    BOARD(75, "every flag in the last entry", "LXT\x01\x00\x06\x01\x05\x03\x12\x0c\xff"),
    BOARD(75, "flag 64 in the first entry of version 2", "LXT\x02\x00\x02\x02\x00\x40\x01"),
    BOARD(75, "flag 128 in the last entry of version 2", "LXT\x02\x00\x08\x02\x00\x09\x11\x03\x06\x02\x04\x04\x80"),
};

/* The number of 70 to 75 that applies to a settings sheet, or 0. */
static uint8_t settings_number(const uint8_t *sheet, size_t length)
{
    size_t head, i;
    if (length < 6)
        return 70;
    if (memcmp(sheet, "LXT", 3) != 0)
        return 71;
    if ((sheet[3] != 1 && sheet[3] != 2) || sheet[4] != 0)
        return 72;
    if (sheet[5] > 8)
        return 73;
    head = sheet[3] == 1 ? 6 : 8;
    if (length != head + sheet[5])
        return 74;
    for (i = head; i < length; i++)
        if (sheet[i] > 31)
            return 75;
    return 0;
}

#endif
