/* What the examples that read share: reading a sheet or a log from a file, and the board to judge by. */
#ifndef NURIMKKOT_SHEET_FILES_H
#define NURIMKKOT_SHEET_FILES_H

#include "nurimkkot.h"

#include <errno.h>
#include <stdio.h>
#include <stdlib.h>
#include <string.h>

/* One byte more than the largest legal sheets and logs: of a longer file no more is needed to give it its number. */
#define EXERCISE_ROOM 12298
#define ANSWER_ROOM 2060
#define SETTINGS_ROOM (NURIMKKOT_MOST_SETTINGS + 1)
#define CLASS_ROOM (7 + NURIMKKOT_MOST_ANSWERS * (2 + 65535) + 1)
#define LOG_ROOM (NURIMKKOT_LOG_LENGTH(NURIMKKOT_LOG_ENTRIES) + 1)

/* Reads a file, as far as there is room. One that can't be read ends the program with status 2, as it says nothing about the sheet; one that
 * is missing does so too, unless it counts as empty. */
static size_t read_file(const char *path, int missing_is_empty, uint8_t *bytes, size_t room)
{
    FILE *file = fopen(path, "rb");
    size_t length = 0;
    int failed;
    if (file == NULL && errno == ENOENT && missing_is_empty)
        return 0;
    failed = file == NULL;
    if (file != NULL) {
        length = fread(bytes, 1, room, file);
        failed = ferror(file);
        fclose(file);
    }
    if (failed) {
        fprintf(stderr, "%s: can't be read\n", path);
        exit(2);
    }
    return length;
}

/* The settings sheet of the board to judge by, and its length: the file behind --settings, where the arguments begin with that, and otherwise
 * the board of document 01. Takes both arguments away. */
static inline size_t read_board(int *argc, char ***argv, uint8_t settings[SETTINGS_ROOM])
{
    if (*argc > 2 && strcmp((*argv)[1], "--settings") == 0) {
        const char *path = (*argv)[2];
        *argc -= 2;
        *argv += 2;
        return read_file(path, 0, settings, SETTINGS_ROOM);
    }
    nurimkkot_house_settings(settings);
    return NURIMKKOT_HOUSE_SETTINGS;
}

#endif
