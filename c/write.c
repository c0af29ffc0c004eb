/* Makes the exercise and the answer of document 01's listing from structs, and the settings sheet of a second board from its entries, and
 * writes them to exercise.lxe, answer.lxa and settings.lxt in a folder.
 *
 *     cc -o write c/write.c crates/c_api/out/libc_api.a && ./write FOLDER */
#include "nurimkkot.h"

#include <stdio.h>

#define NETS 4
#define CELLS 2
#define ENTRIES 8

/* A net as a signal. 0 is unconnected, 1 GND, 2 VCC, and NET(n) + 1 is net n inverted. */
#define NET(n) ((uint16_t)(4 + 2 * (n)))

/* The ports of a combinational cell (kind 1) and of a register (kind 2), in the order of the signals. */
enum { DATAA, DATAB, DATAC, DATAD, CIN, COMBOUT, COUT };
enum { DATAIN, CLK, ENA, ACLR, SCLR, SLOAD, SDATA, REGOUT };

/* Writes a sheet to a file, or says why there is none: the writer's number, or the path. Gives whether the file is there. */
static int save(const char *folder, const char *name, uint8_t number, const uint8_t *sheet, size_t length)
{
    char path[4096];
    FILE *file;
    int written, fits = snprintf(path, sizeof path, "%s/%s", folder, name) < (int)sizeof path;
    if (number != 0) {
        fprintf(stderr, "%s: refused with number %d\n", name, number);
        return 0;
    }
    file = fits ? fopen(path, "wb") : NULL;
    written = file != NULL && fwrite(sheet, 1, length, file) == length;
    if (file != NULL && fclose(file) != 0)
        written = 0;
    if (!written)
        fprintf(stderr, "%s/%s: can't be written\n", folder, name);
    return written;
}

int main(int argc, char **argv)
{
    static struct nurimkkot_cell cells[CELLS];
    static const uint16_t places[CELLS * NURIMKKOT_PLACE_FIELDS] = {
        2, 1, 0, /* cell 0: x, y, LE */
        2, 1, 0, /* cell 1 */
    };
    static const uint8_t entries[ENTRIES] = {
        NURIMKKOT_CLK | NURIMKKOT_SCLR, /* entry 0 */
        NURIMKKOT_CLK | NURIMKKOT_SLOAD,
        NURIMKKOT_CLK | NURIMKKOT_ENA,
        NURIMKKOT_ENA | NURIMKKOT_ACLR,
        NURIMKKOT_ENA,
        NURIMKKOT_ACLR,
        NURIMKKOT_ACLR,
        0, /* entry 7 serves nothing */
    };
    static uint8_t exercise[NURIMKKOT_EXERCISE_LENGTH(CELLS)], answer[NURIMKKOT_ANSWER_LENGTH(CELLS)];
    static uint8_t settings[NURIMKKOT_SETTINGS_LENGTH(2, ENTRIES)];
    uint8_t number;
    size_t length;

    if (argc != 2) {
        fprintf(stderr, "usage: write FOLDER\n");
        return 2;
    }
    cells[0].kind = 2;
    cells[0].signals[DATAIN] = NET(0);
    cells[0].signals[CLK] = NET(1);
    cells[0].signals[ACLR] = NET(2);
    cells[0].signals[REGOUT] = NET(3);
    cells[1].kind = 1;
    cells[1].signals[DATAA] = NET(3);
    cells[1].signals[COMBOUT] = NET(0);

    number = nurimkkot_write_exercise(NETS, cells, CELLS, exercise, sizeof exercise, &length);
    if (!save(argv[1], "exercise.lxe", number, exercise, length))
        return 2;
    number = nurimkkot_write_answer(7, places, CELLS, answer, sizeof answer, &length);
    if (!save(argv[1], "answer.lxa", number, answer, length))
        return 2;
    /* Version 2, board 2. A sheet of version 1 has no board's number; that of nurimkkot_house_settings is one. */
    number = nurimkkot_write_settings(2, 2, entries, ENTRIES, settings, sizeof settings, &length);
    if (!save(argv[1], "settings.lxt", number, settings, length))
        return 2;
    return 0;
}
