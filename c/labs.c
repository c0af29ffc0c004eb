/* Reads two files record by record and checks each occupied LAB by itself; where one of 70 to 75, 10 to 15 or 20 to 26 applies, prints that
 * number and no LAB. Rules 16 and 40 to 51 are not asked here, and a cell that breaks one of 30 to 35 gives its LAB number 18. The board is
 * that of the settings sheet in a third file or, where none is given, that of document 01.
 *
 *     cc -o labs c/labs.c crates/c_api/out/libc_api.a && ./labs [--settings settings.lxt] exercise.lxe answer.lxa */
#include "nurimkkot.h"
#include "sheet_files.h"

#define CELLS 512
#define LABS 1024

/* All cells of an exercise that opens, and how many there are; -1 where a record breaks the layout. */
static int read_cells(const uint8_t *exercise, size_t length, struct nurimkkot_cell *cells)
{
    /* Not into the list itself: at the end zeros are written, and the list may be full. */
    struct nurimkkot_cell cell;
    uint16_t at = 0;
    int count = 0;
    uint8_t said;
    while ((said = nurimkkot_next_record(exercise, length, &at, &cell)) == NURIMKKOT_GIVEN)
        cells[count++] = cell;
    return said == NURIMKKOT_END ? count : -1;
}

int main(int argc, char **argv)
{
    static uint8_t settings[SETTINGS_ROOM], exercise[EXERCISE_ROOM], answer[ANSWER_ROOM];
    static struct nurimkkot_cell cells[CELLS], own[CELLS];
    static uint16_t lab_of[CELLS];
    uint16_t at = 0, place[NURIMKKOT_PLACE_FIELDS], board[NURIMKKOT_SETTINGS_NUMBERS];
    uint8_t number, said, entries[NURIMKKOT_MOST_ENTRIES], route[8];
    size_t settings_length = read_board(&argc, &argv, settings), exercise_length, answer_length, count;
    int n, i, lab;

    if (argc != 3) {
        fprintf(stderr, "usage: labs [--settings SETTINGS] EXERCISE ANSWER\n");
        return 2;
    }
    exercise_length = read_file(argv[1], 1, exercise, sizeof exercise);
    answer_length = read_file(argv[2], 1, answer, sizeof answer);
    number = nurimkkot_read_settings(settings, settings_length, board, entries);
    if (number == 0)
        number = nurimkkot_open_exercise(exercise, exercise_length);
    if (number != 0) {
        printf("number %d\n", number);
        return 0;
    }
    n = read_cells(exercise, exercise_length, cells);
    if (n < 0) {
        printf("number 15\n");
        return 0;
    }
    number = nurimkkot_open_answer(answer, answer_length);
    /* 24 compares the two counts, which no reader of one sheet can. It stands before 25, the length, in the judge's order. */
    if ((number == 0 || number == 25) && answer[9] + 256 * answer[10] != n)
        number = 24;
    if (number != 0) {
        printf("number %d\n", number);
        return 0;
    }
    while ((said = nurimkkot_next_place(answer, answer_length, &at, place)) == NURIMKKOT_GIVEN)
        lab_of[at - 1] = (uint16_t)(32 * place[1] + place[0]);
    if (said == NURIMKKOT_BROKEN) {
        printf("number 26\n");
        return 0;
    }
    for (lab = 0; lab < LABS; lab++) {
        count = 0;
        for (i = 0; i < n; i++)
            if (lab_of[i] == lab)
                own[count++] = cells[i];
        if (count == 0)
            continue;
        number = nurimkkot_check_lab(settings, settings_length, own, count, route);
        printf("lab %d number %d route %d %d %d %d %d %d %d %d\n", lab, number, route[0], route[1], route[2], route[3], route[4],
               route[5], route[6], route[7]);
    }
    return 0;
}
