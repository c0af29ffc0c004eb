/* Marks the answers on a class sheet and prints a line for each; where the class sheet is none, prints number 76. The board is that of the
 * settings sheet in a third file or, where none is given, that of document 01.
 *
 *     cc -o class c/class.c crates/c_api/out/libc_api.a && ./class [--settings settings.lxt] exercise.lxe class.lxc */
#include "nurimkkot.h"
#include "sheet_files.h"

int main(int argc, char **argv)
{
    static uint8_t settings[SETTINGS_ROOM], exercise[EXERCISE_ROOM], class_sheet[CLASS_ROOM];
    struct nurimkkot_row rows[NURIMKKOT_MOST_ANSWERS];
    size_t settings_length = read_board(&argc, &argv, settings), exercise_length, class_length, filled, i;
    uint8_t number;

    if (argc != 3) {
        fprintf(stderr, "usage: class [--settings SETTINGS] EXERCISE CLASS\n");
        return 2;
    }
    exercise_length = read_file(argv[1], 1, exercise, sizeof exercise);
    class_length = read_file(argv[2], 1, class_sheet, sizeof class_sheet);
    number = nurimkkot_mark_class(settings, settings_length, exercise, exercise_length, class_sheet, class_length, rows,
                                  NURIMKKOT_MOST_ANSWERS, &filled);
    if (number != 0)
        printf("number %d\n", number);
    for (i = 0; i < filled; i++)
        printf("row %zu number %u cell %u lab %u apprentice %lu\n", i, (unsigned)rows[i].number, (unsigned)rows[i].cell,
               (unsigned)rows[i].lab, (unsigned long)rows[i].apprentice);
    return 0;
}
