/* Judges two files and prints, where the verdict is 0 or 65, how many tries the search made for each LAB that has any, for the refused LAB
 * always, and their sum; where the verdict is another, prints that number alone. The board is that of the settings sheet in a third file or,
 * where none is given, that of document 01.
 *
 *     cc -o tries c/tries.c crates/c_api/out/libc_api.a && ./tries [--settings settings.lxt] exercise.lxe answer.lxa */
#include "nurimkkot.h"
#include "sheet_files.h"

int main(int argc, char **argv)
{
    static uint8_t settings[SETTINGS_ROOM], exercise[EXERCISE_ROOM], answer[ANSWER_ROOM], route[NURIMKKOT_ROUTE_SIZE];
    static uint32_t tries[NURIMKKOT_TRIES];
    uint64_t numbers[NURIMKKOT_NUMBERS], sum = 0;
    size_t settings_length = read_board(&argc, &argv, settings), exercise_length, answer_length, lab;

    if (argc != 3) {
        fprintf(stderr, "usage: tries [--settings SETTINGS] EXERCISE ANSWER\n");
        return 2;
    }
    exercise_length = read_file(argv[1], 1, exercise, sizeof exercise);
    answer_length = read_file(argv[2], 1, answer, sizeof answer);
    nurimkkot_judge(settings, settings_length, exercise, exercise_length, answer, answer_length, route, sizeof route, tries, NURIMKKOT_TRIES,
                    numbers);

    printf("number %llu\n", (unsigned long long)numbers[NURIMKKOT_NUMBER]);
    if (numbers[NURIMKKOT_NUMBER] != 0 && numbers[NURIMKKOT_NUMBER] != 65)
        return 0;
    for (lab = 0; lab < NURIMKKOT_TRIES; lab++) {
        if (tries[lab] > 0 || lab == numbers[NURIMKKOT_LAB])
            printf("lab %zu tries %lu\n", lab, (unsigned long)tries[lab]);
        sum += tries[lab];
    }
    printf("sum %llu\n", (unsigned long long)sum);
    return 0;
}
