/* Judges two files and prints the verdict, the culprit and, for a legal answer, the route of every occupied LAB. The board is that of the
 * settings sheet in a third file or, where none is given, that of document 01.
 *
 *     cc -o example c/example.c crates/c_api/out/libc_api.a && ./example [--settings settings.lxt] exercise.lxe answer.lxa */
#include "nurimkkot.h"
#include "sheet_files.h"

int main(int argc, char **argv)
{
    static uint8_t settings[SETTINGS_ROOM], exercise[EXERCISE_ROOM], answer[ANSWER_ROOM], route[NURIMKKOT_ROUTE_SIZE];
    static uint8_t occupied[1024];
    static uint32_t tries[NURIMKKOT_TRIES];
    uint64_t numbers[NURIMKKOT_NUMBERS];
    size_t settings_length = read_board(&argc, &argv, settings), exercise_length, answer_length, i;

    if (argc != 3) {
        fprintf(stderr, "usage: example [--settings SETTINGS] EXERCISE ANSWER\n");
        return 2;
    }
    exercise_length = read_file(argv[1], 1, exercise, sizeof exercise);
    answer_length = read_file(argv[2], 1, answer, sizeof answer);
    nurimkkot_judge(settings, settings_length, exercise, exercise_length, answer, answer_length, route, sizeof route, tries, NURIMKKOT_TRIES,
                    numbers);

    printf("number %llu\n", (unsigned long long)numbers[NURIMKKOT_NUMBER]);
    printf("cell %llu\n", (unsigned long long)numbers[NURIMKKOT_CELL]);
    printf("lab %llu\n", (unsigned long long)numbers[NURIMKKOT_LAB]);
    printf("apprentice %llu\n", (unsigned long long)numbers[NURIMKKOT_APPRENTICE]);
    printf("culprit %s %llu %llu\n", numbers[NURIMKKOT_SHEET] ? "answer" : "exercise",
           (unsigned long long)numbers[NURIMKKOT_START], (unsigned long long)numbers[NURIMKKOT_LENGTH]);
    if (numbers[NURIMKKOT_NUMBER] != 0)
        return 0;

    for (i = 11; i + 4 <= answer_length; i += 4)
        occupied[32 * answer[i + 1] + answer[i]] = 1;
    for (i = 0; i < 1024; i++) {
        const uint8_t *b = route + 8 * i;
        if (occupied[i])
            printf("route %zu %d %d %d %d %d %d %d %d\n", i, b[0], b[1], b[2], b[3], b[4], b[5], b[6], b[7]);
    }
    return 0;
}
