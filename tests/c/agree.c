/* Compares the check of one LAB with the judge, as the header says they agree, on all LABs of pairs of sheets, each pair on a board: agree
 * SETTINGS EXERCISE ANSWER .. The list of a LAB's records is checked in four orders. Sheets that break a rule up to 51, or one of 70 to 75,
 * are passed over. */
#include "check.h"
#include "../../c/sheet_files.h"

#define CELLS 512
#define LABS 1024
#define LIST 32

static struct nurimkkot_cell cells[CELLS];
static uint16_t lab_of[CELLS];
static uint8_t settings[SETTINGS_ROOM];
static size_t settings_length;

/* All cells of the exercise and their LABs, from the readers; gives how many there are. */
static int read_sheets(const uint8_t *exercise, size_t exercise_length, const uint8_t *answer, size_t answer_length)
{
    uint16_t at = 0, place_at = 0, place[NURIMKKOT_PLACE_FIELDS];
    struct nurimkkot_cell cell;
    int count = 0;
    while (nurimkkot_next_record(exercise, exercise_length, &at, &cell) == NURIMKKOT_GIVEN) {
        expect(nurimkkot_next_place(answer, answer_length, &place_at, place) == NURIMKKOT_GIVEN, "a place for each cell", count);
        cells[count] = cell;
        lab_of[count++] = (uint16_t)(32 * place[1] + place[0]);
    }
    return count;
}

/* The place of a list's cell i in an order: as on the sheet, backwards, from the middle on, or every second one first. */
static int placed(int order, int i, int count)
{
    int half = (count + 1) / 2;
    switch (order) {
    case 0:
        return i;
    case 1:
        return count - 1 - i;
    case 2:
        return (i + half) % count;
    default:
        return i % 2 ? half + i / 2 : i / 2;
    }
}

/* One LAB beside the judge's numbers and route. */
static void agree_on(const char *name, int lab, int n, const uint64_t *numbers, const uint8_t *route)
{
    struct nurimkkot_cell list[LIST];
    int own[LIST], count = 0, order, i;
    for (i = 0; i < n; i++)
        if (lab_of[i] == lab) {
            expect(count < LIST, name, lab);
            if (count < LIST)
                own[count++] = i;
        }
    for (order = 0; order < 4; order++) {
        uint8_t bytes[8], number;
        for (i = 0; i < count; i++)
            list[placed(order, i, count)] = cells[own[i]];
        number = nurimkkot_check_lab(settings, settings_length, list, (size_t)count, bytes);
        expect(number == 0 || (number >= 60 && number <= 65), name, lab);
        if (numbers[NURIMKKOT_NUMBER] == 0)
            expect(number == 0 && memcmp(bytes, route + 8 * lab, 8) == 0, name, lab);
        else if ((uint64_t)lab <= numbers[NURIMKKOT_LAB])
            expect(number == ((uint64_t)lab == numbers[NURIMKKOT_LAB] ? numbers[NURIMKKOT_NUMBER] : 0), name, lab);
    }
}

int main(int argc, char **argv)
{
    static uint8_t exercise[EXERCISE_ROOM], answer[ANSWER_ROOM], route[NURIMKKOT_ROUTE_SIZE];
    static uint32_t tries[NURIMKKOT_TRIES];
    uint64_t numbers[NURIMKKOT_NUMBERS];
    int pair, lab, n, pairs = 0, named = 0;
    for (pair = 1; pair + 2 < argc; pair += 3) {
        size_t exercise_length = read_file(argv[pair + 1], 1, exercise, sizeof exercise);
        size_t answer_length = read_file(argv[pair + 2], 1, answer, sizeof answer);
        settings_length = read_file(argv[pair], 0, settings, sizeof settings);
        nurimkkot_judge(settings, settings_length, exercise, exercise_length, answer, answer_length, route, sizeof route, tries,
                        NURIMKKOT_TRIES, numbers);
        if (numbers[NURIMKKOT_NUMBER] != 0 && (numbers[NURIMKKOT_NUMBER] < 60 || numbers[NURIMKKOT_NUMBER] > 65))
            continue;
        n = read_sheets(exercise, exercise_length, answer, answer_length);
        for (lab = 0; lab < LABS; lab++)
            agree_on(argv[pair + 2], lab, n, numbers, route);
        pairs++;
        named += numbers[NURIMKKOT_NUMBER] != 0;
    }
    expect(named > 0 && pairs > named, "sheets of both sorts", pairs);
    if (failures == 0)
        printf("C: the check of one LAB agrees with the judge in four orders on %d pairs of sheets with a board, %d of them legal\n", pairs,
               pairs - named);
    return failures != 0;
}
