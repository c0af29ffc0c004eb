/* Calls the judge as the tablet would: empty sheets, sheets cut short and sheets with one wrong bit, the settings sheet among them, route
 * buffers of the right length, one byte more and less, one byte and none, lists of tries likewise, and guards on both sides of what is
 * written. The sanitizers watch this program; the library is not built with them, so its own reads and writes are watched by valgrind. */
#include "boards.h"

/* So many guard bytes and guard numbers stand on both sides of a buffer and of a list. */
#define GUARD 64
#define GUARD_NUMBERS 16
#define UNTOUCHED 0xa5a5a5a5u

static uint8_t route[8193];
static uint32_t tries[1025];
static uint64_t numbers[NURIMKKOT_NUMBERS];

/* The settings sheet to judge by. */
static const void *board = HOUSE;
static size_t board_length = sizeof HOUSE;

static void judge_by(const void *settings, size_t length)
{
    board = settings;
    board_length = length;
}

/* The guards around a list of tries, and the list: where it has to stay, each of its numbers does; otherwise each is written, and none is
 * above the most that there are. */
static void see_tries(const uint32_t *guarded, size_t count, int written)
{
    const uint32_t *list = guarded + GUARD_NUMBERS;
    size_t i;
    for (i = 0; i < GUARD_NUMBERS; i++) {
        expect(guarded[i] == UNTOUCHED, "guard in front of the tries", (long)i);
        expect(list[count + i] == UNTOUCHED, "guard behind the tries", (long)i);
    }
    for (i = 0; i < count; i++)
        expect(written ? list[i] <= 19173960 : list[i] == UNTOUCHED, written ? "tries not written" : "tries touched on a refusal", (long)i);
}

/* Judges with a route buffer, a list of tries and numbers between guards, and copies them to `route`, `tries` and `numbers`. */
static void judge_into(const uint8_t *exercise, size_t exercise_length, const uint8_t *answer, size_t answer_length, size_t route_length,
                       size_t tries_count)
{
    uint8_t *s = copy_of(board, board_length);
    uint8_t *e = copy_of(exercise, exercise_length);
    uint8_t *a = copy_of(answer, answer_length);
    uint8_t *room = malloc(route_length + 2 * GUARD);
    uint32_t *list = malloc((tries_count + 2 * GUARD_NUMBERS) * sizeof *list);
    uint64_t guarded[NURIMKKOT_NUMBERS + 2];
    size_t i;
    if (room == NULL || list == NULL)
        exit(2);
    memset(room, 0xa5, route_length + 2 * GUARD);
    memset(list, 0xa5, (tries_count + 2 * GUARD_NUMBERS) * sizeof *list);
    memset(guarded, 0x5a, sizeof guarded);
    nurimkkot_judge(s, board_length, e, exercise_length, a, answer_length, room + GUARD, route_length, list + GUARD_NUMBERS, tries_count,
                    guarded + 1);
    for (i = 0; i < GUARD; i++) {
        expect(room[i] == 0xa5, "guard in front of the route", (long)i);
        expect(room[GUARD + route_length + i] == 0xa5, "guard behind the route", (long)i);
    }
    expect(guarded[0] == 0x5a5a5a5a5a5a5a5a, "guard in front of the numbers", 0);
    expect(guarded[NURIMKKOT_NUMBERS + 1] == 0x5a5a5a5a5a5a5a5a, "guard behind the numbers", 0);
    memcpy(numbers, guarded + 1, sizeof(uint64_t) * NURIMKKOT_NUMBERS);
    if (numbers[NURIMKKOT_NUMBER] != 0)
        for (i = 0; i < route_length; i++)
            expect(room[GUARD + i] == 0xa5, "route touched on a refusal", (long)i);
    expect(numbers[NURIMKKOT_START] + numbers[NURIMKKOT_LENGTH] <= (numbers[NURIMKKOT_SHEET] ? answer_length : exercise_length),
           "culprit inside its sheet", (long)numbers[NURIMKKOT_START]);
    see_tries(list, tries_count, numbers[NURIMKKOT_NUMBER] == 0 || numbers[NURIMKKOT_NUMBER] == 65);
    memcpy(route, room + GUARD, route_length);
    memcpy(tries, list + GUARD_NUMBERS, tries_count * sizeof *list);
    free(list);
    free(room);
    give_back(a, answer, answer_length);
    give_back(e, exercise, exercise_length);
    give_back(s, board, board_length);
}

/* The same with a list of tries of the right length. */
static void judge(const uint8_t *exercise, size_t exercise_length, const uint8_t *answer, size_t answer_length, size_t route_length)
{
    judge_into(exercise, exercise_length, answer, answer_length, route_length, NURIMKKOT_TRIES);
}

/* The worked listing on the board is refused with a number of 70 to 75, and so are its sheets cut short; a wrong route buffer comes first,
 * then a wrong list of tries. judge_into() sees that no byte of the route and no number of the list is touched. */
static void no_board(const char *what, uint8_t number)
{
    static const size_t cut[4][2] = {{sizeof EXERCISE, sizeof ANSWER}, {8, sizeof ANSWER}, {sizeof EXERCISE, 10}, {0, 0}};
    size_t i;
    for (i = 0; i < 4; i++) {
        judge(EXERCISE, cut[i][0], ANSWER, cut[i][1], 8192);
        expect(numbers[NURIMKKOT_NUMBER] == number, what, (long)numbers[NURIMKKOT_NUMBER]);
        expect(numbers[NURIMKKOT_CELL] == NURIMKKOT_NONE && numbers[NURIMKKOT_LAB] == NURIMKKOT_NONE, "no cell and no LAB", number);
        expect(numbers[NURIMKKOT_APPRENTICE] == 0, "apprentice of a refused board", (long)numbers[NURIMKKOT_APPRENTICE]);
        expect(numbers[NURIMKKOT_SHEET] == 1 && numbers[NURIMKKOT_START] == cut[i][1] && numbers[NURIMKKOT_LENGTH] == 0,
               "culprit of a refused board", number);
        judge(EXERCISE, cut[i][0], ANSWER, cut[i][1], 8191);
        expect(numbers[NURIMKKOT_NUMBER] == 1, "the route's length before the board", number);
        judge_into(EXERCISE, cut[i][0], ANSWER, cut[i][1], 8192, 1023);
        expect(numbers[NURIMKKOT_NUMBER] == 3, "the list's length before the board", number);
    }
}

/* The worked listing on the board, with this signal at aclr: clk and aclr get these entries after so many tries, or, where clk is 255, the LAB is
 * refused with 65. */
static void with_aclr(const char *what, uint8_t signal, uint8_t clk, uint8_t aclr, uint32_t searched)
{
    uint8_t exercise[sizeof EXERCISE];
    size_t i;
    memcpy(exercise, EXERCISE, sizeof EXERCISE);
    exercise[17] = signal;
    judge(exercise, sizeof exercise, ANSWER, sizeof ANSWER, 8192);
    expect(numbers[NURIMKKOT_NUMBER] == (clk == 255 ? 65 : 0), what, (long)numbers[NURIMKKOT_NUMBER]);
    expect(numbers[NURIMKKOT_LAB] == (clk == 255 ? 34 : NURIMKKOT_NONE), what, (long)numbers[NURIMKKOT_LAB]);
    expect(numbers[NURIMKKOT_APPRENTICE] == 7, what, (long)numbers[NURIMKKOT_APPRENTICE]);
    for (i = 0; clk != 255 && i < 8192; i++)
        expect(route[i] == (i == 8 * 34 ? clk : i == 8 * 34 + 4 ? aclr : 255), what, (long)i);
    for (i = 0; i < NURIMKKOT_TRIES; i++)
        expect(tries[i] == (i == 34 ? searched : 0), what, (long)i);
}

/* The worked listing as it is: clk and aclr have a net each. */
static void on_board(const char *what, uint8_t clk, uint8_t aclr, uint32_t searched)
{
    with_aclr(what, EXERCISE[17], clk, aclr, searched);
}

/* Each bit of a settings sheet the other way. One that is still a settings sheet is a board. */
static void damaged_board(const uint8_t *settings, size_t length)
{
    uint8_t damaged[NURIMKKOT_MOST_SETTINGS], number;
    size_t i;
    for (i = 0; i < 8 * length; i++) {
        memcpy(damaged, settings, length);
        damaged[i / 8] ^= (uint8_t)(1u << (i % 8));
        judge_by(damaged, length);
        number = settings_number(damaged, length);
        if (number != 0) {
            no_board("one bit of the settings changed", number);
        } else {
            judge(EXERCISE, sizeof EXERCISE, ANSWER, sizeof ANSWER, 8192);
            expect(numbers[NURIMKKOT_NUMBER] == 0 || numbers[NURIMKKOT_NUMBER] == 65, "one bit of the settings changed", (long)i);
        }
    }
}

/* 70 to 75, and boards that route otherwise. */
static void boards(void)
{
    static const uint16_t board_numbers[] = {0, 1, 2, 255, 256, 65535};
    uint8_t same[14] = {'L', 'X', 'T', 2, 0, 6, 0, 0, 0x01, 0x05, 0x03, 0x12, 0x0c, 0x18};
    size_t i;
    for (i = 0; i < BOARD_COUNT; i++) {
        judge_by(BOARDS[i].bytes, BOARDS[i].length);
        if (BOARDS[i].number != 0)
            no_board(BOARDS[i].what, BOARDS[i].number);
    }
    damaged_board(HOUSE, sizeof HOUSE);
    damaged_board(SECOND, sizeof SECOND);
    judge_by(SECOND, sizeof SECOND);
    on_board("the second board", 0, 3, 2);
    judge_by("LXT\x01\x00\x00", 6);
    on_board("no entries", 255, 255, 0);
    judge_by("LXT\x01\x00\x06\x00\x05\x03\x12\x0c\x18", 12);
    on_board("entry 0 serves nothing", 1, 4, 2);
    judge_by("LXT\x01\x00\x01\x1f", 7);
    on_board("one entry for needs of two nets", 255, 255, 1);
    with_aclr("one entry for clk and aclr of one net", 6, 0, 0, 2);
    with_aclr("one entry for a net and its inverse", 7, 0, 0, 2);
    for (i = 0; i < sizeof board_numbers / sizeof board_numbers[0]; i++) {
        same[6] = (uint8_t)(board_numbers[i] % 256);
        same[7] = (uint8_t)(board_numbers[i] / 256);
        judge_by(same, sizeof same);
        on_board("the board's number", 0, 1, 2);
    }
    judge_by(HOUSE, sizeof HOUSE);
    on_board("document 01's board", 0, 1, 2);
    with_aclr("document 01's board, clk and aclr of one net", 6, 0, 1, 2);
}

int main(void)
{
    static const size_t lengths[] = {0, 1, 8191, 8192, 8193}, counts[] = {0, 1, 1023, 1024, 1025};
    uint8_t damaged[sizeof EXERCISE];
    size_t i;

    for (i = 0; i < sizeof lengths / sizeof lengths[0]; i++) {
        judge(EXERCISE, sizeof EXERCISE, ANSWER, sizeof ANSWER, lengths[i]);
        expect(numbers[NURIMKKOT_NUMBER] == (lengths[i] == 8192 ? 0 : 1), "verdict by the route's length", (long)lengths[i]);
        expect(numbers[NURIMKKOT_APPRENTICE] == (lengths[i] == 8192 ? 7 : 0), "apprentice by the route's length", (long)lengths[i]);
        expect(numbers[NURIMKKOT_SHEET] == 1 && numbers[NURIMKKOT_START] == sizeof ANSWER && numbers[NURIMKKOT_LENGTH] == 0,
               "empty part at the answer's end", (long)lengths[i]);
    }
    for (i = 0; i < sizeof counts / sizeof counts[0]; i++) {
        judge_into(EXERCISE, sizeof EXERCISE, ANSWER, sizeof ANSWER, 8192, counts[i]);
        expect(numbers[NURIMKKOT_NUMBER] == (counts[i] == 1024 ? 0 : 3), "verdict by the list's length", (long)counts[i]);
        judge_into(EXERCISE, sizeof EXERCISE, ANSWER, sizeof ANSWER, 8191, counts[i]);
        expect(numbers[NURIMKKOT_NUMBER] == 1, "the route's length before the list's", (long)counts[i]);
    }

    boards();

    judge(EXERCISE, 0, ANSWER, 0, 8192);
    expect(numbers[NURIMKKOT_NUMBER] == 10, "empty sheets", 0);
    judge(EXERCISE, sizeof EXERCISE, ANSWER, 0, 8192);
    expect(numbers[NURIMKKOT_NUMBER] == 20, "empty answer", 0);

    /* What is only read may overlap. */
    nurimkkot_judge(HOUSE, sizeof HOUSE, EXERCISE, sizeof EXERCISE, EXERCISE, sizeof EXERCISE, route, 8192, tries, 1024, numbers);
    expect(numbers[NURIMKKOT_NUMBER] == 21, "the exercise sheet handed back", 0);
    nurimkkot_judge(HOUSE, sizeof HOUSE, HOUSE, sizeof HOUSE, HOUSE, sizeof HOUSE, route, 8192, tries, 1024, numbers);
    expect(numbers[NURIMKKOT_NUMBER] == 11, "the settings sheet as all three", 0);

    for (i = 0; i < sizeof EXERCISE; i++) {
        judge(EXERCISE, i, ANSWER, sizeof ANSWER, 8192);
        expect(numbers[NURIMKKOT_NUMBER] == (i < 9 ? 10 : 14), "exercise cut short", (long)i);
        expect(numbers[NURIMKKOT_SHEET] == 0 && numbers[NURIMKKOT_LENGTH] == (i < 9 ? i : 9), "culprit of an exercise cut short", (long)i);
    }
    for (i = 0; i < sizeof ANSWER; i++) {
        judge(EXERCISE, sizeof EXERCISE, ANSWER, i, 8192);
        expect(numbers[NURIMKKOT_NUMBER] == (i < 11 ? 20 : 25), "answer cut short", (long)i);
        expect(numbers[NURIMKKOT_SHEET] == 1 && numbers[NURIMKKOT_LENGTH] == (i < 11 ? i : 11), "culprit of an answer cut short", (long)i);
    }
    for (i = 0; i < 8 * sizeof EXERCISE; i++) {
        memcpy(damaged, EXERCISE, sizeof EXERCISE);
        damaged[i / 8] ^= (uint8_t)(1u << (i % 8));
        judge(damaged, sizeof damaged, ANSWER, sizeof ANSWER, 8192);
        expect(numbers[NURIMKKOT_NUMBER] <= 65, "one bit of the exercise changed", (long)i);
    }
    for (i = 0; i < 8 * sizeof ANSWER; i++) {
        memcpy(damaged, ANSWER, sizeof ANSWER);
        damaged[i / 8] ^= (uint8_t)(1u << (i % 8));
        judge(EXERCISE, sizeof EXERCISE, damaged, sizeof ANSWER, 8192);
        expect(numbers[NURIMKKOT_NUMBER] <= 65, "one bit of the answer changed", (long)i);
    }
    printf(failures ? "%d failures\n" : "C: judge as expected\n", failures);
    return failures != 0;
}
