/* Runs the functions that docs/TABLET.md shows for the writers, for a class sheet and for tries, which tests/c/run copies to page.h. */
#include "sheets.h"
#include "classes.h"
#include "page.h"

/* Changes a signal of the worked listing, in a block of its own; what is written differs at these two bytes alone. */
static void changed(const char *what, size_t length, size_t i, int port, uint16_t signal, size_t room, uint8_t number)
{
    uint8_t *exercise = copy_of(EXERCISE, length), sheet[sizeof EXERCISE], wanted[sizeof EXERCISE];
    size_t written;
    memset(sheet, 0xa5, sizeof sheet);
    memset(wanted, 0xa5, sizeof wanted);
    if (number == 0)
        memcpy(wanted, EXERCISE, sizeof EXERCISE);
    if (number == 0 && i < 2) {
        wanted[9 + 24 * i + 2 + 2 * port] = (uint8_t)(signal % 256);
        wanted[9 + 24 * i + 3 + 2 * port] = (uint8_t)(signal / 256);
    }
    expect(change(exercise, length, i, port, signal, sheet, room, &written) == number, what, number);
    expect(written == (number == 0 ? sizeof EXERCISE : 0), what, (long)written);
    expect(memcmp(sheet, wanted, sizeof sheet) == 0, what, (long)room);
    give_back(exercise, EXERCISE, length);
}

#define MOST NURIMKKOT_MOST_ANSWERS
#define LONGEST 65535

/* So many answers are added one by one, each of `length` bytes, to a buffer with this room. The first `fit` of them get onto the sheet, and
 * what is refused changes nothing. The sheet is marked, with a row for each. */
static void added(const char *what, size_t count, size_t length, size_t room, size_t fit)
{
    static const uint8_t head[7] = {'L', 'X', 'C', 1, 0, 0, 0};
    struct sheet answers[MOST];
    struct nurimkkot_row rows[MOST];
    uint8_t *bytes = calloc(1, LONGEST + 1), *sheet = malloc(room), *wanted = malloc(room);
    size_t at = sizeof head, filled, i;
    uint8_t number;
    if (bytes == NULL || sheet == NULL || wanted == NULL)
        exit(2);
    memcpy(bytes, ANSWER, sizeof ANSWER);
    memset(sheet, 0xa5, room);
    memset(wanted, 0xa5, room);
    memcpy(sheet, head, sizeof head);
    for (i = 0; i < MOST; i++) {
        answers[i].bytes = bytes;
        answers[i].length = length;
    }
    for (i = 0; i < count; i++)
        expect(add_answer(sheet, &at, room, length ? bytes : NULL, length) == (i < fit), what, (long)i);
    expect(at == put_class(wanted, answers, fit), what, (long)at);
    expect(memcmp(sheet, wanted, room) == 0, what, (long)room);
    number = nurimkkot_mark_class(HOUSE, sizeof HOUSE, EXERCISE, sizeof EXERCISE, sheet, at, rows, MOST, &filled);
    expect(number == 0 && filled == fit, what, number);
    for (i = 0; i < fit; i++)
        expect(rows[i].number == (length == sizeof ANSWER ? 0 : length < 11 ? 20 : 25), what, (long)rows[i].number);
    free(bytes);
    free(sheet);
    free(wanted);
}

/* The LAB with the most tries: of the worked listing, of a list with the same number twice, and of one with 0 everywhere. */
static void most(void)
{
    static uint8_t route[NURIMKKOT_ROUTE_SIZE];
    static uint32_t tries[NURIMKKOT_TRIES];
    uint64_t numbers[NURIMKKOT_NUMBERS];
    size_t i;
    expect(most_tried(tries) == 0, "no tries", 0);
    nurimkkot_judge(HOUSE, sizeof HOUSE, EXERCISE, sizeof EXERCISE, ANSWER, sizeof ANSWER, route, sizeof route, tries, NURIMKKOT_TRIES,
                    numbers);
    expect(most_tried(tries) == 34 && tries[34] == 2, "tries of the worked listing", (long)tries[34]);
    for (i = 0; i < NURIMKKOT_TRIES; i++)
        tries[i] = i == 3 ? 19173959 : i == 700 || i == 1023 ? 19173960 : 1;
    expect(most_tried(tries) == 700, "the same number twice", (long)most_tried(tries));
    tries[700] = 0;
    expect(most_tried(tries) == 1023, "the last LAB", (long)most_tried(tries));
}

int main(void)
{
    size_t full = sizeof EXERCISE;
    most();
    changed("nothing", full, 2, 0, 0, full, 0);
    changed("datab of cell 1 is VCC", full, 1, 1, 2, full, 0);
    changed("datab of cell 1 is code 3", full, 1, 1, 3, full, 15);
    changed("combout of cell 1 is cell 0's net", full, 1, 5, 10, full, 16);
    changed("a byte short", full, 1, 1, 2, full - 1, 2);
    changed("a sheet that does not open", full - 1, 1, 1, 2, full, 14);
    added("no answers", 0, 19, 7, 0);
    added("one answer", 1, 19, 28, 1);
    added("a byte short of one answer", 1, 19, 27, 0);
    added("no room for a length", 1, 0, 8, 0);
    added("an empty answer", 1, 0, 9, 1);
    added("as many answers as there may be, and more", 35, 19, 7 + 40 * 21, 32);
    added("room for five answers", 8, 19, 7 + 5 * 21 + 20, 5);
    added("300 bytes each", 3, 300, 7 + 3 * 302, 3);
    added("the longest answers", 2, LONGEST, 7 + 2 * (2 + LONGEST), 2);
    added("an answer that is too long", 1, LONGEST + 1, 7 + 2 * (2 + LONGEST), 0);
    if (failures == 0)
        printf("C: the functions on the page as it says\n");
    return failures != 0;
}
