/* NULL with length or count 0, as an empty container hands it over: null EXERCISE ANSWER .. Every answer is the one for an empty run that
 * has an address, nothing is written but what the header says, and NULL does not get as far as memcpy or memset. To be linked
 * with --wrap for these two. A read or write at NULL ends the test. */
#include "classes.h"
#include "logs.h"
#include "../../c/sheet_files.h"

void *__real_memcpy(void *to, const void *from, size_t length);
void *__real_memset(void *to, int byte, size_t length);
void *__wrap_memcpy(void *to, const void *from, size_t length);
void *__wrap_memset(void *to, int byte, size_t length);

/* Whether the library is being called, and how often it called the two functions. */
static int inside, calls;

void *__wrap_memcpy(void *to, const void *from, size_t length)
{
    if (inside) {
        calls++;
        expect(to != NULL && from != NULL, "memcpy with NULL", (long)length);
    }
    return __real_memcpy(to, from, length);
}

void *__wrap_memset(void *to, int byte, size_t length)
{
    if (inside) {
        calls++;
        expect(to != NULL, "memset with NULL", (long)length);
    }
    return __real_memset(to, byte, length);
}

/* An empty run that has an address. */
static uint16_t somewhere[8];

static const uint8_t *at_an_address(const uint8_t *sheet)
{
    return sheet ? sheet : (const uint8_t *)somewhere;
}

/* The judge with sheets, route and tries of which some are NULL, beside the same call with an address for each. The settings sheet is that
 * of document 01's board, or NULL. */
static uint64_t judge_by(int with_settings, const uint8_t *exercise, size_t exercise_length, const uint8_t *answer, size_t answer_length,
                         int with_route, int with_tries)
{
    static uint8_t room[NURIMKKOT_ROUTE_SIZE], same[NURIMKKOT_ROUTE_SIZE];
    static uint32_t tries[NURIMKKOT_TRIES], same_tries[NURIMKKOT_TRIES];
    uint64_t numbers[NURIMKKOT_NUMBERS + 2], others[NURIMKKOT_NUMBERS];
    const uint8_t *settings = with_settings ? HOUSE : NULL;
    size_t settings_length = with_settings ? sizeof HOUSE : 0, route_length = with_route ? sizeof room : 0;
    size_t tries_count = with_tries ? NURIMKKOT_TRIES : 0;
    memset(numbers, 0x5a, sizeof numbers);
    memset(room, 0xa5, sizeof room);
    memset(same, 0xa5, sizeof same);
    memset(tries, 0xa5, sizeof tries);
    memset(same_tries, 0xa5, sizeof same_tries);
    inside = 1;
    nurimkkot_judge(settings, settings_length, exercise, exercise_length, answer, answer_length, with_route ? room : NULL, route_length,
                    with_tries ? tries : NULL, tries_count, numbers + 1);
    inside = 0;
    nurimkkot_judge(at_an_address(settings), settings_length, at_an_address(exercise), exercise_length, at_an_address(answer), answer_length,
                    same, route_length, same_tries, tries_count, others);
    expect(memcmp(numbers + 1, others, sizeof others) == 0, "the same numbers as with an address", (long)numbers[1]);
    expect(memcmp(room, same, sizeof same) == 0, "the same route as with an address", (long)numbers[1]);
    expect(memcmp(tries, same_tries, sizeof tries) == 0, "the same tries as with an address", (long)numbers[1]);
    expect(numbers[0] == 0x5a5a5a5a5a5a5a5a && numbers[NURIMKKOT_NUMBERS + 1] == 0x5a5a5a5a5a5a5a5a, "guards around the numbers", 0);
    return numbers[1 + NURIMKKOT_NUMBER];
}

/* The same on document 01's board. No route gives 1, then no tries 3, then no settings sheet 70, before all others. */
static uint64_t judge(const uint8_t *exercise, size_t exercise_length, const uint8_t *answer, size_t answer_length, int with_route)
{
    uint64_t number;
    int with;
    for (with = 0; with < 3; with++) {
        number = judge_by(with & 1, exercise, exercise_length, answer, answer_length, with_route, with >> 1);
        expect(number == (!with_route ? 1 : with < 2 ? 3 : 70), "no tries or no settings sheet", (long)number);
    }
    return judge_by(1, exercise, exercise_length, answer, answer_length, with_route, 1);
}

/* A class with sheets and rows of which some are NULL, beside the same call with an address for each. With rows there are three. */
static uint8_t mark_by(const uint8_t *settings, struct sheet exercise, struct sheet class_sheet, int with_rows, uint32_t *first)
{
    struct nurimkkot_row rows[3], same[3];
    size_t settings_length = settings ? sizeof HOUSE : 0, count = with_rows ? 3 : 0, filled[3], others;
    uint8_t said;
    memset(rows, 0xa5, sizeof rows);
    memset(same, 0xa5, sizeof same);
    memset(filled, 0x5a, sizeof filled);
    inside = 1;
    said = nurimkkot_mark_class(settings, settings_length, exercise.bytes, exercise.length, class_sheet.bytes, class_sheet.length,
                                with_rows ? rows : NULL, count, filled + 1);
    inside = 0;
    expect(said == nurimkkot_mark_class(at_an_address(settings), settings_length, at_an_address(exercise.bytes), exercise.length,
                                        at_an_address(class_sheet.bytes), class_sheet.length, same, count, &others),
           "the same number of a class as with an address", said);
    expect(memcmp(rows, same, sizeof same) == 0, "the same rows as with an address", said);
    expect(filled[1] == others && others <= count, "the same count of rows as with an address", (long)filled[1]);
    expect(filled[0] == filled[2] && filled[0] == (size_t)0x5a5a5a5a5a5a5a5a, "guards around the count of rows", said);
    *first = filled[1] == 0 ? 0 : rows[0].number;
    return said;
}

/* No class sheet, a class of no answers, and a class of one answer, which gets this number, and an empty one; with and without a settings
 * sheet, an exercise and rows. */
static void mark(const uint8_t *exercise, size_t exercise_length, const uint8_t *answer, size_t answer_length, uint64_t number)
{
    static uint8_t two[7 + 2 + ANSWER_ROOM + 2], none[7];
    struct sheet answers[2] = {{NULL, 0}, {NULL, 0}}, exercises[2] = {{NULL, 0}, {NULL, 0}};
    struct sheet classes[3] = {{NULL, 0}, {none, sizeof none}, {two, 0}};
    int which, with;
    answers[0].bytes = answer;
    answers[0].length = answer_length;
    exercises[1].bytes = exercise;
    exercises[1].length = exercise_length;
    put_class(none, answers, 0);
    classes[2].length = put_class(two, answers, 2);
    for (which = 0; which < 3; which++)
        for (with = 0; with < 8; with++) {
            int with_settings = with & 1, with_exercise = with >> 1 & 1, with_rows = with >> 2;
            uint32_t first;
            uint8_t said = mark_by(with_settings ? HOUSE : NULL, exercises[with_exercise], classes[which], with_rows, &first);
            expect(said == (which == 0 ? 76 : which == 2 && !with_rows ? 77 : 0), "the number of a class", said);
            if (which == 2 && with_rows)
                expect(first == (!with_settings ? 70 : !with_exercise ? 10 : number), "the first row of a class", (long)first);
        }
}

/* The minutes on a log, with and without a log, rows and entry numbers, beside the same call with an address for each. */
static void minutes(int with)
{
    static const struct entry entries[2] = {{7, 0, 5, 8, 9}, {7, 0, 5, 5, 9}};
    static struct nurimkkot_credit rows[2][NURIMKKOT_CREDIT_ROWS];
    static uint16_t numbers[2][NURIMKKOT_LOG_ENTRIES];
    uint8_t tablet[NURIMKKOT_LOG_LENGTH(2)], said, wanted = with < 6 ? 87 : with == 6 ? 80 : 0;
    size_t length = put_log(tablet, entries, 2), row_count = with & 2 ? NURIMKKOT_CREDIT_ROWS : 0;
    size_t entry_count = with & 4 ? NURIMKKOT_LOG_ENTRIES : 0, counts[2][2];
    memset(rows, 0xa5, sizeof rows);
    memset(numbers, 0xa5, sizeof numbers);
    memset(counts, 0x5a, sizeof counts);
    length = with & 1 ? length : 0;
    inside = 1;
    said = nurimkkot_minutes(with & 1 ? tablet : NULL, length, with & 2 ? rows[0] : NULL, row_count, with & 4 ? numbers[0] : NULL, entry_count,
                             &counts[0][0], &counts[0][1]);
    inside = 0;
    expect(said == wanted, "the number of a log", said);
    expect(said == nurimkkot_minutes(tablet, length, rows[1], row_count, numbers[1], entry_count, &counts[1][0], &counts[1][1]),
           "the same number of a log as with an address", said);
    expect(memcmp(rows[0], rows[1], sizeof rows[0]) == 0, "the same rows of minutes as with an address", with);
    expect(memcmp(numbers[0], numbers[1], sizeof numbers[0]) == 0, "the same entry numbers as with an address", with);
    expect(counts[0][0] == (with == 7) && counts[0][1] == (with == 7), "how many rows and entry numbers are filled", with);
    expect(memcmp(counts[0], counts[1], sizeof counts[0]) == 0, "the same counts as with an address", with);
}

/* The check of one LAB, with or without a settings sheet and a list. */
static void check(int with_settings, int with_list, uint8_t number)
{
    static const struct nurimkkot_cell list[1] = {{1, 0, {0}}};
    uint8_t route[8], said;
    size_t j;
    for (j = 0; j < 8; j++)
        route[j] = 0xa5;
    inside = 1;
    said = nurimkkot_check_lab(with_settings ? HOUSE : NULL, with_settings ? sizeof HOUSE : 0, with_list ? list : NULL, with_list ? 1 : 0,
                               route);
    inside = 0;
    expect(said == number, "the number of no list or no board", said);
    for (j = 0; j < 8; j++)
        expect(route[j] == NURIMKKOT_NO_ENTRY, "the route bytes of no list or no board", (long)j);
}

/* The reader of a settings sheet. */
static void read_settings(void)
{
    uint16_t numbers[NURIMKKOT_SETTINGS_NUMBERS];
    uint8_t entries[NURIMKKOT_MOST_ENTRIES], said;
    size_t j;
    for (j = 0; j < NURIMKKOT_SETTINGS_NUMBERS; j++)
        numbers[j] = 0x5a5a;
    for (j = 0; j < NURIMKKOT_MOST_ENTRIES; j++)
        entries[j] = 0x5a;
    inside = 1;
    said = nurimkkot_read_settings(NULL, 0, numbers, entries);
    inside = 0;
    expect(said == 70, "reading no settings sheet", said);
    for (j = 0; j < NURIMKKOT_SETTINGS_NUMBERS; j++)
        expect(numbers[j] == 0, "numbers of no settings sheet", (long)j);
    for (j = 0; j < NURIMKKOT_MOST_ENTRIES; j++)
        expect(entries[j] == 0, "entries of no settings sheet", (long)j);
}

/* The readers of the other sheets. */
static void forms(void)
{
    static const uint16_t numbers[] = {0, 1, 511, 512, 65535};
    uint16_t fields[NURIMKKOT_CELL_FIELDS], at;
    struct nurimkkot_cell cell;
    uint8_t said;
    size_t i, j;
    inside = 1;
    expect(nurimkkot_open_exercise(NULL, 0) == 10, "opening no exercise", 10);
    expect(nurimkkot_open_answer(NULL, 0) == 20, "opening no answer", 20);
    for (i = 0; i < sizeof numbers / sizeof numbers[0]; i++) {
        for (j = 0; j < NURIMKKOT_CELL_FIELDS; j++)
            fields[j] = 0x5a5a;
        at = numbers[i];
        said = nurimkkot_next_cell(NULL, 0, &at, fields);
        expect(said == NURIMKKOT_END && at == numbers[i], "the next cell of no exercise", at);
        for (j = 0; j < NURIMKKOT_CELL_FIELDS; j++)
            expect(fields[j] == 0, "fields of no cell", (long)j);
        cell.kind = cell.flag = 0x5a;
        for (j = 0; j < 11; j++)
            cell.signals[j] = 0x5a5a;
        said = nurimkkot_next_record(NULL, 0, &at, &cell);
        expect(said == NURIMKKOT_END && at == numbers[i], "the next record of no exercise", at);
        expect(cell.kind == 0 && cell.flag == 0, "kind and flag of no record", at);
        for (j = 0; j < 11; j++)
            expect(cell.signals[j] == 0, "signals of no record", (long)j);
        for (j = 0; j < NURIMKKOT_PLACE_FIELDS; j++)
            fields[j] = 0x5a5a;
        said = nurimkkot_next_place(NULL, 0, &at, fields);
        expect(said == NURIMKKOT_END && at == numbers[i], "the next place of no answer", at);
        for (j = 0; j < NURIMKKOT_PLACE_FIELDS; j++)
            expect(fields[j] == 0, "fields of no place", (long)j);
    }
    inside = 0;
}

/* One of the writers of the other sheets, with no records or no sheet or neither, beside the same call with an address for each. `head` is
 * the net count or the apprentice, and two records are at hand. */
static void writer(const char *what, int of_answer, uint32_t head, int with_records, int with_sheet, size_t room, uint8_t number)
{
    static const struct nurimkkot_cell cells[2] = {{1, 0, {0}}, {2, 0, {0}}};
    static const uint16_t places[6] = {1, 2, 3, 4, 5, 6};
    uint8_t sheet[64], same[64];
    size_t lengths[2], count = with_records ? 2 : 0, i;
    size_t needed = of_answer ? NURIMKKOT_ANSWER_LENGTH(count) : NURIMKKOT_EXERCISE_LENGTH(count);
    uint8_t said, others;
    memset(sheet, 0xa5, sizeof sheet);
    memset(same, 0xa5, sizeof same);
    memset(lengths, 0x5a, sizeof lengths);
    inside = 1;
    said = of_answer ? nurimkkot_write_answer(head, with_records ? places : NULL, count, with_sheet ? sheet : NULL, room, lengths)
                     : nurimkkot_write_exercise((uint16_t)head, with_records ? cells : NULL, count, with_sheet ? sheet : NULL, room, lengths);
    inside = 0;
    others = of_answer ? nurimkkot_write_answer(head, places, count, same, room, lengths + 1)
                       : nurimkkot_write_exercise((uint16_t)head, cells, count, same, room, lengths + 1);
    expect(said == number && others == number, what, said);
    expect(lengths[0] == (number == 0 ? needed : 0), what, (long)lengths[0]);
    expect(lengths[0] == lengths[1], "the same length as with an address", (long)lengths[1]);
    expect(memcmp(sheet, same, sizeof sheet) == 0, "the same sheet as with an address", (long)room);
    for (i = lengths[0]; i < sizeof sheet; i++)
        expect(sheet[i] == 0xa5, "a byte that is not the sheet's", (long)i);
}

/* The writer of a settings sheet in the same way. */
static void settings_writer(const char *what, uint16_t version, uint16_t board, int with_entries, int with_sheet, size_t room, uint8_t number)
{
    static const uint8_t entries[2] = {1, 2};
    uint8_t sheet[64], same[64], said, others;
    size_t lengths[2], count = with_entries ? 2 : 0, i;
    memset(sheet, 0xa5, sizeof sheet);
    memset(same, 0xa5, sizeof same);
    memset(lengths, 0x5a, sizeof lengths);
    inside = 1;
    said = nurimkkot_write_settings(version, board, with_entries ? entries : NULL, count, with_sheet ? sheet : NULL, room, lengths);
    inside = 0;
    others = nurimkkot_write_settings(version, board, entries, count, same, room, lengths + 1);
    expect(said == number && others == number, what, said);
    expect(lengths[0] == (number == 0 ? NURIMKKOT_SETTINGS_LENGTH(version, count) : 0), what, (long)lengths[0]);
    expect(lengths[0] == lengths[1], "the same length as with an address", (long)lengths[1]);
    expect(memcmp(sheet, same, sizeof sheet) == 0, "the same sheet as with an address", (long)room);
    for (i = lengths[0]; i < sizeof sheet; i++)
        expect(sheet[i] == 0xa5, "a byte that is not the sheet's", (long)i);
}

static void settings_writers(void)
{
    uint16_t version;
    for (version = 1; version <= 2; version++) {
        size_t head = version == 1 ? 6 : 8;
        settings_writer("no entries", version, 0, 0, 1, head, 0);
        settings_writer("no entries, a longer buffer", version, 0, 0, 1, 64, 0);
        settings_writer("no entries, a byte short", version, 0, 0, 1, head - 1, 2);
        settings_writer("no entries, no buffer", version, 0, 0, 0, 0, 2);
        settings_writer("no buffer for entries", version, 0, 1, 0, 0, 2);
    }
    settings_writer("version 3, no entries, no buffer", 3, 0, 0, 0, 0, 72);
    settings_writer("board 1 in version 1, no entries, no buffer", 1, 1, 0, 0, 0, 72);
}

/* The writers of the other sheets. */
static void writers(void)
{
    int of_answer;
    for (of_answer = 0; of_answer < 2; of_answer++) {
        size_t head = of_answer ? 11 : 9;
        writer("no records", of_answer, 7, 0, 1, head, 0);
        writer("no records, a longer buffer", of_answer, 7, 0, 1, 64, 0);
        writer("no records, a byte short", of_answer, 7, 0, 1, head - 1, 2);
        writer("no records, no buffer", of_answer, 7, 0, 0, 0, 2);
        writer("no buffer", of_answer, 7, 1, 0, 0, 2);
    }
    writer("no records, 1024 nets", 0, 1024, 0, 1, 9, 0);
    writer("no records, 1025 nets", 0, 1025, 0, 1, 9, 13);
    writer("no records, 1025 nets, no buffer", 0, 1025, 0, 0, 0, 2);
    writer("no records, apprentice 0", 1, 0, 0, 1, 11, 23);
    writer("no records, apprentice 0, no buffer", 1, 0, 0, 0, 0, 2);
}

int main(int argc, char **argv)
{
    static uint8_t exercise[EXERCISE_ROOM], answer[ANSWER_ROOM];
    int pair, pairs = 0, empty_answers = 0, with;
    uint64_t number;
    expect(judge(NULL, 0, NULL, 0, 0) == 1, "nothing at all", 1);
    expect(judge(NULL, 0, NULL, 0, 1) == 10, "no sheets", 10);
    for (pair = 1; pair + 1 < argc; pair += 2) {
        size_t exercise_length = read_file(argv[pair], 1, exercise, sizeof exercise);
        size_t answer_length = read_file(argv[pair + 1], 1, answer, sizeof answer);
        expect(judge(exercise, exercise_length, answer, answer_length, 0) == 1, argv[pair + 1], 1);
        expect(judge(NULL, 0, answer, answer_length, 0) == 1, argv[pair + 1], 1);
        expect(judge(exercise, exercise_length, NULL, 0, 0) == 1, argv[pair + 1], 1);
        expect(judge(NULL, 0, answer, answer_length, 1) == 10, argv[pair + 1], 10);
        number = judge(exercise, exercise_length, NULL, 0, 1);
        expect(number >= 10 && number <= 20, argv[pair], (long)number);
        empty_answers += number == 20;
        number = judge(exercise, exercise_length, answer, answer_length, 1);
        mark(exercise, exercise_length, answer, answer_length, number);
        pairs++;
    }
    expect(pairs > 0 && empty_answers > 0 && empty_answers < pairs, "sheets of both sorts", pairs);
    for (with = 0; with < 8; with++)
        minutes(with);
    check(1, 0, 0);
    check(0, 0, 70);
    check(0, 1, 70);
    read_settings();
    forms();
    settings_writers();
    writers();
    expect(calls > 0, "memcpy and memset were watched", calls);
    if (failures == 0)
        printf("C: NULL with length 0 is an empty sheet, log, route, list, buffer or run of rows or of tries, beside %d pairs of sheets\n",
               pairs);
    return failures != 0;
}
